#!/bin/sh
# Counts instructions per unit of each workload on each side, by valgrind:
#     callgrind.sh [WORKLOAD...]
# Counts with the program as it was last built (cargo build --release, with or
# without --features board). Behind the counts stand those of the first side
# in proportion to each other one's.
set -eu
cd "$(dirname "$0")"
program=target/release/bench
if [ ! -x "$program" ]; then
    echo "no $program: build it first" >&2
    exit 1
fi

# All instructions of a run, set-up included.
instructions() { # SIDE WORKLOAD REPEATS
    log=$(valgrind --tool=callgrind --callgrind-out-file=/dev/null \
        "$program" only "$1" "$2" "$3" 2>&1 >/dev/null)
    printf '%s\n' "$log" | sed -n 's/.*Collected : \([0-9]*\).*/\1/p'
}

# An image takes few instructions, so it needs more repeats.
repeats_for() { # UNIT
    case $1 in
        image) echo 100 ;;
        *) echo 2 ;;
    esac
}

# The difference to a run without repeats leaves set-up out.
per_unit() { # SIDE WORKLOAD UNIT UNITS
    repeats=$(repeats_for "$3")
    with=$(instructions "$1" "$2" "$repeats")
    without=$(instructions "$1" "$2" 0)
    awk -v with="$with" -v without="$without" -v units="$(($4 * repeats))" \
        'BEGIN { printf "%.1f", (with - without) / units }'
}

# The first count in proportion to each other one.
ratios() { # COUNT...
    awk 'BEGIN { for (i = 2; i < ARGC; i++) printf "%18.2f", ARGV[1] / ARGV[i] }' "$@"
}

is_wanted() { # WORKLOAD
    case " $asked " in
        "  " | *" $1 "*) return 0 ;;
        *) return 1 ;;
    esac
}

heading() {
    printf '%-14s%-7s' workload unit
    for side in $sides; do printf '%12s' "$side"; done
    first=${sides%%[!a-z]*}
    for side in $sides; do
        [ "$side" = "$first" ] || printf '%18s' "$first/$side"
    done
    printf '\n'
}

asked="$*"
sides=$("$program" sides)
heading
"$program" workloads | while read -r workload unit units; do
    is_wanted "$workload" || continue
    printf '%-14s%-7s' "$workload" "$unit"
    counts=
    for side in $sides; do
        count=$(per_unit "$side" "$workload" "$unit" "$units")
        printf '%12s' "$count"
        counts="$counts $count"
    done
    # shellcheck disable=SC2086 # one word for each count
    ratios $counts
    printf '\n'
done
