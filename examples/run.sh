#!/bin/sh
# Builds the archive of the board and the examples, runs them, and compares what they print with six.out.
#
#   examples/run.sh          the C and the Python example
#   examples/run.sh stack    the stack that each function needs
#
# BOARD_LIB names an archive to use; without it one is made of the crate board_c. CC and PYTHON name other programs than cc and python3.
set -eu

case "$# ${1:-}" in
'0 ' | '1 stack') ;;
*)
    echo "usage: examples/run.sh [stack]" >&2
    exit 2
    ;;
esac

CC=${CC:-cc}
PYTHON=${PYTHON:-python3}

case ${BOARD_LIB:-} in
'' | /*) ;;
*) BOARD_LIB=$PWD/$BOARD_LIB ;;
esac
CDPATH='' cd -- "$(dirname -- "$0")/.."
if [ -z "${BOARD_LIB:-}" ]; then
    (cd crates/board_c && rt lib >&2)
    mkdir -p target/staticlib
    cp crates/board_c/out/libboard_c.a target/staticlib/libboard.a
    BOARD_LIB=target/staticlib/libboard.a
fi
mkdir -p target/examples

build() {
    $CC -std=c99 -O2 -Wall -Wextra -Iinclude -o "target/examples/$1" "examples/$1.c" "$BOARD_LIB" -Wl,-z,now
}

if [ "${1:-}" = stack ]; then
    build stack
    exec target/examples/stack
fi

compare() {
    if ! cmp -s "target/examples/$1.out" examples/six.out; then
        echo "examples: $1 does not print examples/six.out" >&2
        diff examples/six.out "target/examples/$1.out" >&2 || true
        exit 1
    fi
}

build six
$CC -shared -o target/examples/libboard.so -Wl,--whole-archive "$BOARD_LIB" -Wl,--no-whole-archive

target/examples/six > target/examples/c.out
compare c
"$PYTHON" examples/six.py target/examples/libboard.so > target/examples/python.out
compare python
echo "examples: 2 passed"
