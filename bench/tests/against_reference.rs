//! The optimised side against the reference implementation: random nets and
//! calls, damaged images, every refusal, the worked examples.

use bench::job::Job;
use bench::nets::{self, Call, Description};
use bench::optimised;
use bench::random::Random;
use bench::verify;
use bench::workloads;
use reference::{examples, frames, suggestions, Machine, Net};
use std::collections::BTreeSet;

/// Stands in an output before the call.
const UNTOUCHED: u8 = 165;

/// Value and output of a function that was given `room` bytes.
type Outcome = (u64, Vec<u8>);

fn outcome(room: usize, function: impl FnOnce(&mut [u8]) -> u64) -> Outcome {
    let mut out = vec![UNTOUCHED; room];
    (function(&mut out), out)
}

/// What the interface asks for, by the reference.
mod expected {
    use super::*;

    pub fn compose(capacities: &[u8], relations: &[u8], out: &mut [u8]) -> u64 {
        match reference::compose(capacities, relations, out) {
            Ok(length) => length as u64,
            Err(refusal) => u64::from(refusal),
        }
    }

    pub fn check(image: &[u8]) -> u64 {
        reference::load(image).map_or_else(u64::from, |_| 0)
    }

    pub fn list(image: &[u8], out: &mut [u8]) -> u64 {
        match reference::load(image) {
            Err(refusal) => u64::from(refusal),
            Ok((net, _)) => {
                let mut bytes = vec![net.contexts() as u8, net.relations().len() as u8];
                bytes.extend(net.capacities());
                bytes.extend(net.relation_bytes());
                write_all(&bytes, out)
            }
        }
    }

    pub fn run(image: &[u8], calls: &[u8], out: &mut [u8]) -> u64 {
        let net = reference::load(image).map_or_else(|_| Net::empty(), |(net, _)| net);
        let mut machine = Machine::fresh(net);
        let mut bytes = Vec::new();
        for triple in calls.chunks(3) {
            let Some(call) = read_call(triple) else {
                return 0;
            };
            let answer = machine.call(call);
            bytes.push(answer.verdict);
            bytes.extend(answer.firings.to_le_bytes());
            bytes.extend(answer.forced.to_le_bytes());
        }
        bytes.extend(machine.counts());
        let totals = machine.totals();
        for total in [totals.granted, totals.refused, totals.undone] {
            bytes.extend(total.to_le_bytes());
        }
        write_all(&bytes, out)
    }

    fn read_call(triple: &[u8]) -> Option<reference::Call> {
        let &[kind, low, high] = triple else {
            return None;
        };
        let context = usize::from(u16::from_le_bytes([low, high]));
        match kind {
            0 => Some(reference::Call::Activate(context)),
            1 => Some(reference::Call::Deactivate(context)),
            2 => Some(reference::Call::Undo),
            3 => Some(reference::Call::Settle),
            _ => None,
        }
    }

    fn write_all(bytes: &[u8], out: &mut [u8]) -> u64 {
        match out.get_mut(..bytes.len()) {
            None => 0,
            Some(front) => {
                front.copy_from_slice(bytes);
                bytes.len() as u64
            }
        }
    }
}

/// Does the job both ways and returns its value.
fn compare(job: &Job, room: usize, place: &str) -> u64 {
    let (ours, theirs) = match job {
        Job::Compose {
            capacities,
            relations,
        } => (
            outcome(room, |out| optimised::compose(capacities, relations, out)),
            outcome(room, |out| expected::compose(capacities, relations, out)),
        ),
        Job::Check { image } => (
            outcome(0, |_| u64::from(optimised::check(image))),
            outcome(0, |_| expected::check(image)),
        ),
        Job::List { image } => (
            outcome(room, |out| optimised::list(image, out)),
            outcome(room, |out| expected::list(image, out)),
        ),
        Job::Run { image, calls } => {
            let ours = outcome(room, |out| optimised::run(image, calls, out));
            let sparse = outcome(room, |out| optimised::run_sparse(image, calls, out));
            assert!(ours == sparse, "{place}: the two walks");
            (ours, outcome(room, |out| expected::run(image, calls, out)))
        }
    };
    assert_eq!(ours.0, theirs.0, "{place}: value of {}", job.name());
    assert!(ours.1 == theirs.1, "{place}: output of {}", job.name());
    ours.0
}

fn compare_at_full_room(job: &Job, place: &str) -> u64 {
    compare(job, job.room(), place)
}

/// Verdict, firings, forced firings.
type Answer = (u8, u16, u16);

fn answers_in(bytes: &[u8]) -> impl Iterator<Item = Answer> + '_ {
    bytes.chunks_exact(nets::ANSWER_LEN).map(|answer| {
        let pair = |at| u16::from_le_bytes([answer[at], answer[at + 1]]);
        (answer[0], pair(1), pair(3))
    })
}

/// The answers of a list of calls, compared; then the counts.
fn answers(net: &Description, calls: &[Call]) -> (Vec<Answer>, Vec<u8>) {
    let image = net.image();
    let calls = nets::call_bytes(calls);
    let job = Job::Run {
        image: image.clone(),
        calls: calls.clone(),
    };
    let length = compare_at_full_room(&job, "answers") as usize;
    let mut out = vec![0; length];
    assert_eq!(optimised::run(&image, &calls, &mut out), length as u64);
    let (answers, rest) = out.split_at(nets::answers_len(&calls));
    let counts = rest[..net.capacities.len()].to_vec();
    (answers_in(answers).collect(), counts)
}

fn six(calls: &[i32]) -> (Vec<Answer>, Vec<u8>) {
    answers(&nets::six_conditions(), &signed(calls))
}

/// c for an activation, -1 - c for a deactivation.
fn signed(calls: &[i32]) -> Vec<Call> {
    let one = |&call: &i32| match u16::try_from(call) {
        Ok(context) => Call::Activate(context),
        Err(_) => Call::Deactivate((-1 - call) as u16),
    };
    calls.iter().map(one).collect()
}

fn off(context: i32) -> i32 {
    -1 - context
}

#[test]
fn random_nets_and_calls_agree() {
    for seed in 0..4_000 {
        for (job, room) in verify::random_jobs(&mut Random::new(seed)) {
            compare(&job, room, &format!("net {seed}"));
        }
    }
}

#[test]
fn the_references_own_random_nets_agree() {
    for seed in 0..1_000 {
        let mut rng = reference::random::Xorshift::new(seed);
        let description = reference::random::description(&mut rng);
        let net = translated(&description);
        let calls: Vec<Call> = reference::random::calls(&mut rng, &description, 60)
            .into_iter()
            .map(translated_call)
            .collect();
        answers(&net, &calls);
    }
}

fn translated(description: &examples::Description) -> Description {
    Description {
        capacities: description.capacities.clone(),
        relations: description.relations.clone(),
    }
}

fn translated_call(call: reference::Call) -> Call {
    match call {
        reference::Call::Activate(context) => Call::Activate(context as u16),
        reference::Call::Deactivate(context) => Call::Deactivate(context as u16),
        reference::Call::Undo => Call::Undo,
        reference::Call::Settle => Call::Settle,
    }
}

#[test]
fn workloads_agree() {
    for name in workloads::names() {
        let workload = workloads::named(name).expect("a known name");
        for job in &workload.jobs {
            compare_at_full_room(job, name);
        }
    }
}

/// The board is full at the end as it was after the filling, and calls of
/// all sorts were among them.
#[test]
fn the_full_board_is_full() {
    let workload = workloads::named("full-board").expect("a known name");
    let [job @ Job::Run { calls, .. }] = &workload.jobs[..] else {
        panic!("one list of calls");
    };
    let (_, out) = outcome(job.written(), |out| {
        job.perform(&bench::side::OPTIMISED, out)
    });
    let capacities = nets::full_board().capacities;
    let (answers, rest) = out.split_at(nets::answers_len(calls));
    let counts = &rest[..48];
    assert_eq!(counts[..47], capacities[..47]);
    assert_eq!(counts[47], capacities[47] - 1);
    let verdicts: BTreeSet<u8> = answers_in(answers).map(|(verdict, ..)| verdict).collect();
    assert_eq!(verdicts, BTreeSet::from([0, 12]));
}

#[test]
fn random_jobs_meet_every_value() {
    let mut composing = BTreeSet::new();
    let mut loading = BTreeSet::new();
    let mut answering = BTreeSet::new();
    let mut forcing = BTreeSet::new();
    for seed in 0..4_000 {
        for (job, room) in verify::random_jobs(&mut Random::new(seed)) {
            let (value, out) = match &job {
                Job::Compose {
                    capacities,
                    relations,
                } => outcome(room, |out| optimised::compose(capacities, relations, out)),
                Job::Check { image } => outcome(0, |_| u64::from(optimised::check(image))),
                Job::List { .. } => continue,
                Job::Run { image, calls } => outcome(room, |out| optimised::run(image, calls, out)),
            };
            match &job {
                Job::Compose { .. } => drop(composing.insert(value.min(100))),
                Job::Check { .. } => drop(loading.insert(value)),
                Job::Run { calls, .. } if value > 0 => {
                    for (verdict, _, forced) in answers_in(&out[..nets::answers_len(calls)]) {
                        answering.insert(verdict);
                        if forced > 0 {
                            forcing.insert(verdict);
                        }
                    }
                }
                _ => (),
            }
        }
    }
    assert_eq!(composing, BTreeSet::from([3, 5, 6, 7, 8, 100]));
    assert_eq!(loading, BTreeSet::from([0, 1, 2, 3, 4, 5, 6, 7, 9]));
    assert_eq!(answering, BTreeSet::from([0, 10, 11, 12, 13, 14, 15]));
    assert_eq!(forcing, BTreeSet::from([0, 11, 12, 15]));
}

fn check_value(image: &[u8]) -> u64 {
    let image = image.to_vec();
    compare_at_full_room(&Job::Check { image }, "check")
}

/// Two bits of every byte turned, every length up to the image's and beyond,
/// every value of each trailer byte.
#[test]
fn every_damage_to_an_image_agrees() {
    for net in [nets::six_conditions(), Description::new(&[7], &[])] {
        let image = net.image();
        for at in 0..image.len() {
            for bit in [0, 7] {
                let mut damaged = image.clone();
                damaged[at] ^= 1 << bit;
                check_value(&damaged);
            }
            check_value(&image[..at]);
        }
        for at in image.len() - 8..image.len() {
            for value in 0..=255 {
                let mut damaged = image.clone();
                damaged[at] = value;
                check_value(&damaged);
            }
        }
        let mut longer = image.clone();
        longer.insert(0, 1);
        check_value(&longer);
        longer.push(0);
        check_value(&longer);
    }
}

#[test]
fn every_record_byte_of_the_largest_image_counts() {
    let image = nets::largest().image();
    assert_eq!(check_value(&image), 0);
    for at in 48 + 288..image.len() - 8 {
        let mut damaged = image.clone();
        damaged[at] ^= 1 << (at % 8);
        assert_eq!(optimised::check(&damaged), 9, "byte {at}");
    }
}

#[test]
fn a_record_too_many_or_too_few_is_refused() {
    for net in [nets::six_conditions(), nets::largest(), nets::full_board()] {
        for more in [false, true] {
            let mut image = net.image();
            verify::change_record_count(&mut image, net.relations.len() / 3, more);
            assert_eq!(check_value(&image), 9);
        }
    }
}

/// A capacity or relation that is damaged so that a later refusal applies too.
#[test]
fn refusals_keep_their_order() {
    let compose = |capacities: &[u8], relations: &[u8], room: usize| {
        let job = Job::Compose {
            capacities: capacities.to_vec(),
            relations: relations.to_vec(),
        };
        compare(&job, room, "order")
    };
    let repeated_then_bad = [1, 0, 1, 1, 1, 0, 6, 0, 1];
    assert_eq!(compose(&[], &repeated_then_bad, 0), 3);
    assert_eq!(compose(&[0; 49], &repeated_then_bad, 0), 3);
    assert_eq!(compose(&[0, 1], &repeated_then_bad[..8], 0), 3);
    assert_eq!(compose(&[0, 1], &[9; 3 * 97], 0), 3);
    assert_eq!(compose(&[0, 1], &repeated_then_bad, 0), 5);
    assert_eq!(compose(&[1, 1], &repeated_then_bad, 0), 6);
    assert_eq!(compose(&[1, 1], &repeated_then_bad[..6], 0), 7);
    assert_eq!(compose(&[1, 1], &repeated_then_bad[..3], 208), 8);
    assert_eq!(compose(&[1, 1], &repeated_then_bad[..3], 209), 209);
    assert_eq!(compose(&[7], &[], 107), 107);
    assert_eq!(compose(&[7], &[], 106), 8);
}

/// The cases of the six conditions.
#[test]
fn the_six_conditions_cases() {
    let last = |calls: &[i32]| *six(calls).0.last().expect("an answer");
    let counts = |calls: &[i32]| six(calls).1;
    assert_eq!(last(&[1]), (12, 0, 0));
    assert_eq!(six(&[0, 0]).0, [(0, 1, 0), (12, 0, 0)]);
    assert_eq!(last(&[3]), (0, 3, 0));
    assert_eq!(counts(&[3]), [0, 0, 1, 1, 0, 1]);
    assert_eq!(last(&[3, off(2)]), (0, 3, 1));
    assert_eq!(counts(&[3, off(2)]), [0; 6]);
    assert_eq!(last(&[3, off(5), off(3)]), (0, 3, 0));
    assert_eq!(counts(&[3, off(5), off(3)]), [0; 6]);
    assert_eq!(last(&[3, 3, off(2)]), (0, 1, 0));
    assert_eq!(counts(&[3, 3, off(2)])[3], 2);
    assert_eq!(last(&[3, 3, off(2), off(2)]), (0, 5, 2));
    assert_eq!(counts(&[3, 3, off(2), off(2)]), [0; 6]);
    assert_eq!(last(&[0, 4, 3]), (12, 2, 0));
    assert_eq!(counts(&[0, 4, 3]), [1, 0, 0, 0, 1, 0]);
    assert_eq!(last(&[off(5)]), (14, 0, 0));
    assert_eq!(last(&[off(2)]), (14, 0, 0));
    assert_eq!(last(&[3, off(5), off(5)]), (14, 0, 0));
    assert_eq!(last(&[off(6)]), (10, 0, 0));
}

/// Net by net, with the lines that were worked out by hand.
#[test]
fn suggestions_agree() {
    for scenario in suggestions::scenarios() {
        let calls: Vec<Call> = frames::script(&scenario.calls())
            .into_iter()
            .map(translated_call)
            .collect();
        let net = translated(&scenario.description);
        for (i, (_, line)) in scenario.lines.iter().enumerate() {
            let (answers, counts) = answers(&net, &calls[..=i]);
            let (verdict, firings, forced) = answers[i];
            let mut listed = format!("{verdict} {firings} {forced}");
            for count in &counts {
                listed += &format!(" {count}");
            }
            assert_eq!(listed, *line, "{}", scenario.name);
        }
    }
}

#[test]
fn refused_steps_tell_what_they_forced() {
    let net = translated(&examples::forced_in_vain([1; 3]));
    let (answers, counts) = answers(&net, &signed(&[1, off(2)]));
    assert_eq!(answers, [(0, 3, 0), (12, 3, 2)]);
    assert_eq!(counts, [1; 3]);
}

/// One firing below the limit, at it and above it.
#[test]
fn forced_firings_count_up_to_the_limit() {
    let last = |more: usize| {
        let mut calls = vec![Call::Activate(0)];
        calls.extend(vec![Call::Activate(1); 89]);
        calls.extend(vec![Call::Activate(2); more]);
        calls.push(Call::Deactivate(0));
        let (answers, _) = answers(&translated(&examples::held_up()), &calls);
        *answers.last().expect("an answer")
    };
    assert_eq!(last(0), (0, 4095, 4094));
    assert_eq!(last(1), (0, 4096, 4095));
    assert_eq!(last(2), (11, 4096, 4095));
}

#[test]
fn rings_meet_the_limit() {
    let ring = |n| answers(&nets::ring_of_implications(n), &[Call::Activate(3)]).0;
    assert_eq!(ring(16), [(12, 4080, 0)]);
    assert_eq!(ring(17), [(11, 4096, 0)]);
}

/// A step that is quiet after exactly 4,096 firings is granted.
#[test]
fn the_limit_itself_is_not_refused() {
    let doubling = |leaves| {
        let net = translated(&examples::doubling(leaves));
        answers(&net, &[Call::Activate(0)]).0
    };
    assert_eq!(doubling(0), [(0, 4095, 0)]);
    assert_eq!(doubling(1), [(0, 4096, 0)]);
    assert_eq!(doubling(2), [(11, 4096, 0)]);
}

#[test]
fn undo_reaches_back_32_requests() {
    let mut calls = vec![Call::Activate(0); 33];
    calls.extend([Call::Undo; 33]);
    let (answers, counts) = answers(&Description::new(&[255], &[]), &calls);
    assert!(answers[..33].iter().all(|&answer| answer == (0, 1, 0)));
    assert!(answers[33..65].iter().all(|&answer| answer == (0, 0, 0)));
    assert_eq!(answers[65], (13, 0, 0));
    assert_eq!(counts, [1]);
}

#[test]
fn a_refused_image_is_the_empty_net() {
    let calls = nets::call_bytes(&[Call::Activate(0), Call::Undo, Call::Settle]);
    let mut out = [UNTOUCHED; 32];
    assert_eq!(optimised::run(&[], &calls, &mut out), 27);
    assert_eq!(out[..15], [10, 0, 0, 0, 0, 13, 0, 0, 0, 0, 0, 0, 0, 0, 0]);
    assert_eq!(out[15..27], [0, 0, 0, 0, 2, 0, 0, 0, 0, 0, 0, 0]);
    assert_eq!(out[27..], [UNTOUCHED; 5]);
}

#[test]
fn calls_that_are_none_write_nothing() {
    let image = nets::six_conditions().image();
    let whole = nets::call_bytes(&[Call::Activate(0), Call::Undo]);
    let needed = 2 * 5 + 6 + 12;
    for room in 0..=needed {
        let (value, out) = outcome(room, |out| optimised::run(&image, &whole, out));
        let enough = room == needed;
        assert_eq!(value, if enough { needed as u64 } else { 0 });
        assert_eq!(out.iter().all(|&byte| byte == UNTOUCHED), !enough);
    }
    for broken in [&whole[..5], &whole[..4], &[4, 0, 0], &[0, 0, 0, 255, 0, 0]] {
        let (value, out) = outcome(100, |out| optimised::run(&image, broken, out));
        assert_eq!((value, out), (0, vec![UNTOUCHED; 100]));
    }
}
