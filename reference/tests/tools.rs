//! The streams and listings, and the replay of random histories.

use reference::examples::{forced_in_vain, single, six_conditions};
use reference::hash::hash;
use reference::random::{self, Xorshift};
use reference::{compose, compose_cases, frames, load, reports, streams};
use reference::{Call, Machine};

#[test]
fn streams_read_back_as_written() {
    let bytes = compose_cases::stream();
    let cases = streams::read_cases(&bytes).unwrap();
    assert_eq!(cases, compose_cases::cases());
    assert!(streams::read_cases(&bytes[..bytes.len() - 1]).is_none());

    let bytes = frames::stream(7, 5, 9);
    let read = streams::read_frames(&bytes).unwrap();
    let fixed = frames::fixed();
    assert_eq!(read[..fixed.len()], fixed);
    assert_eq!(read.len(), fixed.len() + 5);
    assert!(read[fixed.len()..]
        .iter()
        .all(|frame| frame.calls.len() == 9));
    assert_eq!(bytes, frames::stream(7, 5, 9));
    assert_ne!(bytes, frames::stream(8, 5, 9));
}

#[test]
fn compose_cases_keep_their_bounds_and_meet_every_refusal() {
    let mut met = [0; 9];
    for case in compose_cases::cases() {
        let (capacities, relations) = (case.description.capacities, case.description.relations);
        assert!(capacities.len() <= 200 && relations.len() <= 600 && case.room <= 12_000);
        let mut out = vec![0; usize::from(case.room)];
        let verdict = compose(&capacities, &relations, &mut out).err();
        met[usize::from(verdict.unwrap_or(0))] += 1;
    }
    for refusal in [0, 3, 5, 6, 7, 8] {
        assert!(met[refusal] > 0, "no case meets {refusal}");
    }
}

#[test]
fn load_listing_has_its_form() {
    let image = single(7).image().unwrap();
    let mut text = String::new();
    reports::load_cases(&image, &mut text);
    let lines: Vec<&str> = text.lines().collect();
    // 107 positions: 214 and 107 characters; then 4; then 8 blocks of 256.
    let lengths: Vec<usize> = lines[1..].iter().map(|line| line.len()).collect();
    let mut expected = vec![64, 64, 64, 22, 64, 43, 4];
    expected.extend([64; 32]);
    assert_eq!(lengths, expected);
    assert!(lines[0].starts_with("0 1 0 98 "));
    // The capacity may be 6 and 135; a record byte may not change at all.
    assert!(lines[1].starts_with("0099"));
    // Behind a 1, the shifted trailer has r, which is 0, in the place of n.
    assert_eq!(lines[7], "4234");
    // A single accepted value for each trailer byte.
    let accepted = lines[8..].concat().matches('0').count();
    assert_eq!(accepted, 8);

    let mut of_nothing = String::new();
    reports::load_cases(&[], &mut of_nothing);
    assert_eq!(of_nothing, "1 0 0 0 0\n1111\n");
}

#[test]
fn conformance_listing_has_its_form() {
    let mut text = String::new();
    let frame = streams::Frame {
        description: six_conditions(),
        damages: Vec::new(),
        calls: frames::script("+3 -2 u u u"),
        verbose: true,
    };
    reports::conformance(&frame, &mut text);
    let lines: Vec<&str> = text.lines().collect();
    assert_eq!(lines.len(), 7);
    assert!(lines[0].starts_with("0 0 6 5 784 "));
    assert_eq!(lines[1], "0 3 0 0 0 1 1 0 1");
    assert_eq!(lines[2], "0 3 1 0 0 0 0 0 0");
    assert_eq!(lines[3], "0 0 0 0 0 1 1 0 1");
    assert_eq!(lines[4], "0 0 0 0 0 0 0 0 0");
    assert_eq!(lines[5], "13 0 0 0 0 0 0 0 0");
    assert!(lines[6].ends_with(" 2 1 2"));
}

#[test]
fn the_hash_takes_each_answer_in_order() {
    let mut text = String::new();
    let frame = streams::Frame {
        description: forced_in_vain([1; 3]),
        damages: Vec::new(),
        calls: frames::script("+1 -2"),
        verbose: false,
    };
    reports::conformance(&frame, &mut text);
    // Verdict, firings, forced ones, counts, totals.
    let granted = [0, 3, 0, 0, 0, 1, 1, 1, 1, 0, 0, 0, 0, 0, 0, 0, 0, 0, 0, 0];
    let refused = [12, 3, 0, 2, 0, 1, 1, 1, 1, 0, 0, 0, 1, 0, 0, 0, 0, 0, 0, 0];
    let expected = format!("{} 1 1 0", hash(&[granted, refused].concat()));
    assert_eq!(text.lines().last(), Some(expected.as_str()));
}

/// What random frames alone would seldom or never bring.
#[test]
fn fixed_frames_force_in_steps_with_every_end() {
    let mut most = [0; 16];
    for frame in frames::fixed() {
        let Ok(image) = frame.description.image() else {
            continue;
        };
        let (net, _) = load(&image).unwrap();
        let mut machine = Machine::fresh(net);
        for call in frame.calls {
            let answer = machine.call(call);
            let forced = &mut most[usize::from(answer.verdict)];
            *forced = answer.forced.max(*forced);
        }
    }
    assert_eq!((most[0], most[11], most[12]), (4095, 4095, 4));
    assert_eq!(most[15], 1);
    // No other answer follows a step.
    assert!([10, 13, 14].into_iter().all(|verdict| most[verdict] == 0));
}

/// Demand 3: the history of a list of calls replays to the same counts.
#[test]
fn histories_replay() {
    let mut rng = Xorshift::new(3);
    for _ in 0..60 {
        let description = random::description(&mut rng);
        let (net, _) = load(&description.image().unwrap()).unwrap();
        let mut machine = Machine::fresh(net.clone());
        let mut history: Vec<Call> = Vec::new();
        for call in random::calls(&mut rng, &description, 60) {
            let granted = machine.call(call).is_granted();
            match call {
                Call::Activate(_) | Call::Deactivate(_) if granted => history.push(call),
                Call::Undo if granted => {
                    history.pop();
                }
                _ => {}
            }
        }
        let mut replayed = Machine::fresh(net);
        for call in history {
            assert!(replayed.call(call).is_granted());
        }
        assert_eq!(replayed.counts(), machine.counts());
    }
}
