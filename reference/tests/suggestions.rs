//! Suggestions, and the refusal that comes with them.

use reference::examples::{ring, Description, CAUSES, EXCLUDES, IMPLIES, REQUIRES, SUGGESTS};
use reference::net::{Kind, Relation, Transition};
use reference::random::{self, Xorshift};
use reference::streams::Frame;
use reference::suggestions::scenarios;
use reference::{compose, frames, load, reports, Call, Machine, Net, Totals};

fn net_of(description: &Description) -> Net {
    let image = description.image().expect("composes");
    load(&image).expect("loads").0
}

/// The lines of the calls in a listing.
fn listed(description: &Description, calls: &str) -> Vec<String> {
    let frame = Frame {
        description: description.clone(),
        damages: Vec::new(),
        calls: frames::script(calls),
        verbose: true,
    };
    let mut text = String::new();
    reports::conformance(&frame, &mut text);
    let lines: Vec<String> = text.lines().map(str::to_string).collect();
    // Between the line of the load and the line of the totals.
    lines[1..lines.len() - 1].to_vec()
}

#[test]
fn scenarios_give_what_was_worked_out() {
    for scenario in scenarios() {
        let lines = listed(&scenario.description, &scenario.calls());
        let expected: Vec<&str> = scenario.lines.iter().map(|(_, line)| *line).collect();
        assert_eq!(lines, expected, "{}", scenario.name);
    }
}

#[test]
fn a_refusal_with_15_counts_and_opens_nothing() {
    let description = Description::new(&[1, 1], &[[SUGGESTS, 1, 0]]);
    let mut machine = Machine::fresh(net_of(&description));
    let verdicts: Vec<u8> = frames::script("+0 +0 u u +0")
        .into_iter()
        .map(|call| machine.call(call).verdict)
        .collect();
    assert_eq!(verdicts, [0, 15, 0, 13, 0]);
    let totals = Totals {
        granted: 2,
        refused: 2,
        undone: 1,
    };
    assert_eq!(machine.totals(), totals);
}

/// What 0, which suggests 1 and has relations besides, asks on and off, and
/// what its suggestion adds.
#[test]
fn a_suggestion_asks_on_and_never_off() {
    let relations = [
        [SUGGESTS, 0, 1],
        [REQUIRES, 0, 2],
        [CAUSES, 0, 3],
        [EXCLUDES, 1, 2],
    ];
    let net = net_of(&Description::new(&[1; 4], &relations));
    let transitions = net.transitions();
    assert_eq!(transitions.len(), 11);
    let [act, deac] = [transitions[0], transitions[1]];
    assert_eq!((act.gives.pr, deac.gives.pr_not), (2 + 8, 8));
    let [decline, forced] = [transitions[8], transitions[9]];
    assert_eq!(forced.gives.pr_not, 8);
    assert!(forced.forced && !decline.forced);
    let mut expected = Transition {
        priority: 1,
        forced: false,
        takes: Default::default(),
        gives: Default::default(),
        inhibited_by: Default::default(),
    };
    expected.takes.pr = 2;
    assert_eq!(decline, expected);
}

#[test]
fn a_suggestion_has_a_record_at_its_place() {
    let description = Description::new(&[7; 10], &[[EXCLUDES, 0, 1], [SUGGESTS, 2, 9]]);
    let image = description.image().unwrap();
    // 20 records of act and deac, one of the suggestion, none of the exclusion.
    assert_eq!(image.len(), 10 + 6 + 49 * 21 + 8);
    let mut record = [0; 49];
    record[0] = 1;
    record[1 + 6 + 1] = 2;
    assert_eq!(image[16 + 49 * 20..][..49], record);
}

#[test]
fn relations_in_another_order_are_another_image() {
    let implied = [IMPLIES, 0, 1];
    let suggested = [SUGGESTS, 0, 1];
    let image = |relations: [[u8; 3]; 2]| Description::new(&[1, 1], &relations).image().unwrap();
    let one = image([implied, suggested]);
    let other = image([suggested, implied]);
    // act(0) has a single arc to Pr(1); the two extra records change places.
    let records = 2 + 6;
    assert_eq!(one[records..][..4 * 49], other[records..][..4 * 49]);
    let [first, second] = [4 * 49, 5 * 49].map(|at| records + at);
    assert_eq!(one[first..second], other[second..second + 49]);
    assert_eq!(one[second..second + 49], other[first..second]);
    assert_ne!(one[first..second], one[second..second + 49]);
}

#[test]
fn kinds_end_at_5() {
    let verdict = |relations: &[[u8; 3]]| {
        compose(&[1, 1], &relations.concat(), &mut [0; 500]).map_or_else(|refusal| refusal, |_| 0)
    };
    for kind in 0..=255 {
        let expected = if (1..=5).contains(&kind) { 0 } else { 6 };
        assert_eq!(verdict(&[[kind, 0, 1]]), expected, "kind {kind}");
    }
    assert_eq!(verdict(&[[5, 0, 1], [5, 0, 1]]), 7);
    assert_eq!(verdict(&[[5, 0, 1], [5, 1, 0]]), 0);
    assert_eq!(verdict(&[[5, 0, 1], [4, 0, 1], [3, 0, 1]]), 0);
    assert_eq!(verdict(&[[5, 1, 1]]), 6);
    assert_eq!(verdict(&[[5, 0, 2]]), 6);
}

/// What goes round in a full ring is swallowed, if the limit allows.
#[test]
fn rings_of_suggestions() {
    let first = |n: usize| {
        let mut machine = Machine::fresh(net_of(&ring(SUGGESTS, &vec![255; n])));
        let answer = machine.call(Call::Activate(0));
        (answer.verdict, answer.firings, machine.counts()[n - 1])
    };
    assert_eq!(first(2), (0, 2 * 255 + 1, 255));
    assert_eq!(first(16), (0, 4081, 255));
    assert_eq!(first(17), (11, 4096, 0));
}

fn holds(relation: &Relation, counts: &[u8]) -> bool {
    let (a, b) = (counts[relation.a] > 0, counts[relation.b] > 0);
    match relation.kind {
        Kind::Exclusion => !(a && b),
        Kind::Implication | Kind::Requirement => !a || b,
        Kind::Causality | Kind::Suggestion => true,
    }
}

/// Calls on a random net, each with its answer and the counts before and after.
fn each_call(rng: &mut Xorshift, mut look: impl FnMut(&Net, Call, u8, &[u8], &[u8])) {
    let description = random::description(rng);
    let net = net_of(&description);
    let mut machine = Machine::fresh(net.clone());
    for call in random::calls(rng, &description, 60) {
        let before = machine.counts().to_vec();
        let verdict = machine.call(call).verdict;
        look(&net, call, verdict, &before, machine.counts());
    }
}

#[test]
fn committed_markings_keep_the_relations() {
    let mut rng = Xorshift::new(5);
    for _ in 0..300 {
        each_call(&mut rng, |net, _, _, _, counts| {
            assert!(net.relations().iter().all(|r| holds(r, counts)));
        });
    }
}

#[test]
fn a_granted_activation_raises_and_a_deactivation_never_meets_15() {
    let mut rng = Xorshift::new(6);
    let mut met = [0; 16];
    for _ in 0..300 {
        each_call(&mut rng, |_, call, verdict, before, after| {
            match (call, verdict) {
                (Call::Activate(c), 0) => assert!(after[c] > before[c]),
                (Call::Activate(_), _) => assert_eq!(after, before),
                (_, verdict) => assert_ne!(verdict, 15),
            }
            met[usize::from(verdict)] += 1;
        });
    }
    assert!([0, 10, 11, 12, 13, 14, 15].iter().all(|&v| met[v] > 50));
}
