//! The numbers that the rules state.

use reference::examples::{
    doubling, forced_in_vain, held_up, ring, single, six_conditions, Description, CAUSES, EXCLUDES,
    IMPLIES, REQUIRES,
};
use reference::frames::script;
use reference::machine::STEP_LIMIT;
use reference::{bench_run, compose, load, Answer, Call, Machine, Net, Totals};

fn machine_of(description: &Description) -> Machine {
    let image = description.image().expect("composes");
    let (net, _) = load(&image).expect("loads");
    Machine::fresh(net)
}

fn run(machine: &mut Machine, calls: &str) -> Vec<Answer> {
    script(calls)
        .into_iter()
        .map(|call| machine.call(call))
        .collect()
}

/// Verdict, firings, forced ones.
type Numbers = (u8, u16, u16);

fn numbers(answers: &[Answer]) -> Vec<Numbers> {
    answers
        .iter()
        .map(|answer| (answer.verdict, answer.firings, answer.forced))
        .collect()
}

/// The answers to the calls, and the counts after the last.
fn outcome(description: &Description, calls: &str) -> (Vec<Numbers>, Vec<u8>) {
    let mut machine = machine_of(description);
    let answers = run(&mut machine, calls);
    (numbers(&answers), machine.counts().to_vec())
}

fn on_six(calls: &str) -> (Vec<Numbers>, Vec<u8>) {
    outcome(&six_conditions(), calls)
}

#[test]
fn p1_a_requirement_not_met() {
    assert_eq!(on_six("+1"), (vec![(12, 0, 0)], vec![0; 6]));
}

#[test]
fn p2_a_capacity_reached() {
    let counts = vec![1, 0, 0, 0, 0, 0];
    assert_eq!(on_six("+0 +0"), (vec![(0, 1, 0), (12, 0, 0)], counts));
}

#[test]
fn p3_followers_come_along() {
    assert_eq!(on_six("+3"), (vec![(0, 3, 0)], vec![0, 0, 1, 1, 0, 1]));
}

#[test]
fn p4_an_implied_context_pulls_down() {
    let answers = vec![(0, 3, 0), (0, 3, 1)];
    assert_eq!(on_six("+3 -2"), (answers, vec![0; 6]));
}

#[test]
fn p5_a_drop_serves_the_cascade() {
    let answers = vec![(0, 3, 0), (0, 1, 0), (0, 3, 0)];
    assert_eq!(on_six("+3 -5 -3"), (answers, vec![0; 6]));
}

#[test]
fn p6_forced_only_when_the_last_token_goes() {
    let (answers, counts) = on_six("+3 +3 -2");
    assert_eq!(answers[2], (0, 1, 0));
    assert_eq!(counts, vec![0, 0, 1, 2, 0, 2]);
    let (answers, counts) = on_six("+3 +3 -2 -2");
    assert_eq!(answers[3], (0, 5, 2));
    assert_eq!(counts, vec![0; 6]);
}

#[test]
fn p7_an_exclusion_rolls_back() {
    let answers = vec![(0, 1, 0), (0, 1, 0), (12, 2, 0)];
    assert_eq!(on_six("+0 +4 +3"), (answers, vec![1, 0, 0, 0, 1, 0]));
}

#[test]
fn p8_switching_off_what_is_off() {
    assert_eq!(on_six("-5"), (vec![(14, 0, 0)], vec![0; 6]));
    assert_eq!(on_six("-2"), (vec![(14, 0, 0)], vec![0; 6]));
}

#[test]
fn switching_off_once_more_changes_nothing() {
    let answers = vec![(0, 3, 0), (0, 1, 0), (14, 0, 0), (0, 3, 0)];
    assert_eq!(on_six("+3 -5 -5 -3"), (answers, vec![0; 6]));
    let mut machine = machine_of(&six_conditions());
    let answers = run(&mut machine, "-5 +3 -5 -5 u u u");
    let verdicts: Vec<u8> = answers.iter().map(|answer| answer.verdict).collect();
    assert_eq!(verdicts, [14, 0, 0, 14, 0, 0, 13]);
    let totals = Totals {
        granted: 2,
        refused: 3,
        undone: 2,
    };
    assert_eq!(machine.totals(), totals);
}

#[test]
fn p9_one_context() {
    let image = single(7).image().unwrap();
    assert_eq!(image.len(), 107);
    let (net, records) = load(&image).unwrap();
    assert_eq!(net.capacities(), [7]);
    assert_eq!(records, 1..99);
}

#[test]
fn six_conditions_have_the_stated_trailer() {
    let image = six_conditions().image().unwrap();
    assert_eq!(image.len(), 813);
    let trailer = &image[805..];
    assert_eq!(u16::from_le_bytes([trailer[0], trailer[1]]), 799);
    assert_eq!(u16::from_le_bytes([trailer[2], trailer[3]]), 784);
    assert_eq!(trailer[4..], [6, 5, 16, 1]);
    let (net, records) = load(&image).unwrap();
    assert_eq!(net.transitions().len(), 16);
    assert_eq!(records, 21..805);
}

/// A record with the given non-zero bytes; `sets` holds (set, byte, value).
fn record(priority: u8, sets: &[(usize, usize, u8)]) -> Vec<u8> {
    let mut bytes = vec![0; 49];
    bytes[0] = priority;
    for &(set, byte, value) in sets {
        bytes[1 + 6 * set + byte] = value;
    }
    bytes
}

#[test]
fn records_hold_the_arcs_of_the_rules() {
    const TAKES: usize = 0;
    const TAKES_PR: usize = 1;
    const TAKES_PR_NOT: usize = 2;
    const GIVES: usize = 3;
    const GIVES_PR: usize = 4;
    const GIVES_PR_NOT: usize = 5;
    const INHIBITED: usize = 6;
    const INHIBITED_PR: usize = 7;

    let image = six_conditions().image().unwrap();
    let stored = |number: usize| image[21 + 49 * number..70 + 49 * number].to_vec();
    // act(1) with its requirement, act(2) with its exclusion, act(3), deac(3).
    let act_1 = [(TAKES, 0, 1), (TAKES_PR, 0, 2), (GIVES, 0, 3)];
    assert_eq!(stored(2), record(2, &act_1));
    let act_2 = [(TAKES_PR, 0, 4), (GIVES, 0, 4), (INHIBITED, 0, 16)];
    assert_eq!(stored(4), record(2, &act_2));
    let act_3 = [(TAKES_PR, 0, 8), (GIVES, 0, 8), (GIVES_PR, 0, 4 + 32)];
    assert_eq!(stored(6), record(2, &act_3));
    let deac_3 = [
        (TAKES, 0, 8),
        (TAKES_PR_NOT, 0, 8),
        (GIVES_PR_NOT, 0, 4 + 32),
    ];
    assert_eq!(stored(7), record(2, &deac_3));
    // The extra ones in the order of the relations.
    assert_eq!(stored(12), record(2, &[(TAKES, 0, 2), (INHIBITED, 0, 1)]));
    let forced_3 = [
        (TAKES, 0, 8),
        (GIVES_PR_NOT, 0, 32),
        (INHIBITED, 0, 4),
        (INHIBITED_PR, 0, 4),
    ];
    assert_eq!(stored(13), record(2, &forced_3));
    assert_eq!(stored(14), record(2, &[(TAKES, 0, 16), (INHIBITED, 0, 1)]));
    let drop_5 = [(TAKES_PR_NOT, 0, 32), (INHIBITED, 0, 32)];
    assert_eq!(stored(15), record(1, &drop_5));
}

#[test]
fn sets_fill_six_bytes() {
    let description = Description::new(&[5; 48], &[[EXCLUDES, 47, 8], [IMPLIES, 47, 23]]);
    let image = description.image().unwrap();
    let act_47 = &image[48 + 6 + 49 * 94..][..49];
    let sets = [(1, 5, 128), (3, 5, 128), (4, 2, 128), (6, 1, 1)];
    assert_eq!(act_47, record(2, &sets));
}

#[test]
fn rings_of_implications() {
    let last = |n: usize| outcome(&ring(IMPLIES, &vec![255; n]), "+0");
    assert_eq!(last(15), (vec![(12, 15 * 255, 0)], vec![0; 15]));
    assert_eq!(last(16), (vec![(12, 4080, 0)], vec![0; 16]));
    assert_eq!(last(17), (vec![(11, 4096, 0)], vec![0; 17]));
    assert_eq!(last(48), (vec![(11, 4096, 0)], vec![0; 48]));
}

#[test]
fn quiet_after_exactly_the_step_limit_is_not_refused_with_11() {
    let around = |capacities: &[u8]| outcome(&ring(IMPLIES, capacities), "+0").0;
    let mut capacities = [241; 17];
    capacities[16] = 240;
    assert_eq!(around(&capacities), [(12, 4096, 0)]);
    capacities[16] = 241;
    assert_eq!(around(&capacities), [(11, 4096, 0)]);

    let on_and_off = |leaves| outcome(&doubling(leaves), "+0 -0").0;
    assert_eq!(on_and_off(0), [(0, 4095, 0), (0, 4095, 0)]);
    assert_eq!(on_and_off(1), [(0, 4096, 0), (0, 4096, 0)]);
    assert_eq!(on_and_off(2), [(11, 4096, 0), (14, 0, 0)]);
}

#[test]
fn implications_and_requirements_alone_add_forced_transitions() {
    let (net, _) = load(&six_conditions().image().unwrap()).unwrap();
    let transitions = net.transitions();
    let forced: Vec<usize> = (0..16).filter(|&t| transitions[t].forced).collect();
    assert_eq!(forced, [12, 13, 14]);
}

#[test]
fn every_token_that_lacks_its_requirement_is_forced_off() {
    // -0 forces RESET off once and BATTERYOUT twice.
    let answers = vec![(0, 1, 0), (0, 1, 0), (0, 1, 0), (0, 1, 0), (0, 4, 3)];
    assert_eq!(on_six("+0 +1 +4 +4 -0"), (answers, vec![0; 6]));
}

#[test]
fn calls_without_a_step_force_nothing() {
    let answers = vec![
        (0, 3, 0),
        (0, 3, 1),
        (14, 0, 0),
        (10, 0, 0),
        (0, 0, 0),
        (0, 0, 0),
        (13, 0, 0),
    ];
    assert_eq!(on_six("+3 -2 -2 -6 u s u").0, answers);
}

#[test]
fn a_refused_step_tells_what_it_forced() {
    // deac(2), 0 forced off by its requirement, 1 by its first implication;
    // the Pr(¬0) that this gives stays.
    let answers = vec![(0, 3, 0), (12, 3, 2)];
    assert_eq!(
        outcome(&forced_in_vain([1; 3]), "+1 -2"),
        (answers, vec![1; 3])
    );
    // The same with two tokens each.
    let answers = vec![(0, 3, 0), (0, 3, 0), (0, 1, 0), (12, 5, 4)];
    assert_eq!(
        outcome(&forced_in_vain([2; 3]), "+1 +1 -2 -2"),
        (answers, vec![2, 2, 1])
    );
}

#[test]
fn forced_firings_count_up_to_the_step_limit() {
    let mut machine = machine_of(&held_up());
    let filling = [vec![Call::Activate(0)], vec![Call::Activate(1); 89]].concat();
    for call in filling {
        assert!(machine.call(call).is_granted());
    }
    // 46 contexts of 89 tokens, then one token more, then two.
    let answers = run(&mut machine, "-0 u +2 -0 u +2 -0");
    let expected = vec![
        (0, 4095, 4094),
        (0, 0, 0),
        (0, 1, 0),
        (0, 4096, 4095),
        (0, 0, 0),
        (0, 1, 0),
        (11, 4096, 4095),
    ];
    assert_eq!(numbers(&answers), expected);
}

#[test]
fn thirty_two_of_thirty_three_are_undone() {
    let mut machine = machine_of(&single(255));
    for _ in 0..33 {
        assert!(machine.call(Call::Activate(0)).is_granted());
    }
    for left in (1..33).rev() {
        assert!(machine.call(Call::Undo).is_granted());
        assert_eq!(machine.counts(), [left]);
    }
    assert_eq!(machine.call(Call::Undo).verdict, 13);
    assert_eq!(machine.counts(), [1]);
    let totals = Totals {
        granted: 33,
        refused: 1,
        undone: 32,
    };
    assert_eq!(machine.totals(), totals);
}

#[test]
fn settling_leaves_nothing_to_undo_and_counts_nowhere() {
    let mut machine = machine_of(&six_conditions());
    let answers = run(&mut machine, "+0 s u +9 +1 u s");
    let verdicts: Vec<u8> = answers.iter().map(|answer| answer.verdict).collect();
    assert_eq!(verdicts, [0, 0, 13, 10, 0, 0, 0]);
    let totals = Totals {
        granted: 2,
        refused: 2,
        undone: 1,
    };
    assert_eq!(machine.totals(), totals);
    assert_eq!(machine.count(0), Ok(1));
    assert_eq!(machine.count(6), Err(10));
}

#[test]
fn the_empty_net_refuses_requests_and_undo() {
    let mut machine = Machine::fresh(Net::empty());
    let answers = run(&mut machine, "+0 -0 u s");
    let verdicts: Vec<u8> = answers.iter().map(|answer| answer.verdict).collect();
    assert_eq!(verdicts, [10, 10, 13, 0]);
    assert_eq!(machine.count(0), Err(10));
}

fn bench(image: &[u8], input: &[u8]) -> String {
    let mut output = Vec::new();
    bench_run::run(image, input, &mut output).unwrap();
    String::from_utf8(output).unwrap()
}

#[test]
fn bench_run_prints_the_example() {
    let image = six_conditions().image().unwrap();
    let expected = "\
+0 0 1 0 0:1
+4 0 1 0 0:1 4:1
+3 12 2 0 0:1 4:1
-0 0 2 1
u 0 0 0 0:1 4:1
u 0 0 0 0:1
s 0 0 0 0:1
u 13 0 0 0:1
";
    assert_eq!(bench(&image, b"+0\n+4\n+3\n-0\nu\nu\ns\nu\n"), expected);
    // The last line end may be missing.
    assert_eq!(bench(&image, b"+0\n+4\n+3\n-0\nu\nu\ns\nu"), expected);
}

#[test]
fn bench_run_marks_other_lines() {
    let image = six_conditions().image().unwrap();
    let others = [
        "", " ", "+", "-", "+00", "+01", "-256", "+1000", "+ 1", "+1 ", "+-1", "++1", "u ", "U",
        "uu", "0", "+0\r", "s0",
    ];
    for other in others {
        assert_eq!(bench(&image, format!("{other}\n").as_bytes()), "?\n");
    }
    assert_eq!(bench(&image, b"\n\n"), "?\n?\n");
    assert_eq!(bench(&image, b"\xff\n"), "?\n");
    assert_eq!(bench(&image, b""), "");
    assert_eq!(
        bench(&image, b"+255\n-6\n-5"),
        "+255 10 0 0\n-6 10 0 0\n-5 14 0 0\n"
    );
    assert_eq!(bench(b"", b"+0\nu\ns\n"), "+0 10 0 0\nu 13 0 0\ns 0 0 0\n");
}

#[test]
fn composing_writes_only_the_image() {
    let six = six_conditions();
    let mut out = [165; 1000];
    assert_eq!(compose(&six.capacities, &six.relations, &mut out), Ok(813));
    assert_eq!(out[..813], six.image().unwrap());
    assert_eq!(out[813..], [165; 187]);

    let mut short = [165; 812];
    assert_eq!(compose(&six.capacities, &six.relations, &mut short), Err(8));
    assert_eq!(short, [165; 812]);
}

#[test]
fn composing_tests_its_refusals_in_order() {
    let verdict = |capacities: &[u8], relations: &[u8], room: usize| {
        compose(capacities, relations, &mut vec![0; room]).err()
    };
    let bad = [9, 0, 1];
    let twice = [3, 0, 1, 3, 0, 1];
    let twice_then_bad = [&twice[..], &bad].concat();
    assert_eq!(verdict(&[], &[], 0), Some(3));
    assert_eq!(verdict(&[0; 49], &twice_then_bad, 0), Some(3));
    assert_eq!(verdict(&[1, 0], &[9, 0], 0), Some(3));
    assert_eq!(verdict(&[1, 0], &twice_then_bad, 0), Some(5));
    assert_eq!(verdict(&[1, 1], &twice_then_bad, 0), Some(6));
    assert_eq!(verdict(&[1, 1], &twice, 0), Some(7));
    assert_eq!(verdict(&[1, 1], &twice[..3], 0), Some(8));
    assert_eq!(verdict(&[1, 1], &twice[..3], 1000), None);
    assert_eq!(verdict(&[1, 1], &[1, 0, 1, 1, 1, 0], 1000), Some(7));
    assert_eq!(verdict(&[1, 1], &[4, 0, 1, 4, 1, 0], 1000), None);
}

#[test]
fn loading_tests_its_refusals_in_order() {
    let image = six_conditions().image().unwrap();
    let verdict = |damages: &[(usize, u8)]| {
        let mut damaged = image.clone();
        for &(position, value) in damages {
            damaged[position] = value;
        }
        load(&damaged).err()
    };
    assert_eq!(load(&image[806..]).err(), Some(1));
    // From the last test to the first, each one hiding those before it.
    let mut damages = vec![(21, 1)];
    for (position, value, refusal) in [
        (21, 1, 9),
        (9, 4, 7),
        (19, 19, 6),
        (5, 0, 5),
        (805, 0, 4),
        (810, 97, 3),
        (812, 2, 2),
    ] {
        damages.push((position, value));
        if refusal == 7 {
            damages.extend([(10, 1), (11, 0)]);
        }
        assert_eq!(verdict(&damages), Some(refusal));
    }
    assert_eq!(load(&image[1..]).err(), Some(4));
}

#[test]
fn a_wrong_t_with_fitting_distances_is_refused_with_9() {
    // One record more than the net has: length and distances agree with t.
    let six = six_conditions().image().unwrap();
    let mut image = six[..805].to_vec();
    image.extend([0; 49]);
    for distance in [799u16 + 49, 784 + 49] {
        image.extend(distance.to_le_bytes());
    }
    image.extend([6, 5, 17, 1]);
    assert_eq!(load(&image).err(), Some(9));
}

#[test]
fn exchanged_ends_of_an_exclusion_load() {
    let mut image = six_conditions().image().unwrap();
    image.swap(13, 14);
    assert!(load(&image).is_ok());
}

#[test]
fn required_tokens_are_neither_activation_nor_deactivation() {
    let description = Description::new(
        &[9; 4],
        &[[REQUIRES, 0, 1], [IMPLIES, 1, 2], [CAUSES, 1, 3]],
    );
    let expected = (vec![(0, 3, 0), (0, 1, 0), (0, 1, 0)], vec![2, 1, 1, 1]);
    assert_eq!(outcome(&description, "+1 +0 +0"), expected);
}

#[test]
fn forced_transitions_know_all_followers_in_any_order() {
    for relations in [
        [[CAUSES, 0, 1], [REQUIRES, 0, 2]],
        [[REQUIRES, 0, 2], [CAUSES, 0, 1]],
    ] {
        let description = Description::new(&[9; 3], &relations);
        let expected = (vec![(0, 1, 0), (0, 2, 0), (0, 3, 1)], vec![0; 3]);
        assert_eq!(outcome(&description, "+2 +0 -2"), expected);
    }
}

#[test]
fn the_step_limit_is_4096() {
    assert_eq!(STEP_LIMIT, 4096);
}
