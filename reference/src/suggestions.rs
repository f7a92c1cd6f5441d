//! Small nets with suggestions and what each call on
//! them gives, worked out by hand.

use crate::examples::{Description, CAUSES, EXCLUDES, IMPLIES, REQUIRES, SUGGESTS};

pub struct Scenario {
    pub name: &'static str,
    pub description: Description,
    /// A call, and its line in a listing: verdict, firings, forced ones, then
    /// the counts.
    pub lines: Vec<(&'static str, &'static str)>,
}

impl Scenario {
    pub fn calls(&self) -> String {
        let calls: Vec<&str> = self.lines.iter().map(|(call, _)| *call).collect();
        calls.join(" ")
    }
}

pub fn scenarios() -> Vec<Scenario> {
    let mut list = Vec::new();
    taken(&mut list);
    excluded_or_full(&mut list);
    lacking_a_requirement(&mut list);
    swallowed_for_others(&mut list);
    own_wish_swallowed(&mut list);
    source_pulled_off(&mut list);
    tokens_left(&mut list);
    limit_met(&mut list);
    between_the_same_two(&mut list);
    target_stays_on(&mut list);
    order_of_declines(&mut list);
    drop_and_decline(&mut list);
    falls_below(&mut list);
    rings(&mut list);
    list
}

fn add(
    list: &mut Vec<Scenario>,
    name: &'static str,
    capacities: &[u8],
    relations: &[[u8; 3]],
    lines: &[(&'static str, &'static str)],
) {
    list.push(Scenario {
        name,
        description: Description::new(capacities, relations),
        lines: lines.to_vec(),
    });
}

/// act(0) asks 1 on, deac(0) does not ask it off.
fn taken(list: &mut Vec<Scenario>) {
    add(
        list,
        "taken",
        &[2, 2],
        &[[SUGGESTS, 0, 1]],
        &[
            ("+0", "0 2 0 1 1"),
            ("+0", "0 2 0 2 2"),
            ("-0", "0 1 0 1 2"),
            ("-0", "0 1 0 0 2"),
            ("-0", "14 0 0 0 2"),
            ("-1", "0 1 0 0 1"),
            ("u", "0 0 0 0 2"),
            ("+1", "15 1 0 0 2"),
        ],
    );
    // One of the two transitions that take Pr(2) is enough.
    add(
        list,
        "two sources",
        &[1; 3],
        &[[SUGGESTS, 0, 2], [SUGGESTS, 1, 2]],
        &[
            ("+0", "0 2 0 1 0 1"),
            ("+1", "0 2 0 1 1 1"),
            ("-2", "0 1 0 1 1 0"),
        ],
    );
}

/// What keeps 1 off does not keep 0 off. The own wish of a "+1" is swallowed
/// as well, and that is refused.
fn excluded_or_full(list: &mut Vec<Scenario>) {
    add(
        list,
        "target excluded",
        &[1; 3],
        &[[EXCLUDES, 1, 2], [SUGGESTS, 0, 1]],
        &[
            ("+2", "0 1 0 0 0 1"),
            ("+0", "0 2 0 1 0 1"),
            ("+1", "15 1 0 1 0 1"),
            ("-2", "0 1 0 1 0 0"),
            ("+1", "0 1 0 1 1 0"),
        ],
    );
    // Nothing swallows a Pr(0): the last call meets 12.
    add(
        list,
        "target full",
        &[3, 1],
        &[[SUGGESTS, 0, 1]],
        &[
            ("+0", "0 2 0 1 1"),
            ("+0", "0 2 0 2 1"),
            ("+1", "15 1 0 2 1"),
            ("-1", "0 1 0 2 0"),
            ("+0", "0 2 0 3 1"),
            ("+0", "12 0 0 3 1"),
        ],
    );
}

/// The same where 1 lacks what it requires.
fn lacking_a_requirement(list: &mut Vec<Scenario>) {
    add(
        list,
        "target lacks its requirement",
        &[1; 3],
        &[[REQUIRES, 1, 2], [SUGGESTS, 0, 1]],
        &[
            ("+0", "0 2 0 1 0 0"),
            ("+1", "15 1 0 1 0 0"),
            ("+2", "0 1 0 1 0 1"),
            ("+1", "0 1 0 1 1 1"),
            ("-2", "0 2 1 1 0 0"),
        ],
    );
}

/// 3 suggests 1, and so lets go what 0 causes: without it "+0" meets 12.
fn swallowed_for_others(list: &mut Vec<Scenario>) {
    add(
        list,
        "what is caused",
        &[1; 4],
        &[[CAUSES, 0, 1], [EXCLUDES, 1, 2], [SUGGESTS, 3, 1]],
        &[
            ("+2", "0 1 0 0 0 1 0"),
            ("+0", "0 2 0 1 0 1 0"),
            ("-0", "0 2 0 0 0 1 0"),
        ],
    );
}

/// Pr(0) of the request itself goes, because 1 suggests 0.
fn own_wish_swallowed(list: &mut Vec<Scenario>) {
    add(
        list,
        "own wish, excluded",
        &[1; 3],
        &[[EXCLUDES, 0, 2], [SUGGESTS, 1, 0]],
        &[
            ("+2", "0 1 0 0 0 1"),
            ("+0", "15 1 0 0 0 1"),
            ("+1", "0 2 0 0 1 1"),
            ("u", "0 0 0 0 0 1"),
            ("u", "0 0 0 0 0 0"),
            ("u", "13 0 0 0 0 0"),
        ],
    );
    add(
        list,
        "own wish, full",
        &[1, 1],
        &[[SUGGESTS, 1, 0]],
        &[
            ("+0", "0 1 0 1 0"),
            ("+0", "15 1 0 1 0"),
            ("-0", "0 1 0 0 0"),
            ("-0", "14 0 0 0 0"),
        ],
    );
}

/// Pr(1), which 0 implies, is swallowed behind act(0); then 0 is forced off.
fn source_pulled_off(list: &mut Vec<Scenario>) {
    add(
        list,
        "what is implied",
        &[1; 3],
        &[[IMPLIES, 0, 1], [EXCLUDES, 1, 2], [SUGGESTS, 2, 1]],
        &[
            ("+2", "0 2 0 0 0 1"),
            ("+0", "15 3 1 0 0 1"),
            ("u", "0 0 0 0 0 0"),
            ("u", "13 0 0 0 0 0"),
            ("+0", "0 2 0 1 1 0"),
            ("-1", "0 2 1 0 0 0"),
        ],
    );
}

/// The requested context is no higher, but 12 goes before 15.
fn tokens_left(list: &mut Vec<Scenario>) {
    // Behind act(0), Pr(1) is swallowed and 0 forced off; this asks 3 off,
    // which is dropped. The Pr(3) that act(0) gave is left.
    add(
        list,
        "12, a Pr left",
        &[1; 4],
        &[
            [IMPLIES, 0, 1],
            [EXCLUDES, 1, 2],
            [SUGGESTS, 2, 1],
            [CAUSES, 0, 3],
            [EXCLUDES, 2, 3],
        ],
        &[("+2", "0 2 0 0 0 1 0"), ("+0", "12 4 1 0 0 1 0")],
    );
    // act(1), act(0), two Pr(2) swallowed, 1 forced off, deac(0): this asks 2
    // off, which is off, and no drop takes that.
    add(
        list,
        "12, a Pr¬ left",
        &[1; 3],
        &[
            [IMPLIES, 1, 2],
            [EXCLUDES, 2, 0],
            [SUGGESTS, 1, 2],
            [IMPLIES, 0, 2],
            [CAUSES, 1, 0],
        ],
        &[("+1", "12 6 1 0 0 0")],
    );
}

/// The requested context is no higher, but 11 goes before 15: act(1), act(2),
/// Pr(0) swallowed, 2 forced off, deac(1); then act(1), act(2), deac(2),
/// deac(1), act(0), deac(0) over and over. The limit falls behind an act(0),
/// where 1 is off.
fn limit_met(list: &mut Vec<Scenario>) {
    add(
        list,
        "11",
        &[1; 3],
        &[
            [CAUSES, 1, 2],
            [CAUSES, 2, 1],
            [IMPLIES, 2, 0],
            [SUGGESTS, 2, 0],
            [EXCLUDES, 0, 1],
        ],
        &[("+1", "11 4096 1 0 0 0"), ("+0", "0 1 0 1 0 0")],
    );
}

fn between_the_same_two(list: &mut Vec<Scenario>) {
    // The records stand in another order; the answers are the same.
    let lines = [
        ("+2", "0 1 0 0 0 1"),
        ("+0", "15 3 1 0 0 1"),
        ("-2", "0 1 0 0 0 0"),
        ("+0", "0 2 0 1 1 0"),
        ("-1", "0 2 1 0 0 0"),
        ("u", "0 0 0 1 1 0"),
        ("-0", "0 2 0 0 0 0"),
    ];
    let implied = [IMPLIES, 0, 1];
    let suggested = [SUGGESTS, 0, 1];
    let excluded = [EXCLUDES, 1, 2];
    let implied_first = [implied, suggested, excluded];
    let suggested_first = [suggested, implied, excluded];
    add(list, "implied first", &[1; 3], &implied_first, &lines);
    add(list, "suggested first", &[1; 3], &suggested_first, &lines);
    // Each asks the other on, until both are full: a Pr(0) is swallowed then,
    // a Pr(1) is not.
    add(
        list,
        "implied and suggested back",
        &[2, 2],
        &[[IMPLIES, 0, 1], [SUGGESTS, 1, 0]],
        &[
            ("+1", "12 4 0 0 0"),
            ("+0", "0 5 0 2 2"),
            ("-1", "0 1 0 2 1"),
            ("-1", "0 3 2 0 0"),
        ],
    );
}

/// 0 is forced off: what it causes goes too, what it suggests does not.
fn target_stays_on(list: &mut Vec<Scenario>) {
    add(
        list,
        "source forced off",
        &[1; 4],
        &[[REQUIRES, 0, 2], [SUGGESTS, 0, 1], [CAUSES, 0, 3]],
        &[
            ("+2", "0 1 0 0 0 1 0"),
            ("+0", "0 3 0 1 1 1 1"),
            ("-2", "0 3 1 0 1 0 0"),
            ("u", "0 0 0 1 1 1 1"),
            ("-0", "0 2 0 0 1 1 0"),
        ],
    );
}

/// "+4" brings 0, which brings Pr(1) and Pr(3): 2 keeps 1 off, and 3 is full.
/// Behind the decline of Pr(1) comes the forced transition, though its
/// number is higher than that of the other decline; it asks 3 off.
fn order_of_declines(list: &mut Vec<Scenario>) {
    let swallow_1 = [SUGGESTS, 2, 1];
    let swallow_3 = [SUGGESTS, 2, 3];
    let others = [
        [EXCLUDES, 1, 2],
        [IMPLIES, 0, 1],
        [CAUSES, 0, 3],
        [CAUSES, 4, 0],
    ];
    // Pr(3) is gone already: the activation switches 3 off.
    add(
        list,
        "the other wish first",
        &[1; 5],
        &[&[swallow_3, swallow_1][..], &others].concat(),
        &[("+2", "0 3 0 0 0 1 1 0"), ("+4", "0 6 1 0 0 1 0 1")],
    );
    // Pr(3) is still there and raises 3 again.
    add(
        list,
        "the other wish last",
        &[1; 5],
        &[&[swallow_1, swallow_3][..], &others].concat(),
        &[("+2", "0 3 0 0 0 1 1 0"), ("+4", "0 6 1 0 0 1 1 1")],
    );
}

/// Both are of low priority, so their numbers decide. act(0), act(1), Pr(2)
/// swallowed twice, 0 forced off, act(0), deac(1), act(1) are followed by the
/// same from the first decline on, over and over. Each deac(1) leaves a
/// Pr(¬2): a drop goes before the declines if its number is lower, and
/// otherwise none comes.
fn drop_and_decline(list: &mut Vec<Scenario>) {
    let dropping = [CAUSES, 1, 2];
    let decline = [SUGGESTS, 1, 2];
    let others = [
        [SUGGESTS, 1, 0],
        [CAUSES, 0, 1],
        [IMPLIES, 0, 2],
        [EXCLUDES, 2, 0],
    ];
    add(
        list,
        "the drop last",
        &[1; 3],
        &[&[decline, dropping][..], &others].concat(),
        &[("+0", "11 4096 682 0 0 0")],
    );
    add(
        list,
        "the drop first",
        &[1; 3],
        &[&[dropping, decline][..], &others].concat(),
        &[("+0", "11 4096 585 0 0 0")],
    );
}

/// The last call raises 3 once and lowers it twice: act(3), act(0), act(4),
/// Pr(3) twice and Pr(1) swallowed, 0 forced off, deac(3), deac(4), deac(3).
fn falls_below(list: &mut Vec<Scenario>) {
    add(
        list,
        "lower than before",
        &[1, 1, 1, 2, 1, 1],
        &[
            [SUGGESTS, 2, 3],
            [SUGGESTS, 2, 1],
            [EXCLUDES, 1, 2],
            [SUGGESTS, 3, 0],
            [REQUIRES, 0, 5],
            [IMPLIES, 0, 1],
            [CAUSES, 0, 3],
            [CAUSES, 0, 4],
            [CAUSES, 4, 3],
        ],
        &[
            ("+2", "0 4 0 0 0 1 1 0 0"),
            ("+5", "0 1 0 0 0 1 1 0 1"),
            ("+3", "15 10 1 0 0 1 1 0 1"),
        ],
    );
}

/// A ring of suggestions runs until one is full; its wish is swallowed.
fn rings(list: &mut Vec<Scenario>) {
    add(
        list,
        "ring of two",
        &[2, 2],
        &[[SUGGESTS, 0, 1], [SUGGESTS, 1, 0]],
        &[
            ("+0", "0 5 0 2 2"),
            ("+0", "15 1 0 2 2"),
            ("-0", "0 1 0 1 2"),
            ("+0", "0 2 0 2 2"),
        ],
    );
}
