//! The frames that machines are compared on.

use crate::examples::{
    chain, doubling, forced_in_vain, held_up, ring, single, six_conditions, Description, CAUSES,
    EXCLUDES, IMPLIES, REQUIRES, SUGGESTS,
};
use crate::image::{RECORD_LEN, TRAILER_LEN};
use crate::machine::Call;
use crate::random::{self, Xorshift};
use crate::streams::{Damage, Frame};
use crate::suggestions;
use std::ops::Range;

/// The fixed frames, then `nets` random nets with `calls` calls each.
pub fn stream(seed: u64, nets: u64, calls: usize) -> Vec<u8> {
    let mut out = Vec::new();
    for frame in fixed() {
        frame.write(&mut out);
    }
    let mut rng = Xorshift::new(seed);
    for _ in 0..nets {
        random_frame(&mut rng, calls).write(&mut out);
    }
    out
}

pub fn fixed() -> Vec<Frame> {
    let mut frames = Vec::new();
    proved_cases(&mut frames);
    rings(&mut frames);
    step_limit(&mut frames);
    undo_and_totals(&mut frames);
    capacity_limits(&mut frames);
    empty_nets(&mut frames);
    nets_that_are_not_ours(&mut frames);
    arcs_asked_for_twice(&mut frames);
    forced_firings(&mut frames);
    suggested(&mut frames);
    damaged_images(&mut frames);
    frames
}

/// Calls as bench-run writes them, parted by spaces.
pub fn script(text: &str) -> Vec<Call> {
    text.split(' ').map(script_call).collect()
}

fn script_call(word: &str) -> Call {
    let context = || word[1..].parse().expect("a context number");
    match &word[..1] {
        "+" => Call::Activate(context()),
        "-" => Call::Deactivate(context()),
        "u" => Call::Undo,
        "s" => Call::Settle,
        _ => panic!("no call: {word}"),
    }
}

fn verbose(description: Description, calls: Vec<Call>) -> Frame {
    Frame {
        description,
        damages: Vec::new(),
        calls,
        verbose: true,
    }
}

fn add(frames: &mut Vec<Frame>, description: &Description, text: &str) {
    frames.push(verbose(description.clone(), script(text)));
}

/// P1 to P9 and the example of bench-run.
fn proved_cases(frames: &mut Vec<Frame>) {
    let lists = [
        "+1",
        "+0 +0",
        "+3",
        "+3 -2",
        "+3 -5 -3",
        "+3 +3 -2 -2",
        "+0 +4 +3",
        "-5 -2",
        "-5",
        "-2",
        "+0 +4 +3 -0 u u s u",
        "+0 +1 +1 -0 u -1 -0 u u u u u",
        "+6 -6 +255 -255 u s +3 u u",
        "+3 -5 -5 -3 -3 u u",
        "+3 -5 -2 -5 u u",
        "+5 +5 -5 -5 -5 u -5",
        "-4 +0 -4 -0 -0 u u u",
        "-6 +6 +5 -0 -5 -5",
    ];
    for list in lists {
        add(frames, &six_conditions(), list);
    }
    add(frames, &single(7), "+0 +0 +0 +0 +0 +0 +0 +0 -0 u u s u");
}

fn rings(frames: &mut Vec<Frame>) {
    for n in [2, 3, 15, 16, 17, 48] {
        add(frames, &ring(IMPLIES, &vec![255; n]), "+0 -0 u +1 s");
    }
    add(frames, &ring(IMPLIES, &[255; 17]), "+16 +8");
    // A ring of suggestions swallows what goes round when it is full.
    for n in [2, 16, 17] {
        add(frames, &ring(SUGGESTS, &vec![255; n]), "+0 +1 -0 +0 u u");
    }
    for kind in [CAUSES, REQUIRES, EXCLUDES, SUGGESTS] {
        add(frames, &ring(kind, &[9; 5]), "+0 +2 -1 +1 -0 -2 u");
    }
    for kind in [CAUSES, IMPLIES, SUGGESTS] {
        add(frames, &chain(kind, &[9; 5]), "+0 +0 +2 -4 -4 -4 -0 -0 u u");
    }
    add(
        frames,
        &chain(REQUIRES, &[9; 5]),
        "+0 +4 +3 +2 +2 +1 +0 -2 -4 u",
    );
}

/// Just below, at and just above 4,096 firings.
fn step_limit(frames: &mut Vec<Frame>) {
    // The one token of a ring stops at the first full context.
    for full_first in [14, 15, 16, 17] {
        let mut capacities = vec![241; 17];
        if let Some(capacity) = capacities.get_mut(full_first) {
            *capacity = 240;
        }
        add(frames, &ring(IMPLIES, &capacities), "+0 u");
    }
    for leaves in 0..=3 {
        add(frames, &doubling(leaves), "+0 -0 u +0 u -13 +13 -0");
    }
}

fn undo_and_totals(frames: &mut Vec<Frame>) {
    let activations = |times| vec![Call::Activate(0); times];
    let undos = |times| vec![Call::Undo; times];
    for granted in [31, 32, 33, 40] {
        let calls = [activations(granted), undos(granted.max(33))].concat();
        frames.push(verbose(single(255), calls));
    }
    // Refused requests do not enter the open list.
    let calls = [activations(34), undos(33)].concat();
    frames.push(verbose(single(33), calls));
    // Room made by undo and settling is used again.
    let calls = [
        activations(32),
        undos(5),
        activations(10),
        undos(33),
        vec![Call::Settle],
        activations(3),
        undos(4),
    ]
    .concat();
    frames.push(verbose(single(255), calls));
    let chain = chain(IMPLIES, &[3; 4]);
    add(frames, &chain, "+0 +0 -3 u +0 +0 u s u -1 -1 +9 u s s u");
    add(frames, &chain, "u u s u +4 -4 +65535 -256 s u");
}

fn capacity_limits(frames: &mut Vec<Frame>) {
    add(frames, &single(1), "+0 +0 -0 -0 +0 u u u");
    let on = vec![Call::Activate(0); 257];
    let off = vec![Call::Deactivate(0); 257];
    frames.push(verbose(single(255), [on.clone(), off].concat()));
    // A full context refuses what it is asked for by another.
    frames.push(verbose(chain(CAUSES, &[255, 255]), on));
    add(frames, &chain(IMPLIES, &[3, 2]), "+0 +0 +0 -1 +1 +1");
    // A full required context is only looked at.
    add(frames, &chain(REQUIRES, &[2, 1]), "+1 +1 +0 +0 +0 -1");
}

/// Descriptions that do not compose give no image, and that the empty net.
fn empty_nets(frames: &mut Vec<Frame>) {
    let refused = [
        Description::new(&[], &[]),
        Description::new(&[5; 49], &[]),
        Description::new(&[5, 0], &[]),
        Description::new(&[5, 5], &[[0, 0, 1]]),
        Description::new(&[5, 5], &[[6, 0, 1]]),
        Description::new(&[5, 5], &[[255, 0, 1]]),
        Description::new(&[5, 5], &[[SUGGESTS, 0, 1], [SUGGESTS, 0, 1]]),
        Description::new(&[5, 5], &[[EXCLUDES, 0, 1], [EXCLUDES, 1, 0]]),
    ];
    for description in refused {
        add(frames, &description, "+0 -0 u s +5 u +65535");
    }
    frames.push(verbose(Description::new(&[], &[]), Vec::new()));
    frames.push(verbose(six_conditions(), Vec::new()));
}

fn nets_that_are_not_ours(frames: &mut Vec<Frame>) {
    // An activation asks no follower off.
    let followers = Description::new(&[9; 3], &[[IMPLIES, 0, 1], [CAUSES, 0, 2]]);
    add(frames, &followers, "+0 +0 +1 -0 -0 -1 +2 +0 -1");
    // A required token moves nothing of the required context's own.
    let required = Description::new(
        &[9; 5],
        &[
            [REQUIRES, 0, 1],
            [IMPLIES, 1, 2],
            [CAUSES, 1, 3],
            [REQUIRES, 1, 4],
        ],
    );
    add(frames, &required, "+1 +4 +1 +0 +0 -0 -3 -1 +0 -4");
    // Drops still fire at the end of a step.
    let drops = Description::new(&[9; 3], &[[CAUSES, 0, 1], [CAUSES, 2, 1]]);
    add(frames, &drops, "+0 -1 -0 +2 +0 -1 -1 -2 -0 -1 -0");
    // Forced transitions know the followers of all relations.
    let orders = [
        [[CAUSES, 0, 1], [IMPLIES, 0, 2], [REQUIRES, 0, 3]],
        [[REQUIRES, 0, 3], [CAUSES, 0, 1], [IMPLIES, 0, 2]],
        [[IMPLIES, 0, 2], [REQUIRES, 0, 3], [CAUSES, 0, 1]],
    ];
    for relations in orders {
        let description = Description::new(&[9; 4], &relations);
        add(frames, &description, "+0 +3 +0 +0 -3 +3 +0 -2 +0 +1 -3");
    }
}

/// Two relations between the same ends.
fn arcs_asked_for_twice(frames: &mut Vec<Frame>) {
    let kinds = [EXCLUDES, CAUSES, IMPLIES, REQUIRES, SUGGESTS];
    for first in kinds {
        for second in kinds {
            for ends in [[0, 1], [1, 0]] {
                let relations = [[first, 0, 1], [second, ends[0], ends[1]]];
                let description = Description::new(&[4, 3, 2], &relations);
                add(frames, &description, "+0 +1 +0 +0 -1 -1 +1 -0 -0 -0 u");
            }
        }
    }
}

/// Forced firings in refused steps, and more of them than one byte counts.
fn forced_firings(frames: &mut Vec<Frame>) {
    let calls = "+1 -2 -0 u -1 u +1 -2 -2 u -1";
    add(frames, &forced_in_vain([2; 3]), calls);
    // Just below, at and just above 4,096 firings.
    let calls = [
        script("+0"),
        vec![Call::Activate(1); 89],
        script("-0 u +2 -0 u +2 -0 u"),
    ]
    .concat();
    frames.push(Frame {
        verbose: false,
        ..verbose(held_up(), calls)
    });
}

fn suggested(frames: &mut Vec<Frame>) {
    for scenario in suggestions::scenarios() {
        add(frames, &scenario.description, &scenario.calls());
    }
}

fn damaged_images(frames: &mut Vec<Frame>) {
    let calls = "+0 +4 +3 -0 u u s u +2 +2";
    let damage = |position, value| Damage { position, value };
    // In order: capacities, relations, records, trailer, and behind it all.
    let mut lists = vec![
        vec![damage(0, 2)],
        vec![damage(2, 1)],
        vec![damage(5, 0)],
        // Kind 5 is one, so the records are wrong; 0, 6 and 255 are none.
        vec![damage(6, 5)],
        vec![damage(6, 0)],
        vec![damage(6, 6)],
        vec![damage(6, 255)],
        vec![damage(7, 6)],
        vec![damage(8, 1)],
        vec![damage(13, 4), damage(14, 2)],
        vec![damage(21, 1)],
        vec![damage(21, 2)],
        vec![damage(804, 128)],
        vec![damage(805, 30)],
        vec![damage(813, 0)],
        vec![damage(65_535, 0), damage(1, 254)],
        vec![damage(3, 0), damage(3, 7)],
    ];
    for position in 805..813 {
        lists.push(vec![damage(position, 0)]);
        lists.push(vec![damage(position, 255)]);
    }
    for damages in lists {
        let mut frame = verbose(six_conditions(), script(calls));
        frame.damages = damages;
        frames.push(frame);
    }
}

fn random_frame(rng: &mut Xorshift, calls: usize) -> Frame {
    let mut description = random::description(rng);
    let calls = random::calls(rng, &description, calls);
    if rng.one_in(30) {
        break_a_rule(rng, &mut description);
    }
    let damages = if rng.one_in(6) {
        random_damages(rng, &description)
    } else {
        Vec::new()
    };
    Frame {
        description,
        damages,
        calls,
        verbose: false,
    }
}

fn break_a_rule(rng: &mut Xorshift, description: &mut Description) {
    let Description {
        capacities,
        relations,
    } = description;
    match rng.below(5) {
        0 => {
            let context = rng.below(capacities.len());
            capacities[context] = 0;
        }
        1 => {
            relations.pop();
        }
        2 if !relations.is_empty() => {
            let first: Vec<u8> = relations[..3].to_vec();
            relations.extend(first);
        }
        3 => relations.extend([rng.pick(&[0, 6, 7, 128, 255]), 1, 0]),
        _ => relations.extend([rng.pick(&[1, 5]), 0, capacities.len() as u8]),
    }
}

/// One or two bytes anywhere in the image, each part as likely as another.
fn random_damages(rng: &mut Xorshift, description: &Description) -> Vec<Damage> {
    let Ok(image) = description.image() else {
        return Vec::new();
    };
    let parts = parts_of(description, image.len());
    (0..rng.within(1..=2))
        .map(|_| {
            let part = rng.below(parts.len());
            let position = parts[part].start + rng.below(parts[part].len());
            let stored = image[position];
            let value = match rng.below(4) {
                0 => rng.byte(),
                1 => rng.below(7) as u8,
                2 => stored ^ (1 << rng.below(8)),
                _ => stored.wrapping_add(rng.pick(&[1, 255])),
            };
            Damage {
                position: position as u16,
                value,
            }
        })
        .collect()
}

/// Capacities, relations, records, trailer; parts without bytes left out. The
/// last record is a part of its own too: it often is an extra transition.
fn parts_of(description: &Description, image_len: usize) -> Vec<Range<usize>> {
    let relations_start = description.capacities.len();
    let records_start = relations_start + description.relations.len();
    let trailer_start = image_len - TRAILER_LEN;
    let parts = [
        0..relations_start,
        relations_start..records_start,
        records_start..trailer_start,
        trailer_start - RECORD_LEN..trailer_start,
        trailer_start..image_len,
    ];
    parts.into_iter().filter(|part| !part.is_empty()).collect()
}
