//! The cases that composing is compared on.

use crate::examples::{
    ring, single, six_conditions, Description, CAUSES, EXCLUDES, IMAGE_ROOM, IMPLIES, REQUIRES,
    SUGGESTS,
};
use crate::random::{self, Xorshift};
use crate::streams::ComposeCase;

const SEED: u64 = 20_250_101;
const RANDOM_NETS: usize = 150;
/// Room enough for any image.
const AMPLE: usize = IMAGE_ROOM;

pub fn stream() -> Vec<u8> {
    let mut out = Vec::new();
    for case in cases() {
        case.write(&mut out);
    }
    out
}

pub fn cases() -> Vec<ComposeCase> {
    let mut cases = Cases(Vec::new());
    named_nets(&mut cases);
    large_nets(&mut cases);
    repeated_relations(&mut cases);
    size_edges(&mut cases);
    capacity_edges(&mut cases);
    relation_edges(&mut cases);
    several_refusals(&mut cases);
    random_nets(&mut cases);
    cases.0
}

struct Cases(Vec<ComposeCase>);

impl Cases {
    fn add(&mut self, description: Description, room: usize) {
        let room = u16::try_from(room).expect("a small room");
        self.0.push(ComposeCase { description, room });
    }

    fn net(&mut self, capacities: &[u8], relations: &[[u8; 3]], room: usize) {
        self.add(Description::new(capacities, relations), room);
    }

    fn bytes(&mut self, capacities: &[u8], relations: &[u8], room: usize) {
        let description = Description {
            capacities: capacities.to_vec(),
            relations: relations.to_vec(),
        };
        self.add(description, room);
    }

    /// Room to spare, just enough, one byte short, and none.
    fn around_length(&mut self, description: Description) {
        let length = image_length(&description);
        for room in [length + 40, length, length - 1, 0] {
            self.add(description.clone(), room);
        }
    }
}

fn image_length(description: &Description) -> usize {
    description.image().expect("a valid net").len()
}

fn named_nets(cases: &mut Cases) {
    for room in [813, 812, 1000, 0, 1, 8, 805, 814] {
        cases.add(six_conditions(), room);
    }
    for room in [107, 106, 300] {
        cases.add(single(7), room);
    }
    for n in [2, 3, 15, 16, 17] {
        cases.add(ring(IMPLIES, &vec![255; n]), AMPLE);
    }
    cases.around_length(ring(IMPLIES, &[255; 16]));
    cases.around_length(ring(IMPLIES, &[255; 17]));
}

fn large_nets(cases: &mut Cases) {
    cases.around_length(Description::new(&[200; 48], &all_kinds_on_pairs()));
    cases.around_length(Description::new(&[3; 48], &all_kinds_around(96)));
    for kind in [CAUSES, IMPLIES, REQUIRES, EXCLUDES, SUGGESTS] {
        cases.around_length(ring(kind, &[255; 48]));
    }
    // The longest image: every relation adds a transition.
    for kind in [REQUIRES, SUGGESTS] {
        let two_rings = [IMPLIES, kind].map(|kind| ring(kind, &[9; 48]).relations);
        cases.bytes(&[9; 48], &two_rings.concat(), AMPLE);
    }
    let rising: Vec<u8> = (1..=48).collect();
    cases.net(&rising, &[], AMPLE);
}

/// All kinds between contexts c and 47 - c, as far as 96 relations go.
fn all_kinds_on_pairs() -> Vec<[u8; 3]> {
    (0..96).map(|i| [1 + i % 5, i / 5, 47 - i / 5]).collect()
}

/// The kinds in turn, each context to its first neighbour, then its second,
/// and so on; no two are the same.
fn all_kinds_around(r: usize) -> Vec<[u8; 3]> {
    (0..r as u8)
        .map(|i| [1 + i % 5, i % 48, (i % 48 + 1 + i / 48) % 48])
        .collect()
}

fn repeated_relations(cases: &mut Cases) {
    for kind in [EXCLUDES, CAUSES, IMPLIES, REQUIRES, SUGGESTS] {
        let first = [kind, 0, 1];
        let between = [REQUIRES, 2, 3];
        cases.net(&[5; 4], &[first, first], AMPLE);
        cases.net(&[5; 4], &[first, between, first], AMPLE);
        // Exchanged ends are the same only under exclusion.
        cases.net(&[5; 4], &[first, [kind, 1, 0]], AMPLE);
        cases.net(&[5; 4], &[[kind, 1, 0], between, first], AMPLE);
    }
    // Same ends, different kinds: none is the same as another.
    let mut each_kind = [1, 2, 3, 4, 5].map(|kind| [kind, 1, 0]);
    cases.net(&[5, 6], &each_kind, AMPLE);
    each_kind.reverse();
    cases.net(&[5, 6], &each_kind, AMPLE);
    cases.net(&[5, 6], &[[EXCLUDES, 0, 1], [REQUIRES, 1, 0]], AMPLE);
    // The same one at both ends of a full list.
    let mut full = all_kinds_on_pairs();
    full[95] = full[0];
    cases.net(&[5; 48], &full, AMPLE);
    full[95] = [EXCLUDES, full[0][2], full[0][1]];
    cases.net(&[5; 48], &full, AMPLE);
}

fn size_edges(cases: &mut Cases) {
    for n in [0, 1, 47, 48, 49, 50, 64, 200] {
        cases.net(&vec![5; n], &[], AMPLE);
    }
    cases.net(&[], &[[IMPLIES, 0, 1]], AMPLE);
    for r in [94, 95, 96, 97, 98, 188] {
        cases.net(&[5; 48], &all_kinds_around(r), AMPLE);
    }
    cases.bytes(&[5; 48], &[1; 600], AMPLE);
    let bytes = all_kinds_around(97).concat();
    for length in [0, 1, 2, 3, 4, 5, 6, 286, 287, 288, 289, 290, 291] {
        cases.bytes(&[5; 48], &bytes[..length], AMPLE);
    }
}

fn capacity_edges(cases: &mut Cases) {
    for position in [0, 1, 3, 4] {
        let mut capacities = [255, 1, 2, 254, 128];
        capacities[position] = 0;
        cases.net(&capacities, &[[IMPLIES, 0, 1]], AMPLE);
    }
    for position in [0, 47] {
        let mut capacities = [255; 48];
        capacities[position] = 0;
        cases.net(&capacities, &[], AMPLE);
    }
    for capacity in [0, 1, 255] {
        cases.add(single(capacity), AMPLE);
    }
    cases.net(&[0; 48], &[], AMPLE);
}

fn relation_edges(cases: &mut Cases) {
    let good = [IMPLIES, 0, 1];
    let bad = [
        [0, 0, 1],
        [6, 0, 1],
        [7, 0, 1],
        [129, 0, 1],
        [255, 0, 1],
        [IMPLIES, 4, 0],
        [IMPLIES, 0, 4],
        [EXCLUDES, 255, 0],
        [EXCLUDES, 0, 255],
        [CAUSES, 0, 48],
        [EXCLUDES, 1, 1],
        [CAUSES, 0, 0],
        [IMPLIES, 3, 3],
        [REQUIRES, 2, 2],
        [REQUIRES, 4, 4],
        [SUGGESTS, 1, 1],
        [SUGGESTS, 0, 4],
        [SUGGESTS, 4, 0],
        [0, 0, 0],
    ];
    for relation in bad {
        cases.net(&[7; 4], &[relation], AMPLE);
        cases.net(&[7; 4], &[good, relation], AMPLE);
        cases.net(&[7; 4], &[relation, good], AMPLE);
    }
    cases.net(&[7; 4], &[[IMPLIES, 3, 0], [REQUIRES, 0, 3]], AMPLE);
    cases.net(&[7; 4], &[[SUGGESTS, 3, 0], [SUGGESTS, 0, 3]], AMPLE);
    cases.net(&[7; 48], &[[CAUSES, 47, 0], [CAUSES, 0, 47]], AMPLE);
    cases.net(&[7; 48], &[[CAUSES, 48, 0]], AMPLE);
    cases.net(&[7; 48], &[[CAUSES, 0, 48]], AMPLE);
    cases.net(&[7], &[[CAUSES, 0, 1]], AMPLE);
    cases.net(&[7], &[[CAUSES, 0, 0]], AMPLE);
}

const GOOD: [u8; 3] = [IMPLIES, 0, 1];
const OTHER: [u8; 3] = [CAUSES, 1, 2];
const BAD_KIND: [u8; 3] = [6, 0, 1];
const BAD_END: [u8; 3] = [IMPLIES, 0, 49];
const BAD_SAME_ENDS: [u8; 3] = [REQUIRES, 1, 1];

fn zero_behind(n: usize) -> Vec<u8> {
    let mut capacities = vec![5; n];
    capacities[n - 1] = 0;
    capacities
}

/// Whole relations and one byte more.
fn torn(relations: &[[u8; 3]]) -> Vec<u8> {
    [&relations.concat()[..], &[3]].concat()
}

/// Each two of 3, 5, 6, 7 and 8 at once, then more of them.
fn several_refusals(cases: &mut Cases) {
    sizes_and_others(cases);
    for bad in [BAD_KIND, BAD_END, BAD_SAME_ENDS] {
        relation_and_others(cases, bad);
    }
    // 5 and 7, 5 and 8, 7 and 8, all three.
    cases.net(&zero_behind(4), &[GOOD, OTHER, GOOD], AMPLE);
    cases.net(&zero_behind(4), &[GOOD, OTHER], 12);
    cases.net(&[5; 4], &[GOOD, OTHER, GOOD], 12);
    cases.net(&[5; 4], &[[EXCLUDES, 0, 1], [EXCLUDES, 1, 0]], 0);
    cases.net(&zero_behind(4), &[GOOD, OTHER, GOOD], 0);
}

fn sizes_and_others(cases: &mut Cases) {
    let mut too_many = all_kinds_around(97);
    // 3 and 5.
    cases.net(&zero_behind(49), &[GOOD], AMPLE);
    cases.net(&zero_behind(48), &too_many, AMPLE);
    cases.bytes(&zero_behind(4), &torn(&[GOOD]), AMPLE);
    // 3 and 6.
    cases.net(&[5; 49], &[BAD_KIND], AMPLE);
    cases.net(&[], &[GOOD], AMPLE);
    cases.bytes(&[5; 4], &torn(&[BAD_KIND]), AMPLE);
    too_many[0] = BAD_SAME_ENDS;
    cases.net(&[5; 48], &too_many, AMPLE);
    // 3 and 7.
    cases.net(&[5; 49], &[GOOD, GOOD], AMPLE);
    cases.bytes(&[5; 4], &torn(&[GOOD, GOOD]), AMPLE);
    too_many[0] = too_many[96];
    cases.net(&[5; 48], &too_many, AMPLE);
    // 3 and 8.
    cases.net(&[5; 49], &[], 0);
    cases.net(&[], &[], 0);
    cases.bytes(&[5; 4], &torn(&[GOOD]), 7);
    cases.net(&[5; 48], &all_kinds_around(97), 100);
}

fn relation_and_others(cases: &mut Cases, bad: [u8; 3]) {
    // 5 and 6.
    cases.net(&zero_behind(4), &[bad], AMPLE);
    cases.net(&zero_behind(4), &[GOOD, bad], AMPLE);
    // 6 and 7: every relation is tested for 6 first.
    cases.net(&[5; 4], &[GOOD, GOOD, bad], AMPLE);
    cases.net(&[5; 4], &[bad, GOOD, GOOD], AMPLE);
    cases.net(&[5; 4], &[GOOD, bad, GOOD], AMPLE);
    cases.net(&[5; 4], &[bad, bad], AMPLE);
    // 6 and 8.
    cases.net(&[5; 4], &[GOOD, bad], 10);
    cases.net(&[5; 4], &[bad, OTHER], 0);
    // 5, 6 and 7; 6, 7 and 8; all of these.
    cases.net(&zero_behind(4), &[GOOD, GOOD, bad], AMPLE);
    cases.net(&[5; 4], &[GOOD, GOOD, bad], 20);
    cases.net(&zero_behind(4), &[bad, GOOD, GOOD], 3);
    // 3 besides.
    cases.net(&zero_behind(49), &[GOOD, GOOD, bad], 3);
    cases.bytes(&zero_behind(4), &torn(&[GOOD, GOOD, bad]), 0);
}

fn random_nets(cases: &mut Cases) {
    let mut rng = Xorshift::new(SEED);
    for i in 0..RANDOM_NETS {
        let mut description = if i % 3 == 0 {
            let r = rng.within(0..=96);
            random::description_of_size(&mut rng, 1 + i % 48, r)
        } else {
            random::description(&mut rng)
        };
        let length = image_length(&description);
        if rng.one_in(8) {
            spoil(&mut rng, &mut description);
        }
        let room = match rng.below(8) {
            0 => rng.below(length),
            1 => length,
            _ => length + rng.below(800),
        };
        cases.add(description, room);
    }
}

/// Overwrites one byte, which may or may not break a rule.
fn spoil(rng: &mut Xorshift, description: &mut Description) {
    let Description {
        capacities,
        relations,
    } = description;
    let bytes = if relations.is_empty() || rng.one_in(4) {
        capacities
    } else {
        relations
    };
    let position = rng.below(bytes.len());
    bytes[position] = rng.pick(&[0, 1, 2, 3, 4, 5, 6, 47, 48, 255]);
}
