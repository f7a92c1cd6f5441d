//! Random nets and calls, the same on every run with the same seed.

use crate::nets::{
    Call, Description, CAUSES, EXCLUDES, IMPLIES, MAX_CONTEXTS, MAX_RELATIONS, REQUIRES, SUGGESTS,
};
use std::ops::RangeInclusive;

/// Marsaglia's xorshift generator of 64 bits.
pub struct Random {
    state: u64,
}

impl Random {
    /// Neighbouring seeds are spread apart; the state must not be 0.
    pub fn new(seed: u64) -> Random {
        let spread = seed.wrapping_add(1).wrapping_mul(0x9E37_79B9_7F4A_7C15);
        let mut random = Random {
            state: spread.max(1),
        };
        for _ in 0..16 {
            random.draw();
        }
        random
    }

    fn draw(&mut self) -> u64 {
        self.state ^= self.state << 13;
        self.state ^= self.state >> 7;
        self.state ^= self.state << 17;
        self.state
    }

    /// A number below `bound`.
    pub fn below(&mut self, bound: usize) -> usize {
        ((self.draw() >> 16) % bound as u64) as usize
    }

    pub fn within(&mut self, range: RangeInclusive<usize>) -> usize {
        range.start() + self.below(range.end() - range.start() + 1)
    }

    pub fn byte(&mut self) -> u8 {
        self.below(256) as u8
    }

    pub fn one_in(&mut self, chances: usize) -> bool {
        self.below(chances) == 0
    }

    pub fn pick<T: Copy>(&mut self, choices: &[T]) -> T {
        choices[self.below(choices.len())]
    }
}

/// The kinds that one net draws from.
const KIND_MIXES: [&[u8]; 8] = [
    &[EXCLUDES, CAUSES, IMPLIES, REQUIRES, SUGGESTS],
    &[EXCLUDES, CAUSES, IMPLIES, REQUIRES],
    &[CAUSES, IMPLIES],
    &[CAUSES, CAUSES, IMPLIES, REQUIRES, SUGGESTS],
    &[IMPLIES, REQUIRES],
    &[IMPLIES, REQUIRES, SUGGESTS],
    &[EXCLUDES, CAUSES, IMPLIES],
    &[EXCLUDES, CAUSES, IMPLIES, SUGGESTS],
];

pub const ALL_KINDS: &[u8] = KIND_MIXES[0];

/// A net within all limits, of any size; half of them may hold rings.
pub fn description(random: &mut Random) -> Description {
    let n = match random.below(4) {
        0 => random.within(MAX_CONTEXTS - 2..=MAX_CONTEXTS),
        1 => random.within(8..=32),
        _ => random.within(1..=10),
    };
    let r = match random.below(4) {
        0 => random.within(MAX_RELATIONS - 10..=MAX_RELATIONS),
        1 => random.within(0..=2 * n),
        _ => random.within(0..=n),
    };
    let mix = random.pick(&KIND_MIXES);
    let rings = random.one_in(2);
    sized_description(random, n, r.min(MAX_RELATIONS), mix, rings)
}

/// A net of `n` contexts and at most `r` relations.
pub fn sized_description(
    random: &mut Random,
    n: usize,
    r: usize,
    kinds: &[u8],
    rings: bool,
) -> Description {
    Description {
        capacities: capacities(random, n),
        relations: relations(random, n, r, kinds, rings),
    }
}

/// Small capacities are met often, large ones let cascades run.
fn capacities(random: &mut Random, n: usize) -> Vec<u8> {
    let style = random.below(4);
    let mut one = || match style {
        0 => random.within(1..=3),
        1 => random.within(2..=30),
        2 => random.pick(&[1, 2, 254, 255]),
        _ => 255,
    };
    (0..n).map(|_| one() as u8).collect()
}

/// Up to `wanted` relations, no two the same; small nets have fewer.
fn relations(random: &mut Random, n: usize, wanted: usize, kinds: &[u8], rings: bool) -> Vec<u8> {
    let mut list: Vec<[u8; 3]> = Vec::new();
    if n < 2 {
        return Vec::new();
    }
    for _ in 0..8 * wanted {
        if list.len() == wanted {
            break;
        }
        let drawn = relation(random, n, kinds, rings);
        if !list.iter().any(|earlier| is_same(*earlier, drawn)) {
            list.push(drawn);
        }
    }
    list.concat()
}

fn relation(random: &mut Random, n: usize, kinds: &[u8], rings: bool) -> [u8; 3] {
    let kind = random.pick(kinds);
    let a = random.below(n);
    let b = (a + random.within(1..=n - 1)) % n;
    // Rising ends cannot close a ring; an exclusion may point either way.
    if rings || kind == EXCLUDES {
        [kind, a as u8, b as u8]
    } else {
        [kind, a.min(b) as u8, a.max(b) as u8]
    }
}

fn is_same(x: [u8; 3], y: [u8; 3]) -> bool {
    let [kind, a, b] = x;
    x == y || (kind == EXCLUDES && y == [kind, b, a])
}

/// Calls that keep to some contexts, so that many are granted and conditions
/// meet each other.
pub fn calls(random: &mut Random, description: &Description, count: usize) -> Vec<Call> {
    let n = description.capacities.len().max(1);
    let favourites = favourites(random, description, n);
    (0..count)
        .map(|_| match random.below(100) {
            0..=11 => Call::Undo,
            12..=14 => Call::Settle,
            15..=17 => out_of_range(random, n),
            18..=29 => {
                let context = random.below(n);
                request(random, context)
            }
            _ => {
                let context = random.pick(&favourites);
                request(random, context)
            }
        })
        .collect()
}

/// Both ends of some relations: requirements can then be met.
fn favourites(random: &mut Random, description: &Description, n: usize) -> Vec<usize> {
    let triples: Vec<&[u8]> = description.relations.chunks_exact(3).collect();
    let mut contexts = vec![random.below(n), random.below(n)];
    if !triples.is_empty() {
        for _ in 0..random.within(0..=4) {
            let triple = random.pick(&triples);
            contexts.extend([usize::from(triple[1]), usize::from(triple[2])]);
        }
    }
    contexts
}

fn request(random: &mut Random, context: usize) -> Call {
    if random.below(10) < 6 {
        Call::Activate(context as u16)
    } else {
        Call::Deactivate(context as u16)
    }
}

fn out_of_range(random: &mut Random, n: usize) -> Call {
    let context = random.pick(&[n, n + 1, 48, 63, 64, 255, 256, 256 + n, 65_535]);
    request(random, context)
}
