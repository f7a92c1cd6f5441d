//! Random nets and calls, the same on every run with the same seed.

use crate::examples::{Description, CAUSES, EXCLUDES, IMPLIES, REQUIRES, SUGGESTS};
use crate::machine::Call;
use crate::net::{MAX_CONTEXTS, MAX_RELATIONS};
use std::ops::RangeInclusive;

/// Marsaglia's xorshift generator of 64 bits.
pub struct Xorshift {
    state: u64,
}

impl Xorshift {
    /// Neighbouring seeds are spread apart; the state must not be 0.
    pub fn new(seed: u64) -> Xorshift {
        let spread = seed.wrapping_add(1).wrapping_mul(0x9E37_79B9_7F4A_7C15);
        let mut rng = Xorshift {
            state: spread.max(1),
        };
        for _ in 0..16 {
            rng.draw();
        }
        rng
    }

    fn draw(&mut self) -> u64 {
        self.state ^= self.state << 13;
        self.state ^= self.state >> 7;
        self.state ^= self.state << 17;
        self.state
    }

    /// A number below `bound`.
    pub fn below(&mut self, bound: usize) -> usize {
        ((self.draw() >> 16) % bound as u64) as usize
    }

    pub fn within(&mut self, range: RangeInclusive<usize>) -> usize {
        range.start() + self.below(range.end() - range.start() + 1)
    }

    pub fn byte(&mut self) -> u8 {
        self.below(256) as u8
    }

    pub fn one_in(&mut self, chances: usize) -> bool {
        self.below(chances) == 0
    }

    pub fn pick<T: Copy>(&mut self, choices: &[T]) -> T {
        choices[self.below(choices.len())]
    }
}

/// A net within all limits: mostly small, some of the largest size.
pub fn description(rng: &mut Xorshift) -> Description {
    let n = match rng.below(12) {
        0 => rng.within(MAX_CONTEXTS - 2..=MAX_CONTEXTS),
        1 => rng.within(1..=MAX_CONTEXTS),
        2 | 3 => rng.within(8..=24),
        4..=7 => rng.within(4..=12),
        _ => rng.within(1..=6),
    };
    let wanted = match rng.below(8) {
        0 => MAX_RELATIONS - rng.below(20),
        1 => rng.within(0..=MAX_RELATIONS / 2),
        2..=4 => rng.within(0..=2 * n),
        _ => rng.within(0..=n.min(10)),
    };
    Description {
        capacities: capacities(rng, n),
        relations: relations(rng, n, wanted),
    }
}

/// A net of the given number of contexts and at most `r` relations.
pub fn description_of_size(rng: &mut Xorshift, n: usize, r: usize) -> Description {
    Description {
        capacities: capacities(rng, n),
        relations: relations(rng, n, r),
    }
}

fn capacities(rng: &mut Xorshift, n: usize) -> Vec<u8> {
    let style = rng.below(6);
    let one = |rng: &mut Xorshift| match style {
        0 => rng.within(1..=3),
        1 => rng.within(2..=9),
        2 => rng.within(1..=60),
        3 => 255,
        4 => rng.pick(&[1, 2, 3, 20, 254, 255]),
        _ => rng.within(1..=255),
    };
    (0..n).map(|_| one(rng) as u8).collect()
}

/// Kinds in the proportions that one net draws from; the mixed one is the
/// most frequent, the others let long cascades and deep chains occur, or
/// suggestions that swallow much.
const KIND_MIXES: [&[u8]; 10] = [
    &[EXCLUDES, CAUSES, IMPLIES, REQUIRES, SUGGESTS],
    &[EXCLUDES, CAUSES, IMPLIES, REQUIRES, SUGGESTS],
    &[EXCLUDES, CAUSES, IMPLIES, REQUIRES],
    &[CAUSES, IMPLIES],
    &[CAUSES, CAUSES, IMPLIES, REQUIRES, SUGGESTS],
    &[IMPLIES, IMPLIES, REQUIRES],
    &[EXCLUDES, IMPLIES, REQUIRES],
    &[EXCLUDES, CAUSES, CAUSES, CAUSES, IMPLIES, IMPLIES],
    &[EXCLUDES, CAUSES, IMPLIES, SUGGESTS, SUGGESTS],
    &[IMPLIES, REQUIRES, SUGGESTS],
];

/// Up to `wanted` relations, no two the same; small nets have fewer.
fn relations(rng: &mut Xorshift, n: usize, wanted: usize) -> Vec<u8> {
    let mut list: Vec<[u8; 3]> = Vec::new();
    if n < 2 {
        return Vec::new();
    }
    let mix = rng.pick(&KIND_MIXES);
    let without_rings = rng.one_in(2);
    for _ in 0..8 * wanted {
        if list.len() == wanted {
            break;
        }
        let drawn = relation(rng, n, mix, without_rings);
        if !list.iter().any(|earlier| is_same(*earlier, drawn)) {
            list.push(drawn);
        }
    }
    list.concat()
}

fn relation(rng: &mut Xorshift, n: usize, mix: &[u8], without_rings: bool) -> [u8; 3] {
    let kind = rng.pick(mix);
    let a = rng.below(n);
    let b = (a + rng.within(1..=n - 1)) % n;
    // Rising ends cannot close a ring; exclusion keeps both directions.
    if without_rings && kind != EXCLUDES {
        [kind, a.min(b) as u8, a.max(b) as u8]
    } else {
        [kind, a as u8, b as u8]
    }
}

fn is_same(x: [u8; 3], y: [u8; 3]) -> bool {
    let [kind, a, b] = x;
    x == y || (kind == EXCLUDES && y == [kind, b, a])
}

/// Calls that keep to few contexts, so that many are granted and conditions
/// meet each other.
pub fn calls(rng: &mut Xorshift, description: &Description, count: usize) -> Vec<Call> {
    let n = description.capacities.len();
    let favourites = favourites(rng, description);
    (0..count)
        .map(|_| match rng.below(100) {
            0..=11 => Call::Undo,
            12..=14 => Call::Settle,
            15..=17 => out_of_range(rng, n),
            18..=26 => request(rng, n, &[]),
            _ => request(rng, n, &favourites),
        })
        .collect()
}

/// Both ends of some relations: requirements can then be met.
fn favourites(rng: &mut Xorshift, description: &Description) -> Vec<usize> {
    let n = description.capacities.len();
    let triples: Vec<&[u8]> = description.relations.chunks_exact(3).collect();
    let mut contexts: Vec<usize> = (0..rng.within(1..=3))
        .map(|_| rng.below(n.max(1)))
        .collect();
    if !triples.is_empty() {
        for _ in 0..rng.within(0..=3) {
            let triple = rng.pick(&triples);
            contexts.extend([usize::from(triple[1]), usize::from(triple[2])]);
        }
    }
    contexts
}

fn request(rng: &mut Xorshift, n: usize, favourites: &[usize]) -> Call {
    let context = if favourites.is_empty() {
        rng.below(n.max(1))
    } else {
        rng.pick(favourites)
    };
    if rng.below(10) < 7 {
        Call::Activate(context)
    } else {
        Call::Deactivate(context)
    }
}

fn out_of_range(rng: &mut Xorshift, n: usize) -> Call {
    let context = rng.pick(&[n, n + 1, 48, 63, 64, 255, 256, 256 + n, 65_535]);
    if rng.one_in(2) {
        Call::Activate(context)
    } else {
        Call::Deactivate(context)
    }
}
