//! Nets and calls as the sides take them, and the nets that have a name.

use crate::side::OPTIMISED;

pub const EXCLUDES: u8 = 1;
pub const CAUSES: u8 = 2;
pub const IMPLIES: u8 = 3;
pub const REQUIRES: u8 = 4;
pub const SUGGESTS: u8 = 5;

pub const MAX_CONTEXTS: usize = 48;
pub const MAX_RELATIONS: usize = 96;
/// No image is longer.
pub const IMAGE_ROOM: usize = 9752;
/// The longest list: two sizes, capacities, relations.
pub const LIST_ROOM: usize = 2 + MAX_CONTEXTS + 3 * MAX_RELATIONS;
/// A verdict, the firings, the forced firings.
pub const ANSWER_LEN: usize = 5;
pub const CALL_LEN: usize = 3;

/// What composing is given.
#[derive(Clone, Debug)]
pub struct Description {
    pub capacities: Vec<u8>,
    pub relations: Vec<u8>,
}

impl Description {
    pub fn new(capacities: &[u8], relations: &[[u8; 3]]) -> Description {
        Description {
            capacities: capacities.to_vec(),
            relations: relations.concat(),
        }
    }

    /// The image of a net that composing accepts.
    pub fn image(&self) -> Vec<u8> {
        let mut image = vec![0; IMAGE_ROOM];
        let length = (OPTIMISED.compose)(&self.capacities, &self.relations, &mut image);
        assert!(length >= 100, "composing refused with {length}");
        image.truncate(length as usize);
        image
    }
}

#[derive(Clone, Copy, Debug)]
pub enum Call {
    Activate(u16),
    Deactivate(u16),
    Undo,
    Settle,
}

impl Call {
    fn to_bytes(self) -> [u8; CALL_LEN] {
        let (kind, context) = match self {
            Call::Activate(context) => (0, context),
            Call::Deactivate(context) => (1, context),
            Call::Undo => (2, 0),
            Call::Settle => (3, 0),
        };
        let [low, high] = context.to_le_bytes();
        [kind, low, high]
    }
}

pub fn call_bytes(calls: &[Call]) -> Vec<u8> {
    calls.iter().flat_map(|call| call.to_bytes()).collect()
}

/// Bytes of the answers to a list of calls.
pub fn answers_len(calls: &[u8]) -> usize {
    calls.len() / CALL_LEN * ANSWER_LEN
}

/// Room for the answers, every count and the totals.
pub fn answer_room(calls: &[u8]) -> usize {
    answers_len(calls) + MAX_CONTEXTS + 12
}

pub fn six_conditions() -> Description {
    Description::new(
        &[1, 255, 255, 255, 255, 255],
        &[
            [REQUIRES, 1, 0],
            [IMPLIES, 3, 2],
            [EXCLUDES, 2, 4],
            [REQUIRES, 4, 0],
            [CAUSES, 3, 5],
        ],
    )
}

/// Each context implies the next.
pub fn chain_of_implications(n: u8) -> Description {
    let relations: Vec<[u8; 3]> = (1..n).map(|c| [IMPLIES, c - 1, c]).collect();
    Description::new(&vec![255; usize::from(n)], &relations)
}

/// Each context implies the next, the last the first.
pub fn ring_of_implications(n: u8) -> Description {
    let relations: Vec<[u8; 3]> = (0..n).map(|c| [IMPLIES, c, (c + 1) % n]).collect();
    Description::new(&vec![255; usize::from(n)], &relations)
}

/// Context 0 excludes every other.
pub fn star_of_exclusions(n: u8) -> Description {
    let relations: Vec<[u8; 3]> = (1..n).map(|c| [EXCLUDES, 0, c]).collect();
    Description::new(&vec![255; usize::from(n)], &relations)
}

/// Contexts 0 to 11 of `full_board` are bases, 12 to 23 sources, the rest sinks.
pub const GROUP: u8 = 12;
pub const BASE_CAPACITY: u8 = 5;
pub const SOURCE_CAPACITY: u8 = 3;
/// What a sink gets from its two sources.
pub const SINK_SHARE: u8 = 2 * SOURCE_CAPACITY;
pub const SINK_CAPACITY: u8 = SINK_SHARE + 3;

/// Each of 24 sinks requires two bases, is implied by one source and caused
/// by another. Without exclusions all contexts can stand at their capacity,
/// and all 192 transitions are there.
pub fn full_board() -> Description {
    let relations: Vec<[u8; 3]> = (0..2 * GROUP)
        .flat_map(|i| {
            let (sink, base, source) = (2 * GROUP + i, i % GROUP, GROUP + i % GROUP);
            let (next_base, next_source) = ((i + 5) % GROUP, GROUP + (i + 1) % GROUP);
            [
                [REQUIRES, sink, base],
                [IMPLIES, source, sink],
                [CAUSES, next_source, sink],
                [REQUIRES, sink, next_base],
            ]
        })
        .collect();
    let group = usize::from(GROUP);
    let capacities = [
        vec![BASE_CAPACITY; group],
        vec![SOURCE_CAPACITY; group],
        vec![SINK_CAPACITY; 2 * group],
    ]
    .concat();
    Description::new(&capacities, &relations)
}

/// 48 contexts and 96 relations of all kinds; a single exclusion, because
/// only the other kinds add a record.
pub fn largest() -> Description {
    let n = MAX_CONTEXTS as u8;
    let mut relations = vec![[EXCLUDES, 0, n - 1]];
    for i in 0..MAX_RELATIONS as u8 - 1 {
        let kind = CAUSES + i % 4;
        let a = i % n;
        let b = (a + 1 + i / 3) % n;
        relations.push([kind, a, b]);
    }
    let capacities: Vec<u8> = (0..n).map(|c| 255 - c).collect();
    Description::new(&capacities, &relations)
}
