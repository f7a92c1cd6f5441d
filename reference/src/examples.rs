//! Nets that docs/MACHINE.md names, and nets that sit at its edges.

use crate::image::compose;

/// The longest image has 9,752 bytes.
pub const IMAGE_ROOM: usize = 10_240;

pub const EXCLUDES: u8 = 1;
pub const CAUSES: u8 = 2;
pub const IMPLIES: u8 = 3;
pub const REQUIRES: u8 = 4;
pub const SUGGESTS: u8 = 5;

/// What composing is given: capacities and relation bytes.
#[derive(Clone, PartialEq, Eq, Debug)]
pub struct Description {
    pub capacities: Vec<u8>,
    pub relations: Vec<u8>,
}

impl Description {
    pub fn new(capacities: &[u8], relations: &[[u8; 3]]) -> Description {
        Description {
            capacities: capacities.to_vec(),
            relations: relations.concat(),
        }
    }

    /// The composed image, or the refusal.
    pub fn image(&self) -> Result<Vec<u8>, u8> {
        let mut out = vec![0; IMAGE_ROOM];
        let length = compose(&self.capacities, &self.relations, &mut out)?;
        out.truncate(length);
        Ok(out)
    }
}

pub fn six_conditions() -> Description {
    Description::new(
        &[1, 255, 255, 255, 255, 255],
        &[
            [REQUIRES, 1, 0],
            [IMPLIES, 3, 2],
            [EXCLUDES, 2, 4],
            [REQUIRES, 4, 0],
            [CAUSES, 3, 5],
        ],
    )
}

/// One context and no relation.
pub fn single(capacity: u8) -> Description {
    Description::new(&[capacity], &[])
}

/// Each context is related to the next, the last to the first.
pub fn ring(kind: u8, capacities: &[u8]) -> Description {
    let n = capacities.len();
    let relations: Vec<[u8; 3]> = (0..n)
        .map(|c| [kind, c as u8, ((c + 1) % n) as u8])
        .collect();
    Description::new(capacities, &relations)
}

/// Each context is related to the next.
pub fn chain(kind: u8, capacities: &[u8]) -> Description {
    let relations: Vec<[u8; 3]> = (1..capacities.len())
        .map(|c| [kind, c as u8 - 1, c as u8])
        .collect();
    Description::new(capacities, &relations)
}

/// Activating context 0 takes exactly 4,095 + `leaves` firings and leaves
/// nothing on a temporary place: seven layers of two contexts double the
/// tokens to 64 each, the last layer causes 30 contexts 128 times each, and
/// the leaves are caused once each by context 0.
pub fn doubling(leaves: usize) -> Description {
    let mut relations = vec![[CAUSES, 0, 1], [CAUSES, 0, 2]];
    for layer in 1..7u8 {
        let (left, right) = (2 * layer - 1, 2 * layer);
        for from in [left, right] {
            relations.extend([[CAUSES, from, left + 2], [CAUSES, from, right + 2]]);
        }
    }
    for wide in 15..45 {
        relations.extend([[CAUSES, 13, wide], [CAUSES, 14, wide]]);
    }
    relations.extend((0..leaves as u8).map(|leaf| [CAUSES, 0, 45 + leaf]));
    Description::new(&vec![255; 45 + leaves], &relations)
}

/// Context 1 brings 46 others with it, and each of these requires context 0:
/// deactivating that one forces every token of theirs off.
pub fn held_up() -> Description {
    let relations: Vec<[u8; 3]> = (2..48)
        .flat_map(|c| [[CAUSES, 1, c], [REQUIRES, c, 0]])
        .collect();
    Description::new(&[255; 48], &relations)
}

/// Deactivating context 2 forces 0 off and then 1, which asks 0 off in vain:
/// refused after forced firings.
pub fn forced_in_vain(capacities: [u8; 3]) -> Description {
    Description::new(
        &capacities,
        &[[REQUIRES, 0, 2], [IMPLIES, 1, 2], [IMPLIES, 1, 0]],
    )
}
