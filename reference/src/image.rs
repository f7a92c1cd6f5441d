//! The image of a net: composing writes it, loading tests it.

use crate::net::{ContextSet, Net, Transition, MAX_CONTEXTS, MAX_RELATIONS, RELATION_LEN};
use crate::refusal;
use std::ops::Range;

/// Bytes of one set of contexts in a record.
const SET_LEN: usize = 6;
/// A priority and eight sets.
pub const RECORD_LEN: usize = 1 + 8 * SET_LEN;
pub const TRAILER_LEN: usize = 8;
pub const EDITION: u8 = 1;

/// Writes the image of the net to the front of `out` and returns its length.
/// A refusal writes nothing.
pub fn compose(capacities: &[u8], relations: &[u8], out: &mut [u8]) -> Result<usize, u8> {
    let (r, rest) = (
        relations.len() / RELATION_LEN,
        relations.len() % RELATION_LEN,
    );
    if rest != 0 || !sizes_fit(capacities.len(), r) {
        return Err(refusal::SIZES);
    }
    let image = image_of(&Net::build(capacities, relations)?);
    let front = out.get_mut(..image.len()).ok_or(refusal::SHORT_OUTPUT)?;
    front.copy_from_slice(&image);
    Ok(image.len())
}

/// Tests an image; gives its net and where in the image its records stand.
pub fn load(image: &[u8]) -> Result<(Net, Range<usize>), u8> {
    let trailer_start = image
        .len()
        .checked_sub(TRAILER_LEN)
        .ok_or(refusal::SHORT_IMAGE)?;
    let trailer = Trailer::read(&image[trailer_start..]);
    if trailer.edition != EDITION {
        return Err(refusal::EDITION);
    }
    if !sizes_fit(trailer.n, trailer.r) {
        return Err(refusal::SIZES);
    }
    if !trailer.agrees_with_length(image.len()) {
        return Err(refusal::DISTANCES);
    }
    let relations_start = trailer_start - trailer.to_relations;
    let records_start = trailer_start - trailer.to_records;
    let net = Net::build(&image[..trailer.n], &image[relations_start..records_start])?;
    let records = records_start..trailer_start;
    if trailer.t != net.transitions().len() || image[records.clone()] != records_of(&net) {
        return Err(refusal::RECORDS);
    }
    Ok((net, records))
}

fn sizes_fit(n: usize, r: usize) -> bool {
    (1..=MAX_CONTEXTS).contains(&n) && r <= MAX_RELATIONS
}

struct Trailer {
    /// From the trailer's start back to the first relation byte.
    to_relations: usize,
    /// From the trailer's start back to the first record.
    to_records: usize,
    n: usize,
    r: usize,
    t: usize,
    edition: u8,
}

impl Trailer {
    fn of(net: &Net) -> Trailer {
        let r = net.relations().len();
        let t = net.transitions().len();
        Trailer {
            to_relations: RELATION_LEN * r + RECORD_LEN * t,
            to_records: RECORD_LEN * t,
            n: net.contexts(),
            r,
            t,
            edition: EDITION,
        }
    }

    fn read(bytes: &[u8]) -> Trailer {
        let pair = |at: usize| usize::from(u16::from_le_bytes([bytes[at], bytes[at + 1]]));
        Trailer {
            to_relations: pair(0),
            to_records: pair(2),
            n: usize::from(bytes[4]),
            r: usize::from(bytes[5]),
            t: usize::from(bytes[6]),
            edition: bytes[7],
        }
    }

    fn to_bytes(&self) -> [u8; TRAILER_LEN] {
        let [relations_low, relations_high] = (self.to_relations as u16).to_le_bytes();
        let [records_low, records_high] = (self.to_records as u16).to_le_bytes();
        [
            relations_low,
            relations_high,
            records_low,
            records_high,
            self.n as u8,
            self.r as u8,
            self.t as u8,
            self.edition,
        ]
    }

    /// Goes by the trailer's own t; whether t is right is tested last.
    fn agrees_with_length(&self, image_len: usize) -> bool {
        let relations_len = RELATION_LEN * self.r;
        let records_len = RECORD_LEN * self.t;
        self.to_relations == relations_len + records_len
            && self.to_records == records_len
            && image_len == self.n + relations_len + records_len + TRAILER_LEN
    }
}

fn image_of(net: &Net) -> Vec<u8> {
    let mut image = net.capacities().to_vec();
    image.extend(net.relation_bytes());
    image.extend(records_of(net));
    image.extend(Trailer::of(net).to_bytes());
    image
}

fn records_of(net: &Net) -> Vec<u8> {
    net.transitions().iter().flat_map(record).collect()
}

/// Nothing is ever inhibited by a Pr(¬c), so that set has no bytes. The arcs
/// tell a forced transition, so the image does not say it again.
fn record(transition: &Transition) -> Vec<u8> {
    let Transition {
        priority,
        forced: _,
        takes,
        gives,
        inhibited_by,
    } = transition;
    let sets = [
        takes.context,
        takes.pr,
        takes.pr_not,
        gives.context,
        gives.pr,
        gives.pr_not,
        inhibited_by.context,
        inhibited_by.pr,
    ];
    let mut bytes = vec![*priority];
    bytes.extend(sets.iter().flat_map(|&set| set_bytes(set)));
    bytes
}

/// Context c is bit c mod 8 of byte c/8.
fn set_bytes(set: ContextSet) -> [u8; SET_LEN] {
    std::array::from_fn(|i| (set >> (8 * i)) as u8)
}
