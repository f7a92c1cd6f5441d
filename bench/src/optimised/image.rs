//! The image: composing writes it, loading tests it.

use super::arcs::{Ends, Net, Set, Transition, MAX_CONTEXTS, MAX_RELATIONS, RELATION_LEN};

pub const REFUSED_SHORT_IMAGE: u8 = 1;
pub const REFUSED_EDITION: u8 = 2;
pub const REFUSED_SIZES: u8 = 3;
pub const REFUSED_DISTANCES: u8 = 4;
pub const REFUSED_CAPACITY: u8 = 5;
pub const REFUSED_RELATION: u8 = 6;
pub const REFUSED_REPETITION: u8 = 7;
pub const REFUSED_SHORT_OUTPUT: u8 = 8;
pub const REFUSED_RECORDS: u8 = 9;

/// A priority and eight sets of six bytes.
const RECORD_LEN: usize = 1 + 8 * SET_LEN;
const SET_LEN: usize = 6;
const TRAILER_LEN: usize = 8;
const EDITION: u8 = 1;

pub fn compose(capacities: &[u8], relations: &[u8], out: &mut [u8]) -> Result<usize, u8> {
    let r = relations.len() / RELATION_LEN;
    if !relations.len().is_multiple_of(RELATION_LEN) || !sizes_fit(capacities.len(), r) {
        return Err(REFUSED_SIZES);
    }
    let mut ends = Ends::NONE;
    let net = Net::new(capacities, relations, &mut ends)?;
    let layout = Layout::of(&net);
    let image = out.get_mut(..layout.length()).ok_or(REFUSED_SHORT_OUTPUT)?;
    write(&net, layout, image);
    Ok(image.len())
}

/// The net of an accepted image; its sets are made in `ends`.
pub fn load<'a>(image: &'a [u8], ends: &'a mut Ends) -> Result<Net<'a>, u8> {
    let (body, trailer) = image
        .split_last_chunk::<TRAILER_LEN>()
        .ok_or(REFUSED_SHORT_IMAGE)?;
    let [.., n, r, t, edition] = trailer.map(usize::from);
    if edition != usize::from(EDITION) {
        return Err(REFUSED_EDITION);
    }
    if !sizes_fit(n, r) {
        return Err(REFUSED_SIZES);
    }
    let layout = Layout { n, r, t };
    if *trailer != layout.trailer() || image.len() != layout.length() {
        return Err(REFUSED_DISTANCES);
    }
    let (capacities, rest) = body.split_at(n);
    let (relations, _) = rest.split_at(RELATION_LEN * r);
    let net = Net::new(capacities, relations, ends)?;
    if t != net.transition_count() || !records_agree(&net, &image[layout.records()..]) {
        return Err(REFUSED_RECORDS);
    }
    Ok(net)
}

fn sizes_fit(n: usize, r: usize) -> bool {
    (1..=MAX_CONTEXTS).contains(&n) && r <= MAX_RELATIONS
}

/// The numbers that fix where everything stands.
#[derive(Clone, Copy)]
struct Layout {
    n: usize,
    r: usize,
    t: usize,
}

impl Layout {
    fn of(net: &Net) -> Layout {
        Layout {
            n: net.contexts(),
            r: net.relation_count(),
            t: net.transition_count(),
        }
    }

    /// Where the records start.
    fn records(self) -> usize {
        self.n + RELATION_LEN * self.r
    }

    fn length(self) -> usize {
        self.records() + RECORD_LEN * self.t + TRAILER_LEN
    }

    fn trailer(self) -> [u8; TRAILER_LEN] {
        let to_records = RECORD_LEN * self.t;
        let to_relations = RELATION_LEN * self.r + to_records;
        let [relations_low, relations_high] = (to_relations as u16).to_le_bytes();
        let [records_low, records_high] = (to_records as u16).to_le_bytes();
        [
            relations_low,
            relations_high,
            records_low,
            records_high,
            self.n as u8,
            self.r as u8,
            self.t as u8,
            EDITION,
        ]
    }
}

fn write(net: &Net, layout: Layout, image: &mut [u8]) {
    let (front, records) = image.split_at_mut(layout.records());
    let (capacities, relations) = front.split_at_mut(layout.n);
    capacities.copy_from_slice(net.capacities);
    relations.copy_from_slice(net.relations);
    write_records(net, records);
    // Last, because the last record's writing spills into it.
    let trailer = records.last_chunk_mut().expect("the image has a trailer");
    *trailer = layout.trailer();
}

/// The eight sets of a record in order.
#[inline]
fn sets(transition: &Transition) -> [Set; 8] {
    [
        transition.takes,
        transition.takes_pr,
        transition.takes_pr_not,
        transition.gives,
        transition.gives_pr,
        transition.gives_pr_not,
        transition.inhibited_by,
        transition.inhibited_by_pr,
    ]
}

/// A record and the two bytes behind it, which its last set is read and
/// written with: sets move as whole words. The trailer follows the last one.
const SPILL_LEN: usize = RECORD_LEN + 2;

fn write_records(net: &Net, records: &mut [u8]) {
    let mut start = 0;
    net.transitions().for_each(|transition| {
        let record: &mut [u8; SPILL_LEN] = (&mut records[start..start + SPILL_LEN])
            .try_into()
            .expect("of that length");
        record[0] = transition.priority;
        for (i, set) in sets(&transition).into_iter().enumerate() {
            let at = 1 + SET_LEN * i;
            record[at..at + 8].copy_from_slice(&set.to_le_bytes());
        }
        start += RECORD_LEN;
    });
}

fn records_agree(net: &Net, records: &[u8]) -> bool {
    let mut start = 0;
    let mut difference = 0;
    net.transitions().for_each(|transition| {
        let record: &[u8; SPILL_LEN] = records[start..start + SPILL_LEN]
            .try_into()
            .expect("of that length");
        difference |= u64::from(record[0] ^ transition.priority);
        for (i, set) in sets(&transition).into_iter().enumerate() {
            let at = 1 + SET_LEN * i;
            let word: [u8; 8] = record[at..at + 8].try_into().expect("of that length");
            // The shift drops the next set's two bytes.
            difference |= (u64::from_le_bytes(word) ^ set) << 16;
        }
        start += RECORD_LEN;
    });
    difference == 0
}
