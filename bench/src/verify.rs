//! Sets the sides against each other, byte for byte.

use crate::job::Job;
use crate::nets::{self, Description};
use crate::random::{self, Random};
use crate::side::SIDES;
use crate::workloads::Workload;

/// Stands in an output before the call, so that a byte written where none
/// should be shows.
const UNTOUCHED: u8 = 165;

pub fn compare_workload(workload: &Workload) {
    for job in &workload.jobs {
        compare_job(job, job.room(), workload.name);
    }
}

/// Has every side do the job with `room` bytes of output; stops the program
/// where they differ.
fn compare_job(job: &Job, room: usize, place: &str) {
    let outcomes: Vec<(u64, Vec<u8>)> = SIDES
        .iter()
        .map(|side| {
            let mut out = vec![UNTOUCHED; room];
            (job.perform(side, &mut out), out)
        })
        .collect();
    for (side, outcome) in SIDES.iter().zip(&outcomes).skip(1) {
        if let Some(difference) = difference(&outcomes[0], outcome) {
            panic!(
                "{place}: {} and {} differ in {}: {difference}",
                SIDES[0].name,
                side.name,
                job.name()
            );
        }
    }
}

fn difference(x: &(u64, Vec<u8>), y: &(u64, Vec<u8>)) -> Option<String> {
    if x.0 != y.0 {
        return Some(format!("values {} and {}", x.0, y.0));
    }
    let at = x.1.iter().zip(&y.1).position(|(a, b)| a != b)?;
    Some(format!("byte {at} is {} and {}", x.1[at], y.1[at]))
}

/// Random nets with random calls, whole and damaged.
pub fn compare_random(nets: u64) {
    for seed in 0..nets {
        for (job, room) in random_jobs(&mut Random::new(seed)) {
            compare_job(&job, room, &format!("net {seed}"));
        }
    }
}

/// All four functions around one net, each with the room it is given.
pub fn random_jobs(random: &mut Random) -> Vec<(Job, usize)> {
    let whole = random::description(random);
    let calls = random::calls(random, &whole, 60);
    let mut calls = nets::call_bytes(&calls);
    let mut image = whole.image();
    if random.one_in(3) {
        damage_image(random, &mut image, &whole);
    }
    let mut given = whole;
    if random.one_in(3) {
        damage_description(random, &mut given);
    }
    if random.one_in(20) {
        damage_bytes(random, &mut calls);
    }
    let jobs = [
        Job::compose(given),
        Job::Check {
            image: image.clone(),
        },
        Job::List {
            image: image.clone(),
        },
        Job::Run { image, calls },
    ];
    jobs.map(|job| {
        let room = random_room(random, &job);
        (job, room)
    })
    .into()
}

/// Mostly enough, sometimes too little, sometimes just a byte less.
fn random_room(random: &mut Random, job: &Job) -> usize {
    let room = job.room();
    match random.below(10) {
        0 => random.below(room + 1),
        1 => job.written().saturating_sub(random.below(2)),
        _ => room,
    }
}

/// Sizes, capacities, ends, kinds and repetitions that composing refuses.
fn damage_description(random: &mut Random, description: &mut Description) {
    let Description {
        capacities,
        relations,
    } = description;
    match random.below(6) {
        0 => capacities.clear(),
        1 => capacities.resize(random.within(44..=60), 3),
        2 => damage_bytes(random, capacities),
        3 => damage_bytes(random, relations),
        4 => relations.extend_from_within(..relations.len().min(3)),
        _ => relations.extend((0..random.within(1..=4)).map(|_| random.byte() % 7)),
    }
}

/// Any bytes, or in particular a capacity, a relation that repeats another,
/// or the number of records.
fn damage_image(random: &mut Random, image: &mut Vec<u8>, whole: &Description) {
    let n = whole.capacities.len();
    let r = whole.relations.len() / 3;
    match random.below(5) {
        0 => image[random.below(n)] = 0,
        1 if r > 1 => {
            let from = n + 3 * random.below(r);
            let to = n + 3 * random.below(r);
            image.copy_within(from..from + 3, to);
        }
        2 => change_record_count(image, r, random.one_in(2)),
        _ => damage_bytes(random, image),
    }
}

/// A record more or fewer, with a trailer that agrees.
pub fn change_record_count(image: &mut Vec<u8>, r: usize, more: bool) {
    const RECORD_LEN: usize = 49;
    const TRAILER_LEN: usize = 8;
    let records_end = image.len() - TRAILER_LEN;
    let last_record = records_end - RECORD_LEN..records_end;
    let mut trailer = image.split_off(records_end);
    if more {
        image.extend_from_within(last_record);
        trailer[6] += 1;
    } else {
        image.truncate(last_record.start);
        trailer[6] -= 1;
    }
    let to_records = RECORD_LEN * usize::from(trailer[6]);
    let to_relations = to_records + 3 * r;
    trailer[..2].copy_from_slice(&(to_relations as u16).to_le_bytes());
    trailer[2..4].copy_from_slice(&(to_records as u16).to_le_bytes());
    image.extend(trailer);
}

/// Changes up to three bytes, or the length.
fn damage_bytes(random: &mut Random, bytes: &mut Vec<u8>) {
    match random.below(5) {
        0 => bytes.truncate(random.below(bytes.len() + 1)),
        1 => bytes.extend((0..random.within(1..=4)).map(|_| random.byte())),
        _ => {
            for _ in 0..random.within(1..=3) {
                change_byte(random, bytes);
            }
        }
    }
}

/// The trailer, where an image says most, is met as often as the rest.
fn change_byte(random: &mut Random, bytes: &mut [u8]) {
    let Some(last) = bytes.len().checked_sub(1) else {
        return;
    };
    let at = if random.one_in(2) {
        last - random.below(8.min(bytes.len()))
    } else {
        random.below(bytes.len())
    };
    bytes[at] = match random.below(3) {
        0 => random.byte(),
        1 => bytes[at] ^ (1 << random.below(8)),
        _ => random.below(7) as u8,
    };
}
