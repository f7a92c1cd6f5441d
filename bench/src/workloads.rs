//! What is timed. A workload is a list of jobs that all sides are given.

use crate::job::Job;
use crate::nets::{self, Call};
use crate::random::{self, Random};
use crate::side::Side;

/// What the time is divided by.
#[derive(Clone, Copy, PartialEq, Eq)]
pub enum Unit {
    Image,
    Call,
    Firing,
}

impl Unit {
    pub fn name(self) -> &'static str {
        match self {
            Unit::Image => "image",
            Unit::Call => "call",
            Unit::Firing => "firing",
        }
    }
}

pub struct Workload {
    pub name: &'static str,
    pub unit: Unit,
    pub jobs: Vec<Job>,
}

impl Workload {
    pub fn calls(&self) -> usize {
        self.jobs.iter().map(Job::calls).sum()
    }

    pub fn firings(&self) -> usize {
        self.jobs.iter().map(Job::firings).sum()
    }

    pub fn units(&self) -> usize {
        match self.unit {
            Unit::Image => self.jobs.len(),
            Unit::Call => self.calls(),
            Unit::Firing => self.firings(),
        }
    }

    /// Whether it runs calls; otherwise it is about images alone.
    pub fn is_run(&self) -> bool {
        self.unit != Unit::Image
    }

    /// The output buffers, one for each job. They are not cleared between
    /// passes.
    pub fn rooms(&self) -> Vec<Vec<u8>> {
        self.jobs.iter().map(|job| vec![0; job.room()]).collect()
    }

    /// All jobs once, one after the other.
    pub fn perform(&self, side: &Side, rooms: &mut [Vec<u8>]) -> u64 {
        let jobs = self.jobs.iter().zip(rooms);
        jobs.fold(0, |sum: u64, (job, out)| {
            sum.wrapping_add(job.perform(side, out))
        })
    }
}

type Jobs = fn() -> Vec<Job>;

/// The jobs are made when a workload is asked for, so that a run of one does
/// not set up the others.
const WORKLOADS: [(&str, Unit, Jobs); 10] = [
    ("compose", Unit::Image, compose),
    ("load", Unit::Image, load),
    ("list", Unit::Image, list),
    ("chain", Unit::Firing, chain),
    ("star", Unit::Call, star),
    ("six", Unit::Call, six),
    ("ring17", Unit::Firing, ring17),
    ("random", Unit::Call, random_without_rings),
    ("random-rings", Unit::Firing, random_with_rings),
    ("full-board", Unit::Call, full_board),
];

pub fn names() -> impl Iterator<Item = &'static str> {
    WORKLOADS.iter().map(|(name, ..)| *name)
}

pub fn named(wanted: &str) -> Option<Workload> {
    let (name, unit, jobs) = *WORKLOADS.iter().find(|(name, ..)| *name == wanted)?;
    Some(Workload {
        name,
        unit,
        jobs: jobs(),
    })
}

fn compose() -> Vec<Job> {
    vec![Job::compose(nets::largest())]
}

fn load() -> Vec<Job> {
    let image = nets::largest().image();
    vec![Job::Check { image }]
}

fn list() -> Vec<Job> {
    let image = nets::largest().image();
    vec![Job::List { image }]
}

/// 48 firings up and 48 down the chain, again and again.
fn chain() -> Vec<Job> {
    let calls = [Call::Activate(0), Call::Deactivate(0)].repeat(100);
    vec![Job::run(&nets::chain_of_implications(48), &calls)]
}

/// The centre and each point in turn keep the other out.
fn star() -> Vec<Job> {
    let around = (1..48).flat_map(|point| {
        [
            Call::Activate(0),
            Call::Activate(point),
            Call::Deactivate(0),
            Call::Activate(point),
            Call::Activate(0),
            Call::Deactivate(point),
            Call::Deactivate(point),
            Call::Undo,
            Call::Undo,
            Call::Undo,
        ]
    });
    let calls: Vec<Call> = around.collect::<Vec<_>>().repeat(4);
    vec![Job::run(&nets::star_of_exclusions(48), &calls)]
}

/// The worked example's calls, then random ones.
fn six() -> Vec<Job> {
    let net = nets::six_conditions();
    let mut calls = example_calls();
    calls.extend(random::calls(&mut Random::new(6), &net, 2_000));
    vec![Job::run(&net, &calls)]
}

/// The example of bench-run and the cases P1 to P8, one behind the other
/// instead of each on a fresh net.
fn example_calls() -> Vec<Call> {
    let on = Call::Activate;
    let off = Call::Deactivate;
    let (undo, settle) = (Call::Undo, Call::Settle);
    let cases: [&[Call]; 8] = [
        &[on(0), on(4), on(3), off(0), undo, undo, settle, undo],
        &[on(1)],
        &[on(0), on(0)],
        &[on(3), off(2)],
        &[on(3), off(5), off(3)],
        &[on(3), on(3), off(2), off(2)],
        &[on(0), on(4), on(3)],
        &[off(5), off(2)],
    ];
    cases.concat()
}

/// Four requests that are refused after 4,096 firings each.
fn ring17() -> Vec<Job> {
    let calls = [Call::Activate(0); 4];
    vec![Job::run(&nets::ring_of_implications(17), &calls)]
}

fn random_without_rings() -> Vec<Job> {
    random_jobs(random::ALL_KINDS, false, 10_000)
}

/// Kinds that propagate; fewer calls, because their steps are long.
fn random_with_rings() -> Vec<Job> {
    random_jobs(&[nets::CAUSES, nets::IMPLIES], true, 30)
}

/// One list of calls on each of eight nets of rising size.
fn random_jobs(kinds: &[u8], rings: bool, calls: usize) -> Vec<Job> {
    (1..=8)
        .map(|i| {
            let mut random = Random::new(i as u64);
            let net = random::sized_description(&mut random, 6 * i, 12 * i, kinds, rings);
            let calls = random::calls(&mut random, &net, calls);
            Job::run(&net, &calls)
        })
        .collect()
}

/// All contexts but the last are brought to their capacity and stay there,
/// or are brought back by an undo.
fn full_board() -> Vec<Job> {
    let last = nets::MAX_CONTEXTS as u16 - 1;
    let mut calls = filling();
    for i in 0..500 {
        let at_capacity = Call::Activate(i % last);
        calls.extend([
            Call::Activate(last),
            at_capacity,
            Call::Deactivate(last),
            at_capacity,
            Call::Deactivate((i * 7) % last),
            Call::Undo,
        ]);
    }
    vec![Job::run(&nets::full_board(), &calls)]
}

/// Bases first, because sinks require them; sources bring sinks with them.
fn filling() -> Vec<Call> {
    let group = u16::from(nets::GROUP);
    let own_share = nets::SINK_CAPACITY - nets::SINK_SHARE;
    let shares = [
        (0..group, nets::BASE_CAPACITY),
        (group..2 * group, nets::SOURCE_CAPACITY),
        (2 * group..4 * group, own_share),
    ];
    let mut calls = Vec::new();
    for (contexts, times) in shares {
        for context in contexts {
            calls.extend(vec![Call::Activate(context); usize::from(times)]);
        }
    }
    // The last sink stays one below its capacity.
    calls.pop();
    calls
}
