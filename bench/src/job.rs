//! One use of one of the four functions.

use crate::nets::{self, Call, Description};
use crate::side::{Side, OPTIMISED};
use std::hint::black_box;

pub enum Job {
    Compose {
        capacities: Vec<u8>,
        relations: Vec<u8>,
    },
    Check {
        image: Vec<u8>,
    },
    List {
        image: Vec<u8>,
    },
    Run {
        image: Vec<u8>,
        calls: Vec<u8>,
    },
}

impl Job {
    pub fn compose(description: Description) -> Job {
        let Description {
            capacities,
            relations,
        } = description;
        Job::Compose {
            capacities,
            relations,
        }
    }

    pub fn run(description: &Description, calls: &[Call]) -> Job {
        Job::Run {
            image: description.image(),
            calls: nets::call_bytes(calls),
        }
    }

    pub fn name(&self) -> &'static str {
        match self {
            Job::Compose { .. } => "compose",
            Job::Check { .. } => "check",
            Job::List { .. } => "list",
            Job::Run { .. } => "run",
        }
    }

    /// Bytes that the job may write.
    pub fn room(&self) -> usize {
        match self {
            Job::Compose { .. } => nets::IMAGE_ROOM,
            Job::Check { .. } => 0,
            Job::List { .. } => nets::LIST_ROOM,
            Job::Run { calls, .. } => nets::answer_room(calls),
        }
    }

    /// Has a side do the job; the optimiser learns nothing of it.
    pub fn perform(&self, side: &Side, out: &mut [u8]) -> u64 {
        let out = black_box(out);
        match self {
            Job::Compose {
                capacities,
                relations,
            } => (side.compose)(black_box(capacities), black_box(relations), out),
            Job::Check { image } => u64::from((side.check)(black_box(image))),
            Job::List { image } => (side.list)(black_box(image), out),
            Job::Run { image, calls } => (side.run)(black_box(image), black_box(calls), out),
        }
    }

    /// Bytes that the job writes when it is given all its room. A refusal's
    /// number stands in the same place and is no more than a few bytes.
    pub fn written(&self) -> usize {
        let value = match self {
            Job::Check { .. } => 0,
            _ => self.perform(&OPTIMISED, &mut vec![0; self.room()]),
        };
        value as usize
    }

    pub fn calls(&self) -> usize {
        match self {
            Job::Run { calls, .. } => calls.len() / nets::CALL_LEN,
            _ => 0,
        }
    }

    /// Reads the firings out of the answers.
    pub fn firings(&self) -> usize {
        let mut out = vec![0; self.room()];
        self.perform(&OPTIMISED, &mut out);
        out.chunks_exact(nets::ANSWER_LEN)
            .take(self.calls())
            .map(|answer| usize::from(u16::from_le_bytes([answer[1], answer[2]])))
            .sum()
    }
}
