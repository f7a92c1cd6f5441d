//! Times the workloads on all sides and prints a table.

use crate::side::{Side, SIDES};
use crate::verify;
use crate::workloads::{self, Workload};
use std::time::{Duration, Instant};

/// A sample is long enough for the clock to be exact.
const SAMPLE: Duration = Duration::from_micros(200);
/// All workloads take turns, so that a disturbance of some seconds does not
/// cover all samples of one.
const ROUNDS: usize = 12;
/// Samples on each side in a round; those of the warm-up are thrown away.
const WARM_UP: usize = 4;
const SAMPLES: usize = 40;
/// A slow workload gets fewer samples in a round.
const ROUND_BUDGET: Duration = Duration::from_secs(3);

/// Prints a line for each workload whose name is asked for; none asks for all.
pub fn print_table(wanted: &[String]) {
    let is_wanted = |name: &&str| wanted.is_empty() || wanted.iter().any(|asked| asked == name);
    let mut measurements: Vec<Measurement> = workloads::names()
        .filter(is_wanted)
        .map(|name| Measurement::new(workloads::named(name).expect("a known name")))
        .collect();
    for _ in 0..ROUNDS {
        measurements.iter_mut().for_each(Measurement::round);
    }
    println!("{}", heading());
    for measurement in &measurements {
        println!("{}", measurement.line());
    }
}

/// A column for the time of each side, then one for the first side's time in
/// proportion to each other one's.
fn heading() -> String {
    let mut text = format!(
        "{:<14}{:>8}{:>9}  {:<7}",
        "workload", "calls", "firings", "unit"
    );
    for side in SIDES {
        text += &format!("{:>14}", format!("{} ns", side.name));
    }
    for side in &SIDES[1..] {
        text += &format!("{:>18}", format!("{}/{}", SIDES[0].name, side.name));
    }
    text
}

struct Measurement {
    workload: Workload,
    rooms: Vec<Vec<u8>>,
    sides: Vec<Timed>,
}

struct Timed {
    side: Side,
    passes_per_sample: u32,
    /// Nanoseconds of the fastest pass; none where the side is not timed.
    fastest: Option<f64>,
}

impl Measurement {
    /// Compares the sides first.
    fn new(workload: Workload) -> Measurement {
        verify::compare_workload(&workload);
        let mut rooms = workload.rooms();
        let sides = SIDES
            .iter()
            .map(|side| Timed {
                side: *side,
                passes_per_sample: passes_per_sample(&workload, side, &mut rooms),
                fastest: None,
            })
            .collect();
        Measurement {
            workload,
            rooms,
            sides,
        }
    }

    /// The sides alternate, so that a disturbance meets them alike; the
    /// minimum leaves disturbances out.
    fn round(&mut self) {
        let start = Instant::now();
        for sample in 0..WARM_UP + SAMPLES {
            for timed in &mut self.sides {
                if timed.side.only_runs && !self.workload.is_run() {
                    continue;
                }
                let passes = timed.passes_per_sample;
                let time = pass_time(&self.workload, &timed.side, passes, &mut self.rooms);
                if sample >= WARM_UP {
                    timed.fastest = Some(timed.fastest.map_or(time, |least| time.min(least)));
                }
            }
            if sample >= WARM_UP && start.elapsed() > ROUND_BUDGET {
                break;
            }
        }
    }

    fn line(&self) -> String {
        let workload = &self.workload;
        let mut text = format!(
            "{:<14}{:>8}{:>9}  {:<7}",
            workload.name,
            workload.calls(),
            workload.firings(),
            workload.unit.name()
        );
        let units = workload.units() as f64;
        for timed in &self.sides {
            text += &format!("{:>14}", number(timed.fastest.map(|time| time / units)));
        }
        let (first, others) = self.sides.split_first().expect("there is a side");
        for other in others {
            let both = first.fastest.zip(other.fastest);
            text += &format!("{:>18}", number(both.map(|(first, other)| first / other)));
        }
        text
    }
}

fn number(value: Option<f64>) -> String {
    value.map_or("-".to_string(), |value| format!("{value:.2}"))
}

fn passes_per_sample(workload: &Workload, side: &Side, rooms: &mut [Vec<u8>]) -> u32 {
    let wanted = SAMPLE.as_nanos() as f64;
    let mut passes = 1;
    while pass_time(workload, side, passes, rooms) * f64::from(passes) < wanted {
        passes *= 2;
    }
    passes
}

/// Nanoseconds of one pass, on the average of several.
fn pass_time(workload: &Workload, side: &Side, passes: u32, rooms: &mut [Vec<u8>]) -> f64 {
    let start = Instant::now();
    for _ in 0..passes {
        workload.perform(side, rooms);
    }
    start.elapsed().as_nanos() as f64 / f64::from(passes)
}
