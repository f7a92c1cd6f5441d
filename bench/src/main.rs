//! Prints the table of times; see USAGE for the rest.

use bench::side::{self, SIDES};
use bench::{measure, verify, workloads};
use std::process::ExitCode;

const USAGE: &str = "\
bench [WORKLOAD...]                the table of times, of all workloads or some
bench verify N                     compares all sides on N random nets with calls
bench only SIDE WORKLOAD REPEATS   one workload on one side; prints a checksum
bench sides                        the sides of this build
bench workloads                    name, unit and units per pass of each workload";

fn main() -> ExitCode {
    let arguments: Vec<String> = std::env::args().skip(1).collect();
    match run(&arguments) {
        Some(()) => ExitCode::SUCCESS,
        None => {
            eprintln!("{USAGE}");
            ExitCode::FAILURE
        }
    }
}

fn run(arguments: &[String]) -> Option<()> {
    let words: Vec<&str> = arguments.iter().map(String::as_str).collect();
    match words[..] {
        ["verify", nets] => verify_all(nets.parse().ok()?),
        ["only", side, workload, repeats] => only(side, workload, repeats.parse().ok()?)?,
        ["sides"] => SIDES.iter().for_each(|side| println!("{}", side.name)),
        ["workloads"] => print_workloads(),
        _ => table(arguments)?,
    }
    Some(())
}

fn table(wanted: &[String]) -> Option<()> {
    let is_known = |asked: &String| workloads::names().any(|name| name == asked);
    wanted
        .iter()
        .all(is_known)
        .then(|| measure::print_table(wanted))
}

fn verify_all(nets: u64) {
    verify::compare_random(nets);
    for name in workloads::names() {
        verify::compare_workload(&workloads::named(name).expect("a known name"));
    }
    let names: Vec<&str> = SIDES.iter().map(|side| side.name).collect();
    println!("{nets} nets and all workloads: {} agree", names.join(", "));
}

/// Set-up and checksum cost the same for any number of repeats, so counts of
/// instructions can be subtracted.
fn only(side: &str, workload: &str, repeats: u32) -> Option<()> {
    let side = side::named(side)?;
    let workload = workloads::named(workload)?;
    let mut rooms = workload.rooms();
    let mut sum = 0;
    for _ in 0..repeats {
        sum = workload.perform(&side, &mut rooms);
    }
    let checksum = rooms.iter().flatten().fold(sum, |hash, &byte| {
        hash.wrapping_mul(257).wrapping_add(u64::from(byte) + 1)
    });
    println!("{checksum}");
    Some(())
}

fn print_workloads() {
    for name in workloads::names() {
        let workload = workloads::named(name).expect("a known name");
        println!("{name} {} {}", workload.unit.name(), workload.units());
    }
}
