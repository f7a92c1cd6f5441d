//! Commands of the reference implementation; README.md lists them.

use reference::{bench_run, compose_cases, examples, frames, reports, streams};
use std::env;
use std::fs;
use std::io::{self, Read, Write};
use std::process::ExitCode;

const USAGE: &str = "usage: reference compose-cases | gen-compose-cases | load-cases | \
conformance | gen-conformance SEED NETS CALLS | bench-run | image";

fn main() -> ExitCode {
    let arguments: Vec<String> = env::args().skip(1).collect();
    let arguments: Vec<&str> = arguments.iter().map(String::as_str).collect();
    match run(&arguments) {
        Ok(()) => ExitCode::SUCCESS,
        Err(error) => {
            eprintln!("reference: {error}");
            ExitCode::FAILURE
        }
    }
}

fn run(arguments: &[&str]) -> io::Result<()> {
    match arguments {
        ["compose-cases"] => list_compose_cases(),
        ["gen-compose-cases"] => print(&compose_cases::stream()),
        ["load-cases"] => list_load_cases(),
        ["conformance"] => list_conformance(),
        ["gen-conformance", seed, nets, calls] => {
            let (seed, nets) = (number(seed)?, number(nets)?);
            let calls = u16::try_from(number(calls)?)
                .map_err(|_| invalid("a frame holds at most 65535 calls"))?;
            print(&frames::stream(seed, nets, usize::from(calls)))
        }
        ["bench-run"] => run_bench(),
        ["image"] => {
            let image = examples::six_conditions().image();
            print(&image.expect("the six conditions compose"))
        }
        _ => Err(invalid(USAGE)),
    }
}

fn list_compose_cases() -> io::Result<()> {
    let cases = streams::read_cases(&standard_input()?).ok_or_else(broken_stream)?;
    let mut text = String::new();
    for case in &cases {
        reports::compose_case(case, &mut text);
    }
    print(text.as_bytes())
}

fn list_load_cases() -> io::Result<()> {
    let mut text = String::new();
    reports::load_cases(&standard_input()?, &mut text);
    print(text.as_bytes())
}

fn list_conformance() -> io::Result<()> {
    let frames = streams::read_frames(&standard_input()?).ok_or_else(broken_stream)?;
    for frame in &frames {
        let mut text = String::new();
        reports::conformance(frame, &mut text);
        print(text.as_bytes())?;
    }
    Ok(())
}

/// A missing file reads as an empty one.
fn run_bench() -> io::Result<()> {
    let image = fs::read("bench.net").unwrap_or_default();
    bench_run::run(&image, io::stdin().lock(), io::stdout().lock())
}

fn standard_input() -> io::Result<Vec<u8>> {
    let mut bytes = Vec::new();
    io::stdin().lock().read_to_end(&mut bytes)?;
    Ok(bytes)
}

fn print(bytes: &[u8]) -> io::Result<()> {
    let mut output = io::stdout().lock();
    output.write_all(bytes)?;
    output.flush()
}

fn number(text: &str) -> io::Result<u64> {
    text.parse()
        .map_err(|_| invalid(&format!("not a number: {text}")))
}

fn broken_stream() -> io::Error {
    invalid("the stream breaks off or holds an unknown call")
}

fn invalid(message: &str) -> io::Error {
    io::Error::new(io::ErrorKind::InvalidInput, message)
}
