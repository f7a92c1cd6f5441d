//! The program bench-run: one call a line, one line printed for each.

use crate::image::load;
use crate::machine::{Call, Machine};
use crate::net::Net;
use std::io::{self, BufRead, Write};

/// Runs the calls of `input` on the net of `image`; a refused load gives the
/// empty net.
pub fn run(image: &[u8], mut input: impl BufRead, mut output: impl Write) -> io::Result<()> {
    let net = load(image).map_or_else(|_| Net::empty(), |(net, _)| net);
    let mut machine = Machine::fresh(net);
    let mut line = Vec::new();
    loop {
        line.clear();
        if input.read_until(b'\n', &mut line)? == 0 {
            return output.flush();
        }
        // A last line may lack its line end.
        let text = line.strip_suffix(b"\n").unwrap_or(&line);
        match parse(text) {
            None => output.write_all(b"?\n")?,
            Some(call) => {
                output.write_all(text)?;
                answer(&mut machine, call, &mut output)?;
            }
        }
    }
}

fn answer(machine: &mut Machine, call: Call, output: &mut impl Write) -> io::Result<()> {
    let answer = machine.call(call);
    write!(
        output,
        " {} {} {}",
        answer.verdict, answer.firings, answer.forced
    )?;
    for (context, &count) in machine.counts().iter().enumerate() {
        if count > 0 {
            write!(output, " {context}:{count}")?;
        }
    }
    writeln!(output)
}

fn parse(line: &[u8]) -> Option<Call> {
    match line {
        b"u" => Some(Call::Undo),
        b"s" => Some(Call::Settle),
        [b'+', digits @ ..] => context_number(digits).map(Call::Activate),
        [b'-', digits @ ..] => context_number(digits).map(Call::Deactivate),
        _ => None,
    }
}

/// Decimal, 0 to 255, no leading zero.
fn context_number(digits: &[u8]) -> Option<usize> {
    let leading_zero = digits.len() > 1 && digits[0] == b'0';
    if leading_zero || !digits.iter().all(u8::is_ascii_digit) {
        return None;
    }
    let number: u8 = std::str::from_utf8(digits).ok()?.parse().ok()?;
    Some(usize::from(number))
}
