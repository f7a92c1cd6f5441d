//! The listings that are set against those of the proved programs.

use crate::examples::IMAGE_ROOM;
use crate::hash::{hash, Hash};
use crate::image::{compose, load, TRAILER_LEN};
use crate::machine::{Answer, Machine};
use crate::net::Net;
use crate::refusal;
use crate::streams::{ComposeCase, Damage, Frame};
use std::fmt::Write;

/// What an output buffer holds before composing.
const FILLER: u8 = 165;
/// Verdict characters to a line.
const LINE_LEN: usize = 64;

/// One line `V L H`: verdict, length, hash of the whole buffer.
pub fn compose_case(case: &ComposeCase, out: &mut String) {
    let mut buffer = vec![FILLER; usize::from(case.room)];
    let composed = compose(
        &case.description.capacities,
        &case.description.relations,
        &mut buffer,
    );
    let (verdict, length) = match composed {
        Ok(length) => (refusal::GRANTED, length),
        Err(number) => (number, 0),
    };
    line(out, &format!("{verdict} {length} {}", hash(&buffer)));
}

/// The load of an image, of its neighbours byte by byte, and of its parts.
pub fn load_cases(image: &[u8], out: &mut String) {
    line(out, &Loaded::from(image).summary());
    verdict_lines(out, flipped_verdicts(image));
    verdict_lines(out, (0..image.len()).map(|k| verdict_char(&image[..k])));
    verdict_lines(out, extended_verdicts(image));
    for position in image.len().saturating_sub(TRAILER_LEN)..image.len() {
        let with_value = |value| verdict_char(&with_byte(image, position, value));
        verdict_lines(out, (0..=255).map(with_value));
    }
}

/// The lines of one frame: its load, its calls if verbose, and their hash.
pub fn conformance(frame: &Frame, out: &mut String) {
    let (composing, mut image) = match composed_image(frame) {
        Ok(image) => (refusal::GRANTED, image),
        Err(number) => (number, Vec::new()),
    };
    store_damages(&frame.damages, &mut image);
    let loaded = Loaded::from(&image);
    line(out, &format!("{composing} {}", loaded.summary()));

    let mut machine = Machine::fresh(loaded.net);
    let mut running = Hash::new();
    for &call in &frame.calls {
        let answer = machine.call(call);
        take_call(&mut running, answer, &machine);
        if frame.verbose {
            line(out, &call_line(answer, &machine));
        }
    }
    let totals = machine.totals();
    line(
        out,
        &format!(
            "{} {} {} {}",
            running.value(),
            totals.granted,
            totals.refused,
            totals.undone
        ),
    );
}

/// What a load gives: on refusal the empty net and an empty record part.
struct Loaded {
    verdict: u8,
    net: Net,
    record_part: Vec<u8>,
}

impl Loaded {
    fn from(image: &[u8]) -> Loaded {
        match load(image) {
            Ok((net, records)) => Loaded {
                verdict: refusal::GRANTED,
                net,
                record_part: image[records].to_vec(),
            },
            Err(verdict) => Loaded {
                verdict,
                net: Net::empty(),
                record_part: Vec::new(),
            },
        }
    }

    /// `V n r P H`.
    fn summary(&self) -> String {
        let mut contents = Hash::new();
        contents.take(self.net.capacities());
        contents.take(&self.net.relation_bytes());
        contents.take(&self.record_part);
        format!(
            "{} {} {} {} {}",
            self.verdict,
            self.net.contexts(),
            self.net.relations().len(),
            self.record_part.len(),
            contents.value()
        )
    }
}

fn composed_image(frame: &Frame) -> Result<Vec<u8>, u8> {
    let mut buffer = vec![FILLER; IMAGE_ROOM];
    let length = compose(
        &frame.description.capacities,
        &frame.description.relations,
        &mut buffer,
    )?;
    buffer.truncate(length);
    Ok(buffer)
}

fn store_damages(damages: &[Damage], image: &mut [u8]) {
    for damage in damages {
        if let Some(byte) = image.get_mut(usize::from(damage.position)) {
            *byte = damage.value;
        }
    }
}

fn take_call(running: &mut Hash, answer: Answer, machine: &Machine) {
    let totals = machine.totals();
    running.take(&[answer.verdict]);
    running.take(&answer.firings.to_le_bytes());
    running.take(&answer.forced.to_le_bytes());
    running.take(machine.counts());
    for total in [totals.granted, totals.refused, totals.undone] {
        running.take(&total.to_le_bytes());
    }
}

/// Verdict, firings, forced ones, then the counts.
fn call_line(answer: Answer, machine: &Machine) -> String {
    let mut text = format!("{} {} {}", answer.verdict, answer.firings, answer.forced);
    for count in machine.counts() {
        write!(text, " {count}").expect("a string takes all");
    }
    text
}

fn flipped_verdicts(image: &[u8]) -> impl Iterator<Item = char> + '_ {
    (0..image.len()).flat_map(move |position| {
        [1, 128].map(|flip| verdict_char(&with_byte(image, position, image[position] ^ flip)))
    })
}

/// A zero in front; a zero, a one, the image itself behind.
fn extended_verdicts(image: &[u8]) -> impl Iterator<Item = char> {
    [
        [&[0], image].concat(),
        [image, &[0]].concat(),
        [image, &[1]].concat(),
        [image, image].concat(),
    ]
    .into_iter()
    .map(|extended| verdict_char(&extended))
}

fn with_byte(image: &[u8], position: usize, value: u8) -> Vec<u8> {
    let mut changed = image.to_vec();
    changed[position] = value;
    changed
}

/// Every refusal of a load has one digit.
fn verdict_char(image: &[u8]) -> char {
    let verdict = load(image).err().unwrap_or(refusal::GRANTED);
    char::from(b'0' + verdict)
}

fn verdict_lines(out: &mut String, verdicts: impl Iterator<Item = char>) {
    let verdicts: Vec<char> = verdicts.collect();
    for part in verdicts.chunks(LINE_LEN) {
        out.extend(part);
        out.push('\n');
    }
}

fn line(out: &mut String, text: &str) {
    out.push_str(text);
    out.push('\n');
}
