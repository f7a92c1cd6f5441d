//! The optimised side: the machine of docs/MACHINE.md behind the same four functions
//! as the proved engine. Sets are bit masks, the transitions are
//! composed once per list of calls, and no call allocates.

mod arcs;
mod image;
mod machine;
mod walk;

use arcs::{Ends, Net};
use machine::Machine;

/// One byte of kind, two of context number.
const CALL_LEN: usize = 3;
/// One byte of verdict, two of firings, two of forced firings.
const ANSWER_LEN: usize = 5;
/// Three totals of four bytes.
const TOTALS_LEN: usize = 12;
const LAST_CALL_KIND: u8 = 3;

/// Writes the net's image to the front of `out`: its length, or the refusal.
pub fn compose(capacities: &[u8], relations: &[u8], out: &mut [u8]) -> u64 {
    match image::compose(capacities, relations, out) {
        Ok(length) => length as u64,
        Err(refusal) => u64::from(refusal),
    }
}

/// Tests an image: 0, or the refusal.
pub fn check(image: &[u8]) -> u32 {
    let mut ends = Ends::NONE;
    match image::load(image, &mut ends) {
        Ok(_) => 0,
        Err(refusal) => u32::from(refusal),
    }
}

/// Writes what an accepted image stands for: n, r, capacities, relations. The
/// number of bytes, or the refusal, or 0 where `out` is too short.
pub fn list(image: &[u8], out: &mut [u8]) -> u64 {
    let mut ends = Ends::NONE;
    let net = match image::load(image, &mut ends) {
        Ok(net) => net,
        Err(refusal) => return u64::from(refusal),
    };
    let length = 2 + net.capacities.len() + net.relations.len();
    let Some(out) = out.get_mut(..length) else {
        return 0;
    };
    let (sizes, rest) = out.split_at_mut(2);
    let (capacities, relations) = rest.split_at_mut(net.capacities.len());
    sizes.copy_from_slice(&[net.contexts() as u8, net.relation_count() as u8]);
    capacities.copy_from_slice(net.capacities);
    relations.copy_from_slice(net.relations);
    length as u64
}

/// Runs a list of calls on the net freshly loaded from the image and writes
/// the answers, the counts and the totals. The number of bytes written, or 0.
pub fn run(image: &[u8], calls: &[u8], out: &mut [u8]) -> u64 {
    run_with::<false>(image, calls, out)
}

/// The same by a walk that leaves out transitions which cannot be ready.
pub fn run_sparse(image: &[u8], calls: &[u8], out: &mut [u8]) -> u64 {
    run_with::<true>(image, calls, out)
}

fn run_with<const SPARSE: bool>(image: &[u8], calls: &[u8], out: &mut [u8]) -> u64 {
    if !are_calls(calls) {
        return 0;
    }
    let mut ends = Ends::NONE;
    let net = image::load(image, &mut ends).unwrap_or_else(|_| Net::empty());
    let answers_len = calls.len() / CALL_LEN * ANSWER_LEN;
    let length = answers_len + net.contexts() + TOTALS_LEN;
    let Some(out) = out.get_mut(..length) else {
        return 0;
    };
    let (answers, ending) = out.split_at_mut(answers_len);
    let mut machine = Machine::<SPARSE>::fresh(&net);
    answer_all(&mut machine, calls, answers);
    write_ending(&machine, ending);
    length as u64
}

fn are_calls(calls: &[u8]) -> bool {
    let kinds_are_known = || calls.iter().step_by(CALL_LEN).all(|&k| k <= LAST_CALL_KIND);
    calls.len().is_multiple_of(CALL_LEN) && kinds_are_known()
}

fn answer_all<const SPARSE: bool>(machine: &mut Machine<SPARSE>, calls: &[u8], answers: &mut [u8]) {
    let answers = answers.chunks_exact_mut(ANSWER_LEN);
    for (call, answer) in calls.chunks_exact(CALL_LEN).zip(answers) {
        let context = usize::from(u16::from_le_bytes([call[1], call[2]]));
        let (verdict, fired) = match call[0] {
            0 => machine.activate(context),
            1 => machine.deactivate(context),
            2 => machine.undo(),
            _ => machine.settle(),
        };
        answer[0] = verdict;
        answer[1..].copy_from_slice(&fired.to_le_bytes());
    }
}

fn write_ending<const SPARSE: bool>(machine: &Machine<SPARSE>, ending: &mut [u8]) {
    let (counts, totals) = ending.split_at_mut(ending.len() - TOTALS_LEN);
    counts.copy_from_slice(machine.counts());
    for (bytes, total) in totals.chunks_exact_mut(4).zip(machine.totals()) {
        bytes.copy_from_slice(&total.to_le_bytes());
    }
}
