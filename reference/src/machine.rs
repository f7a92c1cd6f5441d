//! The machine: requests with commit or rollback, undo, settling.

use crate::net::{holds, only, ContextSet, Net, PlaceSet, Transition};
use crate::refusal;
use std::collections::VecDeque;

/// A step ends at this many firings at the latest.
pub const STEP_LIMIT: u16 = 4096;
/// More granted requests than these cannot be undone.
pub const OPEN_LIMIT: usize = 32;

#[derive(Clone, Copy, PartialEq, Eq, Debug)]
pub enum Call {
    Activate(usize),
    Deactivate(usize),
    Undo,
    Settle,
}

#[derive(Clone, Copy, PartialEq, Eq, Debug)]
pub struct Answer {
    /// 0, or the refusal's number.
    pub verdict: u8,
    /// Firings made, also in a refused step.
    pub firings: u16,
    /// Those of them that were forced.
    pub forced: u16,
}

impl Answer {
    fn after_step(verdict: u8, step: &Step) -> Answer {
        Answer {
            verdict,
            firings: step.firings,
            forced: step.forced,
        }
    }

    fn without_step(verdict: u8) -> Answer {
        Answer {
            verdict,
            firings: 0,
            forced: 0,
        }
    }

    pub fn is_granted(&self) -> bool {
        self.verdict == refusal::GRANTED
    }
}

/// Each total stops at 4,294,967,295.
#[derive(Clone, Copy, Default, PartialEq, Eq, Debug)]
pub struct Totals {
    pub granted: u32,
    pub refused: u32,
    pub undone: u32,
}

/// Tokens on every place.
#[derive(Clone, PartialEq, Eq, Debug)]
struct Marking {
    context: Vec<u16>,
    pr: Vec<u16>,
    pr_not: Vec<u16>,
}

impl Marking {
    /// The marking between calls: temporary places are empty.
    fn at_rest(counts: &[u8]) -> Marking {
        Marking {
            context: counts.iter().map(|&count| u16::from(count)).collect(),
            pr: vec![0; counts.len()],
            pr_not: vec![0; counts.len()],
        }
    }

    /// Capacity, at most 255, bounds every context place.
    fn counts(&self) -> Vec<u8> {
        self.context.iter().map(|&tokens| tokens as u8).collect()
    }

    /// The places that hold a token.
    fn marked(&self) -> PlaceSet {
        let with_token = |places: &[u16]| set_where(places.len(), |c| places[c] > 0);
        PlaceSet {
            context: with_token(&self.context),
            pr: with_token(&self.pr),
            pr_not: with_token(&self.pr_not),
        }
    }

    fn below_capacity(&self, capacities: &[u8]) -> ContextSet {
        set_where(capacities.len(), |c| {
            self.context[c] < u16::from(capacities[c])
        })
    }

    fn temporary_places_are_empty(&self) -> bool {
        let marked = self.marked();
        marked.pr == 0 && marked.pr_not == 0
    }

    /// Reports whether the firing was a forced one.
    fn fire(&mut self, transition: &Transition) -> bool {
        let Transition { takes, gives, .. } = transition;
        move_tokens(&mut self.context, takes.context, gives.context);
        move_tokens(&mut self.pr, takes.pr, gives.pr);
        move_tokens(&mut self.pr_not, takes.pr_not, gives.pr_not);
        transition.forced
    }
}

fn set_where(n: usize, test: impl Fn(usize) -> bool) -> ContextSet {
    (0..n).filter(|&c| test(c)).fold(0, |set, c| set | only(c))
}

fn move_tokens(places: &mut [u16], taken: ContextSet, given: ContextSet) {
    for (c, tokens) in places.iter_mut().enumerate() {
        if holds(taken, c) {
            *tokens -= 1;
        }
        if holds(given, c) {
            *tokens += 1;
        }
    }
}

/// The enabled transition of the lowest number: of those that are ready, the
/// first among the highest priority.
fn next_firing<'net>(net: &'net Net, marking: &Marking) -> Option<&'net Transition> {
    let marked = marking.marked();
    let below_capacity = marking.below_capacity(net.capacities());
    let mut next: Option<&Transition> = None;
    for transition in net.transitions() {
        let outranks = next.is_none_or(|found| transition.priority > found.priority);
        if outranks && is_ready(transition, &marked, below_capacity) {
            next = Some(transition);
        }
    }
    next
}

fn is_ready(transition: &Transition, marked: &PlaceSet, below_capacity: ContextSet) -> bool {
    transition.takes.is_within(marked)
        && transition.inhibited_by.is_apart_from(marked)
        && transition.raises() & !below_capacity == 0
}

struct Step {
    firings: u16,
    forced: u16,
    /// None is enabled any more.
    quiet: bool,
}

/// Fires enabled transitions until none is enabled or the limit is reached.
fn run_step(net: &Net, marking: &mut Marking) -> Step {
    let mut step = Step {
        firings: 0,
        forced: 0,
        quiet: false,
    };
    while let Some(transition) = next_firing(net, marking) {
        if step.firings == STEP_LIMIT {
            return step;
        }
        let forced = marking.fire(transition);
        step.firings += 1;
        step.forced += u16::from(forced);
    }
    step.quiet = true;
    step
}

/// What a request asks of its context.
#[derive(Clone, Copy, PartialEq, Eq)]
enum Wish {
    On,
    Off,
}

pub struct Machine {
    net: Net,
    counts: Vec<u8>,
    /// For each open request the counts from before it. The settled list is
    /// read by no call and not kept.
    open: VecDeque<Vec<u8>>,
    totals: Totals,
}

impl Machine {
    /// The machine of a freshly loaded net.
    pub fn fresh(net: Net) -> Machine {
        Machine {
            counts: vec![0; net.contexts()],
            open: VecDeque::new(),
            totals: Totals::default(),
            net,
        }
    }

    pub fn net(&self) -> &Net {
        &self.net
    }

    pub fn counts(&self) -> &[u8] {
        &self.counts
    }

    /// Reads one context's count.
    pub fn count(&self, context: usize) -> Result<u8, u8> {
        self.counts
            .get(context)
            .copied()
            .ok_or(refusal::CONTEXT_NUMBER)
    }

    pub fn totals(&self) -> Totals {
        self.totals
    }

    pub fn call(&mut self, call: Call) -> Answer {
        match call {
            Call::Activate(c) => self.request(c, Wish::On),
            Call::Deactivate(c) => self.request(c, Wish::Off),
            Call::Undo => self.undo(),
            Call::Settle => self.settle(),
        }
    }

    /// Runs the step on a copy of the marking, so a rollback drops the copy.
    fn request(&mut self, context: usize, wish: Wish) -> Answer {
        if context >= self.net.contexts() {
            return self.refuse(refusal::CONTEXT_NUMBER);
        }
        if wish == Wish::Off && self.counts[context] == 0 {
            return self.refuse(refusal::ALREADY_OFF);
        }
        let mut marking = Marking::at_rest(&self.counts);
        match wish {
            Wish::On => marking.pr[context] += 1,
            Wish::Off => marking.pr_not[context] += 1,
        }
        let step = run_step(&self.net, &mut marking);
        if let Some(verdict) = self.refusal_after(&step, &marking, context, wish) {
            return self.refuse_step(verdict, &step);
        }
        self.commit(marking.counts());
        raise(&mut self.totals.granted);
        Answer::after_step(refusal::GRANTED, &step)
    }

    /// What keeps a step from being committed, tested in this order.
    fn refusal_after(
        &self,
        step: &Step,
        marking: &Marking,
        context: usize,
        wish: Wish,
    ) -> Option<u8> {
        // A suggestion may have swallowed the wish itself, or what would have
        // kept the context on.
        let is_raised = marking.counts()[context] > self.counts[context];
        if !step.quiet {
            Some(refusal::STEP_LIMIT)
        } else if !marking.temporary_places_are_empty() {
            Some(refusal::TEMPORARY_TOKEN)
        } else if wish == Wish::On && !is_raised {
            Some(refusal::NOT_RAISED)
        } else {
            None
        }
    }

    fn commit(&mut self, counts: Vec<u8>) {
        if self.open.len() == OPEN_LIMIT {
            self.open.pop_front();
        }
        let before = std::mem::replace(&mut self.counts, counts);
        self.open.push_back(before);
    }

    /// Refuses a call before anything fires.
    fn refuse(&mut self, verdict: u8) -> Answer {
        raise(&mut self.totals.refused);
        Answer::without_step(verdict)
    }

    fn refuse_step(&mut self, verdict: u8, step: &Step) -> Answer {
        raise(&mut self.totals.refused);
        Answer::after_step(verdict, step)
    }

    fn undo(&mut self) -> Answer {
        match self.open.pop_back() {
            None => self.refuse(refusal::NOTHING_TO_UNDO),
            Some(before) => {
                self.counts = before;
                raise(&mut self.totals.undone);
                Answer::without_step(refusal::GRANTED)
            }
        }
    }

    fn settle(&mut self) -> Answer {
        self.open.clear();
        Answer::without_step(refusal::GRANTED)
    }
}

fn raise(total: &mut u32) {
    *total = total.saturating_add(1);
}

#[cfg(test)]
mod tests {
    use super::*;

    #[test]
    fn totals_stop_at_the_last_number() {
        let mut machine = Machine::fresh(Net::build(&[7], &[]).unwrap());
        machine.totals = Totals {
            granted: u32::MAX - 1,
            refused: u32::MAX - 1,
            undone: u32::MAX - 1,
        };
        for _ in 0..2 {
            machine.call(Call::Activate(0));
            machine.call(Call::Activate(1));
            machine.call(Call::Undo);
        }
        let full = Totals {
            granted: u32::MAX,
            refused: u32::MAX,
            undone: u32::MAX,
        };
        assert_eq!(machine.totals(), full);
    }

    #[test]
    fn only_a_context_of_the_net_is_already_off() {
        let mut machine = Machine::fresh(Net::build(&[7], &[]).unwrap());
        let verdicts = [0, 1].map(|c| machine.call(Call::Deactivate(c)).verdict);
        assert_eq!(verdicts, [refusal::ALREADY_OFF, refusal::CONTEXT_NUMBER]);
        assert_eq!(machine.totals().refused, 2);
    }

    #[test]
    fn drops_wait_for_every_transition_of_high_priority() {
        // 0 causes 1 and 1 causes 2: deac(0) comes before the drop.
        let net = Net::build(&[9, 9, 9], &[2, 0, 1, 2, 1, 2]).unwrap();
        let mut marking = Marking::at_rest(&[1, 0, 0]);
        marking.pr_not = vec![1, 1, 0];
        assert_eq!(next_firing(&net, &marking), Some(&net.transitions()[1]));
        marking.pr_not = vec![0, 1, 1];
        assert_eq!(next_firing(&net, &marking), Some(&net.transitions()[6]));
    }
}
