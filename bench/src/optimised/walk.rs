//! The transitions as the step needs them, and the walk that finds the one to
//! fire.

use super::arcs::{Net, Set, Transition, PRIORITY_LOW};

/// Which places hold tokens, and which contexts are at their capacity.
#[derive(Clone, Copy)]
pub struct Marks {
    pub active: Set,
    pub full: Set,
    pub pr: Set,
    pub pr_not: Set,
}

/// The members of a set, rising.
pub struct Members(pub Set);

impl Iterator for Members {
    type Item = usize;

    #[inline]
    fn next(&mut self) -> Option<usize> {
        if self.0 == 0 {
            return None;
        }
        let lowest = self.0.trailing_zeros() as usize;
        self.0 &= self.0 - 1;
        Some(lowest)
    }
}

/// A transition's arcs: what readiness tests, then the rest of its effect.
pub struct Arcs {
    pub takes_pr: Set,
    pub takes_pr_not: Set,
    takes: Set,
    inhibited_by: Set,
    inhibited_by_pr: Set,
    /// Given without being taken: these need room.
    pub raises: Set,
    /// Taken without being given.
    pub lowers: Set,
    pub gives_pr: Set,
    pub gives_pr_not: Set,
}

impl Arcs {
    fn of(transition: &Transition) -> Arcs {
        Arcs {
            takes_pr: transition.takes_pr,
            takes_pr_not: transition.takes_pr_not,
            takes: transition.takes,
            inhibited_by: transition.inhibited_by,
            inhibited_by_pr: transition.inhibited_by_pr,
            raises: transition.gives & !transition.takes,
            lowers: transition.takes & !transition.gives,
            gives_pr: transition.gives_pr,
            gives_pr_not: transition.gives_pr_not,
        }
    }

    // Readiness is six tests in any order. Most transitions fail the test of
    // the place that sets them off, so each group makes that one first.

    #[inline]
    fn is_ready_activation(&self, marks: Marks) -> bool {
        self.pr_is_there(marks)
            && self.has_room(marks)
            && self.contexts_allow(marks)
            && self.pr_not_is_there(marks)
    }

    #[inline]
    fn is_ready_deactivation(&self, marks: Marks) -> bool {
        self.pr_not_is_there(marks)
            && self.contexts_allow(marks)
            && self.pr_is_there(marks)
            && self.has_room(marks)
    }

    #[inline]
    fn is_ready_forced(&self, marks: Marks) -> bool {
        self.contexts_allow(marks)
            && self.pr_is_there(marks)
            && self.pr_not_is_there(marks)
            && self.has_room(marks)
    }

    #[inline]
    fn is_ready_low(&self, marks: Marks) -> bool {
        self.pr_not_is_there(marks)
            && self.pr_is_there(marks)
            && self.contexts_allow(marks)
            && self.has_room(marks)
    }

    #[inline]
    fn pr_is_there(&self, marks: Marks) -> bool {
        self.takes_pr & !marks.pr == 0
    }

    #[inline]
    fn pr_not_is_there(&self, marks: Marks) -> bool {
        self.takes_pr_not & !marks.pr_not == 0
    }

    #[inline]
    fn contexts_allow(&self, marks: Marks) -> bool {
        self.takes & !marks.active == 0
            && self.inhibited_by & marks.active == 0
            && self.inhibited_by_pr & marks.pr == 0
    }

    #[inline]
    fn has_room(&self, marks: Marks) -> bool {
        self.raises & marks.full == 0
    }
}

/// Firings in the low half, the forced ones among them in the high half. One
/// word counts both, and its bytes stand in an answer as they are. A step's
/// 4,096 do not spill from half to half.
pub type Fired = u32;

const FIRING: Fired = 1;
const FORCED_FIRING: Fired = FIRING | 1 << 16;

/// A transition to fire and what it counts as, which the walk knows by the
/// group that it finds it in.
pub type Found<'table> = Option<(&'table Arcs, Fired)>;

/// The transitions in the order in which they come to fire: those of high
/// priority by number, then those of low priority by number. The first that is
/// ready is the enabled one of the lowest number.
pub struct Table {
    /// act(c) and deac(c).
    pairs: Vec<[Arcs; 2]>,
    forced: Vec<Arcs>,
    /// Drops, and what suggestions add.
    low: Vec<Arcs>,
    /// Each c whose Pr(c) one of the low ones takes.
    swallowed: Set,
}

impl Table {
    pub fn of(net: &Net) -> Table {
        let mut table = Table {
            pairs: Vec::with_capacity(net.contexts()),
            forced: Vec::with_capacity(net.relation_count()),
            low: Vec::with_capacity(net.relation_count()),
            swallowed: 0,
        };
        table.pairs.extend(
            net.pairs()
                .map(|[act, deac]| [Arcs::of(&act), Arcs::of(&deac)]),
        );
        for extra in net.extras() {
            let group = match extra.priority {
                PRIORITY_LOW => &mut table.low,
                _ => &mut table.forced,
            };
            group.push(Arcs::of(&extra));
            table.swallowed |= extra.takes_pr;
        }
        table
    }

    /// Walks over all transitions.
    #[inline]
    pub fn next(&self, marks: Marks) -> Found<'_> {
        for [act, deac] in &self.pairs {
            if act.is_ready_activation(marks) {
                return Some((act, FIRING));
            }
            if deac.is_ready_deactivation(marks) {
                return Some((deac, FIRING));
            }
        }
        self.next_forced(marks).or_else(|| self.next_low(marks))
    }

    /// Leaves out the pairs that cannot be ready: act(c) needs its Pr(c) and
    /// room at c, deac(c) its Pr(¬c) and a token at c.
    #[inline]
    pub fn next_of_movable(&self, marks: Marks) -> Found<'_> {
        let movable = marks.pr & !marks.full | marks.pr_not & marks.active;
        for c in Members(movable) {
            let [act, deac] = &self.pairs[c];
            if act.is_ready_activation(marks) {
                return Some((act, FIRING));
            }
            if deac.is_ready_deactivation(marks) {
                return Some((deac, FIRING));
            }
        }
        let forced = self.next_forced(marks);
        // Every drop takes a Pr(¬c), and a suggestion adds what takes a Pr(c).
        if forced.is_some() || marks.pr_not | marks.pr & self.swallowed == 0 {
            return forced;
        }
        self.next_low(marks)
    }

    #[inline]
    fn next_forced(&self, marks: Marks) -> Found<'_> {
        let ready = self.forced.iter().find(|arcs| arcs.is_ready_forced(marks));
        ready.map(|arcs| (arcs, FORCED_FIRING))
    }

    #[inline]
    fn next_low(&self, marks: Marks) -> Found<'_> {
        let ready = self.low.iter().find(|arcs| arcs.is_ready_low(marks));
        ready.map(|arcs| (arcs, FIRING))
    }
}
