//! Requests with commit or rollback, undo, settling.

use super::arcs::{Net, Set, MAX_CONTEXTS};
use super::walk::{Arcs, Fired, Found, Marks, Members, Table};

pub const REFUSED_CONTEXT: u8 = 10;
pub const REFUSED_LIMIT: u8 = 11;
pub const REFUSED_TOKEN: u8 = 12;
pub const REFUSED_UNDO: u8 = 13;
pub const REFUSED_OFF: u8 = 14;
pub const REFUSED_NOT_RAISED: u8 = 15;
const GRANTED: u8 = 0;

const STEP_LIMIT: u16 = 4096;
const OPEN_LIMIT: usize = 32;
/// As many as a word has bits, so that no member of a set is out of bounds.
const SLOTS: usize = 64;

/// The verdict, and what the step fired.
pub type Answer = (u8, Fired);

/// What a granted request changes and an undo restores: one cache line.
#[derive(Clone, Copy)]
struct Board {
    counts: [u8; MAX_CONTEXTS],
    /// Contexts with a count above 0.
    active: Set,
    /// Contexts at their capacity.
    full: Set,
}

impl Board {
    const EMPTY: Board = Board {
        counts: [0; MAX_CONTEXTS],
        active: 0,
        full: 0,
    };

    #[inline]
    fn lower(&mut self, c: usize) {
        self.counts[c] -= 1;
        self.full &= !(1 << c);
        if self.counts[c] == 0 {
            self.active &= !(1 << c);
        }
    }

    #[inline]
    fn raise(&mut self, c: usize, capacity: u8) {
        self.counts[c] += 1;
        self.active |= 1 << c;
        if self.counts[c] == capacity {
            self.full |= 1 << c;
        }
    }
}

/// Tokens on temporary places of one sort. A step fires at most 4,096 times
/// and a firing adds at most one token to a place, so two bytes hold them.
struct Requests {
    tokens: [u16; SLOTS],
    /// Where there is a token.
    marked: Set,
}

impl Requests {
    const NONE: Requests = Requests {
        tokens: [0; SLOTS],
        marked: 0,
    };

    #[inline]
    fn add(&mut self, set: Set) {
        for c in Members(set) {
            self.tokens[c] += 1;
        }
        self.marked |= set;
    }

    #[inline]
    fn take(&mut self, set: Set) {
        for c in Members(set) {
            self.tokens[c] -= 1;
            if self.tokens[c] == 0 {
                self.marked ^= 1 << c;
            }
        }
    }

    fn clear(&mut self) {
        for c in Members(self.marked) {
            self.tokens[c] = 0;
        }
        self.marked = 0;
    }
}

/// Tokens on all places. The sets are renewed where a count changes.
struct Marking<'net> {
    capacities: &'net [u8],
    board: Board,
    pr: Requests,
    pr_not: Requests,
}

impl Marking<'_> {
    #[inline]
    fn marks(&self) -> Marks {
        Marks {
            active: self.board.active,
            full: self.board.full,
            pr: self.pr.marked,
            pr_not: self.pr_not.marked,
        }
    }

    // Inlined so that the sets stay in registers between walk and firing.
    #[inline(always)]
    fn fire(&mut self, arcs: &Arcs) {
        self.pr.take(arcs.takes_pr);
        self.pr_not.take(arcs.takes_pr_not);
        self.pr.add(arcs.gives_pr);
        self.pr_not.add(arcs.gives_pr_not);
        for c in Members(arcs.lowers) {
            self.board.lower(c);
        }
        for c in Members(arcs.raises) {
            self.board.raise(c, self.capacities[c]);
        }
    }
}

/// Granted requests that an undo may take back, as the boards before them.
struct OpenList {
    ring: [Board; OPEN_LIMIT],
    /// Where the next one goes.
    end: usize,
    length: usize,
}

impl OpenList {
    const EMPTY: OpenList = OpenList {
        ring: [Board::EMPTY; OPEN_LIMIT],
        end: 0,
        length: 0,
    };

    fn push(&mut self, before: &Board) {
        self.ring[self.end] = *before;
        self.end = (self.end + 1) % OPEN_LIMIT;
        self.length = (self.length + 1).min(OPEN_LIMIT);
    }

    fn pop(&mut self) -> Option<&Board> {
        self.length = self.length.checked_sub(1)?;
        self.end = (self.end + OPEN_LIMIT - 1) % OPEN_LIMIT;
        Some(&self.ring[self.end])
    }
}

/// `SPARSE` chooses the walk.
pub struct Machine<'net, const SPARSE: bool> {
    table: Table,
    marking: Marking<'net>,
    open: OpenList,
    granted: u32,
    refused: u32,
    undone: u32,
}

impl<'net, const SPARSE: bool> Machine<'net, SPARSE> {
    pub fn fresh(net: &Net<'net>) -> Self {
        Machine {
            table: Table::of(net),
            marking: Marking {
                capacities: net.capacities,
                board: Board::EMPTY,
                pr: Requests::NONE,
                pr_not: Requests::NONE,
            },
            open: OpenList::EMPTY,
            granted: 0,
            refused: 0,
            undone: 0,
        }
    }

    pub fn counts(&self) -> &[u8] {
        &self.marking.board.counts[..self.contexts()]
    }

    pub fn totals(&self) -> [u32; 3] {
        [self.granted, self.refused, self.undone]
    }

    fn contexts(&self) -> usize {
        self.marking.capacities.len()
    }

    pub fn activate(&mut self, context: usize) -> Answer {
        if context >= self.contexts() {
            return self.refuse(REFUSED_CONTEXT, 0);
        }
        self.marking.pr.add(1 << context);
        self.request(context, true)
    }

    pub fn deactivate(&mut self, context: usize) -> Answer {
        if context >= self.contexts() {
            return self.refuse(REFUSED_CONTEXT, 0);
        }
        if self.marking.board.active & (1 << context) == 0 {
            return self.refuse(REFUSED_OFF, 0);
        }
        self.marking.pr_not.add(1 << context);
        self.request(context, false)
    }

    pub fn undo(&mut self) -> Answer {
        match self.open.pop() {
            None => self.refuse(REFUSED_UNDO, 0),
            Some(before) => {
                self.marking.board = *before;
                self.undone = self.undone.saturating_add(1);
                (GRANTED, 0)
            }
        }
    }

    /// The settled list is read by no call and not kept.
    pub fn settle(&mut self) -> Answer {
        self.open.length = 0;
        (GRANTED, 0)
    }

    /// Runs the step, and commits it where nothing is left asked for and an
    /// activation has raised its context.
    fn request(&mut self, context: usize, on: bool) -> Answer {
        let before = self.marking.board;
        let (fired, quiet) = self.step();
        let marks = self.marking.marks();
        let clear = marks.pr | marks.pr_not == 0;
        // A suggestion may have swallowed the wish, or what the context needs
        // to stay on.
        let low = on && self.marking.board.counts[context] <= before.counts[context];
        if quiet && clear && !low {
            self.open.push(&before);
            self.granted = self.granted.saturating_add(1);
            return (GRANTED, fired);
        }
        self.marking.board = before;
        self.marking.pr.clear();
        self.marking.pr_not.clear();
        let refusal = match (quiet, clear) {
            (false, _) => REFUSED_LIMIT,
            (true, false) => REFUSED_TOKEN,
            (true, true) => REFUSED_NOT_RAISED,
        };
        self.refuse(refusal, fired)
    }

    fn refuse(&mut self, refusal: u8, fired: Fired) -> Answer {
        self.refused = self.refused.saturating_add(1);
        (refusal, fired)
    }

    /// The firings made, and whether none is enabled any more.
    fn step(&mut self) -> (Fired, bool) {
        let mut fired = 0;
        while let Some((arcs, firing)) = next::<SPARSE>(&self.table, self.marking.marks()) {
            // The low half, all firings.
            if fired as u16 == STEP_LIMIT {
                return (fired, false);
            }
            self.marking.fire(arcs);
            fired += firing;
        }
        (fired, true)
    }
}

#[inline]
fn next<const SPARSE: bool>(table: &Table, marks: Marks) -> Found<'_> {
    if SPARSE {
        table.next_of_movable(marks)
    } else {
        table.next(marks)
    }
}
