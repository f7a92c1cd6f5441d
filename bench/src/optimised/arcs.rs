//! From relations to transitions.

use super::image::{REFUSED_CAPACITY, REFUSED_RELATION, REFUSED_REPETITION};

pub const MAX_CONTEXTS: usize = 48;
pub const MAX_RELATIONS: usize = 96;
/// Bytes of one relation: kind, a, b.
pub const RELATION_LEN: usize = 3;

const PRIORITY_HIGH: u8 = 2;
pub const PRIORITY_LOW: u8 = 1;

const EXCLUDES: u8 = 1;
const CAUSES: u8 = 2;
const IMPLIES: u8 = 3;
const REQUIRES: u8 = 4;
const SUGGESTS: u8 = 5;
const KINDS: usize = 5;

/// A set of contexts: context c is bit c.
pub type Set = u64;

fn only(context: u8) -> Set {
    1 << context
}

/// A transition by its sets, in the order of an image's record.
#[derive(Clone, Copy, Default)]
pub struct Transition {
    pub priority: u8,
    pub takes: Set,
    pub takes_pr: Set,
    pub takes_pr_not: Set,
    pub gives: Set,
    pub gives_pr: Set,
    pub gives_pr_not: Set,
    pub inhibited_by: Set,
    pub inhibited_by_pr: Set,
}

/// Tested capacities and relations.
#[derive(Clone, Copy)]
pub struct Net<'a> {
    pub capacities: &'a [u8],
    pub relations: &'a [u8],
    ends: &'a Ends,
    /// Relations that add a transition.
    extras: usize,
}

impl<'a> Net<'a> {
    /// Tests the refusals 5, 6 and 7; the sizes are within the limits. The
    /// sets are made where the caller says, because they are too large to be
    /// handed from function to function.
    pub fn new(
        capacities: &'a [u8],
        relations: &'a [u8],
        ends: &'a mut Ends,
    ) -> Result<Net<'a>, u8> {
        if capacities.contains(&0) {
            return Err(REFUSED_CAPACITY);
        }
        let extras = ends.insert_all(relations, capacities.len())?;
        Ok(Net {
            capacities,
            relations,
            ends,
            extras,
        })
    }

    /// What a refused load leaves.
    pub fn empty() -> Net<'static> {
        Net {
            capacities: &[],
            relations: &[],
            ends: &Ends::NONE,
            extras: 0,
        }
    }

    pub fn contexts(&self) -> usize {
        self.capacities.len()
    }

    pub fn relation_count(&self) -> usize {
        self.relations.len() / RELATION_LEN
    }

    pub fn transition_count(&self) -> usize {
        2 * self.contexts() + self.extras
    }

    /// act(c) and deac(c) by context.
    #[inline]
    pub fn pairs(&self) -> impl Iterator<Item = [Transition; 2]> + 'a {
        let ends = self.ends;
        (0..self.contexts() as u8).map(|c| [ends.activation(c), ends.deactivation(c)])
    }

    /// The extra transitions in the order of the relations.
    #[inline]
    pub fn extras(&self) -> impl Iterator<Item = Transition> + 'a {
        let ends = self.ends;
        self.relations
            .chunks_exact(RELATION_LEN)
            .filter_map(|triple| ends.extra([triple[0], triple[1], triple[2]]))
    }

    /// The transitions by number.
    #[inline]
    pub fn transitions(&self) -> impl Iterator<Item = Transition> + 'a {
        self.pairs().flatten().chain(self.extras())
    }
}

/// By kind and context, the set of the other ends. An exclusion stands at
/// both of its ends.
pub struct Ends([[Set; MAX_CONTEXTS]; KINDS]);

impl Ends {
    pub const NONE: Ends = Ends([[0; MAX_CONTEXTS]; KINDS]);

    /// The number of relations that add a transition. Refusal 6 goes before
    /// 7, so a repetition is only noted on the way.
    fn insert_all(&mut self, relations: &[u8], n: usize) -> Result<usize, u8> {
        let mut extras = 0;
        let mut repeated = false;
        for triple in relations.chunks_exact(RELATION_LEN) {
            let (kind, a, b) = (triple[0], triple[1], triple[2]);
            let is_relation = (EXCLUDES..=SUGGESTS).contains(&kind)
                && usize::from(a) < n
                && usize::from(b) < n
                && a != b;
            if !is_relation {
                return Err(REFUSED_RELATION);
            }
            repeated |= self.insert(kind, a, b);
            extras += usize::from(kind != EXCLUDES);
        }
        if repeated {
            return Err(REFUSED_REPETITION);
        }
        Ok(extras)
    }

    /// Tells whether the relation was there before.
    #[inline]
    fn insert(&mut self, kind: u8, a: u8, b: u8) -> bool {
        let by_context = &mut self.0[usize::from(kind - 1)];
        let before = by_context[usize::from(a)];
        by_context[usize::from(a)] = before | only(b);
        if kind == EXCLUDES {
            by_context[usize::from(b)] |= only(a);
        }
        before & only(b) != 0
    }

    #[inline]
    fn of(&self, kind: u8, context: u8) -> Set {
        self.0[usize::from(kind - 1)][usize::from(context)]
    }

    #[inline]
    fn asked_on(&self, context: u8) -> Set {
        self.asked_off(context) | self.of(SUGGESTS, context)
    }

    /// What is only suggested stays on.
    #[inline]
    fn asked_off(&self, context: u8) -> Set {
        self.of(CAUSES, context) | self.of(IMPLIES, context)
    }

    #[inline]
    fn activation(&self, c: u8) -> Transition {
        let required = self.of(REQUIRES, c);
        Transition {
            priority: PRIORITY_HIGH,
            takes: required,
            takes_pr: only(c),
            gives: required | only(c),
            gives_pr: self.asked_on(c),
            inhibited_by: self.of(EXCLUDES, c),
            ..Transition::default()
        }
    }

    #[inline]
    fn deactivation(&self, c: u8) -> Transition {
        Transition {
            priority: PRIORITY_HIGH,
            takes: only(c),
            takes_pr_not: only(c),
            gives_pr_not: self.asked_off(c),
            ..Transition::default()
        }
    }

    /// The transition that a relation adds; an exclusion adds none.
    #[inline]
    fn extra(&self, [kind, a, b]: [u8; RELATION_LEN]) -> Option<Transition> {
        match kind {
            EXCLUDES => None,
            CAUSES => Some(Transition {
                priority: PRIORITY_LOW,
                takes_pr_not: only(b),
                inhibited_by: only(b),
                ..Transition::default()
            }),
            IMPLIES => Some(self.forced(a, b, only(b))),
            REQUIRES => Some(self.forced(a, b, 0)),
            _ => Some(Transition {
                priority: PRIORITY_LOW,
                takes_pr: only(b),
                ..Transition::default()
            }),
        }
    }

    #[inline]
    fn forced(&self, a: u8, b: u8, inhibited_by_pr: Set) -> Transition {
        Transition {
            priority: PRIORITY_HIGH,
            takes: only(a),
            gives_pr_not: self.asked_off(a) & !only(b),
            inhibited_by: only(b),
            inhibited_by_pr,
            ..Transition::default()
        }
    }
}
