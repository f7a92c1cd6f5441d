//! Contexts, relations and the transitions they give rise to.

use crate::refusal;

pub const MAX_CONTEXTS: usize = 48;
pub const MAX_RELATIONS: usize = 96;
/// Bytes of one relation: kind, a, b.
pub const RELATION_LEN: usize = 3;

/// Activations, deactivations and forced deactivations go first.
pub const PRIORITY_HIGH: u8 = 2;
/// A drop or a decline only takes what nothing of high priority wants.
pub const PRIORITY_LOW: u8 = 1;

#[derive(Clone, Copy, PartialEq, Eq, Debug)]
pub enum Kind {
    Exclusion,
    Causality,
    Implication,
    Requirement,
    Suggestion,
}

impl Kind {
    fn from_byte(byte: u8) -> Option<Kind> {
        match byte {
            1 => Some(Kind::Exclusion),
            2 => Some(Kind::Causality),
            3 => Some(Kind::Implication),
            4 => Some(Kind::Requirement),
            5 => Some(Kind::Suggestion),
            _ => None,
        }
    }

    fn to_byte(self) -> u8 {
        match self {
            Kind::Exclusion => 1,
            Kind::Causality => 2,
            Kind::Implication => 3,
            Kind::Requirement => 4,
            Kind::Suggestion => 5,
        }
    }

    /// Whether b is asked on when a goes on.
    fn asks_on(self) -> bool {
        self.asks_off() || self == Kind::Suggestion
    }

    /// Whether b is asked off when a goes off.
    fn asks_off(self) -> bool {
        matches!(self, Kind::Causality | Kind::Implication)
    }
}

#[derive(Clone, Copy, PartialEq, Eq, Debug)]
pub struct Relation {
    pub kind: Kind,
    pub a: usize,
    pub b: usize,
}

impl Relation {
    /// Reads a relation between two different contexts out of `n`.
    fn from_bytes(bytes: &[u8], n: usize) -> Option<Relation> {
        let kind = Kind::from_byte(bytes[0])?;
        let a = usize::from(bytes[1]);
        let b = usize::from(bytes[2]);
        (a < n && b < n && a != b).then_some(Relation { kind, a, b })
    }

    pub fn to_bytes(self) -> [u8; RELATION_LEN] {
        [self.kind.to_byte(), self.a as u8, self.b as u8]
    }

    /// Exclusion has no direction, so its ends may be exchanged.
    fn is_same(&self, other: &Relation) -> bool {
        let both_exclude = self.kind == Kind::Exclusion && other.kind == Kind::Exclusion;
        self == other || (both_exclude && self.a == other.b && self.b == other.a)
    }
}

/// A set of contexts: context c is bit c.
pub type ContextSet = u64;

pub fn only(context: usize) -> ContextSet {
    1 << context
}

pub fn holds(set: ContextSet, context: usize) -> bool {
    set & only(context) != 0
}

/// A set of places, parted into the three places of each context.
#[derive(Clone, Copy, Default, PartialEq, Eq, Debug)]
pub struct PlaceSet {
    /// Context places.
    pub context: ContextSet,
    /// Pr(c), "to be activated".
    pub pr: ContextSet,
    /// Pr(¬c), "to be deactivated".
    pub pr_not: ContextSet,
}

impl PlaceSet {
    pub fn is_within(&self, other: &PlaceSet) -> bool {
        self.context & !other.context == 0
            && self.pr & !other.pr == 0
            && self.pr_not & !other.pr_not == 0
    }

    pub fn is_apart_from(&self, other: &PlaceSet) -> bool {
        self.context & other.context == 0
            && self.pr & other.pr == 0
            && self.pr_not & other.pr_not == 0
    }
}

/// All arcs have weight 1 and an arc asked for twice is one: sets suffice.
#[derive(Clone, Copy, PartialEq, Eq, Debug)]
pub struct Transition {
    pub priority: u8,
    /// Pulls a context down without a request.
    pub forced: bool,
    pub takes: PlaceSet,
    pub gives: PlaceSet,
    pub inhibited_by: PlaceSet,
}

impl Transition {
    fn without_arcs(priority: u8) -> Transition {
        Transition {
            priority,
            forced: false,
            takes: PlaceSet::default(),
            gives: PlaceSet::default(),
            inhibited_by: PlaceSet::default(),
        }
    }

    /// The contexts whose count a firing would raise: only these need room.
    pub fn raises(&self) -> ContextSet {
        self.gives.context & !self.takes.context
    }
}

/// A composed net.
#[derive(Clone, PartialEq, Eq, Debug)]
pub struct Net {
    capacities: Vec<u8>,
    relations: Vec<Relation>,
    transitions: Vec<Transition>,
}

impl Net {
    /// What a refused load leaves: no context at all.
    pub fn empty() -> Net {
        Net {
            capacities: Vec::new(),
            relations: Vec::new(),
            transitions: Vec::new(),
        }
    }

    /// Composes the net of capacities and whole relations whose numbers are
    /// within the limits; tests the refusals 5, 6 and 7.
    pub fn build(capacities: &[u8], relation_bytes: &[u8]) -> Result<Net, u8> {
        if capacities.contains(&0) {
            return Err(refusal::CAPACITY);
        }
        let relations = read_relations(relation_bytes, capacities.len())?;
        if has_repetition(&relations) {
            return Err(refusal::REPEATED_RELATION);
        }
        Ok(Net {
            capacities: capacities.to_vec(),
            transitions: all_transitions(capacities.len(), &relations),
            relations,
        })
    }

    /// n, the number of contexts.
    pub fn contexts(&self) -> usize {
        self.capacities.len()
    }

    pub fn capacities(&self) -> &[u8] {
        &self.capacities
    }

    pub fn relations(&self) -> &[Relation] {
        &self.relations
    }

    pub fn relation_bytes(&self) -> Vec<u8> {
        self.relations.iter().flat_map(|r| r.to_bytes()).collect()
    }

    /// The transitions by number.
    pub fn transitions(&self) -> &[Transition] {
        &self.transitions
    }
}

/// Refusal 6 is tested on every relation before 7 is on any.
fn read_relations(bytes: &[u8], n: usize) -> Result<Vec<Relation>, u8> {
    bytes
        .chunks_exact(RELATION_LEN)
        .map(|triple| Relation::from_bytes(triple, n).ok_or(refusal::RELATION))
        .collect()
}

fn has_repetition(relations: &[Relation]) -> bool {
    (0..relations.len()).any(|i| relations[..i].iter().any(|r| r.is_same(&relations[i])))
}

/// The pairs act(c), deac(c) first, then the extra transitions. Each gets its
/// arcs from the whole list, so the order of relations only sets numbers.
fn all_transitions(n: usize, relations: &[Relation]) -> Vec<Transition> {
    let mut transitions = Vec::new();
    for context in 0..n {
        transitions.push(activation(context, relations));
        transitions.push(deactivation(context, relations));
    }
    transitions.extend(relations.iter().filter_map(|r| extra(r, relations)));
    transitions
}

fn activation(c: usize, relations: &[Relation]) -> Transition {
    let mut act = Transition::without_arcs(PRIORITY_HIGH);
    act.takes.pr = only(c);
    act.gives.context = only(c);
    act.gives.pr = asked_on_by(c, relations);
    // A required token is only looked at: taken and given back.
    act.takes.context = required_by(c, relations);
    act.gives.context |= required_by(c, relations);
    act.inhibited_by.context = excluded_with(c, relations);
    act
}

fn deactivation(c: usize, relations: &[Relation]) -> Transition {
    let mut deac = Transition::without_arcs(PRIORITY_HIGH);
    deac.takes.pr_not = only(c);
    deac.takes.context = only(c);
    deac.gives.pr_not = asked_off_by(c, relations);
    deac
}

/// The transition a relation adds; exclusion adds none.
fn extra(relation: &Relation, relations: &[Relation]) -> Option<Transition> {
    let Relation { kind, a, b } = *relation;
    let b_place = PlaceSet {
        context: only(b),
        ..PlaceSet::default()
    };
    match kind {
        Kind::Exclusion => None,
        Kind::Causality => Some(drop_of(b)),
        // A b that is on its way need not force a off.
        Kind::Implication => {
            let inhibitors = PlaceSet {
                pr: only(b),
                ..b_place
            };
            Some(forced_deactivation(a, inhibitors, relations))
        }
        Kind::Requirement => Some(forced_deactivation(a, b_place, relations)),
        Kind::Suggestion => Some(decline_of(b)),
    }
}

/// Pulls `a` down like deac(a), without a request. A context that inhibits
/// the transition is off already when it fires, and is not asked off.
fn forced_deactivation(a: usize, inhibited_by: PlaceSet, relations: &[Relation]) -> Transition {
    let mut pull = Transition::without_arcs(PRIORITY_HIGH);
    pull.forced = true;
    pull.takes.context = only(a);
    pull.gives.pr_not = asked_off_by(a, relations) & !inhibited_by.context;
    pull.inhibited_by = inhibited_by;
    pull
}

/// Takes away the wish to deactivate a context that is off.
fn drop_of(b: usize) -> Transition {
    let mut dropped = Transition::without_arcs(PRIORITY_LOW);
    dropped.takes.pr_not = only(b);
    dropped.inhibited_by.context = only(b);
    dropped
}

/// Takes away a wish to activate `b` that nothing could serve, whoever it
/// came from.
fn decline_of(b: usize) -> Transition {
    let mut swallowed = Transition::without_arcs(PRIORITY_LOW);
    swallowed.takes.pr = only(b);
    swallowed
}

/// Each d that c causes, implies or suggests.
fn asked_on_by(c: usize, relations: &[Relation]) -> ContextSet {
    ends_from(c, relations, Kind::asks_on)
}

/// Each d that c causes or implies: what was only suggested stays on.
fn asked_off_by(c: usize, relations: &[Relation]) -> ContextSet {
    ends_from(c, relations, Kind::asks_off)
}

/// Each b with "c requires b".
fn required_by(c: usize, relations: &[Relation]) -> ContextSet {
    ends_from(c, relations, |kind| kind == Kind::Requirement)
}

fn ends_from(c: usize, relations: &[Relation], wanted: impl Fn(Kind) -> bool) -> ContextSet {
    relations
        .iter()
        .filter(|r| r.a == c && wanted(r.kind))
        .fold(0, |set, r| set | only(r.b))
}

/// Each context that an exclusion pairs with c, on either side.
fn excluded_with(c: usize, relations: &[Relation]) -> ContextSet {
    let mut set = 0;
    for r in relations.iter().filter(|r| r.kind == Kind::Exclusion) {
        if r.a == c {
            set |= only(r.b);
        }
        if r.b == c {
            set |= only(r.a);
        }
    }
    set
}
