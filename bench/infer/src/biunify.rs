//! Goals are solved: each pair of a positive and a negative state is taken once from a worklist.
use crate::automaton::{field_of, Automaton, Field, Head, Label, Set, StateId};
use std::collections::HashSet;
use std::hash::{BuildHasherDefault, Hasher};

/// A kind of constructors, in the order in which clashes are told.
#[derive(Clone, Copy, PartialEq, Eq, PartialOrd, Ord, Debug)]
pub enum HeadKind {
    Bool,
    Int,
    Function,
    Record,
}

/// Why a positive state is not below a negative one; the least is told.
#[derive(Clone, Copy, PartialEq, Eq, PartialOrd, Ord, Debug)]
pub enum Clash {
    Unlike(HeadKind, HeadKind),
    Lacks(Label),
}

const KINDS: [HeadKind; 4] = [HeadKind::Bool, HeadKind::Int, HeadKind::Function, HeadKind::Record];

fn has(head: &Head, kind: HeadKind) -> bool {
    match kind {
        HeadKind::Bool => head.boolean,
        HeadKind::Int => head.integer,
        HeadKind::Function => head.function.is_some(),
        HeadKind::Record => head.fields.is_some(),
    }
}

/// The least clash of two heads.
fn clash_of(upper: &Head, lower: &Head) -> Option<Clash> {
    for kind in KINDS.into_iter().filter(|kind| has(upper, *kind)) {
        if let Some(other) = KINDS.into_iter().find(|other| *other != kind && has(lower, *other)) {
            return Some(Clash::Unlike(kind, other));
        }
    }
    let (fields, others) = (upper.fields.as_ref()?, lower.fields.as_ref()?);
    let field = others.iter().find(|field| field_of(fields, field.label).is_none())?;
    Some(Clash::Lacks(field.label))
}

/// A hash of pairs of states by one multiplication.
#[derive(Default)]
struct PairHasher(u64);

impl Hasher for PairHasher {
    fn finish(&self) -> u64 {
        self.0
    }

    fn write(&mut self, bytes: &[u8]) {
        for byte in bytes {
            self.write_u64(u64::from(*byte));
        }
    }

    fn write_u64(&mut self, number: u64) {
        self.0 = (self.0 ^ number).wrapping_mul(0x9E37_79B9_7F4A_7C15).rotate_left(29);
    }
}

const NONE: u32 = u32::MAX;

/// A related pair, with the pairs of the same state that were found before it.
#[derive(Clone, Copy)]
struct Pair {
    positive: StateId,
    negative: StateId,
    before_of_positive: u32,
    before_of_negative: u32,
}

/// The pairs found so far, for each state its latest one, and all of them in a table.
#[derive(Default)]
pub struct Solver {
    pairs: Vec<Pair>,
    latest: Vec<u32>,
    table: HashSet<u64, BuildHasherDefault<PairHasher>>,
}

impl Solver {
    /// Solves goals: heads and edges become those of the solved automaton.
    pub fn solve(&mut self, automaton: &mut Automaton, goals: &[(StateId, StateId)]) -> Result<(), Clash> {
        if self.latest.len() < automaton.len() {
            self.latest.resize(automaton.states.capacity(), NONE);
        }
        for goal in goals {
            self.relate(goal.0, goal.1);
        }
        let clash = self.close(automaton);
        if clash.is_none() {
            self.materialise(automaton);
        }
        self.clear();
        clash.map_or(Ok(()), Err)
    }

    fn clear(&mut self) {
        for pair in &self.pairs {
            self.latest[pair.positive as usize] = NONE;
            self.latest[pair.negative as usize] = NONE;
        }
        if self.table.capacity() > 64 + 16 * self.pairs.len() {
            self.table = HashSet::default();
        }
        self.table.clear();
        self.pairs.clear();
    }

    fn relate(&mut self, positive: StateId, negative: StateId) {
        if self.table.insert(u64::from(positive) << 32 | u64::from(negative)) {
            let number = self.pairs.len() as u32;
            let before_of_positive = std::mem::replace(&mut self.latest[positive as usize], number);
            let before_of_negative = std::mem::replace(&mut self.latest[negative as usize], number);
            self.pairs.push(Pair { positive, negative, before_of_positive, before_of_negative });
        }
    }

    fn relate_sets(&mut self, positives: &Set, negatives: &Set) {
        for positive in positives.as_slice() {
            for negative in negatives.as_slice() {
                self.relate(*positive, *negative);
            }
        }
    }

    /// Takes each pair once, and answers the least clash.
    fn close(&mut self, automaton: &Automaton) -> Option<Clash> {
        let mut least = None;
        let mut next = 0;
        while let Some(pair) = self.pairs.get(next).copied() {
            let (upper, lower) = (automaton.state(pair.positive), automaton.state(pair.negative));
            if let Some(clash) = clash_of(&upper.head, &lower.head) {
                least = Some(least.map_or(clash, |least: Clash| least.min(clash)));
            }
            self.relate_heads(&upper.head, &lower.head);
            for end in lower.edges.as_slice() {
                self.relate_after(pair.positive, *end);
            }
            for end in upper.edges.as_slice() {
                self.relate_before(*end, pair.negative);
            }
            next += 1;
        }
        least
    }

    fn relate_heads(&mut self, upper: &Head, lower: &Head) {
        if let (Some(function), Some(other)) = (&upper.function, &lower.function) {
            self.relate_sets(&other.domain, &function.domain);
            self.relate_sets(&function.codomain, &other.codomain);
        }
        if let (Some(_), Some(others)) = (&upper.fields, &lower.fields) {
            for Field { label, set } in others {
                if let Some(field) = upper.field(*label) {
                    self.relate_sets(field, set);
                }
            }
        }
    }

    /// Relates a positive state to all that another positive one, to which it flows, is related to.
    fn relate_after(&mut self, positive: StateId, end: StateId) {
        let mut at = self.latest[end as usize];
        while at != NONE {
            let pair = self.pairs[at as usize];
            self.relate(positive, pair.negative);
            at = pair.before_of_positive;
        }
    }

    /// Relates all that is related to a negative state from which an edge comes to another negative one.
    fn relate_before(&mut self, end: StateId, negative: StateId) {
        let mut at = self.latest[end as usize];
        while at != NONE {
            let pair = self.pairs[at as usize];
            self.relate(pair.positive, negative);
            at = pair.before_of_negative;
        }
    }

    /// Adds the edges past related pairs, and combines the heads along them: for each state once, from all states that
    /// are related to it. What is added to a state may already be in the other state by a further pair, which adds it
    /// to both.
    fn materialise(&self, automaton: &mut Automaton) {
        let has_edges = |automaton: &Automaton, state| !automaton.state(state).edges.as_slice().is_empty();
        for (number, pair) in (0..).zip(&self.pairs) {
            if self.latest[pair.negative as usize] == number && has_edges(automaton, pair.negative) {
                let related = self.group(number, |pair| (pair.positive, pair.before_of_negative));
                flow_into(automaton, pair.negative, &related);
            }
            if self.latest[pair.positive as usize] == number && has_edges(automaton, pair.positive) {
                let related = self.group(number, |pair| (pair.negative, pair.before_of_positive));
                flow_into(automaton, pair.positive, &related);
            }
        }
    }

    /// The states of a pair and of those before it.
    fn group(&self, latest: u32, step: impl Fn(&Pair) -> (StateId, u32)) -> Vec<StateId> {
        let mut states = Vec::new();
        let mut at = latest;
        while at != NONE {
            let (state, before) = step(&self.pairs[at as usize]);
            states.push(state);
            at = before;
        }
        states
    }
}

/// At the other end of each edge at a state comes what the states have that are related to it.
fn flow_into(automaton: &mut Automaton, state: StateId, related: &[StateId]) {
    let ends = automaton.state(state).edges.clone();
    let polarity = automaton.state(related[0]).polarity;
    let head = automaton.combined_head(polarity, related);
    let edges = Set::of(related.iter().flat_map(|other| automaton.state(*other).edges.as_slice()).copied().collect());
    let weight = (head.size() + edges.as_slice().len()) as u32;
    for end in ends.as_slice() {
        automaton.states[*end as usize].take_in(&head, &edges, weight);
    }
}
