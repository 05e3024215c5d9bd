//! Whether one closed scheme has all instances of another.
use crate::automaton::{Automaton, Head, Label, Polarity, Scheme, StateId};
use crate::biunify::HeadKind;
use crate::flow::{admissible, only};
use crate::simplify::determinise;
use std::collections::{HashMap, HashSet};

/// A state of the general scheme, and one of the special scheme.
type Pair = (StateId, StateId);

/// The pairs that are reached from the roots through constructors that both have.
fn walk(general: &Automaton, special: &Automaton, roots: Pair) -> Vec<Pair> {
    let mut pairs = vec![roots];
    let mut known = HashSet::from([roots]);
    let mut next = 0;
    while let Some(pair) = pairs.get(next).copied() {
        let below = children(general.head(pair.0), special.head(pair.1));
        pairs.extend(below.into_iter().filter(|pair| known.insert(*pair)));
        next += 1;
    }
    pairs
}

fn children(general: &Head, special: &Head) -> Vec<Pair> {
    let mut pairs = Vec::new();
    if let (Some(function), Some(other)) = (&general.function, &special.function) {
        pairs.push((only(&function.domain), only(&other.domain)));
        pairs.push((only(&function.codomain), only(&other.codomain)));
    }
    for field in general.fields.iter().flatten() {
        if let Some(set) = special.field(field.label) {
            pairs.push((only(&field.set), only(set)));
        }
    }
    pairs
}

/// Whether the special state has all constructors of the general one, with the fields that its polarity asks for.
fn heads_fit(polarity: Polarity, general: &Head, special: &Head) -> bool {
    let has_all = (!general.boolean || special.boolean)
        && (!general.integer || special.integer)
        && (general.function.is_none() || special.function.is_some());
    let fields_fit = match (&general.fields, &special.fields) {
        (None, _) => true,
        (Some(_), None) => false,
        (Some(fields), Some(others)) => match polarity {
            Polarity::Positive => others.iter().all(|other| general.field(other.label).is_some()),
            Polarity::Negative => fields.iter().all(|field| special.field(field.label).is_some()),
        },
    };
    has_all && fields_fit
}

/// For each edge of the general scheme that is paired on both ends, the ends in the special scheme.
fn flows_needed(general: &Automaton, pairs: &[Pair]) -> Vec<Pair> {
    let mut partners: HashMap<StateId, Vec<StateId>> = HashMap::new();
    for (state, other) in pairs {
        partners.entry(*state).or_default().push(*other);
    }
    let mut needed = HashSet::new();
    for (positive, other) in pairs.iter().filter(|pair| general.state(pair.0).polarity == Polarity::Positive) {
        for negative in general.state(*positive).edges.as_slice() {
            let sources = partners.get(negative).into_iter().flatten();
            needed.extend(sources.map(|source| (*source, *other)));
        }
    }
    needed.into_iter().collect()
}

fn deterministic_subsumes(general: &Scheme, special: &Scheme) -> bool {
    let pairs = walk(&general.automaton, &special.automaton, (general.part.root, special.part.root));
    let fit = pairs.iter().all(|pair| {
        let state = general.automaton.state(pair.0);
        heads_fit(state.polarity, &state.head, special.automaton.head(pair.1))
    });
    fit && admissible(&special.automaton, &flows_needed(&general.automaton, &pairs)).into_iter().all(|holds| holds)
}

/// A step from a pair of states to a pair of parts.
#[derive(Clone, Copy)]
pub enum Step {
    Domain,
    Codomain,
    Field(Label),
}

pub enum Reason {
    Head(HeadKind),
    Label(Label),
    Flow,
}

/// The steps from a pair, in the order of paths.
fn steps(general: &Head, special: &Head) -> Vec<(Step, Pair)> {
    let mut found = Vec::new();
    if let (Some(function), Some(other)) = (&general.function, &special.function) {
        found.push((Step::Domain, (only(&function.domain), only(&other.domain))));
        found.push((Step::Codomain, (only(&function.codomain), only(&other.codomain))));
    }
    for field in general.fields.iter().flatten() {
        if let Some(set) = special.field(field.label) {
            found.push((Step::Field(field.label), (only(&field.set), only(set))));
        }
    }
    found
}

fn failure_by_head(polarity: Polarity, general: &Head, special: &Head) -> Option<Reason> {
    let lacks = [
        (general.boolean && !special.boolean, HeadKind::Bool),
        (general.integer && !special.integer, HeadKind::Int),
        (general.function.is_some() && special.function.is_none(), HeadKind::Function),
        (general.fields.is_some() && special.fields.is_none(), HeadKind::Record),
    ];
    if let Some((_, kind)) = lacks.into_iter().find(|lack| lack.0) {
        return Some(Reason::Head(kind));
    }
    let (Some(fields), Some(others)) = (&general.fields, &special.fields) else { return None };
    let (wanted, there) = match polarity {
        Polarity::Positive => (others, general),
        Polarity::Negative => (fields, special),
    };
    wanted.iter().find(|field| there.field(field.label).is_none()).map(|field| Reason::Label(field.label))
}

/// The first failure of the first of two closed schemes to subsume the second, if it does not: the least path to a pair
/// that fails by its heads, or else the least to one that fails by an edge.
pub fn first_failure(general: &Scheme, special: &Scheme) -> Option<(Vec<Step>, Reason)> {
    let (general, special) = (determinise(general), determinise(special));
    let mut met: Vec<(Pair, Option<(usize, Step)>)> = vec![((general.part.root, special.part.root), None)];
    let mut known = HashSet::from([met[0].0]);
    let mut next = 0;
    while let Some((pair, _)) = met.get(next).copied() {
        for (step, below) in steps(general.automaton.head(pair.0), special.automaton.head(pair.1)) {
            if known.insert(below) {
                met.push((below, Some((next, step))));
            }
        }
        next += 1;
    }
    let path = |number: usize| {
        let mut steps = Vec::new();
        let mut at = number;
        while let Some((before, step)) = met[at].1 {
            steps.push(step);
            at = before;
        }
        steps.reverse();
        steps
    };
    for (number, (pair, _)) in met.iter().enumerate() {
        let state = general.automaton.state(pair.0);
        if let Some(reason) = failure_by_head(state.polarity, &state.head, special.automaton.head(pair.1)) {
            return Some((path(number), reason));
        }
    }
    let mut partners: HashMap<StateId, Vec<StateId>> = HashMap::new();
    for ((state, other), _) in &met {
        partners.entry(*state).or_default().push(*other);
    }
    for (number, (pair, _)) in met.iter().enumerate() {
        if general.automaton.state(pair.0).polarity == Polarity::Negative {
            continue;
        }
        let edges = general.automaton.state(pair.0).edges.as_slice();
        let needed: Vec<Pair> = edges
            .iter()
            .flat_map(|negative| partners.get(negative).into_iter().flatten())
            .map(|source| (*source, pair.1))
            .collect();
        if !admissible(&special.automaton, &needed).into_iter().all(|holds| holds) {
            return Some((path(number), Reason::Flow));
        }
    }
    None
}

/// Whether each of two closed schemes subsumes the other.
pub fn are_equivalent(first: &Scheme, second: &Scheme) -> bool {
    let (first, second) = (determinise(first), determinise(second));
    deterministic_subsumes(&first, &second) && deterministic_subsumes(&second, &first)
}

/// Whether the first of two closed schemes subsumes the second.
#[cfg(test)]
pub fn subsumes(general: &Scheme, special: &Scheme) -> bool {
    deterministic_subsumes(&determinise(general), &determinise(special))
}
