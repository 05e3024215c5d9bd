//! Which negative states are below which positive ones, in a deterministic automaton.
use crate::automaton::{Automaton, Set, StateId};
use std::collections::HashMap;

/// A negative state and a positive one.
type Pair = (StateId, StateId);

/// The pairs that were asked for, with all that they rest on. A pair stands as long as one of its ways does.
#[derive(Default)]
struct Claims {
    numbers: HashMap<Pair, usize>,
    claims: Vec<Claim>,
}

struct Claim {
    pair: Pair,
    /// How many ways are left; each way needs all pairs that it names.
    ways: usize,
    has_edge: bool,
    /// The ways of other claims that need this one.
    users: Vec<WayId>,
    fallen_ways: [bool; 2],
}

#[derive(Clone, Copy)]
struct WayId {
    claim: usize,
    way: usize,
}

/// The ways by heads: `None` where a base type alone suffices, else the pairs that each way needs.
fn ways(automaton: &Automaton, (negative, positive): Pair) -> Option<Vec<Vec<Pair>>> {
    let (lower, upper) = (automaton.head(negative), automaton.head(positive));
    if lower.boolean && upper.boolean || lower.integer && upper.integer {
        return None;
    }
    let mut found = Vec::new();
    if let (Some(function), Some(other)) = (&lower.function, &upper.function) {
        found.push(vec![
            (only(&other.domain), only(&function.domain)),
            (only(&function.codomain), only(&other.codomain)),
        ]);
    }
    if let (Some(_), Some(others)) = (&lower.fields, &upper.fields) {
        let needs: Option<Vec<Pair>> =
            others.iter().map(|other| Some((only(lower.field(other.label)?), only(&other.set)))).collect();
        found.extend(needs);
    }
    Some(found)
}

/// The only member of a set of a deterministic automaton.
pub fn only(set: &Set) -> StateId {
    set.as_slice()[0]
}

impl Claims {
    fn number(&mut self, automaton: &Automaton, pair: Pair) -> usize {
        let next = self.claims.len();
        let number = *self.numbers.entry(pair).or_insert(next);
        if number == next {
            let has_edge = automaton.state(pair.0).edges.has(pair.1);
            self.claims.push(Claim { pair, ways: 0, has_edge, users: vec![], fallen_ways: [false; 2] });
        }
        number
    }

    /// Finds all that these pairs rest on by heads, and lets fall what has no way.
    fn settle(&mut self, automaton: &Automaton, asked: &[Pair]) {
        let asked_for = asked.len();
        for pair in asked {
            self.number(automaton, *pair);
        }
        let mut fallen = Vec::new();
        let mut next = 0;
        while next < self.claims.len() {
            let Claim { pair, has_edge, .. } = self.claims[next];
            if !has_edge || next < asked_for {
                match ways(automaton, pair) {
                    None => self.claims[next].ways = usize::MAX,
                    Some(ways) => self.add_ways(automaton, next, ways),
                }
                if self.claims[next].ways == 0 {
                    fallen.push(next);
                }
            }
            next += 1;
        }
        self.fall(fallen);
    }

    fn add_ways(&mut self, automaton: &Automaton, claim: usize, ways: Vec<Vec<Pair>>) {
        self.claims[claim].ways = ways.len();
        for (way, needs) in ways.into_iter().enumerate() {
            for need in needs {
                let number = self.number(automaton, need);
                self.claims[number].users.push(WayId { claim, way });
            }
        }
    }

    /// Claims with an edge stand whatever their heads are; their ways fall all the same.
    fn fall(&mut self, mut fallen: Vec<usize>) {
        while let Some(number) = fallen.pop() {
            if self.claims[number].has_edge {
                continue;
            }
            for user in std::mem::take(&mut self.claims[number].users) {
                let claim = &mut self.claims[user.claim];
                if !std::mem::replace(&mut claim.fallen_ways[user.way], true) && claim.ways != usize::MAX {
                    claim.ways -= 1;
                    if claim.ways == 0 {
                        fallen.push(user.claim);
                    }
                }
            }
        }
    }
}

/// For each of these pairs whether heads match them relative to the greatest admissible relation.
pub fn matched_by_heads(automaton: &Automaton, pairs: &[Pair]) -> Vec<bool> {
    let mut claims = Claims::default();
    claims.settle(automaton, pairs);
    pairs.iter().map(|pair| claims.claims[claims.numbers[pair]].ways > 0).collect()
}

/// For each of these pairs whether the greatest admissible relation holds it.
pub fn admissible(automaton: &Automaton, pairs: &[Pair]) -> Vec<bool> {
    let matched = matched_by_heads(automaton, pairs);
    pairs
        .iter()
        .zip(matched)
        .map(|(pair, is_matched)| is_matched || automaton.state(pair.0).edges.has(pair.1))
        .collect()
}
