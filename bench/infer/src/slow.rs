//! Whether one closed scheme subsumes another, decided slowly: by tables over all pairs of states that are gone over
//! until nothing changes. It shares nothing with the other decision but the automata, which it makes deterministic.
use crate::automaton::{Automaton, Polarity, Scheme, Set, StateId};
use crate::simplify::determinise;

fn state_of(set: &Set) -> StateId {
    match set {
        Set::One(state) => *state,
        _ => panic!("the automaton is deterministic"),
    }
}

/// A truth value for each two states.
struct Table {
    width: usize,
    cells: Vec<bool>,
}

impl Table {
    fn new(height: usize, width: usize, value: bool) -> Table {
        Table { width, cells: vec![value; height * width] }
    }

    fn get(&self, row: StateId, column: StateId) -> bool {
        self.cells[row as usize * self.width + column as usize]
    }

    fn set(&mut self, row: StateId, column: StateId, value: bool) {
        self.cells[row as usize * self.width + column as usize] = value;
    }
}

/// Whether a part of the negative state says that it is below the positive one, by pairs that are still in the table.
fn some_part_is_below(a: &Automaton, below: &Table, negative: StateId, positive: StateId) -> bool {
    let (lower, upper) = (a.head(negative), a.head(positive));
    if lower.boolean && upper.boolean || lower.integer && upper.integer {
        return true;
    }
    if let (Some(function), Some(other)) = (&lower.function, &upper.function) {
        let domains = (state_of(&other.domain), state_of(&function.domain));
        let codomains = (state_of(&function.codomain), state_of(&other.codomain));
        if below.get(domains.0, domains.1) && below.get(codomains.0, codomains.1) {
            return true;
        }
    }
    let (Some(fields), Some(others)) = (&lower.fields, &upper.fields) else { return false };
    others.iter().all(|other| {
        let field = fields.iter().find(|field| field.label == other.label);
        field.is_some_and(|field| below.get(state_of(&field.set), state_of(&other.set)))
    })
}

/// The greatest table of a negative and a positive state where an edge or a part says so for each pair.
fn admissible(a: &Automaton) -> Table {
    let count = a.len() as StateId;
    let mut below = Table::new(a.len(), a.len(), true);
    let mut changed = true;
    while changed {
        changed = false;
        for negative in 0..count {
            for positive in 0..count {
                let signs = (a.state(negative).polarity, a.state(positive).polarity);
                let stays = signs == (Polarity::Negative, Polarity::Positive)
                    && (a.state(negative).edges.has(positive) || some_part_is_below(a, &below, negative, positive));
                if below.get(negative, positive) && !stays {
                    below.set(negative, positive, false);
                    changed = true;
                }
            }
        }
    }
    below
}

/// Puts the parts of a pair into the table, and answers whether one of them was not there.
fn follow(general: &Automaton, special: &Automaton, met: &mut Table, g: StateId, s: StateId) -> bool {
    let (head, other) = (general.head(g), special.head(s));
    let mut parts = Vec::new();
    if let (Some(function), Some(others)) = (&head.function, &other.function) {
        parts.push((state_of(&function.domain), state_of(&others.domain)));
        parts.push((state_of(&function.codomain), state_of(&others.codomain)));
    }
    for field in head.fields.iter().flatten() {
        for other in other.fields.iter().flatten() {
            if field.label == other.label {
                parts.push((state_of(&field.set), state_of(&other.set)));
            }
        }
    }
    let mut is_new = false;
    for (g, s) in parts {
        is_new |= !met.get(g, s);
        met.set(g, s, true);
    }
    is_new
}

/// Whether the special state has all that the general one has.
fn fits(general: &Automaton, special: &Automaton, g: StateId, s: StateId) -> bool {
    let (head, other) = (general.head(g), special.head(s));
    let labels = |fields: &Option<Vec<crate::automaton::Field>>| -> Vec<u32> {
        fields.iter().flatten().map(|field| field.label).collect()
    };
    let (wanted, there) = (labels(&head.fields), labels(&other.fields));
    let labels_fit = match general.state(g).polarity {
        Polarity::Positive => there.iter().all(|label| wanted.contains(label)),
        Polarity::Negative => wanted.iter().all(|label| there.contains(label)),
    };
    (!head.boolean || other.boolean)
        && (!head.integer || other.integer)
        && (head.function.is_none() || other.function.is_some())
        && (head.fields.is_none() || other.fields.is_some() && labels_fit)
}

/// Whether the first of two closed schemes subsumes the second.
pub fn subsumes_slowly(general: &Scheme, special: &Scheme) -> bool {
    let (general, special) = (determinise(general), determinise(special));
    let (g, s) = (&general.automaton, &special.automaton);
    let mut met = Table::new(g.len(), s.len(), false);
    met.set(general.part.root, special.part.root, true);
    let pairs: Vec<(StateId, StateId)> =
        (0..g.len() as StateId).flat_map(|x| (0..s.len() as StateId).map(move |y| (x, y))).collect();
    let mut changed = true;
    while changed {
        changed = false;
        for (x, y) in &pairs {
            changed |= met.get(*x, *y) && follow(g, s, &mut met, *x, *y);
        }
    }
    let below = admissible(s);
    pairs.iter().filter(|(x, y)| met.get(*x, *y)).all(|(x, y)| {
        let edges = pairs.iter().filter(|(n, m)| g.state(*n).edges.has(*x) && met.get(*n, *m));
        let is_positive = g.state(*x).polarity == Polarity::Positive;
        fits(g, s, *x, *y) && (!is_positive || edges.into_iter().all(|(_, m)| below.get(*m, *y)))
    })
}
