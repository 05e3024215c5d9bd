//! Inference: nodes in postorder, each by the schemes of its parts, its constraint and the solution of that.
use crate::automaton::{Automaton, Field, Head, Label, Part, Polarity, Scheme, Set, StateId};
use crate::biunify::{Clash, Solver};
use crate::names::Meaning;
use crate::parse::{Form, Operator, Piece};
use crate::simplify::simplify;
use std::collections::HashMap;

/// The node for which there is no scheme, and why.
pub struct NoScheme {
    pub node: usize,
    pub clash: Clash,
}

/// What is known beside the nodes of a binding.
pub struct Known<'a> {
    pub operators: &'a Operators,
    /// The schemes of the earlier bindings.
    pub globals: &'a [Scheme],
    /// The schemes of the declarations of imports that are used.
    pub declared: &'a HashMap<usize, Scheme>,
    pub labels: &'a HashMap<&'a [u8], Label>,
    /// Whether the first parts of lets are simplified.
    pub simplifies: bool,
}

/// The schemes of the operators, by their results.
pub struct Operators {
    to_integer: Scheme,
    to_boolean: Scheme,
}

impl Operators {
    pub fn new() -> Operators {
        Operators { to_integer: operator(Head::integer()), to_boolean: operator(Head::boolean()) }
    }

    fn scheme(&self, operator: Operator) -> &Scheme {
        match operator {
            Operator::Add | Operator::Subtract | Operator::Multiply => &self.to_integer,
            Operator::Less | Operator::Equal => &self.to_boolean,
        }
    }
}

fn operator(result: Head) -> Scheme {
    let mut automaton = Automaton::default();
    let mut add = |polarity, head| Set::One(automaton.add(polarity, head));
    let first = add(Polarity::Negative, Head::integer());
    let second = add(Polarity::Negative, Head::integer());
    let result = add(Polarity::Positive, result);
    let inner = add(Polarity::Positive, Head::function(second, result));
    let root = automaton.add(Polarity::Positive, Head::function(first, inner));
    Scheme { automaton, part: Part { env: vec![], root } }
}

/// What is being solved: all states live in one automaton, and those that no part reaches are dropped from time to
/// time. `parts` are those of the nodes whose parents are still to come.
struct Run<'a> {
    known: &'a Known<'a>,
    automaton: Automaton,
    solver: Solver,
    parts: Vec<Part>,
    limit: usize,
}

const LEAST_LIMIT: usize = 2_048;

/// The scheme of an expression, over all states that it reaches.
pub fn infer(nodes: &[Piece], uses: &[Option<Meaning>], known: &Known) -> Result<Scheme, NoScheme> {
    let mut run = Run {
        known,
        automaton: Automaton::default(),
        solver: Solver::default(),
        parts: Vec::new(),
        limit: LEAST_LIMIT,
    };
    let firsts: HashMap<usize, usize> = nodes
        .iter()
        .enumerate()
        .filter_map(|(number, node)| match node.form {
            Form::Let(_, first, _) => Some((first, number)),
            _ => None,
        })
        .collect();
    let mut lets: HashMap<usize, Scheme> = HashMap::new();
    for (number, node) in nodes.iter().enumerate() {
        let part = match (&node.form, uses[number]) {
            (Form::Var(_), Some(Meaning::Let(around))) => run.copy(&lets[&around]),
            (_, used) => run.part(node, used).map_err(|clash| NoScheme { node: number, clash })?,
        };
        run.parts.push(part);
        if let Some(around) = firsts.get(&number) {
            let scheme = run.finish_first();
            lets.insert(*around, scheme);
        }
        if let Form::Let(..) = node.form {
            lets.remove(&number);
        }
        run.drop_unreached();
    }
    let part = run.pop();
    Ok(Scheme::reached(&run.automaton, &part))
}

impl Run<'_> {
    fn pop(&mut self) -> Part {
        self.parts.pop().expect("parts come first")
    }

    /// The part of a node.
    fn part(&mut self, node: &Piece, used: Option<Meaning>) -> Result<Part, Clash> {
        match &node.form {
            Form::Var(_) => match used.expect("each name has a meaning") {
                Meaning::Binder(binder) => {
                    let (negative, root) = self.automaton.add_passage();
                    Ok(Part { env: vec![(binder, negative)], root })
                }
                Meaning::Global(number) => Ok(self.copy(&self.known.globals[number])),
                Meaning::Declared(number) => Ok(self.copy(&self.known.declared[&number])),
                Meaning::Let(_) => unreachable!("a use of a let is copied before"),
            },
            Form::Operator(operator) => Ok(self.copy(self.known.operators.scheme(*operator))),
            Form::Number => Ok(self.leaf(Head::integer())),
            Form::Truth => Ok(self.leaf(Head::boolean())),
            Form::Fun(..) => Ok(self.function(node.at)),
            Form::Rec(..) => self.recursion(node.at),
            Form::Apply(..) => self.application(),
            Form::Make(parts) => Ok(self.record(parts)),
            Form::Project(_, label) => self.projection(self.known.labels[label]),
            Form::If(..) => self.conditional(),
            Form::Let(..) => {
                let body = self.pop();
                let first = self.pop();
                let env = self.met(vec![first.env, body.env]);
                Ok(Part { env, root: body.root })
            }
            Form::Binary(..) => unreachable!("nodes have operators in place of this form"),
        }
    }

    fn copy(&mut self, scheme: &Scheme) -> Part {
        let up = self.automaton.append(&scheme.automaton);
        let mut part = scheme.part.renumbered(|state| state + up);
        if self.known.simplifies {
            // one state may stand for several binders there, or for a binder and a domain
            for (_, state) in &mut part.env {
                *state = self.automaton.twin(*state);
            }
        }
        part
    }

    fn leaf(&mut self, head: Head) -> Part {
        let root = self.automaton.add(Polarity::Positive, head);
        Part { env: vec![], root }
    }

    fn function(&mut self, binder: usize) -> Part {
        let mut body = self.pop();
        let domain = take_binder(&mut body.env, binder).map_or(Set::Empty, Set::One);
        let head = Head::function(domain, Set::One(body.root));
        let root = self.automaton.add(Polarity::Positive, head);
        Part { env: body.env, root }
    }

    fn recursion(&mut self, binder: usize) -> Result<Part, Clash> {
        let mut body = self.pop();
        if let Some(state) = take_binder(&mut body.env, binder) {
            self.solve(&[(body.root, state)])?;
        }
        Ok(body)
    }

    fn application(&mut self) -> Result<Part, Clash> {
        let argument = self.pop();
        let function = self.pop();
        let (negative, root) = self.automaton.add_passage();
        let head = Head::function(Set::One(argument.root), Set::One(negative));
        let demand = self.automaton.add(Polarity::Negative, head);
        let env = self.met(vec![function.env, argument.env]);
        self.solve(&[(function.root, demand)])?;
        Ok(Part { env, root })
    }

    fn projection(&mut self, label: Label) -> Result<Part, Clash> {
        let body = self.pop();
        let (negative, root) = self.automaton.add_passage();
        let head = Head::record(vec![Field { label, set: Set::One(negative) }]);
        let demand = self.automaton.add(Polarity::Negative, head);
        self.solve(&[(body.root, demand)])?;
        Ok(Part { env: body.env, root })
    }

    fn conditional(&mut self) -> Result<Part, Clash> {
        let second = self.pop();
        let first = self.pop();
        let condition = self.pop();
        let boolean = self.automaton.add(Polarity::Negative, Head::boolean());
        let (either, root) = self.automaton.add_passage();
        let env = self.met(vec![condition.env, first.env, second.env]);
        self.solve(&[(condition.root, boolean), (first.root, either), (second.root, either)])?;
        Ok(Part { env, root })
    }

    fn record(&mut self, named: &[(&[u8], usize)]) -> Part {
        let parts = self.parts.split_off(self.parts.len() - named.len());
        let fields = named
            .iter()
            .zip(&parts)
            .map(|((label, _), part)| Field { label: self.known.labels[label], set: Set::One(part.root) })
            .collect();
        let root = self.automaton.add(Polarity::Positive, Head::record(fields));
        let env = self.met(parts.into_iter().map(|part| part.env).collect());
        Part { env, root }
    }

    fn solve(&mut self, goals: &[(StateId, StateId)]) -> Result<(), Clash> {
        self.solver.solve(&mut self.automaton, goals)
    }

    /// The first part of a let is finished: it is what uses of the name copy.
    fn finish_first(&mut self) -> Scheme {
        let part = self.pop();
        let scheme = Scheme::reached(&self.automaton, &part);
        if !self.known.simplifies {
            self.parts.push(part);
            return scheme;
        }
        let simple = simplify(&scheme);
        let copy = self.copy(&simple);
        self.parts.push(copy);
        simple
    }

    /// One environment for several.
    fn met(&mut self, mut envs: Vec<Vec<(usize, StateId)>>) -> Vec<(usize, StateId)> {
        let Some(largest) = (0..envs.len()).max_by_key(|number| envs[*number].len()) else {
            return vec![];
        };
        let mut env = envs.swap_remove(largest);
        let mut entries = envs.concat();
        entries.sort_unstable();
        for group in entries.chunk_by(|first, second| first.0 == second.0) {
            match env.binary_search_by_key(&group[0].0, |entry| entry.0) {
                Ok(at) => {
                    let group = [group, &env[at..=at]].concat();
                    env[at].1 = self.met_states(&group);
                }
                Err(at) => env.insert(at, (group[0].0, self.met_states(group))),
            }
        }
        env
    }

    /// The state of one binder that has several, each with no other name than the binder: the largest of them takes
    /// what the others have, and counts as new.
    fn met_states(&mut self, group: &[(usize, StateId)]) -> StateId {
        if let [(_, state)] = group {
            return *state;
        }
        let weight = |state: StateId| self.automaton.state(state).weight;
        let into = group.iter().map(|entry| entry.1).max_by_key(|state| weight(*state)).expect("there is one");
        for (_, state) in group.iter().filter(|entry| entry.1 != into) {
            let old = &mut self.automaton.states[*state as usize];
            let (head, edges, weight) = (std::mem::take(&mut old.head), std::mem::take(&mut old.edges), old.weight);
            for end in edges.as_slice() {
                self.automaton.states[*end as usize].edges.insert(into);
            }
            self.automaton.states[into as usize].take_in(&head, &edges, weight);
        }
        self.automaton.states[into as usize].rank = self.automaton.next_rank();
        into
    }

    /// Drops the states that no part reaches, once they may be half of all.
    fn drop_unreached(&mut self) {
        if self.automaton.weight() < self.limit {
            return;
        }
        let marks = self.automaton.reached(self.parts.iter().flat_map(Part::states));
        let numbers = Automaton::numbers(&marks);
        self.automaton.keep(&numbers);
        for part in &mut self.parts {
            *part = part.renumbered(|state| numbers[state as usize].expect("it is reached"));
        }
        self.limit = LEAST_LIMIT.max(2 * self.automaton.weight());
    }
}

fn take_binder(env: &mut Vec<(usize, StateId)>, binder: usize) -> Option<StateId> {
    let at = env.iter().position(|entry| entry.0 == binder)?;
    Some(env.remove(at).1)
}
