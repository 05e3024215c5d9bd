//! Whether each step of a derivation is allowed, one case for each rule.
use crate::book::{Book, Node};
use crate::derivation::{Mode, Pair, Rule, Section, Step};
use crate::names::Meaning;
use crate::parse::{Binding, Form, Operator, Piece};
use std::collections::{HashMap, HashSet};

/// What the names of bindings mean, beside the types that earlier sections state.
pub struct Known<'a> {
    /// The book of `int -> int -> int`.
    pub to_integer: Book<'a>,
    /// The book of `int -> int -> bool`.
    pub to_boolean: Book<'a>,
    /// The books of what the imports declare.
    pub declared: Vec<Book<'a>>,
}

/// The term of a binding, with the numbers of its binders by their places and of its lets by their nodes.
struct Term<'a> {
    nodes: &'a [Piece<'static>],
    uses: &'a [Option<Meaning>],
    binders: HashMap<usize, u64>,
    lets: HashMap<usize, u64>,
}

/// Numbers by the order of places.
fn ranks(mut places: Vec<(usize, usize)>) -> HashMap<usize, u64> {
    places.sort_unstable();
    places.iter().enumerate().map(|(rank, place)| (place.1, rank as u64)).collect()
}

impl<'a> Term<'a> {
    fn of(nodes: &'a [Piece<'static>], uses: &'a [Option<Meaning>]) -> Term<'a> {
        let binders = nodes.iter().filter(|node| matches!(node.form, Form::Fun(..) | Form::Rec(..)));
        let binders = ranks(binders.map(|node| (node.at, node.at)).collect());
        let lets = nodes.iter().enumerate().filter(|node| matches!(node.1.form, Form::Let(..)));
        let lets = ranks(lets.map(|(number, node)| (node.at, number)).collect());
        Term { nodes, uses, binders, lets }
    }
}

/// A section with its term and the sections before it.
struct Checked<'a> {
    section: &'a Section<'static>,
    earlier: &'a [Section<'static>],
    known: &'a Known<'static>,
    term: Term<'a>,
}

fn node_in(env: &[(u64, usize)], binder: u64) -> Option<usize> {
    env.iter().find(|entry| entry.0 == binder).map(|entry| entry.1)
}

fn without(env: &[(u64, usize)], binder: u64) -> Vec<(u64, usize)> {
    env.iter().copied().filter(|entry| entry.0 != binder).collect()
}

impl Checked<'_> {
    fn node(&self, number: usize) -> &Node<'static> {
        &self.section.nodes[number]
    }

    /// The step of this number, if it is about this node of the term.
    fn about(&self, step: usize, node: usize) -> Option<&Step> {
        Some(&self.section.steps[step]).filter(|step| step.about == node as u64)
    }

    /// The step that a line before the step of this number gives the let of a node of the term.
    fn first_of(&self, node: usize, number: usize) -> Option<usize> {
        let wanted = self.term.lets[&node];
        self.section.lets.iter().find(|each| each.number == wanted && each.before <= number).map(|each| each.step)
    }

    /// Whether the nodes from this one on are those of a book.
    fn has_book(&self, from: usize, book: &Book) -> bool {
        let nodes = &self.section.nodes[from..];
        nodes.len() >= book.nodes.len() && book.nodes.iter().zip(nodes).all(|(node, found)| node.moved(from) == *found)
    }

    fn is_name_allowed(&self, step: &Step, from: usize, book: &Book) -> bool {
        step.env.is_empty() && step.root == from + book.root && self.has_book(from, book)
    }

    /// Whether the step of this number is allowed; none is as good as no.
    fn is_allowed(&self, number: usize) -> Option<bool> {
        let step = &self.section.steps[number];
        let about = usize::try_from(step.about).ok()?;
        let piece = self.term.nodes.get(about)?;
        Some(match (&step.rule, &piece.form, self.term.uses[about]) {
            (Rule::Var, Form::Var(_), Some(Meaning::Binder(place))) => {
                step.env == [(self.term.binders[&place], step.root)]
            }
            (Rule::Use(first), Form::Var(_), Some(Meaning::Let(around))) => {
                let used = &self.section.steps[*first];
                self.first_of(around, number) == Some(*first) && step.env == used.env && step.root == used.root
            }
            (Rule::Name(from), Form::Var(_), Some(Meaning::Global(binding))) => {
                self.is_name_allowed(step, *from, &self.earlier[binding].stated)
            }
            (Rule::Name(from), Form::Var(_), Some(Meaning::Declared(declaration))) => {
                self.is_name_allowed(step, *from, &self.known.declared[declaration])
            }
            (Rule::Name(from), Form::Operator(operator), _) => {
                let book = match operator {
                    Operator::Add | Operator::Subtract | Operator::Multiply => &self.known.to_integer,
                    Operator::Less | Operator::Equal => &self.known.to_boolean,
                };
                self.is_name_allowed(step, *from, book)
            }
            (Rule::Lit, Form::Number, _) => step.env.is_empty() && *self.node(step.root) == Node::Integer,
            (Rule::Lit, Form::Truth, _) => step.env.is_empty() && *self.node(step.root) == Node::Boolean,
            (Rule::Fun(body), Form::Fun(_, part), _) => {
                let body = self.about(*body, *part)?;
                let binder = self.term.binders[&piece.at];
                let Node::Function(domain, codomain) = *self.node(step.root) else { return None };
                let is_domain = match node_in(&body.env, binder) {
                    Some(node) => domain == node,
                    None => *self.node(domain) == Node::Top,
                };
                is_domain && codomain == body.root && step.env == without(&body.env, binder)
            }
            (Rule::App(function, argument), Form::Apply(first, second), _) => {
                let function = self.about(*function, *first)?;
                let argument = self.about(*argument, *second)?;
                step.env == function.env
                    && step.env == argument.env
                    && *self.node(function.root) == Node::Function(argument.root, step.root)
            }
            (Rule::Make(steps), Form::Make(parts), _) => self.is_made(step, steps, parts)?,
            (Rule::Proj(record), Form::Project(part, label), _) => {
                let record = self.about(*record, *part)?;
                step.env == record.env && *self.node(record.root) == Node::Record(vec![(label, step.root)])
            }
            (Rule::If(condition, first, second), Form::If(parts_condition, parts_first, parts_second), _) => {
                let condition = self.about(*condition, *parts_condition)?;
                let branches = [self.about(*first, *parts_first)?, self.about(*second, *parts_second)?];
                step.env == condition.env
                    && *self.node(condition.root) == Node::Boolean
                    && branches.iter().all(|branch| branch.env == step.env && branch.root == step.root)
            }
            (Rule::Let(first, body), Form::Let(_, bound, part), _) => {
                let is_given = self.first_of(about, number) == Some(*first);
                let (first, body) = (self.about(*first, *bound)?, self.about(*body, *part)?);
                is_given && step.root == body.root && self.are_met(&step.env, &first.env, &body.env)
            }
            (Rule::Rec(body), Form::Rec(_, part), _) => {
                let body = self.about(*body, *part)?;
                let binder = self.term.binders[&piece.at];
                node_in(&body.env, binder) == Some(step.root)
                    && body.root == step.root
                    && step.env == without(&body.env, binder)
            }
            (Rule::Sub(special), _, _) => self.is_subsumed(step, self.about(*special, about)?),
            _ => false,
        })
    }

    fn is_made(&self, step: &Step, steps: &[usize], parts: &[(&'static [u8], usize)]) -> Option<bool> {
        if steps.len() != parts.len() || (steps.is_empty() && !step.env.is_empty()) {
            return None;
        }
        let mut fields = Vec::new();
        for (part, (label, node)) in steps.iter().zip(parts) {
            let part = self.about(*part, *node).filter(|part| part.env == step.env)?;
            fields.push((*label, part.root));
        }
        fields.sort_unstable();
        Some(*self.node(step.root) == Node::Record(fields))
    }

    /// Whether an environment is the meet of two.
    fn are_met(&self, env: &[(u64, usize)], first: &[(u64, usize)], second: &[(u64, usize)]) -> bool {
        let binders = |env: &[(u64, usize)]| env.iter().map(|entry| entry.0).collect::<HashSet<_>>();
        let both: HashSet<u64> = binders(first).union(&binders(second)).copied().collect();
        binders(env) == both
            && env.iter().all(|(binder, node)| match (node_in(first, *binder), node_in(second, *binder)) {
                (Some(left), Some(right)) => *self.node(*node) == Node::Meet(left, right),
                (left, right) => left.or(right) == Some(*node),
            })
    }

    fn is_subsumed(&self, step: &Step, special: &Step) -> bool {
        let has_env = special.env.iter().all(|(binder, node)| {
            let is_below = |own| step.pairs.contains(&(Mode::Rl, own, *node));
            node_in(&step.env, *binder).is_some_and(is_below) || *self.node(*node) == Node::Top
        });
        step.pairs.contains(&(Mode::Lr, special.root, step.root))
            && has_env
            && step.pairs.iter().all(|pair| self.is_justified(step, *pair))
    }

    fn is_justified(&self, step: &Step, (mode, left, right): Pair) -> bool {
        let has = |left: usize, right: usize| step.pairs.contains(&(mode, left, right));
        let plainly = |left: usize, right: usize| step.pairs.contains(&(Mode::Pp, left, right));
        // what is put for the variable of a side that is read under substitution
        let put = |under: Mode, node: usize| match self.node(node) {
            Node::Var(variable) if mode == under => step.puts.get(variable).copied(),
            _ => None,
        };
        let (left_put, right_put) = (put(Mode::Lr, left), put(Mode::Rl, right));
        let exchanged = match mode {
            Mode::Lr => Mode::Rl,
            Mode::Rl => Mode::Lr,
            Mode::Pp => Mode::Pp,
        };
        let by_nodes = match (self.node(left), self.node(right)) {
            (Node::Bot, _) | (_, Node::Top) | (Node::Boolean, Node::Boolean) | (Node::Integer, Node::Integer) => true,
            (Node::Var(first), Node::Var(second)) => left_put.is_none() && right_put.is_none() && first == second,
            (Node::Function(domain, codomain), Node::Function(other, result)) => {
                step.pairs.contains(&(exchanged, *other, *domain)) && has(*codomain, *result)
            }
            (Node::Record(fields), Node::Record(others)) => others.iter().all(|other| {
                fields.iter().any(|field| field.0 == other.0 && has(field.1, other.1))
            }),
            _ => false,
        };
        let by_left = match self.node(left) {
            Node::Join(first, second) => has(*first, right) && has(*second, right),
            Node::Meet(first, second) => has(*first, right) || has(*second, right),
            _ => left_put.is_some_and(|node| plainly(node, right)),
        };
        let by_right = match self.node(right) {
            Node::Meet(first, second) => has(left, *first) && has(left, *second),
            Node::Join(first, second) => has(left, *first) || has(left, *second),
            _ => right_put.is_some_and(|node| plainly(left, node)),
        };
        by_nodes || by_left || by_right || (mode == Mode::Pp && left == right)
    }

    fn is_end_allowed(&self, name: &[u8]) -> bool {
        let root = self.term.nodes.len() as u64 - 1;
        self.section.name == name
            && self.section.steps.last().is_some_and(|last| {
                last.about == root && last.env.is_empty() && last.root == self.section.stated.root
            })
    }
}

/// The number of the first step that is not allowed, where each end of a section counts as one.
pub fn first_refused(
    bindings: &[Binding<'static>],
    uses: &[Vec<Option<Meaning>>],
    known: &Known<'static>,
    sections: &[Section<'static>],
) -> Option<usize> {
    let mut before = 0;
    for (number, section) in sections.iter().enumerate() {
        let Some(binding) = bindings.get(number) else { return Some(before) };
        let term = Term::of(&binding.nodes, &uses[number]);
        let checked = Checked { section, earlier: &sections[..number], known, term };
        let count = section.steps.len();
        if let Some(step) = (0..count).find(|step| checked.is_allowed(*step) != Some(true)) {
            return Some(before + step);
        }
        if !checked.is_end_allowed(binding.name) {
            return Some(before + count);
        }
        before += count + 1;
    }
    (sections.len() < bindings.len()).then_some(before)
}
