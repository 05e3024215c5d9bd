//! Automata of types: states with heads, and flow edges from negative states to positive ones.

pub type StateId = u32;

/// The number of a label; labels are numbered in the order of their bytes.
pub type Label = u32;

/// States in rising order.
#[derive(Clone, Default, PartialEq, Eq, Hash, Debug)]
pub enum Set {
    #[default]
    Empty,
    One(StateId),
    Many(Vec<StateId>),
}

impl Set {
    pub fn of(mut states: Vec<StateId>) -> Set {
        states.sort_unstable();
        states.dedup();
        match states[..] {
            [] => Set::Empty,
            [state] => Set::One(state),
            _ => Set::Many(states),
        }
    }

    pub fn as_slice(&self) -> &[StateId] {
        match self {
            Set::Empty => &[],
            Set::One(state) => std::slice::from_ref(state),
            Set::Many(states) => states,
        }
    }

    pub fn has(&self, state: StateId) -> bool {
        self.as_slice().binary_search(&state).is_ok()
    }

    pub fn insert(&mut self, state: StateId) {
        match self {
            Set::Empty => *self = Set::One(state),
            Set::One(old) if *old == state => {}
            Set::One(old) => *self = Set::Many(vec![state.min(*old), state.max(*old)]),
            Set::Many(states) => {
                if states.last() < Some(&state) {
                    states.push(state);
                } else if let Err(at) = states.binary_search(&state) {
                    states.insert(at, state);
                }
            }
        }
    }

    pub fn unite(&mut self, other: &Set) {
        match other {
            Set::Empty => {}
            Set::One(state) => self.insert(*state),
            Set::Many(states) if self.as_slice().len() > 8 * states.len() => {
                states.iter().for_each(|state| self.insert(*state));
            }
            Set::Many(states) => {
                if self != other {
                    *self = Set::of([self.as_slice(), states].concat());
                }
            }
        }
    }

    /// Raises the numbers of all states.
    pub fn raise(&mut self, up: StateId) {
        match self {
            Set::Empty => {}
            Set::One(state) => *state += up,
            Set::Many(states) => states.iter_mut().for_each(|state| *state += up),
        }
    }

    /// Gives the states other numbers, in the same order; those without a number are left out.
    pub fn renumber(&mut self, numbers: &[Option<StateId>]) {
        match self {
            Set::Empty => {}
            Set::One(state) => *self = numbers[*state as usize].map_or(Set::Empty, Set::One),
            Set::Many(states) => {
                states.retain_mut(|state| {
                    let number = numbers[*state as usize];
                    *state = number.unwrap_or(*state);
                    number.is_some()
                });
                match states[..] {
                    [] => *self = Set::Empty,
                    [state] => *self = Set::One(state),
                    _ => {}
                }
            }
        }
    }
}

#[derive(Clone, Copy, PartialEq, Eq, Hash, Debug)]
pub enum Polarity {
    Positive,
    Negative,
}

impl Polarity {
    pub fn other(self) -> Polarity {
        match self {
            Polarity::Positive => Polarity::Negative,
            Polarity::Negative => Polarity::Positive,
        }
    }
}

#[derive(Clone, Debug)]
pub struct Function {
    pub domain: Set,
    pub codomain: Set,
}

#[derive(Clone, Debug)]
pub struct Field {
    pub label: Label,
    pub set: Set,
}

/// The constructors of a state; the fields of a record are in the order of their labels.
#[derive(Clone, Default, Debug)]
pub struct Head {
    pub boolean: bool,
    pub integer: bool,
    pub function: Option<Function>,
    pub fields: Option<Vec<Field>>,
}

impl Head {
    pub fn boolean() -> Head {
        Head { boolean: true, ..Head::default() }
    }

    pub fn integer() -> Head {
        Head { integer: true, ..Head::default() }
    }

    pub fn function(domain: Set, codomain: Set) -> Head {
        Head { function: Some(Function { domain, codomain }), ..Head::default() }
    }

    /// The fields may come in any order.
    pub fn record(mut fields: Vec<Field>) -> Head {
        fields.sort_unstable_by_key(|field| field.label);
        Head { fields: Some(fields), ..Head::default() }
    }

    pub fn field(&self, label: Label) -> Option<&Set> {
        field_of(self.fields.as_deref()?, label)
    }

    /// The sets that the head names: domain, codomain, and the fields in the order of their labels.
    pub fn sets(&self) -> impl Iterator<Item = &Set> {
        let arms = self.function.iter().flat_map(|function| [&function.domain, &function.codomain]);
        arms.chain(self.fields.iter().flatten().map(|field| &field.set))
    }

    pub fn sets_mut(&mut self) -> impl Iterator<Item = &mut Set> {
        let arms = self.function.iter_mut().flat_map(|function| [&mut function.domain, &mut function.codomain]);
        arms.chain(self.fields.iter_mut().flatten().map(|field| &mut field.set))
    }

    /// How large the head is.
    pub fn size(&self) -> usize {
        1 + self.fields.as_ref().map_or(0, Vec::len)
    }

    /// The combined head of this one and another.
    pub fn combine(&mut self, polarity: Polarity, other: &Head) {
        self.boolean |= other.boolean;
        self.integer |= other.integer;
        match (&mut self.function, &other.function) {
            (Some(function), Some(others)) => {
                function.domain.unite(&others.domain);
                function.codomain.unite(&others.codomain);
            }
            (None, Some(others)) => self.function = Some(others.clone()),
            (_, None) => {}
        }
        match (&mut self.fields, &other.fields) {
            (Some(fields), Some(others)) => combine_fields(fields, polarity, others),
            (None, Some(others)) => self.fields = Some(others.clone()),
            (_, None) => {}
        }
    }
}

pub fn field_of(fields: &[Field], label: Label) -> Option<&Set> {
    let at = fields.binary_search_by_key(&label, |field| field.label).ok()?;
    Some(&fields[at].set)
}

fn combine_fields(fields: &mut Vec<Field>, polarity: Polarity, others: &[Field]) {
    match polarity {
        Polarity::Positive => fields.retain_mut(|field| match field_of(others, field.label) {
            Some(set) => {
                field.set.unite(set);
                true
            }
            None => false,
        }),
        Polarity::Negative if others.len() * 8 < fields.len() => {
            for other in others {
                match fields.binary_search_by_key(&other.label, |field| field.label) {
                    Ok(at) => fields[at].set.unite(&other.set),
                    Err(at) => fields.insert(at, other.clone()),
                }
            }
        }
        Polarity::Negative => {
            fields.extend_from_slice(others);
            fields.sort_by_key(|field| field.label);
            fields.dedup_by(|second, first| {
                let is_same = first.label == second.label;
                if is_same {
                    first.set.unite(&second.set);
                }
                is_same
            });
        }
    }
}

/// A state, with the states at the other ends of its flow edges. The rank says when it came: sets are walked in the
/// order of ranks.
#[derive(Clone, Debug)]
pub struct State {
    pub polarity: Polarity,
    pub head: Head,
    pub edges: Set,
    pub rank: u32,
    /// A bound of the size of the head and the edges.
    pub weight: u32,
}

impl State {
    /// Takes a head and edges beside its own.
    pub fn take_in(&mut self, head: &Head, edges: &Set, weight: u32) {
        self.head.combine(self.polarity, head);
        self.edges.unite(edges);
        self.weight = self.weight.saturating_add(weight);
    }

    fn sets_mut(&mut self) -> impl Iterator<Item = &mut Set> {
        self.head.sets_mut().chain([&mut self.edges])
    }
}

/// States by their numbers.
#[derive(Clone, Default, Debug)]
pub struct Automaton {
    pub states: Vec<State>,
    ranks: u32,
    /// The size of the heads that were added.
    weight: usize,
}

impl Automaton {
    pub fn add(&mut self, polarity: Polarity, head: Head) -> StateId {
        let rank = self.next_rank();
        self.weight += head.size();
        let weight = head.size() as u32;
        self.states.push(State { polarity, head, edges: Set::Empty, rank, weight });
        self.states.len() as StateId - 1
    }

    /// A rank above all others.
    pub fn next_rank(&mut self) -> u32 {
        self.ranks += 1;
        self.ranks - 1
    }

    pub fn len(&self) -> usize {
        self.states.len()
    }

    pub fn weight(&self) -> usize {
        self.weight
    }

    pub fn state(&self, state: StateId) -> &State {
        &self.states[state as usize]
    }

    pub fn head(&self, state: StateId) -> &Head {
        &self.state(state).head
    }

    /// The combined head of states, put together by halves.
    pub fn combined_head(&self, polarity: Polarity, states: &[StateId]) -> Head {
        match states {
            [] => Head::default(),
            [state] => self.head(*state).clone(),
            _ => {
                let (first, second) = states.split_at(states.len() / 2);
                let mut head = self.combined_head(polarity, first);
                head.combine(polarity, &self.combined_head(polarity, second));
                head
            }
        }
    }

    pub fn add_flow(&mut self, negative: StateId, positive: StateId) {
        self.states[negative as usize].edges.insert(positive);
        self.states[positive as usize].edges.insert(negative);
    }

    /// What goes in at the one comes out at the other.
    pub fn add_passage(&mut self) -> (StateId, StateId) {
        let negative = self.add(Polarity::Negative, Head::default());
        let positive = self.add(Polarity::Positive, Head::default());
        self.add_flow(negative, positive);
        (negative, positive)
    }

    /// A new state with the head and the edges of this one.
    pub fn twin(&mut self, state: StateId) -> StateId {
        let State { polarity, head, edges, .. } = self.state(state).clone();
        let twin = self.add(polarity, head);
        for end in edges.as_slice() {
            self.states[*end as usize].edges.insert(twin);
        }
        self.states[twin as usize].edges = edges;
        twin
    }

    /// The states that are reached through heads from these, marked.
    pub fn reached(&self, from: impl Iterator<Item = StateId>) -> Vec<bool> {
        let mut marks = vec![false; self.len()];
        let mut stack: Vec<StateId> = from.collect();
        while let Some(state) = stack.pop() {
            if !std::mem::replace(&mut marks[state as usize], true) {
                stack.extend(self.head(state).sets().flat_map(Set::as_slice));
            }
        }
        marks
    }

    /// The new numbers of the marked states.
    pub fn numbers(marks: &[bool]) -> Vec<Option<StateId>> {
        let mut next = 0;
        marks
            .iter()
            .map(|mark| {
                mark.then(|| {
                    next += 1;
                    next - 1
                })
            })
            .collect()
    }

    /// Keeps the numbered states alone, under these numbers.
    pub fn keep(&mut self, numbers: &[Option<StateId>]) {
        let mut next = numbers.iter();
        self.states.retain_mut(|state| {
            let is_kept = next.next().is_some_and(Option::is_some);
            if is_kept {
                state.sets_mut().for_each(|set| set.renumber(numbers));
            }
            is_kept
        });
        self.weight = self.states.iter().map(|state| state.head.size()).sum();
    }

    /// The numbered states alone, under these numbers.
    pub fn kept(&self, numbers: &[Option<StateId>]) -> Automaton {
        let numbered = self.states.iter().zip(numbers).filter(|(_, number)| number.is_some());
        let mut states: Vec<State> = numbered.map(|(state, _)| state.clone()).collect();
        states.iter_mut().flat_map(State::sets_mut).for_each(|set| set.renumber(numbers));
        Automaton { states, ranks: self.ranks, weight: self.weight }
    }

    /// Adds the states of another automaton, and answers by how much their numbers are higher here.
    pub fn append(&mut self, other: &Automaton) -> StateId {
        let up = self.len();
        self.states.extend_from_slice(&other.states);
        for state in &mut self.states[up..] {
            state.rank += self.ranks;
            state.sets_mut().for_each(|set| set.raise(up as StateId));
        }
        self.ranks += other.ranks;
        self.weight += other.weight;
        up as StateId
    }

    /// Gives the states the least ranks, in the same order.
    pub fn rank_anew(&mut self) {
        let mut order: Vec<u32> = (0..self.len() as u32).collect();
        order.sort_by_key(|state| self.states[*state as usize].rank);
        for (rank, state) in order.into_iter().enumerate() {
            self.states[state as usize].rank = rank as u32;
        }
        self.ranks = self.len() as u32;
    }
}

/// A state for each binder in rising order, and the root.
#[derive(Clone, Debug)]
pub struct Part {
    pub env: Vec<(usize, StateId)>,
    pub root: StateId,
}

impl Part {
    pub fn states(&self) -> impl Iterator<Item = StateId> + '_ {
        self.env.iter().map(|entry| entry.1).chain([self.root])
    }

    pub fn renumbered(&self, mut number: impl FnMut(StateId) -> StateId) -> Part {
        let env = self.env.iter().map(|(binder, state)| (*binder, number(*state))).collect();
        Part { env, root: number(self.root) }
    }
}

/// A part with an automaton of its own.
#[derive(Clone, Debug)]
pub struct Scheme {
    pub automaton: Automaton,
    pub part: Part,
}

impl Scheme {
    /// The scheme of a part, with the states that are reached alone.
    pub fn reached(automaton: &Automaton, part: &Part) -> Scheme {
        let numbers = Automaton::numbers(&automaton.reached(part.states()));
        let mut kept = automaton.kept(&numbers);
        kept.rank_anew();
        let part = part.renumbered(|state| numbers[state as usize].expect("it is reached"));
        Scheme { automaton: kept, part }
    }
}
