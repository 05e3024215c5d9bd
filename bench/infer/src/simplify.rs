//! Simpler schemes: deterministic, without redundant edges, without alike states.
use crate::automaton::{Automaton, Head, Label, Part, Polarity, Scheme, Set, StateId};
use crate::flow::{matched_by_heads, only};
use std::collections::HashMap;

/// The simplified scheme.
pub fn simplify(scheme: &Scheme) -> Scheme {
    let mut simple = determinise(scheme);
    drop_redundant_flows(&mut simple.automaton);
    let simple = minimise(&simple);
    Scheme::reached(&simple.automaton, &simple.part)
}

/// The sets that were found, each a state of the deterministic automaton.
struct Sets<'a> {
    from: &'a Automaton,
    numbers: HashMap<(Polarity, Set), StateId>,
    found: Vec<(Polarity, Set)>,
}

impl Sets<'_> {
    fn number(&mut self, polarity: Polarity, set: Set) -> StateId {
        let next = self.found.len() as StateId;
        let number = *self.numbers.entry((polarity, set)).or_insert_with_key(|key| {
            self.found.push(key.clone());
            next
        });
        number
    }

    /// The combined head of a set, with each union as one state.
    fn head(&mut self, polarity: Polarity, set: &Set) -> Head {
        let mut head = match set.as_slice() {
            [state] => self.from.head(*state).clone(),
            states => self.from.combined_head(polarity, states),
        };
        if let Some(function) = &mut head.function {
            let domain = std::mem::take(&mut function.domain);
            function.domain = Set::One(self.number(polarity.other(), domain));
            let codomain = std::mem::take(&mut function.codomain);
            function.codomain = Set::One(self.number(polarity, codomain));
        }
        for field in head.fields.iter_mut().flatten() {
            let set = std::mem::take(&mut field.set);
            field.set = Set::One(self.number(polarity, set));
        }
        head
    }
}

/// The sets of states that are reached, as states.
pub fn determinise(scheme: &Scheme) -> Scheme {
    let mut sets = Sets { from: &scheme.automaton, numbers: HashMap::new(), found: Vec::new() };
    let part = scheme.part.renumbered(|state| {
        let polarity = sets.from.state(state).polarity;
        sets.number(polarity, Set::One(state))
    });
    let mut automaton = Automaton::default();
    while let Some((polarity, set)) = sets.found.get(automaton.len()).cloned() {
        let head = sets.head(polarity, &set);
        automaton.add(polarity, head);
    }
    let mut holders: Vec<Vec<StateId>> = vec![vec![]; scheme.automaton.len()];
    for (number, (_, set)) in sets.found.iter().enumerate() {
        set.as_slice().iter().for_each(|member| holders[*member as usize].push(number as StateId));
    }
    for (number, (_, set)) in sets.found.iter().enumerate() {
        let ends = set.as_slice().iter().flat_map(|member| scheme.automaton.state(*member).edges.as_slice());
        let edges: Vec<StateId> = ends.flat_map(|end| &holders[*end as usize]).copied().collect();
        automaton.states[number].edges = Set::of(edges);
    }
    Scheme { automaton, part }
}

/// Drops the edges of a deterministic automaton that heads match.
pub fn drop_redundant_flows(automaton: &mut Automaton) {
    let edges: Vec<(StateId, StateId)> = (0..automaton.len() as StateId)
        .filter(|state| automaton.state(*state).polarity == Polarity::Negative)
        .flat_map(|state| automaton.state(state).edges.as_slice().iter().map(move |end| (state, *end)))
        .collect();
    let redundant = matched_by_heads(automaton, &edges);
    for state in &mut automaton.states {
        state.edges = Set::Empty;
    }
    for ((negative, positive), _) in edges.into_iter().zip(redundant).filter(|(_, is_redundant)| !is_redundant) {
        automaton.add_flow(negative, positive);
    }
}

/// What two states must have in common at first to be alike.
#[derive(PartialEq, Eq, Hash)]
struct Outline<'a> {
    polarity: Polarity,
    boolean: bool,
    integer: bool,
    has_function: bool,
    labels: Option<Vec<Label>>,
    partners: &'a Set,
}

fn outline(automaton: &Automaton, state: StateId) -> Outline<'_> {
    let state = automaton.state(state);
    Outline {
        polarity: state.polarity,
        boolean: state.head.boolean,
        integer: state.head.integer,
        has_function: state.head.function.is_some(),
        labels: state.head.fields.as_ref().map(|fields| fields.iter().map(|field| field.label).collect()),
        partners: &state.edges,
    }
}

/// The classes of states that may be alike, refined until the children of alike states are alike.
struct Classes {
    children: Vec<Vec<StateId>>,
    parents: Vec<Vec<StateId>>,
    class: Vec<u32>,
    sizes: Vec<usize>,
}

impl Classes {
    fn new(automaton: &Automaton) -> Classes {
        let count = automaton.len();
        let children: Vec<Vec<StateId>> =
            automaton.states.iter().map(|state| state.head.sets().map(only).collect()).collect();
        let mut parents = vec![vec![]; count];
        for (state, children) in children.iter().enumerate() {
            children.iter().for_each(|child| parents[*child as usize].push(state as StateId));
        }
        let mut numbers = HashMap::new();
        let mut sizes = Vec::new();
        let class = (0..count as StateId)
            .map(|state| {
                let class = *numbers.entry(outline(automaton, state)).or_insert_with(|| {
                    sizes.push(0);
                    sizes.len() - 1
                });
                sizes[class] += 1;
                class as u32
            })
            .collect();
        Classes { children, parents, class, sizes }
    }

    fn signature(&self, state: StateId) -> Vec<u32> {
        self.children[state as usize].iter().map(|child| self.class[*child as usize]).collect()
    }

    /// Splits the classes of these states, one of whose children has a new class, and answers the states that have a
    /// new class then. In a class the states that are not among these have one signature, with no new class in it.
    fn split(&mut self, changed: &[StateId]) -> Vec<StateId> {
        let mut groups: HashMap<(u32, Vec<u32>), Vec<StateId>> = HashMap::new();
        for state in changed {
            groups.entry((self.class[*state as usize], self.signature(*state))).or_default().push(*state);
        }
        let mut by_class: HashMap<u32, Vec<Vec<StateId>>> = HashMap::new();
        for ((class, _), group) in groups {
            by_class.entry(class).or_default().push(group);
        }
        let mut renamed = Vec::new();
        for (class, mut groups) in by_class {
            groups.sort_unstable_by_key(|group| (group.len(), group[0]));
            let members: usize = groups.iter().map(Vec::len).sum();
            if members == self.sizes[class as usize] {
                groups.pop();
            }
            for group in groups {
                self.sizes[class as usize] -= group.len();
                let new = self.sizes.len() as u32;
                self.sizes.push(group.len());
                group.iter().for_each(|state| self.class[*state as usize] = new);
                renamed.extend(group);
            }
        }
        renamed
    }

    fn refine(&mut self) {
        let mut changed: Vec<StateId> = (0..self.class.len() as StateId).collect();
        while !changed.is_empty() {
            let renamed = self.split(&changed);
            changed = renamed.iter().flat_map(|state| &self.parents[*state as usize]).copied().collect();
            changed.sort_unstable();
            changed.dedup();
        }
    }
}

/// One state for each class of alike states of a deterministic automaton.
pub fn minimise(scheme: &Scheme) -> Scheme {
    let automaton = &scheme.automaton;
    let mut classes = Classes::new(automaton);
    classes.refine();
    let mut numbers: Vec<Option<StateId>> = vec![None; classes.sizes.len()];
    let mut chosen: Vec<StateId> = Vec::new();
    for state in 0..automaton.len() as StateId {
        numbers[classes.class[state as usize] as usize].get_or_insert_with(|| {
            chosen.push(state);
            chosen.len() as StateId - 1
        });
    }
    let number = |state: StateId| numbers[classes.class[state as usize] as usize].expect("each class has a state");
    let mut least = Automaton::default();
    for state in chosen {
        let old = automaton.state(state);
        let mut head = old.head.clone();
        for set in head.sets_mut() {
            *set = Set::One(number(only(set)));
        }
        let new = least.add(old.polarity, head) as usize;
        least.states[new].edges = Set::of(old.edges.as_slice().iter().map(|end| number(*end)).collect());
    }
    let part = Part {
        env: scheme.part.env.iter().map(|(binder, state)| (*binder, number(*state))).collect(),
        root: number(scheme.part.root),
    };
    Scheme { automaton: least, part }
}
