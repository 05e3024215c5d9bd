//! The text of a scheme without environment.
use crate::automaton::{Automaton, Head, Label, Polarity, Scheme, Set, StateId};
use std::collections::HashMap;

/// A set that is shown: its variables and its combined head, in which each set is a number of the table.
struct Row {
    variables: Vec<StateId>,
    boolean: bool,
    integer: bool,
    function: Option<(usize, usize)>,
    fields: Option<Vec<(Label, usize)>>,
}

struct Table<'a> {
    automaton: &'a Automaton,
    /// For each visited state its printing number.
    visits: Vec<Option<u32>>,
    numbers: HashMap<Set, usize>,
    sets: Vec<(Polarity, Set)>,
}

impl Table<'_> {
    fn number(&mut self, polarity: Polarity, set: Set) -> usize {
        let next = self.sets.len();
        *self.numbers.entry(set).or_insert_with_key(|set| {
            self.sets.push((polarity, set.clone()));
            next
        })
    }

    fn row(&mut self, polarity: Polarity, set: &Set) -> Row {
        let Head { boolean, integer, function, fields } = self.automaton.combined_head(polarity, set.as_slice());
        let function = function.map(|function| {
            let domain = self.number(polarity.other(), function.domain);
            (domain, self.number(polarity, function.codomain))
        });
        let fields = fields
            .map(|fields| fields.into_iter().map(|field| (field.label, self.number(polarity, field.set))).collect());
        Row { variables: self.variables(polarity, set), boolean, integer, function, fields }
    }

    /// Those of the members of a negative set, and of the states with an edge to a member of a positive one.
    fn variables(&self, polarity: Polarity, set: &Set) -> Vec<StateId> {
        let members = set.as_slice();
        let mut found: Vec<StateId> = match polarity {
            Polarity::Negative => members.iter().copied().filter(|state| self.has_variable(*state)).collect(),
            Polarity::Positive => {
                let partners = members.iter().flat_map(|state| self.automaton.state(*state).edges.as_slice());
                partners.copied().filter(|state| self.visits[*state as usize].is_some()).collect()
            }
        };
        found.sort_unstable_by_key(|state| self.visits[*state as usize]);
        found.dedup();
        found
    }

    fn has_variable(&self, state: StateId) -> bool {
        let ends = self.automaton.state(state).edges.as_slice();
        ends.iter().any(|end| self.visits[*end as usize].is_some())
    }
}

/// For each state that is visited from the root its number in the order of the visits.
fn visits(automaton: &Automaton, root: StateId) -> Vec<Option<u32>> {
    let mut visits = vec![None; automaton.len()];
    let mut count = 0;
    let mut stack = vec![root];
    while let Some(state) = stack.pop() {
        if visits[state as usize].is_some() {
            continue;
        }
        visits[state as usize] = Some(count);
        count += 1;
        let bottom = stack.len();
        for set in automaton.head(state).sets() {
            let start = stack.len();
            stack.extend(set.as_slice());
            stack[start..].sort_unstable_by_key(|state| automaton.state(*state).rank);
        }
        stack[bottom..].reverse();
    }
    visits
}

#[derive(Clone, Copy)]
enum Piece {
    Text(&'static str),
    Label(Label),
    Variable(StateId),
    /// The set that is shown at this place of the text begins; it has a `rec` if its name is told inside.
    Begins(usize),
    Again(usize),
    /// Parentheses that stand there if the set has a `rec`.
    Opens(usize),
    Closes(usize),
}

enum Item {
    Tell(Piece),
    Show(Polarity, usize),
    ShowDomain(Polarity, usize),
    Leave(usize),
}

const OPEN: Item = Item::Tell(Piece::Text("("));
const CLOSE: Item = Item::Tell(Piece::Text(")"));

fn text(text: &'static str) -> Item {
    Item::Tell(Piece::Text(text))
}

/// What is told and shown of a set, in order.
fn items(row: &Row, polarity: Polarity) -> Vec<Item> {
    let (between, nothing) = match polarity {
        Polarity::Positive => (" | ", "bot"),
        Polarity::Negative => (" & ", "top"),
    };
    let mut parts: Vec<Vec<Item>> =
        row.variables.iter().map(|state| vec![Item::Tell(Piece::Variable(*state))]).collect();
    parts.extend(row.boolean.then(|| vec![text("bool")]));
    parts.extend(row.integer.then(|| vec![text("int")]));
    if let Some((domain, codomain)) = row.function {
        let arms = vec![Item::ShowDomain(polarity.other(), domain), text(" -> "), Item::Show(polarity, codomain)];
        let is_alone = parts.is_empty() && row.fields.is_none();
        parts.push(if is_alone { arms } else { [OPEN].into_iter().chain(arms).chain([CLOSE]).collect() });
    }
    if let Some(fields) = &row.fields {
        let mut record = vec![text("{")];
        for (place, (label, set)) in fields.iter().enumerate() {
            record.extend((place > 0).then(|| text(", ")));
            record.extend([Item::Tell(Piece::Label(*label)), text(": "), Item::Show(polarity, *set)]);
        }
        record.push(text("}"));
        parts.push(record);
    }
    if parts.is_empty() {
        return vec![text(nothing)];
    }
    let mut items = Vec::new();
    for (place, part) in parts.into_iter().enumerate() {
        items.extend((place > 0).then(|| text(between)));
        items.extend(part);
    }
    items
}

fn is_function_alone(row: &Row) -> bool {
    row.function.is_some() && row.variables.is_empty() && !row.boolean && !row.integer && row.fields.is_none()
}

/// The pieces of the text in order, and how often a set is shown.
fn pieces(rows: &[Row]) -> (Vec<Piece>, usize) {
    let mut stack = vec![Item::Show(Polarity::Positive, 0)];
    let mut shown: Vec<Option<usize>> = vec![None; rows.len()];
    let mut pieces = Vec::new();
    let mut count = 0;
    while let Some(item) = stack.pop() {
        match item {
            Item::Tell(piece) => pieces.push(piece),
            Item::Leave(set) => shown[set] = None,
            Item::Show(_, set) | Item::ShowDomain(_, set) if shown[set].is_some() => {
                pieces.extend(shown[set].map(Piece::Again));
            }
            Item::ShowDomain(polarity, set) => {
                let is_alone = is_function_alone(&rows[set]);
                pieces.push(if is_alone { Piece::Text("(") } else { Piece::Opens(count) });
                stack.push(Item::Tell(if is_alone { Piece::Text(")") } else { Piece::Closes(count) }));
                stack.push(Item::Show(polarity, set));
            }
            Item::Show(polarity, set) => {
                pieces.push(Piece::Begins(count));
                shown[set] = Some(count);
                count += 1;
                stack.push(Item::Leave(set));
                stack.extend(items(&rows[set], polarity).into_iter().rev());
            }
        }
    }
    (pieces, count)
}

/// The names that are given so far.
#[derive(Default)]
struct Naming {
    count: usize,
    variables: HashMap<StateId, usize>,
    recursions: HashMap<usize, usize>,
}

fn named<K: std::hash::Hash + Eq>(names: &mut HashMap<K, usize>, key: K, count: &mut usize, out: &mut String) {
    let number = *names.entry(key).or_insert_with(|| {
        *count += 1;
        *count - 1
    });
    out.push(char::from(b'a' + (number % 26) as u8));
    if number >= 26 {
        out.push_str(&(number / 26).to_string());
    }
}

fn write(pieces: &[Piece], count: usize, labels: &[&[u8]], out: &mut String) {
    let mut again = vec![false; count];
    for piece in pieces {
        if let Piece::Again(set) = piece {
            again[*set] = true;
        }
    }
    let mut naming = Naming::default();
    for piece in pieces {
        match *piece {
            Piece::Text(text) => out.push_str(text),
            Piece::Label(label) => out.push_str(&String::from_utf8_lossy(labels[label as usize])),
            Piece::Variable(state) => named(&mut naming.variables, state, &mut naming.count, out),
            Piece::Again(set) => named(&mut naming.recursions, set, &mut naming.count, out),
            Piece::Begins(set) if again[set] => {
                out.push_str("rec ");
                named(&mut naming.recursions, set, &mut naming.count, out);
                out.push_str(". ");
            }
            Piece::Opens(set) if again[set] => out.push('('),
            Piece::Closes(set) if again[set] => out.push(')'),
            Piece::Begins(_) | Piece::Opens(_) | Piece::Closes(_) => {}
        }
    }
}

/// Writes the text of a scheme without environment.
pub fn print(scheme: &Scheme, labels: &[&[u8]], out: &mut String) {
    let automaton = &scheme.automaton;
    let root = scheme.part.root;
    let visits = visits(automaton, root);
    let mut table = Table { automaton, visits, numbers: HashMap::new(), sets: Vec::new() };
    table.number(Polarity::Positive, Set::One(root));
    let mut rows = Vec::new();
    while let Some((polarity, set)) = table.sets.get(rows.len()).cloned() {
        rows.push(table.row(polarity, &set));
    }
    let (pieces, count) = pieces(&rows);
    write(&pieces, count, labels, out);
}
