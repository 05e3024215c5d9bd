//! Texts of interfaces and signatures are read: declarations with their types, or the first fault; and types become
//! schemes.
use crate::automaton::{Automaton, Field, Head, Label, Part, Polarity, Scheme, Set, StateId};
use bench_common::{tokens, Fault, Kind, Token};
use std::collections::{HashMap, HashSet};

/// A type; what may be a fault has its place.
pub enum Type<'a> {
    Name(&'a [u8], usize),
    Boolean,
    Integer,
    Bot(usize),
    Top(usize),
    Function(Box<Type<'a>>, Box<Type<'a>>),
    Record(Vec<Member<'a>>),
    /// The operands, and the places of the signs between them.
    Join(Vec<Type<'a>>, Vec<usize>),
    Meet(Vec<Type<'a>>, Vec<usize>),
    Rec(&'a [u8], Box<Type<'a>>),
}

/// A label with its place, and the type of the field.
pub struct Member<'a> {
    pub label: &'a [u8],
    at: usize,
    pub part: Type<'a>,
}

/// A declaration: a name with its place, and its type.
pub struct Declaration<'a> {
    pub name: &'a [u8],
    pub at: usize,
    pub read: Type<'a>,
}

struct Reader<'a> {
    text: &'a [u8],
    tokens: &'a [Token],
    at: usize,
}

impl<'a> Reader<'a> {
    fn is(&self, kind: Kind) -> bool {
        self.tokens.get(self.at).is_some_and(|token| token.kind == kind)
    }

    fn unexpected(&self) -> Fault {
        match self.tokens.get(self.at) {
            Some(token) => Fault(10, token.start),
            None => Fault(11, self.text.len()),
        }
    }

    fn eat(&mut self, kind: Kind) -> Result<Token, Fault> {
        let Some(token) = self.tokens.get(self.at).filter(|token| token.kind == kind) else {
            return Err(self.unexpected());
        };
        self.at += 1;
        Ok(*token)
    }

    fn name(&mut self) -> Result<(&'a [u8], usize), Fault> {
        let token = self.eat(Kind::Name)?;
        Ok((&self.text[token.start..token.end], token.start))
    }

    fn whole(&mut self) -> Result<Type<'a>, Fault> {
        if self.is(Kind::Word("rec")) {
            self.at += 1;
            let (name, _) = self.name()?;
            self.eat(Kind::Symbol("."))?;
            return Ok(Type::Rec(name, Box::new(self.whole()?)));
        }
        let domain = self.operands("|", Type::Join, |reader| reader.operands("&", Type::Meet, Reader::atom))?;
        if !self.is(Kind::Symbol("->")) {
            return Ok(domain);
        }
        self.at += 1;
        Ok(Type::Function(Box::new(domain), Box::new(self.whole()?)))
    }

    fn operands(
        &mut self,
        sign: &'static str,
        of: fn(Vec<Type<'a>>, Vec<usize>) -> Type<'a>,
        read: impl Fn(&mut Self) -> Result<Type<'a>, Fault>,
    ) -> Result<Type<'a>, Fault> {
        let first = read(self)?;
        if !self.is(Kind::Symbol(sign)) {
            return Ok(first);
        }
        let mut operands = vec![first];
        let mut places = Vec::new();
        while self.is(Kind::Symbol(sign)) {
            places.push(self.eat(Kind::Symbol(sign))?.start);
            operands.push(read(self)?);
        }
        Ok(of(operands, places))
    }

    fn atom(&mut self) -> Result<Type<'a>, Fault> {
        let Some(token) = self.tokens.get(self.at) else { return Err(self.unexpected()) };
        let found = match token.kind {
            Kind::Name => Type::Name(&self.text[token.start..token.end], token.start),
            Kind::Word("bool") => Type::Boolean,
            Kind::Word("int") => Type::Integer,
            Kind::Word("top") => Type::Top(token.start),
            Kind::Word("bot") => Type::Bot(token.start),
            Kind::Symbol("(") => {
                self.at += 1;
                let inner = self.whole()?;
                self.eat(Kind::Symbol(")"))?;
                return Ok(inner);
            }
            Kind::Symbol("{") => {
                self.at += 1;
                return self.record();
            }
            _ => return Err(self.unexpected()),
        };
        self.at += 1;
        Ok(found)
    }

    fn record(&mut self) -> Result<Type<'a>, Fault> {
        let mut parts = Vec::new();
        if self.is(Kind::Symbol("}")) {
            self.at += 1;
            return Ok(Type::Record(parts));
        }
        loop {
            let (label, at) = self.name()?;
            self.eat(Kind::Symbol(":"))?;
            parts.push(Member { label, at, part: self.whole()? });
            if !self.is(Kind::Symbol(",")) {
                self.eat(Kind::Symbol("}"))?;
                return Ok(Type::Record(parts));
            }
            self.at += 1;
        }
    }
}

/// Looks for the faults of types behind the grammar, of which the one with the least place counts.
#[derive(Default)]
struct Faults<'a> {
    first: Option<Fault>,
    /// The latest `rec` of each name around, with the number of constructors around it and its place's polarity.
    recursive: HashMap<&'a [u8], (usize, Polarity)>,
    depth: usize,
}

impl<'a> Faults<'a> {
    fn note(&mut self, number: usize, at: usize) {
        if self.first.is_none_or(|first| at < first.1) {
            self.first = Some(Fault(number, at));
        }
    }

    fn look(&mut self, read: &Type<'a>, polarity: Polarity) {
        match read {
            Type::Boolean | Type::Integer => {}
            Type::Name(name, at) => match self.recursive.get(name) {
                Some((depth, _)) if *depth == self.depth => self.note(13, *at),
                Some((_, other)) if *other != polarity => self.note(14, *at),
                _ => {}
            },
            Type::Bot(at) if polarity == Polarity::Negative => self.note(12, *at),
            Type::Top(at) if polarity == Polarity::Positive => self.note(12, *at),
            Type::Bot(_) | Type::Top(_) => {}
            Type::Join(operands, places) | Type::Meet(operands, places) => {
                let is_join = matches!(read, Type::Join(..));
                if is_join != (polarity == Polarity::Positive) {
                    self.note(12, places[0]);
                }
                operands.iter().for_each(|operand| self.look(operand, polarity));
            }
            Type::Rec(name, body) => {
                let old = self.recursive.insert(name, (self.depth, polarity));
                self.look(body, polarity);
                match old {
                    Some(old) => self.recursive.insert(name, old),
                    None => self.recursive.remove(name),
                };
            }
            Type::Function(domain, codomain) => {
                self.depth += 1;
                self.look(domain, polarity.other());
                self.look(codomain, polarity);
                self.depth -= 1;
            }
            Type::Record(parts) => {
                self.depth += 1;
                let mut labels = HashSet::new();
                for part in parts {
                    if !labels.insert(part.label) {
                        self.note(15, part.at);
                    }
                    self.look(&part.part, polarity);
                }
                self.depth -= 1;
            }
        }
    }
}

/// The declarations of an interface, or its first fault.
pub fn read_interface<'a>(text: &'a [u8], tokens: &'a [Token]) -> Result<Vec<Declaration<'a>>, Fault> {
    let mut reader = Reader { text, tokens, at: 0 };
    let mut declarations = Vec::new();
    while reader.at < tokens.len() {
        reader.eat(Kind::Word("val"))?;
        let (name, at) = reader.name()?;
        reader.eat(Kind::Symbol(":"))?;
        declarations.push(Declaration { name, at, read: reader.whole()? });
    }
    let mut faults = Faults::default();
    let mut names = HashSet::new();
    for declaration in &declarations {
        if !names.insert(declaration.name) {
            faults.note(16, declaration.at);
        }
        faults.look(&declaration.read, Polarity::Positive);
        if let Some(fault) = faults.first {
            return Err(fault);
        }
    }
    Ok(declarations)
}

/// The type that a text is, or its first fault.
pub fn read_type<'a>(text: &'a [u8], tokens: &'a [Token]) -> Result<Type<'a>, Fault> {
    let mut reader = Reader { text, tokens, at: 0 };
    let read = reader.whole()?;
    if reader.at < tokens.len() {
        return Err(reader.unexpected());
    }
    let mut faults = Faults::default();
    faults.look(&read, Polarity::Positive);
    faults.first.map_or(Ok(read), Err)
}

/// Gives each part of a type the states that stand for it. A recursive name has a state of its own, which at last gets
/// the heads and edges of what the name stands for.
struct Builder<'a, 'b> {
    automaton: Automaton,
    labels: &'b HashMap<&'a [u8], Label>,
    variables: HashMap<&'a [u8], (StateId, StateId)>,
    recursive: Vec<(&'a [u8], StateId)>,
    meanings: HashMap<StateId, Set>,
}

impl<'a> Builder<'a, '_> {
    fn set(&mut self, read: &Type<'a>, polarity: Polarity) -> Set {
        let head = match read {
            Type::Name(name, _) => return self.name(name, polarity),
            Type::Bot(_) | Type::Top(_) => return Set::Empty,
            Type::Join(operands, _) | Type::Meet(operands, _) => {
                let mut all = Set::Empty;
                for operand in operands {
                    let set = self.set(operand, polarity);
                    all.unite(&set);
                }
                return all;
            }
            Type::Rec(name, body) => {
                let state = self.automaton.add(polarity, Head::default());
                self.recursive.push((name, state));
                let set = self.set(body, polarity);
                self.recursive.pop();
                self.meanings.insert(state, set.clone());
                return set;
            }
            Type::Boolean => Head::boolean(),
            Type::Integer => Head::integer(),
            Type::Function(domain, codomain) => {
                let domain = self.set(domain, polarity.other());
                Head::function(domain, self.set(codomain, polarity))
            }
            Type::Record(parts) => {
                let field = |field: &Member<'a>| {
                    let set = self.set(&field.part, polarity);
                    Field { label: self.labels[field.label], set }
                };
                let mut fields: Vec<Field> = parts.iter().map(field).collect();
                fields.sort_by_key(|field| field.label);
                Head::record(fields)
            }
        };
        Set::One(self.automaton.add(polarity, head))
    }

    fn name(&mut self, name: &'a [u8], polarity: Polarity) -> Set {
        if let Some((_, state)) = self.recursive.iter().rev().find(|recursive| recursive.0 == name) {
            return Set::One(*state);
        }
        let (negative, positive) = *self.variables.entry(name).or_insert_with(|| self.automaton.add_passage());
        Set::One(if polarity == Polarity::Positive { positive } else { negative })
    }

    /// The states of a set, with those that a recursive name stands for in its place.
    fn meant(&self, set: &Set) -> Set {
        let mut states = Vec::new();
        let mut stack = set.as_slice().to_vec();
        while let Some(state) = stack.pop() {
            match self.meanings.get(&state) {
                Some(meaning) => stack.extend(meaning.as_slice()),
                None => states.push(state),
            }
        }
        Set::of(states)
    }

    fn scheme(mut self, root: Set) -> Scheme {
        for state in 0..self.automaton.len() {
            let mut head = std::mem::take(&mut self.automaton.states[state].head);
            for set in head.sets_mut() {
                *set = self.meant(set);
            }
            self.automaton.states[state].head = head;
        }
        let root = self.meant(&root);
        let head = self.automaton.combined_head(Polarity::Positive, root.as_slice());
        let number = self.automaton.add(Polarity::Positive, head);
        for member in root.as_slice() {
            for end in self.automaton.state(*member).edges.clone().as_slice() {
                self.automaton.add_flow(*end, number);
            }
        }
        Scheme { automaton: self.automaton, part: Part { env: vec![], root: number } }
    }
}

/// The names of all tokens, by number in the order of their bytes.
pub fn labels_of<'a>(texts: impl Iterator<Item = (&'a [u8], &'a [Token])>) -> Vec<&'a [u8]> {
    let mut names: Vec<&[u8]> = texts
        .flat_map(|(text, tokens)| {
            tokens.iter().filter(|token| token.kind == Kind::Name).map(move |token| &text[token.start..token.end])
        })
        .collect();
    names.sort_unstable();
    names.dedup();
    names
}

pub fn numbered<'a>(labels: &[&'a [u8]]) -> HashMap<&'a [u8], Label> {
    labels.iter().enumerate().map(|(number, label)| (*label, number as Label)).collect()
}

/// The scheme of a type.
pub fn scheme_of<'a>(read: &Type<'a>, labels: &HashMap<&'a [u8], Label>) -> Scheme {
    let mut builder = Builder {
        automaton: Automaton::default(),
        labels,
        variables: HashMap::new(),
        recursive: Vec::new(),
        meanings: HashMap::new(),
    };
    let root = builder.set(read, Polarity::Positive);
    builder.scheme(root)
}

/// The entries of a signature text, each with its scheme.
pub fn entries<'a>(
    text: &'a [u8],
    tokens: &'a [Token],
    labels: &HashMap<&'a [u8], Label>,
) -> Option<Vec<(&'a [u8], Scheme)>> {
    let declarations = read_interface(text, tokens).ok()?;
    Some(declarations.iter().map(|each| (each.name, scheme_of(&each.read, labels))).collect())
}

/// Says for each entry of two signature texts whether their types are equivalent; answers whether all are.
pub fn compare(first: &[u8], second: &[u8]) -> Option<(String, bool)> {
    let (first_tokens, second_tokens) = (tokens(first).ok()?, tokens(second).ok()?);
    let labels = labels_of([(first, &first_tokens[..]), (second, &second_tokens[..])].into_iter());
    let labels = numbered(&labels);
    let firsts = entries(first, &first_tokens, &labels)?;
    let seconds = entries(second, &second_tokens, &labels)?;
    let mut said = String::new();
    let mut all = firsts.len() == seconds.len();
    for ((name, scheme), (other, special)) in firsts.iter().zip(&seconds) {
        let is_same = name == other && crate::subsume::are_equivalent(scheme, special);
        all &= is_same;
        said.push_str(&String::from_utf8_lossy(name));
        said.push_str(if is_same { ": equivalent\n" } else { ": not equivalent\n" });
    }
    if firsts.len() != seconds.len() {
        said.push_str("not as many entries\n");
    }
    Some((said, all))
}
