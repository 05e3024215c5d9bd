//! Derivations are read: a section for each binding, or the first bad line.
use crate::book::{book_of, Book, Node};
use crate::types::read_type;
use bench_common::{tokens, Kind};
use std::collections::{HashMap, HashSet};

#[derive(Clone, Copy, PartialEq, Eq, Hash)]
pub enum Mode {
    Lr,
    Rl,
    Pp,
}

/// A claim that the first node is below the second.
pub type Pair = (Mode, usize, usize);

/// A rule with its arguments: earlier steps, and for a name a node.
pub enum Rule {
    Var,
    Use(usize),
    Name(usize),
    Lit,
    Fun(usize),
    App(usize, usize),
    Make(Vec<usize>),
    Proj(usize),
    If(usize, usize, usize),
    Let(usize, usize),
    Rec(usize),
    Sub(usize),
}

/// A step with the lines behind it.
pub struct Step {
    /// The node of the term.
    pub about: u64,
    pub rule: Rule,
    /// Binders, which rise, each with its node.
    pub env: Vec<(u64, usize)>,
    /// The node of the type.
    pub root: usize,
    pub puts: HashMap<u64, usize>,
    pub pairs: HashSet<Pair>,
}

/// A line that gives a let number a step.
pub struct LetLine {
    pub number: u64,
    pub step: usize,
    /// How many steps stand before it.
    pub before: usize,
}

pub struct Section<'a> {
    pub name: &'a [u8],
    pub stated: Book<'a>,
    pub nodes: Vec<Node<'a>>,
    pub steps: Vec<Step>,
    pub lets: Vec<LetLine>,
}

/// A line behind the nodes.
enum Line {
    Let(u64, usize),
    Step(Step),
    Put(u64, usize),
    Pair(Pair),
    End,
}

fn number(word: &[u8]) -> Option<u64> {
    let is_spelled = !word.is_empty() && word.iter().all(u8::is_ascii_digit) && (word[0] != b'0' || word.len() == 1);
    is_spelled.then(|| std::str::from_utf8(word).ok()?.parse().ok()).flatten()
}

fn index(word: &[u8]) -> Option<usize> {
    number(word).map(|value| value as usize)
}

fn indices(words: &[&[u8]]) -> Option<Vec<usize>> {
    words.iter().map(|word| index(word)).collect()
}

fn is_name(word: &[u8]) -> bool {
    match tokens(word) {
        Ok(found) => found.len() == 1 && found[0].kind == Kind::Name && found[0].end - found[0].start == word.len(),
        Err(_) => false,
    }
}

/// Words two by two, where the first ones rise.
fn rising<'a, K: PartialOrd + Copy>(
    words: &[&'a [u8]],
    key: impl Fn(&'a [u8]) -> Option<K>,
) -> Option<Vec<(K, usize)>> {
    if words.len() % 2 != 0 {
        return None;
    }
    let entries: Vec<(K, usize)> =
        words.chunks(2).map(|two| Some((key(two[0])?, index(two[1])?))).collect::<Option<_>>()?;
    entries.windows(2).all(|two| two[0].0 < two[1].0).then_some(entries)
}

fn words_of(line: &[u8]) -> Vec<&[u8]> {
    line.split(|byte| *byte == b' ').collect()
}

fn node_of(line: &[u8]) -> Option<Node<'_>> {
    match &words_of(line)[..] {
        [b"node", b"bot"] => Some(Node::Bot),
        [b"node", b"top"] => Some(Node::Top),
        [b"node", b"var", variable] => Some(Node::Var(number(variable)?)),
        [b"node", b"bool"] => Some(Node::Boolean),
        [b"node", b"int"] => Some(Node::Integer),
        [b"node", b"fn", domain, codomain] => Some(Node::Function(index(domain)?, index(codomain)?)),
        [b"node", b"join", first, second] => Some(Node::Join(index(first)?, index(second)?)),
        [b"node", b"meet", first, second] => Some(Node::Meet(index(first)?, index(second)?)),
        [b"node", b"rcd", fields @ ..] => {
            Some(Node::Record(rising(fields, |label| is_name(label).then_some(label))?))
        }
        _ => None,
    }
}

fn rule_of(words: &[&[u8]]) -> Option<Rule> {
    let numbers = indices(&words[1..])?;
    match (words[0], &numbers[..]) {
        (b"var", []) => Some(Rule::Var),
        (b"use", [step]) => Some(Rule::Use(*step)),
        (b"name", [node]) => Some(Rule::Name(*node)),
        (b"lit", []) => Some(Rule::Lit),
        (b"fun", [step]) => Some(Rule::Fun(*step)),
        (b"app", [first, second]) => Some(Rule::App(*first, *second)),
        (b"make", _) => Some(Rule::Make(numbers)),
        (b"proj", [step]) => Some(Rule::Proj(*step)),
        (b"if", [condition, first, second]) => Some(Rule::If(*condition, *first, *second)),
        (b"let", [first, second]) => Some(Rule::Let(*first, *second)),
        (b"rec", [step]) => Some(Rule::Rec(*step)),
        (b"sub", [step]) => Some(Rule::Sub(*step)),
        _ => None,
    }
}

/// The step of the words behind `step`.
fn step_of(words: &[&[u8]]) -> Option<Step> {
    let about = number(words.first()?)?;
    let env_at = words.iter().position(|word| *word == b"env")?;
    let rule = rule_of(words.get(1..env_at).filter(|rule| !rule.is_empty())?)?;
    let [env @ .., b"type", root] = &words[env_at + 1..] else { return None };
    let env = rising(env, number)?;
    Some(Step { about, rule, env, root: index(root)?, puts: HashMap::new(), pairs: HashSet::new() })
}

fn line_of(line: &[u8]) -> Option<Line> {
    match &words_of(line)[..] {
        [b"let", number_word, step] => Some(Line::Let(number(number_word)?, index(step)?)),
        [b"step", words @ ..] => Some(Line::Step(step_of(words)?)),
        [b"put", variable, node] => Some(Line::Put(number(variable)?, index(node)?)),
        [b"pair", mode, first, second] => {
            let mode = match *mode {
                b"lr" => Mode::Lr,
                b"rl" => Mode::Rl,
                b"pp" => Mode::Pp,
                _ => return None,
            };
            Some(Line::Pair((mode, index(first)?, index(second)?)))
        }
        [b"end"] => Some(Line::End),
        _ => None,
    }
}

/// The name and the book of the type of a line `val NAME : TYPE`.
fn head_of(line: &'static [u8]) -> Option<(&'static [u8], Book<'static>)> {
    let rest = line.strip_prefix(b"val ")?;
    let name = rest.split(|byte| *byte == b' ').next()?;
    let text = rest[name.len()..].strip_prefix(b" : ")?;
    if !is_name(name) {
        return None;
    }
    let read = read_type(text, tokens(text).ok()?.leak()).ok()?;
    Some((name, book_of(&read)))
}

struct Reader {
    /// The lines that end with a newline.
    lines: Vec<&'static [u8]>,
    at: usize,
}

impl Reader {
    fn line(&self) -> Option<&'static [u8]> {
        self.lines.get(self.at).copied()
    }

    /// The number of the line that is looked at, counted from 1; that of the line behind the last at the end.
    fn bad(&self) -> usize {
        self.at + 1
    }

    /// The run of lines of nodes, of which each is one that may stand there.
    fn nodes(&mut self, stated: &Book) -> Result<Vec<Node<'static>>, usize> {
        let nodes: Vec<Node> = self.lines[self.at..].iter().map_while(|line| node_of(line)).collect();
        for (number, node) in nodes.iter().enumerate() {
            let is_late = matches!(node, Node::Join(..) | Node::Meet(..));
            let are_there = node.children().iter().all(|child| *child < if is_late { number } else { nodes.len() });
            if !are_there || stated.nodes.get(number).is_some_and(|wanted| wanted != node) {
                return Err(self.bad());
            }
            self.at += 1;
        }
        if nodes.len() < stated.nodes.len() {
            return Err(self.bad());
        }
        Ok(nodes)
    }

    fn section(&mut self) -> Result<Section<'static>, usize> {
        let (name, stated) = self.line().and_then(head_of).ok_or(self.bad())?;
        self.at += 1;
        let nodes = self.nodes(&stated)?;
        let mut section = Section { name, stated, nodes, steps: Vec::new(), lets: Vec::new() };
        let mut follows_sub = false;
        loop {
            let line = self.line().and_then(line_of).ok_or(self.bad())?;
            if !may_stand(&line, &section, follows_sub) {
                return Err(self.bad());
            }
            self.at += 1;
            follows_sub = match &line {
                Line::Step(step) => matches!(step.rule, Rule::Sub(_)),
                Line::Put(..) | Line::Pair(_) => true,
                Line::Let(..) => false,
                Line::End => return Ok(section),
            };
            add(&mut section, line);
        }
    }
}

/// Whether a line may stand behind those of a section so far.
fn may_stand(line: &Line, section: &Section, follows_sub: bool) -> bool {
    let is_node = |number: &usize| *number < section.nodes.len();
    let is_step = |number: &usize| *number < section.steps.len();
    let put = || &section.steps[section.steps.len() - 1].puts;
    match line {
        Line::Let(number, step) => is_step(step) && section.lets.iter().all(|each| each.number != *number),
        Line::Step(step) => {
            let has_nodes = is_node(&step.root) && step.env.iter().all(|entry| is_node(&entry.1));
            has_nodes
                && match &step.rule {
                    Rule::Var | Rule::Lit => true,
                    Rule::Name(node) => is_node(node),
                    Rule::Use(step) | Rule::Fun(step) | Rule::Proj(step) | Rule::Rec(step) | Rule::Sub(step) => {
                        is_step(step)
                    }
                    Rule::App(first, second) | Rule::Let(first, second) => is_step(first) && is_step(second),
                    Rule::If(condition, first, second) => is_step(condition) && is_step(first) && is_step(second),
                    Rule::Make(steps) => steps.iter().all(is_step),
                }
        }
        Line::Put(variable, node) => follows_sub && is_node(node) && !put().contains_key(variable),
        Line::Pair((_, first, second)) => follows_sub && is_node(first) && is_node(second),
        Line::End => true,
    }
}

fn add(section: &mut Section, line: Line) {
    let before = section.steps.len();
    match line {
        Line::Let(number, step) => section.lets.push(LetLine { number, step, before }),
        Line::Step(step) => section.steps.push(step),
        Line::Put(variable, node) => {
            section.steps[before - 1].puts.insert(variable, node);
        }
        Line::Pair(pair) => {
            section.steps[before - 1].pairs.insert(pair);
        }
        Line::End => {}
    }
}

/// The sections of a derivation, or its first bad line, counted from 1.
pub fn read_derivation(text: &'static [u8]) -> Result<Vec<Section<'static>>, usize> {
    let mut lines: Vec<&[u8]> = text.split(|byte| *byte == b'\n').collect();
    let unfinished = lines.pop().expect("there is one part at least");
    let mut reader = Reader { lines, at: 0 };
    if reader.line() != Some(b"derivation 1") {
        return Err(reader.bad());
    }
    reader.at += 1;
    let mut sections = Vec::new();
    while reader.at < reader.lines.len() || !unfinished.is_empty() {
        sections.push(reader.section()?);
    }
    Ok(sections)
}
