//! An unverified reader of the texts of types, to be measured beside `mls_typetext::read_type`; and the texts for both.
use bench_common::{arguments, colliding_names, counted_names, tokens, Fault, Kind, Token};
use std::collections::{HashMap, HashSet};
use std::time::Instant;
use std::{fs, process, thread};

enum Tree<'a> {
    Name(usize, &'a [u8]),
    Bool,
    Int,
    Top(usize),
    Bot(usize),
    Arrow(Box<Tree<'a>>, Box<Tree<'a>>),
    Record(Vec<(usize, &'a [u8], Tree<'a>)>),
    Join(Box<Tree<'a>>, usize, Box<Tree<'a>>),
    Meet(Box<Tree<'a>>, usize, Box<Tree<'a>>),
    Rec(&'a [u8], Box<Tree<'a>>),
}

struct Parser<'a> {
    text: &'a [u8],
    tokens: &'a [Token],
    at: usize,
}

impl<'a> Parser<'a> {
    fn kind(&self) -> Option<Kind> {
        self.tokens.get(self.at).map(|token| token.kind)
    }

    fn place(&self) -> usize {
        self.tokens.get(self.at).map_or(self.text.len(), |token| token.start)
    }

    fn unexpected(&self) -> Fault {
        Fault(if self.at < self.tokens.len() { 10 } else { 11 }, self.place())
    }

    fn eat(&mut self, kind: Kind) -> Result<usize, Fault> {
        if self.kind() != Some(kind) {
            return Err(self.unexpected());
        }
        self.at += 1;
        Ok(self.tokens[self.at - 1].start)
    }

    fn name(&mut self) -> Result<(usize, &'a [u8]), Fault> {
        let at = self.eat(Kind::Name)?;
        Ok((at, &self.text[at..self.tokens[self.at - 1].end]))
    }

    fn whole(&mut self) -> Result<Tree<'a>, Fault> {
        if self.eat(Kind::Word("rec")).is_ok() {
            let (_, name) = self.name()?;
            self.eat(Kind::Symbol("."))?;
            return Ok(Tree::Rec(name, Box::new(self.whole()?)));
        }
        let from = self.join()?;
        if self.eat(Kind::Symbol("->")).is_ok() {
            return Ok(Tree::Arrow(Box::new(from), Box::new(self.whole()?)));
        }
        Ok(from)
    }

    fn join(&mut self) -> Result<Tree<'a>, Fault> {
        let mut left = self.meet()?;
        while let Ok(at) = self.eat(Kind::Symbol("|")) {
            left = Tree::Join(Box::new(left), at, Box::new(self.meet()?));
        }
        Ok(left)
    }

    fn meet(&mut self) -> Result<Tree<'a>, Fault> {
        let mut left = self.atom()?;
        while let Ok(at) = self.eat(Kind::Symbol("&")) {
            left = Tree::Meet(Box::new(left), at, Box::new(self.atom()?));
        }
        Ok(left)
    }

    fn atom(&mut self) -> Result<Tree<'a>, Fault> {
        let at = self.place();
        let found = match self.kind() {
            Some(Kind::Name) => Tree::Name(at, self.name()?.1),
            Some(Kind::Word("bool")) => Tree::Bool,
            Some(Kind::Word("int")) => Tree::Int,
            Some(Kind::Word("top")) => Tree::Top(at),
            Some(Kind::Word("bot")) => Tree::Bot(at),
            Some(Kind::Symbol("(")) => {
                self.at += 1;
                let inner = self.whole()?;
                self.eat(Kind::Symbol(")"))?;
                return Ok(inner);
            }
            Some(Kind::Symbol("{")) => {
                self.at += 1;
                return self.record();
            }
            _ => return Err(self.unexpected()),
        };
        if !matches!(found, Tree::Name(..)) {
            self.at += 1;
        }
        Ok(found)
    }

    fn record(&mut self) -> Result<Tree<'a>, Fault> {
        let mut fields = Vec::new();
        if self.eat(Kind::Symbol("}")).is_err() {
            loop {
                let (at, label) = self.name()?;
                self.eat(Kind::Symbol(":"))?;
                fields.push((at, label, self.whole()?));
                if self.eat(Kind::Symbol(",")).is_err() {
                    self.eat(Kind::Symbol("}"))?;
                    break;
                }
            }
        }
        Ok(Tree::Record(fields))
    }
}

/// A type without names: recursive names and variables are numbers.
enum Ty<'a> {
    Var(usize),
    Again(usize),
    Leaf,
    Arrow(Box<Ty<'a>>, Box<Ty<'a>>),
    Record(Vec<(&'a [u8], Ty<'a>)>),
    Operator(Box<Ty<'a>>, Box<Ty<'a>>),
    Rec(Box<Ty<'a>>),
}

#[derive(Default)]
struct Names<'a> {
    recs: HashMap<&'a [u8], Vec<(bool, usize, usize)>>,
    depth: usize,
    vars: HashMap<&'a [u8], usize>,
}

impl<'a> Names<'a> {
    fn resolve(&mut self, tree: &Tree<'a>, positive: bool, guards: usize) -> Result<Ty<'a>, Fault> {
        match tree {
            Tree::Name(at, name) => match self.recs.get(name).and_then(|around| around.last()) {
                Some((_, outside, _)) if *outside == guards => Err(Fault(13, *at)),
                Some((sign, _, _)) if *sign != positive => Err(Fault(14, *at)),
                Some((_, _, depth)) => Ok(Ty::Again(self.depth - 1 - depth)),
                None => {
                    let next = self.vars.len();
                    Ok(Ty::Var(*self.vars.entry(name).or_insert(next)))
                }
            },
            Tree::Bool | Tree::Int => Ok(Ty::Leaf),
            Tree::Top(at) if positive => Err(Fault(12, *at)),
            Tree::Bot(at) if !positive => Err(Fault(12, *at)),
            Tree::Top(_) | Tree::Bot(_) => Ok(Ty::Leaf),
            Tree::Arrow(from, to) => {
                let from = self.resolve(from, !positive, guards + 1)?;
                Ok(Ty::Arrow(Box::new(from), Box::new(self.resolve(to, positive, guards + 1)?)))
            }
            Tree::Record(fields) => {
                let mut labels = HashSet::new();
                let mut found = Vec::new();
                for (at, label, tree) in fields {
                    if !labels.insert(label) {
                        return Err(Fault(15, *at));
                    }
                    found.push((*label, self.resolve(tree, positive, guards + 1)?));
                }
                Ok(Ty::Record(found))
            }
            Tree::Join(left, at, right) | Tree::Meet(left, at, right) => {
                let left = self.resolve(left, positive, guards)?;
                if matches!(tree, Tree::Join(..)) != positive {
                    return Err(Fault(12, *at));
                }
                Ok(Ty::Operator(Box::new(left), Box::new(self.resolve(right, positive, guards)?)))
            }
            Tree::Rec(name, body) => {
                self.recs.entry(name).or_default().push((positive, guards, self.depth));
                self.depth += 1;
                let body = self.resolve(body, positive, guards);
                self.depth -= 1;
                self.recs.get_mut(name).expect("it was entered").pop();
                Ok(Ty::Rec(Box::new(body?)))
            }
        }
    }
}

/// Lays out a layer and what lies below it, and gives the node of its root.
#[derive(Default)]
struct Layout {
    nodes: Vec<Vec<usize>>,
    recs: Vec<usize>,
}

impl Layout {
    fn root(&self, ty: &Ty, here: usize, last: usize) -> usize {
        match ty {
            Ty::Again(k) if here == 0 => self.recs[self.recs.len() - 1 - k],
            _ => last,
        }
    }

    fn layer<'a, 'b>(&mut self, ty: &'b Ty<'a>, below: &mut Vec<(usize, &'b Ty<'a>, Vec<usize>)>) -> usize {
        match ty {
            Ty::Again(k) => self.recs[self.recs.len() - 1 - k],
            Ty::Rec(body) => {
                let size = layer_size(body);
                self.recs.push(if size == 0 { 0 } else { self.nodes.len() + size - 1 });
                let root = self.layer(body, below);
                self.recs.pop();
                root
            }
            Ty::Operator(left, right) => {
                let left = self.layer(left, below);
                let right = self.layer(right, below);
                self.nodes.push(vec![left, right]);
                self.nodes.len() - 1
            }
            Ty::Arrow(..) | Ty::Record(_) => {
                self.nodes.push(Vec::new());
                below.push((self.nodes.len() - 1, ty, self.recs.clone()));
                self.nodes.len() - 1
            }
            Ty::Var(number) => {
                self.nodes.push(vec![*number]);
                self.nodes.len() - 1
            }
            Ty::Leaf => {
                self.nodes.push(Vec::new());
                self.nodes.len() - 1
            }
        }
    }

    fn block(&mut self, ty: &Ty) -> usize {
        let mut below = Vec::new();
        let root = self.layer(ty, &mut below);
        for (number, ty, recs) in below {
            self.recs = recs;
            let children = match ty {
                Ty::Arrow(from, to) => vec![self.block(from), self.block(to)],
                Ty::Record(fields) => {
                    let mut children: Vec<_> = Vec::new();
                    for (label, ty) in fields {
                        children.push((*label, self.block(ty)));
                    }
                    children.sort();
                    children.into_iter().map(|child| child.1).collect()
                }
                _ => Vec::new(),
            };
            self.nodes[number] = children;
        }
        self.root(ty, layer_size(ty), root)
    }
}

fn layer_size(ty: &Ty) -> usize {
    match ty {
        Ty::Again(_) => 0,
        Ty::Rec(body) => layer_size(body),
        Ty::Operator(left, right) => 1 + layer_size(left) + layer_size(right),
        _ => 1,
    }
}

/// How many nodes and variables the book of a type has.
fn read(text: &[u8]) -> Result<(usize, usize), Fault> {
    let tokens = tokens(text)?;
    let mut parser = Parser { text, tokens: &tokens, at: 0 };
    let tree = parser.whole()?;
    if parser.at < tokens.len() {
        return Err(parser.unexpected());
    }
    let mut names = Names::default();
    let ty = names.resolve(&tree, true, 0)?;
    let mut layout = Layout::default();
    layout.block(&ty);
    Ok((layout.nodes.len(), names.vars.len()))
}

/// Writes the texts, of about a mebibyte each, into a folder.
fn write(folder: &str) -> std::io::Result<()> {
    let nested = |open: &str, leaf: &str, close: &str| {
        let count = 1_048_000 / (open.len() + close.len());
        format!("{}{leaf}{}", open.repeat(count), close.repeat(count))
    };
    fs::write(format!("{folder}/records"), nested("{l: ", "int", "}"))?;
    fs::write(format!("{folder}/functions"), nested("int -> ", "int", ""))?;
    fs::write(format!("{folder}/parentheses"), nested("(", "int", ")"))?;
    fs::write(format!("{folder}/joins"), nested("int | ", "int", ""))?;
    let mut variables = String::from("int");
    let mut number = 0;
    while variables.len() < 1_048_000 {
        variables = variables + " | a" + &number.to_string();
        number += 1;
    }
    fs::write(format!("{folder}/variables"), variables)?;
    let fields: Vec<String> = (0..70_000).map(|number| format!("l{}: int", (number * 7_919) % 70_000)).collect();
    fs::write(format!("{folder}/fields"), format!("{{{}}}", fields.join(", ")))?;
    for (kind, names) in [("colliding", colliding_names(60_000)), ("counted", counted_names(60_000))] {
        let fields: Vec<String> = names.iter().map(|name| format!("{name}: int")).collect();
        fs::write(format!("{folder}/{kind}_record"), format!("{{{}}}", fields.join(", ")))?;
        fs::write(format!("{folder}/{kind}_variables"), names.join(" | "))?;
        let nested: String = names.iter().map(|name| format!("rec {name}. {{l: ")).collect();
        fs::write(format!("{folder}/{kind}_recs"), format!("{nested}int{}", "}".repeat(names.len())))?;
    }
    // the labels have six letters, so that the text is of about a mebibyte
    let wide = |inner: &str| {
        let fields: Vec<String> = counted_names(100_000).iter().map(|name| format!("{}:{inner}", &name[1..])).collect();
        format!("{{{}}}", fields.join(","))
    };
    fs::write(format!("{folder}/wide_record_of_records"), wide("{}"))?;
    fs::write(format!("{folder}/wide_record_of_names"), wide("ab"))
}

fn work() {
    let words: Vec<String> = arguments();
    let status = match words.iter().map(String::as_str).collect::<Vec<_>>()[..] {
        ["write", folder] => write(folder).map_or(1, |()| 0),
        ["run", ref paths @ ..] => {
            for path in paths {
                let text = fs::read(path).expect("the text is there");
                let mut least = u128::MAX;
                let mut said = String::new();
                for _ in 0..5 {
                    let begin = Instant::now();
                    let found = read(&text);
                    least = least.min(begin.elapsed().as_micros());
                    said = match found {
                        Ok((nodes, vars)) => format!("{nodes} nodes, {vars} variables"),
                        Err(Fault(number, at)) => format!("fault {number} at {at}"),
                    };
                }
                println!("{path}: {} bytes, {said}, {least} us", text.len());
            }
            0
        }
        _ => {
            println!("usage: types-bench write FOLDER | run PATHS");
            8
        }
    };
    process::exit(status);
}

/// The reader recurses, so it gets a stack of 8 GiB.
fn main() {
    let _ = thread::Builder::new().stack_size(8 << 30).spawn(work).map(thread::JoinHandle::join);
}
