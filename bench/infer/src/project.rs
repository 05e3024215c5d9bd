//! The commands over files: a module, what it imports, and its interface.
use crate::automaton::{Label, Scheme};
use crate::biunify::{Clash, HeadKind};
use crate::book::book_of;
use crate::derivation::read_derivation;
use crate::infer::{infer, Known, NoScheme, Operators};
use crate::names::{resolve, Meaning};
use crate::parse::{Binding, Parser};
use crate::slow::subsumes_slowly;
use crate::subsume::{first_failure, Reason, Step};
use crate::types::{labels_of, numbered, read_interface, read_type, scheme_of, Declaration};
use crate::verify::{first_refused, Known as KnownBooks};
use crate::{print, simplify};
use bench_common::{tokens, Fault, Token};
use std::collections::{HashMap, HashSet};

/// The most bytes that the text of a module or an interface may have.
const LIMIT: usize = 1_048_576;

/// The most bytes that the text of a derivation may have.
const DERIVATION_LIMIT: usize = 67_108_864;

const TEXTS: [&str; 17] = [
    "",
    "a byte that begins no token",
    "a number above 9223372036854775807",
    "unexpected token",
    "the text ends too early",
    "nesting above 200",
    "unknown name",
    "name bound twice",
    "label given twice",
    "module imported twice",
    "unexpected token in a type",
    "the type ends too early",
    "not a polar type",
    "unguarded recursion",
    "contravariant recursion",
    "label given twice",
    "name declared twice",
];

/// What is said, and the status.
pub struct Said(pub String, pub i32);

/// A file's text with its tokens, which live as long as the program.
struct Source {
    file: String,
    text: &'static [u8],
    tokens: &'static [Token],
}

/// Where files are read from.
pub type Files<'a> = &'a dyn Fn(&str) -> Option<Vec<u8>>;

/// The bytes of a file, which live as long as the program.
fn bytes_of(files: Files, file: &str, limit: usize) -> Result<&'static [u8], Said> {
    let Some(text) = files(file) else { return Err(Said(format!("{file}: not found\n"), 4)) };
    if text.len() > limit {
        return Err(Said(format!("{file}: longer than {limit} bytes\n"), 11));
    }
    Ok(text.leak())
}

impl Source {
    fn read(files: Files, file: String) -> Result<Source, Said> {
        let text = bytes_of(files, &file, LIMIT)?;
        let source = Source { file, text, tokens: &[] };
        let tokens = tokens(text).map_err(|fault| source.faulty(fault))?.leak();
        Ok(Source { tokens, ..source })
    }

    fn place(&self, at: usize) -> String {
        let before = &self.text[..at];
        let line = 1 + before.iter().filter(|byte| **byte == b'\n').count();
        let column = 1 + before.iter().rev().take_while(|byte| **byte != b'\n').count();
        format!("{}:{line}:{column}", self.file)
    }

    fn faulty(&self, Fault(number, at): Fault) -> Said {
        Said(format!("{}: fault {number}: {}\n", self.place(at), TEXTS[number]), 3)
    }

    fn declarations(&self) -> Result<Vec<Declaration<'static>>, Said> {
        read_interface(self.text, self.tokens).map_err(|fault| self.faulty(fault))
    }
}

fn kind_text(kind: HeadKind) -> &'static str {
    match kind {
        HeadKind::Bool => "bool",
        HeadKind::Int => "int",
        HeadKind::Function => "a function",
        HeadKind::Record => "a record",
    }
}

fn text_of(bytes: &[u8]) -> &str {
    std::str::from_utf8(bytes).expect("a name is ASCII")
}

fn clash_text(clash: Clash, labels: &[&[u8]]) -> String {
    match clash {
        Clash::Unlike(found, expected) => format!("{} where {} is expected", kind_text(found), kind_text(expected)),
        Clash::Lacks(label) => format!("a record without the field {}", text_of(labels[label as usize])),
    }
}

/// Labels by their numbers, and their numbers.
struct Labels {
    names: Vec<&'static [u8]>,
    numbers: HashMap<&'static [u8], Label>,
}

impl Labels {
    fn of(sources: &[&Source]) -> Labels {
        let names = labels_of(sources.iter().map(|source| (source.text, source.tokens)));
        let numbers = numbered(&names);
        Labels { names, numbers }
    }
}

/// The scheme of each binding, with its name.
type Inferred = Vec<(&'static [u8], Scheme)>;

/// A module whose imports were read and whose names were resolved.
struct Project {
    source: Source,
    bindings: Vec<Binding<'static>>,
    uses: Vec<Vec<Option<Meaning>>>,
    imports: Vec<Source>,
    declarations: Vec<Declaration<'static>>,
}

impl Project {
    fn read(files: Files, name: &str) -> Result<Project, Said> {
        let source = Source::read(files, format!("{name}.ml"))?;
        let mut parser =
            Parser { text: source.text, tokens: source.tokens, at: 0, pieces: Vec::new(), doubled: None };
        let (imported, bindings) = parser.module().map_err(|fault| source.faulty(fault))?;
        let mut imports = Vec::new();
        let mut declarations = Vec::new();
        let mut meanings = HashMap::new();
        for import in imported {
            let interface = Source::read(files, format!("{}.mli", text_of(import)))?;
            for declaration in interface.declarations()? {
                meanings.insert(declaration.name, Meaning::Declared(declarations.len()));
                declarations.push(declaration);
            }
            imports.push(interface);
        }
        let mut uses = Vec::with_capacity(bindings.len());
        for (number, binding) in bindings.iter().enumerate() {
            uses.push(resolve(&binding.nodes, &mut meanings).map_err(|fault| source.faulty(fault))?);
            meanings.insert(binding.name, Meaning::Global(number));
        }
        Ok(Project { source, bindings, uses, imports, declarations })
    }

    /// The schemes of the declarations that the module uses.
    fn declared(&self, labels: &Labels) -> HashMap<usize, Scheme> {
        let used: HashSet<usize> = self
            .uses
            .iter()
            .flatten()
            .filter_map(|meaning| match meaning {
                Some(Meaning::Declared(number)) => Some(*number),
                _ => None,
            })
            .collect();
        used.into_iter().map(|number| (number, scheme_of(&self.declarations[number].read, &labels.numbers))).collect()
    }

    fn infer(&self, labels: &Labels, simplifies: bool) -> Result<Inferred, Said> {
        let operators = Operators::new();
        let declared = self.declared(labels);
        let mut globals: Vec<Scheme> = Vec::with_capacity(self.bindings.len());
        for (binding, uses) in self.bindings.iter().zip(&self.uses) {
            let known = Known {
                operators: &operators,
                globals: &globals,
                declared: &declared,
                labels: &labels.numbers,
                simplifies,
            };
            let scheme = infer(&binding.nodes, uses, &known).map_err(|NoScheme { node, clash }| {
                let place = self.source.place(binding.nodes[node].at);
                let kind = clash_text(clash, &labels.names);
                Said(format!("{place}: no scheme for {}: {kind}\n", text_of(binding.name)), 1)
            })?;
            globals.push(if simplifies { simplify::simplify(&scheme) } else { scheme });
        }
        Ok(self.bindings.iter().map(|binding| binding.name).zip(globals).collect())
    }
}

fn path_text(steps: &[Step], labels: &[&[u8]]) -> String {
    let step = |step: &Step| match step {
        Step::Domain => ".dom".to_string(),
        Step::Codomain => ".cod".to_string(),
        Step::Field(label) => format!(".{{{}}}", text_of(labels[*label as usize])),
    };
    "root".to_string() + &steps.iter().map(step).collect::<String>()
}

fn reason_text(reason: &Reason, labels: &[&[u8]]) -> String {
    match reason {
        Reason::Head(HeadKind::Function) => "function".to_string(),
        Reason::Head(HeadKind::Record) => "record".to_string(),
        Reason::Head(kind) => kind_text(*kind).to_string(),
        Reason::Label(label) => format!("field {}", text_of(labels[*label as usize])),
        Reason::Flow => "flow".to_string(),
    }
}

/// The signature of a module.
fn infer_module(files: Files, name: &str, simplifies: bool) -> Result<String, Said> {
    let project = Project::read(files, name)?;
    let sources: Vec<&Source> = project.imports.iter().chain([&project.source]).collect();
    let labels = Labels::of(&sources);
    let mut out = String::new();
    for (binding, scheme) in project.infer(&labels, simplifies)? {
        out.push_str("val ");
        out.push_str(text_of(binding));
        out.push_str(" : ");
        print::print(&scheme, &labels.names, &mut out);
        out.push('\n');
    }
    Ok(out)
}

/// How the answer of a command is found.
#[derive(Clone, Copy, Default)]
pub struct Ways {
    /// Schemes are simplified.
    pub simplifies: bool,
    /// Each subsumption is decided slowly too, and the two decisions have to agree.
    pub is_slow: bool,
}

/// Whether a module keeps its interface's promise.
fn check_module(files: Files, name: &str, ways: Ways) -> Result<String, Said> {
    let project = Project::read(files, name)?;
    let sources: Vec<&Source> = project.imports.iter().chain([&project.source]).collect();
    // a module without a scheme is refused before its interface is read
    project.infer(&Labels::of(&sources), ways.simplifies)?;
    let own = Source::read(files, format!("{name}.mli"))?;
    let promised = own.declarations()?;
    let all: Vec<&Source> = sources.into_iter().chain([&own]).collect();
    let labels = Labels::of(&all);
    let inferred: HashMap<&[u8], Scheme> = project.infer(&labels, ways.simplifies)?.into_iter().collect();
    for declaration in &promised {
        let declared = text_of(declaration.name);
        let Some(general) = inferred.get(declaration.name) else {
            return Err(Said(format!("{name}: val {declared} is declared and not bound\n"), 2));
        };
        let special = scheme_of(&declaration.read, &labels.numbers);
        let failure = first_failure(general, &special);
        if ways.is_slow && subsumes_slowly(general, &special) != failure.is_none() {
            return Err(Said(format!("{name}: the decisions of {declared} differ\n"), 99));
        }
        if let Some((steps, reason)) = failure {
            let (path, reason) = (path_text(&steps, &labels.names), reason_text(&reason, &labels.names));
            return Err(Said(format!("{name}: val {declared} is not general enough at {path} ({reason})\n"), 2));
        }
    }
    Ok(format!("{name} matches {name}.mli\n"))
}

/// The books of `int -> int -> int` and `int -> int -> bool`, and of the declarations.
fn known_books(declarations: &[Declaration<'static>]) -> KnownBooks<'static> {
    let operator = |text: &'static str| {
        let found = tokens(text.as_bytes()).ok().expect("it has tokens").leak();
        book_of(&read_type(text.as_bytes(), found).ok().expect("it is a type"))
    };
    KnownBooks {
        to_integer: operator("int -> int -> int"),
        to_boolean: operator("int -> int -> bool"),
        declared: declarations.iter().map(|declaration| book_of(&declaration.read)).collect(),
    }
}

/// Whether each step of a module's derivation is allowed.
fn verify_module(files: Files, name: &str) -> Result<String, Said> {
    let project = Project::read(files, name)?;
    let file = format!("{name}.mld");
    let text = bytes_of(files, &file, DERIVATION_LIMIT)?;
    let sections =
        read_derivation(text).map_err(|line| Said(format!("{file}:{line}: fault 19: bad line\n"), 3))?;
    let known = known_books(&project.declarations);
    match first_refused(&project.bindings, &project.uses, &known, &sections) {
        None => Ok(format!("{name} is verified\n")),
        Some(step) => Err(Said(format!("{name}: step {step} is not allowed\n"), 9)),
    }
}

/// The answer of `infer`, `check` or `verify`.
pub fn answer(files: Files, command: &str, name: &str, ways: Ways) -> Said {
    let found = match command {
        "check" => check_module(files, name, ways),
        "verify" => verify_module(files, name),
        _ => infer_module(files, name, ways.simplifies),
    };
    match found {
        Ok(said) => Said(said, 0),
        Err(refused) => refused,
    }
}
