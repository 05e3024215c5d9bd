//! Modules are read: nodes in postorder, or the first fault.
use bench_common::{Fault, Kind, Token};
use std::collections::HashSet;

/// An expression with its place; parts are named by their numbers in a table.
pub struct Piece<'a> {
    pub at: usize,
    pub form: Form<'a>,
}

pub enum Form<'a> {
    Var(&'a [u8]),
    Number,
    Truth,
    Fun(&'a [u8], usize),
    Rec(&'a [u8], usize),
    Let(&'a [u8], usize, usize),
    If(usize, usize, usize),
    Apply(usize, usize),
    Binary(Operator, usize, usize),
    Make(Vec<(&'a [u8], usize)>),
    Project(usize, &'a [u8]),
    /// An operator alone, among the nodes.
    Operator(Operator),
}

#[derive(Clone, Copy)]
pub enum Operator {
    Add,
    Subtract,
    Multiply,
    Less,
    Equal,
}

pub struct Parser<'a> {
    pub text: &'a [u8],
    pub tokens: &'a [Token],
    pub at: usize,
    pub pieces: Vec<Piece<'a>>,
    pub doubled: Option<Fault>,
}

pub struct Binding<'a> {
    pub name: &'a [u8],
    pub nodes: Vec<Piece<'a>>,
}

impl<'a> Parser<'a> {
    fn kind(&self) -> Option<Kind> {
        self.tokens.get(self.at).map(|token| token.kind)
    }

    fn place(&self) -> usize {
        self.tokens.get(self.at).map_or(self.text.len(), |token| token.start)
    }

    fn unexpected(&self) -> Fault {
        Fault(if self.at < self.tokens.len() { 3 } else { 4 }, self.place())
    }

    fn eat(&mut self, kind: Kind) -> Result<usize, Fault> {
        if self.kind() != Some(kind) {
            return Err(self.unexpected());
        }
        self.at += 1;
        Ok(self.tokens[self.at - 1].start)
    }

    fn name(&mut self) -> Result<(&'a [u8], usize), Fault> {
        self.eat(Kind::Name)?;
        let token = self.tokens[self.at - 1];
        Ok((&self.text[token.start..token.end], token.start))
    }

    fn push(&mut self, at: usize, form: Form<'a>) -> usize {
        self.pieces.push(Piece { at, form });
        self.pieces.len() - 1
    }

    fn doubled(&mut self, number: usize, at: usize) {
        self.doubled.get_or_insert(Fault(number, at));
    }

    fn begins_atom(&self) -> bool {
        matches!(self.kind(), Some(Kind::Name | Kind::Number | Kind::Word("true" | "false") | Kind::Symbol("(" | "{")))
    }

    fn expr(&mut self, around: usize) -> Result<usize, Fault> {
        let at = self.place();
        let word = match self.kind() {
            Some(Kind::Word(word @ ("fun" | "rec" | "let" | "if"))) => word,
            _ if self.begins_atom() => "",
            _ => return Err(self.unexpected()),
        };
        if around == 200 {
            return Err(Fault(5, at));
        }
        let depth = around + 1;
        if word.is_empty() {
            return self.compare(depth);
        }
        self.at += 1;
        match word {
            "let" => {
                let rec_at = self.place();
                let is_rec = self.eat(Kind::Word("rec")).is_ok();
                let (name, _) = self.name()?;
                self.eat(Kind::Symbol("="))?;
                let mut bound = self.expr(depth)?;
                if is_rec {
                    bound = self.push(rec_at, Form::Rec(name, bound));
                }
                self.eat(Kind::Word("in"))?;
                let body = self.expr(depth)?;
                Ok(self.push(at, Form::Let(name, bound, body)))
            }
            "if" => {
                let condition = self.expr(depth)?;
                self.eat(Kind::Word("then"))?;
                let first = self.expr(depth)?;
                self.eat(Kind::Word("else"))?;
                let second = self.expr(depth)?;
                Ok(self.push(at, Form::If(condition, first, second)))
            }
            _ => {
                let (name, _) = self.name()?;
                self.eat(Kind::Symbol("->"))?;
                let body = self.expr(depth)?;
                Ok(self.push(at, if word == "fun" { Form::Fun(name, body) } else { Form::Rec(name, body) }))
            }
        }
    }

    fn compare(&mut self, depth: usize) -> Result<usize, Fault> {
        let left = self.sum(depth)?;
        let operator = match self.kind() {
            Some(Kind::Symbol("<")) => Operator::Less,
            Some(Kind::Symbol("==")) => Operator::Equal,
            _ => return Ok(left),
        };
        let at = self.place();
        self.at += 1;
        let right = self.sum(depth)?;
        Ok(self.push(at, Form::Binary(operator, left, right)))
    }

    fn sum(&mut self, depth: usize) -> Result<usize, Fault> {
        let mut left = self.product(depth)?;
        loop {
            let operator = match self.kind() {
                Some(Kind::Symbol("+")) => Operator::Add,
                Some(Kind::Symbol("-")) => Operator::Subtract,
                _ => return Ok(left),
            };
            let at = self.place();
            self.at += 1;
            let right = self.product(depth)?;
            left = self.push(at, Form::Binary(operator, left, right));
        }
    }

    fn product(&mut self, depth: usize) -> Result<usize, Fault> {
        let mut left = self.apply(depth)?;
        while self.kind() == Some(Kind::Symbol("*")) {
            let at = self.place();
            self.at += 1;
            let right = self.apply(depth)?;
            left = self.push(at, Form::Binary(Operator::Multiply, left, right));
        }
        Ok(left)
    }

    fn apply(&mut self, depth: usize) -> Result<usize, Fault> {
        let at = self.place();
        let mut function = self.post(depth)?;
        while self.begins_atom() {
            let argument = self.post(depth)?;
            function = self.push(at, Form::Apply(function, argument));
        }
        Ok(function)
    }

    fn post(&mut self, depth: usize) -> Result<usize, Fault> {
        let mut record = self.atom(depth)?;
        while self.kind() == Some(Kind::Symbol(".")) {
            self.at += 1;
            let (label, at) = self.name()?;
            record = self.push(at, Form::Project(record, label));
        }
        Ok(record)
    }

    fn atom(&mut self, depth: usize) -> Result<usize, Fault> {
        let at = self.place();
        match self.kind() {
            Some(Kind::Name) => {
                let (name, at) = self.name()?;
                Ok(self.push(at, Form::Var(name)))
            }
            Some(Kind::Number) => {
                self.at += 1;
                Ok(self.push(at, Form::Number))
            }
            Some(Kind::Word("true" | "false")) => {
                self.at += 1;
                Ok(self.push(at, Form::Truth))
            }
            Some(Kind::Symbol("(")) => {
                self.at += 1;
                let inner = self.expr(depth)?;
                self.eat(Kind::Symbol(")"))?;
                Ok(inner)
            }
            Some(Kind::Symbol("{")) => {
                self.at += 1;
                self.record(at, depth)
            }
            _ => Err(self.unexpected()),
        }
    }

    fn record(&mut self, at: usize, depth: usize) -> Result<usize, Fault> {
        let mut parts = Vec::new();
        let mut labels = HashSet::new();
        if self.eat(Kind::Symbol("}")).is_err() {
            loop {
                let (label, label_at) = self.name()?;
                if !labels.insert(label) {
                    self.doubled(8, label_at);
                }
                self.eat(Kind::Symbol("="))?;
                parts.push((label, self.expr(depth)?));
                if self.eat(Kind::Symbol(",")).is_err() {
                    self.eat(Kind::Symbol("}"))?;
                    break;
                }
            }
        }
        Ok(self.push(at, Form::Make(parts)))
    }

    /// The nodes of the expression whose root is the last piece, and no piece is left.
    fn nodes(&mut self) -> Vec<Piece<'a>> {
        let mut pieces: Vec<Option<Piece>> = std::mem::take(&mut self.pieces).into_iter().map(Some).collect();
        enum Task<'a> {
            Visit(usize),
            Tell(Piece<'a>),
        }
        let mut tasks = vec![Task::Visit(pieces.len() - 1)];
        let mut told: Vec<Piece> = Vec::new();
        while let Some(task) = tasks.pop() {
            let piece = match task {
                Task::Tell(piece) => {
                    told.push(piece);
                    continue;
                }
                Task::Visit(number) => pieces[number].take().expect("each piece has one parent"),
            };
            let at = piece.at;
            let parts: Vec<usize> = match &piece.form {
                Form::Fun(_, body) | Form::Rec(_, body) | Form::Project(body, _) => vec![*body],
                Form::Let(_, first, second) | Form::Apply(first, second) => vec![*first, *second],
                Form::If(condition, first, second) => vec![*condition, *first, *second],
                Form::Make(parts) => parts.iter().map(|part| part.1).collect(),
                Form::Binary(operator, left, right) => {
                    told.push(Piece { at, form: Form::Operator(*operator) });
                    tasks.push(Task::Tell(Piece { at, form: Form::Apply(0, 0) }));
                    tasks.push(Task::Visit(*right));
                    tasks.push(Task::Tell(Piece { at, form: Form::Apply(0, 0) }));
                    tasks.push(Task::Visit(*left));
                    continue;
                }
                _ => vec![],
            };
            tasks.push(Task::Tell(piece));
            tasks.extend(parts.into_iter().rev().map(Task::Visit));
        }
        let mut roots: Vec<usize> = Vec::new();
        for (number, piece) in told.iter_mut().enumerate() {
            let mut part = || roots.pop().expect("parts come first");
            match &mut piece.form {
                Form::Fun(_, body) | Form::Rec(_, body) | Form::Project(body, _) => *body = part(),
                Form::Let(_, first, second) | Form::Apply(first, second) => {
                    *second = part();
                    *first = part();
                }
                Form::If(condition, first, second) => {
                    *second = part();
                    *first = part();
                    *condition = part();
                }
                Form::Make(parts) => parts.iter_mut().rev().for_each(|each| each.1 = part()),
                _ => {}
            }
            roots.push(number);
        }
        told
    }

    /// The names of the imports, and the bindings.
    pub fn module(&mut self) -> Result<(Vec<&'a [u8]>, Vec<Binding<'a>>), Fault> {
        let mut imports = Vec::new();
        let mut imported = HashSet::new();
        while self.kind() == Some(Kind::Word("import")) {
            self.at += 1;
            let (name, at) = self.name()?;
            imports.push(name);
            if !imported.insert(name) {
                self.doubled(9, at);
            }
        }
        let mut bindings = Vec::new();
        let mut names = HashSet::new();
        while self.at < self.tokens.len() {
            self.eat(Kind::Word("let"))?;
            let rec_at = self.place();
            let is_rec = self.eat(Kind::Word("rec")).is_ok();
            let (name, at) = self.name()?;
            if !names.insert(name) {
                self.doubled(7, at);
            }
            self.eat(Kind::Symbol("="))?;
            let body = self.expr(0)?;
            if is_rec {
                self.push(rec_at, Form::Rec(name, body));
            }
            let nodes = self.nodes();
            bindings.push(Binding { name, nodes });
        }
        match self.doubled {
            Some(fault) => Err(fault),
            None => Ok((imports, bindings)),
        }
    }
}
