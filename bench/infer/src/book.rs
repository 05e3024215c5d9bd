//! The books of types: nodes by layers.
use crate::types::{Member, Type};
use std::collections::HashMap;

/// A node; children are numbers of nodes, and the fields of a record rise by their labels.
#[derive(Clone, PartialEq, Eq, Debug)]
pub enum Node<'a> {
    Bot,
    Top,
    Var(u64),
    Boolean,
    Integer,
    Function(usize, usize),
    Record(Vec<(&'a [u8], usize)>),
    Join(usize, usize),
    Meet(usize, usize),
}

impl Node<'_> {
    /// The same node in a book in which all numbers are so much larger.
    pub fn moved(&self, up: usize) -> Self {
        match self {
            Node::Function(domain, codomain) => Node::Function(domain + up, codomain + up),
            Node::Record(fields) => Node::Record(fields.iter().map(|field| (field.0, field.1 + up)).collect()),
            Node::Join(first, second) => Node::Join(first + up, second + up),
            Node::Meet(first, second) => Node::Meet(first + up, second + up),
            other => other.clone(),
        }
    }

    pub fn children(&self) -> Vec<usize> {
        match self {
            Node::Function(first, second) | Node::Join(first, second) | Node::Meet(first, second) => {
                vec![*first, *second]
            }
            Node::Record(fields) => fields.iter().map(|field| field.1).collect(),
            _ => vec![],
        }
    }
}

pub struct Book<'a> {
    pub nodes: Vec<Node<'a>>,
    pub root: usize,
}

/// The recursive names around a place, each with the number of its `rec`.
type Scope<'a> = Vec<(&'a [u8], usize)>;

fn innermost(scope: &Scope, name: &[u8]) -> Option<usize> {
    scope.iter().rev().find(|entry| entry.0 == name).map(|entry| entry.1)
}

/// The variables of a type in the order of the text, each with its number.
fn number_variables<'a>(read: &Type<'a>, scope: &mut Scope<'a>, found: &mut HashMap<&'a [u8], u64>) {
    match read {
        Type::Name(name, _) if innermost(scope, name).is_none() => {
            let next = found.len() as u64;
            found.entry(name).or_insert(next);
        }
        Type::Function(domain, codomain) => {
            number_variables(domain, scope, found);
            number_variables(codomain, scope, found);
        }
        Type::Record(members) => members.iter().for_each(|each| number_variables(&each.part, scope, found)),
        Type::Join(operands, _) | Type::Meet(operands, _) => {
            operands.iter().for_each(|operand| number_variables(operand, scope, found));
        }
        Type::Rec(name, body) => {
            scope.push((name, 0));
            number_variables(body, scope, found);
            scope.pop();
        }
        _ => {}
    }
}

/// A function or record of a layer, whose children come behind the layer.
struct Waiting<'a, 'b> {
    number: usize,
    read: &'b Type<'a>,
    scope: Scope<'a>,
}

#[derive(Default)]
struct Maker<'a> {
    nodes: Vec<Node<'a>>,
    variables: HashMap<&'a [u8], u64>,
    /// The node of the body of each `rec`; it is known once the layer of the body has its numbers.
    bodies: Vec<usize>,
}

impl<'a> Maker<'a> {
    fn push(&mut self, node: Node<'a>) -> usize {
        self.nodes.push(node);
        self.nodes.len() - 1
    }

    /// Numbers the rest of a layer, and answers the node of this part.
    fn layer<'b>(&mut self, read: &'b Type<'a>, scope: &Scope<'a>, waiting: &mut Vec<Waiting<'a, 'b>>) -> usize {
        match read {
            Type::Name(name, _) => match innermost(scope, name) {
                Some(number) => self.bodies[number],
                None => self.push(Node::Var(self.variables[name])),
            },
            Type::Boolean => self.push(Node::Boolean),
            Type::Integer => self.push(Node::Integer),
            Type::Bot(_) => self.push(Node::Bot),
            Type::Top(_) => self.push(Node::Top),
            Type::Join(operands, _) => self.operands(operands, Node::Join, scope, waiting),
            Type::Meet(operands, _) => self.operands(operands, Node::Meet, scope, waiting),
            Type::Function(..) | Type::Record(_) => {
                let number = self.push(Node::Bot);
                waiting.push(Waiting { number, read, scope: scope.clone() });
                number
            }
            Type::Rec(name, body) => {
                let number = self.bodies.len();
                self.bodies.push(usize::MAX);
                let mut inner = scope.clone();
                inner.push((name, number));
                let node = self.layer(body, &inner, waiting);
                self.bodies[number] = node;
                node
            }
        }
    }

    fn operands<'b>(
        &mut self,
        operands: &'b [Type<'a>],
        of: fn(usize, usize) -> Node<'a>,
        scope: &Scope<'a>,
        waiting: &mut Vec<Waiting<'a, 'b>>,
    ) -> usize {
        let mut left = self.layer(&operands[0], scope, waiting);
        for operand in &operands[1..] {
            let right = self.layer(operand, scope, waiting);
            left = self.push(of(left, right));
        }
        left
    }

    /// Numbers a layer and all that lies in it, and answers its node.
    fn place(&mut self, read: &Type<'a>, scope: &Scope<'a>) -> usize {
        let mut waiting = Vec::new();
        let root = self.layer(read, scope, &mut waiting);
        for Waiting { number, read, scope } in waiting {
            self.nodes[number] = self.constructor(read, &scope);
        }
        root
    }

    fn constructor(&mut self, read: &Type<'a>, scope: &Scope<'a>) -> Node<'a> {
        match read {
            Type::Function(domain, codomain) => {
                let domain = self.place(domain, scope);
                Node::Function(domain, self.place(codomain, scope))
            }
            Type::Record(members) => {
                let field = |each: &Member<'a>| (each.label, self.place(&each.part, scope));
                let mut fields: Vec<_> = members.iter().map(field).collect();
                fields.sort_unstable();
                Node::Record(fields)
            }
            _ => unreachable!("only functions and records wait"),
        }
    }
}

/// The book of a type without a fault.
pub fn book_of<'a>(read: &Type<'a>) -> Book<'a> {
    let mut maker = Maker::default();
    number_variables(read, &mut Vec::new(), &mut maker.variables);
    let root = maker.place(read, &Vec::new());
    Book { nodes: maker.nodes, root }
}
