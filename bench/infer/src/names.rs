//! What the names of an expression mean.
use crate::parse::{Form, Piece};
use bench_common::Fault;
use std::collections::HashMap;

#[derive(Clone, Copy)]
pub enum Meaning {
    /// The binder whose `fun` or `rec` is at this place.
    Binder(usize),
    /// The let of this node.
    Let(usize),
    /// The earlier binding of this number.
    Global(usize),
    /// The declaration of this number among those of all imports.
    Declared(usize),
}

/// What each name among the nodes means, from the last node to the first; or the first name without a meaning.
pub fn resolve<'a>(
    nodes: &[Piece<'a>],
    meanings: &mut HashMap<&'a [u8], Meaning>,
) -> Result<Vec<Option<Meaning>>, Fault> {
    enum Task<'a> {
        Read,
        Restore(&'a [u8], Option<Meaning>),
    }
    let mut tasks = vec![Task::Read];
    let mut uses = Vec::with_capacity(nodes.len());
    let mut unknown = None;
    let restore = |meanings: &mut HashMap<&'a [u8], Meaning>, name, old: Option<Meaning>| match old {
        Some(old) => meanings.insert(name, old),
        None => meanings.remove(name),
    };
    for (number, node) in nodes.iter().enumerate().rev() {
        while let Some(Task::Restore(name, old)) = tasks.pop() {
            restore(meanings, name, old);
        }
        let mut found = None;
        match &node.form {
            Form::Var(name) => match meanings.get(name) {
                Some(meaning) => found = Some(*meaning),
                None => unknown = Some(Fault(6, node.at)),
            },
            Form::Fun(name, _) | Form::Rec(name, _) => {
                let old = meanings.insert(name, Meaning::Binder(node.at));
                tasks.push(Task::Restore(name, old));
                tasks.push(Task::Read);
            }
            Form::Let(name, _, _) => {
                let old = meanings.insert(name, Meaning::Let(number));
                tasks.push(Task::Read);
                tasks.push(Task::Restore(name, old));
                tasks.push(Task::Read);
            }
            Form::Apply(..) => tasks.extend([Task::Read, Task::Read]),
            Form::If(..) => tasks.extend([Task::Read, Task::Read, Task::Read]),
            Form::Project(..) => tasks.push(Task::Read),
            Form::Make(parts) => tasks.extend(parts.iter().map(|_| Task::Read)),
            _ => {}
        }
        uses.push(found);
    }
    while let Some(Task::Restore(name, old)) = tasks.pop() {
        restore(meanings, name, old);
    }
    uses.reverse();
    unknown.map_or(Ok(uses), Err)
}
