//! Of the reading form: the functions of the sources that are written where they are called, if they are small. They are handed a struct, or an enum
//! with values, which C lays into memory for the call:
//! - those to which every call hands the answer of another call, an enum that has no name of its own, at once;
//! - those that make of a struct another one of its type, and call nothing.

use crate::check::calls;
use crate::tree::{Expr, Function, Program, Shape, Statement, Ty};
use crate::types::Types;
use std::collections::BTreeSet;

/// Their names. `kept` are the locals that have names in the sources.
pub fn handed<'a>(
    program: &'a Program,
    types: &Types,
    kept: &dyn Fn(&Function) -> BTreeSet<usize>,
) -> BTreeSet<&'a str> {
    let mut found = Calls { types, of_answers: BTreeSet::new(), others: BTreeSet::new() };
    for function in &program.functions {
        found.add(&function.body, function, &kept(function));
    }
    let of_answers = found.of_answers.difference(&found.others).copied();
    let changes = program.functions.iter().filter(|function| changes_a_struct(function, types));
    of_answers.chain(changes.map(|function| function.name.as_str())).collect()
}

/// The functions of calls that hand on an answer, and those of other calls.
struct Calls<'a, 'b> {
    types: &'b Types<'b>,
    of_answers: BTreeSet<&'a str>,
    others: BTreeSet<&'a str>,
}

impl<'a> Calls<'a, '_> {
    fn add(&mut self, body: &'a [Statement], function: &Function, kept: &BTreeSet<usize>) {
        for (at, statement) in body.iter().enumerate() {
            if let Some((_, Expr::Call(name, arguments))) = statement.assigned() {
                let is_handed_on = |argument: &Expr| match argument {
                    Expr::Copy(place) => place.whole().is_some_and(|local| {
                        !kept.contains(&local)
                            && self.types.is_enum_of_values(&function.locals[local].ty)
                            && is_answer(&body[..at], local)
                    }),
                    _ => false,
                };
                let hands_on = arguments.iter().any(is_handed_on);
                if hands_on { &mut self.of_answers } else { &mut self.others }.insert(name);
            }
            statement.bodies().into_iter().for_each(|inner| self.add(inner, function, kept));
        }
    }
}

/// Whether a local was set by a call, with nothing but assignments behind it.
fn is_answer(before: &[Statement], local: usize) -> bool {
    let mut sets = before.iter().rev().map_while(Statement::assigned);
    let last = sets.find(|(place, _)| place.whole() == Some(local));
    matches!(last, Some((_, Expr::Call(..))))
}

fn changes_a_struct(function: &Function, types: &Types) -> bool {
    let [result, rest @ ..] = &function.locals[..] else { return false };
    let is_struct = match &result.ty {
        Ty::Named(name) => matches!(types.shape(name), Ok(Shape::Fields(_))),
        _ => false,
    };
    is_struct
        && rest[..function.params].iter().any(|param| param.ty == result.ty)
        && calls(&function.body).is_empty()
}
