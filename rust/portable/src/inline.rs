//! Of the reading form: small functions that the sources do not have, such as those of the kit behind `?` and `==`, are written where they are
//! called, and of the sources' own those that `handed` names.
//! - A call is the function's own statements, with locals of its own: its parameters are assigned, and its result is put where the call's was.
//! - A function is small where it has no loop and few statements, and each of its ways ends at its end.
//! - What a pointer to a local, or a copy, stands for is then written in its place (`forward`), so that nothing of the call is left to see.

use crate::blocks::ended;
use crate::forward::forward;
use crate::handed::handed;
use crate::tree::{Arm, Base, Binary, Expr, Function, Place, Program, Statement, Ty, Width};
use crate::types::Types;
use crate::Refused;
use std::collections::{BTreeMap, BTreeSet};

/// The most statements of a function that is written where it is called.
const SMALL: usize = 16;

/// The program without the calls of small functions that are not the sources' own, or are handed what C would lay into memory. `kept` are the
/// locals that have names there.
pub fn inlined(
    program: &Program,
    is_own: &dyn Fn(&str) -> bool,
    kept: &dyn Fn(&Function) -> BTreeSet<usize>,
) -> Result<Program, Refused> {
    let types = Types::of(program);
    let handed = handed(program, &types, kept);
    let mut inliner = Inliner { program, types: &types, is_own, kept, handed, made: BTreeMap::new() };
    for function in &program.functions {
        inliner.function(function)?;
    }
    let made = program.functions.iter().filter_map(|function| inliner.made.remove(function.name.as_str()));
    Ok(Program { functions: made.map(|made| made.function).collect(), types: program.types.clone() })
}

struct Made {
    function: Function,
    /// Its statements without a return, where it may be written in the place of a call.
    small: Option<Vec<Statement>>,
}

struct Inliner<'a> {
    program: &'a Program,
    types: &'a Types<'a>,
    is_own: &'a dyn Fn(&str) -> bool,
    kept: &'a dyn Fn(&Function) -> BTreeSet<usize>,
    /// Functions of the sources that are written out too.
    handed: BTreeSet<&'a str>,
    made: BTreeMap<&'a str, Made>,
}

impl<'a> Inliner<'a> {
    /// A function behind those that it calls: none calls itself.
    fn function(&mut self, function: &'a Function) -> Result<(), Refused> {
        if self.made.contains_key(function.name.as_str()) {
            return Ok(());
        }
        for called in crate::check::calls(&function.body) {
            if let Some(called) = self.program.function(called) {
                self.function(called)?;
            }
        }
        let mut made = function.clone();
        let mut body = std::mem::take(&mut made.body);
        let is_expanded = self.expand(&mut body, &mut made)?;
        made.body = body;
        made.is_expanded = is_expanded;
        let is_own = (self.is_own)(&function.name);
        if !is_own {
            tests(&mut made.body);
        }
        let has_address = made.locals.iter().any(|local| local.in_memory && !matches!(local.ty, Ty::Array(..)));
        if is_expanded || !is_own || has_address {
            forward(&mut made, &(self.kept)(function), self.types)
                .map_err(|refused| refused.of(&function.name))?;
        }
        let is_written_out = !is_own || self.handed.contains(function.name.as_str());
        let small = is_written_out.then(|| ended(made.body.clone(), &Statement::Return(None))).flatten();
        let small = small.filter(|body| size(body).is_some_and(|size| size <= SMALL));
        self.made.insert(&function.name, Made { function: made, small });
        Ok(())
    }

    /// Puts the statements of small functions in the place of calls; whether there was one.
    fn expand(&self, body: &mut Vec<Statement>, function: &mut Function) -> Result<bool, Refused> {
        let mut is_expanded = false;
        let mut at = 0;
        while at < body.len() {
            for inner in body[at].bodies_mut() {
                is_expanded |= self.expand(inner, function)?;
            }
            let instead = match &body[at] {
                Statement::Assign(place, Expr::Call(name, arguments)) => {
                    self.instead(place, name, arguments, function)
                }
                _ => None,
            };
            match instead {
                Some(statements) => {
                    let count = statements.len();
                    body.splice(at..=at, statements);
                    at += count;
                    is_expanded = true;
                }
                None => at += 1,
            }
        }
        Ok(is_expanded)
    }

    /// What a call of a small function does, with locals of the caller's.
    fn instead(
        &self,
        place: &Place,
        name: &str,
        arguments: &[Expr],
        function: &mut Function,
    ) -> Option<Vec<Statement>> {
        let made = self.made.get(name)?;
        let mut body = made.small.clone()?;
        let called = &made.function;
        let first = function.locals.len();
        function.locals.extend(called.locals.iter().cloned());
        body.iter_mut().for_each(|statement| renumbered(statement, first));
        let has_value = |local: usize| !self.types.is_valueless(&called.locals[local].ty);
        let given = arguments.iter().enumerate().filter(|(at, _)| has_value(at + 1));
        let mut statements: Vec<Statement> =
            given.map(|(at, value)| Statement::Assign(Place::local(first + at + 1), value.clone())).collect();
        statements.append(&mut body);
        if has_value(0) {
            statements.push(Statement::Assign(place.clone(), Expr::local(first)));
        }
        Some(statements)
    }
}

/// How many statements there are; none where one is a loop, or a block that is left.
fn size(body: &[Statement]) -> Option<usize> {
    let mut sum = 0;
    for statement in body {
        if matches!(statement, Statement::Loop(_) | Statement::Block(..) | Statement::Leave(_)) {
            return None;
        }
        sum += 1;
        for inner in statement.bodies() {
            sum += size(inner)?;
        }
    }
    Some(sum)
}

/// A switch of two arms, of which the first has one number, is a test of that.
fn tests(body: &mut [Statement]) {
    for statement in body {
        statement.bodies_mut().into_iter().for_each(|inner| tests(inner));
        let Statement::Switch(on, arms) = statement else { continue };
        let [Arm { keys, otherwise: false, .. }, Arm { otherwise: true, .. }] = &arms[..] else { continue };
        let ([key], Expr::Copy(tag)) = (&keys[..], &*on) else { continue };
        if !matches!(tag.steps[..], [.., crate::tree::Step::Variant(_), crate::tree::Step::Field(0)]) {
            continue;
        }
        let test = Expr::Binary(Binary::Eq, Box::new(on.clone()), Box::new(Expr::Int(Width::W8, *key)));
        let no = arms.pop().map(|arm| arm.body).unwrap_or_default();
        let yes = arms.pop().map(|arm| arm.body).unwrap_or_default();
        *statement = Statement::If(test, yes, no);
    }
}

/// With locals that stand behind others.
fn renumbered(statement: &mut Statement, first: usize) {
    match statement {
        Statement::Assign(place, value) => {
            renumbered_place(place, first);
            renumbered_value(value, first);
        }
        Statement::If(value, ..) | Statement::Switch(value, _) => renumbered_value(value, first),
        _ => {}
    }
    statement.bodies_mut().into_iter().flatten().for_each(|inner| renumbered(inner, first));
}

fn renumbered_place(place: &mut Place, first: usize) {
    match &mut place.base {
        Base::Local(number) => *number += first,
        Base::Value(value) => renumbered_value(value, first),
    }
}

fn renumbered_value(value: &mut Expr, first: usize) {
    match value {
        Expr::Copy(place) | Expr::Address(place) => renumbered_place(place, first),
        Expr::Binary(_, left, right) => {
            renumbered_value(left, first);
            renumbered_value(right, first);
        }
        Expr::Unary(_, of) | Expr::Repeat(of, _) => renumbered_value(of, first),
        Expr::Aggregate(_, parts) | Expr::Call(_, parts) => {
            parts.iter_mut().for_each(|part| renumbered_value(part, first));
        }
        Expr::Int(..) | Expr::Bool(_) | Expr::Unit => {}
    }
}
