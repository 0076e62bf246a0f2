//! The reading form: temporaries are folded into the statements that use them, so that it reads like the source. What is moved is
//! moved over nothing that could change it:
//! - only a value local is folded, and only from an assignment to its one use, where no other path needs the value;
//! - it stays where a statement in between writes what it reads, or writes memory or calls where it reads memory;
//! - a call goes into the next statement alone, if that reads no memory and has no other call inside;
//! - what reads memory, or calls, does not go into the place that a call's value is put into: C may find the place before the call or behind it;
//! - nothing goes into a loop, nor into the test of one.

use crate::blocks;
use crate::live::{before_each, inside, Around};
use crate::tree::{
    leaves, part, Base, Binary, Effects, Expr, Function, Local, Place, Statement, Step, Ty, Unary,
};
use crate::types::Types;
use crate::write::{breaks, whole_slice};
use crate::Refused;
use std::collections::BTreeSet;

/// A function's reading form. The locals that are kept have names in the source.
pub fn fold(function: &Function, kept: &BTreeSet<usize>, types: &Types) -> Result<Function, Refused> {
    let mut made = function.clone();
    let folder = Folder { locals: &function.locals, kept, types };
    constant_elements(&mut made.body, &Effects::of_body(&function.body, &function.locals), types);
    if !types.is_valueless(&function.locals[0].ty) {
        return_values(&mut made.body, &function.locals);
        folder.sink_returns(&mut made.body);
    }
    blocks::left(&mut made.body);
    folder.body(&mut made.body, &Around::default())?;
    while made.is_expanded && circuits(&mut made.body, &function.locals) {
        folder.body(&mut made.body, &Around::default())?;
    }
    blocks::conditions(&mut made.body);
    blocks::left(&mut made.body);
    shape(&mut made.body);
    declare_all(&mut made, types);
    Ok(made)
}

struct Folder<'a> {
    locals: &'a [Local],
    kept: &'a BTreeSet<usize>,
    types: &'a Types<'a>,
}

/// An element of an array of constants, at a constant place, is that constant: `a = {..}; p = &a; q = p + n; x = *q`.
fn constant_elements(body: &mut Vec<Statement>, whole: &Effects, types: &Types) {
    let mut at = 0;
    while at < body.len() {
        if let Some(statement) = constant_element(&body[at..], whole, types) {
            body.splice(at..at + 4, [statement]);
        }
        body[at].bodies_mut().into_iter().for_each(|inner| constant_elements(inner, whole, types));
        at += 1;
    }
}

fn constant_element(body: &[Statement], whole: &Effects, types: &Types) -> Option<Statement> {
    let [array, begin, element, target, ..] = body else { return None };
    let (array, Expr::Aggregate(Ty::Array(of, count), parts)) = array.assigned()? else { return None };
    let (begin, Expr::Address(of_array)) = begin.assigned()? else { return None };
    let (element, Expr::Binary(Binary::Offset, base, by)) = element.assigned()? else { return None };
    let (target, Expr::Copy(read)) = target.assigned()? else { return None };
    let (array, begin, element) = (array.whole()?, begin.whole()?, element.whole()?);
    let Expr::Int(_, bytes) = **by else { return None };
    let place = bytes / types.size_of(of).ok()?;
    let is_read = *of_array == Place::local(array)
        && **base == Expr::local(begin)
        && read.base == Base::Local(element)
        && matches!(read.steps[..], [Step::Deref(_)])
        && [array, begin, element].iter().all(|local| whole.count(*local) == 2)
        && parts.iter().all(Expr::is_literal)
        && place < *count;
    let constant = parts.get(usize::try_from(place).ok()?)?;
    is_read.then(|| Statement::Assign(target.clone(), constant.clone()))
}

/// `result = value; return` is `return value`, and so is a return of what was put there before.
fn return_values(body: &mut Vec<Statement>, locals: &[Local]) {
    let last = body.len().saturating_sub(2);
    if let [Statement::Assign(place, value), Statement::Return(None)] = &body[last..] {
        if place.whole() == Some(0) && !is_array_in_memory(&locals[0].ty, value, locals) {
            let value = value.clone();
            body.truncate(last);
            body.push(Statement::Return(Some(value)));
        }
    }
    for statement in body {
        if *statement == Statement::Return(None) {
            *statement = Statement::Return(Some(Expr::local(0)));
        }
        statement.bodies_mut().into_iter().for_each(|inner| return_values(inner, locals));
    }
}

/// An array that memcpy moves, or memset makes: it is no value of C.
fn is_array_in_memory(ty: &Ty, value: &Expr, locals: &[Local]) -> bool {
    let is_read = Effects::of_expr(value, locals).reads_memory;
    matches!(ty, Ty::Array(..))
        && (matches!(value, Expr::Repeat(..)) || matches!(value, Expr::Copy(_)) && is_read)
}

impl Folder<'_> {
    fn is_temporary(&self, local: usize) -> bool {
        !self.kept.contains(&local)
            && !self.locals[local].in_memory
            && !self.types.is_valueless(&self.locals[local].ty)
    }

    /// A temporary that every branch sets last, and that is then returned, is returned in each branch.
    fn sink_returns(&self, body: &mut Vec<Statement>) {
        if let [.., branches, Statement::Return(Some(Expr::Copy(place)))] = &body[..] {
            if let Some(local) = place.whole().filter(|local| self.is_temporary(*local)) {
                let bodies = branches.bodies();
                let sets = |body: &&Vec<Statement>| {
                    leaves(body)
                        || matches!(body.last(), Some(Statement::Assign(place, _)) if place.whole() == Some(local))
                };
                let is_branch = matches!(branches, Statement::If(..) | Statement::Switch(..));
                if is_branch && bodies.iter().all(sets) {
                    body.pop();
                    let bodies = body.last_mut().map(Statement::bodies_mut).unwrap_or_default();
                    for inner in bodies.into_iter().filter(|inner| !leaves(inner)) {
                        inner.push(Statement::Return(Some(Expr::local(local))));
                    }
                }
            }
        }
        for statement in body {
            statement.bodies_mut().into_iter().for_each(|inner| self.sink_returns(inner));
        }
    }

    /// Folds the inner bodies, then this one, from its first statement to its last: what a temporary holds may go on into the next.
    fn body(&self, body: &mut Vec<Statement>, around: &Around) -> Result<(), Refused> {
        let needed = before_each(body, around, self.locals);
        for (at, statement) in body.iter_mut().enumerate() {
            let behind = Around { after: needed[at + 1].clone(), ..around.clone() };
            let within = inside(statement, &behind, self.locals);
            for inner in statement.bodies_mut() {
                self.body(inner, &within)?;
            }
        }
        let mut at = 0;
        while at < body.len() {
            match self.moved(body, at, around)? {
                Some(folded) => *body = folded,
                None => at += 1,
            }
        }
        Ok(())
    }

    /// The body with the assignment at a place moved into the one statement that uses it, where that may be. It may not where the value
    /// would still be needed behind the assignment: by a second use, or where a statement in between leaves the body.
    fn moved(&self, body: &[Statement], at: usize, around: &Around) -> Result<Option<Vec<Statement>>, Refused> {
        let Some((local, value, to)) = self.use_of(body, at) else { return Ok(None) };
        let put = Put { local, value, locals: self.locals, types: self.types };
        let mut folded = body.to_vec();
        put.in_statement(&mut folded[to])?;
        folded.remove(at);
        let is_needed = before_each(&folded, around, self.locals)[at].contains(&local);
        Ok((!is_needed).then_some(folded))
    }

    /// A temporary that is assigned at a place, its value, and the statement into which it could be moved over those in between.
    fn use_of<'b>(&self, body: &'b [Statement], at: usize) -> Option<(usize, &'b Expr, usize)> {
        let (place, value) = body[at].assigned()?;
        let local = place.whole().filter(|local| self.is_temporary(*local))?;
        if is_array_in_memory(&self.locals[local].ty, value, self.locals) {
            return None;
        }
        let mentions = |statement: &Statement| Effects::of(statement, self.locals).count(local) > 0;
        let to = at + 1 + body[at + 1..].iter().position(mentions)?;
        let user = &body[to];
        let own = Effects::of_own(user, self.locals);
        let moved = Effects::of_expr(value, self.locals);
        let stays = |statement: &Statement| crosses(&moved, &Effects::of(statement, self.locals));
        let fits = own.reads.get(&local) == Some(&1)
            && !matches!(user, Statement::Loop(_) | Statement::While(..))
            && !body[at + 1..to].iter().any(stays)
            && self.takes(user, local)
            && !self.is_place_of_call(user, local, &moved)
            && (moved.calls == 0 || to == at + 1 && takes_call(user, &own));
        fits.then_some((local, value, to))
    }

    /// Whether a value that a call may change, or that is a call, would be a part of the place that a call's value is put into.
    fn is_place_of_call(&self, user: &Statement, local: usize, moved: &Effects) -> bool {
        let Some((place, value)) = user.assigned() else { return false };
        let of_place = Effects::of_own(&Statement::Assign(place.clone(), Expr::Unit), self.locals);
        let calls = Effects::of_expr(value, self.locals).calls > 0;
        calls && of_place.reads.contains_key(&local) && (moved.reads_memory || moved.calls > 0)
    }

    /// An array goes whole into a return or another value; and one that is made where it lies, or of equal elements, takes nothing.
    fn takes(&self, user: &Statement, local: usize) -> bool {
        let is_array = matches!(self.locals[local].ty, Ty::Array(..));
        match user {
            Statement::Assign(_, Expr::Repeat(..)) => false,
            Statement::Assign(place, value) => {
                let into_array = matches!(self.types.place(place, self.locals), Ok(Ty::Array(..)));
                let is_value = place.whole().is_some_and(|number| !self.locals[number].in_memory);
                (!into_array || is_value) && (!is_array || is_value && *value == Expr::local(local))
            }
            Statement::Return(value) => !is_array || *value == Some(Expr::local(local)),
            _ => !is_array,
        }
    }
}

/// Whether a value would be another one behind a statement.
fn crosses(moved: &Effects, over: &Effects) -> bool {
    let changed = moved.reads.keys().any(|local| over.writes.contains(local));
    changed || moved.reads_memory && (over.writes_memory || over.calls > 0)
}

/// Whether a call may be made within a statement: it reads nothing that the call may change, asks for each part, and has at most the one call that
/// it is. A switch that a loop is left from is a chain of tests in C, each of which would make the call; a branch without statements is left out by
/// `shape`.
fn takes_call(user: &Statement, own: &Effects) -> bool {
    let is_call =
        matches!(user, Statement::Assign(_, Expr::Call(..)) | Statement::Return(Some(Expr::Call(..))));
    let is_chain = matches!(user, Statement::Switch(_, arms) if arms.iter().any(|arm| breaks(&arm.body)));
    let is_left_out = matches!(user, Statement::If(_, yes, no) if yes.is_empty() && no.is_empty());
    !own.is_circuit && !own.reads_memory && own.calls <= usize::from(is_call) && !is_chain && !is_left_out
}

/// A value that takes the place of a local.
struct Put<'a> {
    local: usize,
    value: &'a Expr,
    locals: &'a [Local],
    types: &'a Types<'a>,
}

impl Put<'_> {
    fn in_statement(&self, statement: &mut Statement) -> Result<(), Refused> {
        match statement {
            Statement::Assign(place, value) => {
                self.in_expr(value)?;
                if place.whole() != Some(self.local) {
                    self.in_place(place)?;
                }
            }
            Statement::If(test, ..) | Statement::Switch(test, _) => self.in_expr(test)?,
            Statement::Return(Some(value)) => self.in_expr(value)?,
            _ => {}
        }
        Ok(())
    }

    fn in_expr(&self, expr: &mut Expr) -> Result<(), Refused> {
        match expr {
            Expr::Copy(place) => {
                self.in_place(place)?;
                if let Some(value) = self.simplified(place)? {
                    *expr = value;
                }
            }
            Expr::Address(place) => self.in_place(place)?,
            Expr::Binary(_, left, right) => {
                self.in_expr(left)?;
                self.in_expr(right)?;
            }
            Expr::Unary(operation, of) => {
                self.in_expr(of)?;
                if *operation == Unary::Not {
                    if let Some(opposite) = opposite(of) {
                        *expr = opposite;
                    }
                }
            }
            Expr::Aggregate(ty, parts) => {
                parts.iter_mut().try_for_each(|part| self.in_expr(part))?;
                if let Some(whole) = whole_slice(parts) {
                    if self.types.place(&whole, self.locals)? == *ty {
                        *expr = Expr::Copy(whole);
                    }
                }
            }
            Expr::Call(_, arguments) => arguments.iter_mut().try_for_each(|argument| self.in_expr(argument))?,
            Expr::Repeat(..) | Expr::Int(..) | Expr::Bool(_) | Expr::Unit => {}
        }
        Ok(())
    }

    /// The value where the local stood; a place of a place is one place.
    fn in_place(&self, place: &mut Place) -> Result<(), Refused> {
        match &mut place.base {
            Base::Local(number) if *number == self.local => {
                let steps = std::mem::take(&mut place.steps);
                *place = match self.value {
                    Expr::Copy(outer) => {
                        Place { base: outer.base.clone(), steps: [&outer.steps[..], &steps[..]].concat() }
                    }
                    Expr::Address(of) if self.is_followed(of, &steps)? => {
                        Place { base: of.base.clone(), steps: [&of.steps[..], &steps[1..]].concat() }
                    }
                    other => Place { base: Base::Value(Box::new(other.clone())), steps },
                };
            }
            Base::Local(_) => {}
            Base::Value(value) => self.in_expr(value)?,
        }
        Ok(())
    }

    /// Whether steps begin with one to what an address is of.
    fn is_followed(&self, of: &Place, steps: &[Step]) -> Result<bool, Refused> {
        match steps.first() {
            Some(Step::Deref(to)) => Ok(self.types.place(of, self.locals)? == *to),
            _ => Ok(false),
        }
    }

    /// A value at no step is itself; a field of a struct or a variant that is made on the spot is what it is made of.
    fn simplified(&self, place: &Place) -> Result<Option<Expr>, Refused> {
        let Base::Value(value) = &place.base else { return Ok(None) };
        let is_call = Effects::of_expr(value, self.locals).calls > 0;
        Ok(match (&**value, &place.steps[..]) {
            (whole, []) => Some(whole.clone()),
            (Expr::Aggregate(Ty::Named(_), parts), steps) if !is_call => match part(parts, steps) {
                Some((part, [])) => Some(part.clone()),
                Some((part, rest)) => {
                    let base = Base::Value(Box::new(part.clone()));
                    Some(Expr::Copy(Place { base, steps: rest.to_vec() }))
                }
                None => None,
            },
            _ => None,
        })
    }
}

/// `if (c) x = e; else x = false;` is `x = c && e`, and so are its three relatives, where `e` is no call.
fn circuits(body: &mut [Statement], locals: &[Local]) -> bool {
    let mut changed = false;
    for statement in body {
        for inner in statement.bodies_mut() {
            changed |= circuits(inner, locals);
        }
        let Statement::If(test, yes, no) = &*statement else { continue };
        let ([Statement::Assign(one, yes)], [Statement::Assign(other, no)]) = (&yes[..], &no[..]) else {
            continue;
        };
        let is_value = one == other && one.whole().is_some_and(|local| locals[local].ty == Ty::Bool);
        let (operation, first, second) = match (yes, no) {
            (second, Expr::Bool(false)) => (Binary::Both, test.clone(), second),
            (Expr::Bool(true), second) => (Binary::Either, test.clone(), second),
            (Expr::Bool(false), second) => (Binary::Both, negated(test), second),
            (second, Expr::Bool(true)) => (Binary::Either, negated(test), second),
            _ => continue,
        };
        if is_value && Effects::of_expr(second, locals).calls == 0 {
            *statement = Statement::Assign(one.clone(), both_or_either(operation, first, second.clone()));
            changed = true;
        }
    }
    changed
}

/// Two tests as one: of the same two numbers, that they differ and are in an order, or are equal or in one, is a comparison.
fn both_or_either(operation: Binary, first: Expr, second: Expr) -> Expr {
    let Expr::Binary(equal, one, other) = &first else {
        return Expr::Binary(operation, Box::new(first), Box::new(second));
    };
    let is_read = |value: &Expr| matches!(value, Expr::Copy(_) | Expr::Int(..));
    let order = match (operation, *equal, &second) {
        (Binary::Both, Binary::Ne, Expr::Binary(order, left, right)) if left == one && right == other => {
            match order {
                Binary::Lt | Binary::Le => Some(Binary::Lt),
                Binary::Gt | Binary::Ge => Some(Binary::Gt),
                _ => None,
            }
        }
        (Binary::Either, Binary::Eq, Expr::Binary(order, left, right)) if left == one && right == other => {
            match order {
                Binary::Lt | Binary::Le => Some(Binary::Le),
                Binary::Gt | Binary::Ge => Some(Binary::Ge),
                _ => None,
            }
        }
        _ => None,
    };
    match order {
        Some(order) if is_read(one) && is_read(other) => Expr::Binary(order, one.clone(), other.clone()),
        _ => Expr::Binary(operation, Box::new(first), Box::new(second)),
    }
}

/// The opposite of a comparison or of a negation.
fn opposite(test: &Expr) -> Option<Expr> {
    match test {
        Expr::Unary(Unary::Not, of) => Some((**of).clone()),
        Expr::Binary(operation, left, right) => {
            let operation = match operation {
                Binary::Eq => Binary::Ne,
                Binary::Ne => Binary::Eq,
                Binary::Lt => Binary::Ge,
                Binary::Le => Binary::Gt,
                Binary::Gt => Binary::Le,
                Binary::Ge => Binary::Lt,
                _ => return None,
            };
            Some(Expr::Binary(operation, left.clone(), right.clone()))
        }
        _ => None,
    }
}

pub fn negated(test: &Expr) -> Expr {
    opposite(test).unwrap_or_else(|| Expr::Unary(Unary::Not, Box::new(test.clone())))
}

/// `while` for a loop that begins with its test, no empty branch, and no `else` behind a branch that leaves.
fn shape(body: &mut Vec<Statement>) {
    let mut at = 0;
    while at < body.len() {
        body[at].bodies_mut().into_iter().for_each(shape);
        match &mut body[at] {
            Statement::Loop(inner) => {
                if let Some((Statement::If(test, yes, no), rest)) = inner.split_first() {
                    if yes[..] == [Statement::Break] && no.is_empty() {
                        body[at] = Statement::While(negated(test), rest.to_vec());
                    }
                }
            }
            Statement::If(_, yes, no) if yes.is_empty() && no.is_empty() => {
                body.remove(at);
                continue;
            }
            Statement::If(test, yes, no) if yes.is_empty() => {
                *test = negated(test);
                std::mem::swap(yes, no);
            }
            Statement::If(_, yes, no) if leaves(yes) && !no.is_empty() => {
                let behind = std::mem::take(no);
                body.splice(at + 1..at + 1, behind);
            }
            _ => {}
        }
        at += 1;
    }
}

/// Puts each local where it comes into being.
fn declare_all(function: &mut Function, types: &Types) {
    let read = Effects::of_body(&function.body, &function.locals).reads;
    for number in 0..function.locals.len() {
        let is_own = number == 0 || number > function.params;
        if !is_own || !read.contains_key(&number) || types.is_valueless(&function.locals[number].ty) {
            continue;
        }
        if function.locals[number].in_memory {
            declare_outside(&mut function.body, number, &function.locals);
        } else {
            declare(&mut function.body, number, &function.locals, false);
        }
    }
}

/// In the function's own body, at the first statement of a local that has an address: what points to it may be followed behind the branch or
/// the loop that has all of its own statements.
fn declare_outside(body: &mut Vec<Statement>, local: usize, locals: &[Local]) {
    let mentions = |statement: &Statement| Effects::of(statement, locals).count(local) > 0;
    if let Some(first) = body.iter().position(mentions) {
        body.insert(first, Statement::Declare(local));
    }
}

/// In the innermost body that has all of a local's statements, at the first of them. Within a loop that one has to set it, so that no
/// turn needs what an earlier one left there; where it does not, the body outside is tried.
fn declare(body: &mut Vec<Statement>, local: usize, locals: &[Local], in_loop: bool) -> bool {
    let mentions = |statement: &Statement| Effects::of(statement, locals).count(local) > 0;
    let places: Vec<usize> = (0..body.len()).filter(|at| mentions(&body[*at])).collect();
    let Some(&first) = places.first() else { return false };
    if places.len() == 1 && Effects::of_own(&body[first], locals).count(local) == 0 {
        let is_loop = matches!(body[first], Statement::Loop(_) | Statement::While(..));
        let mut inner: Vec<_> = body[first].bodies_mut();
        inner.retain(|body| body.iter().any(mentions));
        if let [only] = &mut inner[..] {
            if declare(only, local, locals, in_loop || is_loop) {
                return true;
            }
        }
    }
    let sets = match &body[first] {
        Statement::Assign(place, value) => {
            place.whole() == Some(local) && !Effects::of_expr(value, locals).reads.contains_key(&local)
        }
        _ => false,
    };
    if sets || !in_loop {
        body.insert(first, Statement::Declare(local));
        return true;
    }
    false
}
