//! Of the reading form: what is left of a call that was written out (`inline`). Each rule gives statements that do the same:
//! - a pointer to a local or to a part of one, a copy of a local, a constant, and a part of a struct or a variant that is made of these are written
//!   where they are used, where all uses stand behind the assignment in its own body, and nothing in between changes the local;
//! - a local whose address is no longer taken has none;
//! - where each way of a branch ends with a value of an enum, and the next statement is a branch on its tag, each way goes on with its own part;
//! - what every way of a branch sets, and is then copied, is set in the copy's place;
//! - a branch that tells true from false is its test, and one whose test is told is one of its ways;
//! - what is put into a local that nothing reads behind it, and is no call, is left out.

use crate::live::{before_each, inside, Around};
use crate::tree::{
    leaves, part, Base, Binary, Effects, Expr, Function, Local, Place, Statement, Step, Ty, Width,
};
use crate::types::{fits, Types};
use crate::Refused;
use std::collections::BTreeSet;

/// Applies the rules to a function until none changes it.
pub fn forward(function: &mut Function, kept: &BTreeSet<usize>, types: &Types) -> Result<(), Refused> {
    loop {
        let mut body = std::mem::take(&mut function.body);
        let whole = Effects::of_body(&body, &function.locals);
        let mut changed = false;
        let rules = Rules { locals: &function.locals, params: function.params, kept, types, whole: &whole };
        changed |= rules.body(&mut body)?;
        changed |= rules.without_unread(&mut body, &Around::default());
        function.body = body;
        changed |= without_addresses(function);
        if !changed {
            return Ok(());
        }
    }
}

/// Locals that have an address no statement takes are values.
fn without_addresses(function: &mut Function) -> bool {
    let mut taken = BTreeSet::new();
    addresses(&function.body, &mut taken);
    let mut changed = false;
    for (number, local) in function.locals.iter_mut().enumerate() {
        if local.in_memory && !matches!(local.ty, Ty::Array(..)) && !taken.contains(&number) {
            local.in_memory = false;
            changed = true;
        }
    }
    changed
}

/// The locals whose address is taken, or that of a part.
fn addresses(body: &[Statement], taken: &mut BTreeSet<usize>) {
    for statement in body {
        let (_, value) = statement.own();
        value.into_iter().for_each(|value| addresses_of(value, taken));
        statement.bodies().into_iter().for_each(|inner| addresses(inner, taken));
    }
}

fn addresses_of(value: &Expr, taken: &mut BTreeSet<usize>) {
    match value {
        Expr::Address(Place { base: Base::Local(number), .. }) => _ = taken.insert(*number),
        Expr::Binary(_, left, right) => {
            addresses_of(left, taken);
            addresses_of(right, taken);
        }
        Expr::Unary(_, of) | Expr::Repeat(of, _) => addresses_of(of, taken),
        Expr::Aggregate(_, parts) | Expr::Call(_, parts) => {
            parts.iter().for_each(|part| addresses_of(part, taken));
        }
        _ => {}
    }
}

struct Rules<'a> {
    locals: &'a [Local],
    params: usize,
    kept: &'a BTreeSet<usize>,
    types: &'a Types<'a>,
    /// What the whole function does.
    whole: &'a Effects,
}

impl Rules<'_> {
    /// Applies one rule at one place, if there is one.
    fn body(&self, body: &mut Vec<Statement>) -> Result<bool, Refused> {
        for at in 0..body.len() {
            if self.forwarded(body, at)?
                || self.joined(body, at)
                || told(body, at)
                || chosen(body, at)
                || threaded(body, at)
            {
                return Ok(true);
            }
            for inner in body[at].bodies_mut() {
                if self.body(inner)? {
                    return Ok(true);
                }
            }
        }
        Ok(false)
    }

    fn is_temporary(&self, local: usize) -> bool {
        local > self.params
            && !self.kept.contains(&local)
            && !self.locals[local].in_memory
            && !self.types.is_valueless(&self.locals[local].ty)
    }

    /// Leaves out what is put into a temporary that is not needed behind it.
    fn without_unread(&self, body: &mut Vec<Statement>, around: &Around) -> bool {
        let needed = before_each(body, around, self.locals);
        let mut changed = false;
        for (at, statement) in body.iter_mut().enumerate() {
            let behind = Around { after: needed[at + 1].clone(), ..around.clone() };
            let within = inside(statement, &behind, self.locals);
            for inner in statement.bodies_mut() {
                changed |= self.without_unread(inner, &within);
            }
        }
        let mut behind = needed.iter().skip(1);
        let before = body.len();
        body.retain(|statement| {
            let needed = behind.next();
            let Some((place, value)) = statement.assigned() else { return true };
            let is_unread = place.whole().is_some_and(|local| {
                self.is_temporary(local) && needed.is_some_and(|needed| !needed.contains(&local))
            });
            !is_unread || Effects::of_expr(value, self.locals).calls > 0
        });
        changed || body.len() < before
    }

    /// A pointer, a copy or a constant, written where it is used.
    fn forwarded(&self, body: &mut Vec<Statement>, at: usize) -> Result<bool, Refused> {
        let Some((place, value)) = body[at].assigned() else { return Ok(false) };
        let Some(local) = place.whole().filter(|local| self.is_temporary(*local)) else { return Ok(false) };
        let mut stand_still = Vec::new();
        if !self.may_go(value, &mut stand_still)? {
            return Ok(false);
        }
        let of = |statement: &Statement| Effects::of(statement, self.locals);
        let rest: Vec<Effects> = body[at + 1..].iter().map(of).collect();
        let uses: usize = rest.iter().map(|effects| effects.count(local)).sum();
        let Some(last) = rest.iter().rposition(|effects| effects.count(local) > 0) else { return Ok(false) };
        let writes = |local: usize| rest[..=last].iter().any(|effects| effects.writes.contains(&local));
        if uses + 1 != self.whole.count(local) || writes(local) || stand_still.into_iter().any(writes) {
            return Ok(false);
        }
        let put = Put { local, value: value.clone(), locals: self.locals, types: self.types };
        let mut changed = body[at + 1..=at + 1 + last].to_vec();
        for statement in &mut changed {
            if !put.in_statement(statement)? {
                return Ok(false);
            }
        }
        body.splice(at..=at + 1 + last, changed);
        Ok(true)
    }

    /// `if (test) x = a; else x = b; y = x;` without `x`, which nothing else reads or sets.
    fn joined(&self, body: &mut Vec<Statement>, at: usize) -> bool {
        let Some((to, Expr::Copy(from))) = body.get(at + 1).and_then(Statement::assigned) else { return false };
        let (Some(to), Some(from)) = (to.whole(), from.whole()) else { return false };
        let mut sets = 0;
        let is_it = is_branch(&body[at])
            && self.is_temporary(from)
            && to > self.params
            && !self.locals[to].in_memory
            && self.locals[to].ty == self.locals[from].ty
            && Effects::of(&body[at], self.locals).count(to) == 0
            && sets_last(&body[at], from, &mut sets)
            && self.whole.count(from) == sets + 1;
        if is_it {
            renamed(&mut body[at], from, to);
            body.remove(at + 1);
        }
        is_it
    }

    /// Whether a value may be written where it is used, and the locals on which it depends.
    fn may_go(&self, value: &Expr, depends: &mut Vec<usize>) -> Result<bool, Refused> {
        Ok(match value {
            value if is_constant(value) => true,
            Expr::Copy(Place { base: Base::Local(from), steps }) => {
                depends.push(*from);
                !self.locals[*from].in_memory && steps.is_empty()
            }
            Expr::Address(of) => match self.pointed(of)? {
                Some(base) => {
                    depends.extend(base);
                    true
                }
                None => false,
            },
            Expr::Aggregate(Ty::Named(_), parts) => {
                for part in parts {
                    if !matches!(part, Expr::Unit) && !self.may_go(part, depends)? {
                        return Ok(false);
                    }
                }
                true
            }
            _ => false,
        })
    }

    /// The local on whose value an address depends, of a place that may be followed in its own place: a local or a part of one, or what a reference
    /// points to.
    fn pointed(&self, of: &Place) -> Result<Option<Option<usize>>, Refused> {
        let Base::Local(base) = of.base else { return Ok(None) };
        let derefs = of.steps.iter().filter(|step| matches!(step, Step::Deref(_))).count();
        if matches!(self.types.place(of, self.locals)?, Ty::Array(..)) {
            return Ok(None);
        }
        match (derefs, of.steps.first()) {
            (0, _) => Ok(Some(None)),
            (1, Some(Step::Deref(_))) if !self.locals[base].is_raw => Ok(Some(Some(base))),
            _ => Ok(None),
        }
    }
}

/// A number, or an enum or a struct of nothing but constants.
fn is_constant(value: &Expr) -> bool {
    match value {
        Expr::Int(..) | Expr::Bool(_) => true,
        Expr::Aggregate(Ty::Named(_), parts) => parts.iter().all(is_constant),
        _ => false,
    }
}

/// A value in the place of a local.
struct Put<'a> {
    local: usize,
    value: Expr,
    locals: &'a [Local],
    types: &'a Types<'a>,
}

impl Put<'_> {
    /// Whether the local is nowhere left.
    fn in_statement(&self, statement: &mut Statement) -> Result<bool, Refused> {
        let mut done = true;
        match statement {
            Statement::Assign(place, value) => done = self.in_value(value)? && self.in_place(place)?,
            Statement::If(value, ..) | Statement::Switch(value, _) | Statement::Return(Some(value)) => {
                done = self.in_value(value)?;
            }
            _ => {}
        }
        for inner in statement.bodies_mut().into_iter().flatten() {
            done = done && self.in_statement(inner)?;
        }
        Ok(done)
    }

    fn in_value(&self, value: &mut Expr) -> Result<bool, Refused> {
        match value {
            Expr::Copy(place) if place.whole() == Some(self.local) => {
                // a struct is taken apart, or stays where it is
                let is_whole = !matches!(self.value, Expr::Aggregate(..)) || is_constant(&self.value);
                *value = self.value.clone();
                Ok(is_whole)
            }
            Expr::Copy(Place { base: Base::Local(number), steps }) if *number == self.local => {
                if let Expr::Aggregate(_, parts) = &self.value {
                    return Ok(match part(parts, steps) {
                        Some((part, [])) => {
                            *value = part.clone();
                            true
                        }
                        Some((Expr::Copy(from), rest)) => {
                            let steps = [&from.steps[..], rest].concat();
                            *value = Expr::Copy(Place { base: from.base.clone(), steps });
                            true
                        }
                        _ => false,
                    });
                }
                match value {
                    Expr::Copy(place) => self.in_place(place),
                    _ => Ok(false),
                }
            }
            Expr::Copy(place) | Expr::Address(place) => self.in_place(place),
            Expr::Binary(_, left, right) => Ok(self.in_value(left)? && self.in_value(right)?),
            Expr::Unary(_, of) | Expr::Repeat(of, _) => self.in_value(of),
            Expr::Aggregate(_, parts) | Expr::Call(_, parts) => {
                parts.iter_mut().try_fold(true, |done, part| Ok(done && self.in_value(part)?))
            }
            Expr::Int(..) | Expr::Bool(_) | Expr::Unit => Ok(true),
        }
    }

    fn in_place(&self, place: &mut Place) -> Result<bool, Refused> {
        match &mut place.base {
            Base::Local(number) if *number == self.local => {}
            Base::Local(_) => return Ok(true),
            Base::Value(value) => return self.in_value(value),
        }
        match (&self.value, place.steps.split_first()) {
            (Expr::Copy(from), _) => {
                let fits = fits(&self.types.place(from, self.locals)?, &self.locals[self.local].ty).is_ok();
                place.base = from.base.clone();
                Ok(fits)
            }
            (Expr::Address(of), Some((Step::Deref(to), rest))) if self.types.place(of, self.locals)? == *to => {
                *place = Place { base: of.base.clone(), steps: [&of.steps[..], rest].concat() };
                Ok(true)
            }
            _ => Ok(false),
        }
    }
}

/// `if (test) x = true; else x = false;` is `x = test`.
fn told(body: &mut [Statement], at: usize) -> bool {
    let Statement::If(test, yes, no) = &body[at] else { return false };
    let ([Statement::Assign(one, Expr::Bool(yes))], [Statement::Assign(other, Expr::Bool(no))]) =
        (&yes[..], &no[..])
    else {
        return false;
    };
    if one != other || one.whole().is_none() || yes == no {
        return false;
    }
    let value = if *yes { test.clone() } else { crate::fold::negated(test) };
    body[at] = Statement::Assign(one.clone(), value);
    true
}

/// Whether each way through a branch, those that leave aside, ends by setting a local, and how often it is set.
fn sets_last(branch: &Statement, local: usize, sets: &mut usize) -> bool {
    branch.bodies().into_iter().filter(|body| !leaves(body)).all(|body| match body.last() {
        Some(Statement::Assign(place, _)) if place.whole() == Some(local) => {
            *sets += 1;
            true
        }
        Some(last) if is_branch(last) => sets_last(last, local, sets),
        _ => false,
    })
}

fn renamed(branch: &mut Statement, from: usize, to: usize) {
    for statement in branch.bodies_mut().into_iter().flatten() {
        match statement {
            Statement::Assign(place, _) if place.whole() == Some(from) => *place = Place::local(to),
            other => renamed(other, from, to),
        }
    }
}

/// A branch whose test is told goes one way.
fn chosen(body: &mut Vec<Statement>, at: usize) -> bool {
    let way = match &body[at] {
        Statement::If(Expr::Binary(Binary::Eq, left, right), yes, no) => match (&**left, &**right) {
            (Expr::Int(_, one), Expr::Int(_, other)) => if one == other { yes } else { no }.clone(),
            _ => return false,
        },
        Statement::Switch(Expr::Int(_, number), arms) => {
            let fits = arms.iter().find(|arm| arm.keys.contains(number));
            match fits.or_else(|| arms.iter().find(|arm| arm.otherwise)) {
                Some(arm) => arm.body.clone(),
                None => return false,
            }
        }
        _ => return false,
    };
    body.splice(at..=at, way);
    true
}

/// A branch each of whose ways ends with a value of an enum or leaves, and behind it a branch on that value's tag: each way goes on with its own part
/// of the second one, which no two ways share.
fn threaded(body: &mut Vec<Statement>, at: usize) -> bool {
    let mut ends = Vec::new();
    if !is_branch(&body[at]) || leaves(std::slice::from_ref(&body[at])) || !tags(&body[at], &mut ends) {
        return false;
    }
    let Some((first, _)) = ends.first() else { return false };
    if ends.iter().any(|(local, _)| local != first) {
        return false;
    }
    // what the value is copied to before its tag is asked for
    let mut holds = *first;
    let mut to = at + 1;
    while let Some((place, Expr::Copy(from))) = body.get(to).and_then(Statement::assigned) {
        match (place.whole(), from.whole()) {
            (Some(local), Some(from)) if from == holds => holds = local,
            _ => return false,
        }
        to += 1;
    }
    let Some(second) = body.get(to).filter(|statement| is_branch(statement)) else { return false };
    let Some(parts) = ends.iter().map(|(_, tag)| part_of(second, holds, *tag)).collect::<Option<Vec<_>>>()
    else {
        return false;
    };
    let are_apart = (0..parts.len()).all(|one| !parts[..one].contains(&parts[one]));
    if !are_apart {
        return false;
    }
    let second = body.remove(to);
    let between: Vec<Statement> = body.drain(at + 1..to).collect();
    let mut rest = Rest { between, second, parts, next: 0 };
    rest.put_into(&mut body[at]);
    straightened(body, at);
    true
}

fn is_branch(statement: &Statement) -> bool {
    matches!(statement, Statement::If(..) | Statement::Switch(..))
}

/// The local and the tag with which each way through a branch ends, those that leave aside; whether all end so.
fn tags(branch: &Statement, ends: &mut Vec<(usize, u64)>) -> bool {
    branch.bodies().into_iter().filter(|body| !leaves(body)).all(|body| match body.last() {
        Some(Statement::Assign(place, Expr::Aggregate(Ty::Named(_), parts))) => {
            match (place.whole(), parts.first()) {
                (Some(local), Some(Expr::Int(Width::W8, tag))) => {
                    ends.push((local, *tag));
                    true
                }
                _ => false,
            }
        }
        Some(last) if is_branch(last) => tags(last, ends),
        _ => false,
    })
}

/// Which of its parts a branch on the tag of a local goes on with.
fn part_of(branch: &Statement, local: usize, tag: u64) -> Option<usize> {
    let is_tag = |value: &Expr| match value {
        Expr::Copy(place) => {
            place.base == Base::Local(local) && matches!(place.steps[..], [Step::Variant(_), Step::Field(0)])
        }
        _ => false,
    };
    match branch {
        Statement::If(Expr::Binary(Binary::Eq, left, right), ..) if is_tag(left) => match **right {
            Expr::Int(_, number) => Some(usize::from(number != tag)),
            _ => None,
        },
        Statement::Switch(on, arms) if is_tag(on) => {
            let fits = arms.iter().position(|arm| arm.keys.contains(&tag));
            fits.or_else(|| arms.iter().position(|arm| arm.otherwise))
        }
        _ => None,
    }
}

/// What is put behind each way through a branch.
struct Rest {
    between: Vec<Statement>,
    second: Statement,
    parts: Vec<usize>,
    next: usize,
}

impl Rest {
    /// In the order in which `tags` goes through the ways.
    fn put_into(&mut self, branch: &mut Statement) {
        for body in branch.bodies_mut() {
            if leaves(body) {
                continue;
            }
            match body.last_mut() {
                Some(last) if is_branch(last) => self.put_into(last),
                _ => {
                    let part = self.second.bodies()[self.parts[self.next]].clone();
                    body.extend(self.between.iter().cloned().chain(part));
                    self.next += 1;
                }
            }
        }
    }
}

/// What stands in the one part of a branch that does not leave stands behind it.
fn straightened(body: &mut Vec<Statement>, at: usize) {
    let Statement::If(test, yes, no) = &mut body[at] else { return };
    let (leaving, other) = match (leaves(yes), leaves(no)) {
        (true, false) => (test.clone(), std::mem::take(no)),
        (false, true) => {
            std::mem::swap(yes, no);
            (crate::fold::negated(test), std::mem::take(no))
        }
        _ => return,
    };
    *test = leaving;
    body.splice(at + 1..at + 1, other);
}
