//! The rules that make the file defined C, as far as the proofs do not: each refuses a term that breaks it.

use crate::tree::{
    Base, Binary, Effects, Expr, Function, Local, Place, Program, Shape, Statement, Step, Ty, Width,
};
use crate::types::{element, fits, Types};
use crate::Refused;
use std::collections::BTreeSet;

/// Checks the whole program, and tells its cuts from its other offsets.
pub fn check(program: &mut Program) -> Result<(), Refused> {
    check_all(program)?;
    let mut functions = std::mem::take(&mut program.functions);
    let types = Types::of(program);
    for Function { locals, body, .. } in &mut functions {
        mark_cuts(body, locals, &types)?;
        leave_out_valueless(body, locals, &types)?;
    }
    program.functions = functions;
    Ok(())
}

/// What has no value in C is put nowhere, and a call that gives none is a statement.
fn leave_out_valueless(body: &mut Vec<Statement>, locals: &[Local], types: &Types) -> Result<(), Refused> {
    let mut failed = None;
    body.retain(|statement| match statement {
        Statement::Assign(_, Expr::Call(..)) => true,
        Statement::Assign(place, _) => match types.place(place, locals) {
            Ok(ty) => !types.is_valueless(&ty),
            Err(refused) => {
                failed = Some(refused);
                true
            }
        },
        _ => true,
    });
    if let Some(refused) = failed {
        return Err(refused);
    }
    for statement in body {
        if let Statement::Assign(_, Expr::Aggregate(_, parts) | Expr::Call(_, parts)) = statement {
            for part in parts {
                if types.is_valueless(&types.value(part, locals)?) {
                    *part = Expr::Unit;
                }
            }
        }
        for inner in statement.bodies_mut() {
            leave_out_valueless(inner, locals, types)?;
        }
    }
    Ok(())
}

fn check_all(program: &Program) -> Result<(), Refused> {
    let types = Types::of(program);
    for (name, shape) in &program.types {
        check_shape(shape, &types).map_err(|refused| refused.of(name))?;
    }
    for function in &program.functions {
        check_function(function, &types).map_err(|refused| refused.of(&function.name))?;
    }
    check_calls(program)
}

/// A type of another size on another processor is in no struct. A field whose type has no value is none in C.
fn check_shape(shape: &Shape, types: &Types) -> Result<(), Refused> {
    let mut fields: Box<dyn Iterator<Item = &Ty>> = match shape {
        Shape::Fields(fields) => Box::new(fields.iter()),
        Shape::Variants(variants) if variants.len() <= 256 => Box::new(variants.iter().flatten()),
        Shape::Variants(_) => return Err(Refused::new("more than 256 variants")),
    };
    fields.try_for_each(|field| check_type(field, types))
}

fn check_type(ty: &Ty, types: &Types) -> Result<(), Refused> {
    match ty {
        Ty::Unit | Ty::Int(_) | Ty::Bool | Ty::Named(_) => Ok(()),
        // to follow it would prove nothing of where it points
        Ty::Ref { to, .. } if matches!(**to, Ty::Array(_, 0)) => Err(Refused::new("an array without elements")),
        Ty::Ref { to, .. } => check_pointed(element(to), types),
        Ty::Slice { of, .. } => types.size_of(of).map(|_| ()),
        Ty::Array(of, count) if *count > 0 => types.size_of(of).map(|_| ()),
        Ty::Array(..) => Err(Refused::new("an array without elements")),
        Ty::Ptr => Err(Refused::new("a raw pointer where its elements are not told")),
    }
}

/// What is pointed to has a value in C, and is no pointer.
fn check_pointed(to: &Ty, types: &Types) -> Result<(), Refused> {
    match (to, types.is_valueless(to)) {
        (Ty::Int(_) | Ty::Bool | Ty::Named(_) | Ty::Slice { .. }, false) => Ok(()),
        _ => Err(Refused::new(format!("a pointer to {to:?}"))),
    }
}

fn check_function(function: &Function, types: &Types) -> Result<(), Refused> {
    for (number, local) in function.locals.iter().enumerate() {
        check_type(&local.ty, types)?;
        if local.in_memory && (number <= function.params || types.is_valueless(&local.ty)) {
            return Err(Refused::new(format!("local {number} has an address and is no value of its own")));
        }
    }
    check_body(&function.body, function, types)?;
    check_offsets(&function.body, function, types)
}

fn check_body(body: &[Statement], function: &Function, types: &Types) -> Result<(), Refused> {
    let locals = &function.locals;
    for statement in body {
        match statement {
            Statement::Assign(place, value) => {
                check_target(place, function, types)?;
                let wanted = types.place(place, locals)?;
                fits(&types.value(value, locals)?, &wanted)?;
                check_step(value, function, types)?;
                check_parts(value, function, types)?;
                if matches!(wanted, Ty::Array(..)) {
                    check_array(place, value, function)?;
                }
            }
            Statement::If(test, ..) => fits(&types.value(test, locals)?, &Ty::Bool)?,
            Statement::Switch(on, arms) => {
                let Ty::Int(width) = types.value(on, locals)? else {
                    return Err(Refused::new("a switch on what is no number"));
                };
                if arms.iter().flat_map(|arm| &arm.keys).any(|key| !width.holds(*key)) {
                    return Err(Refused::new("a key that the number of a switch cannot be"));
                }
            }
            _ => {}
        }
        for inner in statement.bodies() {
            check_body(inner, function, types)?;
        }
    }
    Ok(())
}

/// What is lent for reading is not written to. The compiler sees the same; here it has the function's name. Of a struct, a part may be written.
fn check_target(place: &Place, function: &Function, types: &Types) -> Result<(), Refused> {
    let Some(at) = place.steps.iter().position(|step| matches!(step, Step::Deref(_))) else { return Ok(()) };
    let pointer = Place { base: place.base.clone(), steps: place.steps[..at].to_vec() };
    match types.place(&pointer, &function.locals)? {
        Ty::Ref { mutable: true, to } if at + 1 == place.steps.len() || matches!(*to, Ty::Named(_)) => Ok(()),
        Ty::Ref { mutable: true, .. } => Err(Refused::new("a write of a part of what is pointed to")),
        _ => Err(Refused::new("a write through a pointer that is for reading")),
    }
}

/// A constant number of bytes is one of whole elements.
fn check_step(value: &Expr, function: &Function, types: &Types) -> Result<(), Refused> {
    let Expr::Binary(Binary::Offset, pointer, by) = value else { return Ok(()) };
    let Ty::Ref { to, .. } = types.value(pointer, &function.locals)? else { return Ok(()) };
    let size = types.size_of(element(&to))?;
    match **by {
        Expr::Int(_, bytes) if bytes % size != 0 => {
            Err(Refused::new(format!("a step of {bytes} bytes over elements of {size}")))
        }
        _ => Ok(()),
    }
}

/// An array that lies in memory is no value of C, and so no part of one, and no argument: C would take its first element, or its address.
fn check_parts(value: &Expr, function: &Function, types: &Types) -> Result<(), Refused> {
    let (Expr::Aggregate(_, parts) | Expr::Call(_, parts)) = value else { return Ok(()) };
    for part in parts {
        let is_array = matches!(types.value(part, &function.locals)?, Ty::Array(..));
        if is_array && Effects::of_expr(part, &function.locals).reads_memory {
            return Err(Refused::new("an array in memory as a part of a value"));
        }
    }
    Ok(())
}

/// What C does with an array that is put into a place: memset, memcpy, one element after another, or an assignment of a struct around it.
/// The last two see to it that nothing is read that was written already.
fn check_array(place: &Place, value: &Expr, function: &Function) -> Result<(), Refused> {
    let in_memory = |place: &Place| {
        place.is_behind_pointer() || place.whole().is_some_and(|number| function.locals[number].in_memory)
    };
    match value {
        Expr::Repeat(of, _) => match **of {
            // the size of a bool is the compiler's: only false is the same byte everywhere
            Expr::Bool(false) | Expr::Int(Width::W8, _) | Expr::Int(_, 0) => Ok(()),
            // one after another
            Expr::Copy(ref element) if !element.is_behind_pointer() => Ok(()),
            _ => Err(Refused::new("an array of equal elements that memset does not make")),
        },
        Expr::Aggregate(_, parts) if in_memory(place) => {
            let reads = |part: &Expr| Effects::of_expr(part, &function.locals).reads_memory;
            match parts.iter().any(reads) {
                true => Err(Refused::new("an array in memory made of what is in memory")),
                false => Ok(()),
            }
        }
        Expr::Copy(from) if in_memory(place) && in_memory(from) => {
            Err(Refused::new("an array moved from memory to memory"))
        }
        Expr::Call(..) if in_memory(place) => Err(Refused::new("an array in memory from a call")),
        _ => Ok(()),
    }
}

/// MIR may compute a pointer that is out of bounds, C may not. So a pointer that is stepped is followed in the next statement, or behind other
/// steps and reads, which proves it within its array; or it becomes a reference to an element, whose index the proofs hold below the length; or it
/// begins a slice that is cut from it, whose start they hold within the length. They speak of the whole that a pointer is in, so what is stepped is a
/// slice or an array, and no part of a struct.
fn check_offsets(body: &[Statement], function: &Function, types: &Types) -> Result<(), Refused> {
    for (at, statement) in body.iter().enumerate() {
        if let Statement::Assign(place, Expr::Binary(Binary::Offset, base, by)) = statement {
            check_offset(place, base, by, (&body[..at], &body[at + 1..]), function, types)?;
            let mut asked = Vec::new();
            if !matches!(&**base, Expr::Copy(pointer) if is_of_array(pointer, function, types, &mut asked)?) {
                return Err(Refused::new("a step from what is no slice and no array"));
            }
        }
        for inner in statement.bodies() {
            check_offsets(inner, function, types)?;
        }
    }
    Ok(())
}

fn check_offset(
    place: &Place,
    base: &Expr,
    by: &Expr,
    (before, rest): (&[Statement], &[Statement]),
    function: &Function,
    types: &Types,
) -> Result<(), Refused> {
    let Some(pointer) = place.whole() else {
        return Err(Refused::new("a stepped pointer that is kept in a struct"));
    };
    if !matches!(base, Expr::Copy(_)) || !matches!(by, Expr::Copy(_) | Expr::Int(..)) {
        return Err(Refused::new("an offset of what is no pointer"));
    }
    let Ty::Ref { to, .. } = types.value(base, &function.locals)? else {
        return Err(Refused::new("an offset of what is no pointer"));
    };
    let from = counted(by, before, types.size_of(element(&to))?);
    if is_followed(pointer, rest) || is_element(pointer, function, rest) || is_cut(pointer, &from, rest) {
        return Ok(());
    }
    Err(Refused::new(format!(
        "local {pointer} is a stepped pointer that is neither followed at once nor begins a slice"
    )))
}

/// Whether a pointer is followed at once, or behind other steps and reads.
fn is_followed(pointer: usize, rest: &[Statement]) -> bool {
    for statement in rest {
        if follows(statement, pointer) {
            return true;
        }
        let Some((place, value)) = statement.assigned() else { return false };
        let is_between = match value {
            Expr::Binary(Binary::Mul | Binary::Offset, ..) => true,
            Expr::Copy(of) => of.is_behind_pointer(),
            _ => false,
        };
        if !is_between || place.is_behind_pointer() || place.base == Base::Local(pointer) {
            return false;
        }
    }
    false
}

/// How many elements a number of bytes is, where that is told: of bytes themselves, or of a product that was just made of it and their size.
fn counted(by: &Expr, before: &[Statement], size: u64) -> Expr {
    match (by, before.last().and_then(Statement::assigned)) {
        (Expr::Copy(bytes), Some((product, Expr::Binary(Binary::Mul, count, of))))
            if product == bytes && **of == Expr::Int(Width::W64, size) =>
        {
            (**count).clone()
        }
        _ => by.clone(),
    }
}

/// A reference to an element, in its two statements: `p = offset(a, i); r = &*p`. That the index is below the length is the proofs': the language has
/// no other way to refer to an element.
fn is_element(pointer: usize, function: &Function, rest: &[Statement]) -> bool {
    let Some((place, Expr::Address(of))) = rest.first().and_then(Statement::assigned) else { return false };
    let is_reference = place.whole().is_some_and(|local| !function.locals[local].is_raw);
    is_reference && of.base == Base::Local(pointer) && matches!(of.steps[..], [Step::Deref(_)])
}

/// Whether a pointer is a slice's, or one to an array, or a local that holds nothing else. Of those that were asked for already it is not known.
fn is_of_array(
    pointer: &Place,
    function: &Function,
    types: &Types,
    asked: &mut Vec<usize>,
) -> Result<bool, Refused> {
    if let Some((Step::Field(0), before)) = pointer.steps.split_last() {
        let whole = Place { base: pointer.base.clone(), steps: before.to_vec() };
        if matches!(types.place(&whole, &function.locals)?, Ty::Slice { .. }) {
            return Ok(true);
        }
    }
    if matches!(types.place(pointer, &function.locals)?, Ty::Ref { to, .. } if matches!(*to, Ty::Array(..))) {
        return Ok(true);
    }
    match pointer.whole() {
        Some(local) if local > function.params && !asked.contains(&local) => {
            asked.push(local);
            holds_of_array(&function.body, local, function, types, asked)
        }
        _ => Ok(false),
    }
}

/// Whether all that is put into a local is the address of an array, or of what a slice's pointer points to.
fn holds_of_array(
    body: &[Statement],
    local: usize,
    function: &Function,
    types: &Types,
    asked: &mut Vec<usize>,
) -> Result<bool, Refused> {
    for statement in body {
        let holds = match statement {
            Statement::Assign(place, value) if place.whole() == Some(local) => match value {
                Expr::Address(of) => match of.steps.split_last() {
                    Some((Step::Deref(_), before)) => {
                        let pointer = Place { base: of.base.clone(), steps: before.to_vec() };
                        is_of_array(&pointer, function, types, asked)?
                    }
                    _ => matches!(types.place(of, &function.locals)?, Ty::Array(..)),
                },
                _ => false,
            },
            _ => true,
        };
        if !holds {
            return Ok(false);
        }
        for inner in statement.bodies() {
            if !holds_of_array(inner, local, function, types, asked)? {
                return Ok(false);
            }
        }
    }
    Ok(true)
}

/// Whether an assignment reads or writes what a pointer points to.
fn follows(statement: &Statement, pointer: usize) -> bool {
    let is_it = |place: &Place| {
        place.base == Base::Local(pointer) && matches!(place.steps.first(), Some(Step::Deref(_)))
    };
    let Statement::Assign(target, value) = statement else { return false };
    let reads = |operand: &Expr| matches!(operand, Expr::Copy(place) if is_it(place));
    is_it(target)
        || match value {
            Expr::Binary(_, left, right) => reads(left) || reads(right),
            Expr::Unary(_, of) | Expr::Repeat(of, _) => reads(of),
            Expr::Aggregate(_, parts) | Expr::Call(_, parts) => parts.iter().any(reads),
            other => reads(other),
        }
}

/// A cut, in its four statements: `p = offset(a, from); n = end - from; q = &*p; s = {q, n}`. Given what follows the first. That `end` is within
/// the slice that is cut, and `from` not behind it, is the proofs': the language has no other way to make a slice of a slice.
fn is_cut(pointer: usize, from: &Expr, rest: &[Statement]) -> bool {
    let [length, begin, slice, ..] = rest else { return false };
    let Some((length, Expr::Binary(Binary::Sub, _, less))) = length.assigned() else { return false };
    let Some((begin, Expr::Address(at))) = begin.assigned() else { return false };
    let Some((_, Expr::Aggregate(Ty::Slice { .. }, parts))) = slice.assigned() else { return false };
    let (Some(length), Some(begin)) = (length.whole(), begin.whole()) else { return false };
    **less == *from
        && at.base == Base::Local(pointer)
        && matches!(at.steps[..], [Step::Deref(_)])
        && parts[..] == [Expr::local(begin), Expr::local(length)]
}

fn mark_cuts(body: &mut [Statement], locals: &[Local], types: &Types) -> Result<(), Refused> {
    for at in 0..body.len() {
        let (before, rest) = body.split_at_mut(at + 1);
        let Some((this, before)) = before.split_last_mut() else { continue };
        if let Statement::Assign(place, Expr::Binary(operation @ Binary::Offset, base, by)) = this {
            if let Ty::Ref { to, .. } = types.value(base, locals)? {
                let from = counted(by, before, types.size_of(element(&to))?);
                if place.whole().is_some_and(|pointer| is_cut(pointer, &from, rest)) {
                    *operation = Binary::Cut;
                }
            }
        }
        for inner in body[at].bodies_mut() {
            mark_cuts(inner, locals, types)?;
        }
    }
    Ok(())
}

/// No function calls itself, in however many steps: the stack that the header states has an end.
fn check_calls(program: &Program) -> Result<(), Refused> {
    let mut done = BTreeSet::new();
    for function in &program.functions {
        visit(function, program, &mut Vec::new(), &mut done)?;
    }
    Ok(())
}

fn visit<'a>(
    function: &'a Function,
    program: &'a Program,
    above: &mut Vec<&'a str>,
    done: &mut BTreeSet<&'a str>,
) -> Result<(), Refused> {
    if above.contains(&function.name.as_str()) {
        return Err(Refused::new("a function that calls itself").of(&function.name));
    }
    if done.contains(function.name.as_str()) {
        return Ok(());
    }
    above.push(&function.name);
    for called in calls(&function.body) {
        let missing = || Refused::new(format!("no function {called}")).of(&function.name);
        visit(program.function(called).ok_or_else(missing)?, program, above, done)?;
    }
    above.pop();
    done.insert(&function.name);
    Ok(())
}

/// The functions that a body of the term calls, in order.
pub fn calls(body: &[Statement]) -> Vec<&str> {
    let mut called = Vec::new();
    for statement in body {
        if let Statement::Assign(_, Expr::Call(name, _)) = statement {
            called.push(name.as_str());
        }
        called.extend(statement.bodies().into_iter().flat_map(|inner| calls(inner)));
    }
    called
}
