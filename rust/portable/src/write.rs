//! The C text. A statement of the tree is a statement here; an expression has the parentheses, casts and suffixes that give it the term's
//! meaning, whether the processor's int has 16 or 32 bits.

use crate::check::calls;
use crate::declare::{c_type, declared, definitions, pointer};
use crate::fold::fold;
use crate::helpers::Helper;
use crate::inline::inlined;
use crate::layout::Lines;
use crate::names::Names;
use crate::sources::{Sources, TypeNames};
use crate::text::{narrowed, number_text, operator, within, Literal, Rank, Text};
use crate::tree::{
    leaves, Arm, Base, Binary, Effects, Expr, Function, Local, Place, Program, Shape, Statement, Step, Ty,
    Unary, Width,
};
use crate::types::{element, Types};
use crate::{Form, Refused};
use std::collections::BTreeSet;

/// The counter of an array's elements, which no local is called.
const EACH: &str = "at_each";

pub fn file(program: &Program, sources: &Sources, form: Form) -> Result<String, Refused> {
    let names = Names::new(program, sources)?;
    let inlined = match form {
        Form::Plain => None,
        Form::Reading => {
            let kept = |function: &Function| names.kept(function);
            Some(inlined(program, &|name| !names.is_made(name), &kept)?)
        }
    };
    let program = inlined.as_ref().unwrap_or(program);
    let types = Types::of(program);
    let reached = reached(program, &names)?;
    let mut lines = Lines::default();
    lines.comment(&[opening(form)]);
    lines.add("#include \"ttpa.h\"");
    lines.blank();
    lines.add("#include <string.h>");
    lines.blank();
    let made = formed(&reached, form, &names, &types)?;
    definitions(&made, &types, &names, &mut lines)?;
    let mut bodies = Lines::default();
    let mut helpers = BTreeSet::new();
    for made in &made {
        let mut writer = Writer {
            called: names.locals(made, form),
            read: Effects::of_body(&made.body, &made.locals).reads.into_keys().collect(),
            form,
            locals: &made.locals,
            types: &types,
            names: &names,
            lines: &mut bodies,
            helpers: &mut helpers,
        };
        writer.function(made).map_err(|refused| refused.of(&made.name))?;
    }
    helpers.iter().for_each(|helper: &Helper| helper.write(&mut lines));
    Ok(lines.finish() + &bodies.finish())
}

/// The functions in one of the forms.
fn formed(reached: &[&Function], form: Form, names: &Names, types: &Types) -> Result<Vec<Function>, Refused> {
    let formed = |function: &&Function| match form {
        Form::Plain => Ok(declared_first(function, types)),
        Form::Reading => {
            fold(function, &names.kept(function), types).map_err(|refused| refused.of(&function.name))
        }
    };
    reached.iter().map(formed).collect()
}

fn opening(form: Form) -> String {
    let form = match form {
        Form::Plain => "This is the plain form: a statement for each statement of the program, whose locals have their numbers.",
        Form::Reading => "This is the reading form: the program's temporaries are folded into the statements that use them.",
    };
    format!(
        "The TTP/A cluster engine as portable C99, made from the proved program by rust/portable; not written by hand. {form} \
         Compile it with ttpa.h beside it, and link nothing else: it needs memcpy, memset and the compiler's 64-bit arithmetic. \
         Above each function stands its name in the sources and what is said of it there."
    )
}

/// The functions that the calls for C reach, each behind those that it calls.
fn reached<'a>(program: &'a Program, names: &Names) -> Result<Vec<&'a Function>, Refused> {
    fn visit<'a>(function: &'a Function, program: &'a Program, order: &mut Vec<&'a Function>) {
        if order.iter().any(|known| known.name == function.name) {
            return;
        }
        let called = calls(&function.body);
        called.iter().filter_map(|name| program.function(name)).for_each(|inner| visit(inner, program, order));
        order.push(function);
    }
    let mut order = Vec::new();
    for function in program.functions.iter().filter(|function| names.is_exported(&function.name)) {
        visit(function, program, &mut order);
    }
    let called: BTreeSet<&str> = order.iter().flat_map(|function| calls(&function.body)).collect();
    match called.iter().find(|name| names.is_exported(name)) {
        Some(name) => Err(Refused::new("a call for C that is called inside").of(name)),
        None => Ok(order),
    }
}

/// The plain form's body: all locals, and then the statements as they are.
fn declared_first(function: &Function, types: &Types) -> Function {
    let used = Effects::of_body(&function.body, &function.locals);
    let numbers = (0..function.locals.len()).filter(|number| {
        (*number == 0 || *number > function.params)
            && used.reads.contains_key(number)
            && !types.is_valueless(&function.locals[*number].ty)
    });
    let mut body: Vec<Statement> = numbers.map(Statement::Declare).collect();
    body.extend(function.body.iter().cloned());
    Function { body, ..function.clone() }
}

struct Writer<'a> {
    called: Vec<String>,
    /// The locals that are read anywhere; what is put into another one is dropped.
    read: BTreeSet<usize>,
    form: Form,
    locals: &'a [Local],
    types: &'a Types<'a>,
    names: &'a Names<'a>,
    lines: &'a mut Lines,
    helpers: &'a mut BTreeSet<Helper>,
}

impl Writer<'_> {
    fn function(&mut self, function: &Function) -> Result<(), Refused> {
        let exported = self.names.is_exported(&function.name);
        let comment = self.names.comment(&function.name);
        self.lines.comment(&[&[format!("{}.", function.name)], comment].concat());
        let valued: Vec<usize> = (1..=function.params).filter(|number| self.is_valued(*number)).collect();
        let params: Vec<String> = valued.iter().map(|number| self.param(*number, exported)).collect();
        let params = if params.is_empty() { "void".to_string() } else { params.join(", ") };
        let of = format!("{}({params})", self.names.function(&function.name));
        let heading = declared(if self.is_valued(0) { &function.locals[0].ty } else { &Ty::Unit }, &of);
        self.lines.add(&if exported { heading } else { format!("static inline {heading}") });
        self.lines.add("{");
        for number in valued {
            self.entered(number, exported, self.read.contains(&number));
        }
        let (last, body) = match function.body.split_last() {
            Some((Statement::Return(None), body)) if !self.is_valued(0) => (None, body),
            Some((last, body)) => (Some(last), body),
            None => (None, &function.body[..]),
        };
        self.body(body)?;
        if let Some(last) = last {
            self.body(std::slice::from_ref(last))?;
        }
        self.lines.add("}");
        self.lines.blank();
        Ok(())
    }

    fn is_valued(&self, number: usize) -> bool {
        !self.types.is_valueless(&self.locals[number].ty)
    }

    /// A parameter as it is declared. C's callers lend a slice as a pointer and a length, and an array with its size.
    fn param(&self, number: usize, exported: bool) -> String {
        let name = &self.called[number];
        match &self.locals[number].ty {
            Ty::Slice { mutable, of } if exported => {
                format!("{}{name}_at, size_t {name}_len", pointer(*mutable, of))
            }
            Ty::Ref { mutable, to } if exported => match &**to {
                Ty::Array(of, count) => {
                    let constant = if *mutable { "" } else { "const " };
                    format!("{constant}{} {name}[{count}]", c_type(of))
                }
                _ => declared(&self.locals[number].ty, name),
            },
            ty => declared(ty, name),
        }
    }

    /// What is done with a parameter before the body.
    fn entered(&mut self, number: usize, exported: bool, used: bool) {
        let name = &self.called[number];
        match (&self.locals[number].ty, used) {
            (ty @ Ty::Slice { .. }, true) if exported => {
                let line = format!("{} {name} = {{{name}_at, {name}_len}};", c_type(ty));
                self.lines.add(&line);
            }
            (Ty::Slice { .. }, false) if exported => {
                let line = format!("(void){name}_at, (void){name}_len;");
                self.lines.add(&line);
            }
            (_, false) => {
                let line = format!("(void){name};");
                self.lines.add(&line);
            }
            _ => {}
        }
    }

    fn body(&mut self, body: &[Statement]) -> Result<(), Refused> {
        let mut at = 0;
        while at < body.len() {
            match (&body[at], body.get(at + 1)) {
                (Statement::Declare(number), Some(Statement::Assign(place, value)))
                    if self.form == Form::Reading
                        && place.whole() == Some(*number)
                        && self.is_initial(*number, place, value) =>
                {
                    self.assign(place, value, true)?;
                    at += 1;
                }
                (statement, _) => self.statement(statement)?,
            }
            at += 1;
        }
        Ok(())
    }

    /// Whether a declaration may have the value; an array that is made where it lies is declared before.
    fn is_initial(&self, number: usize, place: &Place, value: &Expr) -> bool {
        !matches!(self.locals[number].ty, Ty::Array(..)) || self.is_array_value(place, value)
    }

    fn statement(&mut self, statement: &Statement) -> Result<(), Refused> {
        match statement {
            Statement::Assign(place, value) => self.assign(place, value, false)?,
            Statement::If(test, yes, no) => self.condition(test, yes, no)?,
            Statement::Loop(body) => self.braced("for (;;) {", body)?,
            Statement::While(test, body) => {
                let test = self.value(test, Literal::Bare)?.text;
                self.braced(&format!("while ({test}) {{"), body)?;
            }
            Statement::Switch(on, arms) if arms.iter().any(|arm| breaks(&arm.body)) => self.chain(on, arms)?,
            Statement::Switch(on, arms) => self.switch(on, arms)?,
            Statement::Block(number, body) => {
                self.braced("{", body)?;
                self.lines.add(&format!("next_{number}:;"));
            }
            Statement::Leave(number) => self.lines.add(&format!("goto next_{number};")),
            Statement::Declare(number) => self.declare(*number),
            Statement::Continue => self.lines.add("continue;"),
            Statement::Break => self.lines.add("break;"),
            Statement::Return(value) => self.returned(value.as_ref())?,
            Statement::Unreached => return Err(Refused::new("a branch that no run comes to")),
        }
        Ok(())
    }

    fn declare(&mut self, number: usize) {
        let name = &self.called[number];
        let line = match &self.locals[number] {
            Local { ty: Ty::Array(of, count), in_memory: true, .. } => {
                format!("{} {name}[{count}];", c_type(of))
            }
            local => format!("{};", declared(&local.ty, name)),
        };
        self.lines.add(&line);
    }

    fn returned(&mut self, value: Option<&Expr>) -> Result<(), Refused> {
        let line = match value {
            Some(value) => format!("return {};", self.value(value, Literal::Bare)?.text),
            None if !self.is_valued(0) => "return;".to_string(),
            None => format!("return {};", self.called[0]),
        };
        self.lines.add(&line);
        Ok(())
    }

    fn braced(&mut self, opening: &str, body: &[Statement]) -> Result<(), Refused> {
        self.lines.add(opening);
        self.body(body)?;
        self.lines.add("}");
        Ok(())
    }

    fn condition(&mut self, test: &Expr, yes: &[Statement], no: &[Statement]) -> Result<(), Refused> {
        let test = self.value(test, Literal::Bare)?.text;
        self.lines.add(&format!("if ({test}) {{"));
        self.body(yes)?;
        let mut rest = no;
        while let [Statement::If(test, yes, no)] = rest {
            let test = self.value(test, Literal::Bare)?.text;
            self.lines.add(&format!("}} else if ({test}) {{"));
            self.body(yes)?;
            rest = no;
        }
        if !rest.is_empty() {
            self.lines.add("} else {");
            self.body(rest)?;
        }
        self.lines.add("}");
        Ok(())
    }

    fn switch(&mut self, on: &Expr, arms: &[Arm]) -> Result<(), Refused> {
        let on = self.value(on, Literal::Bare)?.text;
        self.lines.add(&format!("switch ({on}) {{"));
        for arm in arms {
            let mut labels: Vec<String> = arm.keys.iter().map(|key| format!("case {key}:")).collect();
            if arm.otherwise {
                labels.push("default:".to_string());
            }
            let declares = arm.body.iter().any(|statement| matches!(statement, Statement::Declare(_)));
            if declares {
                labels.last_mut().into_iter().for_each(|label| label.push_str(" {"));
            }
            labels.iter().for_each(|label| self.lines.label(label));
            self.body(&arm.body)?;
            if !leaves(&arm.body) {
                self.lines.add("break;");
            }
            if declares {
                self.lines.label_end();
            }
        }
        self.lines.add("}");
        Ok(())
    }

    /// A switch from which a loop is left: C's break would leave the switch.
    fn chain(&mut self, on: &Expr, arms: &[Arm]) -> Result<(), Refused> {
        let on = self.value(on, Literal::Bare)?.up_to(Rank::Sum);
        let mut opening = String::new();
        for arm in arms {
            let tests: Vec<String> = arm.keys.iter().map(|key| format!("{on} == {key}")).collect();
            let is_last = arm.otherwise;
            self.lines.add(&match (is_last, opening.is_empty()) {
                (true, true) => "{".to_string(),
                (true, false) => "} else {".to_string(),
                _ => format!("{opening}if ({}) {{", tests.join(" || ")),
            });
            self.body(&arm.body)?;
            opening = "} else ".to_string();
        }
        self.lines.add("}");
        Ok(())
    }

    fn assign(&mut self, place: &Place, value: &Expr, declares: bool) -> Result<(), Refused> {
        let ty = self.types.place(place, self.locals)?;
        match (&ty, value) {
            (ty, Expr::Call(..)) if self.types.is_valueless(ty) => {
                let call = self.value(value, Literal::Bare)?.text;
                self.lines.add(&format!("{call};"));
            }
            (ty, _) if self.types.is_valueless(ty) => {}
            _ if self.is_unread(place) => self.dropped(value)?,
            (Ty::Array(of, count), _) if !self.is_array_value(place, value) => {
                self.fill(place, value, of, *count)?;
            }
            _ => {
                let target = match (declares, place.whole()) {
                    (true, Some(number)) => declared(&ty, &self.called[number]),
                    _ => self.place(place)?.text,
                };
                let value = self.value(value, Literal::Bare)?.text;
                self.lines.add(&format!("{target} = {value};"));
            }
        }
        Ok(())
    }

    /// Whether a place belongs to a local that is never read, and so is not declared.
    fn is_unread(&self, place: &Place) -> bool {
        match place.base {
            Base::Local(number) => !place.is_behind_pointer() && !self.read.contains(&number),
            Base::Value(_) => false,
        }
    }

    /// A value that nobody reads: what is computed is computed, an array is not made.
    fn dropped(&mut self, value: &Expr) -> Result<(), Refused> {
        match value {
            Expr::Repeat(..) => {}
            Expr::Aggregate(Ty::Array(..), parts) => {
                parts.iter().filter(|part| !part.is_literal()).try_for_each(|part| self.dropped(part))?;
            }
            _ => {
                let value = self.value(value, Literal::Bare)?.up_to(Rank::Prefix);
                self.lines.add(&format!("(void){value};"));
            }
        }
        Ok(())
    }

    /// Whether an array is assigned as C assigns a struct: neither side is in memory, and no memset makes it.
    fn is_array_value(&self, place: &Place, value: &Expr) -> bool {
        let is_value = |place: &Place| {
            !place.is_behind_pointer() && !place.whole().is_some_and(|number| self.locals[number].in_memory)
        };
        is_value(place)
            && match value {
                Expr::Copy(from) => is_value(from),
                Expr::Repeat(..) => false,
                _ => true,
            }
    }

    /// An array that is made or moved where it lies.
    fn fill(&mut self, place: &Place, value: &Expr, of: &Ty, count: u64) -> Result<(), Refused> {
        let (target, size) = self.array(place, of, count)?;
        match value {
            Expr::Repeat(element, _) => {
                let byte = match **element {
                    Expr::Bool(false) => 0,
                    Expr::Int(width, value) if width == Width::W8 || value == 0 => value,
                    _ => {
                        let element = self.value(element, Literal::Bare)?.text;
                        self.lines.add(&format!("for (size_t {EACH} = 0; {EACH} < {count}; {EACH}++) {{"));
                        self.lines.add(&format!("{target}[{EACH}] = {element};"));
                        self.lines.add("}");
                        return Ok(());
                    }
                };
                self.lines.add(&format!("memset({target}, {byte}, {size});"));
            }
            Expr::Copy(from) => {
                let (source, _) = self.array(from, of, count)?;
                self.lines.add(&format!("memcpy({target}, {source}, {size});"));
            }
            Expr::Aggregate(_, parts) => {
                for (number, part) in parts.iter().enumerate() {
                    let part = self.value(part, Literal::Bare)?.text;
                    self.lines.add(&format!("{target}[{number}] = {part};"));
                }
            }
            _ => return Err(Refused::new("an array in memory from a call")),
        }
        Ok(())
    }

    /// An array as a pointer to its first element, and its size.
    fn array(&mut self, place: &Place, of: &Ty, count: u64) -> Result<(String, String), Refused> {
        if let Some((Step::Deref(_), before)) = place.steps.split_last() {
            let pointer = Place { base: place.base.clone(), steps: before.to_vec() };
            // one byte on every processor; a bool need not be
            let is_byte = *of == Ty::Int(Width::W8);
            let size = if is_byte { count.to_string() } else { format!("{count} * sizeof({})", c_type(of)) };
            return Ok((self.place(&pointer)?.up_to(Rank::Primary), size));
        }
        let mut text = self.place(place)?.up_to(Rank::Primary);
        if !place.whole().is_some_and(|number| self.locals[number].in_memory) {
            text.push_str(".at");
        }
        let size = format!("sizeof {text}");
        Ok((text, size))
    }

    fn place(&mut self, place: &Place) -> Result<Text, Refused> {
        let mut steps = &place.steps[..];
        let mut at = Place { base: place.base.clone(), steps: Vec::new() };
        let mut made = match (&place.base, steps.split_first()) {
            (Base::Local(number), _) => Text::primary(self.called[*number].clone()),
            (Base::Value(value), Some((first @ Step::Deref(_), rest))) if is_step(value) => {
                steps = rest;
                at.steps.push(first.clone());
                self.indexed(value)?
            }
            (Base::Value(value), _) => self.value(value, Literal::Typed)?,
        };
        // whether what is made is a pointer, and its place what that points to
        let mut is_behind = false;
        while let Some((step, rest)) = steps.split_first() {
            let of = self.types.place(&at, self.locals)?;
            let mut used = vec![step.clone()];
            steps = rest;
            if let Step::Deref(_) = step {
                made = followed(made, is_behind);
                is_behind = true;
            } else {
                let name = match (step, rest.split_first()) {
                    (Step::Variant(variant), Some((Step::Field(number), rest))) => {
                        steps = rest;
                        used.push(Step::Field(*number));
                        self.variant_field(&of, *variant, *number)?
                    }
                    (Step::Field(number), _) => self.field(&of, *number)?,
                    _ => return Err(Refused::new("a variant taken whole")),
                };
                let sign = if is_behind { "->" } else { "." };
                made = Text::primary(format!("{}{sign}{name}", made.up_to(Rank::Primary)));
                is_behind = false;
            }
            at.steps.extend(used);
        }
        Ok(followed(made, is_behind))
    }

    fn field(&self, of: &Ty, number: usize) -> Result<String, Refused> {
        match of {
            Ty::Slice { .. } => Ok(if number == 0 { "at" } else { "len" }.to_string()),
            Ty::Named(name) => match self.names.of_type(name).1 {
                TypeNames::Fields(fields) => Ok(fields[number].clone()),
                TypeNames::Variants(_) => Err(Refused::new(format!("a field of the enum {name}"))),
            },
            _ => Err(Refused::new(format!("a field of {of:?}"))),
        }
    }

    /// A variant's first field is the tag, which all have.
    fn variant_field(&self, of: &Ty, variant: usize, number: usize) -> Result<String, Refused> {
        match of {
            Ty::Named(name) => match self.names.of_type(name).1 {
                TypeNames::Variants(_) if number == 0 => Ok("tag".to_string()),
                TypeNames::Variants(variants) => {
                    let (called, fields) = &variants[variant];
                    Ok(format!("as.{called}.{}", fields[number - 1]))
                }
                TypeNames::Fields(_) => Err(Refused::new(format!("a variant of the struct {name}"))),
            },
            _ => Err(Refused::new(format!("a variant of {of:?}"))),
        }
    }

    /// What an offset points to: the element at an index.
    fn indexed(&mut self, offset: &Expr) -> Result<Text, Refused> {
        let Expr::Binary(_, pointer, by) = offset else { return Err(Refused::new("an index of no pointer")) };
        let base = self.value(pointer, Literal::Typed)?.up_to(Rank::Primary);
        let index = self.index(pointer, by)?.text;
        Ok(Text::primary(format!("{base}[{index}]")))
    }

    /// Bytes as a number of elements, which have the same size on every processor.
    fn index(&mut self, pointer: &Expr, by: &Expr) -> Result<Text, Refused> {
        let Ty::Ref { to, .. } = self.types.value(pointer, self.locals)? else {
            return Err(Refused::new("an offset of what is no pointer"));
        };
        let size = self.types.size_of(element(&to))?;
        match by {
            Expr::Int(_, bytes) => Ok(Text::primary((bytes / size).to_string())),
            // the proofs exclude that the product is more than 64 bits hold
            Expr::Binary(Binary::Mul, index, elements) if **elements == Expr::Int(Width::W64, size) => {
                match **index {
                    Expr::Int(_, index) => Ok(Text::primary(index.to_string())),
                    _ => self.value(index, Literal::Typed),
                }
            }
            _ if size == 1 => self.value(by, Literal::Typed),
            _ => {
                let by = self.value(by, Literal::Typed)?.up_to(Rank::Prefix);
                Ok(Text { text: format!("{by} / {size}"), rank: Rank::Product })
            }
        }
    }

    fn value(&mut self, value: &Expr, literal: Literal) -> Result<Text, Refused> {
        match value {
            Expr::Copy(place) => self.place(place),
            Expr::Int(width, number) => Ok(Text::primary(number_text(*width, *number, literal))),
            Expr::Bool(value) => Ok(Text::primary(u8::from(*value).to_string())),
            Expr::Binary(Binary::Offset, pointer, by) => {
                if self.form == Form::Reading && is_nothing(by) {
                    return self.value(pointer, Literal::Typed);
                }
                let base = self.value(pointer, Literal::Typed)?.up_to(Rank::Sum);
                let index = self.index(pointer, by)?.up_to(Rank::Product);
                Ok(Text { text: format!("{base} + {index}"), rank: Rank::Sum })
            }
            Expr::Binary(Binary::Cut, pointer, by) => self.cut(pointer, by),
            Expr::Binary(operation, left, right) => self.binary(*operation, left, right),
            Expr::Unary(operation, of) => self.unary(*operation, of),
            Expr::Address(place) => self.address(place),
            Expr::Aggregate(ty, parts) => self.aggregate(ty, parts),
            Expr::Call(name, arguments) => {
                let called = self.names.function(name);
                let params = &self.types.signature(name)?.params;
                let arguments = self.valued(arguments, params)?.join(", ");
                Ok(Text::primary(format!("{called}({arguments})")))
            }
            Expr::Unit | Expr::Repeat(..) => Err(Refused::new(format!("{value:?} as a value of C"))),
        }
    }

    fn all(&mut self, values: &[Expr]) -> Result<Vec<String>, Refused> {
        values.iter().map(|value| self.value(value, Literal::Bare).map(|made| made.text)).collect()
    }

    /// The values of those types that have some in C.
    fn valued(&mut self, values: &[Expr], of: &[Ty]) -> Result<Vec<String>, Refused> {
        let mut made = Vec::new();
        for (value, ty) in values.iter().zip(of) {
            if !self.types.is_valueless(ty) {
                made.push(self.value(value, Literal::Bare)?.text);
            }
        }
        Ok(made)
    }

    fn helper(&mut self, helper: Helper, arguments: &str) -> Text {
        let text = format!("{}({arguments})", helper.name());
        self.helpers.insert(helper);
        Text::primary(text)
    }

    fn cut(&mut self, pointer: &Expr, by: &Expr) -> Result<Text, Refused> {
        let Ty::Ref { mutable, to } = self.types.value(pointer, self.locals)? else {
            return Err(Refused::new("an offset of what is no pointer"));
        };
        let base = self.value(pointer, Literal::Bare)?.text;
        let index = self.index(pointer, by)?.text;
        Ok(self.helper(Helper::Cut(mutable, element(&to).clone()), &format!("{base}, {index}")))
    }

    /// The address of what a pointer points to is the pointer; that of an array is its name.
    fn address(&mut self, place: &Place) -> Result<Text, Refused> {
        match place.steps.split_last() {
            Some((Step::Deref(_), before)) => {
                self.place(&Place { base: place.base.clone(), steps: before.to_vec() })
            }
            _ if matches!(self.types.place(place, self.locals)?, Ty::Array(..)) => self.place(place),
            _ => {
                let of = self.place(place)?.up_to(Rank::Prefix);
                Ok(Text { text: format!("&{of}"), rank: Rank::Prefix })
            }
        }
    }

    fn aggregate(&mut self, ty: &Ty, parts: &[Expr]) -> Result<Text, Refused> {
        if let Some(text) = self.lent(ty, parts)? {
            return Ok(text);
        }
        let inner = match ty {
            Ty::Array(..) => format!("{{{}}}", self.all(parts)?.join(", ")),
            Ty::Named(name) => match (self.names.of_type(name).1, self.types.shape(name)?) {
                (TypeNames::Fields(called), Shape::Fields(fields)) => {
                    self.designated("", called, parts, fields)?
                }
                (TypeNames::Variants(called), Shape::Variants(variants)) => {
                    self.variant(called, parts, variants)?
                }
                _ => return Err(Refused::new(format!("other names than the fields of {name}"))),
            },
            _ => self.all(parts)?.join(", "),
        };
        Ok(Text::primary(format!("({}){{{inner}}}", c_type(ty))))
    }

    fn variant(
        &mut self,
        called: &[(String, Vec<String>)],
        parts: &[Expr],
        variants: &[Vec<Ty>],
    ) -> Result<String, Refused> {
        let Some(Expr::Int(_, tag)) = parts.first() else {
            return Err(Refused::new("an enum without its tag"));
        };
        let at = usize::try_from(*tag).unwrap_or(usize::MAX);
        let (name, fields) = &called[at];
        let fields = self.designated(&format!("as.{name}."), fields, &parts[1..], &variants[at])?;
        let comma = if fields.is_empty() { "" } else { ", " };
        Ok(format!(".tag = {tag}{comma}{fields}"))
    }

    /// Values for the fields that have some in C, each with its field's name.
    fn designated(
        &mut self,
        before: &str,
        called: &[String],
        parts: &[Expr],
        fields: &[Ty],
    ) -> Result<String, Refused> {
        let has_value: Vec<bool> = fields.iter().map(|ty| !self.types.is_valueless(ty)).collect();
        let called = called.iter().zip(has_value).filter(|(_, has_value)| *has_value).map(|(name, _)| name);
        let values = self.valued(parts, fields)?;
        let named = |(field, value): (&String, String)| format!(".{before}{field} = {value}");
        Ok(called.zip(values).map(named).collect::<Vec<_>>().join(", "))
    }

    /// A slice that may be written to, lent whole for reading.
    fn lent(&mut self, ty: &Ty, parts: &[Expr]) -> Result<Option<Text>, Refused> {
        let (Ty::Slice { mutable: false, of }, Some(whole)) = (ty, whole_slice(parts)) else { return Ok(None) };
        if !matches!(self.types.place(&whole, self.locals)?, Ty::Slice { mutable: true, .. }) {
            return Ok(None);
        }
        let slice = self.place(&whole)?.text;
        Ok(Some(self.helper(Helper::Lend((**of).clone()), &slice)))
    }

    fn unary(&mut self, operation: Unary, of: &Expr) -> Result<Text, Refused> {
        let ty = self.types.value(of, self.locals)?;
        let inner = self.value(of, Literal::Typed)?;
        let prefix = |text: String| Text { text, rank: Rank::Prefix };
        match operation {
            Unary::Not if ty == Ty::Bool => Ok(prefix(format!("!{}", inner.up_to(Rank::Prefix)))),
            Unary::Not => {
                let cast = narrowed(&ty);
                Ok(prefix(format!("{cast}~{}", inner.up_to(Rank::Prefix))))
            }
            Unary::Cast(width) => match of {
                Expr::Int(_, number) if width.holds(*number) => {
                    Ok(Text::primary(number_text(width, *number, Literal::Typed)))
                }
                _ => Ok(prefix(format!("({}){}", c_type(&Ty::Int(width)), inner.up_to(Rank::Prefix)))),
            },
            Unary::LeadingZeros => Ok(self.helper(Helper::LeadingZeros, &inner.text)),
            Unary::TrailingZeros => Ok(self.helper(Helper::TrailingZeros, &inner.text)),
        }
    }

    fn binary(&mut self, operation: Binary, left: &Expr, right: &Expr) -> Result<Text, Refused> {
        let ty = self.types.value(left, self.locals)?;
        let (sign, rank) = operator(operation);
        let is_shift = rank == Rank::Shift;
        let beside = |other: &Expr| if other.is_literal() { Literal::Typed } else { Literal::Bare };
        let first = self.value(left, if is_shift { Literal::Typed } else { beside(right) })?;
        let second = self.value(right, if is_shift { Literal::Bare } else { beside(left) })?;
        let wide = if operation == Binary::Shl && !narrowed(&ty).is_empty() { "(uint32_t)" } else { "" };
        let first = match wide.is_empty() {
            true if operation.is_circuit() && first.rank == rank => first.text,
            true => first.up_to(within(rank, true)),
            false => first.up_to(Rank::Prefix),
        };
        let second = second.up_to(within(rank, false));
        let text = format!("{wide}{first} {sign} {second}");
        match (operation.is_comparison() || operation.is_circuit(), narrowed(&ty)) {
            (true, _) | (_, "") => Ok(Text { text, rank }),
            (_, cast) => Ok(Text { text: format!("{cast}({text})"), rank: Rank::Prefix }),
        }
    }
}

/// A pointer, or what it points to.
fn followed(pointer: Text, is_behind: bool) -> Text {
    match is_behind {
        true => Text { text: format!("*{}", pointer.up_to(Rank::Prefix)), rank: Rank::Prefix },
        false => pointer,
    }
}

/// Whether a step is one of no elements.
fn is_nothing(by: &Expr) -> bool {
    match by {
        Expr::Int(_, number) => *number == 0,
        Expr::Binary(Binary::Mul, count, _) => matches!(**count, Expr::Int(_, 0)),
        _ => false,
    }
}

fn is_step(value: &Expr) -> bool {
    matches!(value, Expr::Binary(Binary::Offset, ..))
}

/// The slice whose own pointer and length these are.
pub fn whole_slice(parts: &[Expr]) -> Option<Place> {
    let [pointer, Expr::Copy(length)] = parts else { return None };
    let pointer = match pointer {
        Expr::Copy(place) => place.clone(),
        Expr::Address(place) => match place.steps.split_last() {
            Some((Step::Deref(_), before)) => Place { base: place.base.clone(), steps: before.to_vec() },
            _ => return None,
        },
        _ => return None,
    };
    match (pointer.steps.split_last(), length.steps.split_last()) {
        (Some((Step::Field(0), before)), Some((Step::Field(1), same)))
            if before == same && pointer.base == length.base =>
        {
            Some(Place { base: pointer.base.clone(), steps: before.to_vec() })
        }
        _ => None,
    }
}

/// Whether statements leave the loop around them.
pub fn breaks(body: &[Statement]) -> bool {
    body.iter().any(|statement| match statement {
        Statement::Break => true,
        Statement::Loop(_) | Statement::While(..) => false,
        other => other.bodies().into_iter().any(|inner| breaks(inner)),
    })
}
