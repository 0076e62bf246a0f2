//! The C types: their names, and their definitions in an order in which each stands behind what it is made of.

use crate::layout::Lines;
use crate::names::Names;
use crate::sources::TypeNames;
use crate::tree::{Effects, Function, Shape, Ty};
use crate::types::{element, Types};
use crate::Refused;
use std::collections::BTreeSet;

/// A path as one C name, with what stands for its parameters behind it: of a type of the kit's the last part alone. Two paths that would be one
/// name are refused by `Names`.
pub fn c_name(path: &str) -> String {
    let is_sign = |c: char| !(c.is_alphanumeric() || c == '_' || c == ':');
    let (front, behind) = path.split_at(path.find('<').unwrap_or(path.len()));
    let parts =
        front.split(is_sign).chain(behind.split(is_sign).map(last_of_kit)).filter(|part| !part.is_empty());
    parts.collect::<Vec<_>>().join("_").replace("::", "_")
}

fn last_of_kit(path: &str) -> &str {
    if path.starts_with("core::") {
        path.rsplit("::").next().unwrap_or(path)
    } else {
        path
    }
}

/// A type's name in C.
pub fn type_name(name: &str) -> String {
    let path = &name[..name.find('<').unwrap_or(name.len())];
    c_name(&name.replacen(path, last_of_kit(path), 1))
}

pub fn c_type(ty: &Ty) -> String {
    match ty {
        Ty::Int(width) => format!("uint{}_t", width.bits()),
        // C's own, which the compiler knows to be 0 or 1
        Ty::Bool => "_Bool".to_string(),
        Ty::Unit => "void".to_string(),
        Ty::Ref { mutable, to } => pointer(*mutable, to),
        Ty::Slice { mutable: false, of } => format!("slice_{}", short(of)),
        Ty::Slice { mutable: true, of } => format!("slice_mut_{}", short(of)),
        Ty::Array(of, count) => format!("array_{}_{count}", short(of)),
        Ty::Named(name) => type_name(name),
        Ty::Ptr => "void *".to_string(),
    }
}

pub fn pointer(mutable: bool, to: &Ty) -> String {
    let constant = if mutable { "" } else { "const " };
    format!("{constant}{} *", c_type(element(to)))
}

/// A declaration of a name: a pointer's star stands at the name.
pub fn declared(ty: &Ty, name: &str) -> String {
    let ty = c_type(ty);
    if ty.ends_with('*') {
        format!("{ty}{name}")
    } else {
        format!("{ty} {name}")
    }
}

pub fn short(of: &Ty) -> String {
    match of {
        Ty::Int(width) => format!("u{}", width.bits()),
        Ty::Named(name) => type_name(name),
        _ => "bool".to_string(),
    }
}

/// The definitions of all types that the functions have, whatever their depth.
pub fn definitions(
    functions: &[Function],
    types: &Types,
    names: &Names,
    lines: &mut Lines,
) -> Result<(), Refused> {
    let mut done = BTreeSet::new();
    for function in functions {
        let used = Effects::of_body(&function.body, &function.locals);
        for (number, local) in function.locals.iter().enumerate() {
            // an array with an address is an array of C, and no value; of a call that was written out, not all locals are left
            let is_array = local.in_memory && matches!(local.ty, Ty::Array(..));
            let is_left = !function.is_expanded || number <= function.params || used.count(number) > 0;
            if is_left && !is_array {
                define(&local.ty, types, names, lines, &mut done)?;
            }
        }
        for ty in used.made.into_iter().filter(|_| function.is_expanded) {
            define(&ty, types, names, lines, &mut done)?;
        }
    }
    Ok(())
}

fn define(
    ty: &Ty,
    types: &Types,
    names: &Names,
    lines: &mut Lines,
    done: &mut BTreeSet<Ty>,
) -> Result<(), Refused> {
    if types.is_valueless(ty) || !done.insert(ty.clone()) {
        return Ok(());
    }
    match ty {
        Ty::Slice { mutable, of } => {
            define(of, types, names, lines, done)?;
            define_struct(ty, &[format!("{}at;", pointer(*mutable, of)), "uint64_t len;".to_string()], lines);
        }
        Ty::Array(of, count) => {
            define(of, types, names, lines, done)?;
            define_struct(ty, &[format!("{} at[{count}];", c_type(of))], lines);
        }
        // a pointer to an array is one to its first element
        Ty::Ref { to, .. } => define(element(to), types, names, lines, done)?,
        Ty::Named(name) => {
            let shape = types.shape(name)?;
            let inner: Vec<&Ty> = match shape {
                Shape::Fields(fields) => fields.iter().collect(),
                Shape::Variants(variants) => variants.iter().flatten().collect(),
            };
            for part in inner {
                define(part, types, names, lines, done)?;
            }
            define_named(name, shape, types, names, lines);
        }
        Ty::Unit | Ty::Int(_) | Ty::Bool | Ty::Ptr => {}
    }
    Ok(())
}

fn define_struct(ty: &Ty, members: &[String], lines: &mut Lines) {
    lines.add("typedef struct {");
    members.iter().for_each(|member| lines.add(member));
    lines.add(&format!("}} {};", c_type(ty)));
    lines.blank();
}

fn define_named(name: &str, shape: &Shape, types: &Types, names: &Names, lines: &mut Lines) {
    let (comment, of_type) = names.of_type(name);
    lines.comment(&[&[format!("{name}.")], comment].concat());
    lines.add("typedef struct {");
    match (shape, of_type) {
        (Shape::Fields(fields), TypeNames::Fields(called)) => fields_of(fields, called, types, lines),
        (Shape::Variants(variants), TypeNames::Variants(called)) => {
            let tags: Vec<String> =
                called.iter().enumerate().map(|(tag, (variant, _))| format!("{tag} {variant}")).collect();
            lines.add(&format!("uint8_t tag; /* {} */", tags.join(", ")));
            let has_some = |fields: &[Ty]| fields.iter().any(|field| !types.is_valueless(field));
            if variants.iter().any(|fields| has_some(fields)) {
                lines.add("union {");
                for (fields, (variant, called)) in variants.iter().zip(called) {
                    if has_some(fields) {
                        lines.add("struct {");
                        fields_of(fields, called, types, lines);
                        lines.add(&format!("}} {variant};"));
                    }
                }
                lines.add("} as;");
            }
        }
        // `Names` has held the two against one another
        _ => {}
    }
    lines.add(&format!("}} {};", type_name(name)));
    lines.blank();
}

/// The fields that have a value.
fn fields_of(fields: &[Ty], called: &[String], types: &Types, lines: &mut Lines) {
    for (field, name) in fields.iter().zip(called).filter(|(field, _)| !types.is_valueless(field)) {
        lines.add(&format!("{};", declared(field, name)));
    }
}
