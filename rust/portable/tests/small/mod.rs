//! Small terms for the tests: one function of a module `m`, written as the toolchain prints it.

// each test file uses a part of this
#![allow(dead_code)]

pub mod json;

use portable::sources::Sources;
use portable::{translate, Form};

/// A list of the term's constructors.
pub fn list(items: &[&str]) -> String {
    items.iter().rev().fold("lnil".to_string(), |rest, item| format!("(lcons ({item}) {rest})"))
}

pub fn seq(statements: &[&str]) -> String {
    match statements {
        [] => "skip".to_string(),
        [only] => format!("({only})"),
        [first, rest @ ..] => format!("(seq ({first}) {})", seq(rest)),
    }
}

/// A value local of a type, and one in memory.
pub fn value(ty: &str) -> String {
    format!("local {ty} valueLocal")
}

pub fn memory(ty: &str) -> String {
    format!("local {ty} memorySlot")
}

pub const U8: &str = "(tyInt 8)";
pub const U16: &str = "(tyInt 16)";
pub const U32: &str = "(tyInt 32)";
pub const U64: &str = "(tyInt 64)";
pub const BOOL: &str = "tyBool";
pub const UNIT: &str = "tyUnit";
pub const PTR: &str = "tyPtr";

pub fn slice(mutability: &str, of: &str) -> String {
    format!("(tyStruct \"&[]\" (tcons (tyRef (named 0) {mutability} {of}) (tcons (tyInt 64) tnil)))")
}

pub fn reference(mutability: &str, to: &str) -> String {
    format!("(tyRef (named 0) {mutability} {to})")
}

pub fn array(of: &str, count: u64) -> String {
    format!("(tyArray {of} (lenLit {count}))")
}

pub fn named(name: &str) -> String {
    format!("(tyNamed (pair \"{name}\" lnil))")
}

/// A local as a place, and copied.
pub fn at(local: usize) -> String {
    format!("(place {local} lnil)")
}

pub fn copy(local: usize) -> String {
    format!("(copy (place {local} lnil))")
}

/// What a local points to, at a type.
pub fn behind(local: usize, ty: &str) -> String {
    format!("(place {local} (lcons (deref {ty}) lnil))")
}

/// A field of a local, and what that points to.
pub fn field(local: usize, number: usize) -> String {
    format!("(place {local} (lcons (field {number}) lnil))")
}

pub fn assign(place: &str, value: &str) -> String {
    format!("assign {place} ({value})")
}

/// A function `m::NAME`: its locals, of which 0 is the result and the next the parameters, its statements, and its table of types.
pub fn function(name: &str, params: usize, locals: &[String], body: &[&str], table: &str) -> String {
    let locals = list(&locals.iter().map(String::as_str).collect::<Vec<_>>());
    format!("fn-def \"m::{name}\" (fnItem 0 lnil {params} {locals} {}) {table}", seq(body))
}

pub fn program(functions: &[String]) -> String {
    let functions = list(&functions.iter().map(String::as_str).collect::<Vec<_>>());
    format!("program {functions} (fnRef \"main\")")
}

/// Sources in which `m::f` is a call for C.
pub fn sources(text: &str) -> Sources {
    let mut sources = Sources::default();
    sources.add(text, "m");
    sources
}

/// The C of a program whose function `f` of the given parameters is a call for C.
pub fn translated(term: &str, params: &str, form: Form) -> Result<String, String> {
    let sources = sources(&format!("pub extern \"C\" fn f({params}) {{ }}"));
    translate(term, &sources, form).map_err(|refused| refused.to_string())
}

/// A function `f` of one result and no parameter, refused in both forms for the same reason, which is told.
pub fn refused(locals: &[String], body: &[&str]) -> String {
    let term = program(&[function("f", 0, locals, body, "")]);
    why(&term, "")
}

pub fn why(term: &str, params: &str) -> String {
    let plain = translated(term, params, Form::Plain);
    let reading = translated(term, params, Form::Reading);
    assert_eq!(plain.is_err(), reading.is_err(), "{term}");
    plain.expect_err(term)
}
