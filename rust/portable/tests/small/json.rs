//! Small functions as the toolchain keeps them, in `mir.json`.

use super::sources;
use portable::sources::Sources;
use portable::{translate_mir, Form};

pub const GENERICS: &str =
    r#"{"types": [], "outlives": [], "bounds": [], "method_of": null, "trait_lifetimes": 0, "impls": []}"#;

pub const NO_TYPES: &str = r#"{"types": [], "dicts": []}"#;

pub fn json_value(ty: &str) -> String {
    format!(r#"{{"ty": {ty}, "home": "ValueLocal"}}"#)
}

pub fn json_memory(ty: &str) -> String {
    format!(r#"{{"ty": {ty}, "home": "MemorySlot"}}"#)
}

pub fn json_at(local: usize) -> String {
    format!(r#"{{"local": {local}, "steps": []}}"#)
}

pub fn json_copy(local: usize) -> String {
    format!(r#"{{"Copy": {}}}"#, json_at(local))
}

pub fn json_int(width: u64, value: u64) -> String {
    format!(r#"{{"Int": {{"width": {width}, "value": {value}}}}}"#)
}

pub fn json_assign(local: usize, value: &str) -> String {
    format!(r#"{{"Assign": [{}, {value}]}}"#, json_at(local))
}

/// A function of the library `m`: its locals, what it declares, and its body, each statement before its parts.
pub fn json_function(name: &str, params: usize, locals: &[String], types: &str, body: &[&str]) -> String {
    let (locals, body) = (locals.join(", "), body.join(", "));
    format!(
        r#"["{name}", {{"lifetimes": 0, "outlives": [], "params": {params}, "generics": {GENERICS}, "types": [{types}],
        "locals": [{locals}], "body": [{body}]}}]"#
    )
}

pub fn texts(libraries: &[&[String]]) -> Vec<String> {
    libraries.iter().map(|functions| format!("[{}]", functions.join(", "))).collect()
}

pub fn c_of(libraries: &[&[String]], sources: &Sources, form: Form) -> Result<String, String> {
    translate_mir(&texts(libraries), sources, form).map_err(|refused| refused.to_string())
}

/// Why there is no C file of functions of which `m::f`, without parameters, is a call for C.
pub fn refused_functions(functions: &[String]) -> String {
    c_of(&[functions], &sources("pub extern \"C\" fn f() { }"), Form::Reading).expect_err("a refusal")
}

pub const U8_JSON: &str = r#"{"Int": 8}"#;
pub const U64_JSON: &str = r#"{"Int": 64}"#;
pub const BOOL_JSON: &str = r#""Bool""#;
pub const UNIT_JSON: &str = r#""Unit""#;
/// A parameter that stands for a type, and one that stands for a number of 64 bits.
pub const TYPE: &str = r#"{"is_copy": false, "is_kept": false, "const_bits": null}"#;
pub const NUMBER: &str = r#"{"is_copy": false, "is_kept": false, "const_bits": 64}"#;

pub fn json_param(number: usize) -> String {
    format!(r#"{{"Param": {number}}}"#)
}

pub fn json_named(name: &str, arguments: &[&str]) -> String {
    format!(r#"{{"Named": [{{"name": "{name}", "lifetimes": []}}, [{}]]}}"#, arguments.join(", "))
}

pub fn json_reference(mutability: &str, to: &str) -> String {
    format!(r#"{{"Ref": ["Erased", "{mutability}", {to}]}}"#)
}

/// A declared type of so many parameters that stand for types.
pub fn json_declared(name: &str, params: usize, shape: &str) -> String {
    format!(
        r#"{{"name": "{name}", "lifetimes": 0, "bounds": [], "type_params": {params}, "const_params": [], "type_bounds": [],
        "owns": false, "is_cell": false, "shape": {shape}, "is_tuple": false}}"#
    )
}

/// A function with parameters, a dictionary for each of so many bounds, and the impls that it names.
pub fn json_generic(function: String, params: &[&str], bounds: usize, impls: &[String]) -> String {
    let bounds = vec!["null"; bounds].join(", ");
    function.replace(
        GENERICS,
        &format!(
            r#"{{"types": [{}], "outlives": [], "bounds": [{bounds}], "method_of": null, "trait_lifetimes": 0, "impls": [{}]}}"#,
            params.join(", "),
            impls.join(", ")
        ),
    )
}

/// An impl of so many parameters that stand for types, with a dictionary for each of so many bounds.
pub fn json_impl(name: &str, params: usize, bounds: usize, methods: &[&str]) -> String {
    let quoted: Vec<String> = methods.iter().map(|method| format!(r#""{method}""#)).collect();
    format!(
        r#"{{"name": "{name}", "types": [{}], "bounds": [{}], "methods": [{}]}}"#,
        vec![TYPE; params].join(", "),
        vec!["null"; bounds].join(", "),
        quoted.join(", ")
    )
}

pub fn json_dict(name: &str, types: &[&str], dicts: &[&str]) -> String {
    format!(r#"{{"Impl": ["{name}", [{}], [{}]]}}"#, types.join(", "), dicts.join(", "))
}

fn json_arguments(types: &[&str], dicts: &[&str]) -> String {
    format!(r#"{{"types": [{}], "dicts": [{}]}}"#, types.join(", "), dicts.join(", "))
}

/// A call of a function at types and dictionaries, given some locals.
pub fn json_call(function: &str, types: &[&str], dicts: &[&str], given: &[usize], target: usize) -> String {
    let called = format!(r#"{{"Fn": ["{function}", {}]}}"#, json_arguments(types, dicts));
    json_called(&called, given, target)
}

/// A call of the method of some number of a dictionary.
pub fn json_method(dict: &str, number: usize, given: &[usize], target: usize) -> String {
    json_called(&format!(r#"{{"Method": [{dict}, {number}, {}]}}"#, json_arguments(&[], &[])), given, target)
}

fn json_called(called: &str, given: &[usize], target: usize) -> String {
    let given: Vec<String> = given.iter().map(|local| json_copy(*local)).collect();
    format!(r#"{{"Call": [{called}, [{}], {}]}}"#, given.join(", "), json_at(target))
}

pub fn json_opd(of: &str) -> String {
    format!(r#"{{"Opd": {of}}}"#)
}

/// A place of a local at some steps, and its copy.
pub fn json_place(local: usize, steps: &str) -> String {
    format!(r#"{{"local": {local}, "steps": [{steps}]}}"#)
}

pub fn json_part(local: usize, steps: &str) -> String {
    format!(r#"{{"Copy": {}}}"#, json_place(local, steps))
}

/// A field of a variant: of every one the first is the tag.
pub fn json_variant(local: usize, variant: usize, field: usize) -> String {
    json_part(local, &format!(r#"{{"Variant": {variant}}}, {{"Field": {field}}}"#))
}

/// An enum's value, of its tag and some operands.
pub fn json_made(local: usize, tag: u64, fields: &[&str]) -> String {
    let parts: Vec<String> =
        std::iter::once(json_int(8, tag)).chain(fields.iter().map(|field| field.to_string())).collect();
    json_assign(local, &format!(r#"{{"Aggregate": [{}]}}"#, parts.join(", ")))
}

/// A switch of a local's tag: its arms' keys and statements.
pub fn json_switch(local: usize, arms: &[(u64, Vec<String>)]) -> Vec<String> {
    let keys: Vec<String> = arms.iter().map(|(key, _)| format!("[{key}]")).collect();
    let mut body =
        vec![format!(r#"{{"Switch": [{}, [{}], false]}}"#, json_variant(local, 0, 0), keys.join(", "))];
    body.extend(arms.iter().flat_map(|(_, statements)| json_body(statements)));
    body
}

/// Statements one after another: each is a list of its own parts.
pub fn json_bodies(statements: &[Vec<String>]) -> Vec<String> {
    let Some((last, before)) = statements.split_last() else { return vec![r#""Skip""#.to_string()] };
    let seq = |statement: &Vec<String>| [vec![r#""Seq""#.to_string()], statement.clone()].concat();
    before.iter().flat_map(seq).chain(last.iter().cloned()).collect()
}

pub fn json_body(statements: &[String]) -> Vec<String> {
    json_bodies(&statements.iter().map(|statement| vec![statement.clone()]).collect::<Vec<_>>())
}

/// A function of statements, behind which it returns.
pub fn json_returning(
    name: &str,
    params: usize,
    locals: &[String],
    types: &[String],
    statements: &[Vec<String>],
) -> String {
    let body = json_bodies(&[statements, &[vec![r#""Return""#.to_string()]]].concat());
    let body: Vec<&str> = body.iter().map(String::as_str).collect();
    json_function(name, params, locals, &types.join(", "), &body)
}
