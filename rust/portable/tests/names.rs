//! What is read of the sources, and nothing else of them: names, comments, and which functions are calls for C.

mod small;

use portable::sources::{FunctionNames, TypeNames};
use portable::Form;
use small::*;

const TEXT: &str = r#"
// What the module has.
ghost use lib.ListN.{length, take};
use crate::types::Refusal;

const TABLE: [u64; 2] = [1, 2];

// Why something is
// turned away.
pub struct Refusal(pub u8);

pub struct Walk {
    // whether it is good
    pub good: bool,
    ghost seen: Seen,
    pub end: usize,
}

pub enum Answer {
    Refused(Refusal),
    Address { epoch: u8, name: u8 },
    Ended,
}

impl Refusal {
    pub const SIZE: Refusal = Refusal(1);

    pub fn new(number: u8) -> Refusal
        ensures { number_in result ≡ number }
    {
        Refusal(number)
    }
}

// A step.
#[unsafe(no_mangle)]
pub extern "C" fn step(file: &mut [u8], run: &[u64; 8]) -> u8
    requires { length file.old ≡ 4 }
    ensures zero { result ≡ 0 }
{
    let mut at = 0; // let nothing = this
    while at < 4 {
        let Answer::Refused(why) = ask(file) else {
            return 0;
        };
        match ask(file) {
            Answer::Address { epoch: told, name } => at = told,
            Answer::Refused(_) => {
                let low: u8 = 1;
            }
            other => at = 2,
        }
    }
    0
}
"#;

fn strings(words: &[&str]) -> Vec<String> {
    words.iter().map(|word| word.to_string()).collect()
}

#[test]
fn of_functions() {
    let sources = sources(TEXT);
    let step = FunctionNames {
        comment: strings(&["A step."]),
        params: strings(&["file", "run"]),
        bound: strings(&["at", "why", "told", "name", "low", "other"]),
        is_exported: true,
    };
    assert_eq!(sources.functions["m::step"], step);
    let new = &sources.functions["m::Refusal::new"];
    assert_eq!((&new.params, new.is_exported, &new.comment), (&strings(&["number"]), false, &Vec::new()));
    assert_eq!(sources.functions.len(), 2);
}

#[test]
fn of_types() {
    let sources = sources(TEXT);
    let (comment, refusal) = &sources.types["m::Refusal"];
    assert_eq!(*comment, strings(&["Why something is", "turned away."]));
    assert_eq!(*refusal, TypeNames::Fields(strings(&["f0"])));
    assert_eq!(sources.types["m::Walk"].1, TypeNames::Fields(strings(&["good", "end"])));
    let variants = [("Refused", vec!["f0"]), ("Address", vec!["epoch", "name"]), ("Ended", vec![])];
    let variants = variants.iter().map(|(name, fields)| (name.to_string(), strings(fields)));
    assert_eq!(sources.types["m::Answer"].1, TypeNames::Variants(variants.collect()));
}

#[test]
fn a_struct_within_a_struct() {
    let table = "(lcons (pair \"m::Outer\" (fields (tcons (tyNamed (pair \"m::Inner\" lnil)) (tcons (tyInt 8) tnil)))) \
                 (lcons (pair \"m::Inner\" (fields (tcons (tyInt 64) tnil))) lnil))";
    let inner = "(place 1 (lcons (field 0) (lcons (field 0) lnil)))";
    let body = [assign(inner, "rvOpd (int 64 5)"), assign(&at(0), &format!("rvOpd (copy {inner})"))];
    let locals = [value(U64), value(&named("m::Outer"))];
    let term = program(&[function("f", 0, &locals, &[&body[0], &body[1], "return"], table)]);
    let text = "pub struct Outer { pub counts: Inner, pub end: u8 } pub struct Inner { pub rounds: u64 } \
                pub extern \"C\" fn f() { let mut position = 1; }";
    let c = portable::translate(&term, &sources(text), Form::Reading).expect("a C file");
    assert!(c.find("} m_Inner;") < c.find("} m_Outer;"), "{c}");
    assert!(c.contains("m_Inner counts;"), "{c}");
    assert!(flat(&c).contains("m_Outer position; position.counts.rounds = 5;"), "{c}");
    assert!(c.contains("return position.counts.rounds;"), "{c}");
}

#[test]
fn a_comment_ends_where_it_ends() {
    let term = program(&[function("f", 0, &[value(UNIT)], &["return"], "")]);
    let sources = sources("// A comment */ with an end, /* and a beginning.\npub extern \"C\" fn f() { }");
    let c = portable::translate(&term, &sources, Form::Reading).expect("a C file");
    assert!(c.contains("/* m::f. A comment * / with an end, / * and a beginning. */"), "{c}");
}

fn flat(c: &str) -> String {
    c.split_whitespace().collect::<Vec<_>>().join(" ")
}

#[test]
fn of_an_enum() {
    let variants =
        format!("(ttcons (tcons {U8} tnil) (ttcons tnil (ttcons (tcons {U64} (tcons {BOOL} tnil)) ttnil)))");
    let table = format!("(lcons (pair \"m::E\" (variants {variants})) lnil)");
    let part = |variant: usize, number: usize| {
        format!("(place 3 (lcons (variant {variant}) (lcons (field {number}) lnil)))")
    };
    let made =
        assign(&at(3), &format!("aggregate (lcons (int 8 2) (lcons {} (lcons {} lnil)))", copy(1), copy(2)));
    let ended = assign(&at(3), "aggregate (lcons (int 8 1) lnil)");
    let tag = assign(&at(4), &format!("rvOpd (copy {})", part(0, 0)));
    let word = assign(&at(1), &format!("rvOpd (copy {})", part(2, 1)));
    let test = assign(&at(2), &format!("rvOpd (copy {})", part(2, 2)));
    let byte = assign(&at(4), &format!("rvOpd (copy {})", part(0, 1)));
    let locals = [value(UNIT), value(U64), value(BOOL), value(&named("m::E")), value(U8)];
    let read = format!("switch {} (default skip)", copy(4));
    let body = [&made, &ended, &tag, &word, &test, &byte, &read, "return"];
    let term = program(&[function("f", 2, &locals, &body, &table)]);
    let text = "pub enum E { Refused(u8), Ended, Address { epoch: u64, int: bool } } pub extern \"C\" fn f(a: u64, b: bool) { }";
    let c = flat(&portable::translate(&term, &sources(text), Form::Plain).expect("a C file"));
    let declared = "typedef struct { uint8_t tag; /* 0 Refused, 1 Ended, 2 Address */ union { struct { uint8_t f0; } Refused; \
                    struct { uint64_t epoch; _Bool int_; } Address; } as; } m_E;";
    assert!(c.contains(declared), "{c}");
    assert!(c.contains("t3 = (m_E){.tag = 2, .as.Address.epoch = t1, .as.Address.int_ = t2};"), "{c}");
    assert!(c.contains("t3 = (m_E){.tag = 1};"), "{c}");
    assert!(c.contains("t4 = t3.tag;") && c.contains("t4 = t3.as.Refused.f0;"), "{c}");
    assert!(c.contains("t3.as.Address.epoch;") && c.contains("t3.as.Address.int_;"), "{c}");
}

#[test]
fn a_local_has_no_name_of_a_function() {
    let g = function("g", 0, &[value(U64)], &[&assign(&at(0), "rvOpd (int 64 1)"), "return"], "");
    let call = format!("call (direct (fnRef \"m::g\")) lnil {}", at(0));
    let f = function("f", 1, &[value(U64), value(U64)], &[&call, "return"], "");
    let c = translated(&program(&[g, f]), "m_g: u64", Form::Reading).expect("a C file");
    assert!(c.contains("uint64_t f(uint64_t m_g_2)"), "{c}");
}

#[test]
fn only_what_is_marked_is_a_call_for_c() {
    let sources = sources("// A call.\npub extern \"C\" fn f(mut a: u8, ghost b: Seen) { }\npub fn g() -> u8 decreases { n } { let c = 1; }");
    assert!(sources.functions["m::f"].is_exported && !sources.functions["m::g"].is_exported);
    assert_eq!(sources.functions["m::f"].params, strings(&["a"]));
    assert_eq!(sources.functions["m::g"].bound, strings(&["c"]));
    assert_eq!(sources.functions["m::g"].comment, Vec::<String>::new());
}
