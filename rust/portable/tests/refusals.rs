//! Each rule of the translator that refuses has a term that breaks it, and nothing else.

mod small;

use small::*;

fn in_u64(body: &[&str]) -> String {
    refused(&[value(U64), value(U64), value(U64)], body)
}

#[test]
fn a_signed_operation() {
    let why = in_u64(&[&assign(&at(0), &format!("op2 (add signed) {} {}", copy(1), copy(2))), "return"]);
    assert!(why.contains("m::f: unknown operation: (add signed)"), "{why}");
    let why = in_u64(&[&assign(&at(0), &format!("op1 (cast unsigned signed 64) {}", copy(1))), "return"]);
    assert!(why.contains("unknown operation"), "{why}");
}

#[test]
fn operations_on_pointers_and_floats() {
    for operation in ["ptrEq", "withAddr", "floatAdd"] {
        let why = in_u64(&[&assign(&at(0), &format!("op2 {operation} {} {}", copy(1), copy(2))), "return"]);
        assert!(why.contains("unknown operation"), "{why}");
    }
    for operation in ["ptrAddr", "floatNeg", "countOnes"] {
        let why = in_u64(&[&assign(&at(0), &format!("op1 {operation} {}", copy(1))), "return"]);
        assert!(why.contains("unknown operation"), "{why}");
    }
}

#[test]
fn types_that_are_not_known() {
    assert!(refused(&[value("(tyFloat binary64)")], &["return"]).contains("unknown type"));
    assert!(refused(&[value("(tyInt 128)")], &["return"]).contains("an integer of 128 bits"));
}

#[test]
fn operands_that_are_not_known() {
    for operand in ["(ptrConst 4)", "(intNeg 64 1)", "(float binary64 0)"] {
        let why = in_u64(&[&assign(&at(0), &format!("rvOpd {operand}")), "return"]);
        assert!(why.contains("unknown operand"), "{why}");
    }
    let why = in_u64(&[&assign(&at(0), "rvOpd (int 8 256)"), "return"]);
    assert!(why.contains("256 is no number of 8 bits"), "{why}");
}

#[test]
fn statements_that_are_not_known() {
    assert!(in_u64(&["drop (place 1 lnil)"]).contains("unknown statement"));
    assert!(
        in_u64(&[&format!("call (indirect {}) lnil {}", copy(1), at(0)), "return"]).contains("unknown call")
    );
    assert!(in_u64(&["loop skip"]).contains("unknown statement"));
}

#[test]
fn exits_that_c_has_no_word_for() {
    assert!(in_u64(&["exit 1"]).contains("an exit outside of a loop"));
    let why = in_u64(&["block (loop (block (loop (exit 3))))"]);
    assert!(why.contains("an exit out of more than one loop: 3"), "{why}");
}

#[test]
fn switches_that_are_no_switches() {
    assert!(in_u64(&[&format!("switch {} noDefault", copy(1))]).contains("a switch without an arm"));
    let twice = "(arm (lcons 1 lnil) skip (arm (lcons 1 lnil) skip noDefault))";
    assert!(in_u64(&[&format!("switch {} {twice}", copy(1))]).contains("a key of two arms"));
    let why = refused(&[value(U8)], &[&format!("switch {} (arm (lcons 256 lnil) skip noDefault)", copy(0))]);
    assert!(why.contains("a key that the number of a switch cannot be"), "{why}");
    assert!(refused(&[value(BOOL)], &[&format!("switch {} (default skip)", copy(0))]).contains("no number"));
}

#[test]
fn operands_of_two_types() {
    let sum = assign(&at(0), &format!("op2 (add unsigned) {} {}", copy(1), copy(2)));
    assert!(refused(&[value(U64), value(U64), value(U8)], &[&sum, "return"]).contains("Add of"));
    assert!(
        refused(&[value(U64), value(U8)], &[&assign(&at(0), &format!("rvOpd {}", copy(1)))]).contains("wanted")
    );
    assert!(refused(&[value(U64)], &[&format!("if {} skip skip", copy(0))]).contains("where Bool is wanted"));
}

#[test]
fn the_address_of_a_value() {
    let why = refused(&[value(U64), value(PTR)], &[&assign(&at(1), &format!("addrOf {}", at(0)))]);
    assert!(why.contains("the address of a value local"), "{why}");
}

#[test]
fn the_address_of_an_array_inside_a_struct() {
    let table = format!("(lcons (pair \"m::S\" (fields (tcons {} tnil))) lnil)", array(U8, 4));
    let body = [assign(&at(2), &format!("addrOf {}", field(1, 0)))];
    let locals = [value(UNIT), value(&named("m::S")), value(PTR)];
    let term = program(&[function("f", 0, &locals, &[&body[0], "return"], &table)]);
    assert!(why(&term, "").contains("the address of a part of a struct"));
}

#[test]
fn what_is_in_memory_and_has_no_value() {
    assert!(refused(&[value(UNIT), memory(UNIT)], &["return"]).contains("has an address and is no value"));
}

#[test]
fn an_array_without_elements() {
    for ty in [array(U8, 0), reference("mut", &array(U8, 0))] {
        assert!(refused(&[value(UNIT), value(&ty)], &["return"]).contains("an array without elements"));
    }
}

#[test]
fn a_read_at_another_type() {
    let locals = [value(U16), value(&reference("imm", U8))];
    let body = assign(&at(0), &format!("rvOpd (copy {})", behind(1, U16)));
    let term = program(&[function("f", 1, &locals, &[&body, "return"], "")]);
    assert!(why(&term, "p: &u8").contains("a pointer to Int(W8) followed to Int(W16)"));
}

#[test]
fn a_write_through_what_is_for_reading() {
    let locals = [value(UNIT), value(&reference("imm", U8))];
    let body = assign(&behind(1, U8), "rvOpd (int 8 1)");
    let term = program(&[function("f", 1, &locals, &[&body, "return"], "")]);
    assert!(why(&term, "p: &u8").contains("a write through a pointer that is for reading"));
}

#[test]
fn steps_over_what_has_other_sizes_elsewhere() {
    let table = format!("(lcons (pair \"m::S\" (fields (tcons {} tnil))) lnil)", slice("imm", U8));
    for (ty, told) in [
        (slice("imm", &reference("imm", U8)), "a pointer that steps over"),
        (slice("imm", UNIT), "a pointer that steps over"),
        (slice("imm", &named("m::S")), "the size of Slice"),
        (array(&named("m::S"), 2), "the size of Slice"),
        (reference("mut", &reference("imm", U8)), "a pointer to Ref"),
        (reference("mut", UNIT), "a pointer to Unit"),
    ] {
        let term = program(&[function("f", 1, &[value(UNIT), value(&ty)], &["return"], &table)]);
        assert!(why(&term, "p: T").contains(told), "{ty}");
    }
}

/// An offset of a slice's pointer into local 2, by local 3.
fn stepped(rest: &[&str]) -> String {
    let offset = assign(&at(2), &format!("op2 offset (copy {}) {}", field(1, 0), copy(3)));
    let locals =
        [value(U8), value(&slice("imm", U8)), value(PTR), value(U64), value(BOOL), value(&slice("imm", U8))];
    let body: Vec<&str> = [&[offset.as_str()], rest].concat();
    program(&[function("f", 1, &locals, &body, "")])
}

#[test]
fn a_stepped_pointer_that_is_not_followed_at_once() {
    let read = assign(&at(0), &format!("rvOpd (copy {})", behind(2, U8)));
    assert!(translated(&stepped(&[&read, "return"]), "s: &[u8]", portable::Form::Plain).is_ok());
    let told = "neither followed at once nor begins a slice";
    assert!(why(&stepped(&["return"]), "s: &[u8]").contains(told));
    let other = assign(&at(3), "rvOpd (int 64 1)");
    assert!(why(&stepped(&[&other, &read, "return"]), "s: &[u8]").contains(told));
    let branch = format!("if {} ({read}) skip", copy(4));
    assert!(why(&stepped(&[&branch, "return"]), "s: &[u8]").contains(told));
}

#[test]
fn a_slice_that_begins_elsewhere_than_it_is_cut() {
    let length =
        |less: usize| assign(&at(3), &format!("op2 (sub unsigned) (copy {}) {}", field(1, 1), copy(less)));
    let begin = assign(&at(6), &format!("addrOf {}", behind(2, U8)));
    let made = assign(&at(5), &format!("aggregate (lcons {} (lcons {} lnil))", copy(6), copy(3)));
    let offset = assign(&at(2), &format!("op2 offset (copy {}) {}", field(1, 0), copy(7)));
    let locals = [
        value(UNIT),
        value(&slice("imm", U8)),
        value(PTR),
        value(U64),
        value(BOOL),
        value(&slice("imm", U8)),
        value(&reference("imm", U8)),
        value(U64),
        value(U64),
    ];
    let term =
        |less| program(&[function("f", 1, &locals, &[&offset, &length(less), &begin, &made, "return"], "")]);
    let c = translated(&term(7), "s: &[u8]", portable::Form::Plain).expect("a cut");
    assert!(c.contains("t2 = cut_u8(t1.at, t7);"), "{c}");
    assert!(why(&term(8), "s: &[u8]").contains("nor begins a slice"));
}

#[test]
fn a_step_of_half_an_element() {
    let locals = [value(U16), value(&slice("imm", U16)), value(PTR)];
    let offset = assign(&at(2), &format!("op2 offset (copy {}) (int 64 3)", field(1, 0)));
    let read = assign(&at(0), &format!("rvOpd (copy {})", behind(2, U16)));
    let term = program(&[function("f", 1, &locals, &[&offset, &read, "return"], "")]);
    assert!(why(&term, "s: &[u16]").contains("a step of 3 bytes over elements of 2"));
}

#[test]
fn arrays_that_neither_memset_nor_memcpy_makes() {
    let two = [value(UNIT), memory(&array(U16, 4)), memory(&array(U16, 4)), value(U16)];
    let ones = assign(&at(1), "repeat (int 16 1) 4");
    assert!(refused(&two, &[&ones, "return"]).contains("that memset does not make"));
    let trues = assign(&at(1), "repeat true 4");
    assert!(refused(&[value(UNIT), memory(&array(BOOL, 4))], &[&trues, "return"])
        .contains("that memset does not make"));
    let moved = assign(&at(1), &format!("rvOpd {}", copy(2)));
    assert!(refused(&two, &[&moved, "return"]).contains("from memory to memory"));
    let pointed = [value(UNIT), value(&reference("imm", U8)), memory(&array(U8, 1))];
    let made = assign(&at(2), &format!("aggregate (lcons (copy {}) lnil)", behind(1, U8)));
    let term = program(&[function("f", 1, &pointed, &[&made, "return"], "")]);
    assert!(why(&term, "p: &u8").contains("made of what is in memory"));
}

#[test]
fn an_array_in_memory_as_a_part() {
    let table = format!("(lcons (pair \"m::S\" (fields (tcons {} tnil))) lnil)", array(U8, 4));
    let locals =
        [value(UNIT), value(&reference("imm", &array(U8, 4))), value(&named("m::S")), memory(&array(U8, 4))];
    for part in [behind(1, &array(U8, 4)), at(3)] {
        let made = assign(&at(2), &format!("aggregate (lcons (copy {part}) lnil)"));
        let term = program(&[function("f", 1, &locals, &[&made, "return"], &table)]);
        assert!(why(&term, "p: &[u8; 4]").contains("an array in memory as a part of a value"));
    }
}

#[test]
fn an_array_in_memory_from_a_call() {
    let made = array(U8, 4);
    let g = function("g", 0, &[value(&made)], &["return"], "");
    let call = format!("call (direct (fnRef \"m::g\")) lnil {}", at(1));
    let f = function("f", 0, &[value(UNIT), memory(&made)], &[&call, "return"], "");
    assert!(why(&program(&[g, f]), "").contains("an array in memory from a call"));
}

#[test]
fn a_function_that_calls_itself() {
    let call = |name: &str| format!("call (direct (fnRef \"m::{name}\")) lnil {}", at(0));
    let f = function("f", 0, &[value(UNIT)], &[&call("g"), "return"], "");
    let g = function("g", 0, &[value(UNIT)], &[&call("f"), "return"], "");
    assert!(why(&program(&[f, g]), "").contains("a function that calls itself"));
}

#[test]
fn calls_that_do_not_fit() {
    let call = |name: &str| format!("call (direct (fnRef \"m::{name}\")) lnil {}", at(0));
    let f = |name| function("f", 0, &[value(UNIT)], &[&call(name), "return"], "");
    assert!(why(&program(&[f("g")]), "").contains("a call of a function that is not there: m::g"));
    let g = function("g", 1, &[value(UNIT), value(U8)], &["return"], "");
    assert!(why(&program(&[g, f("g")]), "").contains("0 arguments for m::g"));
}

#[test]
fn a_call_for_c_from_inside() {
    let g = function("g", 0, &[value(UNIT)], &["return"], "");
    let call = format!("call (direct (fnRef \"m::g\")) lnil {}", at(0));
    let f = function("f", 0, &[value(UNIT)], &[&call, "return"], "");
    let sources = sources("pub extern \"C\" fn f() { } pub extern \"C\" fn g() { }");
    let told = portable::translate(&program(&[g, f]), &sources, portable::Form::Reading).expect_err("refused");
    assert_eq!(told.to_string(), "m::g: a call for C that is called inside");
}

#[test]
fn names_that_do_not_fit_the_sources() {
    let f = program(&[function("f", 1, &[value(UNIT), value(U8)], &["return"], "")]);
    assert!(why(&f, "a: u8, b: u8").contains("m::f: 2 parameters in the sources, 1 in the term"));
    let table = "(lcons (pair \"m::S\" (fields (tcons (tyInt 8) tnil))) lnil)";
    let term = program(&[function("f", 0, &[value(UNIT), value(&named("m::S"))], &["return"], table)]);
    let sources = sources("pub struct S { pub a: u8, pub b: u8 } pub extern \"C\" fn f() { }");
    let told = portable::translate(&term, &sources, portable::Form::Plain).expect_err("refused");
    assert_eq!(told.to_string(), "m::S: the sources have other fields than the term");
}

#[test]
fn two_things_of_one_name() {
    let f = function("f", 0, &[value(UNIT)], &["return"], "");
    assert!(why(&program(&[f.clone(), f.clone()]), "").contains("two functions of one name"));
    let one = "(lcons (pair \"m::S\" (fields (tcons (tyInt 8) tnil))) lnil)";
    let other = "(lcons (pair \"m::S\" (fields (tcons (tyInt 16) tnil))) lnil)";
    let with = |name: &str, table: &str| function(name, 0, &[value(UNIT)], &["return"], table);
    assert!(why(&program(&[with("f", one), with("g", other)]), "").contains("two types of the name m::S"));
    let clash = [
        f,
        function("a::b", 0, &[value(UNIT)], &["return"], ""),
        function("a_b", 0, &[value(UNIT)], &["return"], ""),
    ];
    assert!(why(&program(&clash), "").contains("another name is the same in C"));
}

#[test]
fn what_is_not_declared() {
    assert!(refused(&[value(&named("m::S"))], &["return"]).contains("not declared: m::S"));
    assert!(in_u64(&[&assign(&at(7), "rvOpd (int 64 1)")]).contains("a local that is not there: 7"));
    assert!(refused(&[value(UNIT), value(PTR)], &["return"]).contains("nothing tells what local 1 points to"));
}

#[test]
fn texts_that_are_no_terms() {
    for (text, told) in [
        ("program lnil (fnRef \"x\"", "a parenthesis that is not closed"),
        ("program lnil (fnRef \"x\"))", "a parenthesis that is closed and was not opened"),
        ("program lnil (fnRef \"x)", "a text without its second quotation mark"),
        ("program lnil", "no program"),
        ("program (lcons lnil) (fnRef \"x\")", "no list of lcons and lnil"),
    ] {
        assert!(why(text, "").contains(told), "{text}");
    }
}

#[test]
fn every_signed_operation() {
    for operator in ["add", "sub", "mul", "div", "rem", "shr", "lt", "le"] {
        let signed = assign(&at(0), &format!("op2 ({operator} signed) {} {}", copy(1), copy(2)));
        let why = in_u64(&[&signed, "return"]);
        assert!(why.contains(&format!("unknown operation: ({operator} signed)")), "{why}");
    }
    for cast in ["(cast signed unsigned 64)", "(cast unsigned signed 64)"] {
        let why = in_u64(&[&assign(&at(0), &format!("op1 {cast} {}", copy(1))), "return"]);
        assert!(why.contains("unknown operation"), "{why}");
    }
}

/// The types of the tests below: a struct, an enum of a variant with a byte, one without and one with two fields.
fn two_types() -> String {
    let of_struct = format!("(pair \"m::S\" (fields (tcons {U8} (tcons {U64} tnil))))");
    let of_enum = format!(
        "(pair \"m::E\" (variants (ttcons (tcons {U8} tnil) (ttcons tnil (ttcons (tcons {U64} (tcons {BOOL} tnil)) ttnil)))))"
    );
    format!("(lcons {of_struct} (lcons {of_enum} lnil))")
}

/// Why a statement is refused: local 1 is a slice, 2 a struct, 3 an enum, 4 a pointer, 5 a byte, 6 and 7 bools, 8 a word.
fn in_types(statement: &str) -> String {
    let locals = [
        value(UNIT),
        value(&slice("imm", U8)),
        value(&named("m::S")),
        value(&named("m::E")),
        value(&reference("imm", U8)),
        value(U8),
        value(BOOL),
        value(BOOL),
        value(U64),
    ];
    why(&program(&[function("f", 0, &locals, &[statement, "return"], &two_types())]), "")
}

fn in_variant(local: usize, variant: usize, number: usize) -> String {
    format!("(place {local} (lcons (variant {variant}) (lcons (field {number}) lnil)))")
}

#[test]
fn fields_that_are_not_there() {
    let read = |to: usize, from: &str| in_types(&assign(&at(to), &format!("rvOpd (copy {from})")));
    assert!(read(8, &field(1, 2)).contains("no field 2 of Slice"));
    assert!(read(8, &field(2, 2)).contains("no field 2 of Named"));
    assert!(read(8, &field(3, 0)).contains("no field 0 of Named"));
    assert!(read(8, &field(8, 0)).contains("no field 0 of Int(W64)"));
    assert!(read(8, &in_variant(3, 2, 3)).contains("no field 2 in variant 2"));
    assert!(read(8, &in_variant(3, 3, 1)).contains("no field 0 in variant 3"));
    assert!(read(8, &in_variant(2, 0, 1)).contains("no field 0 in variant 0"));
    assert!(read(8, &in_variant(3, 0, 0)).contains("Int(W8) where Int(W64) is wanted"));
    assert!(read(3, "(place 3 (lcons (variant 0) lnil))").contains("a variant taken whole"));
}

#[test]
fn operations_on_what_has_none() {
    let made = |to: usize, value_of: &str| in_types(&assign(&at(to), value_of));
    let both = |operator: &str, local: usize| format!("op2 {operator} {} {}", copy(local), copy(local));
    assert!(made(6, &both("(lt unsigned)", 7)).contains("Lt of Bool and Bool"));
    assert!(made(6, &both("(add unsigned)", 7)).contains("Add of Bool and Bool"));
    assert!(made(6, &both("eq", 4)).contains("Eq of Ref"));
    assert!(made(6, &both("eq", 2)).contains("Eq of Named"));
    assert!(made(4, &format!("op1 not {}", copy(4))).contains("Not of Ref"));
    assert!(made(8, &format!("op1 (cast unsigned unsigned 64) {}", copy(4))).contains("Cast(W64) of Ref"));
    assert!(made(4, &format!("op2 offset {} {}", copy(4), copy(5))).contains("an offset of Ref"));
    assert!(made(4, &format!("op2 offset {} {}", copy(8), copy(8))).contains("an offset of Int(W64)"));
    let followed = made(8, &format!("rvOpd (copy {})", behind(8, U64)));
    assert!(followed.contains("Int(W64) followed as a pointer"), "{followed}");
}

#[test]
fn zeros_of_what_is_not_64_bits_wide() {
    for operation in ["leadingZeros", "trailingZeros"] {
        let counted = assign(&at(0), &format!("op1 {operation} {}", copy(1)));
        let why = refused(&[value(U32), value(U32)], &[&counted, "return"]);
        assert!(why.contains("Zeros of Int(W32)"), "{why}");
        assert!(translated(
            &program(&[function("f", 0, &[value(U32), value(U64)], &[&counted, "return"], "")]),
            "",
            portable::Form::Plain
        )
        .is_ok());
    }
}

#[test]
fn values_of_other_parts_than_their_type() {
    let made = |to: usize, parts: &[&str]| {
        let parts = parts.iter().rev().fold("lnil".to_string(), |rest, part| format!("(lcons {part} {rest})"));
        in_types(&assign(&at(to), &format!("aggregate {parts}")))
    };
    assert!(made(2, &["(int 8 1)"]).contains("made of 1 parts"));
    assert!(made(2, &["(int 8 1)", "(int 64 1)", "(int 64 1)"]).contains("made of 3 parts"));
    assert!(made(2, &["(int 8 1)", "(int 8 1)"]).contains("Int(W8) where Int(W64) is wanted"));
    assert!(made(3, &["(int 8 3)"]).contains("no variant 3 of m::E"));
    assert!(made(3, &["(int 8 0)"]).contains("made of 1 parts"));
    assert!(made(3, &["(int 8 0)", "(int 64 1)"]).contains("Int(W64) where Int(W8) is wanted"));
    assert!(made(3, &[&copy(5)]).contains("without its tag"));
    assert!(made(1, &[&copy(4)]).contains("made of 1 parts"));
    let array = [value(UNIT), value(&array(U8, 2))];
    for parts in ["(lcons (int 8 1) lnil)", "(lcons (int 8 1) (lcons (int 8 1) (lcons (int 8 1) lnil)))"] {
        let made = assign(&at(1), &format!("aggregate {parts}"));
        assert!(refused(&array, &[&made, "return"]).contains("made of"), "{parts}");
    }
}

#[test]
fn arguments_that_do_not_fit() {
    let g = |ty: &str| function("g", 1, &[value(UNIT), value(ty)], &["return"], "");
    let told = |given: &str, wanted: &str, count: usize| {
        let arguments = (0..count).fold("lnil".to_string(), |rest, _| format!("(lcons {} {rest})", copy(1)));
        let call = format!("call (direct (fnRef \"m::g\")) {arguments} {}", at(0));
        let f = function("f", 1, &[value(UNIT), value(given)], &[&call, "return"], "");
        translated(&program(&[g(wanted), f]), "a: T", portable::Form::Plain)
    };
    assert!(told(U8, U8, 1).is_ok());
    assert!(told(U8, U8, 2).expect_err("refused").contains("2 arguments for m::g"));
    assert!(told(U8, U64, 1).expect_err("refused").contains("where Int(W64) is wanted"));
    let pointer = |mutability: &str, ty: &str| reference(mutability, ty);
    assert!(told(&pointer("mut", U8), &pointer("imm", U8), 1).is_ok());
    for (given, wanted) in [(pointer("imm", U8), pointer("mut", U8)), (pointer("imm", U16), pointer("imm", U8))]
    {
        assert!(told(&given, &wanted, 1).expect_err("refused").contains("is wanted"), "{given}");
    }
    assert!(told(&slice("imm", U8), &slice("mut", U8), 1).expect_err("refused").contains("is wanted"));
}

#[test]
fn an_array_that_is_followed_as_a_longer_one() {
    let locals = [value(&array(U8, 8)), value(&reference("imm", &array(U8, 4)))];
    let body = assign(&at(0), &format!("rvOpd (copy {})", behind(1, &array(U8, 8))));
    let term = program(&[function("f", 1, &locals, &[&body, "return"], "")]);
    assert!(why(&term, "p: &[u8; 4]").contains("followed to Array(Int(W8), 8)"));
}

#[test]
fn what_is_for_reading_stays_so_behind_a_step_and_an_address() {
    let step = assign(&at(2), &format!("op2 offset (copy {}) (int 64 1)", field(1, 0)));
    let write = assign(&behind(2, U8), "rvOpd (int 8 1)");
    let locals = [value(UNIT), value(&slice("imm", U8)), value(PTR), value(&reference("mut", U8))];
    let term = program(&[function("f", 1, &locals, &[&step, &write, "return"], "")]);
    assert!(why(&term, "s: &[u8]").contains("a write through a pointer that is for reading"));
    let pointed = [value(UNIT), value(&reference("imm", U8)), value(&reference("mut", U8))];
    let again = assign(&at(2), &format!("addrOf {}", behind(1, U8)));
    let term = program(&[function("f", 1, &pointed, &[&again, "return"], "")]);
    assert!(why(&term, "p: &u8").contains("is wanted"));
}

/// Why a type of one name and shape is refused.
fn declared(shape: &str) -> String {
    let table = format!("(lcons (pair \"m::T\" {shape}) lnil)");
    why(&program(&[function("f", 0, &[value(UNIT)], &["return"], &table)]), "")
}

#[test]
fn types_without_a_value_in_c() {
    assert!(declared(&format!("(fields (tcons {} tnil))", array(U8, 0))).contains("an array without elements"));
    assert!(declared("(fields (tcons tyPtr tnil))").contains("a raw pointer where its elements are not told"));
    let of_itself = array(&named("m::T"), 2);
    assert!(declared(&format!("(fields (tcons {of_itself} tnil))")).contains("holds a value of itself"));
    let variants = (0..257).fold("ttnil".to_string(), |rest, _| format!("(ttcons tnil {rest})"));
    assert!(declared(&format!("(variants {variants})")).contains("more than 256 variants"));
}

#[test]
fn parameters_that_c_does_not_pass() {
    let told =
        |local: String| why(&program(&[function("f", 1, &[value(UNIT), local], &["return"], "")]), "a: T");
    assert!(told(memory(U8)).contains("local 1 has an address and is no value of its own"));
    let result = program(&[function("f", 0, &[memory(&array(U8, 4))], &["return"], "")]);
    assert!(why(&result, "").contains("local 0 has an address"));
}

#[test]
fn what_is_wrong_in_an_inner_body() {
    let wrong = assign(&at(0), "rvOpd (int 8 1)");
    let told = |statement: &str| refused(&[value(U64), value(BOOL), value(U8)], &[statement, "return"]);
    for inner in [
        format!("if {} skip ({wrong})", copy(1)),
        format!("block (loop ({wrong}))"),
        format!("switch {} (arm (lcons 0 lnil) skip (default ({wrong})))", copy(2)),
    ] {
        assert!(told(&inner).contains("Int(W8) where Int(W64) is wanted"), "{inner}");
    }
    let offset = assign(&at(2), &format!("op2 offset (copy {}) {}", field(1, 0), copy(3)));
    let locals = [value(UNIT), value(&slice("imm", U8)), value(PTR), value(U64), value(BOOL)];
    let inner = format!("if {} skip ({offset})", copy(4));
    assert!(refused(&locals, &[&inner, "return"]).contains("neither followed at once nor begins a slice"));
}

#[test]
fn a_stepped_pointer_that_is_kept() {
    let told = "neither followed at once nor begins a slice";
    let kept = assign(&at(6), &format!("rvOpd {}", copy(2)));
    let other = assign(&at(0), &format!("rvOpd (copy {})", behind(6, U8)));
    let begin = assign(&at(6), &format!("addrOf {}", behind(2, U8)));
    let offset = assign(&at(2), &format!("op2 offset (copy {}) {}", field(1, 0), copy(3)));
    let mut locals = vec![value(U8), value(&slice("imm", U8)), value(PTR), value(U64), value(BOOL)];
    locals.extend([value(&slice("imm", U8)), value(&reference("imm", U8))]);
    for (next, of) in [(kept, reference("imm", U8)), (other, reference("imm", U8)), (begin, PTR.to_string())] {
        // a raw pointer, where a reference would be one to an element
        locals[6] = value(&of);
        let term = program(&[function("f", 1, &locals, &[&offset, &next, "return"], "")]);
        assert!(why(&term, "s: &[u8]").contains(told), "{next}");
    }
    let table = format!("(lcons (pair \"m::S\" (fields (tcons {} tnil))) lnil)", reference("imm", U8));
    let locals = [value(UNIT), value(&slice("imm", U8)), value(&named("m::S")), value(U64)];
    let offset = assign(&field(2, 0), &format!("op2 offset (copy {}) {}", field(1, 0), copy(3)));
    let term = program(&[function("f", 1, &locals, &[&offset, "return"], &table)]);
    assert!(why(&term, "s: &[u8]").contains("a stepped pointer that is kept in a struct"));
}

/// The four statements of a cut with one of them in its place: local 2 is stepped by 7, 3 the length, 6 the begin, 5 the slice.
fn cut_with(place: usize, statement: &str) -> Result<String, String> {
    let mut body = [
        assign(&at(2), &format!("op2 offset (copy {}) {}", field(1, 0), copy(7))),
        assign(&at(3), &format!("op2 (sub unsigned) (copy {}) {}", field(1, 1), copy(7))),
        assign(&at(6), &format!("addrOf {}", behind(2, U8))),
        assign(&at(5), &format!("aggregate (lcons {} (lcons {} lnil))", copy(6), copy(3))),
    ];
    body[place] = statement.to_string();
    let byte = reference("imm", U8);
    let mut locals = vec![value(UNIT), value(&slice("imm", U8)), value(PTR), value(U64), value(&byte)];
    locals.extend([value(&slice("imm", U8)), value(&byte), value(U64), value(U64)]);
    let body: Vec<&str> = body.iter().map(String::as_str).chain(["return"]).collect();
    translated(&program(&[function("f", 1, &locals, &body, "")]), "s: &[u8]", portable::Form::Plain)
}

#[test]
fn cuts_that_are_no_cuts() {
    let begin = assign(&at(6), &format!("addrOf {}", behind(2, U8)));
    assert!(cut_with(2, &begin).expect("a cut").contains("t2 = cut_u8(t1.at, t7);"));
    let made = |pointer: usize, length: usize| {
        assign(&at(5), &format!("aggregate (lcons {} (lcons {} lnil))", copy(pointer), copy(length)))
    };
    for (place, statement) in [
        (1, assign(&at(3), &format!("op2 (add unsigned) (copy {}) {}", field(1, 1), copy(7)))),
        (2, assign(&at(6), &format!("addrOf {}", behind(4, U8)))),
        (3, made(4, 3)),
        (3, made(6, 8)),
        (3, made(6, 7)),
    ] {
        let told = cut_with(place, &statement).expect_err("refused");
        assert!(told.contains("neither followed at once nor begins a slice"), "{statement}: {told}");
    }
}

#[test]
fn enums_that_do_not_fit_the_sources() {
    let table = two_types();
    let term = program(&[function("f", 0, &[value(UNIT), value(&named("m::E"))], &["return"], &table)]);
    let told = |text: &str| {
        let sources = sources(&format!("{text} pub extern \"C\" fn f() {{ }}"));
        portable::translate(&term, &sources, portable::Form::Plain).map_err(|refused| refused.to_string())
    };
    assert!(told("pub enum E { A(u8), B, C { x: u64, y: bool } }").is_ok());
    for other in [
        "pub enum E { A(u8), B }",
        "pub enum E { A(u8), B, C { x: u64, y: bool }, D }",
        "pub enum E { A(u8), B, C { x: u64 } }",
        "pub enum E { A(u8), B(u8), C { x: u64, y: bool } }",
        "pub struct E { x: u64 }",
    ] {
        assert_eq!(told(other).expect_err(other), "m::E: the sources have other fields than the term");
    }
}

#[test]
fn a_type_and_a_function_of_one_name() {
    let table = format!("(lcons (pair \"m::g\" (fields (tcons {U8} tnil))) lnil)");
    let f = function("f", 0, &[value(UNIT)], &["return"], &table);
    let g = function("g", 0, &[value(UNIT)], &["return"], "");
    assert!(why(&program(&[f, g]), "").contains("m::g: another name is the same in C"));
}

#[test]
fn a_key_of_two_arms_beside_others() {
    let twice = "(arm (lcons 1 (lcons 2 lnil)) skip (arm (lcons 3 (lcons 2 lnil)) skip noDefault))";
    assert!(in_u64(&[&format!("switch {} {twice}", copy(1))]).contains("a key of two arms"));
}

#[test]
fn structs_that_are_no_slices() {
    let other = "(tyStruct \"&str\" (tcons (tyRef (named 0) imm (tyInt 8)) (tcons (tyInt 64) tnil)))";
    assert!(refused(&[value(UNIT), value(other)], &["return"]).contains("unknown type"));
    let short = "(tyStruct \"&[]\" (tcons (tyRef (named 0) imm (tyInt 8)) (tcons (tyInt 32) tnil)))";
    assert!(refused(&[value(UNIT), value(short)], &["return"]).contains("unknown slice"));
}

#[test]
fn a_cut_within_a_branch_is_one() {
    let cut = [
        assign(&at(2), &format!("op2 offset (copy {}) {}", field(1, 0), copy(4))),
        assign(&at(3), &format!("op2 (sub unsigned) (copy {}) {}", field(1, 1), copy(4))),
        assign(&at(6), &format!("addrOf {}", behind(2, U8))),
        assign(&at(5), &format!("aggregate (lcons {} (lcons {} lnil))", copy(6), copy(3))),
    ];
    let branch = format!("if {} skip {}", copy(7), seq(&cut.each_ref().map(String::as_str)));
    let mut locals = vec![value(UNIT), value(&slice("imm", U8)), value(PTR), value(U64), value(U64)];
    locals.extend([value(&slice("imm", U8)), value(&reference("imm", U8)), value(BOOL)]);
    let term = program(&[function("f", 1, &locals, &[&branch, "return"], "")]);
    let c = translated(&term, "s: &[u8]", portable::Form::Plain).expect("a cut");
    assert!(c.contains("t2 = cut_u8(t1.at, t4);"), "{c}");
}

#[test]
fn a_step_from_a_part_of_a_struct() {
    // a step from what points to a field, to a local, or to a parameter's one value could leave it
    let table = format!("(lcons (pair \"m::S\" (fields (tcons {U8} (tcons {U8} tnil)))) lnil)");
    let told = |of: &str, base: usize| {
        let locals = [
            value(U8),
            value(&reference("imm", U8)),
            memory(&named("m::S")),
            value(PTR),
            value(PTR),
            memory(U8),
        ];
        let body = [
            assign(&at(2), "aggregate (lcons (int 8 1) (lcons (int 8 2) lnil))"),
            assign(&at(3), &format!("addrOf {of}")),
            assign(&at(4), &format!("op2 offset {} (int 64 1)", copy(base))),
            assign(&at(0), &format!("rvOpd (copy {})", behind(4, U8))),
        ];
        let body: Vec<&str> = body.iter().map(String::as_str).chain(["return"]).collect();
        why(&program(&[function("f", 1, &locals, &body, &table)]), "p: &u8")
    };
    for (of, base) in [(field(2, 0), 3), (at(5), 3), (behind(1, U8), 3), (at(5), 1)] {
        assert!(told(&of, base).contains("a step from what is no slice and no array"), "{of}");
    }
}

#[test]
fn a_step_from_pointers_that_hold_one_another() {
    let locals = [value(U8), value(&slice("imm", U8)), value(PTR), value(PTR), value(PTR)];
    let body = [
        assign(&at(2), &format!("addrOf (place 1 (lcons (field 0) (lcons (deref {U8}) lnil)))")),
        assign(&at(3), &format!("addrOf {}", behind(2, U8))),
        assign(&at(2), &format!("addrOf {}", behind(3, U8))),
        assign(&at(4), &format!("op2 offset {} (int 64 1)", copy(3))),
        assign(&at(0), &format!("rvOpd (copy {})", behind(4, U8))),
    ];
    let body: Vec<&str> = body.iter().map(String::as_str).chain(["return"]).collect();
    let told = why(&program(&[function("f", 1, &locals, &body, "")]), "s: &[u8]");
    assert!(told.contains("a step from what is no slice and no array"), "{told}");
}

#[test]
fn an_array_in_memory_is_given_to_no_call() {
    let call = |local: usize| format!("call (direct (fnRef \"m::f\")) (lcons {} lnil) {}", copy(local), at(0));
    let locals = [value(U8), value(&array(U8, 2)), memory(&array(U8, 2))];
    let copied = assign(&at(2), &format!("rvOpd {}", copy(1)));
    let term = program(&[function("f", 1, &locals, &[&copied, &call(2), "return"], "")]);
    assert!(why(&term, "a: T").contains("an array in memory as a part of a value"));
}

#[test]
fn a_type_that_holds_a_value_of_itself() {
    let table = |of: &str| format!("(lcons (pair \"m::T\" (fields (tcons {of} tnil))) lnil)");
    for of in [named("m::T"), array(&named("m::T"), 2)] {
        let term = program(&[function("f", 0, &[value(UNIT)], &["return"], &table(&of))]);
        assert!(why(&term, "").contains("m::T: a type that holds a value of itself"), "{of}");
    }
    let of = reference("imm", &named("m::T"));
    let term = program(&[function("f", 0, &[value(UNIT)], &["return"], &table(&of))]);
    assert!(translated(&term, "", portable::Form::Plain).is_ok());
}
