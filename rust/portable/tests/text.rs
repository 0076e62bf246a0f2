//! What the C text has to be, rule by rule, on small terms: what makes it defined C, and what folding may not move.

mod small;

use portable::Form;
use small::*;

fn plain(term: &str, params: &str) -> String {
    translated(term, params, Form::Plain).expect("a plain form")
}

fn reading(term: &str, params: &str) -> String {
    translated(term, params, Form::Reading).expect("a reading form")
}

/// The plain statement of one operation on locals 1 and 2, of one type.
fn operation(ty: &str, value_of: &str) -> String {
    let term = program(&[function(
        "f",
        2,
        &[value(ty), value(ty), value(ty)],
        &[&assign(&at(0), value_of), "return"],
        "",
    )]);
    let c = plain(&term, "a: T, b: T");
    let line = c.lines().find(|line| line.trim_start().starts_with("t0 = ")).expect("an assignment").trim();
    line.to_string()
}

fn on_both(ty: &str, operator: &str) -> String {
    operation(ty, &format!("op2 {operator} {} {}", copy(1), copy(2)))
}

#[test]
fn every_operator_is_its_own() {
    for (operator, sign) in [
        ("(add unsigned)", "+"),
        ("(sub unsigned)", "-"),
        ("(mul unsigned)", "*"),
        ("(div unsigned)", "/"),
        ("(rem unsigned)", "%"),
        ("(shr unsigned)", ">>"),
        ("shl", "<<"),
        ("and", "&"),
        ("or", "|"),
        ("xor", "^"),
    ] {
        assert_eq!(on_both(U64, operator), format!("t0 = t1 {sign} t2;"));
    }
}

#[test]
fn every_comparison_is_its_own() {
    for (operator, sign) in [("(lt unsigned)", "<"), ("(le unsigned)", "<="), ("eq", "=="), ("ne", "!=")] {
        let body = assign(&at(0), &format!("op2 {operator} {} {}", copy(1), copy(2)));
        let term = program(&[function("f", 2, &[value(BOOL), value(U64), value(U64)], &[&body, "return"], "")]);
        assert!(plain(&term, "a: T, b: T").contains(&format!("t0 = t1 {sign} t2;")));
    }
}

#[test]
fn what_is_narrower_than_int_is_brought_back() {
    assert_eq!(on_both(U8, "(add unsigned)"), "t0 = (uint8_t)(t1 + t2);");
    assert_eq!(on_both(U16, "(mul unsigned)"), "t0 = (uint16_t)(t1 * t2);");
    assert_eq!(on_both(U32, "(add unsigned)"), "t0 = t1 + t2;");
    assert_eq!(operation(U8, &format!("op1 not {}", copy(1))), "t0 = (uint8_t)~t1;");
    assert_eq!(operation(U64, &format!("op1 not {}", copy(1))), "t0 = ~t1;");
    assert_eq!(operation(BOOL, &format!("op1 not {}", copy(1))), "t0 = !t1;");
    assert_eq!(on_both(BOOL, "or"), "t0 = (_Bool)(t1 | t2);");
}

#[test]
fn a_narrow_shift_is_made_in_32_bits() {
    assert_eq!(on_both(U8, "shl"), "t0 = (uint8_t)((uint32_t)t1 << t2);");
    assert_eq!(on_both(U32, "shl"), "t0 = t1 << t2;");
}

#[test]
fn a_literal_that_is_shifted_or_meets_another_has_its_type() {
    let shifted = operation(U64, &format!("op2 shl (int 64 1) {}", copy(1)));
    assert_eq!(shifted, "t0 = UINT64_C(1) << t1;");
    assert_eq!(
        operation(U64, "op2 (mul unsigned) (int 64 70000) (int 64 70000)"),
        "t0 = UINT64_C(70000) * UINT64_C(70000);"
    );
    assert_eq!(operation(U32, &format!("op2 shl (int 32 1) {}", copy(1))), "t0 = UINT32_C(1) << t1;");
    assert_eq!(operation(U64, &format!("op2 (add unsigned) {} (int 64 1)", copy(1))), "t0 = t1 + 1;");
    assert_eq!(operation(U64, "rvOpd (int 64 18446744073709551615)"), "t0 = UINT64_C(0xFFFFFFFFFFFFFFFF);");
}

#[test]
fn a_cast_has_the_width_of_its_result() {
    let body = assign(&at(0), &format!("op1 (cast unsigned unsigned 8) {}", copy(1)));
    let term = program(&[function("f", 1, &[value(U8), value(U64)], &[&body, "return"], "")]);
    assert!(plain(&term, "a: u64").contains("t0 = (uint8_t)t1;"));
}

/// Reads element local 2, counted in bytes, of a slice.
fn element(ty: &str) -> String {
    let offset = assign(&at(3), &format!("op2 offset (copy {}) {}", field(1, 0), copy(2)));
    let read = assign(&at(0), &format!("rvOpd (copy {})", behind(3, ty)));
    let locals = [value(ty), value(&slice("imm", ty)), value(U64), value(PTR)];
    program(&[function("f", 2, &locals, &[&offset, &read, "return"], "")])
}

#[test]
fn an_index_counts_elements() {
    for (ty, index) in [(U8, "t2"), (U16, "t2 / 2"), (U32, "t2 / 4"), (U64, "t2 / 8"), (BOOL, "t2")] {
        assert!(plain(&element(ty), "s: &[T], at: u64").contains(&format!("t3 = t1.at + {index};")));
    }
    assert!(reading(&element(U16), "s: &[T], at: u64").contains("return s.at[at / 2];"));
}

#[test]
fn a_product_with_the_elements_size_is_the_index() {
    let times = |size: u64| {
        let product = assign(&at(4), &format!("op2 (mul unsigned) {} (int 64 {size})", copy(2)));
        let offset = assign(&at(3), &format!("op2 offset (copy {}) {}", field(1, 0), copy(4)));
        let read = assign(&at(0), &format!("rvOpd (copy {})", behind(3, U16)));
        let locals = [value(U16), value(&slice("imm", U16)), value(U64), value(PTR), value(U64)];
        program(&[function("f", 2, &locals, &[&product, &offset, &read, "return"], "")])
    };
    assert!(reading(&times(2), "s: &[T], at: u64").contains("return s.at[at];"));
    assert!(reading(&times(4), "s: &[T], at: u64").contains("return s.at[(at * 4) / 2];"));
}

#[test]
fn arrays_are_made_and_moved_whole() {
    let ones = assign(&at(1), "repeat (int 8 255) 12");
    let zeros = assign(&at(2), "repeat (int 64 0) 8");
    let moved = assign(&behind(3, &array(U64, 8)), &format!("rvOpd {}", copy(4)));
    let locals = [
        value(UNIT),
        memory(&array(U8, 12)),
        memory(&array(U64, 8)),
        value(&reference("mut", &array(U64, 8))),
        value(&array(U64, 8)),
        value(&reference("imm", &array(U8, 12))),
    ];
    let begin = assign(&at(3), &format!("addrOf {}", at(2)));
    let first = assign(&at(5), &format!("addrOf {}", at(1)));
    let body = [ones, zeros, first, begin, moved, "return".to_string()];
    let term = program(&[function("f", 0, &locals, &body.each_ref().map(String::as_str), "")]);
    let c = plain(&term, "");
    assert!(c.contains("memset(t1, 255, sizeof t1);"), "{c}");
    assert!(c.contains("memset(t2, 0, sizeof t2);"), "{c}");
    assert!(c.contains("memcpy(t3, t4.at, 8 * sizeof(uint64_t));"), "{c}");
}

fn loop_of(body: &[&str]) -> String {
    format!("block (loop {})", seq(body))
}

#[test]
fn a_turn_and_an_end_of_a_loop() {
    let body = loop_of(&[&format!("if {} (exit 0) (exit 1)", copy(1))]);
    let term = program(&[function("f", 1, &[value(UNIT), value(BOOL)], &[&body, "return"], "")]);
    let c = plain(&term, "again: bool");
    let flat: Vec<&str> = c.split_whitespace().collect();
    assert!(flat.join(" ").contains("for (;;) { if (t1) { continue; } else { break; } }"), "{c}");
}

#[test]
fn a_loop_that_begins_with_its_test_is_a_while() {
    let test = assign(&at(3), &format!("op2 (lt unsigned) {} {}", copy(2), copy(1)));
    let leave = format!("if {} skip (exit 1)", copy(3));
    let next = assign(&at(2), &format!("op2 (add unsigned) {} (int 64 1)", copy(2)));
    let first = assign(&at(2), "rvOpd (int 64 0)");
    let result = assign(&at(0), &format!("rvOpd {}", copy(2)));
    let body = [first, loop_of(&[&test, &leave, &next]), result, "return".to_string()];
    let body: Vec<&str> = body.iter().map(String::as_str).collect();
    let term = program(&[function("f", 1, &[value(U64), value(U64), value(U64), value(BOOL)], &body, "")]);
    let c = reading(&term, "n: u64");
    let flat: Vec<&str> = c.split_whitespace().collect();
    assert!(flat.join(" ").contains("uint64_t t2 = 0; while (t2 < n) { t2 = t2 + 1; } return t2;"), "{c}");
}

#[test]
fn the_last_arm_of_a_switch_is_also_its_default() {
    let arms = "(arm (lcons 0 lnil) (assign (place 0 lnil) (rvOpd (int 64 5))) (arm (lcons 1 (lcons 2 lnil)) (assign (place 0 lnil) (rvOpd (int 64 6))) noDefault))";
    let term = program(&[function(
        "f",
        1,
        &[value(U64), value(U8)],
        &[&format!("switch {} {arms}", copy(1)), "return"],
        "",
    )]);
    let c = plain(&term, "of: u8");
    let flat: Vec<&str> = c.split_whitespace().collect();
    assert!(
        flat.join(" ")
            .contains("switch (t1) { case 0: t0 = 5; break; case 1: case 2: default: t0 = 6; break; }"),
        "{c}"
    );
    let c = reading(&term, "of: u8");
    let flat: Vec<&str> = c.split_whitespace().collect();
    assert!(
        flat.join(" ").contains("switch (of) { case 0: return 5; case 1: case 2: default: return 6; }"),
        "{c}"
    );
}

#[test]
fn a_loop_is_left_from_within_a_switch() {
    let arms = "(arm (lcons 0 lnil) (exit 1) (arm (lcons 1 lnil) (exit 0) noDefault))";
    let body = loop_of(&[&format!("switch {} {arms}", copy(1))]);
    let term = program(&[function("f", 1, &[value(UNIT), value(U8)], &[&body, "return"], "")]);
    let c = plain(&term, "of: u8");
    let flat: Vec<&str> = c.split_whitespace().collect();
    assert!(flat.join(" ").contains("for (;;) { if (t1 == 0) { break; } else { continue; } }"), "{c}");
}

/// A program whose locals 4 to 6 are temporaries, with what it returns.
fn folded(body: &[&str]) -> String {
    let g = function(
        "g",
        1,
        &[value(U64), value(&slice("mut", U8))],
        &[&assign(&at(0), "rvOpd (int 64 1)"), "return"],
        "",
    );
    let locals = [
        value(U64),
        value(&slice("mut", U8)),
        value(U64),
        value(U64),
        value(U64),
        value(U64),
        value(U8),
        value(&reference("mut", U8)),
        value(&reference("mut", U8)),
    ];
    let f = function("f", 3, &locals, body, "");
    let c = reading(&program(&[g, f]), "s: &mut [u8], a: u64, b: u64");
    let from = c.find("uint64_t f(").expect("the function");
    c[from..].split_whitespace().collect::<Vec<_>>().join(" ")
}

fn sum(to: usize, left: usize, right: usize) -> String {
    assign(&at(to), &format!("op2 (add unsigned) {} {}", copy(left), copy(right)))
}

fn returned(local: usize) -> String {
    assign(&at(0), &format!("rvOpd {}", copy(local)))
}

/// The byte at a place of the slice, read into local 6 and widened into a local.
fn read_byte() -> [String; 2] {
    [
        assign(&at(7), &format!("op2 offset (copy {}) {}", field(1, 0), copy(2))),
        assign(&at(6), &format!("rvOpd (copy {})", behind(7, U8))),
    ]
}

fn write_byte() -> [String; 2] {
    [
        assign(&at(8), &format!("op2 offset (copy {}) {}", field(1, 0), copy(3))),
        assign(&behind(8, U8), "rvOpd (int 8 7)"),
    ]
}

fn call_g(to: usize) -> String {
    format!("call (direct (fnRef \"m::g\")) (lcons {} lnil) {}", copy(1), at(to))
}

fn widened(to: usize) -> String {
    assign(&at(to), &format!("op1 (cast unsigned unsigned 64) {}", copy(6)))
}

#[test]
fn a_temporary_goes_into_its_one_use() {
    let c = folded(&[&sum(4, 2, 3), &sum(5, 4, 2), &returned(5), "return"]);
    assert!(c.contains("return a + b + a;"), "{c}");
}

#[test]
fn a_temporary_with_two_uses_stays() {
    let c = folded(&[&sum(4, 2, 3), &sum(5, 4, 4), &returned(5), "return"]);
    assert!(c.contains("uint64_t t4 = a + b; return t4 + t4;"), "{c}");
}

#[test]
fn a_temporary_that_is_needed_later_stays() {
    let c = folded(&[&sum(4, 2, 3), &sum(2, 4, 3), &sum(5, 4, 2), &returned(5), "return"]);
    assert!(c.contains("uint64_t t4 = a + b; a = t4 + b; return t4 + a;"), "{c}");
}

#[test]
fn a_temporary_that_is_needed_where_a_loop_is_left_stays() {
    let test = assign(&at(6), &format!("op2 eq {} {}", copy(2), copy(3)));
    let leave = format!("if {} (exit 1) skip", copy(6));
    let locals =
        [value(U64), value(&slice("mut", U8)), value(U64), value(U64), value(U64), value(U64), value(BOOL)];
    let first = assign(&at(4), "rvOpd (int 64 1)");
    let turns = loop_of(&[&sum(4, 2, 3), &test, &leave, &sum(2, 4, 2), &assign(&at(4), "rvOpd (int 64 2)")]);
    let body = [first, turns, returned(4), "return".to_string()];
    let f = function("f", 3, &locals, &body.each_ref().map(String::as_str), "");
    let c = reading(&program(&[f]), "s: &mut [u8], a: u64, b: u64");
    let flat = c.split_whitespace().collect::<Vec<_>>().join(" ");
    assert!(flat.contains("t4 = a + b; if (a == b) { break; } a = t4 + a;"), "{c}");
}

#[test]
fn a_value_is_not_moved_behind_what_changes_it() {
    let c = folded(&[&sum(4, 2, 3), &sum(2, 2, 2), &sum(5, 4, 2), &returned(5), "return"]);
    assert!(c.contains("uint64_t t4 = a + b; a = a + a; return t4 + a;"), "{c}");
}

#[test]
fn a_read_is_not_moved_behind_a_write() {
    let [at_read, read] = read_byte();
    let [at_write, write] = write_byte();
    let c = folded(&[&at_read, &read, &at_write, &write, &widened(4), &returned(4), "return"]);
    assert!(c.contains("uint8_t t6 = s.at[a]; s.at[b] = 7; return (uint64_t)t6;"), "{c}");
    let c = folded(&[&at_read, &read, &widened(4), &returned(4), "return"]);
    assert!(c.contains("return (uint64_t)s.at[a];"), "{c}");
}

#[test]
fn a_read_is_not_moved_behind_a_call() {
    let [at_read, read] = read_byte();
    let c = folded(&[&at_read, &read, &call_g(5), &widened(4), &sum(0, 4, 5), "return"]);
    assert!(c.contains("uint8_t t6 = s.at[a]; uint64_t t5 = m_g(s);"), "{c}");
}

#[test]
fn a_read_is_not_moved_behind_a_branch_that_writes() {
    let [at_read, read] = read_byte();
    let [at_write, write] = write_byte();
    let test = assign(&at(9), &format!("op2 eq {} {}", copy(2), copy(3)));
    let branch = format!("if {} {} skip", copy(9), seq(&[&at_write, &write]));
    let locals = [
        value(U64),
        value(&slice("mut", U8)),
        value(U64),
        value(U64),
        value(U64),
        value(U64),
        value(U8),
        value(&reference("mut", U8)),
        value(&reference("mut", U8)),
        value(BOOL),
    ];
    let f =
        function("f", 3, &locals, &[&at_read, &read, &test, &branch, &widened(4), &returned(4), "return"], "");
    let c = reading(&program(&[f]), "s: &mut [u8], a: u64, b: u64");
    let flat = c.split_whitespace().collect::<Vec<_>>().join(" ");
    assert!(flat.contains("uint8_t t6 = s.at[a]; if (a == b) { s.at[b] = 7; } return (uint64_t)t6;"), "{c}");
}

#[test]
fn a_call_goes_into_the_next_statement_alone() {
    let c = folded(&[&call_g(4), &sum(5, 4, 2), &returned(5), "return"]);
    assert!(c.contains("return m_g(s) + a;"), "{c}");
    let c = folded(&[&call_g(4), &sum(2, 3, 3), &sum(5, 4, 2), &returned(5), "return"]);
    assert!(c.contains("uint64_t t4 = m_g(s); a = b + b; return t4 + a;"), "{c}");
}

#[test]
fn two_calls_are_not_in_one_expression() {
    let c = folded(&[&call_g(4), &call_g(5), &sum(0, 4, 5), "return"]);
    assert!(c.contains("uint64_t t4 = m_g(s); return t4 + m_g(s);"), "{c}");
}

#[test]
fn a_call_is_not_in_a_statement_that_reads_memory() {
    let g = function(
        "g",
        1,
        &[value(U64), value(&reference("mut", U64))],
        &[&assign(&at(0), "rvOpd (int 64 1)"), "return"],
        "",
    );
    let locals = [value(U64), value(&reference("mut", U64)), value(U64)];
    let read = assign(&at(0), &format!("op2 (add unsigned) {} (copy {})", copy(2), behind(1, U64)));
    let f = function("f", 1, &locals, &[&call_g(2), &read, "return"], "");
    let c = reading(&program(&[g, f]), "p: &mut u64");
    let flat = c.split_whitespace().collect::<Vec<_>>().join(" ");
    assert!(flat.contains("uint64_t t2 = m_g(p); return t2 + *p;"), "{c}");
}

#[test]
fn a_read_is_not_in_the_place_of_a_call() {
    let g = function(
        "g",
        1,
        &[value(U8), value(&slice("mut", U8))],
        &[&assign(&at(0), "rvOpd (int 8 1)"), "return"],
        "",
    );
    let pointer = value(&reference("mut", U8));
    let locals =
        [value(UNIT), value(&slice("mut", U8)), value(U64), pointer.clone(), value(U8), value(U64), pointer];
    let offset =
        |to: usize, by: usize| assign(&at(to), &format!("op2 offset (copy {}) {}", field(1, 0), copy(by)));
    let read = assign(&at(4), &format!("rvOpd (copy {})", behind(3, U8)));
    let index = assign(&at(5), &format!("op1 (cast unsigned unsigned 64) {}", copy(4)));
    let call = format!("call (direct (fnRef \"m::g\")) (lcons {} lnil) {}", copy(1), behind(6, U8));
    let body = [&offset(3, 2), &read, &index, &offset(6, 5), &call, "return"];
    let f = function("f", 2, &locals, &body, "");
    let c = reading(&program(&[g, f]), "s: &mut [u8], a: u64");
    let flat = c.split_whitespace().collect::<Vec<_>>().join(" ");
    assert!(flat.contains("uint8_t *t6 = s.at + (uint64_t)s.at[a]; *t6 = m_g(s);"), "{c}");
}

#[test]
fn a_call_is_not_what_a_chain_of_tests_is_on() {
    let g = function("g", 0, &[value(U8)], &[&assign(&at(0), "rvOpd (int 8 1)"), "return"], "");
    let call = format!("call (direct (fnRef \"m::g\")) lnil {}", at(1));
    let arms =
        |first: &str| format!("(arm (lcons 0 lnil) {first} (arm (lcons 1 lnil) skip (default (exit 0))))");
    let turns = |first: &str| loop_of(&[&call, &format!("switch {} {}", copy(1), arms(first))]);
    let term = |first: &str| {
        let f = function("f", 0, &[value(UNIT), value(U8)], &[&turns(first), "return"], "");
        program(&[g.clone(), f])
    };
    let flat = |c: String| c.split_whitespace().collect::<Vec<_>>().join(" ");
    let chain = flat(reading(&term("(exit 1)"), ""));
    assert!(
        chain.contains("uint8_t t1 = m_g(); if (t1 == 0) { break; } else if (t1 == 1) { } else { continue; }"),
        "{chain}"
    );
    let switch = flat(reading(&term("skip"), ""));
    assert!(switch.contains("switch (m_g()) { case 0: break; case 1: break; default: continue; }"), "{switch}");
}

#[test]
fn nothing_is_added_to_a_pointer_that_may_be_null() {
    let offset = assign(&at(2), &format!("op2 offset (copy {}) {}", field(1, 0), copy(3)));
    let length = assign(&at(4), &format!("op2 (sub unsigned) (copy {}) {}", field(1, 1), copy(3)));
    let begin = assign(&at(5), &format!("addrOf {}", behind(2, U16)));
    let cut = assign(&at(6), &format!("aggregate (lcons {} (lcons {} lnil))", copy(5), copy(4)));
    let result = assign(&at(0), &format!("rvOpd (copy {})", field(6, 1)));
    let slice = slice("mut", U16);
    let locals = [
        value(U64),
        value(&slice),
        value(PTR),
        value(U64),
        value(U64),
        value(&reference("mut", U16)),
        value(&slice),
    ];
    let term = program(&[function("f", 1, &locals, &[&offset, &length, &begin, &cut, &result, "return"], "")]);
    let c = plain(&term, "s: &mut [u16]");
    assert!(c.contains("t2 = cut_mut_u16(t1.at, t3 / 2);"), "{c}");
    assert!(c.contains("return from == 0 ? at : at + from;"), "{c}");
}

#[test]
fn nothing_goes_into_a_loop() {
    let test = assign(&at(9), &format!("op2 (lt unsigned) {} {}", copy(2), copy(4)));
    let leave = format!("if {} skip (exit 1)", copy(9));
    let next = sum(2, 2, 3);
    let locals = [
        value(U64),
        value(&slice("mut", U8)),
        value(U64),
        value(U64),
        value(U64),
        value(U64),
        value(U8),
        value(&reference("mut", U8)),
        value(&reference("mut", U8)),
        value(BOOL),
    ];
    let body = [sum(4, 2, 3), loop_of(&[&test, &leave, &next]), returned(2), "return".to_string()];
    let body: Vec<&str> = body.iter().map(String::as_str).collect();
    let c = reading(&program(&[function("f", 3, &locals, &body, "")]), "s: &mut [u8], a: u64, b: u64");
    let flat = c.split_whitespace().collect::<Vec<_>>().join(" ");
    assert!(flat.contains("uint64_t t4 = a + b; while (a < t4) { a = a + b; } return a;"), "{c}");
}

#[test]
fn what_a_turn_leaves_for_the_next_is_declared_outside() {
    let test = assign(&at(4), &format!("op2 eq {} {}", copy(2), copy(3)));
    let leave = format!("if {} skip (exit 1)", copy(4));
    let carried =
        format!("if {} ({}) ({})", copy(4), assign(&at(5), &format!("rvOpd {}", copy(2))), sum(2, 5, 2));
    let locals = [value(UNIT), value(BOOL), value(U64), value(U64), value(BOOL), value(U64)];
    let body = [loop_of(&[&carried, &test, &leave]), "return".to_string()];
    let body: Vec<&str> = body.iter().map(String::as_str).collect();
    let c = reading(&program(&[function("f", 3, &locals, &body, "")]), "p: bool, a: u64, b: u64");
    let flat = c.split_whitespace().collect::<Vec<_>>().join(" ");
    assert!(flat.contains("uint64_t t5; ") || flat.contains("uint64_t t5; uint8_t t4;"), "{c}");
    assert!(!flat[flat.find("for (;;)").expect("a loop")..].contains("uint64_t t5"), "{c}");
}

#[test]
fn a_constant_of_a_table_is_that_constant() {
    let table = assign(&at(1), "aggregate (lcons (int 64 5) (lcons (int 64 6) lnil))");
    let begin = assign(&at(2), &format!("addrOf {}", at(1)));
    let element = assign(&at(3), &format!("op2 offset {} (int 64 8)", copy(2)));
    let read = assign(&at(0), &format!("rvOpd (copy {})", behind(3, U64)));
    let locals = [value(U64), memory(&array(U64, 2)), value(PTR), value(PTR)];
    let term = program(&[function("f", 0, &locals, &[&table, &begin, &element, &read, "return"], "")]);
    assert!(reading(&term, "").contains("return 6;"));
    let c = plain(&term, "");
    assert!(c.contains("t1[0] = 5;") && c.contains("t1[1] = 6;") && c.contains("t3 = t2 + 1;"), "{c}");
}

#[test]
fn what_nobody_reads_is_computed_and_dropped() {
    let c = folded(&[&sum(4, 2, 3), &call_g(5), &returned(2), "return"]);
    assert!(c.contains("(void)(a + b); (void)m_g(s); return a;"), "{c}");
}

#[test]
fn parentheses_keep_the_order() {
    let product = assign(&at(5), &format!("op2 (mul unsigned) {} {}", copy(4), copy(3)));
    let c = folded(&[&sum(4, 2, 3), &product, &returned(5), "return"]);
    assert!(c.contains("return (a + b) * b;"), "{c}");
    let less = assign(&at(5), &format!("op2 (sub unsigned) {} {}", copy(2), copy(4)));
    let c = folded(&[&sum(4, 2, 3), &less, &returned(5), "return"]);
    assert!(c.contains("return a - (a + b);"), "{c}");
    let shifted = assign(&at(5), &format!("op2 shl {} (int 64 2)", copy(4)));
    let c = folded(&[&sum(4, 2, 3), &shifted, &returned(5), "return"]);
    assert!(c.contains("return (a + b) << 2;"), "{c}");
}

#[test]
fn a_call_for_c_has_a_pointer_and_a_length() {
    let term = program(&[function("f", 1, &[value(UNIT), value(&slice("mut", U8))], &["return"], "")]);
    assert!(plain(&term, "file: &mut [u8]").contains("void f(uint8_t *t1_at, size_t t1_len)"));
    assert!(reading(&term, "file: &mut [u8]").contains("void f(uint8_t *file_at, size_t file_len)"));
}

#[test]
fn the_same_term_gives_the_same_bytes() {
    let term = program(&[function("f", 1, &[value(U64), value(U64)], &[&returned(1), "return"], "")]);
    for form in [Form::Plain, Form::Reading] {
        assert_eq!(translated(&term, "a: u64", form), translated(&term, "a: u64", form));
    }
}

#[test]
fn names_are_apart_from_those_of_c() {
    let term =
        program(&[function("f", 2, &[value(U64), value(U64), value(U64)], &[&sum(0, 1, 2), "return"], "")]);
    assert!(reading(&term, "short: u64, t0: u64").contains("return short_2 + t0_2;"));
}

#[test]
fn a_constant_of_32_bits_keeps_its_width() {
    let masked = assign(&at(2), &format!("op2 or {} (int 32 4294901760)", copy(1)));
    let shifted = assign(&at(3), &format!("op2 shl {} (int 32 4)", copy(2)));
    let wide = assign(&at(0), &format!("op1 (cast unsigned unsigned 64) {}", copy(3)));
    let locals = [value(U64), value(U32), value(U32), value(U32)];
    let term = program(&[function("f", 1, &locals, &[&masked, &shifted, &wide, "return"], "")]);
    let c = reading(&term, "a: u32");
    assert!(c.contains("return (uint64_t)((a | UINT32_C(4294901760)) << 4);"), "{c}");
}

#[test]
fn two_constants_of_16_bits_are_no_ints() {
    assert_eq!(
        operation(U16, "op2 (mul unsigned) (int 16 255) (int 16 200)"),
        "t0 = (uint16_t)(UINT16_C(255) * UINT16_C(200));"
    );
}

#[test]
fn the_size_of_a_bool_is_the_compilers() {
    for (ty, element, size) in [(BOOL, "false", "4 * sizeof(_Bool)"), (U8, "(int 8 0)", "4")] {
        let made = assign(&behind(1, &array(ty, 4)), &format!("repeat {element} 4"));
        let locals = [value(UNIT), value(&reference("mut", &array(ty, 4)))];
        let c = plain(&program(&[function("f", 1, &locals, &[&made, "return"], "")]), "p: T");
        assert!(c.contains(&format!("memset(t1, 0, {size});")), "{c}");
    }
}

/// A function `g` that writes and tells a value of a type, and `f` that calls it and then does something with local 2.
fn after_a_call(ty: &str, told: &str, local: &str, rest: &[&str]) -> String {
    let written = assign(&behind(1, U64), "rvOpd (int 64 9)");
    let pointer = value(&reference("mut", U64));
    let told = assign(&at(0), &format!("rvOpd {told}"));
    let g = function("g", 1, &[value(ty), pointer.clone()], &[&written, &told, "return"], "");
    let call = call_g(2);
    let body: Vec<&str> = [&[call.as_str()], rest].concat();
    let f = function("f", 1, &[value(UNIT), pointer, value(ty), local.to_string()], &body, "");
    reading(&program(&[g, f]), "p: &mut u64")
}

#[test]
fn a_call_is_made_whose_branches_have_no_statements() {
    let c = after_a_call(BOOL, "true", &value(U64), &[&format!("if {} skip skip", copy(2)), "return"]);
    assert!(c.contains("(void)m_g(p);"), "{c}");
}

#[test]
fn a_call_is_made_whose_array_nobody_reads() {
    let made = assign(&at(3), &format!("aggregate (lcons {} (lcons (int 8 1) lnil))", copy(2)));
    let c = after_a_call(U8, "(int 8 1)", &value(&array(U8, 2)), &[&made, "return"]);
    assert!(c.contains("(void)m_g(p);"), "{c}");
}

#[test]
fn what_has_an_address_is_there_to_the_end() {
    let made = |array: usize, byte: u8| {
        seq(&[
            &assign(&at(array), &format!("repeat (int 8 {byte}) 4")),
            &assign(&at(4), &format!("addrOf {}", at(array))),
        ])
    };
    let branch = format!("if {} {} {}", copy(1), made(2, 7), made(3, 9));
    let read = assign(&at(0), &format!("rvOpd (copy {})", behind(4, U8)));
    let four = array(U8, 4);
    let locals = [value(U8), value(BOOL), memory(&four), memory(&four), value(&reference("imm", &four))];
    let c = reading(&program(&[function("f", 1, &locals, &[&branch, &read, "return"], "")]), "c: bool");
    let branch = c.find("if (c) {").expect("a branch");
    assert!(c[..branch].contains("uint8_t t2[4];") && c[..branch].contains("uint8_t t3[4];"), "{c}");
}

fn on_one_line(c: &str) -> String {
    c.split_whitespace().collect::<Vec<_>>().join(" ")
}

/// A loop around a switch on local 1, in both forms.
fn switch_in_a_loop(arms: &str) -> [String; 2] {
    let body = loop_of(&[&format!("switch {} {arms}", copy(1))]);
    let term = program(&[function("f", 2, &[value(UNIT), value(U8), value(BOOL)], &[&body, "return"], "")]);
    [plain(&term, "of: u8, ends: bool"), reading(&term, "of: u8, ends: bool")].map(|c| on_one_line(&c))
}

#[test]
fn a_loop_is_left_from_a_branch_within_a_switch() {
    let arms = format!("(arm (lcons 0 (lcons 1 lnil)) (if {} (exit 1) skip) (default (exit 0)))", copy(2));
    let [plain, reading] = switch_in_a_loop(&arms);
    assert!(plain.contains("if (t1 == 0 || t1 == 1) { if (t2) { break; } } else { continue; }"), "{plain}");
    assert!(
        reading.contains("if (of == 0 || of == 1) { if (ends) { break; } } else { continue; }"),
        "{reading}"
    );
    let [plain, _] = switch_in_a_loop("(default (exit 1))");
    assert!(plain.contains("for (;;) { { break; } }"), "{plain}");
}

#[test]
fn a_loop_within_a_switch_is_left_by_its_own_break() {
    let [plain, _] = switch_in_a_loop("(arm (lcons 0 lnil) (block (loop (exit 1))) (default skip))");
    assert!(plain.contains("switch (t1) { case 0: for (;;) { break; } break; default: break; }"), "{plain}");
}

#[test]
fn a_chain_of_tests_is_on_the_whole_value() {
    let masked = assign(&at(4), &format!("op2 and {} (int 64 3)", copy(2)));
    let switch = format!("switch {} (arm (lcons 0 lnil) (exit 1) (default skip))", copy(4));
    let c = folded(&[&loop_of(&[&masked, &switch]), &returned(2), "return"]);
    assert!(c.contains("if ((a & 3) == 0) { break; } else { }"), "{c}");
}

const OPERATORS: [(&str, &str); 8] = [
    ("(mul unsigned)", "*"),
    ("(div unsigned)", "/"),
    ("(rem unsigned)", "%"),
    ("(shr unsigned)", ">>"),
    ("shl", "<<"),
    ("and", "&"),
    ("or", "|"),
    ("xor", "^"),
];

#[test]
fn an_operation_within_another_has_parentheses() {
    for (inner, within) in OPERATORS {
        let first = assign(&at(4), &format!("op2 {inner} {} {}", copy(2), copy(3)));
        for (outer, around) in OPERATORS {
            let left = assign(&at(5), &format!("op2 {outer} {} {}", copy(4), copy(3)));
            let c = folded(&[&first, &left, &returned(5), "return"]);
            assert!(c.contains(&format!("return (a {within} b) {around} b;")), "{c}");
            let right = assign(&at(5), &format!("op2 {outer} {} {}", copy(3), copy(4)));
            let c = folded(&[&first, &right, &returned(5), "return"]);
            assert!(c.contains(&format!("return b {around} (a {within} b);")), "{c}");
        }
        let complement = assign(&at(5), &format!("op1 not {}", copy(4)));
        let c = folded(&[&first, &complement, &returned(5), "return"]);
        assert!(c.contains(&format!("return ~(a {within} b);")), "{c}");
    }
}

/// What `f(p: bool, a: u64, b: u64)` returns, a bool; local 4 is a number and 5 to 7 are bools.
fn told(body: &[&str]) -> String {
    let mut locals = vec![value(BOOL), value(BOOL), value(U64), value(U64), value(U64)];
    locals.extend([value(BOOL), value(BOOL), value(BOOL)]);
    on_one_line(&reading(&program(&[function("f", 3, &locals, body, "")]), "p: bool, a: u64, b: u64"))
}

#[test]
fn what_is_compared_is_a_sum_or_has_parentheses() {
    for (inner, within) in &OPERATORS[3..] {
        let first = assign(&at(4), &format!("op2 {inner} {} {}", copy(2), copy(3)));
        for (operator, sign) in [("(lt unsigned)", "<"), ("eq", "==")] {
            let compared = assign(&at(0), &format!("op2 {operator} {} {}", copy(4), copy(3)));
            let c = told(&[&first, &compared, "return"]);
            assert!(c.contains(&format!("return (a {within} b) {sign} b;")), "{c}");
        }
    }
    let less = assign(&at(5), &format!("op2 (lt unsigned) {} {}", copy(2), copy(3)));
    let same = assign(&at(0), &format!("op2 eq {} {}", copy(5), copy(1)));
    let c = told(&[&less, &same, "return"]);
    assert!(c.contains("return (a < b) == p;"), "{c}");
}

#[test]
fn every_comparison_has_its_opposite() {
    for (operator, sign, opposite) in
        [("(lt unsigned)", "<", ">="), ("(le unsigned)", "<=", ">"), ("eq", "==", "!="), ("ne", "!=", "==")]
    {
        let compared = assign(&at(5), &format!("op2 {operator} {} {}", copy(2), copy(3)));
        let once = assign(&at(6), &format!("op1 not {}", copy(5)));
        let c = told(&[&compared, &once, &returned(6), "return"]);
        assert!(c.contains(&format!("return a {opposite} b;")), "{c}");
        let twice = assign(&at(7), &format!("op1 not {}", copy(6)));
        let c = told(&[&compared, &once, &twice, &returned(7), "return"]);
        assert!(c.contains(&format!("return a {sign} b;")), "{c}");
    }
    let once = assign(&at(5), &format!("op1 not {}", copy(1)));
    let twice = assign(&at(6), &format!("op1 not {}", copy(5)));
    assert!(told(&[&once, &twice, &returned(6), "return"]).contains("return p;"));
}

#[test]
fn constants_are_what_they_are() {
    let assigned = |constant: &str| told(&[&assign(&at(0), &format!("rvOpd {constant}")), "return"]);
    assert!(assigned("true").contains("return 1;"));
    assert!(assigned("false").contains("return 0;"));
    assert_eq!(operation(U64, "rvOpd (int 64 4294967296)"), "t0 = UINT64_C(0x100000000);");
    let cut = assign(&at(0), "op1 (cast unsigned unsigned 8) (int 64 300)");
    let term = program(&[function("f", 0, &[value(U8)], &[&cut, "return"], "")]);
    assert!(plain(&term, "").contains("t0 = (uint8_t)UINT64_C(300);"));
}

#[test]
fn a_cast_is_of_the_whole_value() {
    let cast = assign(&at(6), &format!("op1 (cast unsigned unsigned 8) {}", copy(4)));
    let c = folded(&[&sum(4, 2, 3), &cast, &widened(5), &returned(5), "return"]);
    assert!(c.contains("return (uint64_t)(uint8_t)(a + b);"), "{c}");
}

#[test]
fn an_array_of_16_bits_is_moved_whole() {
    let moved = assign(&behind(1, &array(U16, 4)), &format!("rvOpd {}", copy(2)));
    let locals = [value(UNIT), value(&reference("mut", &array(U16, 4))), value(&array(U16, 4))];
    let term = program(&[function("f", 1, &locals, &[&moved, "return"], "")]);
    assert!(plain(&term, "to: &mut [u16; 4]").contains("memcpy(t1, t2.at, 4 * sizeof(uint16_t));"));
}

/// A call of `g` with a slice for reading, made of a pointer, which is local 5, and a length.
fn called_with(pointer: &str, length: &str) -> [String; 2] {
    let for_reading = slice("imm", U8);
    let g = function("g", 1, &[value(UNIT), value(&for_reading)], &["return"], "");
    let pointer = assign(&at(5), &format!("rvOpd (copy {pointer})"));
    let made = assign(&at(4), &format!("aggregate (lcons {} (lcons (copy {length}) lnil))", copy(5)));
    let call = format!("call (direct (fnRef \"m::g\")) (lcons {} lnil) {}", copy(4), at(0));
    let locals = [
        value(UNIT),
        value(&slice("mut", U8)),
        value(&for_reading),
        value(&for_reading),
        value(&for_reading),
        value(&reference("imm", U8)),
    ];
    let term = program(&[g, function("f", 3, &locals, &[&pointer, &made, &call, "return"], "")]);
    let params = "s: &mut [u8], r: &[u8], q: &[u8]";
    [plain(&term, params), reading(&term, params)].map(|c| on_one_line(&c))
}

#[test]
fn a_slice_is_another_where_pointer_and_length_are() {
    let [plain, reading] = called_with(&field(2, 0), &field(2, 1));
    assert!(plain.contains("t5 = t2.at; t4 = (slice_u8){t5, t2.len}; m_g(t4);"), "{plain}");
    assert!(reading.contains("m_g(r);"), "{reading}");
    let [_, reading] = called_with(&field(2, 0), &field(3, 1));
    assert!(reading.contains("m_g((slice_u8){r.at, q.len});"), "{reading}");
    let [_, reading] = called_with(&field(1, 0), &field(1, 1));
    assert!(reading.contains("m_g(lend_u8(s));"), "{reading}");
    assert!(reading.contains("return (slice_u8){slice.at, slice.len};"), "{reading}");
    let [_, reading] = called_with(&field(1, 0), &field(2, 1));
    assert!(reading.contains("m_g((slice_u8){s.at, r.len});"), "{reading}");
}

/// Two tables of two words in memory, local 2 first and local 1 last; locals 3 to 6 point, 7 and 8 are words.
fn tables(rest: &[&str]) -> String {
    let table = |to: usize, low: u64| {
        assign(&at(to), &format!("aggregate (lcons (int 64 {low}) (lcons (int 64 {}) lnil))", low + 1))
    };
    let mut locals = vec![value(U64), memory(&array(U64, 2)), memory(&array(U64, 2))];
    locals.extend((3..7).map(|_| value(&reference("mut", U64))));
    locals.extend([value(U64), value(U64)]);
    let (seven, five) = (table(2, 7), table(1, 5));
    let body: Vec<&str> = [&[seven.as_str(), five.as_str()], rest].concat();
    on_one_line(&reading(&program(&[function("f", 0, &locals, &body, "")]), ""))
}

fn begin_of(to: usize, table: usize) -> String {
    assign(&at(to), &format!("addrOf {}", at(table)))
}

fn element_of(to: usize, begin: usize, bytes: u64) -> String {
    assign(&at(to), &format!("op2 offset {} (int 64 {bytes})", copy(begin)))
}

fn word_at(to: usize, pointer: usize) -> String {
    assign(&at(to), &format!("rvOpd (copy {})", behind(pointer, U64)))
}

#[test]
fn a_table_that_is_read_twice_stays() {
    let c = tables(&[
        &begin_of(3, 1),
        &element_of(4, 3, 8),
        &word_at(7, 4),
        &element_of(5, 3, 0),
        &word_at(8, 5),
        &sum(0, 7, 8),
        "return",
    ]);
    assert!(c.contains("t1[0] = 5; t1[1] = 6; uint64_t *t3 = t1; return t3[1] + t3[0];"), "{c}");
}

#[test]
fn a_constant_is_of_the_table_that_is_pointed_to() {
    let other = [begin_of(3, 2), element_of(4, 3, 8), word_at(7, 4)];
    let own = [begin_of(5, 1), element_of(6, 5, 0), word_at(8, 6)];
    let result = sum(0, 7, 8);
    let body: Vec<&str> =
        other.iter().chain(&own).map(String::as_str).chain([result.as_str(), "return"]).collect();
    let c = tables(&body);
    assert!(c.contains("t2[0] = 7; t2[1] = 8;") && c.contains("t1[0] = 5; t1[1] = 6;"), "{c}");
    assert!(c.contains("return t2[1] + t1[0];"), "{c}");
}

#[test]
fn a_call_is_not_in_the_place_of_a_call() {
    let told = |name: &str, ty: &str| {
        let one = assign(&at(0), if ty == U8 { "rvOpd (int 8 1)" } else { "rvOpd (int 64 1)" });
        function(name, 1, &[value(ty), value(&slice("mut", U8))], &[&one, "return"], "")
    };
    let locals = [value(UNIT), value(&slice("mut", U8)), value(U64), value(&reference("mut", U8))];
    let offset = assign(&at(3), &format!("op2 offset (copy {}) {}", field(1, 0), copy(2)));
    let store = format!("call (direct (fnRef \"m::h\")) (lcons {} lnil) {}", copy(1), behind(3, U8));
    let f = function("f", 1, &locals, &[&call_g(2), &offset, &store, "return"], "");
    let c = on_one_line(&reading(&program(&[told("g", U64), told("h", U8), f]), "s: &mut [u8]"));
    assert!(c.contains("uint8_t *t3 = s.at + m_g(s); *t3 = m_h(s);"), "{c}");
}

#[test]
fn a_call_is_made_though_another_field_is_read() {
    let table = format!("(lcons (pair \"m::S\" (fields (tcons {U64} (tcons {U64} tnil)))) lnil)");
    let g = function("g", 1, &[value(U64), value(U64)], &[&returned(1), "return"], "");
    let call = format!("call (direct (fnRef \"m::g\")) (lcons {} lnil) {}", copy(1), at(2));
    let made = |of: usize| assign(&at(3), &format!("aggregate (lcons {} (lcons {} lnil))", copy(of), copy(1)));
    let read = |number: usize| assign(&at(0), &format!("rvOpd (copy {})", field(3, number)));
    let locals = [value(U64), value(U64), value(U64), value(&named("m::S"))];
    let f = |body: &[&str]| {
        let f = function("f", 1, &locals, body, &table);
        on_one_line(&reading(&program(&[g.clone(), f]), "a: u64"))
    };
    let c = f(&[&call, &made(2), &read(1), "return"]);
    assert!(c.contains("return (m_S){.f0 = m_g(a), .f1 = a}.f1;"), "{c}");
    let twice = assign(&at(2), &format!("op2 (add unsigned) {} {}", copy(1), copy(1)));
    let c = f(&[&twice, &made(2), &read(0), "return"]);
    assert!(c.contains("return a + a;"), "{c}");
    let c = f(&[&twice, &made(2), &read(1), "return"]);
    assert!(c.contains("return a;"), "{c}");
}

/// The reading form of `f(p: bool, a: u64)` whose locals 3 and 4 are numbers, 5 a bool.
fn numbered(body: &[&str]) -> String {
    let locals = [value(U64), value(BOOL), value(U64), value(U64), value(U64), value(BOOL)];
    on_one_line(&reading(&program(&[function("f", 2, &locals, body, "")]), "p: bool, a: u64"))
}

#[test]
fn only_the_result_is_returned() {
    let c = numbered(&[&returned(2), &sum(3, 2, 2), "return"]);
    assert!(c.contains("(void)(a + a); return a;"), "{c}");
    let set = |to: usize, number: u64| assign(&at(to), &format!("rvOpd (int 64 {number})"));
    let branches = |last: &str| format!("if {} {} ({})", copy(1), seq(&[&set(3, 5), last]), set(3, 6));
    let c = numbered(&[&branches(&set(4, 7)), &sum(0, 3, 4), "return"]);
    assert!(c.contains("if (p) { t3 = 5; t4 = 7; } else { t3 = 6; } return t3 + t4;"), "{c}");
    let c = numbered(&[&set(4, 1), &branches(&set(4, 7)), &returned(3), "return"]);
    assert!(c.contains("if (p) { t3 = 5;") && c.contains("} return t3;"), "{c}");
    let one = format!("if {} ({}) skip", copy(1), set(3, 5));
    let c = numbered(&[&set(3, 4), &one, &returned(3), "return"]);
    assert!(c.contains("uint64_t t3 = 4; if (p) { t3 = 5; } return t3;"), "{c}");
}

#[test]
fn a_loop_that_does_more_than_its_test_is_no_while() {
    let next = sum(2, 2, 2);
    let leave = |body: &[&str], other: &str| format!("if {} {} {other}", copy(1), seq(body));
    let c = numbered(&[&loop_of(&[&leave(&[&next, "exit 1"], "skip"), &next]), &returned(2), "return"]);
    assert!(c.contains("for (;;) { if (p) { a = a + a; break; } a = a + a; }"), "{c}");
    let c = numbered(&[&loop_of(&[&leave(&["return"], "skip"), &next]), &returned(2), "return"]);
    assert!(c.contains("for (;;) { if (p) { return t0; } a = a + a; }"), "{c}");
    let c = numbered(&[&loop_of(&[&leave(&["exit 0"], "skip"), &next]), &returned(2), "return"]);
    assert!(c.contains("for (;;) { if (p) { continue; } a = a + a; }"), "{c}");
}

#[test]
fn an_arm_that_does_not_leave_on_every_path_ends_with_a_break() {
    let inner = format!("(if {} {} skip)", copy(1), seq(&[&returned(2), "return"]));
    let arms = format!("(arm (lcons 0 lnil) {inner} (default skip))");
    let c = numbered(&[&format!("switch {} {arms}", copy(2)), &sum(0, 2, 2), "return"]);
    assert!(c.contains("case 0: if (p) { return a; } break; default: break; } return a + a;"), "{c}");
}

/// A struct `m::S` of a byte and a word, and an enum `m::E` of nothing or of a byte and a word.
fn byte_and_word() -> String {
    let fields = format!("(tcons {U8} (tcons {U32} tnil))");
    format!(
        "(lcons (pair \"m::S\" (fields {fields})) (lcons (pair \"m::E\" (variants (ttcons tnil (ttcons {fields} ttnil)))) lnil))"
    )
}

#[test]
fn a_pointer_may_be_to_a_struct_and_to_a_part_of_one() {
    let part = |steps: &str| format!("(place 1 (lcons (deref {}) {steps}))", named("m::S"));
    let field = part("(lcons (field 1) lnil)");
    let locals = [value(U32), value(&reference("mut", &named("m::S"))), value(&reference("mut", U32))];
    let body = [
        assign(&at(2), &format!("addrOf {field}")),
        assign(&behind(2, U32), "rvOpd (int 32 5)"),
        assign(&field, "rvOpd (int 32 6)"),
        assign(&at(0), &format!("rvOpd (copy {field})")),
    ];
    let body: Vec<&str> = body.iter().map(String::as_str).chain(["return"]).collect();
    let c = plain(&program(&[function("f", 1, &locals, &body, &byte_and_word())]), "p: &mut S");
    assert!(c.contains("uint32_t f(m_S *t1)\n"), "{c}");
    assert!(c.contains("    t2 = &t1->f1;\n    *t2 = 5;\n    t1->f1 = 6;\n    t0 = t1->f1;\n"), "{c}");
    // of a variant, and of a local
    let place = "(place 2 (lcons (variant 1) (lcons (field 2) lnil)))";
    let locals = [value(U32), value(&named("m::E")), memory(&named("m::E")), value(&reference("imm", U32))];
    let body = [
        assign(&at(2), &format!("rvOpd {}", copy(1))),
        assign(&at(3), &format!("addrOf {place}")),
        assign(&at(0), &format!("rvOpd (copy {})", behind(3, U32))),
    ];
    let body: Vec<&str> = body.iter().map(String::as_str).chain(["return"]).collect();
    let c = plain(&program(&[function("f", 1, &locals, &body, &byte_and_word())]), "e: E");
    assert!(c.contains("    t3 = &t2.as.v1.f1;\n    t0 = *t3;\n"), "{c}");
}

#[test]
fn a_slice_of_structs_is_stepped_by_the_machines_size() {
    // 8 bytes each: a byte, three that are padding, and a word of 32 bits
    let pointer = value(&reference("imm", &named("m::S")));
    let locals =
        [value(U32), value(&slice("imm", &named("m::S"))), value(U64), value(U64), value(PTR), pointer];
    let size = format!("(sizeOf {})", named("m::S"));
    let read = format!("(copy (place 5 (lcons (deref {}) (lcons (field 1) lnil))))", named("m::S"));
    let body = [
        assign(&at(3), &format!("op2 (mul unsigned) {} {size}", copy(2))),
        assign(&at(4), &format!("op2 offset (copy {}) {}", field(1, 0), copy(3))),
        assign(&at(5), &format!("addrOf {}", behind(4, &named("m::S")))),
        assign(&at(0), &format!("rvOpd {read}")),
    ];
    let body: Vec<&str> = body.iter().map(String::as_str).chain(["return"]).collect();
    let term = program(&[function("f", 2, &locals, &body, &byte_and_word())]);
    let c = plain(&term, "s: &[S], i: u64");
    assert!(c.contains("    t3 = t2 * 8;\n    t4 = t1.at + t3 / 8;\n    t5 = t4;\n    t0 = t5->f1;\n"), "{c}");
    assert!(reading(&term, "s: &[S], i: u64").contains("    return s.at[i].f1;\n"));
}

#[test]
fn sizes_are_the_machines() {
    let arrays = format!("(tcons {} (tcons {U16} (tcons {U8} tnil)))", array(&named("m::E"), 3));
    let between = format!("(tcons {U8} (tcons {U16} (tcons {U8} tnil)))");
    let table = format!(
        "(lcons (pair \"m::A\" (fields {arrays})) (lcons (pair \"m::B\" (fields {between})) {}))",
        byte_and_word()
    );
    let size = |of: &str| {
        let body = assign(&at(0), &format!("rvOpd (sizeOf {of})"));
        let c = plain(&program(&[function("f", 0, &[value(U64)], &[&body, "return"], &table)]), "");
        let line = c.lines().find(|line| line.trim_start().starts_with("t0 = ")).expect("an assignment");
        line.trim().to_string()
    };
    for (of, wanted) in [
        (U8.to_string(), 1),
        (BOOL.to_string(), 1),
        (U64.to_string(), 8),
        (array(U16, 5), 10),
        (UNIT.to_string(), 0),
        (named("m::S"), 8),
        // the tag, a byte, and a word at a multiple of its size
        (named("m::E"), 8),
        (named("m::A"), 28),
        (named("m::B"), 6),
    ] {
        assert_eq!(size(&of), format!("t0 = {wanted};"), "{of}");
    }
}

#[test]
fn what_has_no_value_is_nowhere_in_c() {
    let table = format!(
        "(lcons (pair \"m::N\" (fields tnil)) (lcons (pair \"m::W\" (fields (tcons {n} (tcons {U8} (tcons tyUnit tnil))))) \
         (lcons (pair \"m::R\" (variants (ttcons (tcons tyUnit tnil) (ttcons (tcons {n} (tcons {U8} tnil)) ttnil)))) lnil)))",
        n = named("m::N")
    );
    let call = format!(
        "call (direct (fnRef \"m::g\")) (lcons {} (lcons {} (lcons unit lnil))) {}",
        copy(2),
        copy(1),
        at(3)
    );
    let locals = [
        value(U8),
        value(U8),
        value(&named("m::N")),
        value(&named("m::W")),
        value(&named("m::R")),
        value(UNIT),
        value(&named("m::N")),
    ];
    let body = [
        assign(&at(2), "aggregate lnil"),
        call,
        assign(&at(6), &format!("rvOpd (copy {})", field(3, 0))),
        assign(&at(5), "rvOpd unit"),
        assign(&at(4), &format!("aggregate (lcons (int 8 1) (lcons {} (lcons {} lnil)))", copy(6), copy(1))),
        "call (direct (fnRef \"m::h\")) lnil (place 6 lnil)".to_string(),
        assign(&at(0), "rvOpd (copy (place 4 (lcons (variant 1) (lcons (field 2) lnil))))"),
    ];
    let body: Vec<&str> = body.iter().map(String::as_str).chain(["return"]).collect();
    let f = function("f", 1, &locals, &body, &table);
    let g = [value(&named("m::W")), value(&named("m::N")), value(U8), value(UNIT)];
    let made =
        assign(&at(0), &format!("aggregate (lcons {} (lcons {} (lcons {} lnil)))", copy(1), copy(2), copy(3)));
    let g = function("g", 3, &g, &[&made, "return"], &table);
    let h = function("h", 0, &[value(&named("m::N"))], &[&assign(&at(0), "aggregate lnil"), "return"], &table);
    let c = plain(&program(&[f, g, h]), "a: u8");
    assert!(c.contains("typedef struct {\n    uint8_t f1;\n} m_W;\n") && !c.contains("m_N"), "{c}");
    assert!(
        c.contains(
            "    union {\n        struct {\n            uint8_t f1;\n        } v1;\n    } as;\n} m_R;\n"
        ),
        "{c}"
    );
    assert!(
        c.contains("static inline m_W m_g(uint8_t t2)\n") && c.contains("static inline void m_h(void)\n"),
        "{c}"
    );
    assert!(c.contains("    t0 = (m_W){.f1 = t2};\n"), "{c}");
    assert!(c.contains("    (void)m_g(t1);\n"), "{c}");
    assert!(
        c.contains("    t4 = (m_R){.tag = 1, .as.v1.f1 = t1};\n    m_h();\n    t0 = t4.as.v1.f1;\n"),
        "{c}"
    );
}

#[test]
fn an_array_of_equal_structs_is_made_one_after_another() {
    let locals = [
        value(UNIT),
        value(&named("m::S")),
        memory(&array(&named("m::S"), 4)),
        value(PTR),
        value(&named("m::S")),
    ];
    let body = [
        assign(&at(2), &format!("repeat {} 4", copy(1))),
        assign(&at(3), &format!("addrOf {}", at(2))),
        assign(&at(4), &format!("rvOpd (copy {})", behind(3, &named("m::S")))),
    ];
    let body: Vec<&str> = body.iter().map(String::as_str).chain(["return"]).collect();
    let c = plain(&program(&[function("f", 1, &locals, &body, &byte_and_word())]), "s: S");
    let wanted = "    for (size_t at_each = 0; at_each < 4; at_each++) {\n        t2[at_each] = t1;\n    }\n";
    assert!(c.contains(wanted), "{c}");
}

#[test]
fn an_element_of_an_array_of_equal_ones_stays_where_it_is() {
    // a value that a call gives is no part of the loop; a word of 5 is no byte of 5
    let call = format!("call (direct (fnRef \"m::g\")) (lcons {} lnil) {}", copy(1), at(2));
    let made = assign(&at(0), &format!("repeat {} 3", copy(2)));
    let f = function("f", 1, &[value(&array(U64, 3)), value(U64), value(U64)], &[&call, &made, "return"], "");
    let g = function(
        "g",
        1,
        &[value(U64), value(U64)],
        &[&assign(&at(0), &format!("rvOpd {}", copy(1))), "return"],
        "",
    );
    let c = reading(&program(&[f, g]), "a: u64");
    let wanted = "    uint64_t t2 = m_g(a);\n    array_u64_3 t0;\n    for (size_t at_each = 0; at_each < 3; at_each++) {\n        t0.at[at_each] = t2;\n";
    assert!(c.contains(wanted), "{c}");
    let set = assign(&at(1), "rvOpd (int 64 5)");
    let f = function(
        "f",
        0,
        &[value(&array(U64, 3)), value(U64)],
        &[&set, &assign(&at(0), &format!("repeat {} 3", copy(1))), "return"],
        "",
    );
    let c = reading(&program(&[f]), "");
    assert!(c.contains("        t0.at[at_each] = t1;\n"), "{c}");
}

#[test]
fn an_array_is_given_to_a_call_as_a_value() {
    let made = assign(&at(2), &format!("aggregate (lcons {} (lcons {} lnil))", copy(1), copy(1)));
    let call = format!("call (direct (fnRef \"m::g\")) (lcons {} lnil) {}", copy(2), at(0));
    let f = function("f", 1, &[value(U8), value(U8), value(&array(U8, 2))], &[&made, &call, "return"], "");
    let read = [
        assign(&at(2), &format!("rvOpd {}", copy(1))),
        assign(&at(3), &format!("addrOf {}", at(2))),
        assign(&at(0), &format!("rvOpd (copy {})", behind(3, U8))),
    ];
    let locals = [value(U8), value(&array(U8, 2)), memory(&array(U8, 2)), value(PTR)];
    let g = function("g", 1, &locals, &[&read[0], &read[1], &read[2], "return"], "");
    let c = reading(&program(&[f, g]), "a: u8");
    assert!(c.contains("    array_u8_2 t2 = (array_u8_2){{a, a}};\n    return m_g(t2);\n"), "{c}");
    assert!(c.contains("static inline uint8_t m_g(array_u8_2 t1)\n{\n    uint8_t t2[2];\n    memcpy(t2, t1.at, sizeof t2);\n"), "{c}");
}

#[test]
fn a_reference_to_an_element_is_the_pointer_to_it() {
    let locals = [
        value(U64),
        value(&slice("imm", U64)),
        value(U64),
        value(U64),
        value(PTR),
        value(&reference("imm", U64)),
    ];
    let body = [
        assign(&at(3), &format!("op2 (mul unsigned) {} (int 64 8)", copy(2))),
        assign(&at(4), &format!("op2 offset (copy {}) {}", field(1, 0), copy(3))),
        assign(&at(5), &format!("addrOf {}", behind(4, U64))),
        assign(&at(0), &format!("op2 xor (copy {}) (copy {})", behind(5, U64), behind(5, U64))),
    ];
    let body: Vec<&str> = body.iter().map(String::as_str).chain(["return"]).collect();
    let c = reading(&program(&[function("f", 2, &locals, &body, "")]), "s: &[u64], i: u64");
    assert!(c.contains("    const uint64_t *t5 = s.at + i;\n    return *t5 ^ *t5;\n"), "{c}");
}

#[test]
fn a_slice_of_words_is_cut_at_a_product() {
    let locals = [
        value(&slice("imm", U64)),
        value(&slice("imm", U64)),
        value(U64),
        value(U64),
        value(PTR),
        value(U64),
        value(&reference("imm", U64)),
    ];
    let cut = |less: usize| {
        let body = [
            assign(&at(3), &format!("op2 (mul unsigned) {} (int 64 8)", copy(2))),
            assign(&at(4), &format!("op2 offset (copy {}) {}", field(1, 0), copy(3))),
            assign(&at(5), &format!("op2 (sub unsigned) (copy {}) {}", field(1, 1), copy(less))),
            assign(&at(6), &format!("addrOf {}", behind(4, U64))),
            assign(&at(0), &format!("aggregate (lcons {} (lcons {} lnil))", copy(6), copy(5))),
        ];
        let body: Vec<&str> = body.iter().map(String::as_str).chain(["return"]).collect();
        program(&[function("f", 2, &locals, &body, "")])
    };
    let c = reading(&cut(2), "s: &[u64], i: u64");
    assert!(c.contains("    return (slice_u64){cut_u64(s.at, i), s.len - i};\n"), "{c}");
    // another number than the one that is stepped is no cut
    let why = translated(&cut(3), "s: &[u64], i: u64", Form::Plain).expect_err("refused");
    assert!(why.contains("neither followed at once nor begins a slice"), "{why}");
}
