//! What small functions are where they are written out, in the reading form, and what is not followed there.

mod small;

use portable::Form;
use small::*;

fn reading(functions: &[String], params: &str) -> String {
    translated(&program(functions), params, Form::Reading).expect("a reading form")
}

fn plain(functions: &[String], params: &str) -> String {
    translated(&program(functions), params, Form::Plain).expect("a plain form")
}

/// A function of the kit's.
fn of_kit(name: &str, params: usize, locals: &[String], body: &[&str]) -> String {
    function(name, params, locals, body, &table()).replacen(&format!("m::{name}"), &format!("core::{name}"), 1)
}

/// `m::E` has nothing, or a byte; `m::S` is a byte and a word.
fn table() -> String {
    format!(
        "(lcons (pair \"m::E\" (variants (ttcons tnil (ttcons (tcons {U8} tnil) ttnil)))) \
         (lcons (pair \"m::S\" (fields (tcons {U8} (tcons {U64} tnil)))) lnil))"
    )
}

fn e() -> String {
    named("m::E")
}

fn s() -> String {
    named("m::S")
}

fn f(params: usize, locals: &[String], body: &[&str]) -> String {
    function("f", params, locals, body, &table())
}

fn call(name: &str, given: &[usize], target: usize) -> String {
    let given =
        given.iter().rev().fold("lnil".to_string(), |rest, local| format!("(lcons {} {rest})", copy(*local)));
    format!("call (direct (fnRef \"core::{name}\")) {given} {}", at(target))
}

fn variant(local: usize, variant: usize, field: usize) -> String {
    format!("(place {local} (lcons (variant {variant}) (lcons (field {field}) lnil)))")
}

fn part_behind(local: usize, number: usize) -> String {
    format!("(place {local} (lcons (deref {}) (lcons (field {number}) lnil)))", s())
}

fn put(local: usize, value: &str) -> String {
    assign(&at(local), &format!("rvOpd {value}"))
}

fn has(c: &str, wanted: &str) {
    assert!(c.contains(wanted), "{wanted} is not in\n{c}");
}

/// `core::less(p, q)` of two pointers to words.
fn less() -> String {
    let pointer = value(&reference("imm", U64));
    of_kit(
        "less",
        2,
        &[value(BOOL), pointer.clone(), pointer, value(U64), value(U64)],
        &[
            &put(3, &format!("(copy {})", behind(1, U64))),
            &put(4, &format!("(copy {})", behind(2, U64))),
            &assign(&at(0), &format!("op2 (lt unsigned) {} {}", copy(3), copy(4))),
            "return",
        ],
    )
}

/// `f(a, b)`, which gives it the addresses of its own words, in the order of two locals, behind some statements.
fn of_words(between: &[&str], given: [usize; 2]) -> String {
    let pointer = value(&reference("imm", U64));
    let locals =
        [value(BOOL), value(U64), value(U64), memory(U64), memory(U64), pointer.clone(), pointer, value(U64)];
    let (one, other) =
        (assign(&at(5), &format!("addrOf {}", at(3))), assign(&at(6), &format!("addrOf {}", at(4))));
    let set = [put(3, &copy(1)), put(4, &copy(2)), one, other];
    let call = call("less", &given, 0);
    let body: Vec<&str> = set
        .iter()
        .map(String::as_str)
        .chain(between.iter().copied())
        .chain([call.as_str(), "return"])
        .collect();
    f(2, &locals, &body)
}

#[test]
fn a_pointer_to_a_local_is_the_local() {
    let functions = [of_words(&[], [5, 6]), less()];
    has(&reading(&functions, "a: u64, b: u64"), "{\n    return a < b;\n}\n");
    has(&reading(&[of_words(&[], [6, 5]), less()], "a: u64, b: u64"), "{\n    return b < a;\n}\n");
    let plain = plain(&functions, "a: u64, b: u64");
    has(&plain, "    t5 = &t3;\n    t6 = &t4;\n    t0 = core_less(t5, t6);\n");
    has(&plain, "static inline _Bool core_less(const uint64_t *t1, const uint64_t *t2)\n");
}

#[test]
fn a_local_that_changes_behind_its_copy_is_another() {
    // local 3 is a copy of `a`, which then is set: the call is of what it was
    let changed = [put(1, "(int 64 7)")];
    let c = reading(&[of_words(&[&changed[0]], [5, 6]), less()], "a: u64, b: u64");
    has(&c, "    uint64_t t3 = a;\n    a = 7;\n    return t3 < b;\n");
    // the local itself is set: the pointer is to what it is now
    let changed = [put(3, "(int 64 7)")];
    let c = reading(&[of_words(&[&changed[0]], [5, 6]), less()], "a: u64, b: u64");
    has(&c, "    return 7 < b;\n");
}

#[test]
fn a_pointer_that_is_set_again_is_the_later_one() {
    // `p = &x; q = &*p; p = &y; *q` is `x`
    let pointer = || value(&reference("imm", U64));
    let locals = [value(BOOL), value(U64), value(U64), memory(U64), memory(U64), pointer(), pointer()];
    let again = [
        put(3, &copy(1)),
        put(4, &copy(2)),
        assign(&at(5), &format!("addrOf {}", at(3))),
        assign(&at(6), &format!("addrOf {}", behind(5, U64))),
        assign(&at(5), &format!("addrOf {}", at(4))),
        call("less", &[6, 5], 0),
    ];
    let body: Vec<&str> = again.iter().map(String::as_str).chain(["return"]).collect();
    let c = reading(&[f(2, &locals, &body), less()], "a: u64, b: u64");
    has(&c, "    uint64_t t3 = a;\n    uint64_t t4 = b;\n    return t3 < t4;\n");
}

/// `core::same(p, q)` of two structs: their first fields, and then their second.
fn same() -> String {
    let pointer = value(&reference("imm", &s()));
    of_kit(
        "same",
        2,
        &[value(BOOL), pointer.clone(), pointer, value(U8), value(U8), value(BOOL), value(U64), value(U64)],
        &[
            &put(3, &format!("(copy {})", part_behind(1, 0))),
            &put(4, &format!("(copy {})", part_behind(2, 0))),
            &assign(&at(5), &format!("op2 eq {} {}", copy(3), copy(4))),
            &format!(
                "if {} {} {}",
                copy(5),
                seq(&[
                    &put(6, &format!("(copy {})", part_behind(1, 1))),
                    &put(7, &format!("(copy {})", part_behind(2, 1))),
                    &assign(&at(0), &format!("op2 eq {} {}", copy(6), copy(7))),
                ]),
                seq(&[&put(0, "false")])
            ),
            "return",
        ],
    )
}

/// `f(a, b)` of two structs, which tells 1 where they are the same, or are not.
fn of_structs(tells: [u64; 2]) -> String {
    let pointer = value(&reference("imm", &s()));
    let locals = [
        value(U8),
        value(&s()),
        value(&s()),
        memory(&s()),
        memory(&s()),
        pointer.clone(),
        pointer,
        value(BOOL),
    ];
    let body = [
        put(3, &copy(1)),
        put(4, &copy(2)),
        assign(&at(5), &format!("addrOf {}", at(3))),
        assign(&at(6), &format!("addrOf {}", at(4))),
        call("same", &[5, 6], 7),
        format!("if {} {} skip", copy(7), seq(&[&put(0, &format!("(int 8 {})", tells[0])), "return"])),
        put(0, &format!("(int 8 {})", tells[1])),
    ];
    f(2, &locals, &body.iter().map(String::as_str).chain(["return"]).collect::<Vec<_>>())
}

#[test]
fn two_tests_are_one_that_asks_for_the_second_where_the_first_holds() {
    let c = reading(&[of_structs([1, 0]), same()], "a: S, b: S");
    has(&c, "    if (a.f0 == b.f0 && a.f1 == b.f1) {\n        return 1;\n    }\n    return 0;\n");
}

/// `core::way(a)`: an enum's nothing below 9, and else a byte; `core::test(e)` of it by a switch.
fn way() -> [String; 2] {
    let made = |tag: &str| format!("aggregate {tag}");
    let nothing = made("(lcons (int 8 0) lnil)");
    let byte = made(&format!("(lcons (int 8 1) (lcons {} lnil))", copy(1)));
    let way = of_kit(
        "way",
        1,
        &[value(&e()), value(U8), value(BOOL)],
        &[
            &assign(&at(2), &format!("op2 (lt unsigned) {} (int 8 9)", copy(1))),
            &format!("if {} {} skip", copy(2), seq(&[&assign(&at(0), &nothing), "return"])),
            &assign(&at(0), &byte),
            "return",
        ],
    );
    let test = of_kit(
        "test",
        1,
        &[value(U8), value(&e()), value(U8)],
        &[
            &format!(
                "switch (copy {}) (arm (lcons 1 lnil) {} (arm (lcons 0 lnil) {} noDefault))",
                variant(1, 0, 0),
                seq(&[&put(2, &format!("(copy {})", variant(1, 1, 1)))]),
                seq(&[&put(2, "(int 8 5)")]),
            ),
            &put(0, &copy(2)),
            "return",
        ],
    );
    [way, test]
}

#[test]
fn a_way_goes_on_with_the_part_of_its_own_tag() {
    let locals = [value(U8), value(U8), value(&e())];
    let body = [call("way", &[1], 2), call("test", &[2], 0)];
    let f = f(1, &locals, &[&body[0], &body[1], "return"]);
    let c = reading(&[&[f][..], &way()].concat(), "a: u8");
    has(&c, "    if (a < 9) {\n        return 5;\n    }\n    return a;\n");
    assert!(!c.contains("m_E"), "{c}");
}

/// `m::f(a: u8)`, which sets a local by `m::way` and by what stands behind that, and hands it to `m::test`; and another function that calls it.
fn of_sources(behind: &[String], other: String) -> String {
    let locals = [value(U8), value(U8), value(&e())];
    let (way_of, test_of) = (call("way", &[1], 2), call("test", &[2], 0));
    let body = [&[way_of][..], behind, &[test_of, "return".to_string()]].concat();
    let f = f(1, &locals, &body.iter().map(String::as_str).collect::<Vec<_>>());
    program(&[&[f][..], &way(), &[other]].concat()).replace("core::", "m::")
}

/// `m::g`, which hands on its parameter, or the answer to it.
fn of_parameter() -> String {
    function("g", 1, &[value(U8), value(&e())], &[&call("test", &[1], 0), "return"], &table())
}

fn of_answer() -> String {
    let locals = [value(U8), value(U8), value(&e())];
    let body = [call("way", &[1], 2), call("test", &[2], 0)];
    function("g", 1, &locals, &[&body[0], &body[1], "return"], &table())
}

#[test]
fn a_function_of_the_sources_is_called() {
    let c = translated(&of_sources(&[], of_parameter()), "a: u8", Form::Reading).expect("a reading form");
    has(&c, "    return m_test(m_way(a));\n");
}

#[test]
fn a_function_to_which_every_call_hands_an_answer_is_written_out() {
    let c = translated(&of_sources(&[], of_answer()), "a: u8", Form::Reading).expect("a reading form");
    has(&c, "    m_E t2 = m_way(a);\n    switch (t2.tag) {\n    case 1:\n        return t2.as.v1.f0;\n");
    has(&c, "    case 0:\n    default:\n        return 5;\n    }\n}\n");
    assert!(!c.contains("m_test"), "{c}");
}

#[test]
fn an_answer_that_has_a_name_is_handed_to_a_call() {
    let named = sources("pub extern \"C\" fn f(a: u8) -> u8 { let e = way(a); test(e) }");
    let c = portable::translate(&of_sources(&[], of_answer()), &named, Form::Reading).expect("a reading form");
    has(&c, "    m_E e = m_way(a);\n    return m_test(e);\n");
}

#[test]
fn a_value_that_is_set_behind_the_answer_is_handed_to_a_call() {
    let made = assign(&at(2), "aggregate (lcons (int 8 0) lnil)");
    let c = translated(&of_sources(&[made], of_answer()), "a: u8", Form::Reading).expect("a reading form");
    has(&c, "m_test((m_E){.tag = 0})");
}

/// `m::more(s)`: the word of a struct is one more, or what `m::raised` makes of it.
fn more(calls: bool) -> String {
    let raised = match calls {
        true => call("raised", &[2], 2).replace("core::", "m::"),
        false => assign(&at(2), &format!("op2 (add unsigned) {} (int 64 1)", copy(2))),
    };
    let fields = format!("(lcons (copy {}) (lcons {} lnil))", field(1, 0), copy(2));
    let body = [
        put(2, &format!("(copy {})", field(1, 1))),
        raised,
        assign(&at(0), &format!("aggregate {fields}")),
        "return".to_string(),
    ];
    let body: Vec<&str> = body.iter().map(String::as_str).collect();
    function("more", 1, &[value(&s()), value(&s()), value(U64)], &body, &table())
}

fn raised() -> String {
    let sum = assign(&at(0), &format!("op2 (add unsigned) {} (int 64 1)", copy(1)));
    function("raised", 1, &[value(U64), value(U64)], &[&sum, "return"], &table())
}

#[test]
fn a_function_that_changes_a_struct_is_written_out() {
    let call = call("more", &[1], 0).replace("core::", "m::");
    let f = f(1, &[value(&s()), value(&s())], &[&call, "return"]);
    let c = reading(&[f.clone(), more(false)], "a: S");
    has(&c, "    return (m_S){.f0 = a.f0, .f1 = a.f1 + 1};\n");
    assert!(!c.contains("m_more"), "{c}");
    let c = reading(&[f, more(true), raised()], "a: S");
    has(&c, "    return m_more(a);\n");
}

#[test]
fn what_a_call_changes_is_read_behind_it() {
    // `core::bump(p)` adds one to what is pointed to
    let pointer = value(&reference("mut", U64));
    let bump = of_kit(
        "bump",
        1,
        &[value(UNIT), pointer.clone(), value(U64)],
        &[
            &put(2, &format!("(copy {})", behind(1, U64))),
            &assign(&at(2), &format!("op2 (add unsigned) {} (int 64 1)", copy(2))),
            &assign(&behind(1, U64), &format!("rvOpd {}", copy(2))),
            "return",
        ],
    );
    let locals = [value(U64), value(U64), memory(U64), pointer, value(U64), value(UNIT)];
    let body = [
        put(2, &copy(1)),
        assign(&at(3), &format!("addrOf {}", at(2))),
        put(4, &copy(2)),
        call("bump", &[3], 5),
        assign(&at(0), &format!("op2 xor {} {}", copy(4), copy(2))),
        "return".to_string(),
    ];
    let c = reading(&[f(1, &locals, &body.iter().map(String::as_str).collect::<Vec<_>>()), bump], "a: u64");
    has(&c, "    uint64_t t2 = a;\n    uint64_t t4 = t2;\n");
    has(&c, "    return t4 ^ t2;\n");
}

/// `if a { if b {} else exit } else exit; set` in a block, or with the first the other way round, and behind it `7`.
fn block_of(both: bool) -> String {
    let inner = format!("(if {} skip (exit 0))", copy(2));
    let first =
        if both { format!("if {} {inner} (exit 0)", copy(1)) } else { format!("if {} skip {inner}", copy(1)) };
    let block = format!("block {}", seq(&[&first, &put(0, "(int 8 3)"), "return"]));
    f(2, &[value(U8), value(BOOL), value(BOOL)], &[&block, &put(0, "(int 8 7)"), "return"])
}

#[test]
fn a_block_that_two_tests_leave_is_a_branch() {
    let c = reading(&[block_of(true)], "a: bool, b: bool");
    has(&c, "    if (a) {\n        if (b) {\n            return 3;\n        }\n    }\n    return 7;\n");
    let c = reading(&[block_of(false)], "a: bool, b: bool");
    has(&c, "    if (a || b) {\n        return 3;\n    }\n    return 7;\n");
    let c = plain(&[block_of(false)], "a: bool, b: bool");
    has(&c, "            goto next_0;\n");
    has(&c, "    }\n    next_0:;\n    t0 = 7;\n");
}

#[test]
fn what_stands_behind_a_branch_stands_in_one_place() {
    // both ways of the first branch go on to the second test: the block stays
    let inner = format!("(if {} (exit 0) skip)", copy(2));
    let first = format!("if {} {inner} {}", copy(1), seq(&[&put(0, "(int 8 1)")]));
    let block = format!("block {}", seq(&[&first, &put(0, "(int 8 3)")]));
    let body = [put(0, "(int 8 7)"), block];
    let c = reading(
        &[f(2, &[value(U8), value(BOOL), value(BOOL)], &[&body[0], &body[1], "return"])],
        "a: bool, b: bool",
    );
    has(&c, "goto next_0;");
    // one way leaves: what is behind it is in the other
    let leaves = format!("if {} (exit 0) skip", copy(1));
    let block = format!("block {}", seq(&[&leaves, &put(0, "(int 8 3)")]));
    let body = [put(0, "(int 8 7)"), block];
    let c = reading(
        &[f(2, &[value(U8), value(BOOL), value(BOOL)], &[&body[0], &body[1], "return"])],
        "a: bool, b: bool",
    );
    has(&c, "    if (!a) {\n        t0 = 3;\n    }\n    return t0;\n");
}

#[test]
fn a_block_is_left_where_its_own_end_is() {
    // the inner block is left for the outer one's end, past what stands behind it
    let leaves = format!("if {} (exit 1) skip", copy(1));
    let inner = format!("block {}", seq(&[&leaves, &put(0, "(int 8 3)")]));
    let outer = format!("block {}", seq(&[&inner, &put(0, "(int 8 5)")]));
    let body = [put(0, "(int 8 7)"), outer];
    let functions = [f(2, &[value(U8), value(BOOL), value(BOOL)], &[&body[0], &body[1], "return"])];
    has(&plain(&functions, "a: bool, b: bool"), "            goto next_0;\n");
    has(&reading(&functions, "a: bool, b: bool"), "    if (!a) {\n");
    has(&reading(&functions, "a: bool, b: bool"), "t0 = 5;\n    }\n    return t0;\n");
}

#[test]
fn what_is_computed_for_nobody_is_left_out_and_a_call_is_made() {
    // `core::keep(a)` makes an enum of what a call tells, which nobody reads
    let keep = of_kit(
        "keep",
        1,
        &[value(UNIT), value(U8), value(&e()), value(U8)],
        &[
            "call (direct (fnRef \"m::g\")) (lcons (copy (place 1 lnil)) lnil) (place 3 lnil)",
            &assign(&at(2), &format!("aggregate (lcons (int 8 1) (lcons {} lnil))", copy(1))),
            "return",
        ],
    );
    let g = function("g", 1, &[value(U8), value(U8)], &[&put(0, &copy(1)), "return"], "");
    let f =
        f(1, &[value(U8), value(U8), value(UNIT)], &[&call("keep", &[1], 2), &put(0, "(int 8 1)"), "return"]);
    let c = reading(&[f, keep, g], "a: u8");
    has(&c, "{\n    (void)m_g(a);\n    return 1;\n}\n");
}

/// `core::tests(a, b)`, of two words: in each branch a value, of the first test and of the second.
fn two_ways(ways: [&str; 2]) -> [String; 2] {
    let way = |way: &str| match way {
        "second" => {
            seq(&[&assign(&at(4), &format!("op2 (lt unsigned) {} {}", copy(1), copy(2))), &put(5, &copy(4))])
        }
        constant => seq(&[&put(5, constant)]),
    };
    let tests = of_kit(
        "tests",
        2,
        &[value(BOOL), value(U64), value(U64), value(BOOL), value(BOOL), value(BOOL)],
        &[
            &assign(&at(3), &format!("op2 eq {} (int 64 4)", copy(1))),
            &format!("if {} {} {}", copy(3), way(ways[0]), way(ways[1])),
            &put(0, &copy(5)),
            "return",
        ],
    );
    let locals = [value(U8), value(U64), value(U64), value(BOOL)];
    let branch = format!("if {} {} skip", copy(3), seq(&[&put(0, "(int 8 1)"), "return"]));
    [f(2, &locals, &[&call("tests", &[1, 2], 3), &branch, &put(0, "(int 8 0)"), "return"]), tests]
}

#[test]
fn a_value_of_two_branches_is_one_of_two_tests() {
    for (ways, wanted) in [
        (["second", "false"], "a == 4 && a < b"),
        (["true", "second"], "a == 4 || a < b"),
        (["false", "second"], "a != 4 && a < b"),
        (["second", "true"], "a != 4 || a < b"),
        (["true", "false"], "a == 4"),
        (["false", "true"], "a != 4"),
    ] {
        has(&reading(&two_ways(ways), "a: u64, b: u64"), &format!("    if ({wanted}) {{\n        return 1;\n"));
    }
}

#[test]
fn an_order_with_what_is_equal_is_one_comparison() {
    for (ways, wanted) in [(["true", "second"], "a <= b"), (["false", "second"], "a < b")] {
        let functions = two_ways(ways).map(|function| function.replace("(int 64 4)", &copy(2)));
        has(&reading(&functions, "a: u64, b: u64"), &format!("    if ({wanted}) {{\n        return 1;\n"));
    }
}

#[test]
fn a_call_is_not_in_a_test_that_is_not_always_asked_for() {
    // the call's value stands in the second test of two
    let g = function("g", 1, &[value(BOOL), value(U64)], &[&put(0, "true"), "return"], "");
    let tests = of_kit(
        "tests",
        2,
        &[value(BOOL), value(U64), value(BOOL), value(BOOL)],
        &[
            &assign(&at(3), &format!("op2 eq {} (int 64 4)", copy(1))),
            &format!("if {} {} {}", copy(3), seq(&[&put(0, &copy(2))]), seq(&[&put(0, "false")])),
            "return",
        ],
    );
    let called = "call (direct (fnRef \"m::g\")) (lcons (copy (place 1 lnil)) lnil) (place 2 lnil)";
    let call = "call (direct (fnRef \"core::tests\")) (lcons (copy (place 1 lnil)) (lcons (copy (place 2 lnil)) lnil)) (place 3 lnil)";
    let branch = format!("if {} {} skip", copy(3), seq(&[&put(0, "(int 8 1)"), "return"]));
    let locals = [value(U8), value(U64), value(BOOL), value(BOOL)];
    let f = f(1, &locals, &[called, call, &branch, &put(0, "(int 8 0)"), "return"]);
    let c = reading(&[f, tests, g], "a: u64");
    has(&c, "    _Bool t2 = m_g(a);\n    if (a == 4 && t2) {\n");
}

#[test]
fn a_branch_that_no_run_comes_to_is_left_out() {
    let branch = format!("if {} unreachable {}", copy(1), seq(&[&put(0, "(int 8 2)")]));
    has(&plain(&[f(1, &[value(U8), value(BOOL)], &[&branch, "return"])], "a: bool"), "    t0 = 2;\n");
    let arms = format!(
        "(arm (lcons 0 lnil) {} (arm (lcons 1 lnil) {} (arm (lcons 2 lnil) unreachable noDefault)))",
        seq(&[&put(0, "(int 8 2)"), "return"]),
        seq(&[&put(0, "(int 8 3)"), "return"])
    );
    let c =
        plain(&[f(1, &[value(U8), value(U8)], &[&format!("switch {} {arms}", copy(1)), "return"])], "a: u8");
    has(&c, "    case 1:\n    default:\n        t0 = 3;\n");
    assert!(!c.contains("case 2"), "{c}");
    let alone = format!(
        "(arm (lcons 0 lnil) {} (arm (lcons 1 lnil) unreachable noDefault))",
        seq(&[&put(0, "(int 8 2)")])
    );
    let c =
        plain(&[f(1, &[value(U8), value(U8)], &[&format!("switch {} {alone}", copy(1)), "return"])], "a: u8");
    has(&c, "    t0 = 2;\n    return t0;\n");
    let in_loop = [f(0, &[value(UNIT)], &["block (loop unreachable)", "return"])];
    let why = translated(&program(&in_loop), "", Form::Plain).expect_err("refused");
    assert!(why.contains("whose end no run comes to"), "{why}");
    // a function that none may call
    let g = function("g", 0, &[value(UNIT)], &["unreachable"], "");
    let call = "call (direct (fnRef \"m::g\")) lnil (place 1 lnil)";
    let functions = [f(0, &[value(UNIT), value(UNIT)], &[call, "return"]), g];
    let why = translated(&program(&functions), "", Form::Plain).expect_err("refused");
    assert!(why.contains("a call of a function that is not there: m::g"), "{why}");
}
