//! The program as the toolchain keeps it, `mir.json`: what is read from it is the same as from a term, and what is not known is refused.

mod small;

use portable::sources::Sources;
use portable::{translate_mir, Form};
use small::json::*;
use small::*;

/// Why there is no C file of a function `m::f` without parameters.
fn refused_f(locals: &[String], body: &[&str]) -> String {
    refused_functions(&[json_function("m::f", 0, locals, "", body)])
}

/// That a function `m::f` of a term and one of `mir.json` are the same in both forms.
fn same(params: &str, term: &str, functions: &[String]) {
    let sources = sources(&format!("pub extern \"C\" fn f({params}) {{ }}"));
    for form in [Form::Plain, Form::Reading] {
        assert_eq!(c_of(&[functions], &sources, form), translated(term, params, form));
    }
}

#[test]
fn loops_and_branches_are_those_of_a_term() {
    let term = program(&[function(
        "f",
        1,
        &[value(U64), value(U64), value(BOOL)],
        &[
            &assign(&at(0), "rvOpd (int 64 0)"),
            &format!(
                "block (loop (seq ({}) (seq (if {} skip (exit 1)) (seq ({}) (if {} (exit 0) ({}))))))",
                assign(&at(2), &format!("op2 (lt unsigned) {} {}", copy(0), copy(1))),
                copy(2),
                assign(&at(0), &format!("op2 (add unsigned) {} (int 64 1)", copy(0))),
                copy(2),
                assign(&at(0), "rvOpd (int 64 7)"),
            ),
            "return",
        ],
        "",
    )]);
    let body = [
        r#""Seq""#,
        &json_assign(0, &format!(r#"{{"Opd": {}}}"#, json_int(64, 0))),
        r#""Seq", "Block", "Loop", "Seq""#,
        &json_assign(2, &format!(r#"{{"Op2": [{{"Lt": "Unsigned"}}, {}, {}]}}"#, json_copy(0), json_copy(1))),
        r#""Seq""#,
        &format!(r#"{{"If": {}}}"#, json_copy(2)),
        r#""Skip", {"Exit": 1}, "Seq""#,
        &json_assign(
            0,
            &format!(r#"{{"Op2": [{{"Add": "Unsigned"}}, {}, {}]}}"#, json_copy(0), json_int(64, 1)),
        ),
        &format!(r#"{{"If": {}}}"#, json_copy(2)),
        r#"{"Exit": 0}"#,
        &json_assign(0, &format!(r#"{{"Opd": {}}}"#, json_int(64, 7))),
        r#""Return""#,
    ];
    let locals = [json_value(r#"{"Int": 64}"#), json_value(r#"{"Int": 64}"#), json_value(r#""Bool""#)];
    same("a: u64", &term, &[json_function("m::f", 1, &locals, "", &body)]);
}

/// A switch on local 1, which leaves the arm's number in local 0.
fn switch_of(has_default: bool) -> (String, Vec<String>) {
    let put = |number: u64| assign(&at(0), &format!("rvOpd (int 8 {number})"));
    let last = if has_default { format!("(default ({}))", put(9)) } else { "noDefault".to_string() };
    let arms = format!("(arm (lcons 1 (lcons 4 lnil)) ({}) (arm (lcons 0 lnil) ({}) {last}))", put(5), put(6));
    let term = program(&[function(
        "f",
        1,
        &[value(U8), value(U8)],
        &[&format!("switch {} {arms}", copy(1)), "return"],
        "",
    )]);
    let put = |number: u64| json_assign(0, &format!(r#"{{"Opd": {}}}"#, json_int(8, number)));
    let mut body = vec![
        r#""Seq""#.to_string(),
        format!(r#"{{"Switch": [{}, [[1, 4], [0]], {has_default}]}}"#, json_copy(1)),
        put(5),
        put(6),
    ];
    body.extend(has_default.then(|| put(9)));
    body.push(r#""Return""#.to_string());
    let body: Vec<&str> = body.iter().map(String::as_str).collect();
    let locals = [json_value(r#"{"Int": 8}"#), json_value(r#"{"Int": 8}"#)];
    (term, vec![json_function("m::f", 1, &locals, "", &body)])
}

#[test]
fn switches_are_those_of_a_term() {
    for has_default in [true, false] {
        let (term, functions) = switch_of(has_default);
        same("a: u8", &term, &functions);
    }
}

#[test]
fn operations_and_types_are_those_of_a_term() {
    let inner = "(pair \"m::Pair\" (fields (tcons (tyInt 8) (tcons (tyInt 64) tnil))))";
    let outer = "(pair \"m::Found\" (variants (ttcons tnil (ttcons (tcons (tyNamed (pair \"m::Pair\" lnil)) tnil) ttnil))))";
    let term = program(&[function(
        "f",
        2,
        &[
            value(&named("m::Found")),
            value(&slice("imm", U16)),
            value(&reference("mut", &array(U64, 3))),
            memory(&array(U8, 4)),
            value(U64),
            value(PTR),
            value(U16),
            value(U8),
            value(&named("m::Pair")),
            value(BOOL),
        ],
        &[
            &assign(&at(3), "repeat (int 8 0) 4"),
            &assign(&at(4), "op2 (mul unsigned) (int 64 2) (int 64 18446744073709551615)"),
            &assign(&at(5), &format!("op2 offset (copy {}) {}", field(1, 0), copy(4))),
            &assign(&at(6), &format!("rvOpd (copy {})", behind(5, U16))),
            &assign(&at(7), &format!("op1 (cast unsigned unsigned 8) {}", copy(6))),
            &assign(&at(9), &format!("op2 ne {} (int 16 3)", copy(6))),
            &assign(&at(9), &format!("op1 not {}", copy(9))),
            &assign(&at(8), &format!("aggregate (lcons {} (lcons {} lnil))", copy(7), copy(4))),
            &assign(&at(0), &format!("aggregate (lcons (int 8 1) (lcons {} lnil))", copy(8))),
            "return",
        ],
        &format!("(lcons {inner} (lcons {outer} lnil))"),
    )]);
    let int = |width: u64| format!(r#"{{"Int": {width}}}"#);
    let named = |name: &str| format!(r#"{{"Named": [{{"name": "{name}", "lifetimes": []}}, []]}}"#);
    let declared = |name: &str, shape: &str, params: usize| {
        format!(
            r#"{{"name": "{name}", "lifetimes": 0, "bounds": [], "type_params": {params}, "const_params": [], "type_bounds": [],
            "owns": false, "is_cell": false, "shape": {shape}, "is_tuple": false}}"#
        )
    };
    let array = |of: &str, count: u64| format!(r#"{{"Array": [{of}, {{"Lit": {count}}}]}}"#);
    let op2 =
        |operation: &str, left: &str, right: &str| format!(r#"{{"Op2": [{operation}, {left}, {right}]}}"#);
    let opd = |of: &str| format!(r#"{{"Opd": {of}}}"#);
    let locals = [
        json_value(&named("m::Found")),
        json_value(&format!(
            r#"{{"Struct": ["&[]", [{{"Ref": [{{"Named": 0}}, "Imm", {}]}}, {}]]}}"#,
            int(16),
            int(64)
        )),
        json_value(&format!(r#"{{"Ref": ["Erased", "Mut", {}]}}"#, array(&int(64), 3))),
        json_memory(&array(&int(8), 4)),
        json_value(&int(64)),
        json_value(r#""Ptr""#),
        json_value(&int(16)),
        json_value(&int(8)),
        json_value(&named("m::Pair")),
        json_value(r#""Bool""#),
    ];
    let first = r#"{"Copy": {"local": 1, "steps": [{"Field": 0}]}}"#;
    let behind = format!(r#"{{"Copy": {{"local": 5, "steps": [{{"Deref": {}}}]}}}}"#, int(16));
    let body = [
        json_assign(3, &format!(r#"{{"Repeat": [{}, {{"Lit": 4}}]}}"#, json_int(8, 0))),
        json_assign(4, &op2(r#"{"Mul": "Unsigned"}"#, &json_int(64, 2), &json_int(64, u64::MAX))),
        json_assign(5, &op2(r#""Offset""#, first, &json_copy(4))),
        json_assign(6, &opd(&behind)),
        json_assign(7, &format!(r#"{{"Op1": [{{"Cast": ["Unsigned", "Unsigned", 8]}}, {}]}}"#, json_copy(6))),
        json_assign(9, &op2(r#""Ne""#, &json_copy(6), &json_int(16, 3))),
        json_assign(9, &format!(r#"{{"Op1": ["Not", {}]}}"#, json_copy(9))),
        json_assign(8, &format!(r#"{{"Aggregate": [{}, {}]}}"#, json_copy(7), json_copy(4))),
        json_assign(0, &format!(r#"{{"Aggregate": [{}, {}]}}"#, json_int(8, 1), json_copy(8))),
    ];
    let body: Vec<&str> =
        body.iter().flat_map(|one| [r#""Seq""#, one.as_str()]).chain([r#""Return""#]).collect();
    // one for several types is declared and not used
    let types = [
        declared("(,)", r#"{"Fields": [{"Param": 0}, {"Param": 1}]}"#, 2),
        declared("m::Pair", &format!(r#"{{"Fields": [{}, {}]}}"#, int(8), int(64)), 0),
        declared("m::Found", &format!(r#"{{"Variants": [[], [{}]]}}"#, named("m::Pair")), 0),
    ];
    same(
        "s: &[u16], run: &mut [u64; 3]",
        &term,
        &[json_function("m::f", 2, &locals, &types.join(", "), &body)],
    );
}

/// `m::f` calls `n::g`, which is in another library, beside one that no call for C reaches.
fn two_libraries() -> [Vec<String>; 2] {
    let call = format!(r#"{{"Call": [{{"Fn": ["n::g", {NO_TYPES}]}}, [{}], {}]}}"#, json_copy(1), json_at(0));
    let number = json_value(r#"{"Int": 8}"#);
    let locals = [number.clone(), number];
    let add =
        json_assign(0, &format!(r#"{{"Op2": [{{"Add": "Unsigned"}}, {}, {}]}}"#, json_copy(1), json_int(8, 1)));
    [
        vec![json_function("m::f", 1, &locals, "", &[r#""Seq""#, &call, r#""Return""#])],
        vec![
            json_function("n::other", 1, &locals, "", &[r#"{"Drop": 1}"#]),
            json_function("n::g", 1, &locals, "", &[r#""Seq""#, &add, r#""Return""#]),
        ],
    ]
}

/// An export of the crate `m_c`, with what it is made of.
fn exported(of: &str) -> Sources {
    let mut sources = Sources::default();
    sources.add("// Of the call.\npub fn f(a: u8) -> u8 { g(a) }", "m");
    sources.add(&format!("#[unsafe(no_mangle)]\npub extern \"C\" fn f(a: u8) -> u8 {{ {of} }}"), "m_c");
    sources
}

#[test]
fn an_export_stands_for_the_function_that_it_hands_its_parameters_on_to() {
    let [one, other] = two_libraries();
    let c = c_of(&[&one, &other], &exported("m::f(a)"), Form::Reading).expect("a C file");
    assert!(c.contains("/* m::f. Of the call. */\nuint8_t f(uint8_t a)\n{\n    return n_g(a);\n}\n"), "{c}");
    assert!(c.contains("static inline uint8_t n_g(uint8_t t1)"), "{c}");
    assert!(!c.contains("n_other"), "{c}");
}

#[test]
fn an_export_that_does_anything_else_is_no_other_function() {
    let [one, other] = two_libraries();
    for body in ["m::f(a) + 0", "m::f(0)", "let b = a; m::f(b)", "m::g(a)", "f(a)"] {
        let why = c_of(&[&one, &other], &exported(body), Form::Reading).expect_err(body);
        assert!(why.contains("m_c::f: a call for C that the program does not have"), "{why}");
    }
    let mut two = Sources::default();
    two.add("pub extern \"C\" fn f(a: u8, b: u8) -> u8 { m::f(b, a) }", "m_c");
    assert_eq!(two.exported().collect::<Vec<_>>(), ["m_c::f"]);
}

/// A function `m::f` that reads the second of two words that are lent; `more` stands behind that, and its result has this type.
fn lent(constant: &str, ty: &str, more: &str) -> String {
    let array = r#"{"Array": [{"Int": 64}, {"Lit": 2}]}"#;
    let lend = format!(r#"{{"LendStatic": [{}, {array}, {constant}]}}"#, json_at(1));
    let address = format!(r#"{{"AddrOf": {{"local": 1, "steps": [{{"Deref": {array}}}]}}}}"#);
    let element = format!(r#"{{"Op2": ["Offset", {}, {}]}}"#, json_copy(2), json_int(64, 8));
    let read = r#"{"Opd": {"Copy": {"local": 3, "steps": [{"Deref": {"Int": 64}}]}}}"#;
    let locals = [
        json_value(ty),
        json_value(&format!(r#"{{"Ref": ["Erased", "Imm", {array}]}}"#)),
        json_value(r#""Ptr""#),
        json_value(r#""Ptr""#),
    ];
    let body = [&lend, &json_assign(2, &address), &json_assign(3, &element), &json_assign(0, read)];
    let body: Vec<&str> =
        body.into_iter().flat_map(|one| [r#""Seq""#, one.as_str()]).chain([more, r#""Return""#]).collect();
    let body: Vec<&str> = body.into_iter().filter(|one| !one.is_empty()).collect();
    json_function("m::f", 0, &locals, "", &body)
}

const TWO_WORDS: &str = r#"{"Ints": {"width": 64, "values": [5, 6]}}"#;
const WORD: &str = r#"{"Int": 64}"#;

#[test]
fn numbers_that_are_lent_are_a_table() {
    let table = assign(&at(4), "aggregate (lcons (int 64 5) (lcons (int 64 6) lnil))");
    let begin = assign(&at(2), &format!("addrOf {}", at(4)));
    let element = assign(&at(3), &format!("op2 offset {} (int 64 8)", copy(2)));
    let read = assign(&at(0), &format!("rvOpd (copy {})", behind(3, U64)));
    let locals =
        [value(U64), value(&reference("imm", &array(U64, 2))), value(PTR), value(PTR), memory(&array(U64, 2))];
    let term = program(&[function("f", 0, &locals, &[&table, &begin, &element, &read, "return"], "")]);
    same("", &term, &[lent(TWO_WORDS, WORD, "")]);
    let c = c_of(&[&[lent(TWO_WORDS, WORD, "")]], &sources("pub extern \"C\" fn f() { }"), Form::Reading);
    assert!(c.expect("a C file").contains("return 6;"));
}

#[test]
fn what_is_lent_is_only_read() {
    let why = |constant: &str, ty: &str, more: &str| refused_functions(&[lent(constant, ty, more)]);
    let again = format!(r#""Seq", {}"#, json_assign(2, &format!(r#"{{"Opd": {}}}"#, json_copy(1))));
    assert!(why(TWO_WORDS, WORD, &again).contains("an array that is lent, and not only read here: local 1"));
    let pointer = r#"{"Ref": ["Erased", "Imm", {"Int": 64}]}"#;
    assert!(why(TWO_WORDS, pointer, "").contains("an array that is lent, and not only read here: local 1"));
    for constant in [
        r#"{"Ints": {"width": 64, "values": [5]}}"#,
        r#"{"Ints": {"width": 32, "values": [5, 6]}}"#,
        r#"{"Repeat": [{"Int": 5}, 2]}"#,
    ] {
        assert!(why(constant, WORD, "").contains("unknown constant"), "{constant}");
    }
}

/// A function `m::f(a, b)` that lends a constant of some type and reads a byte of it at some steps; its result and parameters have these types.
fn lent_of(of: &str, constant: &str, types: &[String], steps: &str, [result, param]: [&str; 2]) -> String {
    let lend = format!(r#"{{"LendStatic": [{}, {of}, {constant}]}}"#, json_at(2));
    let read = json_assign(3, &json_opd(&json_part(2, &format!(r#"{{"Deref": {of}}}, {steps}"#))));
    let locals = [result, param, &json_reference("Imm", of), U8_JSON].map(json_value);
    json_returning("m::f", 1, &locals, types, &[vec![lend], vec![read]])
}

#[test]
fn a_constant_that_is_lent_is_a_local_of_its_own() {
    let inner = json_declared("m::I", 0, r#"{"Fields": [{"Int": 8}, "Bool"]}"#);
    let shape = format!(
        r#"{{"Variants": [[], [{U64_JSON}, {}, {{"Array": [{U8_JSON}, {{"Lit": 2}}]}}]]}}"#,
        json_named("m::I", &[])
    );
    let types = [inner, json_declared("m::E", 0, &shape)];
    let constant = r#"{"Parts": [{"Int": {"width": 8, "value": 1}}, {"Int": {"width": 64, "value": 7}},
        {"Parts": [{"Int": {"width": 8, "value": 9}}, {"Bool": true}]}, {"Ints": {"width": 8, "values": [5, 6]}}]}"#;
    let steps = r#"{"Variant": 1}, {"Field": 2}, {"Field": 0}"#;
    let f = lent_of(&json_named("m::E", &[]), constant, &types, steps, [U8_JSON, U8_JSON]);
    let f =
        f.replace(r#""Return""#, &format!(r#""Seq", {}, "Return""#, json_assign(0, &json_opd(&json_copy(3)))));
    let sources = sources("pub extern \"C\" fn f(a: u8) { }");
    let c = c_of(&[&[f]], &sources, Form::Plain).expect("a C file");
    let wanted = "    t4 = (m_I){.f0 = 9, .f1 = 1};\n    t5 = (array_u8_2){{5, 6}};\n    \
        t6 = (m_E){.tag = 1, .as.v1.f0 = 7, .as.v1.f1 = t4, .as.v1.f2 = t5};\n    t2 = &t6;\n    t3 = t2->as.v1.f1.f0;\n    t0 = t3;\n";
    assert!(c.contains(wanted), "{c}");
}

#[test]
fn a_constant_that_is_lent_is_kept_nowhere() {
    let types = [
        json_declared("m::S", 0, r#"{"Fields": [{"Int": 8}]}"#),
        json_declared("m::P", 0, &format!(r#"{{"Fields": [{}]}}"#, json_reference("Imm", U8_JSON))),
        json_declared(
            "m::M",
            0,
            &format!(r#"{{"Fields": [{}]}}"#, json_reference("Mut", &json_named("m::P", &[]))),
        ),
    ];
    let constant = r#"{"Parts": [{"Int": {"width": 8, "value": 1}}]}"#;
    let why = |constant: &str, ends: [&str; 2]| {
        let f = lent_of(&json_named("m::S", &[]), constant, &types, r#"{"Field": 0}"#, ends);
        c_of(&[&[f]], &sources("pub extern \"C\" fn f(a: T) { }"), Form::Plain).err().unwrap_or_default()
    };
    let kept = "a constant that is lent, by a function that may keep a pointer";
    let [named, pointing, holding] = ["m::S", "m::P", "m::M"].map(|name| json_named(name, &[]));
    assert_eq!(why(constant, [&named, &json_reference("Mut", &named)]), "");
    assert_eq!(why(constant, [UNIT_JSON, &pointing]), "");
    assert!(why(constant, [&pointing, U8_JSON]).contains(kept));
    assert!(why(constant, [&json_reference("Imm", U8_JSON), U8_JSON]).contains(kept));
    assert!(why(constant, [U8_JSON, &json_reference("Mut", &pointing)]).contains(kept));
    assert!(why(constant, [U8_JSON, &holding]).contains(kept));
    for wrong in [
        r#"{"Parts": []}"#,
        r#"{"Parts": [{"Int": {"width": 16, "value": 1}}]}"#,
        r#"{"Parts": [{"Bool": true}]}"#,
        r#"{"Repeat": [{"Int": 5}, 2]}"#,
        r#"{"Int": {"width": 8, "value": 1}}"#,
    ] {
        assert!(why(wrong, [U8_JSON, U8_JSON]).contains("unknown constant"), "{wrong}");
    }
}

#[test]
fn bodies_that_are_not_known() {
    let unit = [json_value(r#""Unit""#)];
    assert!(refused_f(&unit, &[r#"{"Drop": 1}"#]).contains("m::f: unknown statement"));
    assert!(refused_f(&unit, &[r#""Return""#, r#""Skip""#]).contains("a statement behind the end: Skip"));
    assert!(refused_f(&unit, &[r#""Seq""#, r#""Skip""#]).contains("a body that ends too early"));
    let method = format!(r#"{{"Call": [{{"Method": [{{"Given": 0}}, 0, {NO_TYPES}]}}, [], {}]}}"#, json_at(0));
    assert!(refused_f(&unit, &[&method]).contains("m::f: unknown dictionary: (Given 0)"));
    let signed =
        json_assign(0, &format!(r#"{{"Op2": [{{"Add": "Signed"}}, {}, {}]}}"#, json_copy(0), json_copy(0)));
    assert!(refused_f(&unit, &[&signed]).contains("unknown operation: (add signed)"));
    let field = r#"{"Assign": [{"local": 0, "steps": [{"Index": 1}]}, {"Opd": "Unit"}]}"#;
    assert!(refused_f(&unit, &[field]).contains("unknown step of a place"));
    assert!(refused_f(&unit, &[&json_assign(0, r#"{"Opd": {"Float": 1}}"#)]).contains("unknown operand"));
    assert!(refused_f(&unit, &[&json_assign(0, r#"{"Discriminant": 1}"#)]).contains("unknown value"));
}

#[test]
fn locals_that_are_not_known() {
    let of = |ty: &str| refused_f(&[json_value(ty)], &[r#""Return""#]);
    assert!(of(r#"{"Param": 0}"#).contains("unknown type: (Param 0)"));
    let pair = r#"{"Named": [{"name": "(,)", "lifetimes": []}, [{"Int": 8}, {"Int": 8}]]}"#;
    assert!(of(pair).contains("unknown type"));
    assert!(of(r#"{"Array": [{"Int": 8}, {"Const": 0}]}"#).contains("unknown length"));
    assert!(refused_f(&[r#"{"ty": "Unit", "home": "Register"}"#.to_string()], &[]).contains("unknown local"));
}

#[test]
fn functions_that_are_not_known() {
    let unit = [json_value(r#""Unit""#)];
    let plain = json_function("m::f", 0, &unit, "", &[r#""Return""#]);
    let generic = plain.replace(r#""generics": {"types": []"#, r#""generics": {"types": [{"is_copy": true}]"#);
    assert!(refused_functions(&[generic]).contains("m::f: a function for several types"));
    assert!(refused_functions(&[plain.clone(), plain.clone()]).contains("m::f: two functions of one name"));
    assert!(refused_functions(&[]).contains("m::f: a call for C that the program does not have"));
    let cell =
        r#"{"name": "m::C", "type_params": 0, "const_params": [], "is_cell": true, "shape": {"Fields": []}}"#;
    let celled = json_function("m::f", 0, &unit, cell, &[r#""Return""#]);
    assert!(refused_functions(&[celled]).contains("unknown declaration"));
}

#[test]
fn texts_that_are_no_json() {
    let why = |text: &str| {
        translate_mir(&[text.to_string()], &Sources::default(), Form::Plain).expect_err(text).to_string()
    };
    for text in
        ["", "[", "[1", "[1 2]", "[-1]", "{\"a\" 1}", "{1: 2}", "[] []", "[\"a\\u0041\"]", "[nul]", "\"a"]
    {
        assert!(why(text).starts_with("no JSON: "), "{text}: {}", why(text));
    }
    assert_eq!(why("{}"), "no list of functions");
    assert!(why("[1]").contains("unknown function: 1"));
    assert!(why("[[1, 2]]").contains("a function without its name"));
}

#[test]
fn a_call_by_an_impl_that_is_not_there_is_refused() {
    let slice = |mutability: &str| {
        json_value(&format!(
            r#"{{"Struct": ["&[]", [{{"Ref": [{{"Named": 0}}, "{mutability}", {{"Int": 8}}]}}, {{"Int": 64}}]]}}"#
        ))
    };
    let at = r#"{"types": [{"Int": 8}], "dicts": [{"Impl": ["core::clone::U8Clone", [], []]}]}"#;
    let call = format!(
        r#"{{"Call": [{{"Fn": ["core::slice::edits::slice+T::copy_from_slice", {at}]}}, [{}, {}], {}]}}"#,
        json_copy(1),
        json_copy(2),
        json_at(0)
    );
    let locals = [json_value(r#""Unit""#), slice("Mut"), slice("Imm")];
    let function = json_function("m::f", 2, &locals, "", &[r#""Seq""#, &call, r#""Return""#]);
    let why =
        c_of(&[&[function]], &sources("pub extern \"C\" fn f(to: &mut [u8], from: &[u8]) { }"), Form::Reading)
            .expect_err("an impl that is not there");
    assert!(why.contains("m::f: unknown dictionary: (Impl [core::clone::U8Clone"), "{why}");
}
