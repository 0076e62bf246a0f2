//! Functions and types for several types: what is made of each instance, and what is refused.

mod small;

use portable::Form;
use small::json::*;
use small::*;

/// Statements of one part each.
fn plain(statements: &[String]) -> Vec<Vec<String>> {
    statements.iter().map(|statement| vec![statement.clone()]).collect()
}

fn values(types: &[&str]) -> Vec<String> {
    types.iter().map(|ty| json_value(ty)).collect()
}

/// The reading form, and the plain one, of functions of which `m::f` is a call for C.
fn both(params: &str, functions: &[String]) -> [String; 2] {
    let sources = sources(&format!("pub extern \"C\" fn f({params}) {{ }}"));
    [Form::Reading, Form::Plain].map(|form| c_of(&[functions], &sources, form).expect("a C file"))
}

fn has(c: &str, wanted: &str) {
    assert!(c.contains(wanted), "{wanted} is not in\n{c}");
}

/// A struct of two parameters, the second first.
fn pair() -> String {
    json_declared("m::Pair", 2, &format!(r#"{{"Fields": [{}, {}]}}"#, json_param(1), json_param(0)))
}

/// `m::g<T>(a: T, b: bool)`, which makes a pair of the two and returns a field of it.
fn of_pair() -> String {
    let of = json_named("m::Pair", &[&json_param(0), BOOL_JSON]);
    let made = json_assign(3, &format!(r#"{{"Aggregate": [{}, {}]}}"#, json_copy(2), json_copy(1)));
    let read = json_assign(0, &json_opd(&json_part(3, r#"{"Field": 1}"#)));
    let locals = values(&[&json_param(0), &json_param(0), BOOL_JSON, &of]);
    json_generic(json_returning("m::g", 2, &locals, &[pair()], &plain(&[made, read])), &[TYPE], 0, &[])
}

#[test]
fn a_type_has_its_arguments_at_each_instance() {
    let calls =
        [json_call("m::g", &[U8_JSON], &[], &[1, 3], 4), json_call("m::g", &[U64_JSON], &[], &[2, 3], 0)];
    let locals = values(&[U64_JSON, U8_JSON, U64_JSON, BOOL_JSON, U8_JSON]);
    let f = json_returning("m::f", 3, &locals, &[], &plain(&calls));
    for c in both("a: u8, b: u64, c: bool", &[f, of_pair()]) {
        has(
            &c,
            "/* m::Pair<u8, bool>. */\ntypedef struct {\n    _Bool f0;\n    uint8_t f1;\n} m_Pair_u8_bool;\n",
        );
        has(&c, "typedef struct {\n    _Bool f0;\n    uint64_t f1;\n} m_Pair_u64_bool;\n");
        has(&c, "/* m::g<u8>. */\nstatic inline uint8_t m_g_u8(uint8_t t1, _Bool t2)\n");
        has(&c, "static inline uint64_t m_g_u64(uint64_t t1, _Bool t2)\n");
    }
}

#[test]
fn a_parameter_is_its_own_function_s() {
    // `h<T, U>` gives `g` its second parameter as the first
    let call = json_call("m::g", &[&json_param(1)], &[], &[2, 3], 0);
    let locals = values(&[&json_param(1), &json_param(0), &json_param(1), BOOL_JSON]);
    let h = json_generic(json_returning("m::h", 3, &locals, &[], &plain(&[call])), &[TYPE, TYPE], 0, &[]);
    let call = json_call("m::h", &[U64_JSON, U8_JSON], &[], &[1, 2, 3], 0);
    let locals = values(&[U8_JSON, U64_JSON, U8_JSON, BOOL_JSON]);
    let f = json_returning("m::f", 3, &locals, &[], &plain(&[call]));
    for c in both("a: u64, b: u8, c: bool", &[f, h, of_pair()]) {
        has(&c, "static inline uint8_t m_h_u64_u8(uint64_t t1, uint8_t t2, _Bool t3)\n");
        has(&c, "m_g_u8(t2, t3)");
        has(&c, "static inline uint8_t m_g_u8(uint8_t t1, _Bool t2)\n");
        assert!(!c.contains("m_g_u64"), "{c}");
    }
}

/// `m::g<N>(a: &[u8; N])`: a number, and an array of as many zeros as that.
fn of_number() -> String {
    let array = format!(r#"{{"Array": [{U8_JSON}, {}]}}"#, json_param(0));
    let zeros = json_assign(2, &format!(r#"{{"Repeat": [{}, {}]}}"#, json_int(8, 0), json_param(0)));
    let number = json_assign(0, &json_opd(&format!(r#"{{"NumOf": [64, {}]}}"#, json_param(0))));
    let locals = [json_value(U64_JSON), json_value(&json_reference("Imm", &array)), json_memory(&array)];
    json_generic(json_returning("m::g", 1, &locals, &[], &plain(&[zeros, number])), &[NUMBER], 0, &[])
}

/// `m::f`, which calls it at two numbers.
fn at_numbers(numbers: [&str; 2]) -> String {
    let array = |count: u64| json_reference("Imm", &format!(r#"{{"Array": [{U8_JSON}, {{"Lit": {count}}}]}}"#));
    let calls =
        [json_call("m::g", &[numbers[0]], &[], &[1], 3), json_call("m::g", &[numbers[1]], &[], &[2], 0)];
    let locals = values(&[U64_JSON, &array(3), &array(5), U64_JSON]);
    json_returning("m::f", 2, &locals, &[], &plain(&calls))
}

#[test]
fn a_number_is_that_of_its_instance() {
    let f = at_numbers([r#"{"Const": 3}"#, r#"{"Const": 5}"#]);
    let [reading, plain] = both("a: &[u8; 3], b: &[u8; 5]", &[f, of_number()]);
    for c in [&reading, &plain] {
        has(c, "/* m::g<3>. */\nstatic inline uint64_t m_g_3(const uint8_t *t1)\n");
    }
    has(&reading, "    return 3;\n}\n\n/* m::g<5>. */\nstatic inline uint64_t m_g_5(const uint8_t *t1)\n");
    has(
        &plain,
        "static inline uint64_t m_g_5(const uint8_t *t1)\n{\n    (void)t1;\n    uint64_t t0;\n    t0 = 5;\n",
    );
}

/// A trait's method of two impls, for bytes and for another type, and a function that calls the one that it is given.
fn by_dictionaries(wide: &str) -> Vec<String> {
    let method = |name: &str, ty: &str, number: u64| {
        let locals = values(&[U64_JSON, ty]);
        json_returning(name, 1, &locals, &[], &plain(&[json_assign(0, &json_opd(&json_int(64, number)))]))
    };
    let given = json_method(r#"{"Given": 1}"#, 0, &[1], 0);
    let locals = values(&[U64_JSON, &json_param(0)]);
    let g = json_generic(json_returning("m::g", 1, &locals, &[], &plain(&[given])), &[TYPE], 2, &[]);
    let impls = [
        json_impl("m::Other", 0, 0, &["m::Other::width"]),
        json_impl("m::NarrowWidth", 0, 0, &["m::NarrowWidth::width"]),
        json_impl("m::WideWidth", 0, 0, &["m::WideWidth::width"]),
    ];
    let by = |ty: &str, name: &str, local: usize, target: usize| {
        let dicts = [json_dict("m::Other", &[], &[]), json_dict(name, &[], &[])];
        json_call("m::g", &[ty], &[&dicts[0], &dicts[1]], &[local], target)
    };
    let calls = [by(U8_JSON, "m::NarrowWidth", 1, 3), by(wide, "m::WideWidth", 2, 0)];
    let locals = values(&[U64_JSON, U8_JSON, wide, U64_JSON]);
    let f = json_generic(json_returning("m::f", 2, &locals, &[], &plain(&calls)), &[], 0, &impls);
    vec![
        f,
        g,
        method("m::Other::width", U8_JSON, 1),
        method("m::NarrowWidth::width", U8_JSON, 4),
        method("m::WideWidth::width", wide, 8),
    ]
}

#[test]
fn a_method_is_that_of_the_impl_that_is_given() {
    for c in both("a: u8, b: u64", &by_dictionaries(U64_JSON)) {
        has(&c, "/* m::NarrowWidth::width. */\nstatic inline uint64_t m_NarrowWidth_width(uint8_t t1)\n");
        assert!(!c.contains("m_Other"), "{c}");
    }
    let [c, _] = both("a: u8, b: u64", &by_dictionaries(U64_JSON));
    has(&c, "static inline uint64_t m_g_u8(uint8_t t1)\n{\n    return m_NarrowWidth_width(t1);\n}\n");
    has(&c, "static inline uint64_t m_g_u64(uint64_t t1)\n{\n    return m_WideWidth_width(t1);\n}\n");
}

#[test]
fn instances_that_differ_in_an_impl_alone_are_two() {
    let [c, _] = both("a: u8, b: u8", &by_dictionaries(U8_JSON));
    has(
        &c,
        "m_g_u8_by_m_Other_width_by_m_NarrowWidth_width(uint8_t t1)\n{\n    return m_NarrowWidth_width(t1);\n",
    );
    has(&c, "m_g_u8_by_m_Other_width_by_m_WideWidth_width(uint8_t t1)\n{\n    return m_WideWidth_width(t1);\n");
}

#[test]
fn an_impl_has_arguments_of_its_own() {
    // the method is of `Of<T>`, for which the impl takes a type, and a dictionary for that
    let inner = json_impl("m::Inner", 0, 0, &["m::Inner::width"]);
    let outer = json_impl("m::Outer", 1, 1, &["m::Outer::width"]);
    let width = json_assign(0, &json_opd(&json_int(64, 7)));
    let of_inner = json_returning("m::Inner::width", 1, &values(&[U64_JSON, U8_JSON]), &[], &plain(&[width]));
    let given = json_method(r#"{"Given": 0}"#, 0, &[1], 0);
    let locals = values(&[U64_JSON, &json_param(0)]);
    let of_outer = json_returning("m::Outer::width", 1, &locals, &[], &plain(&[given]));
    let of_outer = json_generic(of_outer, &[TYPE], 1, &[]);
    let inner_dict = json_dict("m::Inner", &[], &[]);
    let dict = json_dict("m::Outer", &[U8_JSON], &[&inner_dict]);
    let call = json_method(&dict, 0, &[1], 0);
    let f = json_returning("m::f", 1, &values(&[U64_JSON, U8_JSON]), &[], &plain(&[call]));
    let f = json_generic(f, &[], 0, &[inner, outer]);
    let [c, _] = both("a: u8", &[f, of_outer, of_inner]);
    has(&c, "static inline uint64_t m_Outer_width_u8(uint8_t t1)\n{\n    return m_Inner_width(t1);\n}\n");
    has(&c, "    return m_Outer_width_u8(a);\n");
}

#[test]
fn a_method_has_the_impls_arguments_before_its_own() {
    // `at<T, N>` of an impl for a type, and a method for a number
    let outer = json_impl("m::Outer", 1, 0, &["m::Outer::at"]);
    let number = json_assign(0, &json_opd(&format!(r#"{{"NumOf": [64, {}]}}"#, json_param(1))));
    let locals = values(&[U64_JSON, &json_param(0)]);
    let method = json_generic(
        json_returning("m::Outer::at", 1, &locals, &[], &plain(&[number])),
        &[TYPE, NUMBER],
        0,
        &[],
    );
    let dict = json_dict("m::Outer", &[U8_JSON], &[]);
    let call = json_method(&dict, 0, &[1], 0).replace(r#""types": []"#, r#""types": [{"Const": 3}]"#);
    let f = json_returning("m::f", 1, &values(&[U64_JSON, U8_JSON]), &[], &plain(&[call]));
    let [c, _] = both("a: u8", &[json_generic(f, &[], 0, &[outer]), method]);
    has(&c, "/* m::Outer::at<u8, 3>. */\nstatic inline uint64_t m_Outer_at_u8_3(uint8_t t1)\n");
    has(&c, "    return 3;\n");
}

const RESULT: &str = "core::result::Result";
const OPTION: &str = "core::option::Option";
const FLOW: &str = "core::ops::ControlFlow";
const RESIDUAL: &str = "core::result::ErrResidual";
const NO_VALUE: &str = "core::option::NoValue";

/// The types that `?` uses, as the kit declares them.
fn of_kit() -> Vec<String> {
    let [one, other] = [0, 1].map(json_param);
    vec![
        json_declared(RESULT, 2, &format!(r#"{{"Variants": [[{one}], [{other}]]}}"#)),
        json_declared(OPTION, 1, &format!(r#"{{"Variants": [[], [{one}]]}}"#)),
        json_declared(FLOW, 2, &format!(r#"{{"Variants": [[{other}], [{one}]]}}"#)),
        json_declared(RESIDUAL, 1, &format!(r#"{{"Fields": [{one}]}}"#)),
        json_declared(NO_VALUE, 0, r#"{"Fields": []}"#),
        json_declared("m::Refusal", 0, r#"{"Variants": [[], []]}"#),
    ]
}

/// The kit's functions behind `?` on a `Result`, and on an `Option`.
fn of_question() -> Vec<String> {
    let [one, other, third] = [0, 1, 2].map(json_param);
    let residual = json_named(RESIDUAL, &[&other]);
    let flow = json_named(FLOW, &[&residual, &one]);
    let made = json_assign(5, &format!(r#"{{"Aggregate": [{}]}}"#, json_copy(3)));
    let ways = json_switch(
        1,
        &[
            (0, vec![json_assign(2, &json_opd(&json_variant(1, 0, 1))), json_made(4, 0, &[&json_copy(2)])]),
            (
                1,
                vec![
                    json_assign(3, &json_opd(&json_variant(1, 1, 1))),
                    made,
                    json_made(4, 1, &[&json_copy(5)]),
                ],
            ),
        ],
    );
    let locals = values(&[&flow, &json_named(RESULT, &[&one, &other]), &one, &other, &flow, &residual]);
    let result = json_assign(0, &json_opd(&json_copy(4)));
    let branch =
        json_returning("core::result::ResultTry::branch", 1, &locals, &of_kit(), &[ways, vec![result]]);

    let statements = [
        json_assign(3, &json_opd(&json_part(1, r#"{"Field": 0}"#))),
        json_method(r#"{"Given": 0}"#, 0, &[3], 2),
        json_made(0, 1, &[&json_copy(2)]),
    ];
    let locals = values(&[&json_named(RESULT, &[&one, &third]), &residual, &third, &other]);
    let from = json_returning(
        "core::result::ResultFromResidualErrResidual::from_residual",
        1,
        &locals,
        &of_kit(),
        &plain(&statements),
    );
    let same = json_assign(0, &json_opd(&json_copy(1)));
    let any = json_returning("core::convert::AnyFrom::from", 1, &values(&[&one, &one]), &[], &plain(&[same]));

    let nothing = json_named(NO_VALUE, &[]);
    let flow = json_named(FLOW, &[&nothing, &one]);
    let made = json_assign(4, r#"{"Aggregate": []}"#);
    let ways = json_switch(
        1,
        &[
            (1, vec![json_assign(2, &json_opd(&json_variant(1, 1, 1))), json_made(3, 0, &[&json_copy(2)])]),
            (0, vec![made, json_made(3, 1, &[&json_copy(4)])]),
        ],
    );
    let locals = values(&[&flow, &json_named(OPTION, &[&one]), &one, &flow, &nothing]);
    let result = json_assign(0, &json_opd(&json_copy(3)));
    let of_option =
        json_returning("core::option::OptionTry::branch", 1, &locals, &of_kit(), &[ways, vec![result]]);
    let locals = values(&[&json_named(OPTION, &[&one]), &nothing]);
    let from_nothing = json_returning(
        "core::option::OptionFromResidualNoValue::from_residual",
        1,
        &locals,
        &of_kit(),
        &plain(&[json_made(0, 0, &[])]),
    );
    vec![
        json_generic(branch, &[TYPE, TYPE], 0, &[]),
        json_generic(from, &[TYPE, TYPE, TYPE], 1, &[]),
        json_generic(any, &[TYPE], 0, &[]),
        json_generic(of_option, &[TYPE], 0, &[]),
        json_generic(from_nothing, &[TYPE], 0, &[]),
    ]
}

/// `m::h(a)?` within `m::g`, which has another type on success, and `m::f`, whose C says which way that went.
fn result_with_question() -> Vec<String> {
    let refusal = json_named("m::Refusal", &[]);
    let given = json_named(RESULT, &[U8_JSON, &refusal]);
    let wanted = json_named(RESULT, &[U64_JSON, &refusal]);
    let residual = json_named(RESIDUAL, &[&refusal]);
    let flow = json_named(FLOW, &[&residual, U8_JSON]);
    let h = json_returning(
        "m::h",
        1,
        &values(&[&given, U8_JSON]),
        &of_kit(),
        &plain(&[json_made(0, 0, &[&json_copy(1)])]),
    );
    let by = json_dict("core::convert::AnyFrom", &[&refusal], &[]);
    let from = "core::result::ResultFromResidualErrResidual::from_residual";
    let ways = json_switch(
        3,
        &[
            (0, vec![json_assign(2, &json_opd(&json_variant(3, 0, 1)))]),
            (
                1,
                vec![
                    json_assign(4, &json_opd(&json_variant(3, 1, 1))),
                    json_call(from, &[U64_JSON, &refusal, &refusal], &[&by], &[4], 0),
                    r#""Return""#.to_string(),
                ],
            ),
        ],
    );
    let cast =
        json_assign(6, &format!(r#"{{"Op1": [{{"Cast": ["Unsigned", "Unsigned", 64]}}, {}]}}"#, json_copy(2)));
    let statements = [
        vec![json_call("m::h", &[], &[], &[1], 5)],
        vec![json_call("core::result::ResultTry::branch", &[U8_JSON, &refusal], &[], &[5], 3)],
        ways,
        vec![cast],
        vec![json_made(0, 0, &[&json_copy(6)])],
    ];
    let locals = values(&[&wanted, U8_JSON, U8_JSON, &flow, &residual, &given, U64_JSON]);
    let g = json_returning("m::f", 1, &locals, &of_kit(), &statements);
    let any = json_impl("core::convert::AnyFrom", 1, 0, &["core::convert::AnyFrom::from"]);
    [vec![json_generic(g, &[], 0, &[any]), h], of_question()].concat()
}

#[test]
fn a_question_on_a_result_is_a_test_of_its_tag() {
    let [reading, plain] = both("a: u8", &result_with_question());
    has(&reading, "uint8_t tag; /* 0 Ok, 1 Err */\n");
    has(
        &reading,
        "Result_u64_m_Refusal f(uint8_t a)\n{\n    Result_u8_m_Refusal t5 = m_h(a);\n    if (t5.tag != 0) {\n        \
         return (Result_u64_m_Refusal){.tag = 1, .as.Err.f0 = t5.as.Err.f0};\n    }\n    \
         return (Result_u64_m_Refusal){.tag = 0, .as.Ok.f0 = (uint64_t)t5.as.Ok.f0};\n}\n",
    );
    assert!(!reading.contains("ControlFlow"), "{reading}");
    has(&plain, "ControlFlow_ErrResidual_m_Refusal_u8 core_result_ResultTry_branch_u8_m_Refusal(");
    has(&plain, "    t3 = core_result_ResultTry_branch_u8_m_Refusal(t5);\n");
}

#[test]
fn a_question_on_an_option_is_a_test_of_its_tag() {
    let nothing = json_named(NO_VALUE, &[]);
    let flow = json_named(FLOW, &[&nothing, U8_JSON]);
    let option = |of: &str| json_named(OPTION, &[of]);
    let from = "core::option::OptionFromResidualNoValue::from_residual";
    let ways = json_switch(
        3,
        &[
            (0, vec![json_assign(2, &json_opd(&json_variant(3, 0, 1)))]),
            (
                1,
                vec![
                    json_assign(4, &json_opd(&json_variant(3, 1, 1))),
                    json_call(from, &[BOOL_JSON], &[], &[4], 0),
                    r#""Return""#.to_string(),
                ],
            ),
        ],
    );
    let test = json_assign(5, &format!(r#"{{"Op2": ["Eq", {}, {}]}}"#, json_copy(2), json_int(8, 3)));
    let statements = [
        vec![json_call("core::option::OptionTry::branch", &[U8_JSON], &[], &[1], 3)],
        ways,
        vec![test],
        vec![json_made(0, 1, &[&json_copy(5)])],
    ];
    let locals = values(&[&option(BOOL_JSON), &option(U8_JSON), U8_JSON, &flow, &nothing, BOOL_JSON]);
    let g = json_returning("m::g", 1, &locals, &of_kit(), &statements);
    let call = json_call("m::g", &[], &[], &[1], 2);
    let tag = json_assign(0, &json_opd(&json_variant(2, 0, 0)));
    let locals = values(&[U8_JSON, &option(U8_JSON), &option(BOOL_JSON)]);
    let f = json_returning("m::f", 1, &locals, &of_kit(), &plain(&[call, tag]));
    let [reading, plain] = both("a: T", &[vec![f, g], of_question()].concat());
    has(
        &reading,
        "static inline Option_bool m_g(Option_u8 t1)\n{\n    if (t1.tag != 1) {\n        \
         return (Option_bool){.tag = 0};\n    }\n    \
         return (Option_bool){.tag = 1, .as.Some.f0 = t1.as.Some.f0 == 3};\n}\n",
    );
    // a struct without fields has no value
    has(&plain, "core_option_OptionFromResidualNoValue_from_residual_bool(void)\n");
    assert!(!plain.contains("} NoValue;"), "{plain}");
}

/// What calls for C are refused for that call `m::g` at some arguments.
fn refused_call(call: &str, more: &[String]) -> String {
    let f = json_returning("m::f", 0, &values(&[U8_JSON, U8_JSON]), &[], &plain(&[call.to_string()]));
    refused_functions(&[&[f], more].concat())
}

#[test]
fn a_parameter_that_is_not_there_is_refused() {
    let call = json_call("m::g", &[&json_param(0)], &[], &[1], 0);
    assert!(refused_call(&call, &[]).contains("m::f: unknown type: (Param 0)"));
    let locals = values(&[&json_param(0), &json_param(1)]);
    let g = json_generic(json_returning("m::g", 1, &locals, &[], &[]), &[TYPE], 0, &[]);
    let why = refused_call(&json_call("m::g", &[U8_JSON], &[], &[1], 0), &[g]);
    assert!(why.contains("m::g: unknown type: (Param 1)"), "{why}");
}

#[test]
fn an_instance_whose_function_is_not_there_is_refused() {
    let why = refused_call(&json_call("m::g", &[U8_JSON], &[], &[1], 0), &[]);
    assert!(why.contains("m::f: a call of a function that is not there: m::g<u8>"), "{why}");
}

#[test]
fn instances_without_an_end_are_refused() {
    // `g<T>` calls `g<Option<T>>`
    let option = json_named(OPTION, &[&json_param(0)]);
    let call = json_call("m::g", &[&option], &[], &[2], 3);
    let locals = values(&[UNIT_JSON, &json_param(0), &option, UNIT_JSON]);
    let g = json_generic(json_returning("m::g", 1, &locals, &of_kit(), &plain(&[call])), &[TYPE], 0, &[]);
    let call = json_call("m::g", &[U8_JSON], &[], &[1], 0);
    let f = json_returning("m::f", 1, &values(&[UNIT_JSON, U8_JSON]), &[], &plain(&[call]));
    let why = refused_functions(&[f, g]);
    assert!(why.contains("m::g: types without an end"), "{why}");
    // a type that points to one of itself at a longer argument
    let next = json_named("m::Next", &[&json_named(OPTION, &[&json_param(0)])]);
    let declared = json_declared("m::Next", 1, &format!(r#"{{"Fields": [{}]}}"#, json_reference("Imm", &next)));
    let locals = values(&[UNIT_JSON, &json_named("m::Next", &[U8_JSON])]);
    let why = refused_functions(&[json_returning("m::f", 1, &locals, &[declared], &[])]);
    assert!(why.contains("m::f: types without an end"), "{why}");
}

#[test]
fn two_functions_or_types_of_one_name_are_refused() {
    let call = json_call("m::g", &[U8_JSON], &[], &[1], 0);
    let of = |number: u64| {
        let made = json_assign(0, &json_opd(&json_int(8, number)));
        json_generic(
            json_returning("m::g", 1, &values(&[U8_JSON, &json_param(0)]), &[], &plain(&[made])),
            &[TYPE],
            0,
            &[],
        )
    };
    assert!(refused_call(&call, &[of(1), of(2)]).contains("m::g: two functions of one name"));
    let of = |name: &str, shape: &str| {
        let ty = json_named("m::T", &[U8_JSON]);
        json_returning(name, 1, &values(&[U8_JSON, &ty]), &[json_declared("m::T", 1, shape)], &[])
    };
    let one = of("m::f", &format!(r#"{{"Fields": [{}]}}"#, json_param(0)));
    let other = of("m::g", r#"{"Fields": ["Bool"]}"#);
    assert!(refused_functions(&[one, other]).contains("m::f: two types of the name m::T"));
}

#[test]
fn arguments_that_are_not_as_many_as_parameters_are_refused() {
    let locals = values(&[U8_JSON, &json_param(0)]);
    let g = json_generic(json_returning("m::g", 1, &locals, &[], &[]), &[TYPE], 1, &[]);
    for types in [&[U8_JSON, U8_JSON][..], &[U8_JSON], &[]] {
        let why = refused_call(&json_call("m::g", types, &[], &[1], 0), &[g.clone()]);
        let told = format!("a function for several types, 1 and 1 dictionaries, at {} and 0", types.len());
        assert!(why.contains(&told), "{why}");
    }
    let g = json_generic(json_returning("m::g", 1, &locals, &[], &[]), &[TYPE], 0, &[]);
    let why = refused_call(&json_call("m::g", &[U8_JSON, U8_JSON], &[], &[1], 0), &[g]);
    assert!(why.contains("1 and 0 dictionaries, at 2 and 0"), "{why}");
    // a type, an impl, and a method that it does not have
    let ty = json_named("m::Pair", &[U8_JSON]);
    let f = json_returning("m::f", 1, &values(&[U8_JSON, &ty]), &[pair()], &[]);
    assert!(refused_functions(&[f]).contains("unknown number of arguments of a type"));
    let by = |dict: &str, number: usize| {
        let call = json_method(dict, number, &[1], 0);
        let f = json_returning("m::f", 0, &values(&[U8_JSON, U8_JSON]), &[], &plain(&[call]));
        refused_functions(&[json_generic(f, &[], 0, &[json_impl("m::I", 0, 0, &["m::I::of"])])])
    };
    assert!(by(&json_dict("m::I", &[U8_JSON], &[]), 0).contains("unknown dictionary"));
    assert!(by(&json_dict("m::J", &[], &[]), 0).contains("unknown dictionary"));
    assert!(by(&json_dict("m::I", &[], &[]), 1).contains("unknown method of an impl"));
    assert!(by(&json_dict("m::I", &[], &[]), 0).contains("a call of a function that is not there: m::I::of"));
}

#[test]
fn a_number_is_no_type_and_a_type_no_number() {
    let three = r#"{"Const": 3}"#;
    let of_type = json_returning("m::g", 1, &values(&[U8_JSON, U8_JSON]), &[], &[]);
    let why = |params: &str, argument: &str| {
        let g = json_generic(of_type.clone(), &[params], 0, &[]);
        refused_call(&json_call("m::g", &[argument], &[], &[1], 0), &[g])
    };
    assert!(why(TYPE, three).contains("m::g: unknown argument: (Const 3)"));
    assert!(why(NUMBER, U8_JSON).contains("m::g: unknown argument: (Int 8)"));
    assert!(why(&NUMBER.replace("64", "8"), r#"{"Const": 256}"#).contains("m::g: unknown argument"));
    // an array as long as a type
    let array = format!(r#"{{"Array": [{U8_JSON}, {}]}}"#, json_param(0));
    let g = json_generic(json_returning("m::g", 1, &values(&[U8_JSON, &array]), &[], &[]), &[TYPE], 0, &[]);
    assert!(refused_call(&json_call("m::g", &[U8_JSON], &[], &[1], 0), &[g]).contains("unknown length"));
}

#[test]
fn two_types_of_one_name_in_c_are_refused() {
    let call = |ty: &str| json_call("m::g", &[ty], &[], &[1], 0);
    let declared = ["m::a_b", "m::a::b"].map(|name| json_declared(name, 0, r#"{"Variants": [[], []]}"#));
    let locals = values(&[U8_JSON, &json_param(0)]);
    let made = json_assign(0, &json_opd(&json_int(8, 1)));
    let g = json_generic(json_returning("m::g", 1, &locals, &[], &plain(&[made])), &[TYPE], 0, &[]);
    let named = ["m::a_b", "m::a::b"].map(|name| json_named(name, &[]));
    let locals = values(&[U8_JSON, &named[0], &named[1]]);
    let calls = [call(&named[0]), call(&named[1]).replace(&json_copy(1), &json_copy(2))];
    let f = json_returning("m::f", 2, &locals, &declared, &plain(&calls));
    assert!(refused_functions(&[f, g]).contains("another name is the same in C"));
}
