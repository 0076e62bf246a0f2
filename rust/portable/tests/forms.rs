//! Both forms do the same: programs of random statements, with reads, writes, calls, branches and loops in any order, are translated in both,
//! compiled and run on the same input. The engine itself would not show a rule of folding that is missing; these do.

mod compiled;
mod small;

use compiled::{driver, run, seed};
use portable::{translate, Form};
use small::*;
use std::env;
use std::fs;
use std::path::PathBuf;
use std::process;

const FUNCTIONS: usize = 300;
/// Where the random programs begin.
const SEED: u64 = 0x9E37_79B9_7F4A_7C15;
/// By what the second word rises from one input to the next.
const STEP: u64 = 77;

/// The locals of a random function: the result, a slice, two numbers, then what is written and read at random.
const SLICE: usize = 1;
const WORDS: std::ops::Range<usize> = 2..10;
const INDEX: usize = 10;
const BYTE: usize = 11;
const TEST: usize = 12;
const POINTER: usize = 13;
const COUNTERS: std::ops::Range<usize> = 14..17;

struct Random(u64);

impl Random {
    fn below(&mut self, bound: u64) -> u64 {
        self.0 ^= self.0 << 13;
        self.0 ^= self.0 >> 7;
        self.0 ^= self.0 << 17;
        (self.0 >> 11) % bound
    }

    fn word(&mut self) -> usize {
        WORDS.start + self.below((WORDS.end - WORDS.start) as u64) as usize
    }
}

fn operation(random: &mut Random) -> String {
    let operator =
        ["(add unsigned)", "(sub unsigned)", "xor", "and", "or", "(mul unsigned)"][random.below(6) as usize];
    assign(&at(random.word()), &format!("op2 {operator} {} {}", copy(random.word()), operand(random)))
}

fn operand(random: &mut Random) -> String {
    match random.below(4) {
        0 => format!("(int 64 {})", random.below(1000)),
        _ => copy(random.word()),
    }
}

/// A pointer to one of the slice's eight bytes.
fn pointed(random: &mut Random) -> [String; 2] {
    [
        assign(&at(INDEX), &format!("op2 and {} (int 64 7)", copy(random.word()))),
        assign(&at(POINTER), &format!("op2 offset (copy {}) {}", field(SLICE, 0), copy(INDEX))),
    ]
}

fn read(random: &mut Random) -> Vec<String> {
    let mut body = pointed(random).to_vec();
    body.push(assign(&at(BYTE), &format!("rvOpd (copy {})", behind(POINTER, U8))));
    if random.below(3) == 0 {
        body.push(operation(random));
    }
    body.push(assign(&at(random.word()), &format!("op1 (cast unsigned unsigned 64) {}", copy(BYTE))));
    body
}

fn write(random: &mut Random) -> Vec<String> {
    let mut body = vec![
        assign(&at(INDEX), &format!("op2 and {} (int 64 255)", copy(random.word()))),
        assign(&at(BYTE), &format!("op1 (cast unsigned unsigned 8) {}", copy(INDEX))),
    ];
    body.extend(pointed(random));
    body.push(assign(&behind(POINTER, U8), &format!("rvOpd {}", copy(BYTE))));
    body
}

fn test(random: &mut Random) -> String {
    let operator = ["(lt unsigned)", "(le unsigned)", "eq", "ne"][random.below(4) as usize];
    assign(&at(TEST), &format!("op2 {operator} {} {}", copy(random.word()), operand(random)))
}

/// A function that writes to the slice and tells a byte of it.
fn call_of(name: &str, random: &mut Random, target: &str) -> String {
    format!(
        "call (direct (fnRef \"m::{name}\")) (lcons {} (lcons {} lnil)) {target}",
        copy(SLICE),
        copy(random.word())
    )
}

fn call(random: &mut Random) -> String {
    let target = at(random.word());
    call_of("g", random, &target)
}

/// A call whose byte is put where a byte of the slice says.
fn stored_call(random: &mut Random) -> Vec<String> {
    let mut body = pointed(random).to_vec();
    body.push(assign(&at(BYTE), &format!("rvOpd (copy {})", behind(POINTER, U8))));
    body.push(assign(&at(INDEX), &format!("op1 (cast unsigned unsigned 64) {}", copy(BYTE))));
    body.push(assign(&at(INDEX), &format!("op2 and {} (int 64 7)", copy(INDEX))));
    body.push(assign(&at(POINTER), &format!("op2 offset (copy {}) {}", field(SLICE, 0), copy(INDEX))));
    body.push(call_of("h", random, &behind(POINTER, U8)));
    body
}

fn body(random: &mut Random, depth: usize, in_loop: bool) -> Vec<String> {
    (0..3 + random.below(6)).flat_map(|_| statement(random, depth, in_loop)).collect()
}

fn whole(statements: &[String]) -> String {
    seq(&statements.iter().map(String::as_str).collect::<Vec<_>>())
}

fn statement(random: &mut Random, depth: usize, in_loop: bool) -> Vec<String> {
    match random.below(if depth < 3 { 12 } else { 9 }) {
        0..=3 => vec![operation(random)],
        4 | 5 => read(random),
        6 => write(random),
        7 if random.below(2) == 0 => vec![call(random)],
        7 => stored_call(random),
        8 => leave(random, in_loop),
        9 => {
            let (yes, no) = (body(random, depth + 1, in_loop), body(random, depth + 1, in_loop));
            let no = if random.below(2) == 0 { "skip".to_string() } else { whole(&no) };
            vec![test(random), format!("if {} {} {no}", copy(TEST), whole(&yes))]
        }
        10 => {
            let arms: Vec<String> = (0..3).map(|_| whole(&body(random, depth + 1, in_loop))).collect();
            let arms = format!(
                "(arm (lcons 0 lnil) {} (arm (lcons 1 (lcons 2 lnil)) {} (default {})))",
                arms[0], arms[1], arms[2]
            );
            let on = random.word();
            vec![
                assign(&at(INDEX), &format!("op2 and {} (int 64 3)", copy(on))),
                format!("switch {} {arms}", copy(INDEX)),
            ]
        }
        _ => turns(random, depth),
    }
}

/// A loop of at most three turns.
fn turns(random: &mut Random, depth: usize) -> Vec<String> {
    let counter = COUNTERS.start + depth;
    let mut inner = vec![
        assign(&at(TEST), &format!("op2 (lt unsigned) {} (int 64 3)", copy(counter))),
        format!("if {} skip (exit 1)", copy(TEST)),
        assign(&at(counter), &format!("op2 (add unsigned) {} (int 64 1)", copy(counter))),
    ];
    inner.extend(body(random, depth + 1, true));
    vec![assign(&at(counter), "rvOpd (int 64 0)"), format!("block (loop {})", whole(&inner))]
}

fn leave(random: &mut Random, in_loop: bool) -> Vec<String> {
    let left = match random.below(3) {
        0 if in_loop => "(exit 1)".to_string(),
        1 if in_loop => "(exit 0)".to_string(),
        _ => seq(&[&assign(&at(0), &format!("rvOpd {}", copy(random.word()))), "return"]),
    };
    vec![test(random), format!("if {} {left} skip", copy(TEST))]
}

fn random_function(random: &mut Random, name: &str) -> String {
    let mut locals = vec![value(U64), value(&slice("mut", U8))];
    locals.extend(WORDS.map(|_| value(U64)));
    locals.extend([value(U64), value(U8), value(BOOL), value(&reference("mut", U8))]);
    locals.extend(COUNTERS.map(|_| value(U64)));
    // what is not set by the caller is set first
    let mut statements: Vec<String> =
        (WORDS.start + 2..WORDS.end).map(|word| assign(&at(word), &format!("rvOpd (int 64 {word})"))).collect();
    statements.extend(body(random, 0, false));
    statements.push(assign(&at(0), &format!("rvOpd {}", copy(random.word()))));
    statements.push("return".to_string());
    let statements: Vec<&str> = statements.iter().map(String::as_str).collect();
    function(name, 3, &locals, &statements, "")
}

/// `g(s, a)`: adds to s[0] by xor, and tells s[1] with a; `h(s, a)` does the same and tells the byte s[1].
fn called(name: &str) -> String {
    let byte = |pointer: usize, place: u64| {
        assign(&at(pointer), &format!("op2 offset (copy {}) (int 64 {place})", field(1, 0)))
    };
    let body = [
        byte(3, 0),
        assign(&at(4), &format!("rvOpd (copy {})", behind(3, U8))),
        assign(&at(4), &format!("op2 xor {} (int 8 90)", copy(4))),
        byte(3, 0),
        assign(&behind(3, U8), &format!("rvOpd {}", copy(4))),
        byte(3, 1),
        assign(&at(4), &format!("rvOpd (copy {})", behind(3, U8))),
    ];
    let told = match name {
        "g" => vec![
            assign(&at(5), &format!("op1 (cast unsigned unsigned 64) {}", copy(4))),
            assign(&at(0), &format!("op2 xor {} {}", copy(5), copy(2))),
        ],
        _ => vec![assign(&at(0), &format!("rvOpd {}", copy(4)))],
    };
    let result = if name == "g" { U64 } else { U8 };
    let locals = [
        value(result),
        value(&slice("mut", U8)),
        value(U64),
        value(&reference("mut", U8)),
        value(U8),
        value(U64),
    ];
    let all: Vec<&str> = body.iter().chain(&told).map(String::as_str).chain(["return"]).collect();
    function(name, 2, &locals, &all, "")
}

#[test]
fn random_programs_do_the_same_in_both_forms() {
    let mut random = Random(seed(SEED));
    let mut functions = vec![called("g"), called("h")];
    functions.extend((0..FUNCTIONS).map(|at| random_function(&mut random, &format!("f{at}"))));
    let term = program(&functions);
    let text: String = (0..FUNCTIONS)
        .map(|at| format!("pub extern \"C\" fn f{at}(s: &mut [u8], a: u64, b: u64) {{ }}\n"))
        .collect();
    let sources = sources(&text);
    let folder: PathBuf = env::temp_dir().join(format!("portable-forms-{}", process::id()));
    fs::create_dir_all(&folder).expect("a folder");
    fs::write(folder.join("ttpa.h"), "#include <stddef.h>\n#include <stdint.h>\n").expect("a file");
    fs::write(folder.join("driver.c"), driver(FUNCTIONS, STEP)).expect("a file");
    let [plain, reading] = [("plain", Form::Plain), ("reading", Form::Reading)]
        .map(|(name, form)| run(&folder, name, &translate(&term, &sources, form).expect("a C file")));
    let different = plain.lines().zip(reading.lines()).find(|(plain, reading)| plain != reading);
    assert_eq!(different, None, "kept in {}", folder.display());
    assert_eq!(plain.lines().count(), 8 * FUNCTIONS);
    fs::remove_dir_all(&folder).expect("a folder");
}

/// Counts the zeros of every single bit, of none and of all, and tells the first number that is wrong.
const ZEROS: &str = "#include <stdint.h>\n#include <stdio.h>\nuint32_t f(uint64_t); uint32_t g(uint64_t);\n\
    int main(void) { int bit; if (f(0) != 64 || g(0) != 64 || f(~UINT64_C(0)) || g(~UINT64_C(0))) puts(\"none or all\");\n\
    for (bit = 0; bit < 64; bit++) { uint64_t one = UINT64_C(1) << bit;\n\
    if (f(one) != 63 - bit || f(2 * one - 1) != 63 - bit || g(one) != bit || g(~(one - 1)) != bit) printf(\"bit %d\\n\", bit); }\n\
    puts(\"counted\"); return 0; }\n";

#[test]
fn zeros_are_counted_with_the_compilers_functions_and_without() {
    let counted = |name: &str, operation: &str| {
        let body = assign(&at(0), &format!("op1 {operation} {}", copy(1)));
        function(name, 1, &[value(U32), value(U64)], &[&body, "return"], "")
    };
    let term = program(&[counted("f", "leadingZeros"), counted("g", "trailingZeros")]);
    let sources = sources("pub extern \"C\" fn f(a: u64) { } pub extern \"C\" fn g(a: u64) { }");
    let c = translate(&term, &sources, Form::Reading).expect("a C file");
    let folder: PathBuf = env::temp_dir().join(format!("portable-zeros-{}", process::id()));
    fs::create_dir_all(&folder).expect("a folder");
    fs::write(folder.join("ttpa.h"), "#include <stddef.h>\n#include <stdint.h>\n").expect("a file");
    fs::write(folder.join("driver.c"), ZEROS).expect("a file");
    assert_eq!(run(&folder, "with", &c), "counted\n");
    let without = format!("#define TTPA_WITHOUT_BUILTINS\n{c}");
    assert_eq!(run(&folder, "without", &without), "counted\n");
    fs::remove_dir_all(&folder).expect("a folder");
}
