//! Calls of small functions that are written out, with all that follows from it, do the same in both forms: programs of random statements with enums,
//! structs, pointers to locals, blocks and such calls are translated in both forms, compiled and run on the same input.

mod compiled;
mod small;

use compiled::{driver, run, seed};
use portable::{translate, Form};
use small::*;
use std::env;
use std::fs;
use std::path::PathBuf;
use std::process;

const FUNCTIONS: usize = 240;
/// Where the random programs begin.
const SEED: u64 = 0x2545_F491_4F6C_DD1D;
/// By what the second word rises from one input to the next.
const STEP: u64 = 3;
/// The random functions that are small, and so written out.
const SMALL: usize = 12;

const SLICE: usize = 1;

struct Random(u64);

impl Random {
    fn below(&mut self, bound: u64) -> u64 {
        self.0 ^= self.0 << 13;
        self.0 ^= self.0 >> 7;
        self.0 ^= self.0 << 17;
        (self.0 >> 11) % bound
    }

    fn of<T: Copy>(&mut self, all: &[T]) -> T {
        all[self.below(all.len() as u64) as usize]
    }
}

fn e() -> String {
    named("m::E")
}

fn s() -> String {
    named("m::S")
}

/// `m::E` is nothing, a word, or a word and a byte; `m::S` is a word and a byte.
fn table() -> String {
    let (one, two) = (format!("(tcons {U64} tnil)"), format!("(tcons {U64} (tcons {U8} tnil))"));
    format!(
        "(lcons (pair \"m::E\" (variants (ttcons tnil (ttcons {one} (ttcons {two} ttnil))))) \
         (lcons (pair \"m::S\" (fields {two})) lnil))"
    )
}

fn step(local: usize, steps: &[String]) -> String {
    let steps = steps.iter().rev().fold("lnil".to_string(), |rest, step| format!("(lcons ({step}) {rest})"));
    format!("(place {local} {steps})")
}

fn variant(local: usize, variant: usize, field: usize) -> String {
    step(local, &[format!("variant {variant}"), format!("field {field}")])
}

fn aggregate(parts: &[String]) -> String {
    let parts = parts.iter().rev().fold("lnil".to_string(), |rest, part| format!("(lcons {part} {rest})"));
    format!("aggregate {parts}")
}

fn call(name: &str, arguments: &[String], target: usize) -> String {
    let arguments =
        arguments.iter().rev().fold("lnil".to_string(), |rest, one| format!("(lcons {one} {rest})"));
    format!("call (direct (fnRef \"{name}\")) {arguments} {}", at(target))
}

fn whole(statements: &[String]) -> String {
    seq(&statements.iter().map(String::as_str).collect::<Vec<_>>())
}

/// What is around a statement: an exit counts a block once, and a loop twice.
#[derive(Clone, Copy, PartialEq)]
enum Level {
    Block,
    Loop,
}

/// A function that is made: its locals, and those that a statement may read and set.
struct Maker<'a> {
    random: &'a mut Random,
    locals: Vec<String>,
    words: Vec<usize>,
    enums: Vec<usize>,
    structs: Vec<usize>,
    /// In memory: words and structs.
    cells: Vec<usize>,
    boxes: Vec<usize>,
    /// Pointers to words that may be followed.
    pointers: Vec<usize>,
    around: Vec<Level>,
    has_slice: bool,
    is_small: bool,
}

impl Maker<'_> {
    fn local(&mut self, local: String) -> usize {
        self.locals.push(local);
        self.locals.len() - 1
    }

    fn word(&mut self) -> usize {
        self.random.of(&self.words)
    }

    fn operand(&mut self) -> String {
        match self.random.below(4) {
            0 => format!("(int 64 {})", self.random.below(300)),
            _ => copy(self.word()),
        }
    }

    fn operation(&mut self) -> Vec<String> {
        let operator = self.random.of(&["(add unsigned)", "(sub unsigned)", "xor", "and", "or"]);
        let (target, left, right) = (self.word(), self.word(), self.operand());
        vec![assign(&at(target), &format!("op2 {operator} {} {right}", copy(left)))]
    }

    /// A pointer of its own to a word in memory, or to the first field of a struct there.
    fn pointer(&mut self) -> (Vec<String>, usize) {
        let pointer = self.local(value(&reference("mut", U64)));
        let of = match self.random.below(4) {
            0 if !self.pointers.is_empty() => behind(self.random.of(&self.pointers), U64),
            1 => {
                let whole = self.local(value(&reference("mut", &s())));
                let of = at(self.random.of(&self.boxes));
                let part = step(whole, &[format!("deref {}", s()), "field 0".to_string()]);
                return (
                    vec![
                        assign(&at(whole), &format!("addrOf {of}")),
                        assign(&at(pointer), &format!("addrOf {part}")),
                    ],
                    pointer,
                );
            }
            2 => field(self.random.of(&self.boxes), 0),
            _ => at(self.random.of(&self.cells)),
        };
        (vec![assign(&at(pointer), &format!("addrOf {of}"))], pointer)
    }

    fn followed(&mut self) -> Vec<String> {
        let (mut made, pointer) = self.pointer();
        let word = self.word();
        if self.random.below(2) == 0 {
            made.extend(self.operation());
        }
        made.push(match self.random.below(2) {
            0 => assign(&at(word), &format!("rvOpd (copy {})", behind(pointer, U64))),
            _ => assign(&behind(pointer, U64), &format!("rvOpd {}", copy(word))),
        });
        made
    }

    fn in_memory(&mut self) -> Vec<String> {
        let (word, cell, kept) = (self.word(), self.random.of(&self.cells), self.random.of(&self.boxes));
        let of = self.random.of(&self.structs);
        vec![match self.random.below(5) {
            0 => assign(&at(cell), &format!("rvOpd {}", copy(word))),
            1 => assign(&at(word), &format!("rvOpd {}", copy(cell))),
            2 => assign(&at(kept), &format!("rvOpd {}", copy(of))),
            3 => assign(&at(of), &format!("rvOpd {}", copy(kept))),
            _ => assign(&field(kept, 0), &format!("rvOpd {}", copy(word))),
        }]
    }

    /// The lowest byte of a word, in a local of its own.
    fn byte(&mut self) -> (Vec<String>, usize) {
        let (masked, byte, word) = (self.local(value(U64)), self.local(value(U8)), self.word());
        let mask = assign(&at(masked), &format!("op2 and {} (int 64 255)", copy(word)));
        (vec![mask, assign(&at(byte), &format!("op1 (cast unsigned unsigned 8) {}", copy(masked)))], byte)
    }

    fn of_slice(&mut self) -> Vec<String> {
        let (mut made, byte) = self.byte();
        let (index, pointer, word) = (self.local(value(U64)), self.local(value(PTR)), self.word());
        made.push(assign(&at(index), &format!("op2 and {} (int 64 7)", copy(word))));
        made.push(assign(&at(pointer), &format!("op2 offset (copy {}) {}", field(SLICE, 0), copy(index))));
        if self.random.below(2) == 0 {
            made.push(assign(&behind(pointer, U8), &format!("rvOpd {}", copy(byte))));
        } else {
            made.push(assign(&at(byte), &format!("rvOpd (copy {})", behind(pointer, U8))));
            made.push(assign(&at(word), &format!("op1 (cast unsigned unsigned 64) {}", copy(byte))));
        }
        made
    }

    fn made(&mut self) -> Vec<String> {
        let (mut made, byte) = self.byte();
        let (word, target) = (self.operand(), self.random.of(&self.enums));
        let to = self.random.of(&self.structs);
        made.push(match self.random.below(6) {
            0 => assign(&at(target), &aggregate(&["(int 8 0)".to_string()])),
            1 => assign(&at(target), &aggregate(&["(int 8 1)".to_string(), word])),
            2 => assign(&at(target), &aggregate(&["(int 8 2)".to_string(), word, copy(byte)])),
            3 => assign(&at(target), &format!("rvOpd {}", copy(self.random.of(&self.enums)))),
            4 => assign(&at(to), &aggregate(&[word, copy(byte)])),
            _ => assign(&at(self.word()), &format!("rvOpd (copy {})", field(to, 0))),
        });
        made
    }

    /// A call of a small function, whose result goes on at once or later.
    fn called(&mut self) -> Vec<String> {
        let (target, one, other) = (self.word(), self.operand(), self.operand());
        let number = self.random.below(8);
        match number {
            0 | 1 => {
                let (mut made, first) = self.pointer();
                let (more, second) = self.pointer();
                made.extend(more);
                let test = self.local(value(BOOL));
                let of = if number == 0 { "core::less" } else { "core::swap" };
                let told = if number == 0 { test } else { self.local(value(UNIT)) };
                made.push(call(of, &[copy(first), copy(second)], told));
                let (yes, no) = (self.operation(), self.operation());
                made.extend((number == 0).then(|| format!("if {} {} {}", copy(test), whole(&yes), whole(&no))));
                made
            }
            2 => {
                let (pointers, test) =
                    ([0, 1].map(|_| self.local(value(&reference("imm", &s())))), self.local(value(BOOL)));
                let mut made: Vec<String> = pointers
                    .map(|pointer| assign(&at(pointer), &format!("addrOf {}", at(self.random.of(&self.boxes)))))
                    .to_vec();
                made.push(call("core::same", &pointers.map(copy), test));
                let body = self.operation();
                made.push(format!("if {} {} skip", copy(test), whole(&body)));
                made
            }
            3 | 4 => {
                // as `?` does it
                let (given, flow) = (self.local(value(&e())), self.local(value(&e())));
                let mut made =
                    vec![call("core::make", &[one], given), call("core::flow", &[copy(given)], flow)];
                let kept = self.local(value(U64));
                let going_on = vec![assign(&at(kept), &format!("rvOpd (copy {})", variant(flow, 1, 1)))];
                let mut leaving = vec![assign(&at(kept), "rvOpd (int 64 3)")];
                if number == 3 {
                    leaving = self.left();
                    leaving.insert(0, assign(&at(0), &format!("rvOpd {}", copy(self.word()))));
                }
                made.push(format!(
                    "switch (copy {}) (arm (lcons 1 lnil) {} (arm (lcons 0 (lcons 2 lnil)) {} noDefault))",
                    variant(flow, 0, 0),
                    whole(&going_on),
                    whole(&leaving)
                ));
                made.push(assign(&at(target), &format!("op2 xor {} {}", copy(target), copy(kept))));
                made
            }
            _ => {
                let name = format!("core::r{}", self.random.below(SMALL as u64));
                let (mut made, pointer) = self.pointer();
                made.push(call(&name, &[one, other, copy(pointer)], target));
                made
            }
        }
    }

    /// A branch on an enum's tag, which reads what the variant has.
    fn switched(&mut self, depth: usize) -> Vec<String> {
        let of = self.random.of(&self.enums);
        let held = self.local(value(&e()));
        let arms: Vec<String> = (0..3)
            .map(|tag| {
                let mut body = Vec::new();
                if tag > 0 {
                    body.push(assign(&at(self.word()), &format!("rvOpd (copy {})", variant(held, tag, 1))));
                }
                body.extend(self.body(depth + 1));
                whole(&body)
            })
            .collect();
        vec![
            assign(&at(held), &format!("rvOpd {}", copy(of))),
            format!(
                "switch (copy {}) (arm (lcons 0 lnil) {} (arm (lcons 1 lnil) {} (arm (lcons 2 lnil) {} noDefault)))",
                variant(held, 0, 0),
                arms[0],
                arms[1],
                arms[2]
            ),
        ]
    }

    fn test(&mut self) -> (Vec<String>, usize) {
        let test = self.local(value(BOOL));
        let operator = self.random.of(&["(lt unsigned)", "(le unsigned)", "eq", "ne"]);
        let (left, right) = (self.word(), self.operand());
        (vec![assign(&at(test), &format!("op2 {operator} {} {right}", copy(left)))], test)
    }

    /// Leaves a block or a loop, or returns.
    fn left(&mut self) -> Vec<String> {
        let mut ways = vec!["return".to_string()];
        let mut level = 0;
        for around in self.around.iter().rev() {
            ways.push(format!("exit {level}"));
            if *around == Level::Loop {
                ways.push(format!("exit {}", level + 1));
                break;
            }
            level += 1;
        }
        vec![ways[self.random.below(ways.len() as u64) as usize].clone()]
    }

    fn leaving(&mut self) -> Vec<String> {
        let (mut made, test) = self.test();
        let mut body = vec![assign(&at(0), &format!("rvOpd {}", copy(self.word())))];
        body.extend(self.left());
        made.push(format!("if {} {} skip", copy(test), whole(&body)));
        made
    }

    /// `if a || b { .. }`, or `&&`, as the compiler has it.
    fn two_tests(&mut self, depth: usize) -> Vec<String> {
        self.around.push(Level::Block);
        let ((mut made, first), (more, second)) = (self.test(), self.test());
        let inner = whole(&[more, vec![format!("if {} skip (exit 0)", copy(second))]].concat());
        made.push(match self.random.below(2) {
            0 => format!("if {} skip {inner}", copy(first)),
            _ => format!("if {} {inner} (exit 0)", copy(first)),
        });
        made.extend(self.body(depth + 1));
        self.around.pop();
        vec![format!("block {}", whole(&made))]
    }

    fn nested(&mut self, level: Level, depth: usize) -> Vec<String> {
        self.around.push(level);
        let made = match level {
            Level::Block => vec![format!("block {}", whole(&self.body(depth + 1)))],
            Level::Loop => {
                let (counter, test) = (self.local(value(U64)), self.local(value(BOOL)));
                let mut inner = vec![
                    assign(&at(test), &format!("op2 (lt unsigned) {} (int 64 3)", copy(counter))),
                    format!("if {} skip (exit 1)", copy(test)),
                    assign(&at(counter), &format!("op2 (add unsigned) {} (int 64 1)", copy(counter))),
                ];
                inner.extend(self.body(depth + 1));
                vec![assign(&at(counter), "rvOpd (int 64 0)"), format!("block (loop {})", whole(&inner))]
            }
        };
        self.around.pop();
        made
    }

    fn branch(&mut self, depth: usize) -> Vec<String> {
        let (mut made, test) = self.test();
        let (yes, no) = (self.body(depth + 1), self.body(depth + 1));
        made.push(format!("if {} {} {}", copy(test), whole(&yes), whole(&no)));
        made
    }

    fn body(&mut self, depth: usize) -> Vec<String> {
        let count = if self.is_small { 1 } else { 2 + self.random.below(4) };
        (0..count).flat_map(|_| self.statement(depth)).collect()
    }

    fn statement(&mut self, depth: usize) -> Vec<String> {
        let simple = if self.is_small { 6 } else { 9 };
        match self.random.below(if depth < 2 { simple + 5 } else { simple }) {
            0 | 1 => self.operation(),
            2 => self.made(),
            3 => self.followed(),
            4 => self.in_memory(),
            5 => self.leaving(),
            6 if self.is_small => self.switched(depth),
            6 | 7 if !self.is_small => self.called(),
            8 if self.has_slice && !self.is_small => self.of_slice(),
            9 => self.switched(depth),
            10 => self.nested(Level::Block, depth),
            11 if !self.is_small => self.nested(Level::Loop, depth),
            12 => self.two_tests(depth),
            _ => self.branch(depth),
        }
    }

    /// Locals that are set before all else.
    fn begin(&mut self, fewest: bool) -> Vec<String> {
        let mut made = Vec::new();
        for number in 0..if fewest { 1 } else { 3 } {
            let (word, kept, of, cell, held) = (
                self.local(value(U64)),
                self.local(value(&e())),
                self.local(value(&s())),
                self.local(memory(U64)),
                self.local(memory(&s())),
            );
            made.push(assign(&at(word), &format!("rvOpd (int 64 {number})")));
            made.push(assign(&at(kept), &aggregate(&["(int 8 1)".to_string(), format!("(int 64 {number})")])));
            made.push(assign(&at(of), &aggregate(&[copy(word), "(int 8 5)".to_string()])));
            made.push(assign(&at(cell), &format!("rvOpd {}", copy(word))));
            made.push(assign(&at(held), &format!("rvOpd {}", copy(of))));
            self.words.push(word);
            self.enums.push(kept);
            self.structs.push(of);
            self.cells.push(cell);
            self.boxes.push(held);
        }
        made
    }

    fn end(mut self, name: &str, params: usize, mut statements: Vec<String>) -> String {
        statements.extend(self.body(0));
        statements.push(assign(&at(0), &format!("rvOpd {}", copy(self.word()))));
        statements.push("return".to_string());
        let statements: Vec<&str> = statements.iter().map(String::as_str).collect();
        function(name, params, &self.locals, &statements, &table())
    }
}

fn maker<'a>(random: &'a mut Random, locals: Vec<String>, is_small: bool) -> Maker<'a> {
    Maker {
        random,
        locals,
        words: vec![2, 3],
        enums: Vec::new(),
        structs: Vec::new(),
        cells: Vec::new(),
        boxes: Vec::new(),
        pointers: Vec::new(),
        around: Vec::new(),
        has_slice: !is_small,
        is_small,
    }
}

/// `f(s, a, b)`, which calls the small functions.
fn large(random: &mut Random, name: &str) -> String {
    let mut maker = maker(random, vec![value(U64), value(&slice("mut", U8)), value(U64), value(U64)], false);
    let begin = maker.begin(false);
    maker.end(name, 3, begin)
}

/// `r(a, b, p)`, a word of two words and a pointer to one.
fn small_one(random: &mut Random, name: &str) -> String {
    let pointer = value(&reference("mut", U64));
    let mut maker = maker(random, vec![value(U64), value(U64), value(U64), pointer], true);
    maker.words = vec![1, 2];
    maker.pointers = vec![3];
    let begin = maker.begin(true);
    maker.end(name, 3, begin)
}

/// `less(p, q)`, `swap(p, q)`, `same(p, q)`, `make(a)` and `flow(e)`, as the kit's functions are.
fn by_hand() -> Vec<String> {
    let word = |pointer: usize| format!("(copy {})", behind(pointer, U64));
    let refs = [value(&reference("imm", U64)), value(&reference("imm", U64))];
    let less = [
        assign(&at(3), &format!("rvOpd {}", word(1))),
        assign(&at(4), &format!("rvOpd {}", word(2))),
        assign(&at(0), &format!("op2 (lt unsigned) {} {}", copy(3), copy(4))),
    ];
    let swap = [
        assign(&at(3), &format!("rvOpd {}", word(1))),
        assign(&at(4), &format!("rvOpd {}", word(2))),
        assign(&behind(1, U64), &format!("rvOpd {}", copy(4))),
        assign(&behind(2, U64), &format!("rvOpd {}", copy(3))),
    ];
    let part = |pointer: usize, number: usize| {
        format!("(copy {})", step(pointer, &[format!("deref {}", s()), format!("field {number}")]))
    };
    let same = [
        assign(&at(3), &format!("rvOpd {}", part(1, 0))),
        assign(&at(4), &format!("rvOpd {}", part(2, 0))),
        assign(&at(5), &format!("op2 ne {} {}", copy(3), copy(4))),
        format!("if {} {} skip", copy(5), whole(&[assign(&at(0), "rvOpd false"), "return".to_string()])),
        assign(&at(6), &format!("rvOpd {}", part(1, 1))),
        assign(&at(7), &format!("rvOpd {}", part(2, 1))),
        assign(&at(0), &format!("op2 eq {} {}", copy(6), copy(7))),
    ];
    let make = [
        assign(&at(2), &format!("op2 (lt unsigned) {} (int 64 9)", copy(1))),
        format!(
            "if {} {} {}",
            copy(2),
            whole(&[assign(&at(0), &aggregate(&["(int 8 0)".to_string()])), "return".to_string()]),
            whole(&[assign(&at(0), &aggregate(&["(int 8 1)".to_string(), copy(1)]))])
        ),
    ];
    let flow = [
        format!(
            "switch (copy {}) (arm (lcons 1 lnil) {} (arm (lcons 0 (lcons 2 lnil)) {} noDefault))",
            variant(1, 0, 0),
            whole(&[
                assign(&at(2), &format!("rvOpd (copy {})", variant(1, 1, 1))),
                assign(&at(3), &format!("op2 xor {} (int 64 1)", copy(2))),
                assign(&at(4), &aggregate(&["(int 8 1)".to_string(), copy(3)])),
            ]),
            whole(&[assign(
                &at(4),
                &aggregate(&["(int 8 2)".to_string(), "(int 64 4)".to_string(), "(int 8 6)".to_string()])
            )]),
        ),
        assign(&at(0), &format!("rvOpd {}", copy(4))),
    ];
    let mutable = [value(&reference("mut", U64)), value(&reference("mut", U64))];
    let structs = [value(&reference("imm", &s())), value(&reference("imm", &s()))];
    let all = |result: &str, params: &[String], rest: &[&str]| {
        let rest: Vec<String> = rest.iter().map(|ty| value(ty)).collect();
        [&[value(result)][..], params, &rest].concat()
    };
    let made = |name: &str, params: usize, locals: Vec<String>, body: &[String]| {
        let body: Vec<&str> = body.iter().map(String::as_str).chain(["return"]).collect();
        function(name, params, &locals, &body, &table())
    };
    vec![
        made("less", 2, all(BOOL, &refs, &[U64, U64]), &less),
        made("swap", 2, all(UNIT, &mutable, &[U64, U64]), &swap),
        made("same", 2, all(BOOL, &structs, &[U64, U64, BOOL, U8, U8]), &same),
        made("make", 1, all(&e(), &[value(U64)], &[BOOL]), &make),
        made("flow", 1, all(&e(), &[value(&e())], &[U64, U64, &e()]), &flow),
    ]
}

#[test]
fn calls_that_are_written_out_do_the_same() {
    let mut random = Random(seed(SEED));
    let mut functions = by_hand();
    functions.extend((0..SMALL).map(|at| small_one(&mut random, &format!("r{at}"))));
    let mut functions: Vec<String> =
        functions.iter().map(|function| function.replace("\"m::", "\"core::")).collect();
    functions.iter_mut().for_each(|function| {
        *function = function.replace("\"core::E\"", "\"m::E\"").replace("\"core::S\"", "\"m::S\"");
    });
    functions.extend((0..FUNCTIONS).map(|at| large(&mut random, &format!("f{at}"))));
    let term = program(&functions);
    let text: String = (0..FUNCTIONS)
        .map(|at| format!("pub extern \"C\" fn f{at}(s: &mut [u8], a: u64, b: u64) {{ }}\n"))
        .collect();
    let sources = sources(&text);
    let folder: PathBuf = env::temp_dir().join(format!("portable-written-out-{}", process::id()));
    fs::create_dir_all(&folder).expect("a folder");
    fs::write(folder.join("ttpa.h"), "#include <stddef.h>\n#include <stdint.h>\n").expect("a file");
    fs::write(folder.join("driver.c"), driver(FUNCTIONS, STEP)).expect("a file");
    let made = [Form::Plain, Form::Reading].map(|form| translate(&term, &sources, form).expect("a C file"));
    // in the reading form, none of those by hand is called
    for name in ["less", "swap", "same", "make", "flow"] {
        assert!(
            made[0].contains(&format!("core_{name}(")) && !made[1].contains(&format!("core_{name}(")),
            "{name}"
        );
    }
    let [plain, reading] = [("plain", &made[0]), ("reading", &made[1])].map(|(name, c)| run(&folder, name, c));
    let different = plain.lines().zip(reading.lines()).find(|(plain, reading)| plain != reading);
    assert_eq!(different, None, "kept in {}", folder.display());
    assert_eq!(plain.lines().count(), 8 * FUNCTIONS);
    fs::remove_dir_all(&folder).expect("a folder");
}
