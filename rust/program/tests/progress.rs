//! The line on a terminal that tells how far a run is: shown while it goes on, gone at the end, and nowhere else.

mod common;

use common::{called_with, here, program, ran, Called, Folder};
use program::console::{Console, Look};
use std::cell::RefCell;
use std::fs;
use std::io::{self, Write};
use std::process::Command;
use std::rc::Rc;
use std::time::{Duration, Instant};

const CLEAR: &str = "\r\x1b[K";

fn demo() -> String {
    here("../../c/demo.cluster").to_string_lossy().into_owned()
}

/// Ever more orders: a run is long enough when a line was shown often enough, which depends on the machine and on what else it does.
fn numbers_of_orders() -> impl Iterator<Item = String> {
    (0..9).map(|doubled| (200_u64 << doubled).to_string())
}

/// How often the line was shown in a run that may show it, and what the run wrote. It is shown ten times a second at most.
fn shown_in(orders: &str) -> (usize, Called) {
    let look = Look { progress: true, ..Look::default() };
    let start = Instant::now();
    let came = called_with(look, &["name", &demo(), "01-04", "--orders", orders], b"");
    let tenths = start.elapsed().as_millis() / 100;
    let lines = came.messages.split(CLEAR).filter(|line| line.starts_with("order ")).count();
    assert!(lines as u128 <= tenths, "{lines} lines in {tenths} tenths of a second");
    (lines, came)
}

/// A number of orders in which the line is shown three times or more, with that run.
fn long_run() -> (String, Called) {
    numbers_of_orders()
        .find_map(|orders| {
            let (lines, came) = shown_in(&orders);
            (lines > 2).then_some((orders, came))
        })
        .expect("a run that shows the line")
}

#[test]
fn the_line_is_rewritten_and_cleared() {
    let (orders, came) = long_run();
    let shown: Vec<&str> = came.messages.split(CLEAR).collect();
    assert!(came.messages.ends_with(CLEAR), "{:?}", came.messages);
    assert!(shown.iter().all(|line| line.is_empty() || line.ends_with(&format!(" of {orders}"))), "{shown:?}");
    assert!(String::from_utf8_lossy(&came.output).ends_with(&format!("{orders} orders, one result\n")));
}

/// Both outputs on one screen. Results are kept until they are flushed, as standard output keeps them, and that takes its time: behind
/// each of them the line is due.
#[derive(Clone, Default)]
struct Screen {
    shown: Rc<RefCell<Vec<u8>>>,
    kept: Option<Vec<u8>>,
}

impl Write for Screen {
    fn write(&mut self, bytes: &[u8]) -> io::Result<usize> {
        match &mut self.kept {
            Some(kept) => kept.extend(bytes),
            None => self.shown.borrow_mut().extend(bytes),
        }
        Ok(bytes.len())
    }

    fn flush(&mut self) -> io::Result<()> {
        if let Some(kept) = self.kept.as_mut().filter(|kept| !kept.is_empty()) {
            self.shown.borrow_mut().append(kept);
            std::thread::sleep(Duration::from_millis(120));
        }
        Ok(())
    }
}

fn screen(look: Look, arguments: &[&str]) -> String {
    let mut messages = Screen::default();
    let mut output = Screen { kept: Some(Vec::new()), ..messages.clone() };
    let mut console = Console { input: &mut io::empty(), output: &mut output, messages: &mut messages, look };
    program::run(arguments.iter().map(|&argument| argument.into()).collect(), &mut console);
    let shown = messages.shown.borrow();
    String::from_utf8_lossy(&shown).into_owned()
}

/// Each result and each message stands alone: the line is taken away before it.
#[test]
fn the_line_of_a_run_stands_between_its_results() {
    let folder = Folder::new("progress");
    let frames = folder.join("frames.txt").to_string_lossy().into_owned();
    // refused, which is told before the second step
    fs::write(&frames, "55 02 01 F4 02 A1\n").expect("frames");
    let demo = demo();
    let name = ["name", &demo, "02-04", "--between", &frames];
    let plain = screen(Look::default(), &name);
    let shown = screen(Look { progress: true, ..Look::default() }, &name);
    let results: Vec<&str> = shown.lines().map(|line| line.rsplit(CLEAR).next().unwrap_or_default()).collect();
    assert_eq!(results, plain.lines().collect::<Vec<_>>(), "{shown:?}");
    for line in ["02  read  ................  place 0 of 200  1 rounds", "03  "] {
        assert!(shown.contains(&format!("{CLEAR}{line}")), "{line}: {shown:?}");
    }
}

#[test]
fn without_a_terminal_there_is_none() {
    let (orders, _) = long_run();
    let mut command = program();
    command.args(["name", &demo(), "01-04", "--orders", &orders]).env("TERM", "xterm");
    let came = ran(&mut command, b"");
    assert_eq!((came.status, came.messages.as_str()), (Some(0), ""));
    assert!(!came.output.contains('\x1b'));
}

/// Under `script`, which gives the program a terminal.
fn on_terminal(orders: &str, variable: &str, value: &str) -> String {
    let command = format!("{} name {} 01-04 --orders {orders}", env!("CARGO_BIN_EXE_ttpa"), demo());
    let mut script = Command::new("script");
    script.args(["-qec", &command, "/dev/null"]).env("TERM", "xterm").env_remove("NO_COLOR");
    ran(script.env(variable, value), b"").output
}

#[test]
fn on_a_terminal_it_is_gone_at_the_end() {
    let (orders, shown) = numbers_of_orders()
        .find_map(|orders| {
            let shown = on_terminal(&orders, "TERM", "xterm");
            shown.contains(&format!("{CLEAR}order ")).then_some((orders, shown))
        })
        .expect("a run that shows the line");
    let last = shown.rsplit(CLEAR).next().unwrap_or_default();
    assert_eq!(last.trim(), format!("{orders} orders, one result"), "{shown:?}");
    for (variable, value) in [("TERM", "dumb"), ("NO_COLOR", "1")] {
        let plain = on_terminal(&orders, variable, value);
        assert!(plain.contains("one result") && !plain.contains('\x1b'), "{plain:?}");
    }
}
