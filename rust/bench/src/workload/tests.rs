//! Each workload makes the calls that its name says, and makes them on the engine it is given.

use super::*;
use compare::engine::Model;
use std::cell::RefCell;

/// The model, which keeps the calls that it is asked for.
struct Recorder(RefCell<Vec<&'static str>>);

macro_rules! recorded {
    ($($call:ident($($argument:ident: $kind:ty),*);)*) => {
        impl Engine for Recorder {
            fn name(&self) -> &'static str {
                "recorder"
            }

            $(fn $call(&self, $($argument: $kind),*) -> u8 {
                self.0.borrow_mut().push(stringify!($call));
                Model.$call($($argument),*)
            })*
        }
    };
}

recorded! {
    check(file: &[u8]);
    read_address(frame: &[u8], parts: &mut [u8; 5]);
    write_address(frame: &mut [u8], parts: [u8; 5]);
    write_data(frame: &mut [u8], data: [u8; 4]);
    round(file: &mut [u8], frame: &[u8], answer: &mut [u8], senders: &mut u64);
    start(names: &[u8], run: &mut RunWords);
    step(file: &mut [u8], run: &mut RunWords, names: &[u8], answer: &mut [u8], senders: &mut u64);
    trace(file: &mut [u8], trace: &[u8], report: &mut ReportWords);
    owner(file: &[u8], master: u8, buffer: &mut [u8], length: &mut u64);
    to_edition(file: &[u8], edition: Edition, buffer: &mut [u8], length: &mut u64);
    fill(file: &[u8], held: &mut [u8], count: &mut u64);
    holder(held: &[u8], count: u64, name: u8, place: &mut u64);
    round_keeping(file: &mut [u8], frame: &[u8], answer: &mut [u8], senders: &mut u64, summary: Summary);
    step_keeping(file: &mut [u8], run: &mut RunWords, names: &[u8], answer: &mut [u8], senders: &mut u64, summary: Summary);
    screens(state: &mut State);
    post(state: &mut State, screen: u8, read: [u8; 3]);
    turn(file: &mut [u8], state: &mut State, answer: &mut [u8], told: Turn);
    join(first: &[u8], second: &[u8], buffer: &mut [u8], length: &mut u64);
    pattern(pattern: u16, kind: &mut u8);
    contents(file: &[u8], slave: u64, number: u8, buffer: &mut [u8], length: &mut u64);
}

/// The call that a workload makes, by its name.
fn call_of(name: &str) -> &'static str {
    let words: Vec<&str> = name.trim_start_matches("wide-").split('-').collect();
    match words[..] {
        ["check", ..] => "check",
        ["widen" | "narrow" | "copy", ..] => "to_edition",
        ["naming", _] => "step",
        ["keeping", "naming", _] => "step_keeping",
        ["keeping", ..] => "round_keeping",
        ["trace", ..] => "trace",
        ["owner", ..] => "owner",
        ["fill", _] => "fill",
        ["holder", ..] => "holder",
        ["post", _] => "post",
        ["turn", "first" | "last" | "none", _] => "turn",
        ["join", ..] => "join",
        ["pattern", _] => "pattern",
        ["contents", _] => "contents",
        _ => "round",
    }
}

/// How often: frames one by one, or as many steps as the run has rounds.
fn times_of(workload: &Workload) -> usize {
    match workload {
        Workload::Frames { frames, .. } => frames.len(),
        Workload::Naming { rounds, .. } | Workload::WithSummary(WithSummary::Naming { rounds, .. }) => {
            *rounds as usize
        }
        _ => 1,
    }
}

#[test]
fn each_makes_the_calls_it_names() {
    for name in TABLE {
        let mut workload = Workload::of(name).expect("a workload");
        let start = if name.contains("naming") { vec!["start"] } else { vec![] };
        let once = [start, vec![call_of(name); times_of(&workload)]].concat();
        let recorder = Recorder(RefCell::default());
        workload.make(&recorder, 2);
        assert_eq!(recorder.0.into_inner(), once.repeat(2), "{name}");
    }
}
