//! The edges of screens that share turns (document 02, request 12): who is served, what a post and a turn are refused for and
//! in which order, what a turn's read does, and rows of calls.

use super::files::{
    answer, changed, cluster, hex, named, parts, refused_files, slave_place, Changes, Slave, PENDING, UNNAMED,
};
use super::Edge;
use crate::case::{Call, Outcome, FILL};
use crate::engine::{Engine, State, NO_SCREEN};
use crate::frames::framed;
use crate::layout::EPOCH;
use model::{MSA, MSD};

/// "27, a screen above 7, also as the one last served in a state handed in; 28, a screen already waiting; then 18 and 14 on
/// the read posted or due; all before the file's."
const NO_SUCH_SCREEN: u8 = 27;
const WAITING_ALREADY: u8 = 28;
const FILE_NUMBER: u8 = 18;
const BROADCAST_READ: u8 = 14;
const SHORT_BUFFER: u8 = 9;
/// A read is answered in slots 1 to 5.
const READ_SLOTS: u64 = 0b11_1110;
/// Of edition 1: where the first slave's sleep byte stands, and how far it is to the next one's.
const FIRST_SLEEP: usize = 19;
const ENTRY: usize = 4;

/// So many edges there are, calls in a row aside.
const EDGES: usize = 319;

pub fn hold(engine: &dyn Engine) {
    let groups = [
        posted(),
        not_posted(),
        served(),
        read_on_slaves(),
        with_state_and_sleep(),
        in_edition_2(),
        none_waiting(),
        not_served(),
        file_first(),
        bytes_of_a_state(),
        bytes_at_a_post(),
    ];
    super::hold_all(engine, groups, EDGES);
    every_row(engine);
    constant_posting(engine);
    one_busy(engine);
    refused_between(engine);
    between_naming_steps(engine);
    within_a_foreign_round(engine);
}

/// Name, file and record of a read.
type Read = [u8; 3];

/// Record 1 of file 0x10 of slave 0x05, and what it answers: its bytes and its check, 0x49 folded in.
const GOOD: Read = [0x05, 0x10, 1];
const GOOD_SENT: [u8; 5] = [0xD4, 0xD5, 0xD6, 0xD7, 0x49];

/// The screen last served, and of some screens waiting byte and read; of the others zeros.
fn state(last: u8, posts: &[(usize, u8, Read)]) -> State {
    let mut state = [0; 33];
    state[0] = last;
    for &(screen, waiting, [name, file, record]) in posts {
        state[1 + 4 * screen..5 + 4 * screen].copy_from_slice(&[waiting, name, file, record]);
    }
    state
}

/// All eight wait with the good read.
fn all_waiting(last: u8) -> State {
    state(last, &[0, 1, 2, 3, 4, 5, 6, 7].map(|screen| (screen, 1, GOOD)))
}

/// The state with other bytes in places.
fn with(mut state: State, changes: &[(usize, u8)]) -> State {
    changes.iter().for_each(|&(place, byte)| state[place] = byte);
    state
}

/// A post that is not refused: the screen's four bytes are 1 and the read, every other byte is as it was.
fn posting(what: &'static str, before: State, screen: u8, read: Read) -> Edge {
    let call = Call::Post { state: before, screen, read };
    let place = 1 + 4 * usize::from(screen);
    let after = with(before, &[(place, 1), (place + 1, read[0]), (place + 2, read[1]), (place + 3, read[2])]);
    let expected = call.before().with_state(after);
    Edge::new(what, call, expected)
}

fn posted() -> Vec<Edge> {
    let start = hex("07 00000000 00000000 00000000 00000000 00000000 00000000 00000000 00000000");
    let fresh: State = start.try_into().expect("33 bytes");
    let started = Edge::new("the state at the start", Call::Screens, Call::Screens.before().with_state(fresh));
    let old = state(0, &[(3, 0, [0x00, 0xFF, 0xFF])]);
    let mut edges = vec![
        started,
        posting("screen 0", fresh, 0, GOOD),
        posting("screen 1", fresh, 1, GOOD),
        posting("screen 7", fresh, 7, GOOD),
        posting("file 0", fresh, 2, [0x05, 0, 1]),
        posting("file 63", fresh, 2, [0x05, 63, 1]),
        posting("record 0", fresh, 2, [0x05, 0x10, 0]),
        posting("record 255", fresh, 2, [0x05, 0x10, 255]),
        posting("name 0x01", fresh, 2, [0x01, 0x10, 1]),
        posting("name 0xFE", fresh, 2, [0xFE, 0x10, 1]),
        posting("the unnamed", fresh, 2, [UNNAMED, 0x10, 1]),
        posting("old bytes of a bad read", old, 3, GOOD),
        posting("all others wait", with(all_waiting(7), &[(1 + 4 * 4, 0)]), 4, GOOD),
        posting("others wait by 255 and with bad reads", state(7, &[(1, 255, [0, 64, 1])]), 0, GOOD),
        posting("others wait by 255 and with bad reads behind it", state(7, &[(7, 255, [0, 64, 1])]), 6, GOOD),
    ];
    edges.extend((0..=7).map(|last| posting("each screen last served", state(last, &[]), 3, GOOD)));
    edges
}

fn not_posted() -> Vec<Edge> {
    let refused =
        |what, state, screen, read, number| Edge::refused(what, Call::Post { state, screen, read }, number);
    let fresh = state(7, &[]);
    let waiting = |byte| state(7, &[(0, byte, GOOD)]);
    let bad: [(&str, Read); 3] =
        [("file 64", [0x05, 64, 1]), ("name 0x00", [0, 0x10, 1]), ("both", [0, 64, 1])];
    let mut edges = vec![
        refused("file 64", fresh, 0, [0x05, 64, 1], FILE_NUMBER),
        refused("file 128", fresh, 0, [0x05, 128, 1], FILE_NUMBER),
        refused("file 255", fresh, 0, [0x05, 255, 1], FILE_NUMBER),
        refused("file 64 at 0xFF", fresh, 0, [UNNAMED, 64, 1], FILE_NUMBER),
        refused("name 0x00", fresh, 0, [0x00, 0x10, 1], BROADCAST_READ),
        refused("name 0x00, file 63", fresh, 7, [0x00, 63, 0], BROADCAST_READ),
        refused("name 0x00 with file 64", fresh, 0, [0x00, 64, 1], FILE_NUMBER),
        refused("screen 8 and last served 8", state(8, &[]), 8, GOOD, NO_SUCH_SCREEN),
        refused("last served 8, the screen waiting", with(waiting(1), &[(0, 8)]), 0, GOOD, NO_SUCH_SCREEN),
    ];
    edges.extend(
        [8, 9, 16, 127, 128, 255].map(|screen| refused("no screen", fresh, screen, GOOD, NO_SUCH_SCREEN)),
    );
    edges
        .extend([8, 9, 128, 255].map(|last| refused("last served", state(last, &[]), 0, GOOD, NO_SUCH_SCREEN)));
    edges.extend([1, 2, 128, 255].map(|byte| refused("it waits", waiting(byte), 0, GOOD, WAITING_ALREADY)));
    for (what, read) in bad {
        edges.push(refused(what, fresh, 8, read, NO_SUCH_SCREEN));
        edges.push(refused(what, state(8, &[]), 0, read, NO_SUCH_SCREEN));
        edges.push(refused(what, waiting(1), 0, read, WAITING_ALREADY));
    }
    edges
}

/// Slaves 0x05 and 0x06 and one unnamed.
fn cluster_of_three() -> Vec<u8> {
    named(&[0x05, 0x06, UNNAMED])
}

/// What a turn does to the file of edition 1: the address frame puts the epoch to one more and becomes pending, the data
/// frame adds one.
fn read_file(file: &[u8], [name, number, record]: Read) -> Vec<u8> {
    let mut file = file.to_vec();
    file[EPOCH] = file[EPOCH].wrapping_add(2);
    file[PENDING..PENDING + 4].copy_from_slice(&[1, name, number << 2, record]);
    file
}

/// Of a turn that serves a screen: the state, the screen, what is sent and the file left.
struct Turn<'a> {
    before: State,
    screen: u8,
    sent: &'a [u8],
    after: Vec<u8>,
}

fn turning(what: &'static str, file: &[u8], answer_length: usize, turn: Turn) -> Edge {
    let call = Call::Turn { file: file.to_vec(), state: turn.before, answer_length };
    let state_after = with(turn.before, &[(0, turn.screen), (1 + 4 * usize::from(turn.screen), 0)]);
    let expected = Outcome {
        senders: Some(if turn.sent.is_empty() { 0 } else { READ_SLOTS }),
        file: Some(turn.after),
        buffer: Some([answer(MSD, turn.sent), vec![FILL; answer_length - 64]].concat()),
        screen: Some(turn.screen),
        ..call.before()
    };
    Edge::new(what, call, expected.with_state(state_after))
}

/// The good read of slave 0x05 of three is served.
fn serving(what: &'static str, before: State, screen: u8) -> Edge {
    let file = cluster_of_three();
    let after = read_file(&file, GOOD);
    turning(what, &file, 64, Turn { before, screen, sent: &GOOD_SENT, after })
}

/// "A turn serves the next waiting screen after the one last served, in cyclic order, from screen 0 at the start"
fn served() -> Vec<Edge> {
    let waiting = |last, screens: &[usize]| {
        let posts: Vec<(usize, u8, Read)> = screens.iter().map(|&screen| (screen, 1, GOOD)).collect();
        state(last, &posts)
    };
    let by = |byte| state(7, &[(2, byte, GOOD)]);
    let bad = [0x00, 64, 1];
    vec![
        serving("screen 0 at the start", waiting(7, &[0]), 0),
        serving("screen 7 at the start", waiting(7, &[7]), 7),
        serving("0 before 1 at the start", waiting(7, &[0, 1]), 0),
        serving("0 before 7 at the start", waiting(7, &[0, 7]), 0),
        serving("1 after 0", waiting(0, &[0, 1]), 1),
        serving("7 after 0", waiting(0, &[0, 7]), 7),
        serving("0 after 0, which alone waits", waiting(0, &[0]), 0),
        serving("7 after 7, which alone waits", waiting(7, &[7]), 7),
        serving("3 after 3, which alone waits", waiting(3, &[3]), 3),
        serving("7 after 6", waiting(6, &[0, 6, 7]), 7),
        serving("0 after 6", waiting(6, &[0, 6]), 0),
        serving("2 after 3", waiting(3, &[2, 3]), 2),
        serving("4 after 3", waiting(3, &[2, 3, 4]), 4),
        serving("all eight wait after 7", all_waiting(7), 0),
        serving("all eight wait after 0", all_waiting(0), 1),
        serving("all eight wait after 6", all_waiting(6), 7),
        serving("waiting by 2", by(2), 2),
        serving("waiting by 128", by(128), 2),
        serving("waiting by 255", by(255), 2),
        serving("a bad read waits that is not due", state(7, &[(0, 1, GOOD), (1, 1, bad)]), 0),
        serving("a bad read waits before it that is not due", state(4, &[(3, 1, bad), (6, 1, GOOD)]), 6),
        serving("a bad read that does not wait", state(7, &[(0, 0, bad), (1, 1, GOOD)]), 1),
        serving("its own old read of the screen last served", state(1, &[(0, 0, bad), (1, 1, GOOD)]), 1),
    ]
}

/// What the read finds: screen 0 has posted it.
fn reading(what: &'static str, file: &[u8], read: Read, sent: &[u8]) -> Edge {
    let before = state(7, &[(0, 1, read)]);
    turning(what, file, 64, Turn { before, screen: 0, sent, after: read_file(file, read) })
}

fn read_on_slaves() -> Vec<Edge> {
    let file = cluster_of_three();
    let one_name = named(&[0x05, 0x05, 0x00]);
    let buffer = |what, answer_length| {
        let before = state(7, &[(0, 1, GOOD)]);
        let after = read_file(&file, GOOD);
        turning(what, &file, answer_length, Turn { before, screen: 0, sent: &GOOD_SENT, after })
    };
    vec![
        reading("record 0", &file, [0x05, 0x10, 0], &[0xD0, 0xD1, 0xD2, 0xD3, 0x49]),
        reading("the last record", &file, [0x06, 0x10, 1], &GOOD_SENT),
        reading("a record behind the last", &file, [0x05, 0x10, 2], &[]),
        reading("record 255", &file, [0x05, 0x10, 255], &[]),
        reading("a file that the slave has not", &file, [0x05, 0x11, 1], &[]),
        reading("file 63, which nobody has", &file, [0x05, 63, 1], &[]),
        reading("file 0, which nobody has", &file, [0x05, 0, 1], &[]),
        reading("the names of 0x06", &file, [0x06, 0x08, 1], &[0, 0, 0, 0x06, 0x4F]),
        reading("the physical name of 0x06", &file, [0x06, 0x3D, 2], &[0, 0, 0, 1, 0x48]),
        reading("a name that nobody holds", &file, [0x07, 0x3D, 1], &[]),
        reading("the unnamed are silent", &file, [UNNAMED, 0x3D, 1], &[]),
        reading("no slaves", &named(&[]), GOOD, &[]),
        // The bitwise and of 0 and 1, and of the two checks 0x49 and 0x48.
        reading("two slaves of one name", &one_name, [0x05, 0x3D, 2], &[0, 0, 0, 0, 0x48]),
        buffer("a buffer of 64 bytes", 64),
        buffer("a buffer of 65 bytes", 65),
        buffer("a buffer of 200 bytes", 200),
    ]
}

/// The file as it then is: its epoch, what is pending, who sleeps.
fn with_state_and_sleep() -> Vec<Edge> {
    let file = cluster_of_three();
    let on = |what, changes: Changes, read: Read, sent: &[u8]| {
        let before = changed(&file, changes);
        let mut after = read_file(&before, read);
        (0..3).for_each(|slave| after[FIRST_SLEEP + ENTRY * slave] = 0);
        let state = state(7, &[(0, 1, read)]);
        turning(what, &before, 64, Turn { before: state, screen: 0, sent, after })
    };
    let at = |what, epoch: &str| on(what, &[(EPOCH, epoch)], GOOD, &GOOD_SENT);
    let second = FIRST_SLEEP + ENTRY;
    vec![
        at("epoch 1", "01"),
        at("epoch 253", "FD"),
        at("epoch 254, the data frame puts it to 0", "FE"),
        at("epoch 255, the address frame puts it to 0", "FF"),
        on("free pending bytes", &[(PENDING, "00 00 FF EE")], GOOD, &GOOD_SENT),
        on("a read pending", &[(PENDING, "01 06 F4 01")], GOOD, &GOOD_SENT),
        on("a write pending", &[(PENDING, "01 05 41 01")], GOOD, &GOOD_SENT),
        on("a write to all pending", &[(PENDING, "01 00 41 01")], GOOD, &GOOD_SENT),
        on("a comparison pending", &[(PENDING, "01 FF 22 02")], GOOD, &GOOD_SENT),
        on("a baptism pending", &[(PENDING, "01 FF 22 01")], GOOD, &GOOD_SENT),
        on("a sleep pending", &[(PENDING, "01 00 22 04")], GOOD, &GOOD_SENT),
        on("the slave sleeps, and wakes", &[(FIRST_SLEEP, "01")], GOOD, &[]),
        on("another sleeps, and wakes", &[(second, "01")], GOOD, &GOOD_SENT),
        on("all sleep, and wake", &[(FIRST_SLEEP, "01"), (second, "01"), (second + ENTRY, "01")], GOOD, &[]),
        on("a read at 0xFF wakes", &[(second + ENTRY, "01")], [UNNAMED, 0x3D, 1], &[]),
    ]
}

/// The last of 64 slaves, which edition 2 alone holds.
fn in_edition_2() -> Vec<Edge> {
    let names: Vec<u8> = (0x01..=0x40).collect();
    let slaves: Vec<Slave> = names.iter().map(|&name| Slave { name, lists: Vec::new() }).collect();
    let with_pending = |state: [u8; 5], slaves: &[Slave]| {
        let mut parts = parts(slaves);
        parts.state = state;
        parts.laid_out(2)
    };
    let on = |what, slaves: &[Slave], read: Read, sent: &[u8]| {
        let [name, number, record] = read;
        let before = with_pending([0xFE, 0, 0, 0, 0], slaves);
        let after = with_pending([0, 1, name, number << 2, record], slaves);
        turning(what, &before, 64, Turn { before: state(7, &[(7, 9, read)]), screen: 7, sent, after })
    };
    vec![
        on("the first of 64", &slaves, [0x01, 0x3D, 2], &[0, 0, 0, 0, 0x49]),
        on("the last of 64", &slaves, [0x40, 0x3D, 2], &[0, 0, 0, 63, 0x49 ^ 63]),
        on("nobody of 64", &slaves, [0x41, 0x3D, 2], &[]),
        on("one slave", &slaves[..1], [0x01, 0x10, 1], &GOOD_SENT),
    ]
}

/// "a turn with none waiting does nothing and says so": all is as it was, but for the screen told.
fn none_waiting() -> Vec<Edge> {
    let idle = |what, file: Vec<u8>, state, answer_length| {
        let call = Call::Turn { file, state, answer_length };
        let expected = Outcome { screen: Some(NO_SCREEN), ..call.before() };
        Edge::new(what, call, expected)
    };
    let file = cluster_of_three();
    let old = state(3, &[(3, 0, GOOD), (4, 0, [0, 255, 255])]);
    let asleep = changed(&file, &[(FIRST_SLEEP, "01"), (PENDING, "01 05 41 01")]);
    let mut edges = vec![
        idle("old reads, one of them bad", file.clone(), old, 64),
        idle("a buffer of 65 bytes", file.clone(), state(7, &[]), 65),
        idle("no slaves", named(&[]), state(7, &[]), 64),
        idle("a slave sleeps on, and a write stays pending", asleep, state(7, &[]), 64),
    ];
    edges.extend((0..=7).map(|last| idle("each screen last served", file.clone(), state(last, &[]), 64)));
    edges
}

fn not_served() -> Vec<Edge> {
    let refused = |what, state, answer_length, number| {
        Edge::refused(what, Call::Turn { file: cluster_of_three(), state, answer_length }, number)
    };
    let due = |read| state(7, &[(0, 1, read)]);
    let (bad_file, bad_name, both) = ([0x05, 64, 1], [0x00, 0x10, 1], [0x00, 64, 1]);
    let mut edges = vec![
        refused("file 64 due", due(bad_file), 64, FILE_NUMBER),
        refused("file 255 due", due([0x05, 255, 1]), 64, FILE_NUMBER),
        refused("name 0x00 due", due(bad_name), 64, BROADCAST_READ),
        refused("name 0x00 with file 63 due", due([0x00, 63, 1]), 64, BROADCAST_READ),
        refused("name 0x00 with file 64 due", due(both), 64, FILE_NUMBER),
        refused("a bad read due, waiting by 255", state(7, &[(0, 255, bad_file)]), 64, FILE_NUMBER),
        refused(
            "a bad read due, a good one behind",
            state(7, &[(0, 1, bad_file), (1, 1, GOOD)]),
            64,
            FILE_NUMBER,
        ),
        refused("a bad read due past the end", state(6, &[(0, 1, bad_name), (6, 1, GOOD)]), 64, BROADCAST_READ),
        refused("18 before 9", due(bad_file), 63, FILE_NUMBER),
        refused("14 before 9", due(bad_name), 0, BROADCAST_READ),
        refused("a buffer of 63 bytes", due(GOOD), 63, SHORT_BUFFER),
        refused("no buffer", due(GOOD), 0, SHORT_BUFFER),
        refused("a buffer of 63 bytes, none waiting", state(7, &[]), 63, SHORT_BUFFER),
        refused("no buffer, none waiting", state(7, &[]), 0, SHORT_BUFFER),
    ];
    for last in [8, 9, 16, 128, 255] {
        edges.push(refused("last served, none waiting", state(last, &[]), 64, NO_SUCH_SCREEN));
        edges.push(refused("last served, all waiting", all_waiting(last), 64, NO_SUCH_SCREEN));
        edges.push(refused("last served before a bad read", state(last, &[(0, 1, both)]), 63, NO_SUCH_SCREEN));
    }
    edges
}

/// On a file that each of 1 to 8 refuses: 27, 18 and 14 come before its number, 9 comes after it; with none waiting too.
fn file_first() -> Vec<Edge> {
    let due = |read| state(7, &[(0, 1, read)]);
    let edges = refused_files([0x05, 0x06]).into_iter().flat_map(|(what, file, number)| {
        let refused = |state, answer_length, number| {
            Edge::refused(what, Call::Turn { file: file.clone(), state, answer_length }, number)
        };
        [
            refused(due(GOOD), 64, number),
            refused(due(GOOD), 0, number),
            refused(state(7, &[]), 64, number),
            refused(state(7, &[]), 63, number),
            refused(state(8, &[]), 64, NO_SUCH_SCREEN),
            refused(due([0x05, 64, 1]), 64, FILE_NUMBER),
            refused(due([0x00, 0x10, 1]), 63, BROADCAST_READ),
        ]
    });
    edges.collect()
}

/// What a byte of a state is put to.
const AT: [u8; 5] = [0, 1, 127, 128, 255];

/// Every byte of a state in which all eight wait, screen 0 being next: at 0, 1, 127, 128 and 255, and what comes of it.
fn bytes_of_a_state() -> Vec<Edge> {
    let before = |place, byte| with(all_waiting(7), &[(place, byte)]);
    let due = |what, place, byte, read, sent: &[u8]| {
        let file = cluster_of_three();
        let after = read_file(&file, read);
        turning(what, &file, 64, Turn { before: before(place, byte), screen: 0, sent, after })
    };
    let refused = |what, place, byte, number| {
        let call = Call::Turn { file: cluster_of_three(), state: before(place, byte), answer_length: 64 };
        Edge::refused(what, call, number)
    };
    let mut edges = vec![
        serving("last served 0", before(0, 0), 1),
        serving("last served 1", before(0, 1), 2),
        serving("screen 0 does not wait", before(1, 0), 1),
        refused("name 0", 2, 0, BROADCAST_READ),
        due("record 0", 4, 0, [0x05, 0x10, 0], &[0xD0, 0xD1, 0xD2, 0xD3, 0x49]),
        serving("record 1", before(4, 1), 0),
    ];
    edges.extend([127, 128, 255].map(|last| refused("last served", 0, last, NO_SUCH_SCREEN)));
    edges.extend([1, 127, 128, 255].map(|waiting| serving("screen 0 waits", before(1, waiting), 0)));
    edges.extend([1, 127, 128, 255].map(|name| due("name", 2, name, [name, 0x10, 1], &[])));
    edges.extend([0, 1].map(|file| due("file", 3, file, [0x05, file, 1], &[])));
    edges.extend([127, 128, 255].map(|file| refused("file", 3, file, FILE_NUMBER)));
    edges.extend([127, 128, 255].map(|record| due("record", 4, record, [0x05, 0x10, record], &[])));
    edges.extend((5..33).map(|place| {
        let calls = AT.map(|byte| serving("", before(place, byte), 0).calls);
        Edge { what: "a byte of another screen", calls: calls.concat() }
    }));
    edges
}

/// Every byte of a state in which all but screen 0 wait, and of the read that screen 0 posts: at the same.
fn bytes_at_a_post() -> Vec<Edge> {
    let before = |place, byte| with(all_waiting(7), &[(1, 0), (place, byte)]);
    let idle = before(1, 0);
    let post = |what, read| posting(what, idle, 0, read);
    let refused =
        |what, state, read, number| Edge::refused(what, Call::Post { state, screen: 0, read }, number);
    let mut edges = vec![
        posting("last served 0", before(0, 0), 0, GOOD),
        posting("last served 1", before(0, 1), 0, GOOD),
        post("it does not wait", GOOD),
        refused("name 0", idle, [0, 0x10, 1], BROADCAST_READ),
    ];
    edges.extend([127, 128, 255].map(|last| refused("last served", before(0, last), GOOD, NO_SUCH_SCREEN)));
    edges.extend([1, 127, 128, 255].map(|byte| refused("it waits", before(1, byte), GOOD, WAITING_ALREADY)));
    edges.extend([1, 127, 128, 255].map(|name| post("name", [name, 0x10, 1])));
    edges.extend([0, 1].map(|file| post("file", [0x05, file, 1])));
    edges.extend([127, 128, 255].map(|file| refused("file", idle, [0x05, file, 1], FILE_NUMBER)));
    edges.extend(AT.map(|record| post("record", [0x05, 0x10, record])));
    edges.extend((2..33).map(|place| {
        let calls = AT.map(|byte| posting("", before(place, byte), 0, GOOD).calls);
        Edge { what: "a byte of its old read or of another screen", calls: calls.concat() }
    }));
    edges
}

/// Each screen last served with each set of screens that wait: the one served is the first behind it.
fn every_row(engine: &dyn Engine) {
    let file = cluster_of_three();
    for (last, waiting) in (0..=7u8).flat_map(|last| (1..=255u8).map(move |waiting| (last, waiting))) {
        let waits = |screen: u8| waiting >> screen & 1;
        let posts: Vec<(usize, u8, Read)> =
            (0..8).map(|screen| (usize::from(screen), waits(screen), [0x05, 0x10, screen])).collect();
        // behind the one last served up to 7, then from 0 on
        let screen = (last + 1..8).chain(0..=last).find(|&screen| waits(screen) == 1).expect("one that waits");
        let sent: &[u8] = match screen {
            0 => &[0xD0, 0xD1, 0xD2, 0xD3, 0x49],
            1 => &GOOD_SENT,
            _ => &[],
        };
        let after = read_file(&file, [0x05, 0x10, screen]);
        turning("a row", &file, 64, Turn { before: state(last, &posts), screen, sent, after }).hold(engine);
    }
}

/// File and state, which the calls of a row hand on.
struct Shared {
    file: Vec<u8>,
    state: State,
}

impl Shared {
    fn start(engine: &dyn Engine, file: Vec<u8>) -> Shared {
        Shared { file, state: Call::Screens.make(engine).state_left() }
    }

    fn post(&mut self, engine: &dyn Engine, screen: u8, read: Read) -> u8 {
        let outcome = Call::Post { state: self.state, screen, read }.make(engine);
        self.state = outcome.state_left();
        outcome.number
    }

    /// The screen served.
    fn turn(&mut self, engine: &dyn Engine) -> Option<u8> {
        let call = Call::Turn { file: self.file.clone(), state: self.state, answer_length: 64 };
        let outcome = call.make(engine);
        self.state = outcome.state_left();
        self.file = outcome.file.clone().expect("a lent file");
        outcome.served()
    }

    fn frame(&mut self, engine: &dyn Engine, frame: Vec<u8>) -> Outcome {
        let outcome = Call::Round { file: self.file.clone(), frame, answer_length: 64 }.make(engine);
        self.file = outcome.file.clone().expect("a lent file");
        outcome
    }
}

/// All eight wait, and each posts again as soon as it is served: every one is served at every eighth turn.
fn constant_posting(engine: &dyn Engine) {
    let mut shared = Shared::start(engine, cluster_of_three());
    (0..8).for_each(|screen| assert_eq!(shared.post(engine, screen, GOOD), 0));
    for turn in 0..40 {
        let screen = turn % 8;
        assert_eq!(shared.turn(engine), Some(screen));
        assert_eq!(shared.post(engine, screen, GOOD), 0);
        (0..8).for_each(|again| assert_eq!(shared.post(engine, again, GOOD), WAITING_ALREADY));
    }
}

/// Screen 3 posts before every turn, four others once, and each of them is served at the turn that follows.
fn one_busy(engine: &dyn Engine) {
    let mut shared = Shared::start(engine, cluster_of_three());
    let mut told = Vec::new();
    for turn in 0..12 {
        shared.post(engine, 3, GOOD);
        let other = [(1, 2), (4, 5), (5, 0), (8, 4)].into_iter().find(|&(when, _)| when == turn);
        if let Some((_, screen)) = other {
            shared.post(engine, screen, [0x06, 0x3D, 2]);
        }
        told.push(shared.turn(engine).expect("a turn that is not refused"));
    }
    assert_eq!(told, [3, 2, 3, 3, 5, 0, 3, 3, 4, 3, 3, 3]);
    assert_eq!(shared.turn(engine), Some(NO_SCREEN));
}

/// A turn whose file or buffer is refused keeps the read, and a file that is mended then has it.
fn refused_between(engine: &dyn Engine) {
    let good = cluster_of_three();
    let mut shared = Shared::start(engine, changed(&good, &[(0, "55")]));
    assert_eq!(shared.post(engine, 5, GOOD), 0);
    let waiting = shared.state;
    assert_eq!((shared.turn(engine), shared.state), (None, waiting));
    shared.file.clone_from(&good);
    let short = Call::Turn { file: good.clone(), state: waiting, answer_length: 63 };
    assert_eq!(short.make(engine), Outcome { number: SHORT_BUFFER, ..short.before() });
    assert_eq!((shared.turn(engine), &shared.file), (Some(5), &read_file(&good, GOOD)));
    assert_eq!(shared.turn(engine), Some(NO_SCREEN));
}

/// A turn before each step of a naming run over two unnamed slaves: the run is the one without turns. Its rounds are the
/// extra read, 134 for the slave whose bits 32 and 0 are 1, 135 for the one whose bit 0 is 0, and four that find nobody
/// unnamed.
fn between_naming_steps(engine: &dyn Engine) {
    let names = vec![0x01, 0x02, 0x03];
    let run_with = |turns: bool| {
        let mut shared = Shared::start(engine, named(&[UNNAMED, UNNAMED, 0x05]));
        let mut run = Call::Start { names: names.clone() }.make(engine).run.expect("a lent run");
        let mut served = 0;
        while run[0] == 0 {
            if turns {
                shared.post(engine, (served % 8) as u8, GOOD);
                assert_eq!(shared.turn(engine), Some((served % 8) as u8));
                served += 1;
            }
            let step =
                Call::Step { file: shared.file, names: names.clone(), run, answer_length: 64 }.make(engine);
            assert_eq!(step.number, 0);
            (shared.file, run) = (step.file.expect("a lent file"), step.run.expect("a lent run"));
        }
        (shared.file, run)
    };
    let ((alone, run_alone), (mut beside, run_beside)) = (run_with(false), run_with(true));
    assert_eq!((run_alone, run_alone[4]), (run_beside, 1 + 134 + 135 + 4));
    // but for the epoch, to which each turn adds two
    beside[EPOCH] = alone[EPOCH];
    assert_eq!(alone, beside);
    let name_of = |slave| alone[slave_place(3, slave) + 12 + 7];
    assert_eq!([name_of(0), name_of(1), name_of(2)], [0x02, 0x01, 0x05]);
}

/// Another master's address frame, a turn, and that master's data frame: the turn's read has taken its place.
fn within_a_foreign_round(engine: &dyn Engine) {
    let start = |frame| {
        let mut shared = Shared::start(engine, cluster(&[named_slave(0x05), named_slave(0x06)]));
        assert_eq!(shared.frame(engine, frame).number, 0);
        assert_eq!(shared.post(engine, 0, GOOD), 0);
        assert_eq!(shared.turn(engine), Some(0));
        shared
    };
    // a write of record 1 of 0x10: its data is refused by 11, since a read is pending, and nothing is written
    let mut shared = start(framed(MSA, [9, 0x06, 0x10 << 2 | 1, 1]));
    let left = shared.file.clone();
    assert_eq!(shared.frame(engine, framed(MSD, [1, 2, 3, 4])).number, 11);
    assert_eq!(shared.file, left);
    // a read of 0x06: 0x05 answers again, by the epoch after the turn's
    let mut shared = start(framed(MSA, [9, 0x06, 0x3D << 2, 2]));
    assert_eq!(shared.file[EPOCH], 11);
    let again = shared.frame(engine, vec![MSD]);
    assert_eq!((again.senders, again.buffer), (Some(READ_SLOTS), Some(answer(MSD, &GOOD_SENT))));
    assert_eq!(shared.file[EPOCH], 12);
    // the whole round of the other master again is carried out as ever
    assert_eq!(shared.frame(engine, framed(MSA, [9, 0x06, 0x3D << 2, 2])).number, 0);
    assert_eq!(shared.frame(engine, vec![MSD]).buffer, Some(answer(MSD, &[0, 0, 0, 1, 0x48])));
}

fn named_slave(name: u8) -> Slave {
    Slave { name, lists: Vec::new() }
}
