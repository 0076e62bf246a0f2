//! The edges of sleep and wake (document 02, request 9): who falls asleep, who wakes when, what a sleeping slave does not
//! do, the sleep byte of a file, and the extra read with which a naming run begins.

use super::files::{
    answer, changed, cluster, hex, named, slave, slave_place, Changes, Slave, PENDING, UNNAMED,
};
use super::Edge;
use crate::case::{Call, Outcome};
use crate::engine::{Engine, RunWords};
use crate::frames::{framed, unfolded, MULTIPARTNER};
use crate::layout::EPOCH;
use model::{MSA, MSD};

const ROUND_2: u8 = 0xBA;
const CONFIGURATION: u8 = 0x08;
/// Slots 1 to 5, in which a read is answered.
const READ_SLOTS: u64 = 0b11_1110;

/// So many edges there are, calls in a row aside.
const EDGES: usize = 136;

pub fn hold(engine: &dyn Engine) {
    let groups = [
        falling(),
        not_falling(),
        waking(),
        waking_nobody(),
        asleep_in_data_rounds(),
        asleep_in_multipartner_rounds(),
        sleep_bytes(),
        plans(),
        extra_reads(),
        no_extra_reads(),
    ];
    super::hold_all(engine, groups, EDGES);
    same_data_frame_again(engine);
    whole_cluster(engine);
    woken_between_address_and_data(engine);
    run_over_sleepers(engine);
    woken_before_the_first_step(engine);
    woken_by_traces(engine);
    traces_between_steps(engine);
    asleep_between_steps(engine);
}

/// A slave of this name whose 0x08 has records 0x00 to 4.
fn with_record_4(name: u8) -> Slave {
    Slave { name, lists: vec![(CONFIGURATION, "5A5A5A5A".to_string())] }
}

/// One whose 0x08 ends with record 3.
fn without_record_4(name: u8) -> Slave {
    Slave { name, lists: Vec::new() }
}

/// The last byte of a table entry: "0 awake or 1 asleep".
fn sleep_byte(slave: usize) -> usize {
    16 + 4 * slave + 3
}

/// The file with these sleep bytes.
fn asleep(file: &[u8], bytes: &[u8]) -> Vec<u8> {
    let mut file = file.to_vec();
    bytes.iter().enumerate().for_each(|(slave, &byte)| file[sleep_byte(slave)] = byte);
    file
}

fn sleep_bytes_of(file: &[u8]) -> Vec<u8> {
    (0..usize::from(file[3])).map(|slave| file[sleep_byte(slave)]).collect()
}

fn round(file: &[u8], frame: Vec<u8>) -> Call {
    Call::Round { file: file.to_vec(), frame, answer_length: 64 }
}

/// A frame that is carried out: who sends in which slots, and the bytes of the file that are then others.
fn carried_out(what: &'static str, file: &[u8], frame: Vec<u8>, sent: (u64, &[u8]), changes: Changes) -> Edge {
    let buffer = Some(answer(frame[0], sent.1));
    let call = round(file, frame);
    let file = Some(changed(file, changes));
    let expected = Outcome { senders: Some(sent.0), file, buffer, ..call.before() };
    Edge::new(what, call, expected)
}

const SILENCE: (u64, &[u8]) = (0, &[]);

/// The data frame of what is pending on slaves with these sleep bytes, after which they have others. Nobody sends.
fn data_frame(what: &'static str, slaves: &[Slave], pending: &str, before: &[u8], after: &[u8]) -> Edge {
    let file = changed(&asleep(&cluster(slaves), before), &[(PENDING, pending)]);
    let call = round(&file, vec![MSD]);
    let left = changed(&asleep(&file, after), &[(EPOCH, "01")]);
    let expected =
        Outcome { senders: Some(0), file: Some(left), buffer: Some(answer(MSD, &[])), ..call.before() };
    Edge::new(what, call, expected)
}

/// An execute of record 4 of 0x08 at all but the unnamed, at the unnamed, and at 0x05.
const AT_OTHERS: &str = "01 00 22 04";
const AT_UNNAMED: &str = "01 FF 22 04";
const AT_5: &str = "01 05 22 04";

/// "an execute of record 4 of 0x08 [..]; addressed slaves that have it fall asleep after that round"
fn falling() -> Vec<Edge> {
    let three = [with_record_4(0x05), with_record_4(UNNAMED), with_record_4(0x06)];
    let some = [without_record_4(0x05), with_record_4(0x05), without_record_4(UNNAMED), with_record_4(UNNAMED)];
    let awake = &[0, 0, 0];
    let mut last = vec![without_record_4(0x05); 31];
    last.push(with_record_4(0x05));
    let mut last_sleeps = [0; 32];
    last_sleeps[31] = 1;
    vec![
        data_frame("at 0xFF the unnamed", &three, AT_UNNAMED, awake, &[0, 1, 0]),
        data_frame("at 0x00 all others", &three, AT_OTHERS, awake, &[1, 0, 1]),
        data_frame("at a name its holder", &three, AT_5, awake, &[1, 0, 0]),
        data_frame("at a name that nobody has", &three, "01 07 22 04", awake, awake),
        data_frame(
            "at a name two holders",
            &[with_record_4(0x05), with_record_4(0x05)],
            AT_5,
            &[0, 0],
            &[1, 1],
        ),
        data_frame("a slave named 0x00, at 0x00", &[with_record_4(0x00)], AT_OTHERS, &[0], &[1]),
        data_frame("at a name, r of 3 and r of 4", &some, AT_5, &[0; 4], &[0, 1, 0, 0]),
        data_frame("at 0x00, r of 3 and r of 4", &some, AT_OTHERS, &[0; 4], &[0, 1, 0, 0]),
        data_frame("at 0xFF, r of 3 and r of 4", &some, AT_UNNAMED, &[0; 4], &[0, 0, 0, 1]),
        data_frame("the last of 32", &last, AT_5, &[0; 32], &last_sleeps),
        data_frame("all of 32", &vec![with_record_4(0x05); 32], AT_5, &[0; 32], &[1; 32]),
        // A sleeper is not addressed: it wakes, and the others fall asleep.
        data_frame(
            "the first sleeps already",
            &[with_record_4(0x05), with_record_4(0x05)],
            AT_5,
            &[1, 0],
            &[0, 1],
        ),
        data_frame(
            "the last sleeps already",
            &[with_record_4(0x05), with_record_4(0x05)],
            AT_5,
            &[0, 1],
            &[1, 0],
        ),
        data_frame("both sleep already", &[with_record_4(0x05), with_record_4(0x05)], AT_5, &[1, 1], &[0, 0]),
        data_frame("who is not addressed wakes", &three, AT_5, &[0, 1, 1], &[1, 0, 0]),
        data_frame("0xFF with the others asleep", &three, AT_UNNAMED, &[1, 0, 1], &[0, 1, 0]),
        data_frame("0x00 with the unnamed asleep", &three, AT_OTHERS, &[0, 1, 0], &[1, 0, 1]),
        data_frame("no slave", &[], AT_OTHERS, &[], &[]),
    ]
}

/// Nothing else puts to sleep: another record or file, another operation, the three bytes without the flag, and while a
/// sleep is pending a multipartner round.
fn not_falling() -> Vec<Edge> {
    let two = [with_record_4(0x05), with_record_4(UNNAMED)];
    let awake = &[0, 0];
    let written = changed(&cluster(&two), &[(PENDING, "01 05 21 04")]);
    let record_4 = place(2, 0) + 12 + 16;
    let pending = changed(&cluster(&two), &[(PENDING, AT_5)]);
    let mut edges = vec![
        data_frame("record 0x00 executed", &two, "01 05 22 00", awake, awake),
        data_frame("record 3 executed", &two, "01 05 22 03", awake, awake),
        data_frame("record 5 executed", &two, "01 05 22 05", awake, awake),
        data_frame("record 4 of 0x07 executed", &two, "01 05 1E 04", awake, awake),
        data_frame("record 4 of 0x09 executed", &two, "01 05 26 04", awake, awake),
        data_frame("record 4 of 0x3D executed", &two, "01 05 F6 04", awake, awake),
        data_frame("nothing pending, the bytes of a sleep", &two, "00 05 22 04", awake, awake),
        carried_out(
            "record 4 read",
            &changed(&cluster(&two), &[(PENDING, "01 05 20 04")]),
            vec![MSD],
            (READ_SLOTS, &[0x5A, 0x5A, 0x5A, 0x5A, 0x49]),
            &[(EPOCH, "01")],
        ),
        carried_out(
            "record 4 written",
            &written,
            framed(MSD, [0x11, 0x22, 0x33, 0x44]),
            SILENCE,
            &[(EPOCH, "01"), (record_4, "11223344")],
        ),
    ];
    for firework in MULTIPARTNER {
        edges.push(carried_out("a sleep pending", &pending, vec![firework], SILENCE, &[(EPOCH, "01")]));
    }
    edges
}

/// "is awake after the next accepted MSD or multipartner round"
fn waking() -> Vec<Edge> {
    let three = [with_record_4(0x05), without_record_4(UNNAMED), with_record_4(0x00)];
    let all = &[1, 1, 1];
    let awake = &[0, 0, 0];
    let mut edges = vec![
        data_frame("nothing pending", &three, "00 00 00 00", all, awake),
        data_frame("a read pending", &three, "01 05 F4 01", all, awake),
        data_frame("a read at 0xFF", &three, "01 FF F4 01", all, awake),
        data_frame("a comparison pending", &three, "01 FF 22 02", all, awake),
        data_frame("a baptism pending", &three, "01 FF 22 01", all, awake),
        data_frame("another execute pending", &three, "01 05 42 01", all, awake),
        data_frame("a sleep at nobody", &three, "01 07 22 04", all, awake),
        data_frame("the first sleeps", &three, "00 00 00 00", &[1, 0, 0], awake),
        data_frame("the second sleeps", &three, "00 00 00 00", &[0, 1, 0], awake),
        data_frame("the last sleeps", &three, "00 00 00 00", &[0, 0, 1], awake),
        data_frame("32 sleep", &vec![without_record_4(0x05); 32], "00 00 00 00", &[1; 32], &[0; 32]),
    ];
    let file = asleep(&cluster(&three), all);
    let write = changed(&file, &[(PENDING, "01 05 41 01")]);
    let woken = [(EPOCH, "01"), (sleep_byte(0), "00"), (sleep_byte(1), "00"), (sleep_byte(2), "00")];
    edges.push(carried_out("a write", &write, framed(MSD, [1, 2, 3, 4]), SILENCE, &woken));
    let sleep = changed(&file, &[(PENDING, AT_5)]);
    edges.push(carried_out("a multipartner round, a sleep pending", &sleep, vec![ROUND_2], SILENCE, &woken));
    for firework in MULTIPARTNER {
        edges.push(carried_out("a multipartner round", &file, vec![firework], SILENCE, &woken));
    }
    edges
}

/// An MSA and a refused frame wake nobody; nor does a call that is refused for its buffer.
fn waking_nobody() -> Vec<Edge> {
    let file = asleep(&cluster(&[with_record_4(0x05), without_record_4(UNNAMED)]), &[1, 1]);
    let write = changed(&file, &[(PENDING, "01 05 41 01")]);
    let refused = |what, file: &[u8], frame, number| Edge::refused(what, round(file, frame), number);
    let short = Call::Round { file: file.clone(), frame: vec![ROUND_2], answer_length: 63 };
    let run = [0, 0, 0, 0, 0, 0, 0, 0];
    let step = |names: &[u8], run, answer_length| Call::Step {
        file: file.clone(),
        names: names.to_vec(),
        run,
        answer_length,
    };
    let address = |what, bytes: [u8; 4]| {
        let pending = format!("01 {:02X} {:02X} {:02X}", bytes[1], bytes[2], bytes[3]);
        let changes = [(EPOCH, "07"), (PENDING, &pending[..])];
        carried_out(what, &file, framed(MSA, bytes), SILENCE, &changes)
    };
    vec![
        address("the MSA of a read", [7, 0x05, 0xF4, 1]),
        address("the MSA of a write", [7, 0x00, 0x41, 1]),
        address("the MSA of a sleep", [7, 0x05, 0x22, 4]),
        refused("an empty frame", &file, Vec::new(), 10),
        refused("no firework", &file, vec![0x54], 10),
        refused("an MSD too long", &file, vec![MSD, 0], 11),
        refused("a round too long", &file, vec![ROUND_2, 0], 11),
        refused("data without its check", &write, unfolded(MSD, [1, 2, 3, 4]), 12),
        refused("data too short", &write, vec![MSD], 11),
        refused("an MSA of operation 3", &file, framed(MSA, [7, 0x05, 0x23, 4]), 13),
        refused("an MSA of a read at 0x00", &file, framed(MSA, [7, 0x00, 0xF4, 1]), 14),
        Edge::refused("a round without a buffer", short, 9),
        Edge::refused("a step without a buffer", step(&[0x21], run, 63), 9),
        Edge::refused("a step over a wrong list", step(&[0x00], run, 64), 15),
        Edge::refused("a step over a repeated name", step(&[0x21, 0x21], run, 64), 16),
        Edge::refused("a step of no position", step(&[0x21], [0, 1, 0, 0, 0, 0, 0, 0], 64), 17),
        // An ended run makes no round.
        Edge::refused("a step of an ended run", step(&[0x21], [2, 1, 0, 0, 0, 0, 0, 0], 64), 0),
        Edge::refused("a step over an empty list", step(&[], [2, 0, 0, 0, 0, 0, 0, 0], 64), 0),
    ]
}

/// Where a slave with record 4 has its part, if all have it: its directory of three files, then 0x08, 0x10 and 0x3D.
fn place(slaves: usize, slave: usize) -> usize {
    16 + 4 * slaves + slave * (12 + 20 + 8 + 12)
}

/// "A sleeping slave takes no part in rounds": two slaves that would do the same, one of which sleeps, or both.
fn asleep_in_data_rounds() -> Vec<Edge> {
    let (named_5, unnamed) =
        ([with_record_4(0x05), with_record_4(0x05)], [with_record_4(UNNAMED), with_record_4(UNNAMED)]);
    let pending = |slaves: &[Slave; 2], operation: &str, before: [u8; 2]| {
        changed(&asleep(&cluster(slaves), &before), &[(PENDING, operation)])
    };
    let woken = [(EPOCH, "01"), (sleep_byte(0), "00"), (sleep_byte(1), "00")];
    let with = |change: (usize, &'static str)| [&woken[..], &[change]].concat();
    let read = |what, before, sent| {
        carried_out(what, &pending(&named_5, "01 05 F4 02", before), vec![MSD], sent, &woken)
    };
    let write = |what, before, changes: Changes| {
        let file = pending(&named_5, "01 00 41 01", before);
        carried_out(what, &file, framed(MSD, [0x11, 0x22, 0x33, 0x44]), SILENCE, changes)
    };
    let compare = |what, before, sent| {
        carried_out(what, &pending(&unnamed, "01 FF 22 02", before), vec![MSD], sent, &woken)
    };
    let data = |slave| place(2, slave) + 12 + 20 + 4;
    let mut edges = vec![
        read("read, the first sleeps", [1, 0], (READ_SLOTS, &[0, 0, 0, 1, 0x48])),
        read("read, the second sleeps", [0, 1], (READ_SLOTS, &[0, 0, 0, 0, 0x49])),
        read("read, both sleep", [1, 1], SILENCE),
        write("written, the first sleeps", [1, 0], &with((data(1), "11223344"))),
        write("written, the second sleeps", [0, 1], &with((data(0), "11223344"))),
        write("written, both sleep", [1, 1], &woken),
        compare("compared, the first sleeps", [1, 0], (0b10, &[0])),
        compare("compared, both sleep", [1, 1], SILENCE),
    ];
    edges.extend(baptized());
    edges
}

/// Each holds its own physical name as comparison value; the new names are 0x21 and 0x22.
fn baptized() -> Vec<Edge> {
    let names = |slave| place(2, slave) + 12 + 4;
    let file = changed(
        &cluster(&[with_record_4(UNNAMED), with_record_4(UNNAMED)]),
        &[
            (PENDING, "01 FF 22 01"),
            (names(0), "000021FF 00000007 00000000"),
            (names(1), "000022FF 00000007 00000001"),
        ],
    );
    let woken = [(EPOCH, "01"), (sleep_byte(0), "00"), (sleep_byte(1), "00")];
    let edge = |what, before: &[u8], named: Changes| {
        carried_out(what, &asleep(&file, before), vec![MSD], SILENCE, &[&woken[..], named].concat())
    };
    vec![
        edge("baptized, both awake", &[0, 0], &[(names(0) + 3, "21"), (names(1) + 3, "22")]),
        edge("baptized, the first sleeps", &[1, 0], &[(names(1) + 3, "22")]),
        edge("baptized, the second sleeps", &[0, 1], &[(names(0) + 3, "21")]),
        edge("baptized, both sleep", &[1, 1], &[]),
    ]
}

/// Where a slave with one list of one entry has its file 0x10: behind its directory of four files, the list and 0x08.
fn partner_data(slaves: usize, slave: usize) -> usize {
    16 + 4 * slaves + slave * (16 + 8 + 16 + 8 + 12) + 16 + 8 + 16
}

/// The first sends its byte 4, D4, in slot 1; the second stores slot 1 there and the third sends it in slot 2, or stores.
fn asleep_in_multipartner_rounds() -> Vec<Edge> {
    let (sends, stores, sends_later) = ("40011001", "40010001", "40011002");
    let three = |third: &str| cluster(&[slave(1, 2, sends), slave(2, 2, stores), slave(3, 2, third)]);
    // What the first sends differs from what the others hold.
    let with =
        |third: &str, before: &[u8]| changed(&asleep(&three(third), before), &[(partner_data(3, 0) + 4, "A1")]);
    let woken = [(EPOCH, "01"), (sleep_byte(0), "00"), (sleep_byte(1), "00"), (sleep_byte(2), "00")];
    let stored = |slave: usize| (partner_data(3, slave) + 4, "A1");
    let edge = |what, third: &str, before: &[u8], sent: (u64, &[u8]), more: Changes| {
        carried_out(what, &with(third, before), vec![ROUND_2], sent, &[&woken[..], more].concat())
    };
    vec![
        edge("all awake", sends_later, &[0, 0, 0], (0b110, &[0xA1, 0xD4]), &[stored(1)]),
        edge("the sender sleeps", sends_later, &[1, 0, 0], (0b100, &[0xFF, 0xD4]), &[]),
        edge("the receiver sleeps", sends_later, &[0, 1, 0], (0b110, &[0xA1, 0xD4]), &[]),
        edge("the later sender sleeps", sends_later, &[0, 0, 1], (0b10, &[0xA1]), &[stored(1)]),
        edge("both senders sleep", sends_later, &[1, 0, 1], SILENCE, &[]),
        edge("sender and receiver sleep", sends_later, &[1, 1, 0], (0b100, &[0xFF, 0xD4]), &[]),
        edge("all sleep", sends_later, &[1, 1, 1], SILENCE, &[]),
        edge("two receive", stores, &[0, 0, 0], (0b10, &[0xA1]), &[stored(1), stored(2)]),
        edge("two receive, the first sleeps", stores, &[0, 1, 0], (0b10, &[0xA1]), &[stored(2)]),
        edge("two receive, the second sleeps", stores, &[0, 0, 1], (0b10, &[0xA1]), &[stored(1)]),
        // One slot of two senders holds the and of their bytes: A1 and D4.
        edge("two send", sends, &[0, 0, 0], (0b10, &[0x80]), &[(partner_data(3, 1) + 4, "80")]),
        edge("two send, the first sleeps", sends, &[1, 0, 0], (0b10, &[0xD4]), &[]),
        edge("two send, the second sleeps", sends, &[0, 0, 1], (0b10, &[0xA1]), &[stored(1)]),
    ]
}

/// "Number 6 now refuses a sleep byte above 1."
fn sleep_bytes() -> Vec<Edge> {
    let check = |what, file, number| Edge::refused(what, Call::Check { file }, number);
    let two = named(&[0x05, UNNAMED]);
    // The one entry counts no file and says that its directory begins at the file's end.
    let no_files = |byte| hex(&format!("54410101 00100014 00000000 00000000 001400{byte}"));
    let equal = slave_place(2, 1) + 12 + 7;
    let serial = two.len() - 1;
    vec![
        check("the first asleep", asleep(&two, &[1, 0]), 0),
        check("the second asleep", asleep(&two, &[0, 1]), 0),
        check("both asleep", asleep(&two, &[1, 1]), 0),
        check("the first byte 2", asleep(&two, &[2, 0]), 6),
        check("the second byte 2", asleep(&two, &[1, 2]), 6),
        check("a byte of 3", asleep(&two, &[3, 0]), 6),
        check("a byte of 128", asleep(&two, &[0, 0x80]), 6),
        check("a byte of 255", asleep(&two, &[0xFF, 0]), 6),
        check("no files, asleep", no_files("01"), 7),
        check("no files, a byte of 2", no_files("02"), 6),
        check("equal logical names, both asleep", changed(&asleep(&two, &[1, 1]), &[(equal, "05")]), 22),
        check("equal physical names, one asleep", changed(&asleep(&two, &[0, 1]), &[(serial, "00")]), 8),
    ]
}

/// "The owner file is planned as if every slave were awake", and the summary holds the names of all.
fn plans() -> Vec<Edge> {
    // Round 0 has slot 0 alone, round 2 the slaves 5 and 6 in slots 1 and 2, each further round slot 0 alone.
    let owners = "00000000 03000405 06000708 63000000 63050600 63000000 63000000 63000000 63000000";
    let two = cluster(&[slave(0x05, 2, "40011001"), slave(0x06, 2, "40011002")]);
    let clash = cluster(&[slave(0x05, 2, "40011001"), slave(0x06, 2, "40011001")]);
    let multiplexed = cluster(&[slave(0x05, 2, "40019001"), slave(0x06, 2, "40011002")]);
    let owner = |file| Call::Owner { file, master: 0x63, buffer_length: 36 };
    let written = |what, before: &[u8]| {
        let call = owner(asleep(&two, before));
        let expected = Outcome { buffer: Some(hex(owners)), length: Some(36), ..call.before() };
        Edge::new(what, call, expected)
    };
    let fill = Call::Fill { file: asleep(&two, &[1, 0]), held: hex("EE EE") };
    let filled = Outcome { held: Some(hex("05 06")), count: Some(2), ..fill.before() };
    let held = round(&asleep(&two, &[1, 1]), framed(MSA, [7, 0x05, 0xF4, 1])).keeping(&hex("05 07"), 2);
    vec![
        written("planned, the first asleep", &[1, 0]),
        written("planned, the second asleep", &[0, 1]),
        written("planned, both asleep", &[1, 1]),
        Edge::refused("two senders, one asleep", owner(asleep(&clash, &[1, 0])), 20),
        Edge::refused("two senders, both asleep", owner(asleep(&clash, &[1, 1])), 20),
        Edge::refused("a multiplexed send of a sleeper", owner(asleep(&multiplexed, &[1, 0])), 23),
        Edge::new("filled, one asleep", fill, filled),
        Edge::refused("a summary with a wrong name of a sleeper", held, 24),
    ]
}

/// The step alone, and given the summary of these names, which stays as it is.
fn step_edge(what: &'static str, step: Call, expected: Outcome, held: &[u8]) -> Edge {
    let keeping = step.clone().keeping(held, held.len() as u64);
    let kept = Outcome { held: Some(held.to_vec()), ..expected.clone() };
    Edge { what, calls: vec![(step, expected), (keeping, kept)] }
}

/// "one extra read of 0x3D record 1 at its first name, its reply ignored [..] due exactly while a running position counts
/// no round, and raises that count alone"
fn extra_reads() -> Vec<Edge> {
    // The first is named 0x21, the second, 0x0000000700000001, unnamed.
    let held = [0x21, UNNAMED];
    let file = named(&held);
    let edge = |what, before: &[u8], names: &[u8], run: RunWords, sent: (u64, &[u8])| {
        let file = asleep(&file, before);
        let call = Call::Step { file: file.clone(), names: names.to_vec(), run, answer_length: 64 };
        let pending = format!("01 {:02X} F4 01", names[0]);
        let left = changed(&asleep(&file, &[0, 0]), &[(EPOCH, "02"), (PENDING, &pending)]);
        let mut after = run;
        after[4] = 1;
        let buffer = Some(answer(MSD, sent.1));
        let expected =
            Outcome { senders: Some(sent.0), file: Some(left), buffer, run: Some(after), ..call.before() };
        step_edge(what, call, expected, &held)
    };
    let series: (u64, &[u8]) = (READ_SLOTS, &[0, 0, 0, 7, 0x4E]);
    let fresh = [0; 8];
    let (high, low) = (0x8000_0000, 0);
    vec![
        edge("a free name", &[0, 0], &[0x22], fresh, SILENCE),
        edge("a taken name", &[0, 0], &[0x21], fresh, series),
        edge("a taken name, its holder asleep", &[1, 0], &[0x21], fresh, SILENCE),
        edge("a taken name, the other asleep", &[0, 1], &[0x21], fresh, series),
        edge("all asleep", &[1, 1], &[0x22], fresh, SILENCE),
        edge("the last name of the list", &[0, 0], &[0x21, 0x22], [0, 1, 0, 0, 0, 0, 0, 0], series),
        edge("index 1, the second name taken", &[0, 0], &[0x22, 0x21], [0, 1, 0, 0, 0, 0, 0, 0], SILENCE),
        edge("index 2 of 3, at a bit", &[0, 0], &[0x21, 0x22, 0x23], [0, 2, 50, 9, 0, 7, 5, 6], series),
        edge("in mid-pass", &[0, 1], &[0x22], [0, 0, 100, 7 << 32, 0, 40, 7, 5], SILENCE),
        edge("the first comparison", &[0, 0], &[0x22], [0, 0, 3, 0, 0, 0, 0, 0], SILENCE),
        edge("at a needless write", &[0, 0], &[0x22], [0, 0, 4, 0, 0, 1, high, low], SILENCE),
        edge("at a needless low half", &[1, 1], &[0x21], [0, 0, 5, 0, 0, 1, high, low], SILENCE),
        edge("at a value written already", &[0, 0], &[0x22], [0, 0, 197, 5, 0, 65, 0, 5], SILENCE),
        edge("before the new name", &[0, 0], &[0x21], [0, 0, 196, 5, 0, 65, 9, 9], series),
        edge("at the baptism", &[0, 0], &[0x22], [0, 0, 199, 7 << 32 | 1, 0, 65, 7, 1], SILENCE),
        edge("999,999 comparisons", &[0, 0], &[0x22], [0, 0, 9, 0, 0, 999_999, 0, 0], SILENCE),
        edge("the widest halves", &[0, 0], &[0x22], [0, 0, 0, u64::MAX, 0, 0, u64::MAX, u64::MAX], SILENCE),
    ]
}

/// Once a round is counted there is none; an ended run has none, also one that counts no round.
fn no_extra_reads() -> Vec<Edge> {
    let held = [0x21, UNNAMED];
    let file = asleep(&named(&held), &[1, 1]);
    let polled = |what, rounds: u64| {
        let run = [0, 1, 0, 0, rounds, 0, 0, 0];
        let call = Call::Step { file: file.clone(), names: vec![0x22, 0x21], run, answer_length: 64 };
        // The holder of the name sleeps, so that the name is taken for free.
        let left = changed(&asleep(&file, &[0, 0]), &[(EPOCH, "02"), (PENDING, "01 21 F4 01")]);
        let expected = Outcome {
            senders: Some(0),
            file: Some(left),
            buffer: Some(answer(MSD, &[])),
            run: Some([0, 1, 1, 0, rounds + 1, 0, 0, 0]),
            ..call.before()
        };
        step_edge(what, call, expected, &held)
    };
    let ended = |what, run: RunWords| {
        let call = Call::Step { file: file.clone(), names: vec![0x22, 0x21], run, answer_length: 64 };
        let expected = call.before();
        step_edge(what, call, expected, &held)
    };
    vec![
        polled("one round counted", 1),
        polled("999,999 rounds counted", 999_999),
        ended("all named, no round counted", [1, 0, 3, 0, 0, 1, 0, 0]),
        ended("names used up, no round counted", [2, 2, 0, 0, 0, 0, 0, 0]),
    ]
}

/// Makes a call that is carried out; what it leaves.
fn made(engine: &dyn Engine, call: &Call) -> Outcome {
    let outcome = call.make(engine);
    assert_eq!(outcome.number, 0, "{call}");
    outcome
}

/// Sends frames one after the other; the file left, and the mask of each.
fn sent(engine: &dyn Engine, mut file: Vec<u8>, frames: &[Vec<u8>]) -> (Vec<u8>, Vec<u64>) {
    let mut masks = Vec::new();
    for frame in frames {
        let outcome = made(engine, &round(&file, frame.clone()));
        masks.push(outcome.mask());
        file = outcome.file.expect("a lent file");
    }
    (file, masks)
}

/// One address frame of a sleep and its data frame again and again: who slept wakes, and who was awake falls asleep.
fn same_data_frame_again(engine: &dyn Engine) {
    let file = asleep(
        &cluster(&[with_record_4(0x05), with_record_4(0x06), without_record_4(0x07), with_record_4(UNNAMED)]),
        &[0, 1, 1, 1],
    );
    let (mut file, _) = sent(engine, file, &[framed(MSA, [1, 0x00, 0x22, 4])]);
    assert_eq!(sleep_bytes_of(&file), [0, 1, 1, 1]);
    for after in [[1, 0, 0, 0], [0, 1, 0, 0], [1, 0, 0, 0], [0, 1, 0, 0]] {
        (file, _) = sent(engine, file, &[vec![MSD]]);
        assert_eq!(sleep_bytes_of(&file), after);
    }
}

/// By the letter, one execute at 0x00 leaves the unnamed awake, and a second one at 0xFF wakes the others; a cluster
/// without unnamed slaves sleeps whole, is silent once and awake again.
fn whole_cluster(engine: &dyn Engine) {
    let sleep = |name| vec![framed(MSA, [1, name, 0x22, 4]), vec![MSD]];
    let mixed = cluster(&[with_record_4(0x05), with_record_4(UNNAMED), with_record_4(0x06)]);
    let (mixed, _) = sent(engine, mixed, &sleep(0x00));
    assert_eq!(sleep_bytes_of(&mixed), [1, 0, 1]);
    let (mixed, _) = sent(engine, mixed, &sleep(UNNAMED));
    assert_eq!(sleep_bytes_of(&mixed), [0, 1, 0]);
    let (file, masks) = sent(engine, cluster(&[with_record_4(0x05), with_record_4(0x06)]), &sleep(0x00));
    assert_eq!((sleep_bytes_of(&file), masks), (vec![1, 1], vec![0, 0]));
    let read = [framed(MSA, [3, 0x05, 0xF4, 1]), vec![MSD], vec![MSD]];
    let (file, masks) = sent(engine, file, &read);
    // The same data frame again: the read is still pending, and the slave is awake.
    assert_eq!((sleep_bytes_of(&file), masks), (vec![0, 0], vec![0, 0, READ_SLOTS]));
}

/// The trace of a few frames: their count, the length of the data, offset and length of each frame, the frames.
fn trace_of(frames: &[Vec<u8>]) -> Vec<u8> {
    let data = frames.concat();
    let mut trace = vec![0, frames.len() as u8, 0, data.len() as u8];
    let mut offset = 0;
    for frame in frames {
        trace.extend([0, offset as u8, frame.len() as u8]);
        offset += frame.len();
    }
    [trace, data].concat()
}

/// What is pending is the cluster's: slaves that sleep at the MSA and are woken by a multipartner round take part in the
/// MSD. Sent singly, and as a trace.
fn woken_between_address_and_data(engine: &dyn Engine) {
    // The second holds its physical name as comparison value, and 0x21 as new name.
    let names = place(2, 1) + 12 + 4;
    let awake = cluster(&[with_record_4(0x05), with_record_4(UNNAMED)]);
    let awake = changed(&awake, &[(names, "000021FF 00000007 00000001")]);
    let data = |slave| place(2, slave) + 12 + 20 + 4;
    let written: Changes = &[(data(0), "11223344")];
    let write = framed(MSD, [0x11, 0x22, 0x33, 0x44]);
    // The operation and its data frame; who then sends in it, and the bytes that are others.
    let cases: [(&str, Vec<u8>, u64, Changes); 6] = [
        ("05 F4 01", vec![MSD], READ_SLOTS, &[]),
        ("00 41 01", write, 0, written),
        ("FF 22 02", vec![MSD], 0b10, &[]),
        ("FF 22 01", vec![MSD], 0, &[(names + 3, "21")]),
        ("05 22 04", vec![MSD], 0, &[(sleep_byte(0), "01")]),
        ("FF 22 04", vec![MSD], 0, &[(sleep_byte(1), "01")]),
    ];
    for (operation, data_frame, senders, changes) in cases {
        let address = [vec![1], hex(operation)].concat();
        let address = framed(MSA, address.try_into().expect("four bytes"));
        let file = asleep(&awake, &[1, 1]);
        let pending = changed(&awake, &[(EPOCH, "03"), (PENDING, "01"), (PENDING + 1, operation)]);
        let left = changed(&pending, changes);
        for firework in MULTIPARTNER {
            let frames = [address.clone(), vec![firework], data_frame.clone()];
            let singly = sent(engine, file.clone(), &frames);
            assert_eq!(singly, (left.clone(), vec![0, 0, senders]), "{operation}");
            let as_trace = made(engine, &Call::Trace { file: file.clone(), trace: trace_of(&frames) });
            assert_eq!(as_trace.file, Some(left.clone()), "{operation}");
        }
        // Without that round they are asleep in the MSD, and awake after it.
        let asleep_in_it = changed(&pending, &[(EPOCH, "02")]);
        assert_eq!(sent(engine, file, &[address, data_frame]), (asleep_in_it, vec![0, 0]), "{operation}");
    }
}

/// The run over the names to its end, from a position; what it leaves, and the position.
fn run_on(engine: &dyn Engine, mut file: Vec<u8>, names: &[u8], mut run: RunWords) -> (Vec<u8>, RunWords) {
    while run[0] == 0 {
        let step = made(engine, &Call::Step { file, names: names.to_vec(), run, answer_length: 64 });
        (file, run) = (step.file.expect("a lent file"), step.run.expect("a lent run"));
        let all_awake = sleep_bytes_of(&file).iter().all(|&byte| byte == 0);
        assert!(all_awake, "a slave sleeps after a step");
    }
    (file, run)
}

/// A run over sleepers, whoever sleeps, is that over the same slaves awake: after its first round all are awake. The
/// holder of a listed name is asked once it is awake, and the name is taken. A stored position that counts a round already
/// finds the holder asleep, and gives the name a second time.
fn run_over_sleepers(engine: &dyn Engine) {
    // The first is named 0x21; the second and the third are unnamed: 0x0000000700000001 and 0x0000000700000002.
    let file = named(&[0x21, UNNAMED, UNNAMED]);
    let names = [0x21, 0x22, 0x23, 0x24];
    let (awake, run) = run_on(engine, file.clone(), &names, [0; 8]);
    // The extra read, 1 for the taken name, 135 for 2, whose bit 0 is 0, 134 for 1, and 4 to find nobody.
    assert_eq!(run, [1, 3, 3, 0x7_0000_0001, 1 + 1 + 135 + 134 + 4, 131, 0, 0]);
    for before in [[1, 0, 0], [0, 1, 0], [0, 0, 1], [1, 1, 0], [1, 1, 1]] {
        assert_eq!(run_on(engine, asleep(&file, &before), &names, [0; 8]), (awake.clone(), run));
    }
    let counted = [0, 0, 0, 0, 1, 0, 0, 0];
    let (file, run) = run_on(engine, asleep(&file, &[1, 0, 0]), &names[..1], counted);
    assert_eq!(run, [2, 1, 0, 0x7_0000_0002, 1 + 135, 65, 7, 2]);
    let name_of = |slave| file[slave_place(3, slave) + 12 + 7];
    assert_eq!([0, 1, 2].map(name_of), [0x21, UNNAMED, 0x21]);
}

/// A multipartner round, or a read that nobody answers, before the first step: the sleepers are awake for the extra read,
/// and the run is the same.
fn woken_before_the_first_step(engine: &dyn Engine) {
    let file = asleep(&named(&[0x21, UNNAMED]), &[1, 1]);
    let names = [0x21, 0x22];
    let step = |file| Call::Step { file, names: names.to_vec(), run: [0; 8], answer_length: 64 };
    assert_eq!(made(engine, &step(file.clone())).mask(), 0);
    let rounds = [vec![vec![ROUND_2]], vec![framed(MSA, [5, 0x21, 0xF4, 1]), vec![MSD]]];
    for frames in rounds {
        let (woken, masks) = sent(engine, file.clone(), &frames);
        assert!(masks.iter().all(|&mask| mask == 0));
        let first = made(engine, &step(woken));
        assert_eq!((first.mask(), first.run), (READ_SLOTS, Some([0, 0, 0, 0, 1, 0, 0, 0])));
        let (_, run) = run_on(engine, first.file.expect("a lent file"), &names, [0, 0, 0, 0, 1, 0, 0, 0]);
        assert_eq!(run, [2, 2, 0, 0x7_0000_0001, 1 + 1 + 134, 65, 7, 1]);
    }
}

/// The frames of a trace wake and put to sleep as they do singly.
fn woken_by_traces(engine: &dyn Engine) {
    let file = asleep(&cluster(&[with_record_4(0x05), with_record_4(0x06)]), &[1, 1]);
    // Each trace is written out: count, length of the data, offset and length of each frame, the frames.
    let traces = [
        ("no frame", "0000 0000", [1, 1]),
        ("an MSA", "0001 0006  0000 06  55 01 05 22 04 77", [1, 1]),
        ("a refused frame", "0001 0002  0000 02  49 00", [1, 1]),
        ("an MSD", "0001 0001  0000 01  49", [0, 0]),
        ("a multipartner frame", "0001 0001  0000 01  BA", [0, 0]),
        ("a multipartner frame, a sleep pending", "0002 0007  0000 06 0006 01  55 01 05 22 04 77 BA", [0, 0]),
        ("awake, then one sleeps", "0003 0008  0000 01 0001 06 0007 01  BA 55 01 05 22 04 77 49", [1, 0]),
        (
            "and wakes by the same data frame",
            "0004 0009  0000 01 0001 06 0007 01 0008 01  BA 55 01 05 22 04 77 49 49",
            [0, 0],
        ),
    ];
    for (what, trace, after) in traces {
        let call = Call::Trace { file: file.clone(), trace: hex(trace) };
        let left = made(engine, &call).file.expect("a lent file");
        assert_eq!(sleep_bytes_of(&left), after, "{what}");
    }
    // All awake before it: both fall asleep, wake by the next data frame, and one falls asleep for a write that it misses.
    let awake = asleep(&file, &[0, 0]);
    let sleep = "0002 0007  0000 06 0006 01  55 01 00 22 04 72 49";
    assert_eq!(sleep_bytes_of(&traced(engine, awake.clone(), sleep)), [1, 1]);
    let twice = "0003 0008  0000 06 0006 01 0007 01  55 01 00 22 04 72 49 49";
    assert_eq!(sleep_bytes_of(&traced(engine, awake.clone(), twice)), [0, 0]);
    let missed =
        "0004 0013  0000 06 0006 01 0007 06 000D 06  55 01 05 22 04 77 49 55 03 00 41 01 16 49 11 22 33 44 0D";
    let data = |slave| place(2, slave) + 12 + 20 + 4;
    let left = changed(&awake, &[(EPOCH, "04"), (PENDING, "01 00 41 01"), (data(1), "11223344")]);
    assert_eq!(traced(engine, awake, missed), left);
}

/// A step of a run over the names; the file that it leaves, its mask and the position.
fn stepped(engine: &dyn Engine, file: Vec<u8>, names: &[u8], run: RunWords) -> (Vec<u8>, u64, RunWords) {
    let step = made(engine, &Call::Step { file, names: names.to_vec(), run, answer_length: 64 });
    (step.file.clone().expect("a lent file"), step.mask(), step.run.expect("a lent run"))
}

/// The file that a trace leaves.
fn traced(engine: &dyn Engine, file: Vec<u8>, trace: &str) -> Vec<u8> {
    made(engine, &Call::Trace { file, trace: hex(trace) }).file.expect("a lent file")
}

/// A trace before the first step of a run, and one between its first steps, that put nobody to sleep: the run goes on as
/// alone, and after the first trace the holder of the first name answers the extra read.
fn traces_between_steps(engine: &dyn Engine) {
    let file = asleep(&named(&[0x21, UNNAMED]), &[1, 1]);
    let names = [0x21, 0x22];
    let alone = run_on(engine, file.clone(), &names, [0; 8]).1;
    let trace = "0002 0002  0000 01 0001 01  BA 49";
    for (first_trace, answered) in [("0000 0000", 0), (trace, READ_SLOTS)] {
        let woken = traced(engine, file.clone(), first_trace);
        let (woken, mask, run) = stepped(engine, woken, &names, [0; 8]);
        assert_eq!((mask, run), (answered, [0, 0, 0, 0, 1, 0, 0, 0]));
        assert_eq!(run_on(engine, traced(engine, woken, trace), &names, run).1, alone);
    }
}

/// A sleep between the extra read and the next step is no permitted round: the holder of the name does not answer, and the
/// other gets its name too. Sent singly, and as a trace.
fn asleep_between_steps(engine: &dyn Engine) {
    let file = cluster(&[with_record_4(0x21), with_record_4(UNNAMED)]);
    let names = [0x21];
    let (first, mask, run) = stepped(engine, file, &names, [0; 8]);
    assert_eq!((mask, run), (READ_SLOTS, [0, 0, 0, 0, 1, 0, 0, 0]));
    assert_eq!(
        stepped(engine, first.clone(), &names, run).2,
        [2, 1, 0, 0, 2, 0, 0, 0],
        "taken while it is awake"
    );
    let (singly, _) = sent(engine, first.clone(), &[framed(MSA, [1, 0x21, 0x22, 4]), vec![MSD]]);
    let as_trace = traced(engine, first, "0002 0007  0000 06 0006 01  55 01 21 22 04 53 49");
    assert_eq!(singly, as_trace);
    assert_eq!(sleep_bytes_of(&singly), [1, 0]);
    let (left, run) = run_on(engine, singly, &names, run);
    assert_eq!(run, [2, 1, 0, 0x7_0000_0001, 1 + 134, 65, 7, 1]);
    let name_of = |slave| left[place(2, slave) + 12 + 7];
    assert_eq!([0, 1].map(name_of), [0x21, 0x21]);
}
