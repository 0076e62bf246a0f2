//! The edges of multiplexed entries (document 02, request 7): which of them act in which epoch, what is tried after one
//! out of turn, and what one in turn covers. Those of the owner writer are in `owners`.

use super::files::{answer, changed, cluster, hex, slave, Slave, UNNAMED};
use super::Edge;
use crate::case::{Call, Outcome};
use crate::engine::{Engine, RunWords};
use crate::layout::EPOCH;

/// Round 2 of these slaves, from an epoch on.
struct Round {
    what: &'static str,
    slaves: Vec<Slave>,
    epoch: u8,
    /// Slot and byte.
    sent: Vec<(usize, u8)>,
    /// What stands in the slaves' data files afterwards, where it is another byte: slave, place, byte.
    stored: Vec<(usize, usize, u8)>,
}

/// So many edges there are; each turn of each operation, and naming runs, aside.
const EDGES: usize = 148;

pub fn hold(engine: &dyn Engine) {
    let groups = [
        four_on_a_slot(),
        eight_on_a_slot(),
        passed_over(),
        covering(),
        receiving(),
        stored_by_many(),
        modulo_4_and_8(),
        others(),
    ];
    super::hold_all(engine, groups, EDGES);
    every_turn(engine);
    rounds_between_steps(engine);
}

/// The name of a slave where any would do.
const ANY: u8 = 0x05;
const ROUND_2: u8 = 0xBA;
const DATA_FILE: u8 = 0x10;

impl From<Round> for Edge {
    fn from(round: Round) -> Edge {
        let file = changed(&cluster(&round.slaves), &[(EPOCH, &format!("{:02X}", round.epoch))]);
        let mut after = file.clone();
        // "the epoch already raised for this round", 255 going to 0
        after[EPOCH] = if round.epoch == 255 { 0 } else { round.epoch + 1 };
        for &(slave, place, byte) in &round.stored {
            after[data_file(&file, slave) + place] = byte;
        }
        let mut bytes = answer(ROUND_2, &[]);
        let mut mask = 0;
        for &(slot, byte) in &round.sent {
            bytes[slot] = byte;
            mask |= 1 << slot;
        }
        let call = Call::Round { file, frame: vec![ROUND_2], answer_length: 64 };
        let expected = Outcome { senders: Some(mask), file: Some(after), buffer: Some(bytes), ..call.before() };
        Edge::new(round.what, call, expected)
    }
}

/// Where a slave's file 0x10 begins, by the directory.
fn data_file(file: &[u8], slave: usize) -> usize {
    let two_bytes = |place: usize| 256 * usize::from(file[place]) + usize::from(file[place + 1]);
    let directory = two_bytes(16 + 4 * slave);
    let entry = (0..).map(|entry| directory + 4 * entry).find(|&entry| file[entry] == DATA_FILE);
    two_bytes(entry.expect("a slave with a data file") + 2)
}

/// An entry of one slot for a byte of file 0x10, by its place.
fn entry(operation: u8, multiplex: u8, slot: u8, place: u8) -> String {
    let (record, align) = (place / 4, place % 4);
    format!("{:02X}{record:02X}{operation:X}0{:02X}", DATA_FILE << 2 | align, multiplex << 6 | slot)
}

fn round(what: &'static str, slaves: &[Slave], epoch: u8, sent: &[(usize, u8)]) -> Round {
    Round { what, slaves: slaves.to_vec(), epoch, sent: sent.to_vec(), stored: Vec::new() }
}

/// A round of one slave with this list, in which it sends in slot 1 or nothing.
fn one(what: &'static str, list: &str, epoch: u8, sent: Option<u8>) -> Round {
    let sent: Vec<(usize, u8)> = sent.into_iter().map(|byte| (1, byte)).collect();
    round(what, &[slave(ANY, 2, list)], epoch, &sent)
}

/// Four entries on slot 1, one for each field, that send D4 to D7: from epoch e the field is e + 1 modulo 4.
fn four_on_a_slot() -> Vec<Round> {
    let sends = |operation: u8| (0..4).map(|field| entry(operation, field, 1, 4 + field)).collect::<String>();
    let falling = (0..4).rev().map(|field| entry(9, field, 1, 4 + field)).collect::<String>();
    let turns = [(1, 0xD6), (2, 0xD7), (3, 0xD4), (4, 0xD5), (5, 0xD6), (6, 0xD7), (254, 0xD7), (255, 0xD4)];
    let of = |what, list: &str| turns.map(|(epoch, byte)| one(what, list, epoch, Some(byte)));
    let lists =
        [("four of operation 9", sends(9)), ("four of operation 13", sends(13)), ("in falling order", falling)];
    lists.into_iter().flat_map(|(what, list)| of(what, &list)).collect()
}

/// Eight entries on slot 1: operation 11 sends D0 to D3, operation 15 D4 to D7; from epoch e it is e + 1 modulo 8.
fn eight_on_a_slot() -> Vec<Round> {
    let sends = |operation: u8, first: u8| {
        (0..4).map(|field| entry(operation, field, 1, first + field)).collect::<String>()
    };
    let list = sends(11, 0) + &sends(15, 4);
    let turns =
        [(1, 0xD2), (2, 0xD3), (3, 0xD4), (4, 0xD5), (5, 0xD6), (6, 0xD7), (7, 0xD0), (254, 0xD7), (255, 0xD0)];
    turns.map(|(epoch, byte)| one("eight of operations 11 and 15", &list, epoch, Some(byte))).into()
}

/// "A multiplexed entry out of turn is passed over, and the next one covering the slot is tried": field 0 of
/// operation 9, in turn from epoch 3, out of turn from epoch 4.
fn passed_over() -> Vec<Round> {
    let first = entry(9, 0, 1, 4);
    let then = |more: &str| format!("{first} {more}");
    let (plain, idle, end) = (entry(1, 0, 1, 5), entry(3, 0, 1, 5), entry(6, 0, 0, 0));
    let (second, outside) = (entry(13, 1, 1, 6), "40FF1001".to_string());
    let in_turn = |what, more: &str| one(what, &then(more), 3, Some(0xD4));
    let out_of_turn = |what, more: &str, sent| one(what, &then(more), 4, sent);
    vec![
        in_turn("in turn, then nothing", ""),
        in_turn("in turn, then a plain send", &plain),
        in_turn("in turn, then an end", &format!("{end} {plain}")),
        in_turn("in turn, then another out of turn", &second),
        out_of_turn("out of turn, then nothing", "", None),
        out_of_turn("out of turn, then a plain send", &plain, Some(0xD5)),
        out_of_turn("out of turn, then an end", &end, None),
        out_of_turn("out of turn, then an end and a plain send", &format!("{end} {plain}"), None),
        out_of_turn("out of turn, then one that does nothing", &format!("{idle} {plain}"), None),
        out_of_turn("out of turn, then a place outside", &format!("{outside} {plain}"), None),
        out_of_turn("out of turn, then another in turn", &second, Some(0xD6)),
        out_of_turn(
            "out of turn, then another in turn and a plain send",
            &format!("{second} {plain}"),
            Some(0xD6),
        ),
        one("two out of turn, then a plain send", &then(&format!("{second} {plain}")), 5, Some(0xD5)),
        one("two out of turn, then nothing", &then(&second), 5, None),
        one("a plain send, then one in turn", &format!("{plain} {first}"), 3, Some(0xD5)),
    ]
}

/// An entry in turn covers its slots even where it can do nothing; one out of turn covers none.
fn covering() -> Vec<Round> {
    let plain = entry(1, 0, 1, 5);
    // Operation 9, field 0: place 1020, which is outside; a file that is not there; slots 1 to 3 from place 6 on.
    let (outside, missing, three) = ("40FF9001", "44009001", "42019201");
    let with = |first: &str| format!("{first} {plain}");
    let slots = |what, epoch, sent: &[(usize, u8)]| {
        round(what, &[slave(ANY, 2, &(three.to_string() + "40001F01"))], epoch, sent)
    };
    vec![
        one("in turn, its place outside", &with(outside), 3, None),
        one("out of turn, its place outside", &with(outside), 4, Some(0xD5)),
        one("in turn, its file not there", &with(missing), 3, None),
        one("out of turn, its file not there", &with(missing), 4, Some(0xD5)),
        // Slots 1 and 2 are places 6 and 7, slot 3 is outside; the plain entry has slots 1 to 16 from place 0 on.
        slots(
            "in turn on three slots",
            3,
            &[(1, 0xD6), (2, 0xD7), (4, 0xD3), (5, 0xD4), (6, 0xD5), (7, 0xD6), (8, 0xD7)],
        ),
        slots(
            "out of turn on three slots",
            4,
            &[(1, 0xD0), (2, 0xD1), (3, 0xD2), (4, 0xD3), (5, 0xD4), (6, 0xD5), (7, 0xD6), (8, 0xD7)],
        ),
        one("in turn on slot 0", &with("40009000"), 3, Some(0xD5)),
    ]
}

/// The first slave sends D4 in slot 1; the second receives there.
fn receiving() -> Vec<Round> {
    let sender = slave(0x01, 2, "40011001");
    let with = |what, list: String, epoch, stored: Vec<(usize, usize, u8)>| {
        let slaves = [sender.clone(), slave(0x02, 2, &list)];
        Round { stored, ..round(what, &slaves, epoch, &[(1, 0xD4)]) }
    };
    // Into place 5 of file 0x10, which holds D5.
    let into = |operation, field| entry(operation, field, 1, 5);
    let kept = Vec::new;
    vec![
        with("operation 8 in turn", into(8, 0), 3, vec![(1, 5, 0xD4)]),
        with("operation 8 out of turn", into(8, 1), 3, kept()),
        with("operation 12 in turn", into(12, 3), 6, vec![(1, 5, 0xD4)]),
        with("operation 10 in turn", into(10, 2), 1, vec![(1, 5, 0xD4)]),
        with("operation 10 four epochs later", into(10, 2), 5, kept()),
        with("operation 14 in turn", into(14, 2), 5, vec![(1, 5, 0xD4)]),
        with("operation 14 four epochs before", into(14, 2), 1, kept()),
        with("in turn, in record 0x00", entry(8, 0, 1, 3), 3, kept()),
        with(
            "four receives, each its place",
            (0..4).map(|field| entry(8, field, 1, 4 + field)).collect(),
            6,
            vec![(1, 7, 0xD4)],
        ),
        with("out of turn, then a plain receive", into(8, 1) + &entry(0, 0, 1, 6), 3, vec![(1, 6, 0xD4)]),
    ]
}

/// One slave's byte of slot 1 stored by so many others, each in a place of its own that is 5, 6 or 7; they stand before the
/// sender and behind it. Every fourth that receives is out of turn and stores nothing.
fn stored_by_many() -> Vec<Round> {
    let of = |receivers: usize| {
        let sender = receivers / 2;
        let place = |receiver: usize| 5 + receiver % 3;
        let operation = |receiver: usize| if receiver % 4 == 3 { 8 } else { 0 };
        // Field 1 is out of turn in the epoch raised to 4.
        let receives = |receiver: usize| entry(operation(receiver), 1, 1, place(receiver) as u8);
        let row = |receiver: usize| receiver + usize::from(receiver >= sender);
        let mut slaves: Vec<Slave> =
            (0..receivers).map(|receiver| slave(1 + receiver as u8, 2, &receives(receiver))).collect();
        slaves.insert(sender, slave(0x70, 2, &entry(1, 0, 1, 4)));
        let stores = (0..receivers).filter(|&receiver| operation(receiver) == 0);
        let stored = stores.map(|receiver| (row(receiver), place(receiver), 0xD4)).collect();
        Round { stored, ..round("stored by many", &slaves, 3, &[(1, 0xD4)]) }
    };
    [3, 4, 5, 8, 16, 31].map(of).into()
}

/// Epochs that, already raised, differ modulo 8 and not modulo 4, and 255 going to 0: operations 8, 9, 12 and 13 act in
/// both of two such epochs, 10 and 11 in the first alone, 14 and 15 in the second alone.
fn modulo_4_and_8() -> Vec<Round> {
    // The field, the epoch before the round, and whether 8, 9, 12 and 13, whether 10 and 11, whether 14 and 15 act.
    let turns = [
        // raised to 2, 6, 3 and 7
        (2, 1, [true, true, false]),
        (2, 5, [true, false, true]),
        (2, 2, [false, false, false]),
        (2, 6, [false, false, false]),
        // raised to 0 and to 4, which is 0 modulo 4
        (0, 255, [true, true, false]),
        (0, 3, [true, false, true]),
        (0, 7, [true, true, false]),
        // 255 is 3 modulo 4 and 7 modulo 8; of 256 nothing is left
        (3, 254, [true, false, true]),
        (3, 255, [false, false, false]),
    ];
    let of_turn = |(field, epoch, [of_four, first, second]): (u8, u8, [bool; 3])| {
        let operations = [(8, of_four), (9, of_four), (10, first), (11, first)].into_iter();
        let operations = operations.chain([(12, of_four), (13, of_four), (14, second), (15, second)]);
        operations.map(move |(operation, acts)| in_slot_1(operation, field, epoch, acts))
    };
    turns.into_iter().flat_map(of_turn).collect()
}

/// An entry for slot 1 that comes first in its list, and after it one for the same slot that is not multiplexed: of the
/// two the first acts or, passed over, the second.
fn in_slot_1(operation: u8, field: u8, epoch: u8, acts: bool) -> Round {
    if operation % 2 == 1 {
        let list = entry(operation, field, 1, 4) + &entry(1, 0, 1, 5);
        return one("a send, and a plain one after it", &list, epoch, Some(if acts { 0xD4 } else { 0xD5 }));
    }
    // The second slave sends D2, the first stores it at place 6 or, passed over, at place 7.
    let list = entry(operation, field, 1, 6) + &entry(0, 0, 1, 7);
    let slaves = [slave(0x01, 2, &list), slave(0x02, 2, &entry(1, 0, 1, 2))];
    let stored = vec![(0, if acts { 6 } else { 7 }, 0xD2)];
    Round { stored, ..round("a receive, and a plain one after it", &slaves, epoch, &[(1, 0xD2)]) }
}

/// Several senders, an unnamed slave, another round's list, a later slot.
fn others() -> Vec<Round> {
    let sends = entry(9, 0, 1, 4);
    vec![
        // D4 and the second slave's D3 in one slot: D4 & D3 is D0.
        round("two in turn", &[slave(1, 2, &sends), slave(2, 2, &entry(9, 0, 1, 3))], 3, &[(1, 0xD0)]),
        round("one of two in turn", &[slave(1, 2, &sends), slave(2, 2, &entry(9, 1, 1, 3))], 3, &[(1, 0xD4)]),
        round("an unnamed slave in turn", &[slave(UNNAMED, 2, &sends)], 3, &[]),
        round("in a list of round 3", &[slave(ANY, 3, &sends)], 3, &[]),
        // The second slave stores slot 1, D4, at place 5 and sends place 5 in slot 2, both in turn.
        Round {
            stored: vec![(1, 5, 0xD4)],
            ..round(
                "a later slot sees what was stored",
                &[slave(1, 2, &sends), slave(2, 2, &(entry(8, 0, 1, 5) + &entry(9, 0, 2, 5)))],
                3,
                &[(1, 0xD4), (2, 0xD4)],
            )
        },
    ]
}

/// The raised epochs, modulo 8, in which each field acts: of operations 8, 9, 12 and 13; of 10 and 11; of 14 and 15.
const OF_FOUR: [&[u8]; 4] = [&[0, 4], &[1, 5], &[2, 6], &[3, 7]];
const FIRST_OF_EIGHT: [&[u8]; 4] = [&[0], &[1], &[2], &[3]];
const SECOND_OF_EIGHT: [&[u8]; 4] = [&[4], &[5], &[6], &[7]];

/// Each operation with each field in each of 17 epochs, the last of them 255: the first slave sends or, where a receive
/// is tried, stores what the second sends. Files 0x0F, 0x10 and 0x3C.
fn every_turn(engine: &dyn Engine) {
    let turns =
        [OF_FOUR, OF_FOUR, FIRST_OF_EIGHT, FIRST_OF_EIGHT, OF_FOUR, OF_FOUR, SECOND_OF_EIGHT, SECOND_OF_EIGHT];
    for (operation, fields) in (8..).zip(turns) {
        for (field, epochs) in (0..).zip(fields) {
            for epoch in (0..16).chain([255]) {
                let acts = epochs.contains(&((u16::from(epoch) + 1) as u8 % 8));
                if operation % 2 == 1 {
                    let sent = acts.then_some(0xD4);
                    Edge::from(one("each turn", &entry(operation, field, 1, 4), epoch, sent)).hold(engine);
                } else {
                    receives_into_each_file(engine, operation, field, epoch, acts);
                }
            }
        }
    }
}

/// "a receive stores only in files 0x10 to 0x3C": place 4 of 0x0F, 0x10 and 0x3C in slots 1, 2 and 3.
fn receives_into_each_file(engine: &dyn Engine, operation: u8, field: u8, epoch: u8, acts: bool) {
    let into =
        |(slot, number): (u8, u8)| format!("{:02X}01{operation:X}0{:02X}", number << 2, field << 6 | slot);
    let list: String = [(1, 0x0F), (2, 0x10), (3, 0x3C)].map(into).concat();
    let files = vec![(2, list), (0x0F, "AAAAAAAA".to_string()), (0x3C, "CCCCCCCC".to_string())];
    let slaves = [Slave { name: 0x01, lists: files }, slave(0x02, 2, "40001201")];
    let file = changed(&cluster(&slaves), &[(EPOCH, &format!("{epoch:02X}"))]);
    let outcome = Call::Round { file: file.clone(), frame: vec![ROUND_2], answer_length: 64 }.make(engine);
    // The second slave sends D0 to D2.
    assert_eq!((outcome.number, outcome.mask()), (0, 0b1110));
    let mut after = file.clone();
    after[EPOCH] = epoch.wrapping_add(1);
    if acts {
        after[data_file(&file, 0) + 4] = 0xD1;
        let place =
            file.windows(4).position(|bytes| bytes == hex("CCCCCCCC")).expect("the first byte of record 1");
        after[place] = 0xD2;
    }
    assert_eq!(outcome.file, Some(after), "operation {operation}, field {field}, epoch {epoch}");
}

/// A naming run with round 2 before each step, in which multiplexed entries act in some epochs and not in others: names,
/// end and counts are those of the run alone.
fn rounds_between_steps(engine: &dyn Engine) {
    let list: String =
        (0..4).map(|field| entry(9, field, 1, 4 + field) + &entry(8, field, 2, 4 + field)).collect();
    let sends = slave(0x09, 2, &(entry(11, 3, 2, 1) + &entry(15, 1, 2, 2)));
    let file = cluster(&[slave(0x08, 2, &list), sends, slave(UNNAMED, 2, &list), slave(UNNAMED, 2, &list)]);
    let names = vec![0x08, 0x21, 0x22, 0x23];
    let (alone, _) = run_over(engine, file.clone(), &names, 0);
    for rounds in 1..=3 {
        let (run, masks) = run_over(engine, file.clone(), &names, rounds);
        assert_eq!(run, alone);
        // Slot 1 has a sender in every round, slot 2 in some and not in others.
        let in_slot_2 = masks.iter().filter(|&mask| mask & 0b100 != 0).count();
        assert!(masks.iter().all(|mask| mask & 0b10 != 0) && in_slot_2 > 0 && in_slot_2 < masks.len());
    }
    // The extra read, 1 for the taken name, 134 for the fourth slave, 7_00000003, 135 for the third, 7_00000002, and 4 to
    // find nobody.
    assert_eq!(alone, [1, 3, 3, 0x7_0000_0002, 1 + 1 + 134 + 135 + 4, 131, 0, 0]);
}

/// The run's end, and the masks of the rounds made before its steps.
fn run_over(engine: &dyn Engine, mut file: Vec<u8>, names: &[u8], rounds: usize) -> (RunWords, Vec<u64>) {
    let mut run: RunWords = [0; 8];
    let mut masks = Vec::new();
    while run[0] == 0 {
        for _ in 0..rounds {
            let round = Call::Round { file, frame: vec![ROUND_2], answer_length: 64 }.make(engine);
            masks.push(round.mask());
            file = round.file.expect("a lent file");
        }
        let step = Call::Step { file, names: names.to_vec(), run, answer_length: 64 }.make(engine);
        assert_eq!(step.number, 0);
        (file, run) = (step.file.expect("a lent file"), step.run.expect("a lent run"));
    }
    (run, masks)
}
