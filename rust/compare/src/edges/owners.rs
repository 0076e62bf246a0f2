//! The edges of an owner file (document 02, request 4), and of its multiplexed entries (request 7): each for a buffer that
//! is just long enough, longer by 1 and by 9 bytes, shorter by 1, and empty; one that is refused for five others.

use super::files::{answer, changed, cluster, hex, slave, Slave, UNNAMED};
use super::Edge;
use crate::case::{Call, Outcome, FILL};
use crate::engine::Engine;
use crate::frames::MULTIPARTNER;
use crate::layout::{EPOCH, MOST_OWNER_BYTES, ROUNDS};

/// The master's name in every edge but those about it.
const MASTER: u8 = 0x63;
/// The name of a slave where any would do.
const ANY: u8 = 0x05;

/// "20, two slaves send in one slot of a round; 21, the buffer is too short"; "23, a multiplexed send before the
/// end", which comes before these
const CLASH: u8 = 20;
const SHORT: u8 = 21;
const MULTIPLEXED: u8 = 23;

/// The index where each row is one record, and the row of a round in which nobody sends.
const SHORTEST: &str = "03000405 06000708";
const NOBODY: &str = "63000000";

/// So many edges there are.
const EDGES: usize = 209;

pub fn hold(engine: &dyn Engine) {
    let groups = [
        row_lengths(),
        row_places(),
        slots(),
        places(),
        from_its_own_list(),
        hiding(),
        passed_over(),
        multiplexed_sends(),
        multiplexed_elsewhere(),
        multiplexed_before_clash(),
        ends(),
        first_and_last_records(),
        names(),
        masters(),
        apart(),
        clashes(),
        clashes_in_one_round(),
        refused_files(),
    ];
    super::hold_all(engine, groups, EDGES);
}

/// By this number, whatever the buffer.
fn refused(what: &'static str, file: Vec<u8>, number: u8) -> Edge {
    let lengths = [0, 35, 36, MOST_OWNER_BYTES, MOST_OWNER_BYTES + 1];
    Edge { what, calls: lengths.map(|length| refusing(&file, MASTER, length, number)).to_vec() }
}

fn refusing(file: &[u8], master: u8, buffer_length: usize, number: u8) -> (Call, Outcome) {
    let call = Call::Owner { file: file.to_vec(), master, buffer_length };
    let expected = Outcome { number, ..call.before() };
    (call, expected)
}

/// The whole file 0x0B, where the buffer is long enough.
fn of_content(what: &'static str, file: Vec<u8>, master: u8, content: &[u8]) -> Edge {
    let writing = [0, 1, 9].map(|more| writing(&file, master, content, more));
    let short = [0, content.len() - 1].map(|length| refusing(&file, master, length, SHORT));
    Edge { what, calls: writing.into_iter().chain(short).collect() }
}

/// "Past the bytes a call writes, a buffer keeps its content."
fn writing(file: &[u8], master: u8, content: &[u8], more: usize) -> (Call, Outcome) {
    let call = Call::Owner { file: file.to_vec(), master, buffer_length: content.len() + more };
    let buffer = [content, &vec![FILL; more]].concat();
    let expected = Outcome { buffer: Some(buffer), length: Some(content.len() as u64), ..call.before() };
    (call, expected)
}

/// Slaves whose owner file has these index bytes and rows, each row with its padding.
fn written(what: &'static str, slaves: &[Slave], index: &str, rows: [&str; 6]) -> Edge {
    of_content(what, cluster(slaves), MASTER, &content_of(index, rows))
}

fn content_of(index: &str, rows: [&str; 6]) -> Vec<u8> {
    hex(&format!("00000000 {index} {}", rows.concat()))
}

/// The same where round 2 alone has senders, in at most slots 1 to 3.
fn one_record(what: &'static str, slaves: &[Slave], row: &str) -> Edge {
    written(what, slaves, SHORTEST, [NOBODY, row, NOBODY, NOBODY, NOBODY, NOBODY])
}

/// The same where nobody sends.
fn nobody(what: &'static str, slaves: &[Slave]) -> Edge {
    one_record(what, slaves, NOBODY)
}

/// The same where round 2 alone has senders, the last in slot 63.
fn sixteen_records(what: &'static str, slaves: &[Slave], row: &str) -> Edge {
    // 4 + 16 records is 0x14.
    written(what, slaves, "03000414 15001617", [NOBODY, row, NOBODY, NOBODY, NOBODY, NOBODY])
}

fn clash(what: &'static str, slaves: &[Slave]) -> Edge {
    refused(what, cluster(slaves), CLASH)
}

/// One slave with a list for round 2, whose record 0x00 is given: it lies after header, table entry and four
/// directory entries.
fn with_record_0(record: &str, mut edge: Edge) -> Edge {
    let place = 16 + 4 + 4 * 4;
    for (call, _) in &mut edge.calls {
        if let Call::Owner { file, .. } = call {
            file.splice(place..place + 4, hex(record));
        }
    }
    edge
}

/// "From record 1, each record is an entry": record 0x00 is none, record 255 is one.
fn first_and_last_records() -> Vec<Edge> {
    let sender = [slave(ANY, 2, &sends_in(1))];
    let last_sends = format!("{}{}", "40010002".repeat(254), sends_in(1));
    vec![
        with_record_0("40011001", nobody("a send in record 0x00", &[slave(ANY, 2, "40010002")])),
        with_record_0("00006000", one_record("an end in record 0x00", &sender, "63050000")),
        one_record("a send in record 255", &[slave(ANY, 2, &last_sends)], "63050000"),
    ]
}

fn multiplexed(what: &'static str, slaves: &[Slave]) -> Edge {
    refused(what, cluster(slaves), MULTIPLEXED)
}

/// One entry for one slot, the byte at place 4 of file 0x10.
fn sends_in(slot: usize) -> String {
    format!("400110{slot:02X}")
}

/// "slot 0 up to the last slot one sends in": rows of 1 to 64 slots.
fn row_lengths() -> Vec<Edge> {
    let sender = |slot| [slave(ANY, 2, &sends_in(slot))];
    let two_records = |what, slot, row| {
        written(what, &sender(slot), "03000406 07000809", [NOBODY, row, NOBODY, NOBODY, NOBODY, NOBODY])
    };
    let last_alone = format!("63{}05", "00".repeat(62));
    vec![
        nobody("no slave", &[]),
        nobody("a slave without a round file", &[Slave { name: ANY, lists: vec![] }]),
        one_record("a row of 2 slots", &sender(1), "63050000"),
        one_record("a row of 3 slots", &sender(2), "63000500"),
        one_record("a row of 4 slots", &sender(3), "63000005"),
        two_records("a row of 5 slots", 4, "63000000 05000000"),
        two_records("a row of 8 slots", 7, "63000000 00000005"),
        written(
            "a row of 9 slots",
            &sender(8),
            "03000407 0800090A",
            [NOBODY, "63000000 00000000 05000000", NOBODY, NOBODY, NOBODY, NOBODY],
        ),
        sixteen_records("a row of 64 slots", &sender(63), &last_alone),
    ]
}

/// "Each round begins at byte 0 of a record, in round order from record 3": long rows in one round and in all.
fn row_places() -> Vec<Edge> {
    let long = "63000000 05000000";
    let five = |round| [slave(ANY, round, &sends_in(4))];
    let of_rounds = |slots: [usize; 6]| {
        let lists = ROUNDS.into_iter().zip(slots).filter(|&(_, slot)| slot != 0);
        [Slave { name: ANY, lists: lists.map(|(round, slot)| (round, sends_in(slot))).collect() }]
    };
    let most = format!("63{}05", "00".repeat(62));
    let all = "63".to_string() + &"05".repeat(63);
    // Slots 1 to 63 by entries of 8 slots, whose places are 0 to 7.
    let all_slots: String = (0..8).map(|part| format!("400017{:02X}", 1 + 8 * part)).collect();
    let every_round = ROUNDS.map(|round| (round, all_slots.clone())).to_vec();
    vec![
        written("round 0", &five(0), "03000506 07000809", [long, NOBODY, NOBODY, NOBODY, NOBODY, NOBODY]),
        written("round 2", &five(2), "03000406 07000809", [NOBODY, long, NOBODY, NOBODY, NOBODY, NOBODY]),
        written("round 3", &five(3), "03000405 07000809", [NOBODY, NOBODY, long, NOBODY, NOBODY, NOBODY]),
        written("round 4", &five(4), "03000405 06000809", [NOBODY, NOBODY, NOBODY, long, NOBODY, NOBODY]),
        written("round 6", &five(6), "03000405 06000709", [NOBODY, NOBODY, NOBODY, NOBODY, long, NOBODY]),
        written("round 7", &five(7), SHORTEST, [NOBODY, NOBODY, NOBODY, NOBODY, NOBODY, long]),
        // Rows of 1, 1, 2, 2, 3 and 16 records from record 3 on.
        written(
            "rows of 1, 4, 5, 8, 9 and 64 slots",
            &of_rounds([0, 3, 4, 7, 8, 63]),
            "03000405 0700090C",
            [NOBODY, "63000005", long, "63000000 00000005", "63000000 00000000 05000000", &most],
        ),
        // Rows of 16 records each: 3, 19, 35, 51, 67, 83; in all 12 + 6 * 64 = 396 bytes.
        written(
            "six rows of 64 slots",
            &[Slave { name: ANY, lists: every_round }],
            "03001323 33004353",
            [&all, &all, &all, &all, &all, &all],
        ),
    ]
}

/// Slot 0 is the master's, slot 63 the last; an entry may begin before or reach past what runs.
fn slots() -> Vec<Edge> {
    let one = |entries| [slave(ANY, 2, entries)];
    let last_alone = format!("63{}05", "00".repeat(62));
    let last_four = format!("63{}05050505", "00".repeat(59));
    let eight_from_48 = format!("63{}{}", "00".repeat(47), "05".repeat(8));
    vec![
        nobody("an entry on slot 0", &one("40001000")),
        one_record("an entry on slots 0 and 1", &one("40001100"), "63050000"),
        nobody("two slaves on slot 0", &[slave(ANY, 2, "40001000"), slave(0x06, 2, "40001000")]),
        one_record(
            "two slaves on slot 0, one on slot 1 too",
            &[slave(ANY, 2, "40001100"), slave(0x06, 2, "40001000")],
            "63050000",
        ),
        sixteen_records("slot 63 alone", &one("4001103F"), &last_alone),
        sixteen_records("16 slots from slot 63 on", &one("40001F3F"), &last_alone),
        sixteen_records("16 slots from slot 60 on", &one("40001F3C"), &last_four),
        // Places 0 to 7 are those of slots 48 to 55: a row of 56 slots, 14 records.
        written(
            "16 slots from slot 48 on, 8 of them inside the file",
            &one("40001F30"),
            "03000412 13001415",
            [NOBODY, &eight_from_48, NOBODY, NOBODY, NOBODY, NOBODY],
        ),
        one_record("a multiplex field of 3", &one("400110C1"), "63050000"),
        one_record("slots in falling order", &one("40001003 40001001"), "63050005"),
    ]
}

/// "A place outside the file, or in a file not there, does nothing"; "Only entries that would send a byte count."
fn places() -> Vec<Edge> {
    let one = |entries| [slave(ANY, 2, entries)];
    vec![
        one_record("the first byte of record 0x00", &one("40001001"), "63050000"),
        one_record("the last place inside", &one("43011001"), "63050000"),
        nobody("the first place outside", &one("40021001")),
        one_record("two slots, the second outside", &one("43011101"), "63050000"),
        nobody("the farthest place", &one("43FF1F01")),
        nobody("a file that is not there", &one("44001001")),
        one_record("file 0x3D", &one("F4001001"), "63050000"),
        nobody("one place outside file 0x3D", &one("F4031001")),
        one_record("the last place of file 0x3D", &one("F7021001"), "63050000"),
        one_record("the round file itself", &one("08001001"), "63050000"),
        nobody("a place outside hides a later entry", &one("40021001 40011001")),
        nobody("a file that is not there hides a later entry", &one("44001001 40011001")),
        // Slots 1 to 3, of which only slot 1 is inside; then slot 2 again, hidden, and slot 3 likewise.
        one_record("slots outside stay hidden", &one("43011201 40011002 40011003"), "63050000"),
    ]
}

/// An entry may send from the file in which it stands: the bytes sent are those of its own list, and the row has its
/// name where one was sent. Each round's list is asked for the plan and run.
fn from_its_own_list() -> Vec<Edge> {
    ROUNDS.into_iter().flat_map(own_lists_of).collect()
}

/// The lists of one round. Byte 0 of an entry is the round's number in the six high bits.
fn own_lists_of(round: u8) -> Vec<Edge> {
    let first = round << 2;
    let of = |what, entries: &str, sent: &[(usize, u8)]| as_it_runs(what, ANY, round, entries, sent);
    let byte = |place: u8, slot: u8| format!("{:02X}0110{slot:02X}", first | place);
    vec![
        // Record 1 is the entry itself: slots 1 to 4 have its four bytes.
        of(
            "an entry that sends itself",
            &format!("{first:02X}011301"),
            &[(1, first), (2, 1), (3, 0x13), (4, 1)],
        ),
        of(
            "each byte by an entry of its own",
            &[(0, 3), (3, 1)].map(|(place, slot)| byte(place, slot)).concat(),
            &[(1, 0x03), (3, first)],
        ),
        // Two slots from the last place on, the second of which is outside.
        of("the last place of its list", &format!("{:02X}011102", first | 3), &[(2, 0x02)]),
        // Record 3 stands behind the end and is not run, but its bytes are there.
        of("a record behind the end", &format!("{first:02X}031101 00006000 ABCDEF01"), &[(1, 0xAB), (2, 0xCD)]),
        of("record 0x00 of its list", &format!("{first:02X}001002"), &[(2, 0x00)]),
        of("a record that its list does not have", &format!("{first:02X}021001"), &[]),
        as_it_runs("an unnamed slave's own list", UNNAMED, round, &format!("{first:02X}011301"), &[]),
    ]
}

/// One slave with a list for one round that sends these bytes in slots up to 7: the owner file, and the round.
fn as_it_runs(what: &'static str, name: u8, round: u8, entries: &str, sent: &[(usize, u8)]) -> Edge {
    let file = cluster(&[slave(name, round, entries)]);
    let last = sent.iter().map(|&(slot, _)| slot).max().unwrap_or(0);
    let mut row = vec![0; 4 * (last / 4 + 1)];
    row[0] = MASTER;
    sent.iter().for_each(|&(slot, _)| row[slot] = name);
    let row: String = row.iter().map(|byte| format!("{byte:02X}")).collect();
    let place = ROUNDS.iter().position(|&other| other == round).expect("one of the six");
    let mut rows = [NOBODY; 6];
    rows[place] = &row;
    let index = if last < 4 { SHORTEST } else { SECOND_RECORD_IN[place] };
    let mut edge = of_content(what, file.clone(), MASTER, &content_of(index, rows));
    edge.calls.push(running(file, MULTIPARTNER[place], sent));
    edge
}

/// The index where the row of this one of the six rounds has two records.
const SECOND_RECORD_IN: [&str; 6] = [
    "03000506 07000809",
    "03000406 07000809",
    "03000405 07000809",
    "03000405 06000809",
    "03000405 06000709",
    "03000405 06000708",
];

/// The round on the file: epoch 0 becomes 1, and nothing is stored.
fn running(file: Vec<u8>, firework: u8, sent: &[(usize, u8)]) -> (Call, Outcome) {
    let mut bytes = answer(firework, &[]);
    sent.iter().for_each(|&(slot, byte)| bytes[slot] = byte);
    let mask = sent.iter().fold(0, |mask, &(slot, _)| mask | 1 << slot);
    let after = changed(&file, &[(EPOCH, "01")]);
    let call = Call::Round { file, frame: vec![firework], answer_length: 64 };
    let expected = Outcome { senders: Some(mask), file: Some(after), buffer: Some(bytes), ..call.before() };
    (call, expected)
}

/// "the first entry before the end that covers it acts"
fn hiding() -> Vec<Edge> {
    let one = |entries: &str| [slave(ANY, 2, entries)];
    // Operations that receive, and 3, which covers its slots and does nothing.
    let hide = [0x0, 0x2, 0x4, 0x3].map(|operation| {
        nobody("an operation that does not send", &one(&format!("4001{operation:X}001 40011001")))
    });
    let others = [
        one_record("operation 5 sends", &one("40015001"), "63050000"),
        one_record("a send before a receive", &one("40011001 40010001"), "63050000"),
        nobody("a receive that cannot store", &one("3C010001 40011001")),
        one_record("a receive on the first of two slots", &one("40010001 40001101"), "63000500"),
        one_record("a receive on the middle one of three slots", &one("40010002 40001201"), "63050005"),
        one_record("two sends in one slot", &one("40011001 40001001"), "63050000"),
        one_record("a receive on another slot", &one("40010002 40011001"), "63050000"),
        one_record(
            "a receive of another slave",
            &[one("40010001"), [slave(7, 2, "40011001")]].concat(),
            "63070000",
        ),
    ];
    [&hide[..], &others[..]].concat()
}

/// "the owner writer passes over every multiplexed receive", whatever its field: operations 8, 10, 12 and 14.
fn passed_over() -> Vec<Edge> {
    let one = |entries: &str| [slave(ANY, 2, entries)];
    let sends = "40011001";
    let each = [0x8, 0xA, 0xC, 0xE].into_iter().flat_map(|operation| {
        let fields = [0x01, 0x41, 0x81, 0xC1];
        fields.map(|field| {
            one_record(
                "a multiplexed receive before a send",
                &one(&format!("4001{operation:X}0{field:02X} {sends}")),
                "63050000",
            )
        })
    });
    let others = vec![
        nobody("a multiplexed receive alone", &one("40018001")),
        one_record(
            "two multiplexed receives before a send",
            &one(&format!("40018001 4001E001 {sends}")),
            "63050000",
        ),
        one_record("a multiplexed receive after a send", &one(&format!("{sends} 40018001")), "63050000"),
        one_record("one that cannot store", &one(&format!("3C018001 {sends}")), "63050000"),
        one_record("one on the first of two slots", &one("40018001 40001101"), "63050500"),
        one_record("one on the middle one of three slots", &one("40018002 40001201"), "63050505"),
        one_record("one over many slots", &one(&format!("40008F01 {sends}")), "63050000"),
        nobody("one, then a plain receive, then a send", &one(&format!("40018001 40010001 {sends}"))),
        nobody("one, then an operation 3, then a send", &one(&format!("40018001 40013001 {sends}"))),
        nobody("one, then an end, then a send", &one(&format!("40018001 00006000 {sends}"))),
        clash(
            "one before each of two sends in a slot",
            &[slave(ANY, 2, &format!("40018001 {sends}")), slave(0x06, 2, &format!("4001A001 {sends}"))],
        ),
    ];
    each.chain(others).collect()
}

/// "23, a multiplexed send before the end in file 0, 2, 3, 4, 6 or 7 of a slave not unnamed": also one that could not
/// send, and whatever covers its slot before it.
fn multiplexed_sends() -> Vec<Edge> {
    let one = |entries: &str| [slave(ANY, 2, entries)];
    let sends = [0x9, 0xB, 0xD, 0xF]
        .map(|operation| multiplexed("a multiplexed send", &one(&format!("4001{operation:X}001"))));
    let rounds =
        ROUNDS.map(|round| multiplexed("a multiplexed send of this round", &[slave(ANY, round, "40019001")]));
    let others = [
        multiplexed("its place outside", &one("40FF9001")),
        multiplexed("its file not there", &one("44009001")),
        multiplexed("on slot 0", &one("40019000")),
        multiplexed("on slot 63, over the end", &one("40009F3F")),
        multiplexed("after a plain send of its slot", &one("40011001 40019001")),
        multiplexed("after a plain receive of its slot", &one("40010001 40019001")),
        multiplexed("after all slots are covered", &one("40000F01 40000F11 40000F21 40000F31 40019001")),
        multiplexed("the last before an end", &one("40019001 00006000")),
        multiplexed("of a slave named 0x00", &[slave(0x00, 2, "40019001")]),
        multiplexed("of the second slave", &[slave(ANY, 2, "40011001"), slave(0x06, 2, "40019002")]),
        multiplexed(
            "of a named slave after an unnamed one",
            &[slave(UNNAMED, 2, "40011001"), slave(ANY, 7, "40019001")],
        ),
    ];
    [&sends[..], &rounds[..], &others[..]].concat()
}

/// Where a multiplexed send is none of 23: after an end, in file 1 or 5 and in other files, of an unnamed slave.
fn multiplexed_elsewhere() -> Vec<Edge> {
    let one = |entries: &str| [slave(ANY, 2, entries)];
    vec![
        nobody("after an end, 6", &one("00006000 40019001")),
        nobody("after an end, 7", &one("00007000 40019001")),
        one_record("after a send and an end", &one("40011001 00006000 40019001"), "63050000"),
        nobody("in file 5", &[slave(ANY, 5, "40019001")]),
        nobody("in file 1", &[slave(ANY, 1, "40019001")]),
        nobody("in file 0x11", &[slave(ANY, 0x11, "40019001")]),
        nobody("of an unnamed slave", &[slave(UNNAMED, 2, "40019001")]),
        one_record(
            "of an unnamed slave beside one that sends",
            &[slave(UNNAMED, 2, "40019001"), slave(ANY, 2, "40011001")],
            "63050000",
        ),
    ]
}

/// 23 is judged over all slaves and rounds before 20, whatever the buffer; and after the file's numbers.
fn multiplexed_before_clash() -> Vec<Edge> {
    let lists =
        |entries: &[(u8, &str)]| entries.iter().map(|&(round, list)| (round, list.to_string())).collect();
    let of = |name, entries: &[(u8, &str)]| Slave { name, lists: lists(entries) };
    let clashing =
        |more: &[(u8, &str)]| [of(ANY, &[&[(0, "40011001")], more].concat()), of(0x06, &[(0, "40011001")])];
    let apart = [slave(ANY, 2, "40011001"), slave(0x06, 2, "40011001"), slave(0x07, 2, "40019002")];
    let whole = cluster(&apart);
    let equal_names = {
        let mut file = whole.clone();
        // The last byte is the serial number of the third slave.
        *file.last_mut().expect("a file with bytes") = 1;
        file
    };
    vec![
        multiplexed("round 7 with two senders in round 0", &clashing(&[(7, "40019001")])),
        multiplexed("round 2 with two senders in round 0", &clashing(&[(2, "40019001")])),
        multiplexed("the last slave with two senders before it", &apart),
        multiplexed(
            "in the list that clashes, after it",
            &[slave(ANY, 2, "40011001"), slave(6, 2, "40011001 40019002")],
        ),
        multiplexed(
            "in the list that clashes, before it",
            &[slave(ANY, 2, "40011001"), slave(6, 2, "40019002 40011001")],
        ),
        clash("two senders in round 0, one after an end in round 7", &clashing(&[(7, "00006000 40019001")])),
        refused("equal physical names", equal_names, 8),
    ]
}

/// Operations 6 and 7 end a list.
fn ends() -> Vec<Edge> {
    let one = |entries| [slave(ANY, 2, entries)];
    vec![
        nobody("a send after an end, 6", &one("00006000 40011001")),
        nobody("a send after an end, 7", &one("00007000 40011001")),
        nobody("a send after an end on another slot", &one("00006005 40011001")),
        one_record("a send before an end and one after it", &one("40011001 00006000 40011002"), "63050000"),
        nobody("an end alone, of all slots from 1 to 16", &one("40006F01")),
    ]
}

/// "the logical name that sends"
fn names() -> Vec<Edge> {
    let sends = "40011001";
    let two_records = ["63000000", "63000000 00000000", NOBODY, NOBODY, NOBODY, NOBODY];
    let own_slots = |count: u8| -> Vec<Slave> {
        (1..=count).map(|name| slave(name, 2, &sends_in(usize::from(name)))).collect()
    };
    let all_32: String = (1..=32).map(|name| format!("{name:02X}")).collect();
    let row_of_33 = format!("63{all_32}000000");
    vec![
        nobody("an unnamed slave", &[slave(UNNAMED, 2, sends)]),
        nobody("two unnamed slaves in one slot", &[slave(UNNAMED, 2, sends), slave(UNNAMED, 2, sends)]),
        one_record(
            "a named slave after an unnamed one in one slot",
            &[slave(UNNAMED, 2, sends), slave(ANY, 2, sends)],
            "63050000",
        ),
        one_record("name 0xFE", &[slave(0xFE, 2, sends)], "63FE0000"),
        one_record("the master's name", &[slave(MASTER, 2, sends)], "63630000"),
        written("name 0x00 alone in slot 4", &[slave(0, 2, &sends_in(4))], "03000406 07000809", two_records),
        one_record("name 0x00 alone in slot 3", &[slave(0, 2, &sends_in(3))], NOBODY),
        one_record(
            "name 0x00 in slot 1, another in slot 2",
            &[slave(0, 2, sends), slave(ANY, 2, &sends_in(2))],
            "63000500",
        ),
        // 33 slots are nine records.
        written(
            "32 slaves, each with its own slot",
            &own_slots(32),
            "0300040D 0E000F10",
            [NOBODY, &row_of_33, NOBODY, NOBODY, NOBODY, NOBODY],
        ),
    ]
}

/// "slot 0 being the master's name, which the caller gives"
fn masters() -> Vec<Edge> {
    let of = |what, master| {
        let row = format!("{master:02X}050000");
        let others = format!("{master:02X}000000");
        let rows = [&others, &row, &others, &others, &others, &others].map(String::as_str);
        of_content(what, cluster(&[slave(ANY, 2, "40011001")]), master, &content_of(SHORTEST, rows))
    };
    vec![of("a master named 0x00", 0x00), of("a master named 0xFF", 0xFF), of("a master named 0x05", ANY)]
}

/// Two slaves that do not send in one slot of a round.
fn apart() -> Vec<Edge> {
    let pair = |first: &str, second: &str| [slave(ANY, 2, first), slave(0x06, 2, second)];
    let mut both_empty = pair("40011001", "40011001").to_vec();
    both_empty.iter_mut().for_each(|slave| slave.lists = vec![(1, sends_in(1)), (5, sends_in(1))]);
    vec![
        written(
            "slots 1 to 4 and 5 to 8",
            &pair("40001301", "40001305"),
            "03000407 0800090A",
            [NOBODY, "63050505 05060606 06000000", NOBODY, NOBODY, NOBODY, NOBODY],
        ),
        written(
            "one slot of two rounds",
            &[slave(ANY, 2, "40011001"), slave(0x06, 3, "40011001")],
            SHORTEST,
            [NOBODY, "63050000", "63060000", NOBODY, NOBODY, NOBODY],
        ),
        one_record("one name in two slots", &[slave(7, 2, "40011001"), slave(7, 2, "40011002")], "63070700"),
        one_record("the second's place outside", &pair("40011001", "40021001"), "63050000"),
        one_record("the first's place outside", &pair("40021001", "40011001"), "63060000"),
        one_record("the second receives first", &pair("40011001", "40010001 40011001"), "63050000"),
        one_record("the second's list ends first", &pair("40011001", "00006000 40011001"), "63050000"),
        nobody("two send in one slot of rounds 1 and 5", &both_empty),
    ]
}

/// "two slaves send in one slot of a round"
fn clashes() -> Vec<Edge> {
    let pair = |first: &str, second: &str| [slave(ANY, 2, first), slave(0x06, 2, second)];
    let named = |first, second| [slave(first, 2, "40011001"), slave(second, 2, "40011001")];
    let mut last_meets_first: Vec<Slave> =
        (1..=31).map(|name| slave(name, 2, &sends_in(usize::from(name)))).collect();
    last_meets_first.push(slave(0x20, 2, "40011001"));
    vec![
        clash("two names in slot 1", &named(0x05, 0x06)),
        clash("one name in slot 1", &named(0x05, 0x05)),
        clash("name 0x00 first", &named(0x00, 0x05)),
        clash("name 0x00 second", &named(0x05, 0x00)),
        clash("name 0x00 twice", &named(0x00, 0x00)),
        clash("slots 1 to 4 and 4 to 7", &pair("40001301", "40001304")),
        clash("slot 63 and slots 56 to 63", &pair("4001103F", "40001738")),
        clash("a later entry of the second", &pair("40011001", "40011002 40011001")),
        clash("three slaves", &[&named(0x05, 0x06)[..], &named(0x07, UNNAMED)[..]].concat()),
        clash("the last of 32 slaves and the first", &last_meets_first),
    ]
}

/// Two send in one slot of this round, and in no slot of another: round 7 among them.
fn clashes_in_one_round() -> Vec<Edge> {
    let lists = |clashing: u8, apart: usize| -> Vec<(u8, String)> {
        let slot = |round| if round == clashing { 5 } else { apart };
        ROUNDS.into_iter().map(|round| (round, sends_in(slot(round)))).collect()
    };
    let in_round = |round| {
        let slaves = [Slave { name: ANY, lists: lists(round, 1) }, Slave { name: 6, lists: lists(round, 2) }];
        clash("two slaves in slot 5 of one round only", &slaves)
    };
    ROUNDS.map(in_round).to_vec()
}

/// A file that each of 1 to 8 refuses, made from one of two slaves that send in one slot.
fn refused_files() -> Vec<Edge> {
    let whole = cluster(&[slave(ANY, 2, "40011001"), slave(0x06, 2, "40011001")]);
    let with = |place: usize, byte: u8| {
        let mut file = whole.clone();
        file[place] = byte;
        file
    };
    // The second slave's directory follows the first's 16 + 8 + 16 + 8 + 12 bytes; its last entry is that of 0x3D.
    let documentation = 24 + (16 + 8 + 16 + 8 + 12) + 12;
    let files = [
        (1, whole[..15].to_vec()),
        (2, with(0, 0x55)),
        (3, with(2, 3)),
        (4, with(7, 0)),
        (5, with(13, 1)),
        (6, with(0x13, 2)),
        (7, with(documentation, 0x3E)),
        (8, with(whole.len() - 1, 0)),
    ];
    files.map(|(number, file)| refused("a bad file", file, number)).to_vec()
}
