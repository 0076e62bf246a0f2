//! The pictures: what the chart of rounds shows is what the engine does, each entry has its place, the same cluster gives the same
//! bytes, and every picture is well-formed.

mod common;

use common::{called, counted, here};
use compare::draws::clusters;
use compare::draws::random::Random;
use program::cluster::{Cluster, SlaveFile};
use program::console::Status;
use program::frames_text::ROUNDS;
use program::layout::{Edition, RECORD_BYTES};
use program::naming::between::Between;
use program::naming::drawn::Drawn;
use program::naming::search::{Asked, Comparison, Pass, Search};
use program::naming::{Naming, Traffic};
use program::picture;
use program::plan::{self, Deed, MOST_REMAINDERS, SLOTS};
use program::subcommands::draw;
use program::text::Lines;
use std::fs;
use ttpa::{ANSWER_BYTES, NAME_UNNAMED};

/// Reading a cluster of many slaves takes a call for each file that it could have.
const CLUSTERS: usize = 200;

const RUNS: u64 = 40;

/// How often something was shown.
#[derive(Default)]
struct Shown {
    rounds: usize,
    sent: usize,
    stored: usize,
    multiplexed: usize,
}

/// The file of this cluster with another epoch.
fn with_epoch(file: &[u8], epoch: u8) -> Vec<u8> {
    let mut changed = file.to_vec();
    changed[Edition::of(file).epoch_place()] = epoch;
    changed
}

/// Puts a byte into a file of records.
fn store(file: &mut SlaveFile, place: usize, byte: u8) {
    file.records[place / RECORD_BYTES][place % RECORD_BYTES] = byte;
}

/// A round by the engine in an epoch, and what the chart has for it: who sends in which slot, and which bytes are stored.
fn hold(cluster: &Cluster, (round, firework): (u8, u8), epoch: u8, shown: &mut Shown) {
    let mut expected = cluster.clone();
    let mut after = with_epoch(&cluster.encode(), epoch.wrapping_sub(1));
    let mut answer = [0; ANSWER_BYTES];
    let senders = ttpa::round(&mut after, &[firework], &mut answer).expect("a round");
    let partners = expected.slaves.iter_mut().filter(|slave| slave.name() != NAME_UNNAMED && !slave.asleep);
    let mut partners: Vec<_> = partners.map(|slave| (plan::row(slave, round, epoch), slave)).collect();
    for slot in 1..SLOTS {
        let sends = partners.iter().any(|(row, _)| row[slot].is_some_and(|act| act.deed == Deed::Send));
        assert_eq!(
            senders.sent_in(slot as u32),
            sends,
            "slot {slot}, round {round}, epoch {epoch}: {cluster:?}"
        );
        shown.sent += usize::from(sends);
        for (row, slave) in partners.iter_mut().filter(|_| sends) {
            let Some(act) = row[slot].filter(|act| act.deed == Deed::Receive) else { continue };
            let record = slave.file(round).expect("its round file").records[act.entry];
            let number = record[0] >> 2;
            let stored = slave.files.iter_mut().find(|file| file.number == number).expect("the file named");
            store(stored, act.place, answer[slot]);
            shown.stored += 1;
        }
    }
    // behind header and table stand the slaves' files alone
    let files = cluster.edition.table_entry(cluster.slaves.len());
    assert!(expected.encode()[files..] == after[files..], "round {round}, epoch {epoch}: {cluster:?}");
    shown.multiplexed += cluster.slaves.iter().filter(|slave| plan::remainders(slave, round) > 1).count();
    shown.rounds += 1;
}

/// A cluster of the comparison's draws, which have entries of every kind.
fn drawn(random: &mut Random) -> Cluster {
    Cluster::of_file(&clusters::cluster(random).encode()).expect("an accepted file")
}

#[test]
fn the_chart_shows_what_the_engine_does() {
    let mut random = Random::from_seed(37);
    let mut shown = Shown::default();
    for _ in 0..CLUSTERS {
        let cluster = drawn(&mut random);
        for round in ROUNDS {
            (0..MOST_REMAINDERS).for_each(|epoch| hold(&cluster, round, epoch, &mut shown));
        }
    }
    let Shown { rounds, sent, stored, multiplexed } = shown;
    let numbers = [("rounds", rounds), ("sent", sent), ("stored", stored), ("multiplexed", multiplexed)];
    numbers.into_iter().for_each(|(what, number)| counted(&format!("pictured/{what}"), number));
    assert!(sent >= 1_000 && stored >= 1_000 && multiplexed >= 1_000, "{numbers:?}");
}

/// Each file that a receive may name, those beside the bounds too, which no drawn cluster need have.
#[test]
fn a_receive_is_shown_where_the_engine_stores() {
    let mut shown = Shown::default();
    for number in 0x09..=0x3C {
        let text =
            PLANT.replace("file 11 record 01 slots 1-2", &format!("file {number:02X} record 01 slots 1-2"));
        let text = match number {
            0x11 => text,
            _ => text.replace("slave FF", &format!("  file {number:02X} records 1\nslave FF")),
        };
        let cluster = Cluster::of_file(&made(&text)).expect("an accepted file");
        hold(&cluster, (2, 0xBA), 0, &mut shown);
    }
    assert_eq!(shown.stored, 2 * (0x3C - 0x10 + 1), "two bytes in each file from 10 on");
}

/// More remainders than a slave's entries are said to tell apart tell no more apart.
#[test]
fn a_row_for_each_remainder_is_enough() {
    let mut random = Random::from_seed(38);
    for _ in 0..CLUSTERS {
        let cluster = drawn(&mut random);
        for (slave, (round, _)) in cluster.slaves.iter().flat_map(|slave| ROUNDS.map(|round| (slave, round))) {
            let remainders = plan::remainders(slave, round);
            for epoch in 0..=255 {
                assert_eq!(plan::row(slave, round, epoch), plan::row(slave, round, epoch % remainders));
            }
        }
    }
}

const PLANT: &str = "\
cluster edition 1 epoch 00
slave 01 0000000700000042
  file 02 records 2
    01 send file 10 record 01 slots 1-2
    02 end file 00 record 00 slots 0-0
  file 10 records 1
slave 02 00000007000000A0
  file 02 records 3
    01 receive file 11 record 01 slots 1-2
    02 send-mux4 file 11 record 01 slots 3-3 mux 1
    03 send file 11 record 09 slots 4-4
  file 11 records 1
slave FF 0000000700000010
  file 02 records 1
    01 send file 10 record 01 slots 2-2
  file 10 records 1
";

fn picture_of(file: &[u8]) -> String {
    let called = called(&["show", "-", "--svg", "-"], file);
    assert_eq!((called.status, called.messages.as_str()), (Status::Accepted, ""), "{file:02X?}");
    String::from_utf8(called.output).expect("a text")
}

fn made(text: &str) -> Vec<u8> {
    let called = called(&["make", "-", "-"], text.as_bytes());
    assert_eq!(called.status, Status::Accepted, "{}", called.messages);
    called.output
}

/// By hand. The first row begins at 106, below legend, title and numbers; slot 1 at 300, each slot is 16 wide, a bar lies 2 inside. A
/// slave's row is 18 high; the second slave has four, one for each remainder, 10 high each.
#[test]
fn each_entry_has_its_place() {
    let svg = picture_of(&made(PLANT));
    let bar = |x, y, width, height, look: &str| {
        svg.matches(&format!(r#"<rect x="{x}" y="{y}" width="{width}" height="{height}" {look}"#)).count()
    };
    let (sends, receives, nothing) =
        (r##"fill="#3b82d6""##, r##"fill="none" stroke="#d9622b""##, r##"fill="none" stroke="#777777""##);
    assert_eq!(bar(302, 108, 28, 14, sends), 1, "{svg}");
    for remainder in 0..4 {
        let top = 126 + 10 * remainder;
        assert_eq!(bar(302, top, 28, 6, receives), 1, "{svg}");
        assert_eq!(bar(334, top, 12, 6, sends), usize::from(remainder == 1), "{svg}");
        assert_eq!(bar(350, top, 12, 6, nothing), 1, "{svg}");
    }
    assert_eq!(bar(318, 166, 12, 14, sends), 1, "{svg}");
    // three of the legend, and those above
    assert_eq!(svg.matches("<rect ").count(), 3 + 1 + 9 + 1);
    let count = |slot: usize, words: &str| {
        svg.contains(&format!(r#"<text x="{}" y="195" {words}</text>"#, 292 + 16 * slot))
    };
    assert!(
        count(1, r#"text-anchor="middle">1"#)
            && count(3, r#"text-anchor="middle">1"#)
            && !count(4, r#"text-anchor="middle">1"#)
    );
    assert!(count(2, r##"text-anchor="middle" font-weight="bold" fill="#d9622b">2"##), "{svg}");
    assert!(svg.contains("<title>slave 1, entry 02: send-mux4 file 11 record 01 slots 3-3 mux 1</title>"));
    // beside the rows of the second slave
    for (y, remainder) in [(132, "epoch mod 4 = 0"), (142, "1"), (152, "2"), (162, "3")] {
        let words = format!(r#"<text x="294" y="{y}" text-anchor="end" font-size="8">{remainder}</text>"#);
        assert!(svg.contains(&words), "{words}: {svg}");
    }
}

/// A bar is of one entry and one deed: the first entry has four bytes to send for five slots, the second none.
#[test]
fn a_bar_ends_where_entry_or_deed_does() {
    let entries = "send file 10 record 01 slots 1-5\n    02 send file 10 record 09 slots 6-6";
    let text =
        PLANT.replace("send file 10 record 01 slots 1-2\n    02 end file 00 record 00 slots 0-0", entries);
    let svg = picture_of(&made(&text));
    for (x, width, fill) in [(302, 60, "#3b82d6"), (366, 12, "none"), (382, 12, "none")] {
        let bar = format!(r#"<rect x="{x}" y="108" width="{width}" height="14" fill="{fill}""#);
        assert!(svg.contains(&bar), "{bar}: {svg}");
    }
}

/// Who sends in the last epochs of eight alone is a sender too.
#[test]
fn senders_of_every_epoch_are_counted() {
    let svg = picture_of(&made(&PLANT.replace("send-mux4", "send-mux8+4")));
    // eight rows in the place of four
    assert!(svg.contains(r#"<text x="340" y="235" text-anchor="middle">1</text>"#), "{svg}");
    // remainder 1 of four and remainder 5 of eight: both in epoch 5
    let both =
        PLANT.replace("send file 10 record 01 slots 2-2", "send-mux8+4 file 10 record 01 slots 3-3 mux 1");
    let svg = picture_of(&made(&both));
    let two = r##"<text x="340" y="257" text-anchor="middle" font-weight="bold" fill="#d9622b">2</text>"##;
    assert!(svg.contains(two), "{svg}");
}

/// Slot 0 is the master's: an entry that begins there is shown from slot 1 on.
#[test]
fn nothing_is_shown_in_slot_0() {
    let svg = picture_of(&made(&PLANT.replace("slots 2-2", "slots 0-1")));
    assert!(svg.contains(r##"<rect x="302" y="166" width="12" height="14" fill="#3b82d6""##), "{svg}");
}

/// Of a slave that is unnamed or asleep the bars are pale, and nothing that has to be read.
#[test]
fn bars_alone_are_pale() {
    let svg = picture_of(&made(&PLANT.replace("00000007000000A0", "00000007000000A0 asleep")));
    let mut pale = 0;
    for group in svg.split("<g").skip(1).filter(|group| group.starts_with(" opacity=")) {
        let within = group.split("</g>").next().unwrap_or_default();
        assert!(!within.contains("<text"), "{within}");
        pale += within.matches("<rect ").count();
    }
    assert_eq!(pale, 9 + 1, "{svg}");
    assert_eq!(svg.matches("epoch mod 4 = 0</text>").count(), 1, "{svg}");
    assert!(svg.contains("1  02  00000007000000A0 asleep</text>"), "{svg}");
    assert_eq!(svg.matches(" asleep</text>").count(), 1, "{svg}");
}

/// By hand. The first panel begins at 62 and is 158 high: title and numbers 44, rows of 18, 40 and 18, senders 18 and a gap of 20.
#[test]
fn panels_lie_below_each_other() {
    let more = "  file 03 records 1\n    01 send file 10 record 01 slots 20-20\n  file 10";
    let svg = picture_of(&made(&PLANT.replacen("  file 10", more, 1)));
    let title = |y: usize, words: &str| {
        svg.contains(&format!(r#"<text x="12" y="{y}" font-size="13" font-weight="bold">{words}</text>"#))
    };
    assert!(title(78, "Round 2, firework BA") && title(236, "Round 3, firework 8B"), "{svg}");
    // both have the slots of the longer one, and the picture ends 18 below the second, which has one row
    assert_eq!(svg.matches(">20</text>").count(), 2, "{svg}");
    assert!(svg.contains(r#"viewBox="0 0 642 338" width="642" height="338""#), "{svg}");
}

/// Without a round the chart says so, below its legend and at its left edge.
#[test]
fn no_round_is_told() {
    let svg = picture_of(&made("cluster edition 1 epoch 00\nslave 01 0000000700000042\n"));
    assert!(
        svg.contains(r#"<text x="12" y="78">no slave shown has a file of a multipartner round</text>"#),
        "{svg}"
    );
}

#[test]
fn same_cluster_same_bytes() {
    let file = made(PLANT);
    assert_eq!(picture_of(&file), picture_of(&file));
    assert_ne!(picture_of(&file), picture_of(&made(&PLANT.replace("slots 2-2", "slots 3-3"))));
}

/// The slaves that are asked for, and no others.
#[test]
fn one_slave_alone_is_drawn() {
    let called = called(&["show", "-", "--slave", "02", "--svg", "-"], &made(PLANT));
    let svg = String::from_utf8_lossy(&called.output).into_owned();
    assert!(svg.contains("00000007000000A0") && !svg.contains("0000000700000042"), "{svg}");
}

fn searched(file: &[u8], names: &[u8], traffic: &mut Traffic) -> Naming {
    let mut naming = Naming::start(file.to_vec(), names.to_vec()).expect("good names");
    naming.search = Some(Search::default());
    while !naming.ended() {
        naming.step(traffic, &mut |_| {}).expect("a step");
    }
    naming
}

/// Who is said to have replied, against the engine's answer to each comparison; and as many comparisons as the engine counts.
#[test]
fn the_search_shows_what_the_engine_was_answered() {
    let mut random = Random::from_seed(40);
    let (mut comparisons, mut replies) = (0, 0);
    for seed in 0..RUNS {
        let slaves = random.between(1, 6);
        let unnamed = random.between(1, slaves);
        let mut file = draw::draw(&format!("search {seed}"), slaves, unnamed).encode();
        // a run on drawn clusters too, whose slaves sleep, have the same series or the greatest names
        if seed % 2 == 0 {
            file = clusters::cluster_of(&mut random, 5).encode();
        }
        let mut traffic = Traffic::Drawn(Drawn::of(&file, seed).expect("an accepted file"));
        let naming = searched(&file, &[1, 2, 3, 0x80], &mut traffic);
        let made: Vec<_> =
            naming.search.iter().flat_map(|search| &search.passes).flat_map(|pass| &pass.comparisons).collect();
        assert_eq!(made.len() as u64, naming.run.comparisons(), "{file:02X?}");
        for comparison in made {
            let replied = comparison.slaves.iter().filter(|slave| slave.replied).count();
            assert_eq!(replied > 0, comparison.answered, "{comparison:?}: {file:02X?}");
            comparisons += 1;
            replies += replied;
        }
        is_well_formed(&picture::search::picture(naming.search.as_ref().expect("a search"), "&<>\""));
    }
    counted("pictured/comparisons", comparisons);
    counted("pictured/replies", replies);
    assert!(comparisons >= 1_000 && replies >= 500, "{comparisons} {replies}");
}

/// By hand. The panel of the first pass begins at 62, its first row 40 below, at 102; the question whether anyone is there stands at 170,
/// bit b 12 * (64 - b) to the right of it. Both slaves reply to bits 34, 33 and 32, which their series number 7 has; then the one that ends
/// in A0 alone to bit 7, and to bit 5.
#[test]
fn each_reply_has_its_place() {
    let file = made(&PLANT.replace("slave 02 00000007000000A0", "slave FF 00000007000000A0"));
    let naming = searched(&file, &[1, 2, 3], &mut Traffic::None);
    let svg = picture::search::picture(naming.search.as_ref().expect("a search"), "the last line");
    let cell = |bit: usize, row: usize, look: &str| {
        let (x, y) = (172 + 12 * (64 - bit), 104 + 14 * row);
        svg.contains(&format!(r#"<rect x="{x}" y="{y}" width="8" height="10" {look}"#))
    };
    let (replied, silent) = (r##"fill="#3b82d6""##, r##"fill="none""##);
    for bit in 0..=63 {
        let greatest = [34, 33, 32, 7, 5].contains(&bit);
        let other = [34, 33, 32].contains(&bit);
        assert!(cell(bit, 0, if greatest { replied } else { silent }), "bit {bit} of A0: {svg}");
        assert!(cell(bit, 1, if other { replied } else { silent }), "bit {bit} of 10: {svg}");
    }
    assert!(cell(64, 0, replied) && cell(64, 1, replied), "{svg}");
    assert!(svg.contains(">Name 02: given to 00000007000000A0, 135 rounds, 65 comparisons</text>"), "{svg}");
    assert!(svg.contains(">Name 03: given to 0000000700000010, 135 rounds, 65 comparisons</text>"), "{svg}");
    assert!(svg.contains(">the last line</text>"));
}

/// Who was put to sleep between two steps is asked and does not reply.
#[test]
fn who_sleeps_is_silent() {
    let demo = fs::read(here("../../c/demo.cluster")).expect("the demo's cluster");
    let mut text = &b"execute FF 08 04"[..];
    let between = Between::read(Lines::of(&mut text, String::new()), 1).expect("a good line");
    let naming = searched(&demo, &[2], &mut Traffic::Frames(between));
    let passes = naming.search.iter().flat_map(|search| &search.passes);
    let asked: Vec<_> = passes.flat_map(|pass| &pass.comparisons).collect();
    assert!(asked.len() == 1 && asked[0].slaves.len() == 2 && !asked[0].answered, "{asked:?}");
    assert!(asked[0].slaves.iter().all(|slave| !slave.replied), "{asked:?}");
}

/// A slave that has a name by the last comparison is shown in those that asked it.
#[test]
fn a_slave_that_was_asked_first_is_shown() {
    let asked = |place, physical_name| Asked { place, physical_name, value: 0, replied: true };
    let comparison = |question, slaves| Comparison { question, slaves, answered: true };
    let comparisons =
        vec![comparison(0, vec![asked(1, 0xA0), asked(2, 0x10)]), comparison(1, vec![asked(2, 0x10)])];
    let search = Search { passes: vec![Pass { name: 2, comparisons, came: None }] };
    let svg = picture::search::picture(&search, "");
    assert!(
        svg.contains(" 1  00000000000000A0</text>") && svg.contains(" 2  0000000000000010</text>"),
        "{svg}"
    );
    assert_eq!(svg.matches("? replied</title>").count(), 3, "{svg}");
}

/// What a slave compares with is its own file's, which a foreign master may have written: a cell does not contradict itself.
#[test]
fn a_cell_tells_what_the_slave_compared() {
    let demo = fs::read(here("../../c/demo.cluster")).expect("the demo's cluster");
    let mut text = &b"write FF 08 02 FF FF FF FF"[..];
    let between = Between::read(Lines::of(&mut text, String::new()), 40).expect("a good line");
    let naming = searched(&demo, &[2], &mut Traffic::Frames(between));
    let mut above = 0;
    for comparison in naming.search.iter().flat_map(|search| &search.passes).flat_map(|pass| &pass.comparisons)
    {
        for slave in &comparison.slaves {
            assert_eq!(slave.replied, slave.physical_name >= slave.value, "{slave:?}");
            above += u32::from(slave.value >> 32 == 0xFFFF_FFFF);
        }
    }
    assert!(above > 0, "no slave compared with what the foreign master wrote");
    let svg = picture::search::picture(naming.search.as_ref().expect("a search"), "");
    assert!(svg.contains("? silent</title>") && svg.contains("at or above FFFFFFFF"), "{svg}");
    assert!(svg.contains(">Name 02: found ") && svg.contains(", but no slave has the name</text>"), "{svg}");
}

/// The comparisons before a run was taken up are not there, which the title says; a step of an ended run adds none.
#[test]
fn a_run_taken_up_again_is_told() {
    // names used up, and all named
    hold_taken_up(vec![3]);
    hold_taken_up(vec![3, 4]);
}

fn hold_taken_up(names: Vec<u8>) {
    let mut naming = Naming::start(made(PLANT), names).expect("good names");
    (0..50).for_each(|_| {
        naming.step(&mut Traffic::None, &mut |_| {}).expect("a step");
    });
    naming.search = Some(Search::default());
    while !naming.ended() {
        naming.step(&mut Traffic::None, &mut |_| {}).expect("a step");
    }
    let shown = |naming: &Naming| picture::search::picture(naming.search.as_ref().expect("a search"), "");
    let svg = shown(&naming);
    assert!(svg.contains(", taken up at bit 41: what was asked before is not shown</text>"), "{svg}");
    naming.step(&mut Traffic::None, &mut |_| {}).expect("a step");
    assert_eq!(shown(&naming), svg);
}

/// By which comparison it comes first. The question whether anyone is there finds no bit.
#[test]
fn the_first_comparison_tells_where_it_was_taken_up() {
    for (question, words) in [(0, None), (1, Some("bit 63:")), (64, Some("bit 0:"))] {
        let slaves = vec![Asked { place: 1, physical_name: 0xA0, value: 0, replied: true }];
        let comparisons = vec![Comparison { question, slaves, answered: true }];
        let search = Search { passes: vec![Pass { name: 2, comparisons, came: None }] };
        let svg = picture::search::picture(&search, "");
        assert_eq!(
            svg.split(", taken up at ").nth(1).map(|rest| rest.split_inclusive(':').next()),
            words.map(Some)
        );
        assert_eq!(svg.contains(">the bit found</text>"), question > 0, "{svg}");
    }
}

/// A pass in which nobody was asked has its title alone.
#[test]
fn where_nobody_is_left_there_is_no_grid() {
    let named = made(&PLANT.replace("slave FF", "slave 03"));
    let naming = searched(&named, &[4], &mut Traffic::None);
    let svg = picture::search::picture(naming.search.as_ref().expect("a search"), "");
    assert!(svg.contains(">Name 04: nobody replied</text>") && !svg.contains("<path"), "{svg}");
}

/// A run that was stopped has a pass without its end.
#[test]
fn a_pass_that_was_stopped_is_told() {
    let mut naming = Naming::start(made(PLANT), vec![3]).expect("good names");
    naming.search = Some(Search::default());
    (0..50).for_each(|_| {
        naming.step(&mut Traffic::None, &mut |_| {}).expect("a step");
    });
    let svg = picture::search::picture(naming.search.as_ref().expect("a search"), "");
    assert!(svg.contains(">Name 03: not at its end</text>"), "{svg}");
}

/// The pictures of README are those of the demo's cluster.
#[test]
fn the_kept_pictures_are_those_of_the_demo() {
    let demo = fs::read(here("../../c/demo.cluster")).expect("the demo's cluster");
    let kept = |name: &str| fs::read_to_string(here("../../docs").join(name)).expect("a kept picture");
    assert!(kept("rounds.svg") == picture_of(&demo), "docs/rounds.svg is another picture");
    let naming = searched(&demo, &[1, 2, 3, 4], &mut Traffic::None);
    let svg =
        picture::search::picture(naming.search.as_ref().expect("a search"), &naming.last_line(&Traffic::None));
    assert!(kept("search.svg") == svg, "docs/search.svg is another picture");
}

/// Each element is closed, in the order of opening, no attribute is left open, and no text has a character that ends it.
fn is_well_formed(svg: &str) {
    let mut open = Vec::new();
    for tag in svg.split('<').skip(1) {
        let (tag, text) = tag.split_once('>').expect("an end of the tag");
        assert!(tag.matches('"').count() % 2 == 0 && !text.contains('>'), "{tag}");
        assert_eq!(text.matches('&').count(), text.matches(';').count(), "{text}");
        let name = tag.split(' ').next().unwrap_or_default();
        if let Some(closed) = name.strip_prefix('/') {
            assert_eq!(open.pop(), Some(closed), "{svg}");
        } else if !tag.ends_with('/') {
            open.push(name);
        }
    }
    assert!(open.is_empty(), "{open:?}");
}

/// The values of an attribute, which are numbers.
fn numbers(svg: &str, attribute: &str) -> Vec<usize> {
    let begun = format!(" {attribute}=\"");
    let values = svg.split(&begun).skip(1);
    values.map(|rest| rest.split('"').next().and_then(|value| value.parse().ok()).expect("a number")).collect()
}

#[test]
fn every_chart_is_well_formed_and_lies_in_its_picture() {
    let mut random = Random::from_seed(39);
    let mut files: Vec<Vec<u8>> = (0..CLUSTERS).map(|_| clusters::cluster(&mut random).encode()).collect();
    files.push(made("cluster edition 1 epoch 00\n"));
    for file in &files {
        let svg = picture_of(file);
        is_well_formed(&svg);
        let (width, height) = (numbers(&svg, "width")[0], numbers(&svg, "height")[0]);
        assert!(numbers(&svg, "x").into_iter().all(|x| x < width), "{svg}");
        assert!(numbers(&svg, "y").into_iter().all(|y| y < height), "{svg}");
    }
    counted("pictures", files.len());
}
