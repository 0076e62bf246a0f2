//! `ttpa mark`: what may stand on a sheet, and sheets of any content.

mod common;

use common::{bytes_of_hex, called, counted, here, program, ran, Folder, Ran};
use compare::draws::random::Random;
use program::console::{Console, Look, Status};
use program::text::quoted;
use std::fs;
use std::io::{self, Write};
use std::os::unix::fs::symlink;
use std::process::Command;

const SHEET: &str = "\
# a comment
$ ttpa check plant.cluster
plant.cluster: accepted, 3 slaves, 2 unnamed, 224 bytes

$ ttpa show plant.cluster --names
0 01 0000000700000042
1 FF 0000000700000010
2 FF 00000007000000A0
$ ttpa frame 55 02 01 F4 02 A0
MSA epoch 02, read 01 file 3D record 02
$ ttpa round plant.cluster
BA > 1=A1 2=5C
read 01 3D 02 > 1=00 2=00 3=00 4=42 5=0B
55 02 01 F4 01 A2 > refused 12
$ ttpa name plant.cluster 02 --seed 1 --every 2
$ ttpa name plant.cluster 02
extra read at 02
02 00000007000000A0 135 rounds 65 comparisons
names used up: 1 given, 136 rounds, 65 comparisons
$ ttpa owner plant.cluster 80
round 0: 0=80
round 2: 0=80 1=01 2=01
";

/// Every way to read a file.
const READING: [&str; 9] = [
    "check plant.cluster OUTSIDE",
    "show OUTSIDE",
    "owner OUTSIDE 80",
    "round OUTSIDE",
    "round plant.cluster OUTSIDE",
    "name OUTSIDE 01",
    "name plant.cluster 01 --between=OUTSIDE",
    "trace OUTSIDE plant.cluster",
    "trace plant.cluster OUTSIDE",
];

/// A folder with the demo's cluster in a folder below it, and beside that what no sheet may read.
fn class(name: &str) -> Folder {
    let folder = Folder::new(name);
    let course = folder.join("course");
    fs::create_dir_all(course.join("more")).expect("a folder");
    fs::copy(here("../../c/demo.cluster"), course.join("plant.cluster")).expect("the demo's cluster");
    fs::copy(here("../../c/demo.cluster"), course.join("more/plant.cluster")).expect("the demo's cluster");
    fs::copy(here("../../c/demo.cluster"), folder.join("secret.cluster")).expect("the demo's cluster");
    symlink("../secret.cluster", course.join("link.cluster")).expect("a link");
    symlink("plant.cluster", course.join("inside.cluster")).expect("a link");
    folder
}

fn marked(folder: &Folder, sheet: &str) -> Ran {
    fs::write(folder.join("sheet.txt"), sheet).expect("a sheet");
    ran(program().args(["mark", "sheet.txt", "--in", "course"]).current_dir(&folder.0), b"")
}

#[test]
fn files_are_those_of_the_folder() {
    let folder = class("sheet-files");
    let accepted = "accepted, 3 slaves, 2 unnamed, 224 bytes";
    for inside in ["plant.cluster", "./plant.cluster", "more/plant.cluster", "inside.cluster"] {
        let came = marked(&folder, &format!("$ ttpa check {inside}\n{inside}: {accepted}\n"));
        assert_eq!((came.status, came.messages.as_str()), (Some(0), ""), "{}", came.output);
    }
    let secret = folder.join("secret.cluster").to_string_lossy().into_owned();
    // nobody waits for what is no plain file
    let pipe = Command::new("mkfifo").arg(folder.join("course/pipe")).status();
    assert!(pipe.is_ok_and(|status| status.success()), "mkfifo");
    let outside =
        ["../secret.cluster", "more/../../secret.cluster", "link.cluster", "more", "pipe", "-", &secret];
    for outside in outside {
        for command in READING {
            let command = command.replace("OUTSIDE", outside);
            let came = marked(&folder, &format!("$ ttpa frame BA\n$ ttpa {command}\n"));
            let words = format!("sheet.txt:2: {} is no file of the folder\n", quoted(outside));
            assert_eq!((came.status, came.output.as_str()), (Some(1), ""), "{command}");
            assert_eq!(came.messages, words, "{command}");
        }
    }
    let nameless = marked(&folder, "$ ttpa name plant.cluster 01 --between=\n");
    assert_eq!(nameless.messages, "sheet.txt:1: '' is no file of the folder\n");
    // one that is not there is what comes out
    let missing = marked(&folder, "$ ttpa show none.cluster\nttpa: none.cluster: No such file or directory\n");
    assert_eq!((missing.status, missing.output.lines().last()), (Some(0), Some("1 of 1 right")));
}

#[test]
fn a_sheet_writes_nothing() {
    let folder = class("sheet-nothing");
    for command in [
        "name plant.cluster 01 --save out",
        "round plant.cluster --save=out",
        "owner plant.cluster 80 --save out",
        "trace plant.cluster plant.cluster --save out",
        "name plant.cluster 01 --steps 1 --run out",
        "make plant.txt out",
        "pack frames.txt out",
        "unpack site.trace",
        "convert plant.cluster 2 out",
        "join plant.cluster more/plant.cluster out",
        "draw 1",
        "mark sheet.txt",
        "who plant.cluster 01",
        "turns plant.cluster",
        "pattern 155",
        "--version",
        "",
        "check plant.cluster --help",
        "check -h",
        "round plant.cluster <<END",
        "check plant.cluster | cat",
        "check plant.cluster >out",
        "check plant.cluster & cat",
        "check plant.cluster ; cat",
    ] {
        let came = marked(&folder, &format!("$ ttpa frame BA\nmultipartner round 2\n$ ttpa {command}\n"));
        assert_eq!((came.status, came.output.as_str()), (Some(1), ""), "{command}");
        assert!(
            came.messages.starts_with("sheet.txt:3: ") && came.messages.contains(" may not stand on a sheet")
        );
    }
    let mut names: Vec<_> = fs::read_dir(folder.join("course"))
        .expect("a folder")
        .map(|entry| entry.expect("a file").file_name())
        .collect();
    names.sort();
    assert_eq!(names, ["inside.cluster", "link.cluster", "more", "plant.cluster"]);
}

/// A sheet that says nothing is not right, and none has the marker wait.
#[test]
fn what_is_not_answered_is_wrong() {
    let folder = class("sheet-empty");
    let empty = marked(&folder, "$ ttpa round plant.cluster\n");
    let words = "wrong nothing      is FRAME > ANSWER, at least once\n0 of 1 right\n";
    assert_eq!((empty.status, empty.output.as_str()), (Some(1), words));
    let missing = marked(&folder, "$ ttpa round none.cluster\nttpa: none.cluster: No such file or directory\n");
    assert_eq!((missing.status, missing.output.lines().last()), (Some(0), Some("1 of 1 right")));
    let words = "--orders above 1000 in all may not stand on a sheet\n";
    for (orders, line) in [(&[1001][..], 1), (&[600, 400, 1], 3), (&[1, u64::MAX], 2)] {
        let sheet: String =
            orders.iter().map(|orders| format!("$ ttpa name plant.cluster 02 --orders {orders}\n")).collect();
        let many = marked(&folder, &sheet);
        assert_eq!((many.status, many.messages), (Some(1), format!("sheet.txt:{line}: {words}")));
    }
    let many = marked(&folder, &"$ ttpa frame BA\n".repeat(1_001));
    assert_eq!((many.status, many.messages.as_str()), (Some(1), "sheet.txt:1001: more than 1000 commands\n"));
    let few = "extra read at 02\n02 00000007000000A0 135 rounds 65 comparisons\n\
               names used up: 1 given, 136 rounds, 65 comparisons\n1000 orders, one result\n";
    // a command without the option has no part in the number
    let frame = "$ ttpa frame BA\nmultipartner round 2\n";
    let few = marked(&folder, &format!("{frame}$ ttpa name plant.cluster 02 --orders 1000\n{few}{frame}"));
    assert_eq!((few.status, few.output.lines().last()), (Some(0), Some("6 of 6 right")));
}

/// A sheet on which no command stands is not right, whatever else is on it.
#[test]
fn a_sheet_without_a_command_is_told() {
    let folder = class("sheet-none");
    for sheet in ["", "\n# nothing yet\n"] {
        let came = marked(&folder, sheet);
        assert_eq!((came.status, came.output.as_str()), (Some(1), ""), "{sheet:?}");
        assert!(came.messages.ends_with(": there is no line '$ ttpa ..'\n"), "{}", came.messages);
    }
}

#[test]
fn a_sheet_has_at_most_so_many_lines() {
    let folder = class("sheet-long");
    let long = |lines: usize| format!("$ ttpa frame BA\n{}multipartner round 2\n", "\n".repeat(lines - 2));
    let most = marked(&folder, &long(100_000));
    assert_eq!((most.status, most.output.lines().last()), (Some(0), Some("1 of 1 right")), "{}", most.messages);
    let more = marked(&folder, &long(100_001));
    assert_eq!((more.status, more.output.as_str()), (Some(1), ""));
    assert_eq!(more.messages, "sheet.txt:100001: more than 100000 lines\n");
}

/// Sheets by hand, and how each is marked: what the engine does not answer is not right, whatever stands beside it.
const BELOW: [(&str, &str); 14] = [
    // a refused file answers no frame; its place may be said
    (
        "$ ttpa round newer.cluster\nBA > silence\nttpa: newer.cluster: refused 3\n  byte 2: edition 3\n",
        "wrong BA > silence      is nothing\nright ttpa: newer.cluster: refused 3\n1 of 2 right\n",
    ),
    // that nothing is answered is no answer either
    (
        "$ ttpa round newer.cluster\nBA > nothing\nttpa: newer.cluster: refused 3\n",
        "wrong BA > nothing      is nothing\nright ttpa: newer.cluster: refused 3\n1 of 2 right\n",
    ),
    // words alone are no frame
    (
        "$ ttpa round plant.cluster\nall is silent\n",
        "wrong nothing      is FRAME > ANSWER, at least once\nwrong all is silent      is nothing\n0 of 2 right\n",
    ),
    // the place of one file is not that of another
    (
        "$ ttpa check newer.cluster cut.cluster\nnewer.cluster: refused 3\n\
         byte 6: length 32, the file has 16 bytes\ncut.cluster: refused 4\n",
        "right newer.cluster: refused 3\nwrong byte 6: length 32, the file has 16 bytes      is nothing\n\
         right cut.cluster: refused 4\n2 of 3 right\n",
    ),
    // all that stands behind the first sign is the answer
    (
        "$ ttpa round plant.cluster\nBA > 1=00 > 1=A1 2=5C\n",
        "wrong BA > 1=00 > 1=A1 2=5C      is 1=A1 2=5C\n0 of 1 right\n",
    ),
    // where the frames are a file's, those in front of the answers are not sent
    (
        "$ ttpa round plant.cluster frames.txt\nBA > 1=A1 2=5C\n",
        "right BA > 1=A1 2=5C\nwrong nothing      is BA > 1=A1 2=5C\n1 of 2 right\n",
    ),
    (
        "$ ttpa round plant.cluster frames.txt\nBA > 1=A1 2=5C\n49 > 1=A1 2=5C\n",
        "right BA > 1=A1 2=5C\nwrong 49 > 1=A1 2=5C      is BA > 1=A1 2=5C\n1 of 2 right\n",
    ),
    // a frame without an answer is sent too
    (
        "$ ttpa round plant.cluster\n55 02 01 F4 02 A0\n49 > 1=00 2=00 3=00 4=42 5=0B\n",
        "wrong 55 02 01 F4 02 A0      is silence\nright 49 > 1=00 2=00 3=00 4=42 5=0B\n1 of 2 right\n",
    ),
    // a message is no answer to a frame
    (
        "$ ttpa round a>b\nBA > b: No such file or directory\n",
        "wrong BA > b: No such file or directory      is nothing\n\
         wrong nothing      is ttpa: a>b: No such file or directory\n0 of 2 right\n",
    ),
    // a line that is left out is wrong alone
    (
        "$ ttpa name plant.cluster 02\n02 00000007000000A0 135 rounds 65 comparisons\n\
         names used up: 1 given, 136 rounds, 65 comparisons\n",
        "wrong nothing      is extra read at 02\nright 02 00000007000000A0 135 rounds 65 comparisons\n\
         right names used up: 1 given, 136 rounds, 65 comparisons\n2 of 3 right\n",
    ),
    // what a subcommand tells as a comment is not asked for
    (
        "$ ttpa show equal.cluster\ncluster edition 1 epoch 00\nslave 05 0000000700000010\n",
        "right cluster edition 1 epoch 00\nright slave 05 0000000700000010\n\
         wrong nothing      is slave 05 00000007000000A0\n2 of 3 right\n",
    ),
    (
        "$ ttpa check plant.cluster\nBA > silence\n",
        "wrong BA > silence      is plant.cluster: accepted, 3 slaves, 2 unnamed, 224 bytes\n0 of 1 right\n",
    ),
    // what is wrong with the arguments comes out too
    (
        "$ ttpa name plant.cluster 02 --every 2\n",
        "wrong nothing      is ttpa: name: --every needs --between\n0 of 1 right\n",
    ),
    // nothing is there that could be wrong
    ("$ ttpa show none.cluster --names\n", "0 of 0 right\n"),
];

/// What a command writes is bounded: a text of frames may be as long as anything.
#[test]
fn a_command_that_writes_too_much_is_stopped() {
    let folder = class("sheet-much");
    fs::write(folder.join("course/frames.txt"), "00\n".repeat(400_000)).expect("frames");
    let came = marked(&folder, "$ ttpa round plant.cluster frames.txt\n");
    assert_eq!(came.status, Some(1));
    // behind what was written before, be it half a line
    let words = "ttpa: standard output: more than may be written for a sheet";
    assert!(came.output.lines().any(|line| line.ends_with(words)), "{}", came.output.lines().count());
}

/// Lines left out in front, in the middle and at the end are wrong alone, however many; of far too many pairs those at the ends.
#[test]
fn lines_left_out_are_wrong_alone() {
    let folder = class("sheet-left-out");
    for (lines, from, to, right) in [
        (200, 0, 0, 200),
        (200, 0, 150, 50),
        (200, 50, 190, 60),
        (200, 100, 200, 100),
        (2_000, 10, 1_990, 20),
        (2_000, 0, 10, 1_990),
    ] {
        let frames: String = (0..lines).map(|at| format!("{at:04X}\n")).collect();
        fs::write(folder.join("course/frames.txt"), frames).expect("frames");
        let kept = (0..lines).filter(|at| !(from..to).contains(at));
        let answers: String =
            kept.map(|at| format!("{:02X} {:02X} > refused 10\n", at >> 8, at & 255)).collect();
        let came = marked(&folder, &format!("$ ttpa round plant.cluster frames.txt\n{answers}"));
        let last = format!("{right} of {lines} right");
        assert_eq!(came.output.lines().last(), Some(last.as_str()), "{from} to {to} of {lines}");
    }
}

#[test]
fn what_stands_below_a_command_is_held_to_it() {
    let folder = class("sheet-below");
    let put = |name: &str, bytes: &[u8]| fs::write(folder.join("course").join(name), bytes).expect("a file");
    let header = |edition, length| [&[b'T', b'A', edition, 0, 0, 16, 0, length][..], &[0; 8]].concat();
    put("newer.cluster", &header(3, 16));
    put("cut.cluster", &header(1, 32));
    put("none.cluster", &header(1, 16));
    put("frames.txt", b"BA\nBA\n");
    let equal = fs::read_to_string(here("tests/samples/show-equal-names/equal.cluster.hex")).expect("a sample");
    put("equal.cluster", &bytes_of_hex(&equal));
    for (sheet, lines) in BELOW {
        let came = marked(&folder, sheet);
        assert_eq!((came.output.as_str(), came.messages.as_str()), (lines, ""), "{sheet}");
        assert_eq!(came.status, Some(1), "{sheet}");
    }
}

/// What was written, and of how many lines it was each time nothing was kept back.
#[derive(Default)]
struct Kept {
    text: Vec<u8>,
    flushed: Vec<usize>,
}

impl Write for Kept {
    fn write(&mut self, bytes: &[u8]) -> io::Result<usize> {
        self.text.write(bytes)
    }

    fn flush(&mut self) -> io::Result<()> {
        self.flushed.push(self.text.iter().filter(|&&byte| byte == b'\n').count());
        Ok(())
    }
}

/// The lines of a command are told before the next is run.
#[test]
fn each_command_is_told_by_itself() {
    let sheet = "$ ttpa frame BA\nmultipartner round 2\n".repeat(3);
    let (mut output, mut messages) = (Kept::default(), Vec::new());
    let mut input = sheet.as_bytes();
    let mut console =
        Console { input: &mut input, output: &mut output, messages: &mut messages, look: Look::default() };
    assert_eq!(program::run(vec!["mark".into(), "-".into()], &mut console), Status::Accepted);
    assert_eq!(output.flushed.first_chunk(), Some(&[1, 2, 3]));
}

/// Good lines with a byte changed, a line lost, doubled or swapped; then bytes of no meaning. One test alone, since the present
/// folder is the whole program's.
#[test]
fn a_sheet_of_any_content_ends_with_a_status() {
    let folder = class("sheet-any");
    let [sheet, course] = ["sheet.txt", "course"].map(|name| folder.join(name).to_string_lossy().into_owned());
    let mut random = Random::from_seed(42);
    let (mut ends, mut right) = ([0; 3], 0);
    for turn in 0..2_000 {
        let bytes = if turn == 0 { SHEET.as_bytes().to_vec() } else { changed(&mut random) };
        fs::write(&sheet, &bytes).expect("a sheet");
        let came = called(&["mark", &sheet, "--in", &course], b"");
        let shown = String::from_utf8_lossy(&bytes);
        assert!(!came.output.contains(&0x1b) && !came.messages.contains('\x1b'), "{shown}");
        ends[came.status as usize] += 1;
        right +=
            String::from_utf8_lossy(&came.output).lines().filter(|line| line.starts_with("right ")).count();
        hold_total(&came.output, came.status, &shown);
    }
    assert!(ends[1] > 200 && ends[2] == 0 && right > 2_000, "{ends:?}, {right} right");
    counted("rough/sheets", ends.iter().sum());
}

/// The last line counts those before it, and the status is 0 exactly if all are right.
fn hold_total(output: &[u8], status: Status, sheet: &str) {
    let output = String::from_utf8_lossy(output).into_owned();
    let lines: Vec<&str> = output.lines().collect();
    let Some((last, marked)) = lines.split_last() else {
        assert_eq!(status, Status::Refused, "{sheet}");
        return;
    };
    let right = marked.iter().filter(|line| line.starts_with("right ")).count();
    assert!(marked.iter().all(|line| line.starts_with("right ") || line.starts_with("wrong ")), "{output}");
    assert_eq!(*last, format!("{right} of {} right", marked.len()), "{sheet}");
    assert_eq!(status == Status::Accepted, right == marked.len(), "{sheet}");
}

fn changed(random: &mut Random) -> Vec<u8> {
    if random.once_in(5) {
        let length = random.between(0, 200);
        return random.bytes(length);
    }
    let mut lines: Vec<Vec<u8>> = SHEET.lines().map(|line| format!("{line}\n").into_bytes()).collect();
    for _ in 0..random.between(1, 3) {
        let (place, other) = (random.below(lines.len()), random.below(lines.len()));
        match random.below(5) {
            0 => lines[place].clear(),
            1 => lines.insert(other, lines[place].clone()),
            2 => lines.swap(place, other),
            _ if lines[place].is_empty() => {}
            _ => {
                let byte = random.below(lines[place].len());
                let any = random.byte();
                lines[place][byte] = random.one_of(&[b'0', b'>', b'$', b'-', b'#', b' ', b'\n', b'\x1b', any]);
            }
        }
    }
    lines.concat()
}
