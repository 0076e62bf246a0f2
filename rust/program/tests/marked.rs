//! `ttpa mark` on sheets of the program's own answers: all lines are right; with one letter or digit of one answer changed that line is
//! wrong, and no other. One test alone, since the present folder is the whole program's.

mod common;

use common::{called, counted, Folder};
use compare::draws::random::Random;
use compare::draws::{clusters, inputs, traces};
use program::console::Status;
use std::fs;

const TIMES: usize = 150;
const CHANGES_OF_EACH: usize = 10;
const ROUND: &str = "round plant.cluster";
/// A file of edition 3, which is refused with its place.
const NEWER: &[u8] = b"TA\x03\0\0\x10\0\x10\0\0\0\0\0\0\0\0";

fn digits(bytes: &[u8]) -> String {
    bytes.iter().map(|byte| format!("{byte:02X}")).collect::<Vec<String>>().join(" ")
}

/// A line of a sheet, and where in it an answer stands that counts.
struct Line {
    text: String,
    answer: std::ops::Range<usize>,
}

impl Line {
    fn command(text: &str) -> Line {
        Line { text: format!("$ ttpa {text}"), answer: 0..0 }
    }

    /// Of an answer what stands behind a comment's sign, behind a refusal's number and, of frames that are sent, before `>` does not count.
    fn said(text: &str, is_sent: bool) -> Line {
        let start = if is_sent { text.find('>').map_or(0, |place| place + 1) } else { 0 };
        let number = |place: usize| text[place..].find(": ").map_or(text.len(), |end| place + end);
        let end = text.find("refused ").map_or(text.len(), number);
        Line { text: text.to_string(), answer: start..text.find('#').unwrap_or(text.len()).min(end) }
    }

    fn places(&self) -> Vec<usize> {
        let counts = |&place: &usize| self.text.as_bytes()[place].is_ascii_alphanumeric();
        self.answer.clone().filter(counts).collect()
    }
}

/// The commands of a sheet, with what each is sent.
fn commands(random: &mut Random, cluster: &model::Cluster) -> Vec<(String, String)> {
    let frames: Vec<String> = (0..random.between(1, 8))
        .map(|_| digits(&inputs::frame(random, cluster)))
        .filter(|line| !line.is_empty())
        .chain(["read 01 3D 01".to_string(), "read 00 3D 01".to_string()])
        .collect();
    let mut names: Vec<String> =
        inputs::good_names(random, 4).iter().map(|name| format!("{name:02X}")).collect();
    // the empty list cannot stand on a sheet
    if names.is_empty() {
        names.push("09".to_string());
    }
    let frame = digits(&inputs::frame(random, cluster));
    [
        "check plant.cluster newer.cluster".to_string(),
        "show plant.cluster".to_string(),
        "show plant.cluster --names".to_string(),
        format!("frame {}", if frame.is_empty() { "49" } else { &frame }),
        format!("frame read 01 3D {:02X} --epoch {:02X}", random.byte(), random.byte()),
        ROUND.to_string(),
        format!("name plant.cluster {}", names.join(",")),
        format!("name plant.cluster {} --seed {}", names.join(","), random.byte()),
        "trace plant.cluster site.trace --answers".to_string(),
        format!("owner plant.cluster {:02X}", random.byte()),
    ]
    .map(|command| (command, frames.join("\n")))
    .to_vec()
}

/// The sheet of what the program answers by itself, the two outputs one behind the other: none of these commands mixes them.
fn sheet(commands: &[(String, String)]) -> Vec<Line> {
    let mut lines = Vec::new();
    for (command, input) in commands {
        let words: Vec<&str> = command.split(' ').collect();
        let came = called(&words, input.as_bytes());
        lines.push(Line::command(command));
        let answers = format!("{}{}", String::from_utf8_lossy(&came.output), came.messages);
        let said = answers.lines().filter(|line| !line.starts_with('#') && !line.starts_with("  byte "));
        // the frame is told of which the answer is: of a read its data frame
        lines.extend(said.map(|line| Line::said(line, command == ROUND)));
    }
    lines
}

fn text(lines: &[Line]) -> String {
    lines.iter().map(|line| format!("{}\n", line.text)).collect()
}

/// What came of marking, and the lines that are wrong.
fn marked(folder: &Folder, sheet: &str) -> (Status, Vec<String>, String) {
    fs::write("sheet.txt", sheet).expect("a sheet");
    let came = called(&["mark", "sheet.txt", "--in", &folder.0.to_string_lossy()], b"");
    let output = String::from_utf8_lossy(&came.output).into_owned();
    assert_eq!(came.messages, "", "{sheet}");
    let wrong = output.lines().filter_map(|line| line.strip_prefix("wrong ")).map(String::from).collect();
    (came.status, wrong, output)
}

#[test]
fn one_letter_changed_is_one_line_wrong() {
    let folder = Folder::new("marked");
    std::env::set_current_dir(&folder.0).expect("the folder");
    fs::write("newer.cluster", NEWER).expect("a file");
    let mut random = Random::from_seed(48);
    let mut changes = 0;
    for _ in 0..TIMES {
        let slaves = random.between(0, 4);
        let cluster = clusters::cluster_of(&mut random, slaves);
        fs::write("plant.cluster", cluster.encode()).expect("a cluster file");
        fs::write("site.trace", traces::trace(&mut random, &cluster)).expect("a trace");
        let mut lines = sheet(&commands(&mut random, &cluster));
        let (status, wrong, output) = marked(&folder, &text(&lines));
        assert_eq!((status, wrong), (Status::Accepted, Vec::new()), "{}\n{output}", text(&lines));
        for _ in 0..CHANGES_OF_EACH {
            changes += usize::from(change_one(&mut random, &folder, &mut lines));
        }
    }
    assert!(changes > TIMES * CHANGES_OF_EACH / 2, "{changes}");
    counted("marked", changes);
}

/// One letter of one line, and then as it was; false where the line drawn has no answer.
fn change_one(random: &mut Random, folder: &Folder, lines: &mut [Line]) -> bool {
    let at = random.below(lines.len());
    let places = lines[at].places();
    if places.is_empty() {
        return false;
    }
    let place = random.one_of(&places);
    let before = lines[at].text.clone();
    let letter = before.as_bytes()[place].to_ascii_uppercase();
    let other = (b"0123456789ABCDEF").iter().copied().filter(|&other| other != letter).collect::<Vec<u8>>();
    lines[at].text.replace_range(place..place + 1, &char::from(random.one_of(&other)).to_string());
    let (status, wrong, output) = marked(folder, &text(lines));
    assert_eq!(status, Status::Refused, "{}\n{output}", lines[at].text);
    assert!(
        wrong.len() == 1 && wrong[0].starts_with(lines[at].text.split('#').next().unwrap_or_default().trim()),
        "{}\n{output}",
        lines[at].text
    );
    lines[at].text = before;
    true
}
