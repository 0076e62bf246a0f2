//! How what was said is held against what comes out: which lines belong together, and when a line is right.

use std::collections::HashSet;

/// Pairs of lines that are compared in search of those that are right, so that this ends soon; a student's answers are far below.
const MOST_PAIRS: usize = 1_000_000;

/// A line that was said or comes out.
#[derive(Clone, Debug, PartialEq, Eq)]
pub struct Marked {
    pub said: Option<String>,
    /// What comes out instead; None where the line is right.
    pub is: Option<String>,
}

/// A line that comes out, and behind a refusal its place: it is among the words after the number, so it may be said or not.
#[derive(Clone, Debug, PartialEq, Eq)]
pub struct Came {
    pub line: String,
    place: Option<String>,
}

/// The lines of an output, comments and blank lines left out. The place of a refusal is an indented line behind it.
pub fn came(output: &str) -> Vec<Came> {
    let mut lines: Vec<Came> = Vec::new();
    for line in output.lines() {
        let text = line.split('#').next().unwrap_or_default();
        match lines.last_mut() {
            _ if text.trim().is_empty() => {}
            Some(last) if text.starts_with(' ') && last.place.is_none() && refusal(&last.line).is_some() => {
                last.place = Some(text.trim().to_string());
            }
            _ => lines.push(Came { line: text.trim().to_string(), place: None }),
        }
    }
    lines
}

/// What was said against what came: as many lines are right as stand in both in one order. Those between two that are right are held one
/// against the other as far as both go, so that a line left out, or too many, is wrong alone.
pub fn align(said: &[String], came: &[Came]) -> Vec<Marked> {
    let said = without_places(said, came);
    let mut marked = Vec::new();
    let (mut next_said, mut next_came) = (0, 0);
    for (at_said, at_came) in in_common(&said, came) {
        marked.extend(pair(&said[next_said..at_said], &came[next_came..at_came]));
        marked.extend(pair(&said[at_said..=at_said], &came[at_came..=at_came]));
        (next_said, next_came) = (at_said + 1, at_came + 1);
    }
    marked.extend(pair(&said[next_said..], &came[next_came..]));
    marked
}

/// Line by line, as far as either goes.
fn pair(said: &[String], came: &[Came]) -> Vec<Marked> {
    let marked = (0..said.len().max(came.len())).map(|at| {
        let (said, line) = (said.get(at), came.get(at).map(|came| &came.line));
        let right = matches!((said, line), (Some(said), Some(line)) if is_same(said, line));
        let is = line.map_or("nothing", String::as_str).to_string();
        Marked { said: said.cloned(), is: (!right).then_some(is) }
    });
    marked.collect()
}

/// What was said without the place of a refusal, where it stands behind a refusal of the same file.
fn without_places(said: &[String], came: &[Came]) -> Vec<String> {
    let subject = |line: &str| refusal(line).map(|refusal| letters(&refusal.subject));
    let place = |came: &Came| Some((subject(&came.line)?, letters(came.place.as_ref()?)));
    let places: HashSet<(String, String)> = came.iter().filter_map(place).collect();
    let is_place = |at: usize| {
        let before = at.checked_sub(1).and_then(|before| subject(&said[before]));
        before.is_some_and(|subject| places.contains(&(subject, letters(&said[at]))))
    };
    (0..said.len()).filter(|&at| !is_place(at)).map(|at| said[at].clone()).collect()
}

/// The places of lines that are the same, rising in both and as many as there are: those at both ends, and between them a longest common row.
fn in_common(said: &[String], came: &[Came]) -> Vec<(usize, usize)> {
    let same = |at_said: usize, at_came: usize| is_same(&said[at_said], &came[at_came].line);
    let shorter = said.len().min(came.len());
    let front = (0..shorter).take_while(|&at| same(at, at)).count();
    let behind = |back: usize| (said.len() - back, came.len() - back);
    let back = (1..=shorter - front)
        .take_while(|&back| {
            let (at_said, at_came) = behind(back);
            same(at_said, at_came)
        })
        .count();
    let (end_said, end_came) = behind(back);
    let middle = longest_row(&said[front..end_said], &came[front..end_came]);
    let middle = middle.into_iter().map(|(at_said, at_came)| (front + at_said, front + at_came));
    (0..front).map(|at| (at, at)).chain(middle).chain((1..=back).rev().map(behind)).collect()
}

/// A longest row of lines that stand in both in one order; none where there are too many lines to look for it.
fn longest_row(said: &[String], came: &[Came]) -> Vec<(usize, usize)> {
    if said.len().saturating_mul(came.len()) > MOST_PAIRS {
        return Vec::new();
    }
    let said: Vec<Read> = said.iter().map(|line| Read::of(line)).collect();
    let came: Vec<Read> = came.iter().map(|came| Read::of(&came.line)).collect();
    // how long a row from here on is
    let width = came.len() + 1;
    let mut longest = vec![0_u32; (said.len() + 1) * width];
    for (at_said, line) in said.iter().enumerate().rev() {
        for (at_came, is) in came.iter().enumerate().rev() {
            let at = at_said * width + at_came;
            longest[at] = match line.is_same(is) {
                true => longest[at + width + 1] + 1,
                false => longest[at + width].max(longest[at + 1]),
            };
        }
    }
    let (mut row, mut at_said, mut at_came) = (Vec::new(), 0, 0);
    while at_said < said.len() && at_came < came.len() {
        let at = at_said * width + at_came;
        if said[at_said].is_same(&came[at_came]) {
            row.push((at_said, at_came));
            (at_said, at_came) = (at_said + 1, at_came + 1);
        } else if longest[at + width] >= longest[at + 1] {
            at_said += 1;
        } else {
            at_came += 1;
        }
    }
    row
}

/// A line as it is compared many times: first by its letters, which most pairs of lines do not share.
struct Read<'a> {
    line: &'a str,
    letters: String,
    /// Up to the number of a refusal.
    head: Option<String>,
}

impl<'a> Read<'a> {
    fn of(line: &'a str) -> Read<'a> {
        let head = refusal(line).map(|refusal| letters(&refusal.head()));
        Read { line, letters: letters(line), head }
    }

    /// Whether this, which was said, is the line.
    fn is_same(&self, line: &Read) -> bool {
        let may_be = self.letters == line.letters || self.head.is_some() && self.head == line.head;
        may_be && is_same(self.line, line.line)
    }
}

/// All but the blanks, in capitals.
fn letters(text: &str) -> String {
    text.split_whitespace().collect::<String>().to_ascii_uppercase()
}

/// Whether what was said is the line. Small letters do not count, nor do the words after a refusal's number; but no further number may
/// stand behind it, as in `refused 12 or 13`, unless a colon does.
pub fn is_same(said: &str, line: &str) -> bool {
    match refusal(line).filter(Refusal::has_words).zip(refusal(said)) {
        Some((line, said)) => said.leaves_it_at_one_number() && is_same_text(&said.head(), &line.head()),
        None => is_same_text(said, line),
    }
}

/// Blanks do not count: there may be more of them or fewer than in the line. But what is one word of the line is not said as two, and
/// not with blanks at other places: neither `1=A 12=5C` nor `1=A12 =5C` is `1=A1 2=5C`.
fn is_same_text(said: &str, line: &str) -> bool {
    if letters(said) != letters(line) {
        return false;
    }
    let (ours, theirs) = (blanks(line), blanks(said));
    let fewer = theirs.iter().all(|blank| ours.contains(blank));
    let parts_no_word = |&(_, parts_word): &(usize, bool)| !parts_word;
    let more = ours.iter().all(|blank| theirs.contains(blank))
        && theirs.iter().filter(|blank| !ours.contains(blank)).all(parts_no_word);
    fewer || more
}

/// Where blanks stand: how many characters that are no blanks stand in front, and whether they part letters or digits.
fn blanks(text: &str) -> Vec<(usize, bool)> {
    let words: Vec<&str> = text.split_whitespace().collect();
    let is_part = |letter: Option<char>| letter.is_some_and(char::is_alphanumeric);
    let mut count = 0;
    let places = words.windows(2).map(|pair| {
        count += pair[0].chars().count();
        (count, is_part(pair[0].chars().last()) && is_part(pair[1].chars().next()))
    });
    places.collect()
}

/// A line with a refusal: `plant.cluster: refused 3: the edition`.
struct Refusal {
    /// What stands in front of it.
    subject: String,
    number: String,
    /// What stands behind the number, from the sign on.
    words: String,
}

impl Refusal {
    /// Up to the number.
    fn head(&self) -> String {
        format!("{} refused {}", self.subject, self.number)
    }

    /// The engine's own refusals have; the count of refused frames in a report has none.
    fn has_words(&self) -> bool {
        self.words.starts_with(':')
    }

    fn leaves_it_at_one_number(&self) -> bool {
        let is_digit = |letter: char| letter.is_ascii_digit();
        match self.words.strip_prefix(':') {
            Some(words) => !words.trim_start().starts_with(is_digit),
            None => !self.words.contains(is_digit),
        }
    }
}

fn refusal(line: &str) -> Option<Refusal> {
    let words: Vec<&str> = line.split_whitespace().collect();
    let digits = |word: &str| word.bytes().take_while(u8::is_ascii_digit).count();
    let is_number = |word: &str| match digits(word) {
        0 => false,
        end => !word[end..].starts_with(|letter: char| letter.is_alphanumeric()),
    };
    let place =
        words.windows(2).position(|pair| pair[0].eq_ignore_ascii_case("refused") && is_number(pair[1]))?;
    let (number, sign) = words[place + 1].split_at(digits(words[place + 1]));
    Some(Refusal {
        subject: words[..place].join(" "),
        number: number.to_string(),
        words: format!("{sign} {}", words[place + 2..].join(" ")),
    })
}

#[cfg(test)]
mod tests {
    use super::*;

    #[test]
    fn blanks_and_words_after_the_number_do_not_count() {
        let same = |said: &str, is: &str| assert!(is_same(said, is), "{said}");
        let other = |said: &str, is: &str| assert!(!is_same(said, is), "{said}");
        same("1=A1   2=5C", "1=A1 2=5C");
        same("1=a1 2=5c", "1=A1 2=5C");
        same("1 = A1  2 =5C", "1=A1 2=5C");
        same("1=A12=5C", "1=A1 2=5C");
        same("550201F402A0", "55 02 01 F4 02 A0");
        same("refused 12", "refused 12: the check byte");
        same("Refused 12: it does not fit", "refused 12: the check byte");
        same("x: refused 3: any words", "x: refused 3: the edition");
        same("refused 12, since it does not fit", "refused 12: the check byte");
        same("refused 12 (the check byte)", "refused 12: the check byte");
        same("refused 12: byte 5 is wrong", "refused 12: the check byte");
        other("refused 12 or 13", "refused 12: the check byte");
        other("refused 12:13", "refused 12: the check byte");
        other("refused 12: 13", "refused 12: the check byte");
        other("refused 12, 13", "refused 12: the check byte");
        other("refused 12a", "refused 12: the check byte");
        other("refused 12B", "refused 12: the check byte");
        other("pl änt.cluster: accepted", "plänt.cluster: accepted");
        // the number of a report is no refusal's
        other("5 frames: refused 1 and more", "5 frames: refused 1");
        other("refused 12", "refused 1: 2");
        other("refused 12", "refused 13: the check byte");
        other("y: refused 3", "x: refused 3: the edition");
        other("1=A1", "1=A1 2=5C");
        other("refused", "refused 3");
        // another slot, and bytes that are no bytes
        other("1=A 12=5C", "1=A1 2=5C");
        other("1=A12 =5C", "1=A1 2=5C");
        other("1=1 1", "1=11");
        other("00 1 0000000700000042", "0 01 0000000700000042");
        other("55 020 1 F4", "55 02 01 F4");
        // blanks beside a sign part no word, those within a byte do
        same("1= A1", "1=A1");
        other("1 =A 1", "1=A1");
        other("sil ence", "silence");
        // the first number is the refusal's
        same("refused 12: it is not refused 3 here", "refused 12: the check byte");
        // all that stands in front of the number counts
        other(
            "5 frames: MSA 2, MSD 1, multipartner 2, refused 1",
            "5 frames: MSA 1, MSD 1, multipartner 2, refused 1",
        );
        other("a: b: refused 1", "c: b: refused 1: words");
        // no number, no refusal
        other("a refused frame is counted", "a refused frame is lost");
        other("refused B1 or B2", "refused B1 or B3");
    }

    fn came_of(lines: &[&str]) -> Vec<Came> {
        lines.iter().map(|line| Came { line: line.to_string(), place: None }).collect()
    }

    /// What is marked, as `said/is`, `is` empty where it is right.
    fn aligned(said: &[&str], came: &[Came]) -> Vec<String> {
        let said: Vec<String> = said.iter().map(|line| line.to_string()).collect();
        let told =
            |marked: Marked| format!("{}/{}", marked.said.unwrap_or_default(), marked.is.unwrap_or_default());
        align(&said, came).into_iter().map(told).collect()
    }

    #[test]
    fn lines_too_few_and_too_many_are_wrong() {
        assert_eq!(aligned(&["a", "x"], &came_of(&["a", "b", "c"])), ["a/", "x/b", "/c"]);
        assert_eq!(aligned(&["a"], &[]), ["a/nothing"]);
        assert_eq!(aligned(&[], &[]), Vec::<String>::new());
    }

    /// One that is wrong by itself does not make those behind it wrong.
    #[test]
    fn lines_behind_one_left_out_are_compared_with_their_own() {
        let came = came_of(&["a", "b", "c", "d"]);
        assert_eq!(aligned(&["a", "c", "d"], &came), ["a/", "/b", "c/", "d/"]);
        assert_eq!(aligned(&["a", "x", "b", "c", "d"], &came), ["a/", "x/nothing", "b/", "c/", "d/"]);
        assert_eq!(aligned(&["a", "x", "c", "d"], &came), ["a/", "x/b", "c/", "d/"]);
        assert_eq!(aligned(&["b", "a", "c", "d"], &came).len(), 5);
        // one that is right further on does not pull the others away
        assert_eq!(aligned(&["d", "x", "c", "d"], &came), ["d/a", "x/b", "c/", "d/"]);
        assert_eq!(aligned(&["b", "x", "c", "d"], &came).iter().filter(|line| line.ends_with('/')).count(), 3);
        assert_eq!(aligned(&["d"], &came), ["/a", "/b", "/c", "d/"]);
        assert_eq!(aligned(&["a", "a", "b"], &came), ["a/", "a/nothing", "b/", "/c", "/d"]);
        // wrong in its place, though it would be right further on
        assert_eq!(aligned(&["c", "b", "c"], &came), ["c/a", "b/", "c/", "/d"]);
        assert_eq!(aligned(&["d", "a", "b"], &came), ["d/nothing", "a/", "b/", "/c", "/d"]);
    }

    /// Up to a thousand lines on both sides the right ones are found wherever they stand; of more those at the ends.
    #[test]
    fn of_very_many_lines_only_the_ends_are_looked_for() {
        let right = |count: usize| {
            let lines: Vec<String> = (0..count).map(|at| format!("line {at}")).collect();
            let came = came_of(&lines.iter().map(String::as_str).collect::<Vec<_>>());
            let said = [&["x".to_string()][..], &lines[..count - 1]].concat();
            let ends = [&lines[..5], &["x".to_string()], &said[5..count - 5], &lines[count - 5..]].concat();
            let count = |said: &[String]| align(said, &came).iter().filter(|line| line.is.is_none()).count();
            (count(&said), count(&ends))
        };
        assert_eq!(right(1_000).0, 999);
        assert_eq!(right(1_001).0, 0);
        assert_eq!(right(1_100).1, 10);
    }

    #[test]
    fn the_place_of_a_refusal_may_be_said_or_not() {
        let output =
            "x: refused 3: words\n  byte 2: edition 3\ny: accepted\n  more\nz: refused 4: w\n  byte 6\n";
        let lines = came(output);
        let place =
            |line: &str, place: Option<&str>| Came { line: line.to_string(), place: place.map(String::from) };
        assert_eq!(
            lines,
            [
                place("x: refused 3: words", Some("byte 2: edition 3")),
                place("y: accepted", None),
                place("more", None),
                place("z: refused 4: w", Some("byte 6")),
            ]
        );
        let rest = ["y: accepted", "more", "z: refused 4"];
        let said = |first: &[&str]| aligned(&[first, &rest].concat(), &lines);
        let right = ["x: refused 3/", "y: accepted/", "more/", "z: refused 4/"];
        assert_eq!(said(&["x: refused 3"]), right);
        assert_eq!(said(&["x: refused 3", "byte 2: edition 3"]), right);
        // that of another refusal is not its own
        let other = ["x: refused 3/", "byte 6/nothing", "y: accepted/", "more/", "z: refused 4/"];
        assert_eq!(said(&["x: refused 3", "byte 6"]), other);
        // nor is a further line, nor that of a refusal that was left out
        let more = came("x: refused 3: words\n  byte 6\n  byte 7\n byte 6\n");
        assert_eq!(more[1..], [place("byte 7", None), place("byte 6", None)]);
        assert_eq!(aligned(&["byte 6"], &more), ["/x: refused 3: words", "/byte 7", "byte 6/"]);
    }
}
