//! Every drawn text is that of a cluster that the engine accepts, with as many slaves as were asked for, and another one for
//! another seed.

mod common;

use common::{called, counted};
use program::console::Status;
use std::collections::BTreeSet;

fn drawn(seed: &str, slaves: usize, unnamed: usize) -> Vec<u8> {
    let (slaves, unnamed) = (slaves.to_string(), unnamed.to_string());
    let called = called(&["draw", seed, "--slaves", &slaves, "--unnamed", &unnamed], b"");
    assert_eq!((called.status, called.messages.as_str()), (Status::Accepted, ""));
    called.output
}

#[test]
fn each_text_makes_a_file() {
    let mut made_of = 0;
    for slaves in 0..=64 {
        for unnamed in [0, slaves / 2, slaves] {
            let text = drawn(&format!("{slaves} {unnamed}"), slaves, unnamed);
            let made = called(&["make", "-", "-"], &text);
            assert_eq!(made.status, Status::Accepted, "{}", made.messages);
            let names = ttpa::Summary::of(&made.output).expect("a summary").names().to_vec();
            let without = names.iter().filter(|&&name| name == ttpa::NAME_UNNAMED).count();
            assert_eq!((names.len(), without), (slaves, unnamed));
            assert_eq!(made.output[2], if slaves > 32 { 2 } else { 1 });
            made_of += 1;
        }
    }
    counted("drawn", made_of);
}

/// In the round that the text has entries for, someone sends for each slave that is not unnamed.
#[test]
fn the_named_send() {
    let folder = common::Folder::new("drawn");
    let path = folder.join("drawn.cluster");
    let rounds = b"round 0\nround 2\nround 3\nround 4\nround 6\nround 7\n";
    for seed in 0..100 {
        let made = called(&["make", "-", "-"], &drawn(&seed.to_string(), 6, 2));
        std::fs::write(&path, &made.output).expect("a cluster file");
        let record = called(&["round", &path.to_string_lossy()], rounds);
        let record = String::from_utf8_lossy(&record.output).into_owned();
        assert_eq!((record.matches('=').count(), record.matches("silence").count()), (4, 5), "{record}");
    }
}

#[test]
fn another_seed_gives_another_text() {
    let without_comment =
        |text: Vec<u8>| text.into_iter().skip_while(|&byte| byte != b'\n').collect::<Vec<u8>>();
    let texts: BTreeSet<Vec<u8>> =
        (0..1000).map(|seed| without_comment(drawn(&seed.to_string(), 4, 2))).collect();
    assert_eq!(texts.len(), 1000);
    assert_eq!(drawn("7", 4, 2), drawn("7", 4, 2));
}
