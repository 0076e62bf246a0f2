//! `ttpa trace --answers` against `ttpa round`, and traces to text and back.

mod common;

use common::{called, counted, Folder};
use compare::draws::random::Random;
use compare::draws::{clusters, traces};
use program::console::Status;
use std::fs;

const TIMES: usize = 200;

/// A trace and the cluster that it is run on, by their paths in the folder.
struct Site {
    folder: Folder,
}

impl Site {
    fn new(name: &str) -> Site {
        Site { folder: Folder::new(name) }
    }

    fn path(&self, name: &str) -> String {
        self.folder.join(name).to_string_lossy().into_owned()
    }

    fn put(&self, name: &str, bytes: &[u8]) {
        fs::write(self.folder.join(name), bytes).expect("a file");
    }

    fn taken(&self, name: &str) -> Vec<u8> {
        fs::read(self.folder.join(name)).expect("a file")
    }
}

/// Frames that are all in the text of frames: none of them empty.
fn has_empty_frames(trace: &[u8]) -> bool {
    program::trace_file::frames(trace).is_ok_and(|frames| frames.iter().any(|frame| frame.is_empty()))
}

/// The record of a trace is what `round` says of its frames as text, and both leave one file.
#[test]
fn answers_are_those_of_round() {
    let site = Site::new("answers");
    let mut random = Random::from_seed(40);
    let (mut same, mut refused) = (0, 0);
    for _ in 0..TIMES {
        let cluster = clusters::cluster(&mut random);
        let trace = traces::trace(&mut random, &cluster);
        site.put("plant.cluster", &cluster.encode());
        site.put("site.trace", &trace);
        let [plant, site_trace, left, singly] =
            ["plant.cluster", "site.trace", "left.cluster", "singly.cluster"].map(|name| site.path(name));
        let traced =
            called(&["trace", &plant, &site_trace, "--answers", "--save", &left, "--equal-names"], b"");
        if traced.status != Status::Accepted {
            assert_eq!((traced.status, traced.output.len()), (Status::Refused, 0));
            refused += 1;
            continue;
        }
        let frames = called(&["unpack", &site_trace], b"");
        assert_eq!(frames.status, Status::Accepted, "{}", frames.messages);
        site.put("frames.txt", &frames.output);
        hold_packed(&site, &trace);
        if has_empty_frames(&trace) {
            continue;
        }
        let frames = site.path("frames.txt");
        let sent = called(&["round", &plant, &frames, "--save", &singly, "--equal-names"], b"");
        let told = String::from_utf8_lossy(&traced.output).into_owned();
        let (record, report) = told.trim_end().rsplit_once('\n').unwrap_or(("", told.trim_end()));
        assert_eq!(String::from_utf8_lossy(&sent.output).trim_end(), record, "{trace:02X?}");
        assert_eq!(site.taken("left.cluster"), site.taken("singly.cluster"), "{trace:02X?}");
        hold_report(report, record);
        same += 1;
    }
    assert!(same > TIMES / 4 && refused > TIMES / 50, "{same} and {refused} refused");
    counted("traces", same);
}

/// The text of a trace makes the same trace.
fn hold_packed(site: &Site, trace: &[u8]) {
    let [frames, again] = ["frames.txt", "again.trace"].map(|name| site.path(name));
    let packed = called(&["pack", &frames, &again], b"");
    assert_eq!((packed.status, packed.output.len()), (Status::Accepted, 0), "{}", packed.messages);
    assert_eq!(site.taken("again.trace"), trace);
}

/// The numbers of the report are those that the record has.
fn hold_report(report: &str, record: &str) {
    let lines: Vec<&str> = record.lines().collect();
    let taken: Vec<&&str> = lines.iter().filter(|line| !line.contains("> refused ")).collect();
    let count = |firework: &str| taken.iter().filter(|line| line.starts_with(firework)).count();
    let (msa, msd) = (count("55"), count("49"));
    let word = if lines.len() == 1 { "frame" } else { "frames" };
    let expected = format!(
        "{} {word}: MSA {msa}, MSD {msd}, multipartner {}, refused {}",
        lines.len(),
        taken.len() - msa - msd,
        lines.len() - taken.len()
    );
    assert_eq!(report, expected);
}

/// Frames as text, packed and unpacked again; or why not.
fn packed(site: &Site, text: &str) -> Result<String, String> {
    let trace = site.path("packed.trace");
    let _ = fs::remove_file(&trace);
    let packed = called(&["pack", "-", &trace], text.as_bytes());
    if packed.status != Status::Accepted {
        assert!(fs::metadata(&trace).is_err(), "{}", packed.messages);
        return Err(packed.messages);
    }
    Ok(String::from_utf8_lossy(&called(&["unpack", &trace], b"").output).into_owned())
}

/// The bounds of a trace: its frames, and the bytes of one.
#[test]
fn what_no_trace_holds_is_not_packed() {
    let site = Site::new("bounds");
    // the epoch of a fresh cluster is 00, that of its first round 01
    assert_eq!(packed(&site, "read 01 3D 02"), Ok("55 01 01 F4 02 A3\n49\n".to_string()));
    assert_eq!(
        packed(&site, "empty 01"),
        Err("standard input:1: 'empty' is no byte (hexadecimal, at most FF)\n".to_string())
    );
    let long = |bytes: usize| format!("{}\n", vec!["BA"; bytes].join(" "));
    assert_eq!(packed(&site, &long(255)), Ok(long(255)));
    let words = "standard input:1: 256 bytes, a frame of a trace has at most 255\n";
    assert_eq!(packed(&site, &long(256)), Err(words.to_string()));
    let many = |frames: usize| packed(&site, &"BA\n".repeat(frames));
    assert_eq!(many(4095), Ok("BA\n".repeat(4095)));
    let most = ttpa::MOST_TRACE_BYTES;
    for frames in [4096, most + 1] {
        let refused = many(frames).err().unwrap_or_default();
        assert!(refused.starts_with("ttpa: standard input: refused "), "{refused}");
    }
    let words = format!("standard input:{}: no trace has more than {most} frames\n", most + 2);
    assert_eq!(many(most + 2), Err(words));
}

#[test]
fn a_trace_without_frames_is_one() {
    let site = Site::new("no-frames");
    let demo = common::here("../../c/demo.cluster").to_string_lossy().into_owned();
    assert_eq!(packed(&site, ""), Ok(String::new()));
    let came = called(&["trace", &demo, &site.path("packed.trace")], b"");
    assert_eq!(String::from_utf8_lossy(&came.output), "0 frames: MSA 0, MSD 0, multipartner 0, refused 0\n");
}

/// One byte of a good trace changed, or bytes of no meaning: a status, and a file only where it was accepted.
#[test]
fn a_trace_of_any_content_ends_with_a_status() {
    let site = Site::new("any-trace");
    let mut random = Random::from_seed(41);
    let mut ends = [0; 3];
    for turn in 0..2_000 {
        let cluster = clusters::cluster_of(&mut random, 3);
        let mut trace = traces::trace(&mut random, &cluster);
        if turn % 2 == 0 || trace.is_empty() {
            let length = random.between(0, 60);
            trace = random.bytes(length);
        } else {
            let place = random.below(trace.len());
            trace[place] = random.byte();
        }
        site.put("plant.cluster", &cluster.encode());
        site.put("site.trace", &trace);
        let [plant, site_trace, out] =
            ["plant.cluster", "site.trace", "out.cluster"].map(|name| site.path(name));
        let _ = fs::remove_file(&out);
        let traced = called(&["trace", &plant, &site_trace, "--answers", "--save", &out, "--equal-names"], b"");
        let unpacked = called(&["unpack", &site_trace], b"");
        for came in [&traced, &unpacked] {
            ends[came.status as usize] += 1;
            assert!(!came.output.contains(&0x1b) && !came.messages.contains('\x1b'), "{trace:02X?}");
        }
        assert_eq!(traced.status, unpacked.status, "{trace:02X?}");
        assert_eq!(fs::metadata(&out).is_ok(), traced.status == Status::Accepted, "{trace:02X?}");
    }
    assert!(ends[0] > 200 && ends[1] > 200 && ends[2] == 0, "{ends:?}");
    counted("rough/traces", ends.iter().sum());
}
