//! The crate's constants are those of include/ttpa.h: none is missing and none differs.

use ttpa::calls;

const HEADER: &str = include_str!("../../../include/ttpa.h");

/// The library's code and stack, measured: the header alone states them.
const SIZES: [&str; 2] = ["CODE_BYTES", "STACK_BYTES"];

/// The crate's constants by name, as numbers.
macro_rules! constants {
    ($($module:ident: $($name:ident)*;)*) => { [$($((stringify!($name), $module::$name as u64)),*),*] };
}

const CONSTANTS: &[(&str, u64)] = &constants! {
    ttpa: ANSWER_BYTES FRAME_BYTES MOST_FILE_BYTES MOST_TRACE_BYTES MOST_OWNER_BYTES MOST_SLAVES
        EDITION_1_FILE_BYTES EDITION_1_SLAVES SLAVE_FILE_BYTES WIDENED_BYTES SCREENS_BYTES
        FIREWORK_MSA FIREWORK_MSD FIREWORK_ROUND_0 FIREWORK_ROUND_2 FIREWORK_ROUND_3 FIREWORK_ROUND_4
        FIREWORK_ROUND_6 FIREWORK_ROUND_7
        OPERATION_READ OPERATION_WRITE OPERATION_EXECUTE
        NAME_BROADCAST NAME_UNNAMED FILE_CONFIGURATION FILE_DOCUMENTATION RECORD_SLEEP;
    calls: ADDRESS_PARTS PART_EPOCH PART_NAME PART_FILE PART_OPERATION PART_RECORD
        RUN_WORDS RUN_END RUN_INDEX RUN_STEP RUN_VALUE RUN_ROUNDS RUN_COMPARISONS RUN_HIGH RUN_LOW
        RUNNING ALL_NAMED NAMES_USED_UP
        REPORT_WORDS REPORT_MSA REPORT_MSD REPORT_MULTIPARTNER REPORT_REFUSED REPORT_SUM
        OWNER_RECORD_BYTES OWNER_INDEX NOBODY NO_SCREEN DATA_BYTE FIREWORK BROKEN;
};

/// Name, without TTPA_, and value of each constant that the header defines.
fn defined() -> impl Iterator<Item = (&'static str, &'static str)> {
    let definitions = HEADER.lines().filter_map(|line| line.strip_prefix("#define TTPA_"));
    definitions.filter_map(|definition| definition.split_once(' ')).map(|(name, value)| {
        let value = value.split("/*").next().unwrap_or(value);
        (name, value.trim())
    })
}

fn number(value: &str) -> Option<u64> {
    match value.strip_prefix("0x") {
        Some(digits) => u64::from_str_radix(digits, 16).ok(),
        None if value == "UINT64_MAX" => Some(u64::MAX),
        None => value.parse().ok(),
    }
}

/// What the header names after a thing alone, the crate names as its most bytes.
fn crate_name(name: &str) -> String {
    match name {
        "FILE_BYTES" | "TRACE_BYTES" | "OWNER_BYTES" => format!("MOST_{name}"),
        _ => name.to_string(),
    }
}

#[test]
fn the_constants_are_those_of_the_header() {
    let of_calls = defined().filter(|(name, _)| !name.starts_with("VERSION") && !SIZES.contains(name));
    let mut wanted: Vec<_> = of_calls.map(|(name, value)| (crate_name(name), number(value))).collect();
    let mut found: Vec<_> = CONSTANTS.iter().map(|&(name, value)| (name.to_string(), Some(value))).collect();
    wanted.sort();
    found.sort();
    assert_eq!(found, wanted);
}

#[test]
fn the_version_is_that_of_the_header_and_of_the_library() {
    let part = |wanted| defined().find(|(name, _)| *name == wanted).and_then(|(_, value)| number(value));
    let parts = ["VERSION_MAJOR", "VERSION_MINOR", "VERSION_PATCH"].map(part);
    let [Some(major), Some(minor), Some(patch)] = parts else { panic!("{parts:?}") };
    assert_eq!(u64::from(ttpa::VERSION), 10_000 * major + 100 * minor + patch);
    assert_eq!(ttpa::version(), ttpa::VERSION);
    assert_eq!(ttpa::check_version(), Ok(()));
}

#[test]
fn another_version_is_told_with_both() {
    let crate_version = env!("CARGO_PKG_VERSION");
    let told = ttpa::VersionMismatch { library: 7_10_03 }.to_string();
    assert_eq!(told, format!("the linked library is version 7.10.3, and not {crate_version}"));
}
