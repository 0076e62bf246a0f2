//! The page and the drawn sentences of small sources that are made here.

use reach::source::{contracts, held, module};
use reach::Specs;
use specification::draw;
use specification::order::Order;
use specification::page::page;
use specification::sentences::{sections, Section};
use specification::sources::Sources;

const ORDER: &str = "text What it is.\nword ℕ the numbers\npart Bytes\nsentences Bytes\nmodule file/Rules/Sum\nmodule file/Rules/Byte\n\
    part Rounds\nsentences Rounds\nmodule file/Claims/Exact\naside Ten are tested\n";

const CLAIMS: &str =
    "# Claims\n\nNo section yet.\n\n## Bytes\n\nAll bytes.\n\n**A byte is below 256.** So it is.\n\
    - defined: `file/specs/Rules/Byte` limit\n- holds by: `file/src/sums` sum\n\n\
    **The sum is of two.**\n**It has a limit.**\n- defined: `file/specs/Rules/Sum` sum\n\
    - holds by: `file/proofs/Sums` sum_limited; law: `file/proofs/Sums` step\n\n\
    ## Rounds\n**Ten are tested.**\n- tested: file_cases\n\n**A byte again.** See \"Bytes\".\n";

const BYTE: &str =
    "-- What a byte is.\nuse Rattle.std.specs.Prelude.{ℕ}\n\n-- ---- the limit, which\n-- no byte has\n\n\
    -- \"A byte is below 256.\"\nabbrev pub limit : ℕ\nlimit = 256\n";

const SUM: &str = "use Rattle.std.specs.Prelude.{ℕ}\nuse Rattle.file.specs.Rules.Byte.{limit as most}\n\n\
    pub record Pair : Type 0 where\n  pub first : ℕ\n  -- the other\n  pub second : ℕ\n\n\
    unfoldable pub sum : Pair → ℕ\nsum p = p.first\n";

const EXACT: &str =
    "use Rattle.file.specs.Rules.Sum.{sum}\n\nabbrev pub SumLimited : Type 0\nSumLimited = sum\n";

const CLAIMED: &str =
    "use Rattle.file.specs.Claims.Exact.{SumLimited}\nuse Rattle.file.proofs.Sums.{sum_limited}\n\n\
    pub held_sum_limited : SumLimited\nheld_sum_limited = sum_limited\n";

const CODE: &str = "ghost use Rattle.file.specs.Rules.Sum.{sum as the_sum};\n\npub fn sum(pair: &Pair) -> u8\n\
    \x20   ensures { result ≡\n        the_sum pair.now }\n{\n    0\n}\n";

fn sources(modules: &[(&str, &str)], claimed: &str) -> Sources {
    let modules = modules.iter().map(|&(path, text)| (path.to_string(), module(text))).collect();
    let programs = vec![("file/src/sums".to_string(), contracts(CODE, |_| true))];
    Sources::new(Specs::new(modules), held(claimed), programs)
}

fn all_sources() -> Sources {
    sources(&[("file/Rules/Byte", BYTE), ("file/Rules/Sum", SUM), ("file/Claims/Exact", EXACT)], CLAIMED)
}

fn order(text: &str) -> Order {
    Order::new(text).expect("the order is read")
}

fn claims() -> Vec<Section> {
    sections(CLAIMS)
}

fn made() -> String {
    page(&order(ORDER), &claims(), &all_sources()).expect("everything has a place")
}

/// What is wrong with an order, over all sources.
fn wrong(text: &str) -> Vec<String> {
    page(&order(text), &claims(), &all_sources()).expect_err("something is wrong")
}

/// Where texts stand on the page, each once.
fn places(page: &str, texts: &[&str]) -> Vec<usize> {
    texts
        .iter()
        .map(|text| {
            assert_eq!(page.matches(text).count(), 1, "{text}");
            page.find(text).unwrap_or_default()
        })
        .collect()
}

#[test]
fn sentences_come_before_definitions_and_these_before_their_use_and_before_claims() {
    let page = made();
    let texts = [
        "What it is.",
        "1. [Bytes](#part-1): 3 sentences, 3 definitions, 0 claims",
        "2. [Rounds](#part-2): 2 sentences, 0 definitions, 1 claims",
        "| `ℕ` | the numbers |",
        "</a>1. Bytes",
        "> A byte is below 256.",
        "So it is.",
        "> It has a limit.",
        "limit = 256",
        "sum p = p.first",
        "</a>2. Rounds",
        "SumLimited = sum",
        "</a>Index of names",
    ];
    let places = places(&page, &texts);
    assert!(places.is_sorted(), "{places:?}");
}

#[test]
fn the_same_sources_give_the_same_bytes() {
    assert_eq!(made(), made());
}

#[test]
fn definitions_stand_as_they_are_without_the_checkers_words() {
    let page = made();
    assert!(page.contains(
        "```\nrecord Pair : Type 0 where\n  first : ℕ\n  -- the other\n  second : ℕ\n\nsum : Pair → ℕ\nsum p = p.first\n```"
    ));
    assert!(page.contains(
        "**the limit, which no byte has**\n\n```\n-- \"A byte is below 256.\"\nlimit : ℕ\nlimit = 256\n```"
    ));
    assert!(!page.contains("Prelude"));
}

#[test]
fn a_name_that_was_changed_on_import_is_explained() {
    assert!(made().contains("Meant here: `most` is `limit` in [file/Rules/Byte](#file-Rules-Byte)."));
}

#[test]
fn links_lead_to_code_and_proof() {
    let page = made();
    assert!(page.contains("- `sum` is computed by `sum` in [file/src/sums](../crates/file/src/sums.rt)"));
    assert!(page.contains(
        "Theorem `sum_limited` in [file/proofs/Sums](../crates/file/proofs/Sums.antt). \
         Code: `sum` in [file/src/sums](../crates/file/src/sums.rt)."
    ));
    assert!(page.contains("- Claimed: [`SumLimited`](#file-Claims-Exact-SumLimited)"));
    assert!(page.contains("<a id=\"file-Claims-Exact-SumLimited\"></a>"));
}

#[test]
fn a_rule_without_a_place_is_refused() {
    let without = ORDER.replace("module file/Rules/Byte\n", "");
    assert_eq!(wrong(&without), ["no part of the order has the module file/Rules/Byte"]);
}

#[test]
fn a_place_without_a_rule_and_two_places_are_refused() {
    let more = format!("{ORDER}module file/Rules/Gone\nmodule file/Rules/Byte\n");
    assert_eq!(
        wrong(&more),
        [
            "the order has the module file/Rules/Gone, which is not there",
            "the order has the module file/Rules/Byte twice"
        ]
    );
}

#[test]
fn sentences_without_a_place_are_refused() {
    let without = ORDER.replace("sentences Rounds\n", "");
    assert_eq!(wrong(&without), ["no part of the order has the section Rounds"]);
}

#[test]
fn a_claim_without_theorem_is_refused() {
    let record =
        "use Rattle.file.specs.Rules.Sum.{sum}\n\nabbrev pub SumLimited : Type 0\nSumLimited = Data\n\n\
        pub record Data : Type 0 where\n  pub one : sum\n\npub record Whole : Type 0 where\n  pub all : sum\n";
    let modules = [("file/Rules/Byte", BYTE), ("file/Rules/Sum", SUM), ("file/Claims/Exact", record)];
    let wrong = |claimed: &str| {
        page(&order(ORDER), &claims(), &sources(&modules, claimed)).expect_err("a claim has no theorem")
    };
    // another definition speaks of Data
    assert_eq!(wrong(CLAIMED), ["the claim Whole of file/Claims/Exact has no theorem"]);
    assert_eq!(
        wrong(""),
        [
            "the claim SumLimited of file/Claims/Exact has no theorem",
            "the claim Whole of file/Claims/Exact has no theorem"
        ]
    );
}

#[test]
fn a_definition_behind_its_use_is_refused() {
    let later = ORDER.replace("module file/Rules/Byte\n", "") + "module file/Rules/Byte\n";
    assert_eq!(wrong(&later), ["file/Rules/Sum uses file/Rules/Byte, which does not stand before it"]);
}

#[test]
fn a_word_of_a_library_is_explained() {
    let without = ORDER.replace("word ℕ the numbers\n", "word List a list\n");
    assert_eq!(
        wrong(&without),
        ["the order has the word List, which is not there", "no part of the order has the word ℕ"]
    );
}

#[test]
fn a_line_of_another_kind_is_refused() {
    assert!(Order::new("chapter Bytes\n").is_err());
    assert!(Order::new("module file/Rules/Byte\n").is_err());
}

#[test]
fn every_sentence_has_a_definition_or_is_named_as_one_without() {
    let told = draw::all(&order(ORDER), &claims(), &all_sources());
    assert_eq!((told.passed, told.wrong.len()), (3, 0), "{:?}", told.wrong);
    assert_eq!(told.lines.iter().filter(|line| line.contains(": aside (")).count(), 2);
}

#[test]
fn a_sentence_without_definition_fails() {
    let strict = order(&ORDER.replace("aside Ten are tested\n", "aside A byte is\naside Eleven\n"));
    let told = draw::all(&strict, &claims(), &all_sources());
    assert_eq!(
        told.wrong,
        [
            "Bytes: aside, but defined: A byte is below 256.",
            "Rounds: no definition or no theorem: Ten are tested.",
            "no sentence begins with: Eleven"
        ]
    );
    let nowhere = CLAIMS.replace("See \"Bytes\"", "See \"Bits\"");
    let told = draw::all(&order(ORDER), &sections(&nowhere), &all_sources());
    assert_eq!(told.wrong, ["Rounds: no definition or no theorem: A byte again."]);
}

#[test]
fn a_drawn_sentence_comes_with_its_texts() {
    let (claims, sources) = (claims(), all_sources());
    let every = draw::drawn(&claims, &sources, 9, 1).join("\n");
    for text in [
        "\"A byte is below 256.\" So it is.",
        "limit = 256",
        "promise of sum, crates/file/src/sums.rt:",
        "ensures { result ≡ the_sum pair.now }",
        "SumLimited = sum",
        "theorem sum_limited : SumLimited, crates/file/proofs/Sums.antt",
        "tested: file_cases",
    ] {
        assert!(every.contains(text), "{text}");
    }
    let two = draw::drawn(&claims, &sources, 2, 5);
    assert_eq!(two, draw::drawn(&claims, &sources, 2, 5));
    assert_eq!(two.join("\n").matches("==== ").count(), 2);
}
