//! Conversions of random files into each edition, there and back, and calls on both forms of a file.

use super::random::Random;
use super::{clusters, inputs};
use crate::campaign::{any_file, Campaign};
use crate::case::{Call, Outcome};
use crate::sorts::Sort;
use model::{check, to_edition, Cluster, Edition};

/// As many conversions, each followed by calls on the converted file where it was carried out.
pub fn conversions(campaign: &mut Campaign, amount: usize, random: &mut Random) {
    for _ in 0..amount {
        let file = match random.below(16) {
            0 | 1 => around_narrow_length(random).encode(),
            2 | 3 => around_narrow_slaves(random).encode(),
            4 | 5 => with_equal_names(random).encode(),
            6 => clusters::with_wrong_front(random),
            _ => any_file(random),
        };
        let edition = random.one_of(&Edition::BOTH);
        let buffer_length = buffer_length(random, &file, edition);
        let outcome = campaign.call(&Call::Convert { file: file.clone(), edition, buffer_length });
        if let Some(converted) = written(&outcome) {
            there_and_back(campaign, &file, &converted);
            on_both_forms(campaign, random, &file, &converted);
        }
    }
}

/// What a conversion that was carried out has written.
fn written(outcome: &Outcome) -> Option<Vec<u8>> {
    let length = outcome.written()? as usize;
    outcome.buffer.as_ref().map(|buffer| buffer[..length].to_vec())
}

/// In edition 2, of at most 32 slaves, its edition-1 form being of about 32,768 bytes.
fn around_narrow_length(random: &mut Random) -> Cluster {
    let count = random.between(24, Edition::One.most_slaves());
    let mut cluster = clusters::cluster_in(random, Edition::One, count);
    let more = random.one_of(&[0, 0, 4, 4, 8, 1_024]);
    clusters::grow_to(random, &mut cluster, Edition::One.most_bytes() + more);
    Cluster { edition: Edition::Two, ..cluster }
}

/// In edition 2, of about 32 slaves.
fn around_narrow_slaves(random: &mut Random) -> Cluster {
    let count = random.one_of(&[32, 32, 33, 33, 34]);
    clusters::cluster_in(random, Edition::Two, count)
}

/// Mostly with two slaves of one physical name.
fn with_equal_names(random: &mut Random) -> Cluster {
    let mut cluster = clusters::cluster(random);
    clusters::repeat_a_physical_name(random, &mut cluster);
    cluster
}

/// Around the bytes that the converted file needs, and others.
fn buffer_length(random: &mut Random, file: &[u8], edition: Edition) -> usize {
    let mut most = vec![0; Edition::Two.most_bytes()];
    let needed = to_edition(file, edition, &mut most).unwrap_or(file.len());
    match random.below(8) {
        0 => 0,
        1 | 2 => needed.saturating_sub(1),
        3 => random.between(0, needed + 8),
        4 | 5 => needed,
        6 => needed + 1,
        _ => needed + 9,
    }
}

/// "Widening and then narrowing restores the same bytes": the way back gives the first file, whichever way comes first.
fn there_and_back(campaign: &mut Campaign, file: &[u8], converted: &[u8]) {
    let back =
        Call::Convert { file: converted.to_vec(), edition: Edition::of(file), buffer_length: file.len() };
    let outcome = campaign.call(&back);
    if written(&outcome).as_deref() == Some(file) {
        campaign.note_sorts((Edition::of(file) != Edition::of(converted)).then_some(Sort::ThereAndBack));
    } else {
        campaign.differ(&format!("the way back does not restore the file\n{back}"), "see the case");
    }
}

/// "rounds give equal answers on a file and its converted form", and so do the other calls, conversions among them.
fn on_both_forms(campaign: &mut Campaign, random: &mut Random, file: &[u8], converted: &[u8]) {
    let cluster = check(file).expect("a file that was converted");
    let of_first = Call::Contents { file: file.to_vec(), slave: 0, number: 0x08, buffer_length: 16 };
    let mut calls = [any_call(random, file, &cluster), any_call(random, file, &cluster), of_first];
    for call in &mut calls {
        let expected = campaign.call(call);
        let call = call.on(converted.to_vec()).expect("a call on a file");
        let got = campaign.call(&call);
        let left = |outcome: &Outcome| outcome.file.as_deref().map(|file| parts_of(file));
        let same = (Outcome { file: None, ..expected.clone() }) == (Outcome { file: None, ..got.clone() });
        if !same || left(&expected) != left(&got) {
            campaign
                .differ(&format!("it comes to something else in the other edition\n{call}"), "see the case");
        }
        let turned = Edition::of(file) != Edition::of(converted);
        campaign.note_sorts((turned && got.number == 0).then_some(Sort::CarriedOutOnBothForms));
    }
}

/// What a file holds, its edition aside.
fn parts_of(file: &[u8]) -> Option<Cluster> {
    Some(Cluster { edition: Edition::One, ..check(file).ok()? })
}

fn any_call(random: &mut Random, file: &[u8], cluster: &Cluster) -> Call {
    let (file, answer_length) = (file.to_vec(), inputs::answer_length(random));
    match random.below(9) {
        0 => Call::Check { file },
        1 => Call::Owner { file, master: 0x63, buffer_length: 396 },
        2 => Call::Fill { file, held: vec![0xEE; Edition::Two.most_slaves()] },
        3 => Call::Trace { file, trace: super::traces::trace(random, cluster) },
        4 => {
            let names = inputs::names(random);
            let run = inputs::position(random, &names);
            Call::Step { file, names, run, answer_length }
        }
        5 => {
            let edition = random.one_of(&Edition::BOTH);
            let buffer_length = buffer_length(random, &file, edition);
            Call::Convert { file, edition, buffer_length }
        }
        _ => Call::Round { file, frame: inputs::frame(random, cluster), answer_length },
    }
}
