//! Naming steps: the edges, by hand; and the figures of a pass against the pass written out.

use compare::draws::random::Random;
use compare::edges;
use compare::engine::Model;
use model::{naming_pass, naming_rounds};

#[test]
fn the_edges_of_naming_steps_hold() {
    edges::naming_steps::hold(&Model);
}

#[test]
fn the_grounds_of_a_step_hold() {
    edges::step_grounds::hold(&Model);
}

/// The pass that is written out has as many rounds as document 02 says, and 65 of them are executes of comparisons.
#[test]
fn the_figure_of_a_pass_is_its_length() {
    let mut random = Random::from_seed(6);
    let ends = [0, 1, u64::MAX, 1 << 32, 1 << 31, 1 << 63, (1 << 32) - 1];
    for name in ends.into_iter().chain((0..10_000).map(|_| random.number())) {
        let pass = naming_pass(name);
        assert_eq!(pass.len() as u64, naming_rounds(name), "{name:016X}");
        assert_eq!(pass.iter().filter(|&&execute| execute).count(), 65);
    }
}

/// The comparisons after k rounds in closed form: the fourth round is the first, then every second up to round 68, and
/// after the one write more where bit 32 is 0 every second again.
#[test]
fn comparisons_after_k_rounds() {
    for name in [0, 1, u64::MAX, 0x7_0000_00A0, 0x6_0000_00A1] {
        let pass = naming_pass(name);
        let late = 1 - (name >> 32 & 1) as usize;
        for k in 0..=pass.len() {
            let upper = k.min(68).saturating_sub(2) / 2;
            let lower = (k.saturating_sub(68 + late) / 2).min(32);
            let executes = pass[..k].iter().filter(|&&execute| execute).count();
            assert_eq!(executes, upper + lower, "{name:016X}, {k} rounds");
        }
    }
}
