//! `ttpa owner FILE MASTER`: who sends in which slot of each multipartner round.

use crate::args::{Arguments, Choice, Subcommand, EQUAL_NAMES};
use crate::console::{Console, Outcome, Status, Stop};
use crate::files;
use crate::frames_text::ROUNDS;
use crate::text::byte_named;
use ttpa::{Owners, MOST_OWNER_BYTES};

pub const SUBCOMMAND: Subcommand = Subcommand {
    name: "owner",
    usage: "FILE MASTER [--save OUT] [--equal-names]",
    summary: "tell who sends in which slot of each multipartner round",
    text: "\
Tells the owner file of a cluster: for each of the six multipartner rounds the slots that have an owner, with its logical name. Slot 0 is
the master's, whose name MASTER is. Refused where two slaves send in one slot or a slave has a multiplexed send: then the slot has no
single owner.",
    operands: 2..=2,
    options: &[
        Choice { name: "--save", value: Some("OUT"), text: "write the owner file's bytes, file 0B, to OUT, which is not FILE" },
        EQUAL_NAMES,
    ],
    run,
};

/// No slave sends in the slot.
const NOBODY: u8 = 0x00;

fn run(arguments: &Arguments, console: &mut Console) -> Outcome {
    let path = arguments.operand(0).unwrap_or_default();
    let master = arguments.operand(1).unwrap_or_default().to_string_lossy();
    let master = byte_named(&master, "name").map_err(|words| Stop::Usage(format!("owner: {words}")))?;
    let out = files::save_path(arguments)?;
    if let Some(out) = out {
        files::keep_file(path, out, arguments)?;
    }
    let file = files::load(path, arguments, console)?;
    let mut buffer = [0; MOST_OWNER_BYTES];
    let owners = ttpa::owner(&file, master, &mut buffer)
        .map_err(|refusal| Stop::Refused(format!("{}: {refusal}", files::shown(path))))?;
    for (round, _) in ROUNDS {
        writeln!(console.output, "round {round}:{}", row(owners, round))?;
    }
    if let Some(out) = out {
        files::save(out, owners.bytes(), console)?;
    }
    Ok(Status::Accepted)
}

/// ` 0=80 1=01 2=01 3=03 4=02`
fn row(owners: Owners, round: u8) -> String {
    let slots = owners.row(round).unwrap_or_default().iter().enumerate();
    let owned = slots.filter(|&(slot, &name)| slot == 0 || name != NOBODY);
    owned.map(|(slot, name)| format!(" {slot}={name:02X}")).collect()
}
