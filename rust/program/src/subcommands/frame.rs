//! `ttpa frame ..`: explains a frame, or writes the two of a master-slave round.

use crate::args::{Arguments, Choice, Subcommand};
use crate::cluster::{Cluster, Pending};
use crate::console::{Console, Outcome, Status};
use crate::frames_text::{self, Sent, OPERATIONS, ROUNDS};
use crate::layout::Edition;
use crate::text::{byte_named, hex};
use ttpa::TtpaError;

pub const SUBCOMMAND: Subcommand = Subcommand {
    name: "frame",
    usage: "BYTES | read|write|execute NAME FILE RECORD [B B B B] [--epoch NN] | round N",
    summary: "explain a frame, or write the frames of a read, write or execute",
    text: "\
Explains the bytes of a frame, or writes the frames of a round: 'ttpa frame read 01 3D 02 --epoch 02' gives address and data frame. Where
the engine refuses the frame, the refusal is the result, and the status 1.",
    operands: 1..=crate::args::MANY,
    options: &[Choice { name: "--epoch", value: Some("NN"), text: "PB0 of the address frame, 00 if not said" }],
    run,
};

fn run(arguments: &Arguments, console: &mut Console) -> Outcome {
    let epoch = arguments.read("--epoch", |word| byte_named(word, "epoch"))?;
    let words: Vec<String> =
        arguments.operands().iter().map(|word| word.to_string_lossy().into_owned()).collect();
    let line = words.join(" ");
    let result = match frames_text::read(&line).map_err(|words| arguments.misused(&words))? {
        Sent::MasterSlave(round) => frames_text::frames(round, epoch.unwrap_or(0))
            .map(|frames| frames.map(|frame| hex(&frame)).join("\n")),
        Sent::Frame(_) if epoch.is_some() => {
            return Err(arguments.misused("--epoch is for read, write and execute"));
        }
        // `round 2`
        Sent::Frame(frame) if line.starts_with(frames_text::ROUND) => Ok(hex(&frame)),
        Sent::Frame(frame) => explained(&frame),
    };
    let status = if result.is_ok() { Status::Accepted } else { Status::Refused };
    writeln!(console.output, "{}", result.unwrap_or_else(|refusal| refusal.to_string()))?;
    Ok(status)
}

/// What a frame says, if the engine takes it.
fn explained(frame: &[u8]) -> Result<String, TtpaError> {
    if frame.first() == Some(&ttpa::FIREWORK_MSA) {
        let ttpa::Address { epoch, name, file, operation, record } = ttpa::read_address(frame)?;
        let operation = OPERATIONS.get(usize::from(operation)).unwrap_or(&"");
        return Ok(format!(
            "MSA epoch {epoch:02X}, {operation} {name:02X} file {file:02X} record {record:02X}"
        ));
    }
    judged(frame)?;
    Ok(match frame {
        [ttpa::FIREWORK_MSD] => "MSD, carries out what is pending".to_string(),
        [ttpa::FIREWORK_MSD, data @ .., _] => format!("MSD, writes {}", hex(data)),
        [firework, ..] => match ROUNDS.iter().find(|(_, known)| known == firework) {
            Some((round, _)) => format!("multipartner round {round}"),
            None => String::new(),
        },
        [] => String::new(),
    })
}

/// Whether the engine takes a frame: it is carried out on a cluster without slaves, where a write is pending if the frame has data.
fn judged(frame: &[u8]) -> Result<(), TtpaError> {
    let write = Pending { flag: 1, name: 1, pb2: ttpa::OPERATION_WRITE, pb3: 0 };
    let pending = if frame.len() > 1 { write } else { Pending::default() };
    let mut file = Cluster { edition: Edition::One, epoch: 0, pending, slaves: Vec::new() }.encode();
    ttpa::round(&mut file, frame, &mut [0; ttpa::ANSWER_BYTES]).map(|_| ())
}
