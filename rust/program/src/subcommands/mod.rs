//! The subcommands, one module each, and the table of them in the order of `ttpa --help`.

mod check;
mod convert;
pub mod draw;
mod frame;
mod join;
pub mod make;
mod mark;
pub mod name;
mod owner;
mod pack;
mod pattern;
mod round;
mod show;
mod trace;
mod turns;
mod unpack;
mod who;

use crate::args::Subcommand;

pub const TABLE: &[Subcommand] = &[
    check::SUBCOMMAND,
    show::SUBCOMMAND,
    make::SUBCOMMAND,
    draw::SUBCOMMAND,
    frame::SUBCOMMAND,
    round::SUBCOMMAND,
    name::SUBCOMMAND,
    trace::SUBCOMMAND,
    pack::SUBCOMMAND,
    unpack::SUBCOMMAND,
    owner::SUBCOMMAND,
    who::SUBCOMMAND,
    turns::SUBCOMMAND,
    convert::SUBCOMMAND,
    join::SUBCOMMAND,
    pattern::SUBCOMMAND,
    mark::SUBCOMMAND,
];
