//! `ttpa name FILE NAMES`: a naming run, with rounds of others between its steps or not.

use crate::args::{Arguments, Choice, Subcommand, EQUAL_NAMES, SAVE, SVG};
use crate::console::{Console, Outcome, Status, Stop};
use crate::naming::between::Between;
use crate::naming::drawn::Drawn;
use crate::naming::orders::{self, Came};
use crate::naming::progress::{self, Progress};
use crate::naming::search::Search;
use crate::naming::store::{self, Stored};
use crate::naming::{Naming, Traffic};
use crate::text::{decimal, Lines};
use crate::{files, names_text, picture};
use std::ffi::OsStr;
use std::io;
use std::time::Instant;
use ttpa::TtpaError;

pub const SUBCOMMAND: Subcommand = Subcommand {
    name: "name",
    usage: "FILE NAMES [--between FRAMES [--every N] | --seed N | --orders N] [--steps N --run STORE] \
            [--save OUT] [--svg OUT] [--equal-names]",
    summary: "give names to the unnamed slaves, with other rounds in between or not",
    text: "\
Makes a naming run over a list of names, 01,05-0A, on the cluster of a file: each free name goes to the unnamed slave with the greatest
physical name. Tells the extra read, each name that is taken and each that is given, to which physical name and in how many rounds and
comparisons, and at the end how the run ended, with all rounds and comparisons.

With --between, --seed or --orders others make rounds between the steps. By the naming rule no complete round turns a run aside, but for
writes and executes of file 08; of these it permits writes of record 1 at another name than FF. What it does not permit is sent all the same,
and told. It may turn the run aside: where no slave, or another than the one found, has a name then, or slaves are left without one, this is
told too, and the status is 1. An address frame and the data frame in the line below it are sent together. The rounds that --seed
draws may write any other record.

A run is stopped with --steps and gone on with by --run: --steps 100 --run STORE --save OUT, and then OUT in the place of FILE, with the same
NAMES, --between, --every or --seed. Status 0 if the names were given as told, also where the names are used up before all slaves have one.",
    operands: 2..=2,
    options: &[
        Choice {
            name: BETWEEN,
            value: Some("FRAMES"),
            text: "send a line of FRAMES between two steps, from the first again after the last",
        },
        Choice { name: EVERY, value: Some("N"), text: "send it after every Nth step, 1 if not said" },
        Choice { name: SEED, value: Some("N"), text: "send rounds that the number settles" },
        Choice {
            name: ORDERS,
            value: Some("N"),
            text: "make N such runs on copies, the seeds 1 to N, and tell whether all give one result, with status 1 if not",
        },
        Choice { name: STEPS, value: Some("N"), text: "stop after so many steps" },
        Choice {
            name: RUN,
            value: Some("STORE"),
            text: "go on with the run in STORE, if there is one, and keep it there",
        },
        SAVE,
        Choice { name: SVG, value: Some("OUT"), text: "draw to OUT, as SVG, what each comparison made now asked and who replied" },
        EQUAL_NAMES,
    ],
    run,
};

const BETWEEN: &str = "--between";
const EVERY: &str = "--every";
const SEED: &str = "--seed";
pub const ORDERS: &str = "--orders";
const STEPS: &str = "--steps";
pub const RUN: &str = "--run";
/// Of each of these options one may be given at most, since they exclude each other.
const ONE_OF: [&[&str]; 5] =
    [&[BETWEEN, SEED, ORDERS], &[ORDERS, STEPS], &[ORDERS, RUN], &[ORDERS, SAVE.name], &[ORDERS, SVG]];
const MOST_ORDERS: u64 = 1_000_000;

fn run(arguments: &Arguments, console: &mut Console) -> Outcome {
    hold_options(arguments)?;
    let path = arguments.operand(0).unwrap_or_default();
    let names = names_text::operand(arguments, 1)?;
    let between = arguments.value(BETWEEN).unwrap_or_default();
    picture::path(arguments, &[path, between])?;
    let steps = arguments.read(STEPS, |word| decimal(word, "number of steps", 1, u64::MAX))?;
    let file = files::load(path, arguments, console)?;
    let mut traffic = traffic(arguments, path, &file, console)?;
    let fresh = Naming::start(file, names).map_err(|refusal| Stop::Refused(format!("NAMES: {refusal}")))?;
    if let Some(count) = count_of(arguments, ORDERS, "number of orders", MOST_ORDERS)? {
        return compare_orders(fresh, count, path, console);
    }
    let mut naming = match arguments.value(RUN) {
        Some(store) => taken_up(fresh, path, store, console)?,
        None => fresh,
    };
    // a file that was loaded is not refused later, so it is the stored position
    let judged = arguments.value(RUN).unwrap_or(path);
    naming.search = arguments.has(SVG).then(Search::default);
    make_steps(&mut naming, &mut traffic, steps.unwrap_or(u64::MAX), judged, console)?;
    let last_line = naming.last_line(&traffic);
    writeln!(console.output, "{last_line}")?;
    keep(&naming, &last_line, arguments, console)?;
    Ok(if naming.turned_aside() { Status::Refused } else { Status::Accepted })
}

fn hold_options(arguments: &Arguments) -> Result<(), Stop> {
    for excluding in ONE_OF {
        let given: Vec<&str> = excluding.iter().copied().filter(|name| arguments.has(name)).collect();
        if let [first, second, ..] = given[..] {
            return Err(Stop::Usage(format!("name: {first} and {second} exclude each other")));
        }
    }
    if arguments.has(EVERY) && !arguments.has(BETWEEN) {
        return Err(Stop::Usage(format!("name: {EVERY} needs {BETWEEN}")));
    }
    hold_out(arguments)?;
    let from_input = |value: Option<&OsStr>| value.is_some_and(|path| path == files::DASH);
    if from_input(arguments.operand(0)) && from_input(arguments.value(BETWEEN)) {
        return Err(Stop::Usage("name: FILE and FRAMES cannot both be standard input".to_string()));
    }
    Ok(())
}

/// Each file that is written is one by itself, and none that is read; OUT may be FILE.
fn hold_out(arguments: &Arguments) -> Result<(), Stop> {
    let (out, picture) = (files::save_path(arguments)?, arguments.value(SVG));
    if picture.is_some_and(files::is_output) {
        return Err(arguments.misused("--svg: standard output has the results"));
    }
    let written = [("STORE", arguments.value(RUN)), ("OUT", out), ("the picture", picture)];
    for (place, (word, path)) in written.iter().enumerate() {
        let same = |(_, other): &&(&str, Option<&OsStr>)| {
            path.zip(*other).is_some_and(|(path, other)| files::is_one_file(path, other))
        };
        if let Some((other, _)) = written[..place].iter().find(same) {
            return Err(arguments.misused(&format!("{other} and {word} cannot be one file")));
        }
    }
    match (arguments.value(BETWEEN), out) {
        (Some(frames), Some(out)) => files::keep_text(frames, out, arguments),
        _ => Ok(()),
    }
}

fn count_of(arguments: &Arguments, option: &str, what: &str, most: u64) -> Result<Option<u64>, Stop> {
    let Some(word) = arguments.value(option) else { return Ok(None) };
    let count = decimal(&word.to_string_lossy(), what, 1, most);
    count.map(Some).map_err(|words| Stop::Usage(format!("name: {option}: {words}")))
}

fn traffic(arguments: &Arguments, path: &OsStr, file: &[u8], console: &mut Console) -> Result<Traffic, Stop> {
    let every = count_of(arguments, EVERY, "number of steps", u64::MAX)?.unwrap_or(1);
    if let Some(frames) = arguments.value(BETWEEN) {
        let between =
            files::with_text(frames, console, |input, name| Between::read(Lines::whole(input, name), every))?;
        return Ok(Traffic::Frames(between));
    }
    match arguments.read(SEED, |word| decimal(word, "seed", 0, u64::MAX))? {
        Some(seed) => Ok(Traffic::Drawn(Drawn::of(file, seed).map_err(refused(path))?)),
        None => Ok(Traffic::None),
    }
}

/// The engine refuses what is in this file.
fn refused(path: &OsStr) -> impl Fn(TtpaError) -> Stop + '_ {
    move |refusal| Stop::Refused(format!("{}: {refusal}", files::shown(path)))
}

/// The run that STORE keeps, or the fresh one where it keeps none yet.
fn taken_up(fresh: Naming, path: &OsStr, store: &OsStr, console: &mut Console) -> Result<Naming, Stop> {
    let Some(stored) = store::read(store, console)? else { return Ok(fresh) };
    let Stored { names, run, counted, file_sum } = stored;
    if names != fresh.names {
        let words = "this run was begun with other names";
        return Err(Stop::Trouble(format!("{}: {words}", files::shown(store))));
    }
    if file_sum != store::checksum(&fresh.file) {
        console.tell(&format!("{}: not as the run left it", files::shown(path)));
    }
    let naming = Naming { run, counted, ..fresh };
    if naming.ended() {
        console.tell(&format!("{}: this run has ended; another one needs another STORE", files::shown(store)));
    }
    Ok(naming)
}

/// Makes steps up to the limit or the end, and tells what comes of them. At least one is made: a stored position is judged by it.
fn make_steps(
    naming: &mut Naming,
    traffic: &mut Traffic,
    limit: u64,
    judged: &OsStr,
    console: &mut Console,
) -> Result<(), Stop> {
    let mut progress = Progress::from(Instant::now());
    for _ in 0..limit {
        let mut told = Vec::new();
        let event = naming.step(traffic, &mut |words| told.push(words.to_string()));
        if event != Ok(None) || !told.is_empty() {
            progress.clear(console);
        }
        told.iter().for_each(|words| console.tell(words));
        if let Some(event) = event.map_err(refused(judged))? {
            tell(&event.to_string(), console)?;
        }
        if naming.ended() {
            break;
        }
        progress.show(console, || progress::line(naming));
    }
    progress.clear(console);
    Ok(())
}

/// A line of the result, which stands there before the line that tells how far the run is.
fn tell(line: &str, console: &mut Console) -> io::Result<()> {
    writeln!(console.output, "{line}")?;
    if console.look.progress {
        console.output.flush()?;
    }
    Ok(())
}

/// The changed cluster, the position that belongs to it and the picture, all or none.
fn keep(naming: &Naming, last_line: &str, arguments: &Arguments, console: &mut Console) -> Result<(), Stop> {
    let [out, store, drawn] = [SAVE.name, RUN, SVG].map(|option| arguments.value(option));
    let text = store::text(&Stored::of(naming));
    let picture = naming.search.as_ref().map(|search| picture::search::picture(search, last_line));
    let picture = picture.unwrap_or_default();
    let files = [(out, naming.file.as_slice()), (store, text.as_bytes()), (drawn, picture.as_bytes())];
    let asked: Vec<(&OsStr, &[u8])> =
        files.into_iter().filter_map(|(path, bytes)| Some((path?, bytes))).collect();
    files::save_all(&asked, console)?;
    match (out, store) {
        (Some(out), _) => files::tell_equal_names(out, &naming.file, console),
        (None, Some(store)) => {
            let words = "the position is kept, but not the cluster that it belongs to; --save OUT keeps it";
            console.tell(&format!("{}: {words}", files::shown(store)));
        }
        (None, None) => {}
    }
    Ok(())
}

/// A run without rounds of others, and then all orders against it.
fn compare_orders(fresh: Naming, count: u64, path: &OsStr, console: &mut Console) -> Outcome {
    let drawn = Drawn::of(&fresh.file, 0).map_err(refused(path))?;
    let mut undisturbed = fresh.clone();
    make_steps(&mut undisturbed, &mut Traffic::None, u64::MAX, path, console)?;
    tell(&undisturbed.last_line(&Traffic::None), console)?;
    let expected = Came::of(&undisturbed);
    let mut progress = Progress::from(Instant::now());
    let differs = orders::first_that_differs(count, &expected, |number| {
        progress.show(console, || format!("order {number} of {count}"));
        let (naming, traffic) = orders::order(&fresh, &drawn, number)?;
        Ok((Came::of(&naming), naming.last_line(&traffic)))
    });
    progress.clear(console);
    if let Some((number, line, words)) = differs.map_err(refused(path))? {
        writeln!(console.output, "order {number}: {line}: {words}")?;
        return Ok(Status::Refused);
    }
    let orders = if count == 1 { "order" } else { "orders" };
    writeln!(console.output, "{count} {orders}, one result")?;
    Ok(Status::Accepted)
}
