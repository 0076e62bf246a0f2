//! `ttpa name` against the plain account of the model, taken up again from its store, and with texts of any content.

mod common;

use common::{bytes_of_hex, called, counted, here, names_in, Called, Folder};
use compare::draws::random::Random;
use compare::draws::{clusters, inputs};
use model::{closed_figures, Account, Cluster, LogicalName};
use program::console::Status;
use program::naming::drawn::Drawn;
use program::naming::{Event, Naming, Traffic};
use std::fs;

const CLUSTERS: u64 = 50;
const ORDERS_OF_EACH: u64 = 20;

/// A cluster that a load accepts, and names for it.
fn cluster_and_names(random: &mut Random) -> (Cluster, Vec<u8>) {
    loop {
        let slaves = random.between(0, 8);
        let mut cluster = clusters::cluster_of(random, slaves);
        if random.once_in(3) {
            cluster.slaves.iter_mut().for_each(|slave| slave.set_logical_name(LogicalName::UNNAMED));
        }
        let names = inputs::good_names(random, slaves + 3);
        if ttpa::check(&cluster.encode()).is_ok() {
            return (cluster, names);
        }
    }
}

fn list(names: &[u8]) -> String {
    let words: Vec<String> = names.iter().map(|name| format!("{name:02X}")).collect();
    words.join(",")
}

fn text(called: &Called) -> String {
    String::from_utf8_lossy(&called.output).into_owned()
}

/// What the account says is what the run says, after each step.
fn hold(naming: &Naming, account: &Account, what: &str) {
    let run = &naming.run;
    let end = model::End::Running.number();
    assert_eq!(run.words()[0], account.end().number(), "{what}: the end, {end} is running");
    assert_eq!((run.rounds(), run.comparisons()), (account.rounds(), account.comparisons()), "{what}");
    assert_eq!(naming.names_held(), account.logical_names(), "{what}");
}

/// A run of one order against the account; the rounds of others, and the lines of names given.
fn follow(cluster: &Cluster, names: &[u8], seed: u64) -> (u64, Vec<Event>) {
    let file = cluster.encode();
    let mut traffic = Traffic::Drawn(Drawn::of(&file, seed).expect("a good file"));
    let mut naming = Naming::start(file, names.to_vec()).expect("good names");
    let mut account = Account::start(cluster, names);
    let mut events = Vec::new();
    while !naming.ended() {
        events.extend(naming.step(&mut traffic, &mut |words| panic!("{words}")).expect("a step"));
        account.step(ttpa::ANSWER_BYTES);
        hold(&naming, &account, &format!("seed {seed} of {names:02X?} on {:02X?}", naming.file));
    }
    (naming.counted.other_rounds, events)
}

/// "a pass that names a slave then makes exactly 134 rounds, plus 1 .. plus 1 .."
fn hold_events(events: &[Event], cluster: &Cluster, names: &[u8]) {
    let figures = closed_figures(cluster, names);
    let mut given = Vec::new();
    for event in events {
        if let Event::Given { physical_name, rounds, comparisons, .. } = *event {
            assert_eq!((rounds, comparisons), (model::naming_rounds(physical_name), 65));
            given.push(physical_name);
        }
    }
    assert!(given.is_sorted_by(|a, b| a > b), "{given:X?}");
    assert_eq!(given.len() as u64, figures.named);
    let extra = names.first().map(|&name| Event::ExtraRead { name });
    assert_eq!(events.first().copied(), extra);
}

#[test]
fn a_thousand_orders_follow_the_account() {
    let mut random = Random::from_seed(35);
    let (mut others, mut given) = (0, 0);
    for _ in 0..CLUSTERS {
        let (cluster, names) = cluster_and_names(&mut random);
        for _ in 0..ORDERS_OF_EACH {
            let (rounds, events) = follow(&cluster, &names, random.number());
            hold_events(&events, &cluster, &names);
            others += rounds;
            given += events.iter().filter(|event| matches!(event, Event::Given { .. })).count();
        }
    }
    assert!(others > 100_000 && given > 1_000, "{others} rounds of others, {given} names given");
    counted("orders", (CLUSTERS * ORDERS_OF_EACH) as usize);
}

/// The last two lines are the closed figures and that all orders agree.
#[test]
fn a_thousand_orders_have_one_result() {
    let folder = Folder::new("orders");
    let mut random = Random::from_seed(36);
    for _ in 0..3 {
        let (cluster, names) = cluster_and_names(&mut random);
        let path = folder.join("plant.cluster");
        fs::write(&path, cluster.encode()).expect("a cluster file");
        let came = called(&["name", &path.to_string_lossy(), &list(&names), "--orders", "1000"], b"");
        let figures = closed_figures(&cluster, &names);
        let end = if figures.end == model::End::AllNamed { "all named" } else { "names used up" };
        let more = |count: u64| if count == 1 { "" } else { "s" };
        let last = format!(
            "{end}: {} given, {} round{}, {} comparison{}\n1000 orders, one result\n",
            figures.named,
            figures.rounds,
            more(figures.rounds),
            figures.comparisons,
            more(figures.comparisons)
        );
        assert_eq!((came.status, came.messages.as_str()), (Status::Accepted, ""));
        assert!(text(&came).ends_with(&last), "{} does not end with {last}", text(&came));
    }
}

/// However many steps the run without others has.
#[test]
fn a_long_run_is_compared_at_its_end() {
    let folder = Folder::new("long");
    let path = folder.join("plant.cluster");
    fs::write(&path, program::subcommands::draw::draw("a class", 16, 16).encode()).expect("a cluster file");
    let came = called(&["name", &path.to_string_lossy(), "01-14", "--orders", "1"], b"");
    assert_eq!(came.status, Status::Accepted, "{}", came.messages);
    assert!(text(&came).contains("\nall named: 16 given, "), "{}", text(&came));
}

#[test]
fn one_order_is_told_as_one() {
    let came = called(&["name", &path_of_demo(), "02", "--orders", "1"], b"");
    assert!(text(&came).ends_with("\n1 order, one result\n"), "{}", text(&came));
    let came = called(&["name", &path_of_demo(), "02", "--seed", "0"], b"");
    assert_eq!((came.status, came.messages.as_str()), (Status::Accepted, ""));
}

/// The run in pieces of some steps each, each told to go on with the store; all lines but those at which it stopped.
fn in_pieces(random: &mut Random, folder: &Folder, names: &str, between: &[&str]) -> String {
    let [file, store] =
        ["plant.cluster", "run.txt"].map(|name| folder.join(name).to_string_lossy().into_owned());
    let mut lines = String::new();
    loop {
        let steps = random.between(1, 400).to_string();
        let mut arguments = vec!["name", &file, names, "--steps", &steps, "--run", &store, "--save", &file];
        arguments.extend(between);
        let came = called(&arguments, b"");
        assert_eq!((came.status, came.messages.as_str()), (Status::Accepted, ""), "{}", text(&came));
        let told = text(&came);
        let (events, last) = told.trim_end().rsplit_once('\n').unwrap_or(("", told.trim_end()));
        lines += &format!("{events}\n");
        if !last.starts_with("running, at ") {
            let lines: Vec<&str> = lines.lines().filter(|line| !line.is_empty()).collect();
            return format!("{}\n{last}\n", lines.join("\n"));
        }
    }
}

#[test]
fn a_run_in_pieces_is_the_run_in_one() {
    let mut random = Random::from_seed(37);
    for turn in 0..12 {
        let folder = Folder::new(&format!("pieces-{turn}"));
        let (cluster, names) = cluster_and_names(&mut random);
        let [file, out] = ["plant.cluster", "whole.cluster"].map(|name| folder.join(name));
        fs::write(&file, cluster.encode()).expect("a cluster file");
        fs::write(folder.join("frames.txt"), "round 2\nread 01 3D 01\nwrite FF 10 01 1 2 3 4\n")
            .expect("frames");
        let frames = folder.join("frames.txt").to_string_lossy().into_owned();
        let seed = random.number().to_string();
        let between: [&[&str]; 3] = [&[], &["--seed", &seed], &["--between", &frames, "--every", "7"]];
        let between = between[turn % 3];
        let (file, out) = (file.to_string_lossy(), out.to_string_lossy());
        let names = list(&names);
        let mut arguments = vec!["name", &file, &names, "--save", &out];
        arguments.extend(between);
        let whole = called(&arguments, b"");
        assert_eq!(whole.status, Status::Accepted, "{}", whole.messages);
        let pieces = in_pieces(&mut random, &folder, &names, between);
        assert_eq!(pieces.trim_start(), text(&whole), "{arguments:?}");
        assert_eq!(fs::read(&*file).expect("a file"), fs::read(&*out).expect("a file"), "{arguments:?}");
    }
}

/// A run that has ended is told again, and nothing is altered: others send nothing then.
#[test]
fn an_ended_run_alters_nothing() {
    let folder = Folder::new("ended");
    let [file, store] = ["plant.cluster", "run.txt"].map(|name| folder.join(name));
    fs::copy(here("../../c/demo.cluster"), &file).expect("the demo's cluster");
    let (file, store) = (file.to_string_lossy(), store.to_string_lossy());
    let named = |messages: &str| {
        let came = called(&["name", &file, "01-04", "--seed", "5", "--run", &store, "--save", &file], b"");
        assert_eq!((came.status, came.messages.as_str()), (Status::Accepted, messages));
        (text(&came), fs::read(&*file).expect("the file"), fs::read(&*store).expect("the store"))
    };
    let (told, left, kept) = named("");
    let last = told.lines().last().unwrap_or_default();
    assert!(last.starts_with("all named: "), "{told}");
    let ended = format!("ttpa: {store}: this run has ended; another one needs another STORE\n");
    assert_eq!(named(&ended), (format!("{last}\n"), left, kept));
}

/// What others sent before is told, though nobody sends any more.
#[test]
fn rounds_of_others_stay_counted() {
    let folder = Folder::new("counted");
    let [file, store] = ["plant.cluster", "run.txt"].map(|name| folder.join(name));
    fs::copy(here("../../c/demo.cluster"), &file).expect("the demo's cluster");
    let (file, store) = (file.to_string_lossy(), store.to_string_lossy());
    let kept = ["name", &file, "02-04", "--run", &store, "--save", &file];
    let others = |more: &[&str]| {
        let told = text(&called(&[&kept[..], more].concat(), b""));
        told.trim_end().split(", ").find(|words| words.ends_with(" other rounds")).map(str::to_string)
    };
    let sent = others(&["--seed", "5", "--steps", "150"]);
    assert!(sent.is_some() && sent == others(&[]), "{sent:?}");
}

/// That a name was given to another than the slave found is kept with the position: a run taken up again says so too.
#[test]
fn a_run_turned_aside_stays_so_in_its_store() {
    let folder = Folder::new("aside");
    fs::copy(here("../../c/demo.cluster"), folder.join("plant.cluster")).expect("the demo's cluster");
    fs::write(folder.join("frames.txt"), "write FF 08 03 00 00 00 10\n").expect("frames");
    let named = |options: &[&str]| {
        let mut program = common::program();
        program.args(["name", "plant.cluster", "02-04", "--run", "run.txt", "--save", "plant.cluster"]);
        common::ran(program.args(options).current_dir(&folder.0), b"")
    };
    let stopped = named(&["--steps", "140", "--between", "frames.txt", "--every", "66"]);
    assert!(stopped.output.contains(", but 0000000700000010 has the name\n"), "{}", stopped.output);
    assert_eq!(stopped.status, Some(1));
    let ended = named(&[]);
    assert!(!ended.output.contains("but") && ended.output.contains("all named: 1 given"), "{}", ended.output);
    assert_eq!(ended.status, Some(1));
}

/// A store that a sample has, and the cluster file that belongs to it.
fn stored() -> (Vec<u8>, Vec<u8>) {
    let sample = |name: &str| fs::read(here("tests/samples/name-gone-on").join(name)).expect("a sample's file");
    let file = String::from_utf8(sample("out.cluster.hex")).expect("a text");
    (sample("run.txt"), bytes_of_hex(&file))
}

/// A run over the demo's cluster that is stopped before it is begun: nothing is told but why.
fn hold_stopped(folder: &Folder, options: &[&str], words: &str) {
    let came = common::ran(
        common::program().args(["name", &path_of_demo(), "02"]).args(options).current_dir(&folder.0),
        b"",
    );
    assert_eq!((came.status, came.output.as_str()), (Some(2), ""), "{options:?}");
    assert_eq!(came.messages, format!("ttpa: {words}\n"), "{options:?}");
}

#[test]
fn options_that_do_not_go_together_are_told() {
    let folder = Folder::new("together");
    for (options, words) in [
        (["--between=f", "--seed=1"], "--between and --seed exclude each other"),
        (["--between=f", "--orders=2"], "--between and --orders exclude each other"),
        (["--orders=2", "--steps=1"], "--orders and --steps exclude each other"),
        (["--orders=2", "--run=r"], "--orders and --run exclude each other"),
        (["--orders=2", "--save=o"], "--orders and --save exclude each other"),
        (["--orders=2", "--svg=o"], "--orders and --svg exclude each other"),
        (["--svg=./o", "--save=o"], "OUT and the picture cannot be one file"),
        (["--svg=o", "--run=./o"], "STORE and the picture cannot be one file"),
        (["--svg=/dev/stdout", "--steps=1"], "--svg: standard output has the results"),
        (["--steps=0", "--run=r"], "--steps: '0' is no number of steps (decimal, 1 to 18446744073709551615)"),
    ] {
        hold_stopped(&folder, &options, &format!("name: {words}"));
    }
    let both = called(&["name", "-", "02", "--between", "-"], b"");
    assert_eq!((both.status, both.output.len()), (Status::Trouble, 0));
    assert_eq!(both.messages, "ttpa: name: FILE and FRAMES cannot both be standard input\n");
    assert_eq!(names_in(&folder.0), [""; 0]);
}

/// What is there and cannot be read is no store that is not there yet.
#[test]
fn a_store_that_cannot_be_read_is_no_fresh_run() {
    let folder = Folder::new("unreadable-store");
    fs::write(folder.join("file"), b"").expect("a file");
    std::os::unix::fs::symlink("gone.txt", folder.join("link.txt")).expect("a link");
    hold_stopped(&folder, &["--run", "-"], "name: --run needs a file, not standard input or output");
    hold_stopped(&folder, &["--run", "/dev/stdout"], "name: --run needs a file, not standard input or output");
    hold_stopped(&folder, &["--run", "file/run.txt"], "file/run.txt: Not a directory");
    hold_stopped(&folder, &["--run", "link.txt"], "link.txt: No such file or directory");
    // as many names, and others
    assert_eq!(
        called(&["name", &path_of_demo(), "03", "--run", &run_in(&folder)], b"").status,
        Status::Accepted
    );
    hold_stopped(&folder, &["--run", "run.txt"], "run.txt: this run was begun with other names");
}

fn path_of_demo() -> String {
    here("../../c/demo.cluster").to_string_lossy().into_owned()
}

fn run_in(folder: &Folder) -> String {
    folder.join("run.txt").to_string_lossy().into_owned()
}

/// One byte changed, a line cut, doubled or swapped, or bytes of no meaning.
fn changed(random: &mut Random, text: &[u8]) -> Vec<u8> {
    let mut lines: Vec<Vec<u8>> = text.split_inclusive(|&byte| byte == b'\n').map(<[u8]>::to_vec).collect();
    let place = random.below(lines.len());
    let other = random.below(lines.len());
    match random.below(6) {
        0 => return random_bytes(random),
        1 => lines[place].clear(),
        2 => lines.insert(other, lines[place].clone()),
        3 => lines.swap(place, other),
        4 => {
            let end = random.below(lines[place].len() + 1);
            lines[place].truncate(end);
        }
        _ => {
            let byte = random.below(lines[place].len());
            let any = random.byte();
            lines[place][byte] = random.one_of(&[b'0', b'F', b' ', b'-', b'>', b'$', b'\n', b'\x1b', any]);
        }
    }
    lines.concat()
}

fn random_bytes(random: &mut Random) -> Vec<u8> {
    let length = random.between(0, 300);
    random.bytes(length)
}

fn no_escape(came: &Called, what: &[u8]) {
    let escape = came.output.contains(&0x1b) || came.messages.contains('\x1b');
    assert!(!escape, "an escape byte for {:?}", String::from_utf8_lossy(what));
}

/// A changed store is gone on with or refused, and where the run does not end well the store stays as it was.
#[test]
fn a_store_of_any_content_ends_with_a_status() {
    let folder = Folder::new("stores");
    let (store, file) = stored();
    let [file_path, store_path] = ["plant.cluster", "run.txt"].map(|name| folder.join(name));
    fs::write(&file_path, &file).expect("a cluster file");
    let mut random = Random::from_seed(38);
    let mut ends = [0; 3];
    for turn in 0..600 {
        // with a right checksum what it says is looked at
        let bytes = match turn % 4 {
            0 => with_checksum(&with_other_position(&mut random, &store)),
            1 => with_checksum(&changed(&mut random, &store)),
            _ => changed(&mut random, &store),
        };
        fs::write(&store_path, &bytes).expect("a store");
        let (file, store) = (file_path.to_string_lossy(), store_path.to_string_lossy());
        let came = called(&["name", &file, "01-04", "--run", &store], b"");
        no_escape(&came, &bytes);
        ends[came.status as usize] += 1;
        // a run that was made, well or turned aside, has its last line
        if !text(&came).contains(" given, ") {
            assert_ne!(came.status, Status::Accepted);
            assert_eq!(fs::read(&store_path).expect("the store"), bytes, "{}", came.messages);
        }
    }
    assert!(ends.iter().all(|&end| end > 20), "{ends:?}");
    counted("rough/stores", ends.iter().sum());
}

/// One digit of the position is another.
fn with_other_position(random: &mut Random, store: &[u8]) -> Vec<u8> {
    let mut bytes = store.to_vec();
    let line = b"\nposition ";
    let start = bytes.windows(line.len()).position(|part| part == line).expect("a position") + line.len();
    let digits: Vec<usize> = (start..start + 8 * 17 - 1).filter(|&place| bytes[place] != b' ').collect();
    bytes[random.one_of(&digits)] = random.one_of(b"0123456789ABCDEF");
    bytes
}

fn with_checksum(store: &[u8]) -> Vec<u8> {
    let text = String::from_utf8_lossy(store).into_owned();
    let body = text.split("sum ").next().unwrap_or_default();
    format!("{body}sum {:016X}\n", program::naming::store::checksum(body.as_bytes())).into_bytes()
}

#[test]
fn frames_of_any_content_end_with_a_status() {
    const FRAMES: &str = "BA\n55 02 01 F4 02 A0\n49\n(1.5) read 01 3D 02\nwrite FF 10 01 A1 5C 00 00\nexecute 01 08 04\nround 7\n";
    let folder = Folder::new("frames");
    let frames = folder.join("frames.txt");
    let demo = here("../../c/demo.cluster");
    let mut random = Random::from_seed(39);
    let mut ends = [0; 3];
    for _ in 0..2_000 {
        let bytes = changed(&mut random, FRAMES.as_bytes());
        fs::write(&frames, &bytes).expect("frames");
        let (demo, frames) = (demo.to_string_lossy(), frames.to_string_lossy());
        let came = called(&["name", &demo, "01-04", "--between", &frames], b"");
        no_escape(&came, &bytes);
        ends[came.status as usize] += 1;
    }
    assert!(ends[0] > 200 && ends[1] > 200 && ends[2] == 0, "{ends:?}");
    counted("rough/frames-between", ends.iter().sum());
}

/// Where the new store cannot be written whole, also where the program is ended meanwhile, the old one is there.
#[test]
fn an_interrupted_store_keeps_the_old_one() {
    let folder = Folder::new("interrupted");
    let (store, file) = stored();
    fs::write(folder.join("plant.cluster"), &file).expect("a cluster file");
    fs::write(folder.join("run.txt"), &store).expect("a store");
    let limited = |signal: &str| {
        let script = format!("{signal} ulimit -f 0; exec \"$@\"");
        let mut shell = std::process::Command::new("sh");
        shell.args(["-c", &script, "sh", env!("CARGO_BIN_EXE_ttpa")]);
        shell.args(["name", "plant.cluster", "01-04", "--run", "run.txt"]).current_dir(&folder.0);
        common::ran(&mut shell, b"")
    };
    let full = limited("trap '' XFSZ;");
    assert_eq!(full.status, Some(2), "{}", full.messages);
    assert_eq!(names_in(&folder.0), ["plant.cluster", "run.txt"]);
    assert_eq!(fs::read(folder.join("run.txt")).expect("the store"), store);
    let ended = limited("");
    assert_eq!(ended.status, None, "ended by the signal");
    assert_eq!(fs::read(folder.join("run.txt")).expect("the store"), store);
}

/// Neither the position nor its cluster takes its place before both are written.
#[test]
fn where_the_store_cannot_be_written_the_cluster_stays() {
    let folder = Folder::new("both");
    let (_, file) = stored();
    fs::write(folder.join("plant.cluster"), &file).expect("a cluster file");
    let mut program = common::program();
    program.args(["name", "plant.cluster", "01-04", "--steps", "9"]).current_dir(&folder.0);
    let came = common::ran(program.args(["--run", "none/run.txt", "--save", "plant.cluster"]), b"");
    assert_eq!(came.messages, "ttpa: none/run.txt: No such file or directory; nothing was written\n");
    assert_eq!(came.status, Some(2));
    assert_eq!(names_in(&folder.0), ["plant.cluster"]);
    assert_eq!(fs::read(folder.join("plant.cluster")).expect("the file"), file);
}
