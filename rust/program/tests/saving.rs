//! A file that is written is the new one, whole, or stays the old one: also on a full disk and in a folder that cannot be written.

mod common;

use common::{here, names_in, program, ran, Folder, Ran};
use std::fs::{self, OpenOptions};
use std::io::Read;
use std::os::unix::fs::{symlink, FileTypeExt, PermissionsExt};
use std::os::unix::process::CommandExt;
use std::path::Path;
use std::process::Command;

const OLD: &[u8] = b"the old file";
/// The user who owns nothing.
const NOBODY: u32 = 65_534;

fn demo() -> Vec<u8> {
    fs::read(here("../../c/demo.cluster")).expect("the demo's cluster")
}

/// A folder with a cluster file, its text and an old file.
fn folder(name: &str) -> Folder {
    let folder = Folder::new(name);
    fs::write(folder.join("plant.cluster"), demo()).expect("a cluster file");
    let shown = ran(program().args(["show", "plant.cluster"]).current_dir(&folder.0), b"");
    fs::write(folder.join("plant.txt"), shown.output).expect("its text");
    fs::write(folder.join("old.cluster"), OLD).expect("an old file");
    folder
}

/// It failed with status 2 and one line that ends so, the old file is there, and none besides.
fn kept(folder: &Path, ran: &Ran, reason: &str) {
    assert_eq!(ran.status, Some(2), "{}", ran.messages);
    assert_eq!(ran.messages, format!("ttpa: old.cluster: {reason}; the old file stays\n"));
    assert_eq!(fs::read(folder.join("old.cluster")).expect("the old file"), OLD);
    assert_eq!(names_in(folder), ["old.cluster", "plant.cluster", "plant.txt"]);
}

/// Both ways to write a file.
const WRITES: [&[&str]; 2] =
    [&["make", "plant.txt", "old.cluster"], &["round", "plant.cluster", "--save", "old.cluster"]];

/// No file may become longer than this many blocks, as if the disk were full then. The signal that tells of it is ignored, as a
/// disk has none.
fn with_room_for(blocks: usize, arguments: &[&str]) -> Command {
    let mut shell = Command::new("sh");
    let script = format!("trap '' XFSZ; ulimit -f {blocks}; exec \"$@\"");
    shell.args(["-c", &script, "sh", env!("CARGO_BIN_EXE_ttpa")]).args(arguments);
    shell
}

#[test]
fn a_full_disk_keeps_the_old_file() {
    let folder = folder("full");
    for write in WRITES {
        let full = ran(with_room_for(0, write).current_dir(&folder.0), b"BA\n");
        kept(&folder.0, &full, "File too large");
    }
    for write in WRITES {
        let roomy = ran(with_room_for(1, write).current_dir(&folder.0), b"");
        assert_eq!(roomy.status, Some(0), "{}", roomy.messages);
        assert_eq!(fs::read(folder.join("old.cluster")).expect("the new file"), demo());
    }
}

/// The program as a user who may write only what permissions allow: who owns the system may write everywhere, and lends it to
/// nobody. It is copied to where any user finds it.
fn as_a_user(folder: &Folder, programs: &Folder, write: &[&str]) -> Ran {
    let (copy, tried) = (programs.join("ttpa"), folder.join("tried"));
    fs::copy(env!("CARGO_BIN_EXE_ttpa"), &copy).expect("the program");
    set_mode(&programs.0, 0o755);
    let mut command = Command::new(&copy);
    command.args(write).current_dir(&folder.0);
    let before = fs::metadata(&folder.0).expect("the folder").permissions();
    set_mode(&folder.0, 0o555);
    if fs::write(&tried, b"").is_ok() {
        fs::remove_file(&tried).expect("the file that was tried");
        command.uid(NOBODY);
    }
    fs::set_permissions(&folder.0, before).expect("permissions");
    ran(&mut command, b"BA\n")
}

fn set_mode(path: &Path, mode: u32) {
    fs::set_permissions(path, fs::Permissions::from_mode(mode)).expect("permissions");
}

#[test]
fn an_unwritable_folder_keeps_the_old_file() {
    let (folder, programs) = (folder("unwritable"), Folder::new("unwritable-program"));
    set_mode(&folder.join("old.cluster"), 0o666);
    set_mode(&folder.0, 0o555);
    for write in WRITES {
        kept(&folder.0, &as_a_user(&folder, &programs, write), "Permission denied");
    }
    set_mode(&folder.0, 0o755);
}

#[test]
fn a_file_that_may_not_be_written_stays() {
    let (folder, programs) = (folder("read-only"), Folder::new("read-only-program"));
    set_mode(&folder.join("old.cluster"), 0o444);
    set_mode(&folder.0, 0o777);
    for write in WRITES {
        kept(&folder.0, &as_a_user(&folder, &programs, write), "Permission denied");
    }
}

#[test]
fn the_old_file_may_be_the_one_that_was_read() {
    let folder = folder("same");
    let changed = ran(
        program().args(["round", "plant.cluster", "--save", "plant.cluster"]).current_dir(&folder.0),
        b"BA\n",
    );
    assert_eq!((changed.status, changed.output.as_str()), (Some(0), "BA > 1=A1 2=5C\n"));
    let mut expected = demo();
    let mut slots = [0; ttpa::ANSWER_BYTES];
    ttpa::round(&mut expected, &[0xBA], &mut slots).expect("a round");
    assert_eq!(fs::read(folder.join("plant.cluster")).expect("the new file"), expected);
    assert_ne!(expected, demo());
}

#[test]
fn links_and_permissions_stay() {
    let folder = folder("links");
    let (old, link) = (folder.join("old.cluster"), folder.join("link.cluster"));
    set_mode(&old, 0o640);
    symlink("old.cluster", &link).expect("a link");
    let made = ran(program().args(["make", "plant.txt", "link.cluster"]).current_dir(&folder.0), b"");
    assert_eq!(made.status, Some(0), "{}", made.messages);
    assert!(fs::symlink_metadata(&link).expect("the link").is_symlink());
    assert_eq!(fs::read(&old).expect("the new file"), demo());
    assert_eq!(fs::metadata(&old).expect("the new file").permissions().mode() & 0o777, 0o640);
}

/// What is no plain file stays what it is, and takes the bytes: a pipe of this test's own folder, since a program that fails here
/// would replace what it is given.
#[test]
fn a_pipe_is_written_as_it_is() {
    let folder = folder("pipe");
    let pipe = folder.join("pipe");
    assert!(Command::new("mkfifo").arg(&pipe).status().expect("mkfifo").success());
    // open at both ends, so that nobody waits for the other
    let mut reader = OpenOptions::new().read(true).write(true).open(&pipe).expect("the pipe");
    let made = ran(program().args(["make", "plant.txt", "pipe"]).current_dir(&folder.0), b"");
    assert_eq!((made.status, made.messages.as_str()), (Some(0), ""));
    assert!(fs::metadata(&pipe).expect("the pipe").file_type().is_fifo());
    let mut came = vec![0; demo().len()];
    reader.read_exact(&mut came).expect("the file");
    assert_eq!(came, demo());
}

#[test]
fn a_link_to_nothing_is_followed() {
    let folder = folder("dangling");
    symlink("new.cluster", folder.join("link.cluster")).expect("a link");
    let made = ran(program().args(["make", "plant.txt", "link.cluster"]).current_dir(&folder.0), b"");
    assert_eq!((made.status, made.messages.as_str()), (Some(0), ""));
    assert!(fs::symlink_metadata(folder.join("link.cluster")).expect("the link").is_symlink());
    assert_eq!(fs::read(folder.join("new.cluster")).expect("the new file"), demo());
}

/// A link in another folder leads from there.
#[test]
fn a_link_to_nothing_is_followed_from_its_folder() {
    let folder = folder("dangling-below");
    fs::create_dir(folder.join("below")).expect("a folder");
    symlink("new.cluster", folder.join("below/link.cluster")).expect("a link");
    let made = ran(program().args(["make", "plant.txt", "below/link.cluster"]).current_dir(&folder.0), b"");
    assert_eq!((made.status, made.messages.as_str()), (Some(0), ""));
    assert_eq!(names_in(&folder.join("below")), ["link.cluster", "new.cluster"]);
    assert_eq!(fs::read(folder.join("below/new.cluster")).expect("the new file"), demo());
}

/// A name that is empty is seen in the message; a folder is no old file.
#[test]
fn what_cannot_be_a_file_is_told() {
    let folder = folder("no-file");
    fs::create_dir(folder.join("below")).expect("a folder");
    for (out, words) in
        [("", "'': No such file or directory; nothing was written"), ("below", "below: Is a directory")]
    {
        let stopped = ran(program().args(["make", "plant.txt", out]).current_dir(&folder.0), b"");
        assert_eq!((stopped.status, stopped.messages), (Some(2), format!("ttpa: {words}\n")));
    }
}

/// The link that a system has for an open pipe leads to no path.
#[test]
fn an_open_pipe_is_written_by_its_number() {
    let folder = folder("open-pipe");
    let script = "\"$0\" make plant.txt /dev/fd/3 3>&1 >/dev/null | cat >all";
    let mut shell = Command::new("sh");
    shell.args(["-c", script, env!("CARGO_BIN_EXE_ttpa")]).current_dir(&folder.0);
    assert_eq!(ran(&mut shell, b"").messages, "");
    assert_eq!(fs::read(folder.join("all")).expect("all that was written"), demo());
}

/// Only a plain file has to stay: a device that is read may be written, and so may a file that has the name of standard input.
#[test]
fn what_is_no_file_that_is_read_may_be_written() {
    let folder = folder("not-read");
    let packed = ran(program().args(["pack", "/dev/null", "/dev/null"]), b"");
    assert_eq!((packed.status, packed.messages.as_str()), (Some(0), ""));
    fs::write(folder.join("-"), OLD).expect("a file");
    let text = fs::read(folder.join("plant.txt")).expect("a text");
    let made = ran(program().args(["make", "-", "./-"]).current_dir(&folder.0), &text);
    assert_eq!((made.status, made.messages.as_str()), (Some(0), ""));
    assert_eq!(fs::read(folder.join("-")).expect("the new file"), demo());
}

/// What others wrote to the file that standard output is stays there, and so do the results.
#[test]
fn standard_output_is_not_replaced() {
    let folder = folder("output");
    for name in ["-", "/dev/stdout", "/dev/fd/1"] {
        let script = format!("exec >all; printf before; \"$0\" make plant.txt {name}; printf after");
        let mut shell = Command::new("sh");
        shell.args(["-c", &script, env!("CARGO_BIN_EXE_ttpa")]).current_dir(&folder.0);
        assert_eq!(ran(&mut shell, b"").messages, "");
        let all = fs::read(folder.join("all")).expect("all that was written");
        assert_eq!(all, [&b"before"[..], &demo(), b"after"].concat(), "{name}");
        for save in SAVES {
            let saved = ran(program().args(save).args(["--save", name]).current_dir(&folder.0), b"");
            let words = format!("ttpa: {}: --save: standard output has the results\n", save[0]);
            assert_eq!((saved.status, saved.output.as_str(), saved.messages), (Some(2), "", words));
        }
    }
}

/// The file that standard output is, by another name: the results stay in it.
#[test]
fn the_file_of_standard_output_has_the_results() {
    let folder = folder("output-file");
    for name in ["/proc/self/fd/1", "all"] {
        let script = format!("\"$0\" round plant.cluster --save {name} >>all");
        let mut shell = Command::new("sh");
        shell.args(["-c", &script, env!("CARGO_BIN_EXE_ttpa")]).current_dir(&folder.0);
        let stopped = ran(&mut shell, b"BA\n");
        assert_eq!(stopped.messages, "ttpa: round: --save: standard output has the results\n", "{name}");
        assert_eq!(fs::read(folder.join("all")).expect("all that was written"), b"", "{name}");
    }
}

/// Every subcommand that has `--save`.
const SAVES: [&[&str]; 5] = [
    &["round", "plant.cluster"],
    &["name", "plant.cluster", "02"],
    &["trace", "plant.cluster", "site.trace"],
    &["turns", "plant.cluster", "posts.txt"],
    &["owner", "plant.cluster", "80"],
];

/// "No input file is altered": not by another name for it either.
#[test]
fn a_text_that_is_read_stays() {
    let folder = folder("text");
    fs::write(folder.join("frames.txt"), "BA\n").expect("frames");
    fs::write(folder.join("posts.txt"), "turn\n").expect("posts");
    symlink("plant.txt", folder.join("link.txt")).expect("a link");
    let writes: [&[&str]; 6] = [
        &["make", "plant.txt", "./plant.txt"],
        &["make", "plant.txt", "link.txt"],
        &["round", "plant.cluster", "frames.txt", "--save", "frames.txt"],
        &["name", "plant.cluster", "02", "--between", "frames.txt", "--save", "./frames.txt"],
        &["turns", "plant.cluster", "posts.txt", "--save", "posts.txt"],
        &["pack", "frames.txt", "./frames.txt"],
    ];
    let texts =
        || ["plant.txt", "frames.txt", "posts.txt"].map(|name| fs::read(folder.join(name)).expect("a text"));
    let before = (names_in(&folder.0), texts());
    for write in writes {
        let stopped = ran(program().args(write).current_dir(&folder.0), b"");
        let out = if write[0] == "pack" { "TRACE" } else { "OUT" };
        let words = format!("ttpa: {}: {out} is the text that is read, which must stay\n", write[0]);
        assert_eq!((stopped.status, stopped.output.as_str(), stopped.messages), (Some(2), "", words));
        assert_eq!((names_in(&folder.0), texts()), before);
    }
}

#[test]
fn a_file_that_is_read_stays() {
    let folder = folder("input");
    fs::write(folder.join("frames.txt"), "BA\n").expect("frames");
    let [drawn, made, packed]: [&[&str]; 3] = [
        &["draw", "fan", "--slaves", "2", "--unnamed", "0"],
        &["make", "-", "fan.cluster"],
        &["pack", "frames.txt", "site.trace"],
    ];
    let text = ran(program().args(drawn), b"").output;
    assert_eq!(ran(program().args(made).current_dir(&folder.0), text.as_bytes()).status, Some(0));
    assert_eq!(ran(program().args(packed).current_dir(&folder.0), b"").status, Some(0));
    let join = ["join", "plant.cluster", "fan.cluster"];
    assert_eq!(ran(program().args(join).arg("both.cluster").current_dir(&folder.0), b"").status, Some(0));
    let writes: [&[&str]; 4] = [
        &["join", "plant.cluster", "fan.cluster", "./plant.cluster"],
        &["join", "plant.cluster", "fan.cluster", "fan.cluster"],
        &["owner", "plant.cluster", "80", "--save", "plant.cluster"],
        &["trace", "plant.cluster", "site.trace", "--save", "site.trace"],
    ];
    let read = ["plant.cluster", "fan.cluster", "site.trace"];
    let files = || read.map(|name| fs::read(folder.join(name)).expect("a file"));
    let before = (names_in(&folder.0), files());
    for write in writes {
        let stopped = ran(program().args(write).current_dir(&folder.0), b"");
        let words = format!("ttpa: {}: OUT is a file that is read, which must stay\n", write[0]);
        assert_eq!((stopped.status, stopped.output.as_str(), stopped.messages), (Some(2), "", words));
        assert_eq!((names_in(&folder.0), files()), before);
    }
}

/// A picture does not take the place of a file that is read, the frames between the steps among them; a device is none.
#[test]
fn a_picture_replaces_no_file_that_is_read() {
    let folder = folder("picture");
    fs::write(folder.join("frames.txt"), "BA\n").expect("frames");
    let files = || ["plant.cluster", "frames.txt"].map(|name| fs::read(folder.join(name)).expect("a file"));
    let before = (names_in(&folder.0), files());
    let named = |frames: &str, out: &str| {
        let name = ["name", "plant.cluster", "02", "--between", frames, "--svg", out];
        ran(program().args(name).current_dir(&folder.0), b"")
    };
    for out in ["frames.txt", "./frames.txt", "plant.cluster"] {
        let stopped = named("frames.txt", out);
        let words = "ttpa: name: --svg: OUT is a file that is read, which must stay\n";
        assert_eq!((stopped.status, stopped.output.as_str(), stopped.messages.as_str()), (Some(2), "", words));
        assert_eq!((names_in(&folder.0), files()), before, "{out}");
    }
    // where the picture cannot be written, nothing is
    let name =
        ["name", "plant.cluster", "02", "--save", "o.cluster", "--run", "run.txt", "--svg", "none/o.svg"];
    let stopped = ran(program().args(name).current_dir(&folder.0), b"");
    let words = "ttpa: none/o.svg: No such file or directory; nothing was written\n";
    assert_eq!((stopped.status, stopped.messages.as_str()), (Some(2), words));
    assert_eq!((names_in(&folder.0), files()), before);
    let device = named("/dev/null", "/dev/null");
    assert_eq!((device.status, device.messages.as_str()), (Some(0), ""));
}

/// The position does not take the cluster's place, by whatever names, there already or not.
#[test]
fn position_and_cluster_are_two_files() {
    let folder = folder("position");
    symlink("run.txt", folder.join("link.txt")).expect("a link");
    let before = names_in(&folder.0);
    let same = [("run.txt", "run.txt"), ("run.txt", "./run.txt"), ("link.txt", "run.txt")];
    // also where their folder is not there
    for (store, out) in same.into_iter().chain([("none/run.txt", "none/run.txt")]) {
        let name = ["name", "plant.cluster", "02", "--steps", "9", "--run", store, "--save", out];
        let stopped = ran(program().args(name).current_dir(&folder.0), b"");
        assert_eq!(stopped.messages, "ttpa: name: STORE and OUT cannot be one file\n", "{store} {out}");
        assert_eq!((stopped.status, stopped.output.as_str()), (Some(2), ""));
        assert_eq!(names_in(&folder.0), before);
    }
    let name = ["name", "plant.cluster", "02", "--steps", "9", "--run", "run.txt", "--save", "half.cluster"];
    assert_eq!(ran(program().args(name).current_dir(&folder.0), b"").status, Some(0));
    let name = ["name", "plant.cluster", "02", "--run", "none/run.txt", "--save", "none/half.cluster"];
    let nowhere = ran(program().args(name).current_dir(&folder.0), b"");
    let words = "ttpa: none/half.cluster: No such file or directory; nothing was written\n";
    assert_eq!((nowhere.status, nowhere.messages.as_str()), (Some(2), words));
    // without its cluster the position is not kept
    let name = ["name", "plant.cluster", "02", "--steps", "9", "--run", "new.txt", "--save", "/dev/full"];
    let full = ran(program().args(name).current_dir(&folder.0), b"");
    assert_eq!((full.status, folder.join("new.txt").exists()), (Some(2), false), "{}", full.messages);
    // what came of the run is told all the same
    assert!(nowhere.output.contains("\nnames used up: 1 given, "), "{}", nowhere.output);
}

/// Every subcommand that loads a cluster stops at equal names; with the option it goes on, and tells of a file that it wrote with them.
#[test]
fn equal_names_are_told_where_they_are_written() {
    let folder = folder("equal");
    let sample = here("tests/samples/show-equal-names/equal.cluster.hex");
    let equal = common::bytes_of_hex(&fs::read_to_string(sample).expect("a sample's file"));
    fs::write(folder.join("equal.cluster"), equal).expect("a cluster file");
    let made = |arguments: &[&str]| ran(program().args(arguments).current_dir(&folder.0), b"");
    assert_eq!(made(&["pack", "/dev/null", "site.trace"]).status, Some(0));
    let nobody = ["make", "-", "nobody.cluster"];
    let nobody = ran(program().args(nobody).current_dir(&folder.0), b"cluster edition 1 epoch 00\n");
    assert_eq!(nobody.status, Some(0), "{}", nobody.messages);
    let writes: [&[&str]; 7] = [
        &["round", "equal.cluster", "--save", "out"],
        &["name", "equal.cluster", "01", "--save", "out"],
        &["name", "equal.cluster", "01", "--run", "run.txt", "--save", "out"],
        &["trace", "equal.cluster", "site.trace", "--save", "out"],
        &["turns", "equal.cluster", "--save", "out"],
        &["convert", "equal.cluster", "2", "out"],
        &["join", "equal.cluster", "nobody.cluster", "out"],
    ];
    let before = names_in(&folder.0);
    for write in writes {
        let stopped = made(write);
        assert_eq!((stopped.status, stopped.output.as_str()), (Some(1), ""), "{write:?}");
        assert!(stopped.messages.starts_with("ttpa: equal.cluster: refused 22: "), "{}", stopped.messages);
        assert_eq!(names_in(&folder.0), before, "{write:?}");
    }
    for write in writes {
        let told = made(&[write, &["--equal-names"]].concat());
        assert_eq!(told.status, Some(0), "{}", told.messages);
        let words = "ttpa: out: written, but loading it is refused 22: ";
        assert!(told.messages.contains(words), "{write:?}: {}", told.messages);
        fs::remove_file(folder.join("out")).expect("the file that was written");
    }
}

/// A refused frame is a result, and the file is saved; after a line that is no frame it is not.
#[test]
fn a_wrong_line_saves_nothing() {
    let folder = folder("wrong-line");
    let save = ["round", "plant.cluster", "--save", "old.cluster"];
    let wrong = ran(program().args(save).current_dir(&folder.0), b"BA\nGG\n");
    assert_eq!((wrong.status, wrong.output.as_str()), (Some(1), "BA > 1=A1 2=5C\n"));
    let words = "ttpa: old.cluster: not written\nstandard input:2: 'GG' is no byte (hexadecimal, at most FF)\n";
    assert_eq!(wrong.messages, words);
    assert_eq!(fs::read(folder.join("old.cluster")).expect("the old file"), OLD);
    let turns = ["turns", "plant.cluster", "--save", "old.cluster"];
    let wrong = ran(program().args(turns).current_dir(&folder.0), b"turn\nturns\n");
    assert_eq!((wrong.status, wrong.output.as_str()), (Some(1), "turn > no screen waits\n"));
    let words = "ttpa: old.cluster: not written\nstandard input:2: 'turns' is neither 'post' nor 'turn'\n";
    assert_eq!(wrong.messages, words);
    assert_eq!(fs::read(folder.join("old.cluster")).expect("the old file"), OLD);
    let refused = ran(program().args(save).current_dir(&folder.0), b"BA\n00\n");
    assert_eq!((refused.status, refused.messages.as_str()), (Some(1), ""));
    let mut expected = demo();
    ttpa::round(&mut expected, &[0xBA], &mut [0; ttpa::ANSWER_BYTES]).expect("a round");
    assert_eq!(fs::read(folder.join("old.cluster")).expect("the new file"), expected);
}
