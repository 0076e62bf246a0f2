//! Files: reading them whole, loading cluster files by the engine's check, and writing new ones so that an old file stays until the
//! new one is there whole.

use crate::args::{Arguments, EQUAL_NAMES, SAVE};
use crate::console::{reason, Console, Outcome, Status, Stop};
use crate::place;
use crate::text::{printable, Lines};
use std::ffi::OsStr;
use std::fs::{self, File, Metadata, OpenOptions};
use std::io::{self, BufRead, BufReader, Read, Write};
use std::os::unix::fs::MetadataExt;
use std::path::{Path, PathBuf};
use std::process;
use ttpa::TtpaError;

/// Standard input or output.
pub const DASH: &str = "-";
/// Standard output by its usual names. As a file it might be replaced, with what others wrote there.
const OUTPUT_NAMES: [&str; 3] = [DASH, "/dev/stdout", "/dev/fd/1"];
/// One byte more than a cluster file may have: a longer one is refused by 1, whatever follows.
const ENOUGH: u64 = ttpa::MOST_FILE_BYTES as u64 + 1;

/// A file's name in messages and results.
pub fn shown(path: &OsStr) -> String {
    if path == DASH {
        "standard input".to_string()
    } else {
        visible(path)
    }
}

/// A path in messages; an empty one has to be seen too.
fn visible(path: &OsStr) -> String {
    if path.is_empty() {
        "''".to_string()
    } else {
        printable(&path.to_string_lossy())
    }
}

fn trouble(path: &OsStr, error: &io::Error) -> Stop {
    Stop::Trouble(format!("{}: {}", shown(path), reason(error)))
}

/// A file's bytes, of which those past the longest cluster file do not matter.
pub fn read(path: &OsStr, console: &mut Console) -> Result<Vec<u8>, Stop> {
    let mut bytes = Vec::new();
    let read = if path == DASH {
        console.input.take(ENOUGH).read_to_end(&mut bytes)
    } else {
        File::open(path).and_then(|file| file.take(ENOUGH).read_to_end(&mut bytes))
    };
    match read {
        Ok(_) => Ok(bytes),
        Err(error) => Err(trouble(path, &error)),
    }
}

/// A cluster file that the engine accepts. 22 stops it, unless `--equal-names` is given.
pub fn load(path: &OsStr, arguments: &Arguments, console: &mut Console) -> Result<Vec<u8>, Stop> {
    let file = read(path, console)?;
    match ttpa::check(&file) {
        Ok(()) => Ok(file),
        Err(TtpaError::EqualLogicalNames) if arguments.has(EQUAL_NAMES.name) => Ok(file),
        Err(refusal) => Err(refused(path, &file, refusal)),
    }
}

/// A cluster file that the engine refused, with the place of it.
pub fn refused(path: &OsStr, file: &[u8], refusal: TtpaError) -> Stop {
    let place =
        place::of(file, refusal).map(|place| format!("\n  {}", place::line(&place))).unwrap_or_default();
    Stop::Refused(format!("{}: {refusal}{place}", shown(path)))
}

/// A text, opened for reading line by line.
pub fn open(path: &OsStr) -> Result<BufReader<File>, Stop> {
    File::open(path).map(BufReader::new).map_err(|error| trouble(path, &error))
}

/// Lends a text to a function, opened for reading line by line.
pub fn with_text<T>(
    path: &OsStr,
    console: &mut Console,
    work: impl FnOnce(&mut dyn BufRead, String) -> Result<T, Stop>,
) -> Result<T, Stop> {
    if path == DASH {
        return work(console.input, shown(path));
    }
    work(&mut open(path)?, shown(path))
}

/// Carries out a text line by line, each answered before the next is read. A line of which the function only says what is wrong with it ends
/// the work; where lines are typed it is told, and the next is waited for.
pub fn carry_out_lines(
    path: &OsStr,
    console: &mut Console,
    mut carry_out: impl FnMut(&str, &mut dyn Write) -> Result<Outcome, String>,
) -> Outcome {
    let Console { input, output, messages, look } = console;
    let mut opened;
    let (source, typed): (&mut dyn BufRead, bool) = if path == DASH {
        (*input, look.typed)
    } else {
        opened = open(path)?;
        (&mut opened, false)
    };
    let mut lines = Lines::of(source, shown(path));
    let mut status = Status::Accepted;
    while let Some(line) = lines.next_with_words()? {
        match carry_out(&line, *output) {
            Ok(carried_out) => status = status.max(carried_out?),
            Err(words) if typed => {
                let _ = writeln!(messages, "{}: {words}", lines.place());
                status = Status::Refused;
            }
            Err(words) => return Err(lines.wrong(words)),
        }
    }
    Ok(status)
}

/// Where `--save` has the changed cluster file go. Not to standard output, which has the results.
pub fn save_path(arguments: &Arguments) -> Result<Option<&OsStr>, Stop> {
    match arguments.value(SAVE.name) {
        Some(path) if is_output(path) => Err(arguments.misused("--save: standard output has the results")),
        path => Ok(path),
    }
}

/// Standard output by one of its names, or the file that it is by whatever name.
pub fn is_output(path: &OsStr) -> bool {
    let plain =
        |path: &OsStr| fs::metadata(path).ok().filter(Metadata::is_file).map(|file| (file.dev(), file.ino()));
    let [_, output, _] = OUTPUT_NAMES;
    let there = plain(path);
    OUTPUT_NAMES.iter().any(|name| path == *name) || there.is_some() && there == plain(OsStr::new(output))
}

/// No input file is altered: OUT must be another file than a text that is read.
pub fn keep_text(text: &OsStr, out: &OsStr, arguments: &Arguments) -> Result<(), Stop> {
    keep(text, out, || arguments.misused("OUT is the text that is read, which must stay"))
}

/// The same of a file that is no text.
pub fn keep_file(file: &OsStr, out: &OsStr, arguments: &Arguments) -> Result<(), Stop> {
    keep(file, out, || arguments.misused("OUT is a file that is read, which must stay"))
}

/// The same of any input; the function says what is told.
pub fn keep(input: &OsStr, out: &OsStr, stop: impl FnOnce() -> Stop) -> Result<(), Stop> {
    let plain = |path: &OsStr| fs::canonicalize(path).ok().filter(|path| path.is_file());
    match plain(input).filter(|_| input != DASH) {
        Some(input) if plain(out).as_ref() == Some(&input) => Err(stop()),
        _ => Ok(()),
    }
}

/// Whether two paths lead to one file, be it there or not.
pub fn is_one_file(path: &OsStr, other: &OsStr) -> bool {
    path == other || matches!((placed(path), placed(other)), (Some(path), Some(other)) if path == other)
}

/// The file's path without links, by that of its folder where it is not there yet.
fn placed(path: &OsStr) -> Option<PathBuf> {
    let path = led_to(Path::new(path));
    let folder = path.parent().filter(|folder| !folder.as_os_str().is_empty()).unwrap_or(Path::new("."));
    let in_folder = || Some(fs::canonicalize(folder).ok()?.join(path.file_name()?));
    fs::canonicalize(&path).ok().or_else(in_folder)
}

/// Writes a changed cluster file, and tells where a load of it will be refused: rounds may bring equal names about.
pub fn save_cluster(path: &OsStr, file: &[u8], console: &mut Console) -> Result<(), Stop> {
    save(path, file, console)?;
    tell_equal_names(path, file, console);
    Ok(())
}

/// What lines have left of a cluster, where all of them were carried out or refused by the engine.
pub fn save_carried_out(
    out: Option<&OsStr>,
    file: &[u8],
    carried_out: Outcome,
    console: &mut Console,
) -> Outcome {
    match (out, &carried_out) {
        (Some(out), Ok(_)) => save_cluster(out, file, console)?,
        // status 1 alone would not tell it from a refused frame
        (Some(out), Err(_)) => console.tell(&format!("{}: not written", shown(out))),
        (None, _) => {}
    }
    carried_out
}

/// A cluster that was written, but that is not loaded again.
pub fn tell_equal_names(path: &OsStr, file: &[u8], console: &mut Console) {
    if let Err(refusal) = ttpa::check(file) {
        let name = visible(path);
        console.tell(&format!("{name}: written, but loading it is {refusal}; {} takes it", EQUAL_NAMES.name));
    }
}

/// Writes files that belong together: none takes its place before all are on the disk.
pub fn save_all(files: &[(&OsStr, &[u8])], console: &mut Console) -> Result<(), Stop> {
    let ready: Vec<Ready> =
        files.iter().map(|(path, bytes)| Ready::of(path, bytes)).collect::<Result<_, Stop>>()?;
    ready.into_iter().zip(files).try_for_each(|(ready, (_, bytes))| ready.put(bytes, console))
}

/// Writes a file: a new one beside OUT, which is then renamed, so that OUT is the old or the new one, whole. What is no plain
/// file, a device or a pipe, is written as it is.
pub fn save(path: &OsStr, bytes: &[u8], console: &mut Console) -> Result<(), Stop> {
    Ready::of(path, bytes)?.put(bytes, console)
}

/// A file that is about to be written.
struct Ready {
    /// As messages name it.
    name: String,
    /// What they add where it fails.
    left: &'static str,
    way: Way,
}

enum Way {
    /// Standard output.
    Output,
    /// A device or a pipe, which takes the bytes as they come.
    Into(PathBuf),
    /// Written whole already, and still to be renamed.
    Beside(Beside),
}

impl Ready {
    fn of(path: &OsStr, bytes: &[u8]) -> Result<Ready, Stop> {
        let name = visible(path);
        if is_output(path) {
            return Ok(Ready { name, left: "", way: Way::Output });
        }
        let out = led_to(Path::new(path));
        let (left, permissions) = match fs::metadata(&out) {
            Ok(old) if !old.is_file() => return Ok(Ready { name, left: "", way: Way::Into(out) }),
            Ok(old) => ("; the old file stays", Some(old.permissions())),
            Err(_) => ("; nothing was written", None),
        };
        match Beside::of(out, bytes, permissions) {
            Ok(beside) => Ok(Ready { name, left, way: Way::Beside(beside) }),
            Err(error) => Err(failed(&name, left, &error)),
        }
    }

    fn put(self, bytes: &[u8], console: &mut Console) -> Result<(), Stop> {
        let written = match self.way {
            Way::Output => return Ok(console.output.write_all(bytes)?),
            Way::Into(out) => OpenOptions::new().write(true).open(out).and_then(|mut out| out.write_all(bytes)),
            Way::Beside(beside) => fs::rename(&beside.path, &beside.out),
        };
        written.map_err(|error| failed(&self.name, self.left, &error))
    }
}

fn failed(name: &str, left: &str, error: &io::Error) -> Stop {
    Stop::Trouble(format!("{name}: {}{left}", reason(error)))
}

/// A link stays one: what it leads to is replaced, or made where there is nothing yet.
fn led_to(path: &Path) -> PathBuf {
    if let Ok(out) = fs::canonicalize(path) {
        return out;
    }
    match fs::read_link(path) {
        // the link to an open pipe has no path behind it, and is there all the same
        Ok(target) if !path.exists() => path.parent().unwrap_or(Path::new("")).join(target),
        _ => path.to_path_buf(),
    }
}

/// A file in the folder of OUT that is to take its place. It is taken away again where it does not come to that.
struct Beside {
    path: PathBuf,
    out: PathBuf,
}

impl Beside {
    /// The new file has the old one's permissions. One that may not be written is not replaced either, though its folder would allow it.
    fn of(out: PathBuf, bytes: &[u8], permissions: Option<fs::Permissions>) -> io::Result<Beside> {
        if permissions.is_some() {
            OpenOptions::new().write(true).open(&out)?;
        }
        let (path, mut file) = create_beside(&out)?;
        let beside = Beside { path, out };
        file.write_all(bytes)?;
        if let Some(permissions) = permissions {
            file.set_permissions(permissions)?;
        }
        // only what has reached the disk takes the old file's place
        file.sync_all()?;
        Ok(beside)
    }
}

impl Drop for Beside {
    fn drop(&mut self) {
        // once it is renamed there is nothing left here
        let _ = fs::remove_file(&self.path);
    }
}

/// A file in the folder of OUT that was not there before.
fn create_beside(out: &Path) -> io::Result<(PathBuf, File)> {
    const TRIES: u32 = 100;
    let mut tried = 0;
    loop {
        let beside = out.with_file_name(format!(".ttpa-{}-{tried}", process::id()));
        match OpenOptions::new().write(true).create_new(true).open(&beside) {
            Err(error) if error.kind() == io::ErrorKind::AlreadyExists && tried < TRIES => tried += 1,
            Ok(file) => return Ok((beside, file)),
            Err(error) => return Err(error),
        }
    }
}
