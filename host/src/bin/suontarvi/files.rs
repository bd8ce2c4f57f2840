//! Reading and writing, with the file in every fault. The name `-` is standard input or standard output.

use std::ffi::{OsStr, OsString};
use std::fs::{self, File, Metadata};
use std::io::{self, ErrorKind, Read, Write};
use std::os::unix::fs::{MetadataExt, fchown};
use std::path::{Path, PathBuf};
use std::process::{self, Child, Command, Stdio};
use std::sync::atomic::{AtomicUsize, Ordering};
use std::thread;

use crate::fault::{Done, Fault};
use crate::streams;

/// No file within the limits comes near it: 262,144 entries of 100 bytes are a fifth of it.
const MOST_BYTES: u64 = 128 << 20;
const TOO_LARGE: &str = "the file has more than 128 MiB, and no matrix within the limits has";

/// Whether a name means standard input or output.
pub fn is_standard(file: &OsStr) -> bool {
    file == "-"
}

/// The bytes of a file, or of standard input.
pub fn read(file: &OsStr) -> Result<Vec<u8>, Fault> {
    let most = MOST_BYTES + 1;
    let read = if is_standard(file) { streams::read(most) } else { read_file(file, most) };
    let bytes = read.map_err(|error| {
        let what = if is_standard(file) { "standard input" } else { "the file" };
        Fault::new(format!("{what} could not be read: {}", reason(&error))).of(file)
    })?;
    if bytes.len() as u64 > MOST_BYTES {
        return Err(Fault::new(TOO_LARGE).of(file));
    }
    Ok(bytes)
}

/// The bytes of a file, unpacked if gzip compressed it.
pub fn read_unpacked(file: &OsStr) -> Result<Vec<u8>, Fault> {
    let bytes = read(file)?;
    match bytes.starts_with(&[0x1f, 0x8b]) {
        true => unpacked(&bytes).map_err(|fault| fault.of(file)),
        false => Ok(bytes),
    }
}

/// Unpacks by the program `gzip`, which gets what was read; no more than the limit is taken from it.
fn unpacked(bytes: &[u8]) -> Result<Vec<u8>, Fault> {
    let mut gzip = Command::new("gzip");
    gzip.arg("-dc").stdin(Stdio::piped()).stdout(Stdio::piped()).stderr(Stdio::null());
    let mut child = gzip.spawn().map_err(|error| {
        Fault::new(format!("the file is compressed, and the program gzip could not be run: {}", reason(&error)))
    })?;
    let read = through(&mut child, bytes);
    if read.is_err() {
        // it may wait for a reader that is gone
        let _ = child.kill();
    }
    let ended = child.wait();
    match (read?, ended) {
        (read, Ok(status)) if status.success() => Ok(read),
        _ => Err(damaged()),
    }
}

fn damaged() -> Fault {
    Fault::new("the file is compressed by gzip, and it is damaged")
}

/// What a program makes of these bytes, which another thread feeds to it.
fn through(child: &mut Child, bytes: &[u8]) -> Result<Vec<u8>, Fault> {
    let (to, from) = (child.stdin.take(), child.stdout.take());
    thread::scope(|scope| {
        let feed = move || to.map(|mut to| to.write_all(bytes));
        thread::Builder::new().spawn_scoped(scope, feed).map_err(|error| no_thread(&error))?;
        let mut read = Vec::new();
        from.map_or(Ok(0), |from| from.take(MOST_BYTES + 1).read_to_end(&mut read)).map_err(|_| damaged())?;
        match read.len() as u64 > MOST_BYTES {
            true => Err(Fault::new(TOO_LARGE)),
            false => Ok(read),
        }
    })
}

/// The system has no further thread.
pub fn no_thread(error: &io::Error) -> Fault {
    Fault::new(format!("no thread could be made: {}", reason(error)))
}

fn read_file(file: &OsStr, most: u64) -> io::Result<Vec<u8>> {
    let mut bytes = Vec::new();
    File::open(file)?.take(most).read_to_end(&mut bytes)?;
    Ok(bytes)
}

/// Writes the bytes to a file, or to standard output if none is named.
pub fn write(file: Option<&OsStr>, bytes: &[u8]) -> Done {
    let Some(file) = file.filter(|file| !is_standard(file)) else {
        return streams::write(bytes).map_err(|error| match error.kind() {
            ErrorKind::BrokenPipe => Fault::quiet(),
            _ => Fault::new(format!("standard output could not be written: {}", reason(&error))),
        });
    };
    written(file, bytes, true)
}

/// What is the same for all names of a file: of itself or, if it does not exist, of its folder, and its name there.
pub type Identity = (u64, u64, Option<OsString>);

pub fn identity(file: &OsStr) -> Option<Identity> {
    let of = |path: &Path, name| fs::metadata(path).ok().map(|known| (known.dev(), known.ino(), name));
    let path = Path::new(file);
    of(path, None).or_else(|| of(folder_of(path), Some(path.file_name()?.to_os_string())))
}

fn folder_of(path: &Path) -> &Path {
    path.parent().filter(|folder| !folder.as_os_str().is_empty()).unwrap_or(Path::new("."))
}

/// Whether two names mean the same file.
pub fn are_the_same(file: &OsStr, other: &OsStr) -> bool {
    !is_standard(file) && !is_standard(other) && identity(other).is_some_and(|other| identity(file) == Some(other))
}

/// The same for one of many files, which are synced to disk together.
pub fn write_one_of_many(file: &OsStr, bytes: &[u8]) -> Done {
    written(file, bytes, false)
}

/// Writes a regular or a new file by another name beside it, so that a failed write leaves what was there. A link, a
/// device or a pipe is written as it is, and so is a file in a folder where no name may be changed.
fn written(file: &OsStr, bytes: &[u8], settles: bool) -> Done {
    let old = fs::symlink_metadata(file).ok();
    let in_place = || File::create(file).and_then(|out| filled(out, bytes, settles));
    let done = match &old {
        Some(old) if !old.is_file() => in_place(),
        _ => match replaced(file, old.as_ref(), bytes, settles) {
            Err(error) if old.is_some() && error.kind() == ErrorKind::PermissionDenied => in_place(),
            done => done,
        },
    };
    done.map_err(|error| Fault::new(format!("the file could not be written: {}", reason(&error))).of(file))
}

fn filled(mut out: File, bytes: &[u8], settles: bool) -> io::Result<()> {
    out.write_all(bytes)?;
    if settles { streams::settle(&out) } else { Ok(()) }
}

fn replaced(file: &OsStr, old: Option<&Metadata>, bytes: &[u8], settles: bool) -> io::Result<()> {
    if old.is_some() {
        // a file that is protected stays
        File::options().write(true).open(file)?;
    }
    let folder = folder_of(Path::new(file));
    let (name, out) = new_in(folder)?;
    let alike = old.map_or(Ok(()), |old| made_alike(&out, old));
    let done = alike.and_then(|()| filled(out, bytes, settles)).and_then(|()| fs::rename(&name, file));
    if done.is_err() {
        let _ = fs::remove_file(&name);
    } else if settles {
        // the name too, where folders are synced
        let _ = File::open(folder).and_then(|folder| folder.sync_all());
    }
    done
}

/// A file that did not exist, by a name that nobody else uses.
fn new_in(folder: &Path) -> io::Result<(PathBuf, File)> {
    static NEXT: AtomicUsize = AtomicUsize::new(0);
    loop {
        let number = NEXT.fetch_add(1, Ordering::Relaxed);
        let name = folder.join(format!(".suontarvi-{}-{number}", process::id()));
        match File::options().write(true).create_new(true).open(&name) {
            Err(error) if error.kind() == ErrorKind::AlreadyExists => {}
            made => return made.map(|file| (name, file)),
        }
    }
}

/// The permissions of the file that is replaced, and its owner if that can be.
fn made_alike(out: &File, old: &Metadata) -> io::Result<()> {
    let _ = fchown(out, Some(old.uid()), Some(old.gid()));
    out.set_permissions(old.permissions())
}

/// Syncs what was written into a folder to its disk.
pub fn settle_folder(folder: &OsStr) -> Done {
    let settled = File::open(folder).and_then(|folder| streams::settle_all(&folder));
    settled.map_err(|error| Fault::new(format!("not all files were written to disk: {}", reason(&error))).of(folder))
}

/// Makes the folder if it does not exist.
pub fn make_folder(folder: &OsStr) -> Done {
    let made = fs::create_dir_all(folder);
    made.map_err(|error| Fault::new(format!("the folder could not be made: {}", reason(&error))).of(folder))
}

/// The system's message without its number.
pub fn reason(error: &io::Error) -> String {
    let text = error.to_string();
    match text.split_once(" (os error") {
        Some((words, _)) => words.into(),
        None => text,
    }
}
