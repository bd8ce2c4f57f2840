//! Standard input, output and error. Rust's runtime opens /dev/null in the place of a stream that is closed, and its
//! own streams take it for a success if one cannot be used. Here a closed stream is an error, and so is every write
//! that fails.

use std::fs::File;
use std::io::{self, ErrorKind, Read, Write};
use std::os::fd::{AsFd, AsRawFd, BorrowedFd, OwnedFd};
use std::sync::atomic::{AtomicBool, Ordering};

/// Whether standard input and output were closed when the program began.
static CLOSED: [AtomicBool; 2] = [AtomicBool::new(false), AtomicBool::new(false)];

unsafe extern "C" {
    fn fcntl(stream: i32, command: i32, ...) -> i32;
    fn syncfs(stream: i32) -> i32;
}

/// `F_GETFD` of Linux.
const GET_FLAGS: i32 = 1;

/// Runs before the runtime, which would hide what is closed.
extern "C" fn note_closed() {
    for (stream, closed) in (0..).zip(&CLOSED) {
        // SAFETY: fcntl with F_GETFD reads the flags of a descriptor by its number; any number may be asked for.
        let open = unsafe { fcntl(stream, GET_FLAGS) } >= 0;
        closed.store(!open, Ordering::Relaxed);
    }
}

// SAFETY: the C library calls the functions of this section once each, before `main`, with arguments that `note_closed`
// does not read; it touches nothing but atomics.
#[used]
#[unsafe(link_section = ".init_array")]
static NOTE_CLOSED: extern "C" fn() = note_closed;

/// A stream as a file of its own, which hides no error.
fn opened(stream: BorrowedFd, closed: bool) -> io::Result<File> {
    if closed {
        return Err(io::Error::new(ErrorKind::NotConnected, "it is closed"));
    }
    let stream: OwnedFd = stream.try_clone_to_owned()?;
    Ok(File::from(stream))
}

/// At most this many bytes of standard input.
pub fn read(most: u64) -> io::Result<Vec<u8>> {
    let mut bytes = Vec::new();
    let [closed, _] = &CLOSED;
    let stream = opened(io::stdin().as_fd(), closed.load(Ordering::Relaxed))?;
    stream.take(most).read_to_end(&mut bytes)?;
    Ok(bytes)
}

/// All bytes to standard output, and to the disk if it is a file there.
pub fn write(bytes: &[u8]) -> io::Result<()> {
    let [_, closed] = &CLOSED;
    let mut stream = opened(io::stdout().as_fd(), closed.load(Ordering::Relaxed))?;
    stream.write_all(bytes)?;
    settle(&stream)
}

/// What is only told when a file is on its disk is told.
pub fn settle(file: &File) -> io::Result<()> {
    match file.metadata()?.is_file() {
        true => file.sync_all(),
        false => Ok(()),
    }
}

/// The same for all files of the disk that a folder is on.
pub fn settle_all(folder: &File) -> io::Result<()> {
    // SAFETY: the descriptor is of an open file; syncfs touches no memory of this program.
    match unsafe { syncfs(folder.as_raw_fd()) } {
        0 => Ok(()),
        _ => Err(io::Error::last_os_error()),
    }
}

/// A line to standard error; the status says the rest if it cannot be written.
pub fn complain(line: &str) {
    let _ = opened(io::stderr().as_fd(), false).and_then(|mut stream| stream.write_all(line.as_bytes()));
}
