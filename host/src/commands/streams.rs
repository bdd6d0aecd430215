//! Standard input and output: what fails says which stream it is, and one that is closed is an error and no silence.

use std::fs;
use std::io::{self, Read, Stdin, StdoutLock, Write};
use std::sync::atomic::{AtomicBool, Ordering};

/// Whether standard input and standard output were closed when the tool was started. Before `main` Rust opens /dev/null in the place of a closed one, where
/// all that is written is lost in silence; so it is asked earlier, when the program has been loaded.
static CLOSED: [AtomicBool; 2] = [const { AtomicBool::new(false) }; 2];

#[used]
#[link_section = ".init_array"]
static ASK: extern "C" fn() = ask;

extern "C" fn ask() {
    for (descriptor, closed) in (0..).zip(&CLOSED) {
        // SAFETY: F_GETFD takes nothing more and only asks for flags; it fails for a descriptor that is closed, and for no other.
        closed.store(unsafe { fcntl(descriptor, F_GETFD) } == -1, Ordering::Relaxed);
    }
}

extern "C" {
    fn fcntl(descriptor: i32, command: i32, ...) -> i32;
}

const F_GETFD: i32 = 1;

/// Standard input. Its errors do not say which file it is, since who reads files says so of each.
pub struct Input(Stdin);

/// Standard input, whose errors say what it is.
pub struct NamedInput(pub Input);

/// Standard output, whose errors say what it is.
pub struct Output(StdoutLock<'static>);

/// Standard input, for one reader.
pub fn input() -> Input {
    Input(io::stdin())
}

/// Standard output, for one writer.
pub fn output() -> Output {
    Output(io::stdout().lock())
}

impl Read for Input {
    fn read(&mut self, bytes: &mut [u8]) -> io::Result<usize> {
        open(0).and_then(|()| self.0.read(bytes))
    }
}

impl Read for NamedInput {
    fn read(&mut self, bytes: &mut [u8]) -> io::Result<usize> {
        self.0.read(bytes).map_err(|error| named(0, "read", error))
    }
}

impl Write for Output {
    fn write(&mut self, bytes: &[u8]) -> io::Result<usize> {
        open(1).and_then(|()| self.0.write(bytes)).map_err(|error| named(1, "written", error))
    }

    fn flush(&mut self) -> io::Result<()> {
        open(1).and_then(|()| self.0.flush()).map_err(|error| named(1, "written", error))
    }
}

fn open(descriptor: usize) -> io::Result<()> {
    match CLOSED[descriptor].load(Ordering::Relaxed) {
        true => Err(io::Error::other("it is closed")),
        false => Ok(()),
    }
}

/// The error with the stream that it is of, and the file behind it if it has a name.
fn named(descriptor: usize, done: &str, error: io::Error) -> io::Error {
    // Asked again by who reads or writes all bytes, and so told to no one.
    if error.kind() == io::ErrorKind::Interrupted {
        return error;
    }
    let file = fs::read_link(format!("/proc/self/fd/{descriptor}")).ok().filter(|file| file.is_absolute());
    let open = !CLOSED[descriptor].load(Ordering::Relaxed);
    let file = file.filter(|_| open).map(|file| format!(" ({})", super::failure::shown(file.as_os_str().as_encoded_bytes()))).unwrap_or_default();
    let streams = [("standard input", "name a file or a program that gives it"), ("standard output", "name a file or a program that takes it")];
    let (stream, advice) = streams[descriptor];
    io::Error::new(error.kind(), format!("{stream}{file} cannot be {done}: {error}; {advice}"))
}
