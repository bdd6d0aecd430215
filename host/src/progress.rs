//! How far long work is: after a second a line on standard error that moves, if that is a terminal and standard output is none, where it would
//! stand among what is written.

use std::fs::File;
use std::io::{self, IsTerminal, Read, Write};
use std::os::fd::AsFd;
use std::sync::atomic::{AtomicU64, Ordering};
use std::sync::{Arc, Condvar, Mutex};
use std::thread::{self, JoinHandle};
use std::time::Duration;

/// What is read so far, in bytes, of all files.
static READ: AtomicU64 = AtomicU64::new(0);

/// An input whose bytes are counted.
pub struct Counted<Input>(pub Input);

impl<Input: Read> Read for Counted<Input> {
    fn read(&mut self, bytes: &mut [u8]) -> io::Result<usize> {
        let count = self.0.read(bytes)?;
        READ.fetch_add(count as u64, Ordering::Relaxed);
        Ok(count)
    }
}

/// How long standard input is, where it is a file.
pub fn length_of_stdin() -> Option<u64> {
    let file = File::from(io::stdin().as_fd().try_clone_to_owned().ok()?);
    file.metadata().ok().filter(|file| file.is_file()).map(|file| file.len())
}

/// The line, as long as this is held.
pub struct Progress {
    ended: Arc<(Mutex<bool>, Condvar)>,
    shows: Option<JoinHandle<()>>,
}

impl Progress {
    /// Shows how much is read, of so many bytes if that is known. Nothing is shown where standard error is no terminal, or where standard output is
    /// one and is written to.
    pub fn start(total: Option<u64>, writes_to_stdout: bool) -> Progress {
        let ended = Arc::new((Mutex::new(false), Condvar::new()));
        let shown = io::stderr().is_terminal() && !(writes_to_stdout && io::stdout().is_terminal());
        let until = ended.clone();
        // Where no thread can be started nothing is shown.
        let shows = shown.then(|| thread::Builder::new().spawn(move || show(&until, total)).ok()).flatten();
        Progress { ended, shows }
    }
}

impl Drop for Progress {
    fn drop(&mut self) {
        *self.ended.0.lock().unwrap_or_else(|poisoned| poisoned.into_inner()) = true;
        self.ended.1.notify_all();
        self.shows.take().into_iter().for_each(|shows| drop(shows.join()));
    }
}

/// Writes the line anew until the end, and then takes it away. The cursor stays before it, so that a line about a problem, which is longer, takes
/// its place.
fn show((ended, changed): &(Mutex<bool>, Condvar), total: Option<u64>) {
    let mut wait = Duration::from_secs(1);
    let mut shown = false;
    loop {
        let guard = ended.lock().unwrap_or_else(|poisoned| poisoned.into_inner());
        let waited = changed.wait_timeout_while(guard, wait, |ended| !*ended);
        if *waited.unwrap_or_else(|poisoned| poisoned.into_inner()).0 {
            break;
        }
        let _ = write!(io::stderr(), "{}\x1b[K\r", line(READ.load(Ordering::Relaxed), total));
        (wait, shown) = (Duration::from_millis(200), true);
    }
    if shown {
        let _ = write!(io::stderr(), "\x1b[K");
    }
}

fn line(read: u64, total: Option<u64>) -> String {
    match total.filter(|total| *total > 0) {
        Some(total) => format!("dwg-hatch: {}%", (100 * u128::from(read) / u128::from(total)).min(100)),
        None => format!("dwg-hatch: {} MB", read >> 20),
    }
}

#[cfg(test)]
mod tests {
    use super::*;

    #[test]
    fn a_part_of_a_file_or_what_is_read() {
        let parts = [line(0, Some(4)), line(1, Some(3)), line(9, Some(3)), line(u64::MAX, Some(u64::MAX))];
        assert_eq!(parts.join(" "), "dwg-hatch: 0% dwg-hatch: 33% dwg-hatch: 100% dwg-hatch: 100%");
        assert_eq!([line(5 << 20, None), line(7, Some(0))].join(" "), "dwg-hatch: 5 MB dwg-hatch: 0 MB");
    }

    #[test]
    fn bytes_are_counted() {
        let before = READ.load(Ordering::Relaxed);
        Counted(&[0; 1000][..]).read_to_end(&mut Vec::new()).unwrap();
        assert!(READ.load(Ordering::Relaxed) >= before + 1000);
    }
}
