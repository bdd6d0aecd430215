//! The work of a command for people: each item of its input in turn, and a line on standard error for each that cannot be done.

use std::io::{self, Write};

use dwg_hatch::Refusal;

use crate::commands::failure::Failure;
use crate::commands::input::{Input, Item};
use crate::commands::items::{ItemBatch, Items};
use crate::jobs;

/// Why an item is not done, or may be done wrongly.
#[derive(Debug)]
pub enum Problem {
    /// The library refuses it.
    Refused(Refusal),
    /// Something else is wrong.
    Failed(Failure),
    /// It is done, but may not be what was meant.
    Doubted(String),
}

impl From<Refusal> for Problem {
    fn from(refusal: Refusal) -> Problem {
        Problem::Refused(refusal)
    }
}

impl From<Failure> for Problem {
    fn from(failure: Failure) -> Problem {
        Problem::Failed(failure)
    }
}

impl From<io::Error> for Problem {
    fn from(error: io::Error) -> Problem {
        Problem::Failed(error.into())
    }
}

/// What came of an item: what is written of it, why it is not done or may be done wrongly, and what else is kept of it.
pub struct Done<More> {
    /// The text for standard output, with its line ends.
    pub text: String,
    /// The problem, if there is one.
    pub problem: Option<Problem>,
    /// What is kept for the end, if anything is.
    pub more: Option<More>,
}

/// A line on standard error and the status that it gives.
type Said = (u8, String);

/// So many bytes of requests are worked on at once.
const BATCH: usize = 1 << 16;

impl Input {
    /// [`Items::each`] with the work done side by side by so many jobs, each with a worker of its own. Its texts are written to `output` in order,
    /// and written out before the line about a problem, so that both streams are in order on a terminal, and before more input is waited for. What
    /// else is kept of an item is handed to `keep`, in order too.
    pub fn each_by_jobs<More: Send + 'static, Worker: FnMut(&Item) -> Done<More>>(
        &self,
        jobs: usize,
        mut output: impl Write,
        mut errors: impl Write,
        worker: impl Fn() -> Worker + Send + Sync + 'static,
        mut keep: impl FnMut(More),
    ) -> Result<u8, Failure> {
        let mut items = self.items()?;
        let worker = move || {
            let mut work = worker();
            move |batch: ItemBatch| batch.items.into_iter().map(|item| done(item, &mut work)).collect::<Vec<_>>()
        };
        let mut status = 0;
        jobs::in_order(jobs, move || items.batch(BATCH), worker, |batch| {
            for (text, said, more) in batch {
                more.into_iter().for_each(&mut keep);
                status = status.max(write(&text, said, &mut output, &mut errors)?);
            }
            output.flush().map_err(Failure::Io)
        })?;
        Ok(status)
    }
}

/// The text of an item, the line about its problem, and what is kept of it; a failure that ends the work is for the one who writes.
fn done<More>(item: Result<Item, Failure>, work: &mut impl FnMut(&Item) -> Done<More>) -> (String, Result<Option<Said>, Failure>, Option<More>) {
    match item {
        Err(failure) => (String::new(), told(failure).map(Some), None),
        Ok(item) => {
            let Done { text, problem, more } = work(&item);
            (text, problem.map(|problem| said(&item, problem)).transpose(), more)
        }
    }
}

/// Writes what came of an item. Gives its status.
fn write(text: &str, said: Result<Option<Said>, Failure>, output: &mut impl Write, errors: &mut impl Write) -> Result<u8, Failure> {
    output.write_all(text.as_bytes())?;
    let Some((status, line)) = said? else { return Ok(0) };
    output.flush()?;
    let _ = writeln!(errors, "dwg-hatch: {line}");
    Ok(status)
}

/// The line about what is no item. A file or a stream that fails ends the work.
fn told(failure: Failure) -> Result<Said, Failure> {
    match failure {
        Failure::Read(_) | Failure::Io(_) => Err(failure),
        failure => Ok((failure.status(), failure.to_string())),
    }
}

/// The line about an item's problem. A stream that fails ends the work.
fn said(item: &Item, problem: Problem) -> Result<Said, Failure> {
    match problem {
        Problem::Doubted(line) => Ok((0, format!("{}: warning: {line}", item.origin))),
        Problem::Refused(refusal) => Ok((1, format!("{}: {refusal}", item.origin))),
        Problem::Failed(failure @ Failure::Io(_)) => Err(failure),
        Problem::Failed(failure) => Ok((failure.status(), format!("{}: {failure}", item.origin))),
    }
}

impl Items {
    /// Does the work for each item, in order. Each problem is one line on `errors`, with the item's origin, and the next item's turn comes; but
    /// a file or a stream that fails ends the work, and is the failure. Gives the tool's status: 0 if all was done, with warnings too, 1 if something
    /// was refused, 2 if a line was wrong.
    pub fn each(self, mut errors: impl Write, mut work: impl FnMut(&Item) -> Result<(), Problem>) -> Result<u8, Failure> {
        let mut status = 0;
        for item in self {
            let (number, line) = match item {
                Err(failure) => told(failure)?,
                Ok(item) => match work(&item) {
                    Ok(()) => continue,
                    Err(problem) => said(&item, problem)?,
                },
            };
            status = status.max(number);
            let _ = writeln!(errors, "dwg-hatch: {line}");
        }
        Ok(status)
    }
}

#[cfg(test)]
mod tests {
    use super::*;
    use crate::commands::input::Kind;

    #[test]
    fn nothing_to_do_is_status_0() {
        let mut done = 0;
        let status = Input::Requests("/dev/null".into(), Kind::Hatch).items().unwrap().each(Vec::new(), |_| {
            done += 1;
            Ok(())
        });
        assert_eq!((status.unwrap(), done), (0, 0));
    }
}
