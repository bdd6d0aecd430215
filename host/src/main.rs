//! The command-line tool: the line protocol and the commands, over the library.

mod commands;
mod jobs;
mod progress;
mod protocol;

use std::env;
use std::ffi::{OsStr, OsString};
use std::io::{self, Write};
use std::os::unix::ffi::OsStrExt;
use std::process::ExitCode;

use commands::failure::{shown, Failure};
use commands::help::TRY_HELP;
use commands::options::{counted_jobs, Asked, Command, Options};
use commands::origin::is_auto;
use commands::streams::{self, NamedInput};
use commands::{cut, draw, help, read};
use progress::{Counted, Progress};

fn main() -> ExitCode {
    let words: Vec<OsString> = env::args_os().skip(1).collect();
    match run(&words) {
        Ok(status) => ExitCode::from(status),
        Err(failure) if failure.is_closed_pipe() => ExitCode::SUCCESS,
        Err(failure) => {
            // One line on standard error, if that can be written to.
            let _ = writeln!(io::stderr(), "dwg-hatch: {failure}");
            ExitCode::from(failure.status())
        }
    }
}

/// Runs a command; gives the tool's status.
fn run(words: &[OsString]) -> Result<u8, Failure> {
    let Some((command, words)) = words.split_first() else { return Err(Failure::Usage(format!("no command is given; {TRY_HELP}"))) };
    match command.to_str() {
        Some("read") => reads(&read::READ, help::READ_HELP, words),
        Some("prefix") => reads(&read::PREFIX, help::PREFIX_HELP, words),
        Some("draw") => draws(words),
        Some("cut") => cuts(words),
        Some("answer") => answer(words),
        Some("help") => print(help_about(words)?),
        Some("--help" | "-h") if words.is_empty() => print(help::HELP),
        Some("--version" | "-V") if words.is_empty() => print(help::VERSION),
        Some(word @ ("--help" | "-h" | "--version" | "-V")) => Err(Failure::Usage(format!("{word} takes nothing after it; {TRY_HELP}"))),
        _ => Err(Failure::Usage(format!("there is no command \"{}\"; {TRY_HELP}", shown(command.as_encoded_bytes())))),
    }
}

/// What `help` and the words behind it ask for.
fn help_about(words: &[OsString]) -> Result<&'static str, Failure> {
    match words {
        [] => Ok(help::HELP),
        [command] => match command.to_str().and_then(help::of) {
            Some(text) => Ok(text),
            None => Err(Failure::Usage(format!("there is no command \"{}\"; {TRY_HELP}", shown(command.as_encoded_bytes())))),
        },
        [_, second, ..] => {
            Err(Failure::Usage(format!("help is for one command at a time, and \"{}\" is a second; {TRY_HELP}", shown(second.as_encoded_bytes()))))
        }
    }
}

fn reads(command: &Command, help: &str, words: &[OsString]) -> Result<u8, Failure> {
    match command.parse(words)? {
        Asked::Help => print(help),
        Asked::Run { options, input } => {
            let _progress = Progress::start(input.length().map(|length| (1 + more(&options)) * length), true);
            read::run(command, &options, &input, streams::output(), io::stderr())
        }
    }
}

/// How often the input is gone through besides: once, if an origin is to be found.
fn more(options: &Options) -> u64 {
    u64::from(is_auto(options))
}

fn draws(words: &[OsString]) -> Result<u8, Failure> {
    match draw::DRAW.parse(words)? {
        Asked::Help => print(help::DRAW_HELP),
        Asked::Run { options, input } => {
            // A file is read twice, and a picture may have a file of its own.
            let _progress = Progress::start(input.length().map(|length| (2 + more(&options)) * length), draw::writes_to_stdout(&options));
            draw::run(&options, &input, streams::output(), io::stderr())
        }
    }
}

fn cuts(words: &[OsString]) -> Result<u8, Failure> {
    match cut::CUT.parse(words)? {
        Asked::Help => print(help::CUT_HELP),
        Asked::Run { options, input } => cut::run(&options, &input, streams::output(), io::stderr()),
    }
}

fn answer(words: &[OsString]) -> Result<u8, Failure> {
    let (mut f64_entries, mut jobs) = (false, jobs::cores());
    let usage = |line: String| Failure::Usage(format!("{line}; dwg-hatch answer --help says what it takes"));
    let mut words = words.iter();
    while let Some(word) = words.next() {
        match word.as_encoded_bytes() {
            b"--help" | b"-h" => return print(help::ANSWER_HELP),
            b"--f64" => f64_entries = true,
            b"--jobs" => {
                let value = words.next().ok_or_else(|| usage("--jobs is given without its value".to_string()))?;
                jobs = counted_jobs(value).map_err(usage)?;
            }
            [b'-', b'-', b'j', b'o', b'b', b's', b'=', value @ ..] => jobs = counted_jobs(OsStr::from_bytes(value)).map_err(usage)?,
            word => return Err(usage(format!("answer takes no \"{}\"", shown(word)))),
        }
    }
    let _progress = Progress::start(progress::length_of_stdin(), true);
    protocol::answer::run(Counted(NamedInput(streams::input())), streams::output(), f64_entries, jobs)?;
    Ok(0)
}

fn print(text: &str) -> Result<u8, Failure> {
    let mut out = streams::output();
    out.write_all(text.as_bytes())?;
    out.flush()?;
    Ok(0)
}
