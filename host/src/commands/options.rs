//! What a command for people is asked: its own options, and where its input is.

use std::ffi::{OsStr, OsString};
use std::os::unix::ffi::OsStrExt;

use dwg_hatch::Release;

use crate::commands::failure::{shown, Failure};
use crate::commands::input::{Binary, BinaryStrings, Input, Kind};
use crate::jobs::{self, MOST_JOBS};
use crate::protocol::request::number;

/// What a command takes beside its input.
#[derive(Clone, Copy, Debug)]
pub struct Command {
    /// Its name.
    pub name: &'static str,
    /// What a binary file holds for it.
    pub kind: Kind,
    /// Its own options that take nothing, such as `--json`.
    pub switches: &'static [&'static str],
    /// Its own options that take a value each, such as `--output`.
    pub values: &'static [&'static str],
}

/// The option that says how many jobs work side by side.
pub const JOBS: &str = "--jobs";

/// The options that say what a binary file is; the last three go with a hatch.
const BINARY: [&str; 5] = ["--release", "--start", "--strings", "--string-start", "--string-end"];

/// What a command is asked.
#[derive(Clone, Debug, PartialEq, Eq)]
pub enum Asked {
    /// What it takes: `--help` or `-h` is given.
    Help,
    /// What to do.
    Run {
        /// The command's own options, each once at most.
        options: Options,
        /// Where the input is.
        input: Input,
    },
}

/// The options that are given.
#[derive(Clone, Debug, Default, PartialEq, Eq)]
pub struct Options(Vec<(&'static str, OsString)>);

impl Options {
    /// Whether an option is given.
    pub fn has(&self, name: &str) -> bool {
        self.value(name).is_some()
    }

    /// The value of an option that takes one; of a switch it is empty.
    pub fn value(&self, name: &str) -> Option<&OsStr> {
        self.0.iter().find(|option| option.0 == name).map(|option| option.1.as_os_str())
    }
}

impl Command {
    /// What the words behind a command's name ask. An option's value is the next word, or stands behind `=`; behind `--` there are no options.
    pub fn parse(&self, words: &[OsString]) -> Result<Asked, Failure> {
        let (mut options, mut files) = (Options::default(), Vec::new());
        let mut rest = words.iter();
        while let Some(word) = rest.next() {
            match word.as_bytes() {
                b"--help" | b"-h" => return Ok(Asked::Help),
                b"--" => files.extend(rest.by_ref()),
                b"-" => files.push(word),
                [b'-', ..] => options.0.push(self.option(&options, word, &mut rest)?),
                _ => files.push(word),
            }
        }
        let file = match files.as_slice() {
            [] => OsStr::new("-"),
            [file] => file,
            [_, second, ..] => return Err(self.usage(format!("one file is read at a time, and {} is a second one", shown(second.as_bytes())))),
        };
        let input = self.input(&options, file)?;
        Ok(Asked::Run { options, input })
    }

    /// An option and its value.
    fn option<'a>(
        &self,
        given: &Options,
        word: &OsStr,
        rest: &mut impl Iterator<Item = &'a OsString>,
    ) -> Result<(&'static str, OsString), Failure> {
        let bytes = word.as_bytes();
        let (start, value) = match bytes.iter().position(|byte| *byte == b'=') {
            Some(at) => (&bytes[..at], Some(OsStr::from_bytes(&bytes[at + 1..]))),
            None => (bytes, None),
        };
        let named = |names: &[&'static str]| names.iter().copied().find(|name| name.as_bytes() == start);
        let switch = named(self.switches);
        let Some(name) = switch.or(named(self.values)).or(named(self.binary())) else {
            return Err(self.usage(format!("{} takes no \"{}\"", self.name, shown(bytes))));
        };
        if given.has(name) {
            return Err(self.usage(format!("{name} is given twice")));
        }
        if switch.is_some() {
            return if value.is_none() { Ok((name, OsString::new())) } else { Err(self.usage(format!("{name} takes no value"))) };
        }
        let value = value.or_else(|| rest.next().map(OsString::as_os_str));
        value.map(|value| (name, value.to_os_string())).ok_or_else(|| self.usage(format!("{name} is given without its value")))
    }

    fn binary(&self) -> &'static [&'static str] {
        if self.kind == Kind::Hatch { &BINARY } else { &BINARY[..2] }
    }

    fn input(&self, options: &Options, file: &OsStr) -> Result<Input, Failure> {
        let file = file.to_os_string();
        let Some(release) = self.release(options)? else {
            return match BINARY.iter().find(|name| options.has(name)) {
                Some(name) => Err(self.usage(format!("{name} goes with --release N, which says that the file is binary"))),
                None => Ok(Input::Requests(file, self.kind)),
            };
        };
        let start = self.place(options, "--start")?.unwrap_or(0);
        let strings = self.strings(options)?;
        if strings.as_ref().is_some_and(|strings| strings.file == file && file == "-") {
            return Err(self.usage("both payloads cannot come from standard input".to_string()));
        }
        Ok(Input::Binary(Binary { file, kind: self.kind, release, start, strings }))
    }

    fn strings(&self, options: &Options) -> Result<Option<BinaryStrings>, Failure> {
        let (start, end) = (self.place(options, "--string-start")?, self.place(options, "--string-end")?);
        match options.value("--strings") {
            Some(file) => Ok(Some(BinaryStrings { file: file.to_os_string(), start: start.unwrap_or(0), end })),
            None if start.or(end).is_some() => Err(self.usage("--string-start and --string-end go with --strings FILE".to_string())),
            None => Ok(None),
        }
    }

    /// The release's number: any, so that what the library says of an unknown one is seen, or that of a release by its name.
    fn release(&self, options: &Options) -> Result<Option<u64>, Failure> {
        let Some(value) = options.value("--release") else { return Ok(None) };
        let named = || value.to_str()?.parse().ok().map(Release::number);
        let wrong = || {
            let names = Release::ALL.map(Release::name).join(", ");
            self.usage(format!("--release is \"{}\", which is none of {names}, nor a number", shown(value.as_bytes())))
        };
        number(value.as_bytes()).or_else(named).map(Some).ok_or_else(wrong)
    }

    fn place(&self, options: &Options, name: &str) -> Result<Option<usize>, Failure> {
        let place = self.number(options, name)?.map(usize::try_from).transpose();
        place.map_err(|_| self.usage(format!("{name} is above {}", usize::MAX)))
    }

    /// An option's value as a number.
    fn number(&self, options: &Options, name: &str) -> Result<Option<u64>, Failure> {
        let Some(value) = options.value(name) else { return Ok(None) };
        let bytes = value.as_bytes();
        let wrong = || self.usage(format!("{name} is \"{}\", which is no decimal number from 0 to {}", shown(bytes), u64::MAX));
        number(bytes).map(Some).ok_or_else(wrong)
    }

    /// How many jobs work side by side: as `--jobs` says, else as many as the machine has cores.
    pub fn jobs(&self, options: &Options) -> Result<usize, Failure> {
        options.value(JOBS).map_or_else(|| Ok(jobs::cores()), |value| counted_jobs(value).map_err(|line| self.usage(line)))
    }

    /// Bad usage of this command.
    pub fn usage(&self, line: String) -> Failure {
        Failure::Usage(format!("{line}; dwg-hatch {} --help says more", self.name))
    }
}

/// The number of jobs that a word names, or what is wrong with it.
pub fn counted_jobs(word: &OsStr) -> Result<usize, String> {
    let given = number(word.as_bytes()).and_then(|jobs| usize::try_from(jobs).ok()).filter(|jobs| (1..=MOST_JOBS).contains(jobs));
    given.ok_or_else(|| format!("{JOBS} is \"{}\", which is no number from 1 to {MOST_JOBS}", shown(word.as_bytes())))
}

#[cfg(test)]
mod tests {
    use super::*;

    #[test]
    fn options_and_input() {
        let read = Command { name: "read", kind: Kind::Hatch, switches: &["--json"], values: &[] };
        let words = |line: &str| line.split(' ').map(Into::into).collect::<Vec<OsString>>();
        let Ok(Asked::Run { options, input }) = read.parse(&words("--json requests.txt")) else { panic!("no work") };
        assert!(options.has("--json") && input == Input::Requests("requests.txt".into(), Kind::Hatch));
        let failure = read.parse(&words("--start 3 body.bin")).unwrap_err();
        assert_eq!(failure.to_string(), "--start goes with --release N, which says that the file is binary; dwg-hatch read --help says more");
    }
}
