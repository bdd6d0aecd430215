//! `--jobs`: what is written is the same for any number of jobs, in order; and however the work ends, it ends.

mod calls;
mod drawings;

use std::fs::{File, OpenOptions};
use std::io::{BufRead, BufReader, Read, Write};
use std::process::{Child, Stdio};
use std::thread;
use std::time::{Duration, Instant};

use calls::{answers, call, file, refuses, tool};
use drawings::layouts::{Numbers, Plan};
use drawings::{line, polyline, TRIANGLE};

/// Requests of all kinds and lengths, good and bad.
fn requests(count: usize) -> String {
    let mut n = Numbers(7);
    let mut request = |at: usize| match at % 9 {
        0 => "# a comment\n\n".to_string(),
        1 => "hatch 3 0 C0\n".to_string(),
        2 => "nothing\n".to_string(),
        3 => "prefix 2 0 85D08740\n".to_string(),
        4 => polyline(&(0..200).map(|at| (f64::from(at), f64::from(at % 7))).collect::<Vec<_>>(), None),
        _ => {
            let reader = n.coin();
            let plan = Plan::new(&mut n, 1 + at as u64 % 7, reader);
            line(&plan, &mut n, reader)
        }
    };
    (0..count).map(&mut request).collect()
}

#[test]
fn any_number_of_jobs_writes_the_same() {
    let input = requests(400);
    for words in [&["read"][..], &["read", "--json"], &["read", "--names"], &["read", "--names", "--json"], &["prefix"], &["answer"]] {
        let by = |jobs: &str| call(&[words, &["--jobs", jobs]].concat(), input.as_bytes());
        let one = by("1");
        assert!(one.stdout.len() > 5_000 && one.status.code() == Some(if words == ["answer"] { 0 } else { 2 }), "{words:?}");
        for jobs in ["2", "3", "16"] {
            let more = by(jobs);
            assert!((more.status, more.stdout, more.stderr) == (one.status, one.stdout.clone(), one.stderr.clone()), "{words:?} by {jobs}");
        }
        let cores = call(words, input.as_bytes());
        assert!((cores.stdout, cores.stderr) == (one.stdout, one.stderr), "{words:?} by the machine's cores");
    }
}

#[test]
fn numbers_of_jobs_are_1_to_256() {
    for command in ["read", "prefix", "answer"] {
        for bad in ["0", "257", "-1", "x", "", "1.5", "18446744073709551616"] {
            let said = refuses(&call(&[command, "--jobs", bad], b""), 2);
            assert!(said.contains("--jobs is") && said.contains("1 to 256") && said.contains(&format!("dwg-hatch {command} --help")), "{said}");
        }
        assert!(refuses(&call(&[command, "--jobs"], b""), 2).contains("without its value"));
        assert_eq!(answers(&[command, "--jobs=256"], b""), "");
    }
    refuses(&call(&["draw", "--jobs", "2"], b""), 2);
}

fn started(words: &[&str]) -> Child {
    tool().args(words).stdin(Stdio::piped()).stdout(Stdio::piped()).stderr(Stdio::piped()).spawn().expect("the tool starts")
}

/// The tool's end, which must come though its input stays open.
fn ends(child: &mut Child) -> Option<i32> {
    let began = Instant::now();
    loop {
        match child.try_wait().expect("a status") {
            Some(status) => return status.code(),
            None => assert!(began.elapsed() < Duration::from_secs(60), "the tool does not end"),
        }
        thread::sleep(Duration::from_millis(5));
    }
}

#[test]
fn each_answer_comes_before_the_next_request() {
    for words in [&["answer", "--jobs", "3"][..], &["answer", "--jobs", "1"], &["read", "--json", "--jobs", "3"], &["read", "--json", "--jobs", "1"]] {
        let mut child = started(words);
        let (mut input, output) = (child.stdin.take().expect("a pipe"), child.stdout.take().expect("a pipe"));
        let mut lines = BufReader::new(output).lines();
        for _ in 0..5 {
            // A comment behind the request is no reason to wait either; `answer` calls it a bad request.
            input.write_all(b"prefix 2 0 85D08740\n# done\n").expect("the tool reads");
            let answer = lines.next().expect("an answer").expect("UTF-8");
            assert!(answer.contains("26"), "{answer}");
            if words[0] == "answer" {
                assert_eq!(lines.next().expect("an answer").expect("UTF-8"), "bad request");
            }
        }
        drop(input);
        assert_eq!(ends(&mut child), Some(0), "{words:?}");
    }
}

#[test]
fn a_closed_pipe_ends_the_tool_though_its_input_stays_open() {
    for words in [["answer", "--jobs=3"], ["read", "--jobs=3"], ["answer", "--jobs=1"]] {
        let mut child = started(&words);
        let (mut input, mut output) = (child.stdin.take().expect("a pipe"), child.stdout.take().expect("a pipe"));
        input.write_all(b"prefix 2 0 85D08740\n").expect("the tool reads");
        output.read_exact(&mut [0; 5]).expect("an answer");
        drop(output);
        // Who reads is gone: the next answers cannot be written. The tool may end before all of this is read.
        let _ = input.write_all(b"prefix 2 0 85D08740\n");
        assert_eq!(ends(&mut child), Some(0), "{words:?}");
        let mut said = String::new();
        child.stderr.take().expect("a pipe").read_to_string(&mut said).expect("UTF-8");
        assert_eq!(said, "", "{words:?}");
    }
}

#[test]
fn a_full_disk_is_one_line_and_status_1() {
    let input = file("jobs-full.txt", requests(900).replace("nothing\n", "").replace("hatch 3 0 C0\n", "").as_bytes());
    for words in [["answer", "--jobs=2"], ["read", "--jobs=2"]] {
        let full = OpenOptions::new().write(true).open("/dev/full").expect("the full device");
        let output = tool().args(words).stdin(File::open(&input).expect("a file")).stdout(full).output().expect("the tool starts");
        assert!(refuses(&output, 1).contains("cannot be written"), "{words:?}");
    }
}

/// A picture of a file holds little of it: 6 MB of requests are drawn with less memory than the file is long.
#[test]
fn draw_holds_little_of_a_large_file() {
    let long: Vec<(f64, f64)> = (0..1000).map(|at| (f64::from(at), f64::from(at % 7))).collect();
    let mut lines = polyline(&long, None).repeat(200);
    lines += &polyline(&TRIANGLE, None);
    assert!(lines.len() > 6_000_000);
    let input = file("jobs-large.txt", lines.as_bytes());
    let mut command = std::process::Command::new("sh");
    command.args(["-c", "ulimit -v 20000; exec \"$0\" draw --view 0,0,5,5 \"$1\"", env!("CARGO_BIN_EXE_dwg-hatch")]).arg(&input);
    let output = command.output().expect("a shell");
    assert!(output.status.success(), "{}", String::from_utf8_lossy(&output.stderr));
    assert!(output.stdout.ends_with(b"</svg>\n"));
}
