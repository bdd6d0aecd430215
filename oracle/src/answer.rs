//! Requests on standard input, one answer line each on standard output, in order.

use std::io::{self, BufRead, BufWriter, Write};

use crate::request::{self, Request};
use crate::show::Show;
use crate::{answer_code, answer_hatch, answer_prefix, cp1252, move_model};

/// The answer to one line.
pub fn line(line: &str, show: Show) -> String {
    match request::parse(line) {
        Some(Request::Hatch(request)) => answer_hatch::answer(&request, show),
        Some(Request::Prefix { release, start, main }) => answer_prefix::answer(release, start, &main, show),
        Some(Request::Code { code, version, start, main }) => answer_code::answer(code, version, start, &main, show),
        Some(Request::Move(request)) => move_model::answer(&request, show),
        Some(Request::CodePage(request)) => cp1252::answer(&request),
        None => "bad request".to_string(),
    }
}

pub fn run(f64_entries: bool) -> Result<bool, String> {
    let show = Show { f64_entries };
    let mut out = BufWriter::new(io::stdout().lock());
    for request in io::stdin().lock().lines() {
        let request = request.map_err(|e| format!("oracle answer: {e}"))?;
        writeln!(out, "{}", line(&request, show)).map_err(|e| format!("oracle answer: {e}"))?;
    }
    out.flush().map_err(|e| format!("oracle answer: {e}"))?;
    Ok(true)
}
