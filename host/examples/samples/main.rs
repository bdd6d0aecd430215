//! Writes the files of requests, objects and a drawing under samples/, the same bytes in every run. `host/samples` calls it.

mod files;

use std::fs;
use std::path::Path;
use std::process::ExitCode;

fn main() -> ExitCode {
    let Some(folder) = std::env::args_os().nth(1) else {
        eprintln!("samples: name the folder that the files are to be written to");
        return ExitCode::from(2);
    };
    for (name, bytes) in files::all() {
        if let Err(error) = fs::write(Path::new(&folder).join(name), bytes) {
            eprintln!("samples: {name} cannot be written: {error}");
            return ExitCode::from(1);
        }
    }
    ExitCode::SUCCESS
}
