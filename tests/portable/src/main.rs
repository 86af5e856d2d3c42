//! Calls of every function of the library:
//!
//!     calls compare N        N random calls of each function by the proved library and by the portable crate: the same answers, and the same bytes in every list
//!     calls write FOLDER     calls with the proved library's answers, for tests/processors

mod compared;
mod drawn;
mod functions;
mod given;
mod written;

use std::path::Path;
use std::process::ExitCode;

fn main() -> ExitCode {
    let args: Vec<String> = std::env::args().skip(1).collect();
    let done = match args.iter().map(String::as_str).collect::<Vec<_>>()[..] {
        ["compare", calls] => calls.parse().ok().map(compared::compare_all),
        ["write", folder] => Some(
            written::write_all(Path::new(folder))
                .map_err(|error| eprintln!("calls: FAILED: {folder}: {error}"))
                .is_ok(),
        ),
        _ => None,
    };
    match done {
        Some(true) => ExitCode::SUCCESS,
        Some(false) => ExitCode::FAILURE,
        None => {
            eprintln!("usage: calls compare N | calls write FOLDER");
            ExitCode::from(2)
        }
    }
}
