//! Prints the picture of FOLDER/table.txt, an SVG. tools/pictures makes those of docs/pictures with it.
//!
//!     cargo run --release --example draw -- FOLDER

use std::path::Path;
use std::process::ExitCode;
use twolsken_host::picture::picture_of;

fn main() -> ExitCode {
    let Some(folder) = std::env::args().nth(1) else {
        eprintln!("usage: draw FOLDER");
        return ExitCode::from(2);
    };
    match picture_of(Path::new(&folder)) {
        Ok(picture) => print!("{picture}"),
        Err(error) => {
            eprintln!("{folder}: {error}");
            return ExitCode::FAILURE;
        }
    }
    ExitCode::SUCCESS
}
