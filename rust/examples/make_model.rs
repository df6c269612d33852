//! Writes FOLDER/model.blk from the table FOLDER/table.txt.
//!
//!     cargo run --release --example make_model -- FOLDER

use std::error::Error;
use std::fs::{read_to_string, write};
use std::path::{Path, PathBuf};
use std::process::ExitCode;
use twolsken::Table;

/// Writes the model file of the table in a folder; returns where.
fn make(folder: &Path) -> Result<PathBuf, Box<dyn Error>> {
    let from = folder.join("table.txt");
    let named = |error: &dyn Error| format!("{}: {error}", from.display());
    let text = read_to_string(&from).map_err(|error| named(&error))?;
    let table: Table = text.parse().map_err(|error| named(&error))?;
    let to = folder.join("model.blk");
    write(&to, table.model.to_file()?).map_err(|error| format!("{}: {error}", to.display()))?;
    Ok(to)
}

fn main() -> ExitCode {
    let Some(folder) = std::env::args().nth(1) else {
        eprintln!("usage: make_model FOLDER");
        return ExitCode::from(2);
    };
    match make(Path::new(&folder)) {
        Ok(to) => println!("{} is written", to.display()),
        Err(error) => {
            eprintln!("{error}");
            return ExitCode::FAILURE;
        }
    }
    ExitCode::SUCCESS
}
