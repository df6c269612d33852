//! Prints FOLDER/model.blk as a table, with its rows as they stand in the file: an empty row of version 1 is empty. The
//! file has no names: states are s0, s1 and on, labels a, b and on.
//!
//!     cargo run --release --example show_model -- FOLDER

use std::error::Error;
use std::fs::read;
use std::path::Path;
use std::process::ExitCode;
use twolsken::{read_model, Table};

/// The table of the model file in a folder.
fn show(folder: &Path) -> Result<Table, Box<dyn Error>> {
    let from = folder.join("model.blk");
    let named = |error: &dyn Error| format!("{}: {error}", from.display());
    let file = read(&from).map_err(|error| named(&error))?;
    Ok(Table::of(read_model(&file).map_err(|error| named(&error))?))
}

fn main() -> ExitCode {
    let Some(folder) = std::env::args().nth(1) else {
        eprintln!("usage: show_model FOLDER");
        return ExitCode::from(2);
    };
    match show(Path::new(&folder)) {
        Ok(table) => print!("{table}"),
        Err(error) => {
            eprintln!("{error}");
            return ExitCode::FAILURE;
        }
    }
    ExitCode::SUCCESS
}
