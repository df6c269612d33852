//! Prints, as a table, FOLDER/model.blk merged by a grouping: for each state the number of its group. An empty row of
//! version 1 comes out filled.
//!
//!     cargo run --release --example merge -- FOLDER 0 1 1

use std::error::Error;
use std::fs::read;
use std::path::Path;
use std::process::ExitCode;
use twolsken::{merge, read_model, Table, LONGEST_FILE};

/// The table of the merged model.
fn merged(folder: &Path, groups: &[String]) -> Result<Table, Box<dyn Error>> {
    let file = read(folder.join("model.blk"))?;
    let grouping = groups.iter().map(|group| group.parse()).collect::<Result<Vec<u8>, _>>()?;
    let mut out = [0; LONGEST_FILE];
    let length = merge(&file, &grouping, &mut out)?;
    Ok(Table::of(read_model(&out[..length])?))
}

fn main() -> ExitCode {
    let words: Vec<String> = std::env::args().skip(1).collect();
    let Some((folder, groups)) = words.split_first() else {
        eprintln!("usage: merge FOLDER GROUP..");
        return ExitCode::from(2);
    };
    match merged(Path::new(folder), groups) {
        Ok(table) => print!("{table}"),
        Err(error) => {
            eprintln!("{folder}: {error}");
            return ExitCode::FAILURE;
        }
    }
    ExitCode::SUCCESS
}
