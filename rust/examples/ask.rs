//! Judges FOLDER/sentence.txt on FOLDER/model.blk, and prints the probability of each path formula at each tuple
//! of states: the numbers behind the verdict.
//!
//!     cargo run --release --example ask -- FOLDER

use std::error::Error;
use std::fs::read;
use std::io::{stdout, Write};
use std::path::Path;
use std::process::ExitCode;
use twolsken::{numerator, read_model, read_sentence, verdict, work_area, WORK_AREA};

/// The tuples of so many letters, in order, the last member changing first.
fn tuples(states: u32, letters: usize) -> Vec<Vec<u8>> {
    (0..letters).fold(vec![Vec::new()], |shorter, _| {
        let longer =
            |tuple: &Vec<u8>| (0..states).map(|s| [&tuple[..], &[s as u8]].concat()).collect::<Vec<_>>();
        shorter.iter().flat_map(longer).collect()
    })
}

/// Asks the sentence of a folder and prints what is answered.
fn ask(folder: &Path) -> Result<(), Box<dyn Error>> {
    let file = read(folder.join("model.blk"))?;
    let line = read(folder.join("sentence.txt"))?;
    let text = line.strip_suffix(b"\n").unwrap_or(&line);
    let (model, sentence) = (read_model(&file)?, read_sentence(text)?);
    let letters = sentence.prefix.len();
    // What the question needs, or the most if it has too many tuples: then it is refused by 11.
    let mut work = vec![0; work_area(model.n as usize, letters).min(WORK_AREA)];
    let mut out = stdout().lock();
    writeln!(out, "{}", verdict(&file, text, &mut work)?)?;
    let paths = sentence.nodes.iter().filter(|node| node.is_path()).count();
    for path in 0..paths {
        for tuple in tuples(model.n, letters) {
            let probability = numerator(&file, text, &tuple, path, &mut work)?;
            writeln!(out, "path formula {path} at {tuple:?}: {probability}")?;
        }
    }
    Ok(())
}

fn main() -> ExitCode {
    let Some(folder) = std::env::args().nth(1) else {
        eprintln!("usage: ask FOLDER");
        return ExitCode::from(2);
    };
    match ask(Path::new(&folder)) {
        Ok(()) => ExitCode::SUCCESS,
        Err(error) => {
            eprintln!("{folder}: {error}");
            ExitCode::FAILURE
        }
    }
}
