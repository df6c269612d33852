//! The samples: what each README says of the verdict is what the second program answers. That a sample's file is its
//! table's is a test of the package `twolsken`; that the program prints the verdict is one of `program.rs`.

use std::fs::{read, read_to_string};
use std::path::Path;
use twolsken_host::files::{at, samples};
use twolsken_host::inputs::model::file_of;
use twolsken_host::second::meaning::{verdict, ENOUGH};
use twolsken_host::second::{read_model, Model};

/// The verdict that a sample's README ends with.
fn told(sample: &Path) -> String {
    let readme = read_to_string(sample.join("README.md")).expect("a README");
    let last = readme.trim_end().lines().last().expect("a line").to_string();
    let verdict = last.strip_prefix("Verdict: `").and_then(|rest| rest.strip_suffix("`."));
    verdict.unwrap_or_else(|| panic!("{}: the last line is '{last}'", sample.display())).to_string()
}

#[test]
fn each_readme_tells_the_verdict() {
    let mut said = Vec::new();
    for sample in samples() {
        let line = read_to_string(sample.join("sentence.txt")).expect("a sentence");
        let text = line.strip_suffix('\n').expect("a newline at the end");
        let file = read(sample.join("model.blk")).expect("a model file");
        let holds = verdict(&file, text.as_bytes(), &mut [0; ENOUGH]).expect("a verdict");
        assert_eq!(told(&sample), if holds { "holds" } else { "fails" }, "{}", sample.display());
        let readme = read_to_string(sample.join("README.md")).expect("a README");
        assert!(readme.contains(&format!("`{text}`")), "{}: the README has the sentence", sample.display());
        said.push(holds);
    }
    assert!(said.contains(&true) && said.contains(&false), "both verdicts are shown");
}

/// The sentence on the halted car tells the filling: of the rows that could stand for the empty one, only that with weight
/// D to the state itself has the verdict of the README.
#[test]
fn the_halted_car_stays_where_it_is() {
    let [file, line] =
        ["model.blk", "sentence.txt"].map(|name| read(at("samples/halted").join(name)).expect(name));
    let text = line.strip_suffix(b"\n").expect("a newline at the end");
    let model = read_model(&file).expect("a model");
    assert_eq!((model.version, model.weights[2]), (1, [0; 32]));
    for target in 0..3 {
        let mut other = Model { version: 0, ..model.clone() };
        other.weights[2][target] = 10;
        assert_eq!(
            verdict(&file_of(&other), text, &mut [0; ENOUGH]),
            Ok(target == 2),
            "weight 10 to state {target}"
        );
    }
}

#[test]
fn the_stored_run_of_the_program_is_m1() {
    for name in ["model.blk", "sentence.txt"] {
        let stored = read(at("crates/twolsken/data").join(name)).expect(name);
        assert_eq!(stored, read(at("samples/m1").join(name)).expect(name), "{name}");
    }
}
