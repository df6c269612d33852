//! The example programs, run as a user runs them.

use std::fs::{copy, create_dir, read, remove_dir_all, write};
use std::path::{Path, PathBuf};
use std::process::{Command, Output};
use twolsken::{read_model, Model, Table};

/// A folder of its own for a test.
struct Folder(PathBuf);

impl Folder {
    fn new(name: &str) -> Folder {
        let folder = std::env::temp_dir().join(format!("twolsken-{}-{name}", std::process::id()));
        create_dir(&folder).expect("a folder");
        Folder(folder)
    }
}

impl Drop for Folder {
    fn drop(&mut self) {
        remove_dir_all(&self.0).expect("the folder goes");
    }
}

/// A folder of the samples.
fn sample(name: &str) -> PathBuf {
    Path::new(env!("CARGO_MANIFEST_DIR")).join("../samples").join(name)
}

/// Runs an example, which cargo has built beside this test, with a folder and further words.
fn run(example: &str, folder: &Path, words: &[&str]) -> Output {
    let test = std::env::current_exe().expect("this test");
    let program = test.parent().and_then(Path::parent).expect("its folder").join("examples").join(example);
    Command::new(program).arg(folder).args(words).output().expect(example)
}

/// What a run printed, where it went well.
fn printed(output: Output) -> String {
    let told = String::from_utf8_lossy(&output.stderr).into_owned();
    assert!(output.status.success() && told.is_empty(), "{told}");
    String::from_utf8(output.stdout).expect("a text")
}

/// What a run that failed said, without the folder's name.
fn told(folder: &Path, output: Output) -> String {
    assert_eq!((output.status.code(), output.stdout.as_slice()), (Some(1), &b""[..]));
    String::from_utf8(output.stderr).expect("a text").replace(&*folder.to_string_lossy(), "FOLDER")
}

#[test]
fn make_model_writes_the_file_of_a_table() {
    let folder = Folder::new("make");
    for name in ["counter", "halted"] {
        copy(sample(name).join("table.txt"), folder.0.join("table.txt")).expect("a table");
        printed(run("make_model", &folder.0, &[]));
        let [made, shipped] =
            [&folder.0, &sample(name)].map(|at| read(at.join("model.blk")).expect("a file"));
        assert_eq!(made, shipped, "{name}");
    }
}

#[test]
fn make_model_says_what_is_wrong() {
    let folder = Folder::new("wrong");
    let said = told(&folder.0, run("make_model", &folder.0, &[]));
    assert!(said.starts_with("FOLDER/table.txt: No such file"), "{said}");
    write(folder.0.join("table.txt"), "D 4\nlabels a\nstate s: s 3\n").expect("a table");
    let said = told(&folder.0, run("make_model", &folder.0, &[]));
    assert_eq!(said, "FOLDER/table.txt: line 3, column 7: the weights of `s` add up to 3, and D is 4\n");
    write(folder.0.join("table.txt"), "version 2\nD 4\nlabels a\nstate s:\n").expect("a table");
    let said = told(&folder.0, run("make_model", &folder.0, &[]));
    assert_eq!(said, "FOLDER/table.txt: line 1, column 9: the version is a number from 0 to 1, not `2`\n");
    assert!(!folder.0.join("model.blk").exists());
}

#[test]
fn show_model_prints_a_table_of_the_same_model() {
    let shown: Table = printed(run("show_model", &sample("counter"), &[])).parse().expect("a table");
    let file = read(sample("counter").join("model.blk")).expect("a file");
    assert_eq!(shown.model, read_model(&file).expect("a model"));
    let halted = printed(run("show_model", &sample("halted"), &[]));
    let states = "state s0:     s0 7, s1 3\nstate s1:     s0 4, s2 6\nstate s2 (a):\n";
    assert_eq!(halted, format!("version 1\nD 10\nlabels a\n{states}"));
    let folder = Folder::new("show");
    write(folder.0.join("model.blk"), [0; 512]).expect("a file");
    let said = told(&folder.0, run("show_model", &folder.0, &[]));
    assert!(said.starts_with("FOLDER/model.blk: refused 4: "), "{said}");
}

#[test]
fn ask_prints_the_numbers_behind_a_verdict() {
    let lines = printed(run("ask", &sample("counter-fails"), &[]));
    assert!(lines.starts_with("fails\npath formula 0 at [0, 0]: 192/10000\n"), "{lines}");
    assert!(lines.contains("\npath formula 0 at [2, 0]: 1000/10000\n"), "{lines}");
    assert!(lines.contains("\npath formula 1 at [0, 2]: 1000/10000\n"), "{lines}");
    assert_eq!(lines.lines().count(), 1 + 2 * 25);
    let lines = printed(run("ask", &sample("halted"), &[]));
    let numbers = ["0]: 306/1000", "1]: 672/1000", "2]: 1000/1000"];
    assert_eq!(lines, format!("holds\n{}", numbers.map(|at| format!("path formula 0 at [{at}\n")).concat()));
}

/// On a model of 32 empty rows two letters are answered and three are refused by 11.
#[test]
fn ask_lends_up_to_the_most() {
    let folder = Folder::new("ask");
    let model = Model { n: 32, a: 1, d: 1, version: 1, ..Model::empty() };
    write(folder.0.join("model.blk"), model.to_file().expect("a file")).expect("a model");
    write(folder.0.join("sentence.txt"), "AA.!a1\n").expect("a sentence");
    assert_eq!(printed(run("ask", &folder.0, &[])), "holds\n");
    write(folder.0.join("sentence.txt"), "AAA.!a1\n").expect("a sentence");
    let said = told(&folder.0, run("ask", &folder.0, &[]));
    assert_eq!(said, "FOLDER: refused 11: there are over 1024 tuples of states\n");
}

#[test]
fn merge_prints_the_merged_model() {
    let merged = printed(run("merge", &sample("m2"), &["0", "1", "1"]));
    assert_eq!(merged, "D 4\nlabels a\nstate s0:     s0 2, s1 2\nstate s1 (a): s1 4\n");
    let filled = printed(run("merge", &sample("halted"), &["0", "1", "2"]));
    let states = "state s0:     s0 7, s1 3\nstate s1:     s0 4, s2 6\nstate s2 (a): s2 10\n";
    assert_eq!(filled, format!("version 1\nD 10\nlabels a\n{states}"));
    let said = told(&sample("m2"), run("merge", &sample("m2"), &["0", "0", "1"]));
    assert!(said.starts_with("FOLDER: refused 13: "), "{said}");
}
