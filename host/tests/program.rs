//! The program, as the gate has built it, beside the second program: one line for the two files of a folder.

use std::fs::{create_dir, read, write, OpenOptions};
use std::io::Write;
use std::path::Path;
use std::process::{Command, Output};
use std::thread::{sleep, spawn};
use std::time::Duration;
use twolsken_host::files::{at, samples, Folder};
use twolsken_host::inputs::model::{file_of, model_with, spelled};
use twolsken_host::inputs::Rng;
use twolsken_host::second::meaning::{verdict, ENOUGH};
use twolsken_host::second::model::examples::{halted, m1};
use twolsken_host::second::Model;

/// Puts a file into a folder, if there is to be one.
fn put(folder: &Folder, name: &str, bytes: Option<&[u8]>) {
    if let Some(bytes) = bytes {
        write(folder.0.join(name), bytes).expect("a file");
    }
}

/// A run of the program in a folder: by itself on x86-64, under the kit's emulator on Arm.
fn run(folder: &Path) -> Output {
    assert!(at("crates/twolsken/out/twolsken").exists(), "the program, built by rt ci or ./twolsken");
    Command::new(at("tools/program")).current_dir(folder).output().expect("a run")
}

/// The line that document 01 asks for, by the second program on the whole files. The program has a work area that is enough.
fn line(model: Option<&[u8]>, sentence: Option<&[u8]>) -> String {
    let file = sentence.unwrap_or(b"");
    let text = file.strip_suffix(b"\n").unwrap_or(file);
    match verdict(model.unwrap_or(b""), text, &mut [0; ENOUGH]) {
        Ok(true) => "holds\n".to_string(),
        Ok(false) => "fails\n".to_string(),
        Err(number) => format!("refused {number}\n"),
    }
}

/// Runs the program on two files, each of which may be missing.
fn agrees(name: &str, model: Option<&[u8]>, sentence: Option<&[u8]>) {
    let folder = Folder::new(name);
    put(&folder, "model.blk", model);
    put(&folder, "sentence.txt", sentence);
    let output = run(&folder.0);
    assert_eq!(String::from_utf8_lossy(&output.stdout), line(model, sentence), "{name}");
    assert!(output.status.success() && output.stderr.is_empty(), "{name}");
}

#[test]
fn the_samples() {
    for sample in samples() {
        let [model, sentence] =
            ["model.blk", "sentence.txt"].map(|name| read(sample.join(name)).expect(name));
        let name = sample.file_name().expect("a name").to_string_lossy();
        agrees(&name, Some(&model), Some(&sentence));
    }
}

#[test]
fn a_missing_file_is_empty() {
    agrees("neither", None, None);
    agrees("no-sentence", Some(&file_of(&m1())), None);
    agrees("no-model", None, Some(b"A.T\n"));
    agrees("both-empty", Some(b""), Some(b""));
}

/// A model whose last row is empty, in each version and one above; a row that is neither empty nor right.
#[test]
fn models_of_both_versions() {
    let mut damaged = halted();
    damaged.weights[2][2] = 3;
    for sentence in ["A.=PXTPU0,2:TT", "A.!&a1!=PXa1#1/1;", "A.<PU0,2:Ta1#1/1;"] {
        for (name, model) in [
            ("version-0", Model { version: 0, ..halted() }),
            ("version-1", halted()),
            ("version-1-filled", halted().filled()),
            ("version-1-damaged", damaged.clone()),
            ("version-2", Model { version: 2, ..halted() }),
        ] {
            agrees(name, Some(&spelled(&model)), Some(sentence.as_bytes()));
        }
    }
}

/// The most tuples, and just beyond: the program's work area is long enough for all that are answered.
#[test]
fn questions_of_as_many_tuples_as_there_can_be() {
    for (n, prefix) in
        [(1, "AEAE"), (31, "AE"), (32, "AE"), (10, "AEA"), (5, "AEAE"), (11, "AEA"), (6, "AEAE")]
    {
        let model = file_of(&model_with(&mut Rng::new(6), n, 1, 4));
        let sentence = format!("{prefix}.LPU0,2:Ta1PX!&a1a2\n");
        agrees(&format!("tuples-{n}-{prefix}"), Some(&model), Some(sentence.as_bytes()));
    }
}

#[test]
fn models_of_every_length_near_the_limit_and_far_beyond() {
    let largest = file_of(&model_with(&mut Rng::new(5), 32, 2, 100));
    assert_eq!(largest.len(), 3_072);
    let mut longer = largest.clone();
    longer.resize(4 << 20, 0);
    for length in [1, 511, 512, 513, 3_071, 3_072, 3_073, 3_074, 3_584, 4_096, 4 << 20] {
        agrees(&format!("model-{length}"), Some(&longer[..length]), Some(b"A.T\n"));
        agrees(&format!("model-{length}-bad-text"), Some(&longer[..length]), Some(b"?"));
    }
}

#[test]
fn texts_of_every_length_near_the_limit_and_far_beyond() {
    let model = file_of(&m1());
    for length in [3, 64, 398, 399, 400, 401, 402, 403, 1 << 20] {
        let text = format!("A.{}T", "!".repeat(length - 3));
        for (which, end) in ["", "\n", "\n\n", "\nT", "\n\n\n"].iter().enumerate() {
            let file = format!("{text}{end}");
            agrees(&format!("text-{length}-{which}"), Some(&model), Some(file.as_bytes()));
        }
    }
    agrees("newlines", Some(&model), Some(b"\n\n"));
    agrees("newline", Some(&model), Some(b"\n"));
    agrees("long-and-model-bad", Some(&model[..1_000]), Some(&[b'!'; 5_000]));
}

/// What a pipe hands over comes in several reads.
#[test]
fn a_file_that_comes_in_parts_is_read_to_its_end() {
    let folder = Folder::new("parts");
    put(&folder, "model.blk", Some(&file_of(&m1())));
    let pipe = folder.0.join("sentence.txt");
    assert!(Command::new("mkfifo").arg(&pipe).status().expect("mkfifo").success());
    let writer = spawn(move || {
        let mut file = OpenOptions::new().write(true).open(pipe).expect("the pipe");
        for part in ["AE.", "=PX", "a1PX", "a2", "\n"] {
            file.write_all(part.as_bytes()).expect("a part");
            sleep(Duration::from_millis(20));
        }
    });
    assert_eq!(run(&folder.0).stdout, b"holds\n");
    writer.join().expect("the writer");
}

/// No verdict on what could not be read: the reason goes to standard error. The exit status is 0 all the same.
#[test]
fn a_file_that_cannot_be_read_gets_no_verdict() {
    for name in ["model.blk", "sentence.txt"] {
        let folder = Folder::new(name);
        create_dir(folder.0.join(name)).expect("a folder in a file's place");
        let output = run(&folder.0);
        assert!(output.stdout.is_empty() && output.status.success());
        assert_eq!(String::from_utf8_lossy(&output.stderr), format!("{name}: Is a directory\n"));
    }
}

/// The script that starts the program: no line where there is nothing to judge, and 2 as its exit status.
#[test]
fn the_script_says_what_is_missing() {
    for (words, said) in [
        (&["no-such-folder"][..], "twolsken: there is no folder no-such-folder\n"),
        (&["one", "two"][..], "twolsken: usage: ./twolsken [FOLDER]\n"),
    ] {
        let output = Command::new(at("twolsken")).args(words).output().expect("the script");
        assert_eq!(output.status.code(), Some(2));
        assert!(output.stdout.is_empty());
        assert_eq!(String::from_utf8_lossy(&output.stderr), said);
    }
}
