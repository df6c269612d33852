//! The header for C: it compiles as C11 and as C++17 with every warning an error, a program that calls each function gets
//! the answers that the header tells, and the example prints the verdicts of the samples.

use std::fs::{read_to_string, write};
use std::path::{Path, PathBuf};
use std::process::{Command, Output};
use twolsken_host::files::{at, samples, Folder};

/// Warnings, all of them errors.
const WARNINGS: [&str; 6] = ["-Wall", "-Wextra", "-pedantic", "-Wshadow", "-Wundef", "-Werror"];

/// A language that the header is for: the compiler's usual variable and name, and its words.
struct Language {
    variable: &'static str,
    compiler: &'static str,
    words: &'static [&'static str],
}

/// C, in which a narrowing that is not written out is an error too.
const C: Language = Language {
    variable: "CC",
    compiler: "cc",
    words: &["-x", "c", "-std=c11", "-Wconversion", "-Wstrict-prototypes"],
};
/// C++.
const CPP: Language = Language { variable: "CXX", compiler: "c++", words: &["-x", "c++", "-std=c++17"] };

/// Compiles a source to a program in a folder and links the library; returns where the program is.
fn compile(folder: &Folder, language: &Language, source: &Path) -> PathBuf {
    let program = folder.0.join("program");
    let compiler = std::env::var(language.variable).unwrap_or_else(|_| language.compiler.to_string());
    let output = Command::new(compiler)
        .args(language.words)
        .args(WARNINGS)
        .arg("-I")
        .arg(at("include"))
        .arg(source)
        .args(["-x", "none"])
        .arg(at("target/staticlib/libexports.a"))
        .arg("-o")
        .arg(&program)
        .output()
        .expect("a compiler for C and one for C++ (CC, CXX)");
    assert!(output.status.success(), "{}", String::from_utf8_lossy(&output.stderr));
    program
}

/// Runs a program with some files of the repository.
fn run(program: &Path, files: &[PathBuf]) -> Output {
    Command::new(program).args(files).output().expect("a run")
}

#[test]
fn each_call_answers_as_the_header_says() {
    for (name, language) in [("calls-c", C), ("calls-cpp", CPP)] {
        let folder = Folder::new(name);
        let output = run(&compile(&folder, &language, &at("host/tests/c/calls.c")), &[]);
        assert!(output.status.success(), "{}", String::from_utf8_lossy(&output.stderr));
        assert_eq!(output.stdout, b"every call answers as the header says\n");
    }
}

/// The header alone, as a file's first line.
#[test]
fn the_header_needs_no_other() {
    for (name, language) in [("alone-c", C), ("alone-cpp", CPP)] {
        let folder = Folder::new(name);
        let source = folder.0.join("alone.c");
        write(&source, "#include \"twolsken.h\"\nint main(void) { return 0; }\n").expect("a source");
        assert!(run(&compile(&folder, &language, &source), &[]).status.success(), "{name}");
    }
}

#[test]
fn the_example_prints_the_verdicts_of_the_samples() {
    for (name, language) in [("ask-c", C), ("ask-cpp", CPP)] {
        let folder = Folder::new(name);
        let program = compile(&folder, &language, &at("include/ask.c"));
        for sample in samples() {
            let output = run(&program, &["model.blk", "sentence.txt"].map(|file| sample.join(file)));
            let printed = String::from_utf8(output.stdout).expect("a text");
            let verdict = printed.lines().next().expect("a line");
            let readme = read_to_string(sample.join("README.md")).expect("a README");
            assert!(readme.ends_with(&format!("Verdict: `{verdict}`.\n")), "{}: {printed}", sample.display());
            assert_eq!(printed.lines().count(), 2, "{}: {printed}", sample.display());
        }
    }
}

/// What is refused, and what cannot be read.
#[test]
fn the_example_tells_a_refusal() {
    let folder = Folder::new("ask-refused");
    let program = compile(&folder, &C, &at("include/ask.c"));
    let sentence = at("samples/m1/sentence.txt");
    let output = run(&program, &[sentence.clone(), sentence.clone()]);
    assert_eq!((output.stdout.as_slice(), output.status.code()), (&b"refused 2\n"[..], Some(1)));
    let output = run(&program, &[folder.0.join("none"), sentence]);
    assert_eq!((output.stdout.as_slice(), output.status.code()), (&b""[..], Some(2)));
    assert!(String::from_utf8_lossy(&output.stderr).contains("none: No such file"));
}

/// The sizes of the package, by the names of the header.
const SIZES: [(&str, usize); 8] = [
    ("TWOLSKEN_STATES", twolsken::STATES),
    ("TWOLSKEN_LETTERS", twolsken::LETTERS),
    ("TWOLSKEN_NODES", twolsken::NODES),
    ("TWOLSKEN_TUPLES", twolsken::TUPLES),
    ("TWOLSKEN_WORK_PER_TUPLE", twolsken::WORK_PER_TUPLE),
    ("TWOLSKEN_WORK_AREA", twolsken::WORK_AREA),
    ("TWOLSKEN_LONGEST_FILE", twolsken::LONGEST_FILE),
    ("TWOLSKEN_LONGEST_TEXT", twolsken::LONGEST_TEXT),
];

/// The sizes of the header are those of the Rust package, and so are the work areas that it tells: those of questions, and
/// of numbers of states and letters that no question has.
#[test]
fn the_header_has_the_sizes_of_the_package() {
    for (name, language) in [("sizes-c", C), ("sizes-cpp", CPP)] {
        let folder = Folder::new(name);
        let output = run(&compile(&folder, &language, &at("host/tests/c/sizes.c")), &[]);
        let printed = String::from_utf8(output.stdout).expect("a text");
        let mut lines = printed.lines();
        for (name, size) in SIZES {
            assert_eq!(lines.next(), Some(&*format!("{name} {size}")));
        }
        let mut questions = 0;
        for line in lines {
            let numbers: Vec<usize> = line.split(' ').map(|word| word.parse().expect("a number")).collect();
            let [states, letters, told] = numbers[..] else { panic!("{line}") };
            assert_eq!(told, twolsken::work_area(states, letters), "{states} states, {letters} letters");
            questions += 1;
        }
        assert_eq!(questions, 13 * 13);
    }
}

/// The numbers of a model's head and those of the refusals are those of the Rust package.
#[test]
fn the_header_has_the_numbers_of_the_package() {
    let header = read_to_string(at("include/twolsken.h")).expect("the header");
    let numbers = size_of::<twolsken::raw::ModelHead>() / size_of::<u32>();
    assert_eq!(header.matches(&format!("uint32_t head[{numbers}]")).count(), 2, "a reader and a writer");
    assert_eq!(header.matches("uint32_t head[").count(), 2, "no other head");
    let refusals: Vec<u64> = header
        .lines()
        .filter_map(|line| line.trim().strip_prefix("TWOLSKEN_REFUSAL_"))
        .filter_map(|rest| rest.trim_end_matches(',').split(" = ").nth(1)?.parse().ok())
        .collect();
    let numbers: Vec<u64> = twolsken::Refusal::ALL.iter().map(|refusal| refusal.number().into()).collect();
    assert_eq!(refusals, numbers);
}
