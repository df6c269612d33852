//! The numbers that docs/USING.md tells are those of the library.

use std::fs::{read, read_to_string};
use twolsken::{
    merge, numerator, read_model, verdict, work_area, Fraction, Model, Refusal, Table, Verdict, LONGEST_FILE,
    WORK_AREA,
};
use twolsken_host::files::at;

/// The page.
fn page() -> String {
    read_to_string(at("docs/USING.md")).expect("the page")
}

/// What is said of a sentence on a sample.
fn said(sample: &str, text: &str) -> Result<Verdict, Refusal> {
    let file = read(at("samples").join(sample).join("model.blk")).expect(sample);
    verdict(&file, text.as_bytes(), &mut vec![0; WORK_AREA])
}

/// The numerator of a sentence's first path formula on a sample, over 10,000.
fn of_10_000(sample: &str, text: &str, state: u8) -> u64 {
    let file = read(at("samples").join(sample).join("model.blk")).expect(sample);
    let fraction = numerator(&file, text.as_bytes(), &[state], 0, &mut vec![0; WORK_AREA]);
    let Fraction { numerator, denominator } = fraction.expect("a fraction");
    assert_eq!(denominator, 10_000);
    numerator
}

#[test]
fn the_worked_example() {
    let (twelfth, none) = ("AA.!&&!b1!b2>PU0,4:Tb1+PU0,4:Tb2#1/12;", "AA.!&&!b1!b2>PU0,4:Tb1+PU0,4:Tb2#0/1;");
    let opens = "A.!&!b1<PU0,4:Ta1#99/100;";
    assert!(page().contains(twelfth) && page().contains(opens));
    assert_eq!(said("counter-fails", twelfth), Ok(Verdict::Fails));
    assert_eq!(said("counter-mended", twelfth), Ok(Verdict::Holds));
    assert_eq!(said("counter-mended", none), Ok(Verdict::Holds));
    assert_eq!(said("counter-fails", opens), Ok(Verdict::Fails));
    assert_eq!(said("counter-mended", opens), Ok(Verdict::Holds));
    assert_eq!(of_10_000("counter-fails", opens, 2), 9_000);
    assert_eq!((0..5).map(|state| of_10_000("counter-mended", opens, state)).min(), Some(9_984));
    assert_eq!(of_10_000("counter-mended", opens, 3), 9_984);
}

/// The lines that the page prints of path formula 0, with variable 2 in state 0.
#[test]
fn the_numbers_behind_the_verdict() {
    let [file, line] =
        ["model.blk", "sentence.txt"].map(|name| read(at("samples/counter-fails").join(name)).expect(name));
    let text = line.strip_suffix(b"\n").expect("a newline at the end");
    for state in 0..4 {
        let fraction = numerator(&file, text, &[state, 0], 0, &mut vec![0; WORK_AREA]).expect("a fraction");
        let line = format!("    path formula 0 at [{state}, 0]: {fraction}\n");
        assert!(page().contains(&line), "{line}");
    }
}

/// The rows of a table of the page, by the row that heads it.
fn rows(head: &str) -> Vec<Vec<String>> {
    let page = page();
    let after = page.split(head).nth(1).unwrap_or_else(|| panic!("no table under {head}"));
    let rows = after.lines().skip(2).take_while(|line| line.starts_with('|'));
    let cells = |row: &str| row.trim_matches('|').split('|').map(|cell| cell.trim().to_string()).collect();
    rows.map(cells).collect()
}

/// The fractions of paths by the variables that they name, on M1.
#[test]
fn the_named_variables() {
    let file = read(at("samples/m1/model.blk")).expect("M1");
    let rows = rows("| Expression | Its path names | Is |");
    assert_eq!(rows.len(), 5);
    for row in rows {
        let text = format!("AA.={}#1/1;", row[0].trim_matches('`'));
        let fraction = numerator(&file, text.as_bytes(), &[0, 0], 0, &mut vec![0; WORK_AREA]);
        assert_eq!(fraction.expect("a fraction").to_string(), row[2], "{text}");
    }
}

/// The fractions of windows that end later and later, on M1; and one that begins later too.
#[test]
fn the_longer_watches() {
    let file = read(at("samples/m1/model.blk")).expect("M1");
    let fraction = |path: &str, state: u8| {
        let text = format!("A.={path}#1/1;");
        numerator(&file, text.as_bytes(), &[state], 0, &mut vec![0; WORK_AREA])
            .expect("a fraction")
            .to_string()
    };
    let rows = rows("| Expression | Is |");
    assert_eq!(rows.len(), 4);
    for row in rows {
        assert_eq!(fraction(row[0].trim_matches('`'), 0), row[1], "{row:?}");
    }
    assert_eq!([fraction("PU0,0:!a1a1", 1), fraction("PU1,1:!a1a1", 1)], ["1/1", "0/4"]);
    assert!(page().contains("`PU0,0:!a1a1` is 1/1 and `PU1,1:!a1a1` is 0/4"));
}

/// What is said of a comparison, with D and so many letters, on a model of one state.
fn refused(d: u32, letters: usize, body: &str) -> Option<Refusal> {
    let mut model = Model { n: 1, a: 1, d, ..Model::empty() };
    model.weights[0][0] = d as u16;
    let text = format!("{}.{body}", "A".repeat(letters));
    verdict(&model.to_file().expect("a model"), text.as_bytes(), &mut vec![0; WORK_AREA]).err()
}

/// The windows by the variables that a path names, under as many letters and under more.
#[test]
fn the_longest_windows() {
    let rows = rows("| D | 1 variable | 2 variables | 3 variables | 4 variables |");
    assert_eq!(rows.len(), 6);
    let formulas = ["T", "a1", "&a1a2", "&a1&a2a3", "&a1&a2&a3a4"];
    for row in rows {
        let d: u32 = row[0].replace(',', "").parse().expect("a D");
        for (variables, cell) in row.iter().enumerate().skip(1) {
            let longest: Vec<u32> =
                cell.split(", ").map(|number| number.parse().expect("a window")).collect();
            let path = |k: u32| format!("PU0,{k}:T{}", formulas[variables]);
            let bodies: [&dyn Fn(u32) -> String; 2] =
                [&|k| format!("={}#1/1;", path(k)), &|k| format!("={}{}", path(k), path(k))];
            for (body, &k) in bodies.iter().zip(&longest) {
                let beyond = if k == 60 { Refusal::Range } else { Refusal::SizeRule };
                for letters in variables..=4 {
                    let case = format!("D = {d}, {variables} variables of {letters}, {k}");
                    assert_eq!(refused(d, letters, &body(k)), None, "{case}");
                    assert_eq!(refused(d, letters, &body(k + 1)), Some(beyond), "{case}");
                }
            }
        }
    }
}

/// The sentence on four starts fits, and with one window longer it does not.
#[test]
fn four_starts_each_with_a_path_of_its_own() {
    let body = "L+PU0,15:Ta1+PU0,15:Ta2+PU0,15:Ta3PU0,15:Ta4#1/1;";
    assert!(page().contains(&format!("    AAAA.{body}\n")));
    assert_eq!(refused(2, 4, body), None);
    for variable in 1..=4 {
        let longer = body.replace(&format!("15:Ta{variable}"), &format!("16:Ta{variable}"));
        assert_eq!(refused(2, 4, &longer), Some(Refusal::SizeRule), "{longer}");
    }
}

/// The five states and one letter: the sentence on the counter is answered in 40 numbers, and refused by 1 in 39.
#[test]
fn five_states_in_320_bytes() {
    assert!(page().contains("that is 8 × 5 = 40 numbers, 320 bytes, in place of the 64 KiB that"));
    let file = read(at("samples/counter-fails/model.blk")).expect("the counter");
    let text = b"A.!&!b1<PU0,4:Ta1#99/100;";
    let mut work = [0; work_area(5, 1)];
    assert_eq!((work.len(), size_of_val(&work), size_of_val(&[0_u64; WORK_AREA])), (40, 320, 64 << 10));
    assert_eq!(verdict(&file, text, &mut work), Ok(Verdict::Fails));
    assert_eq!(numerator(&file, text, &[2], 0, &mut work).map(|fraction| fraction.numerator), Ok(9_000));
    assert_eq!(verdict(&file, text, &mut work[1..]), Err(Refusal::WorkArea));
    assert_eq!(numerator(&file, text, &[2], 0, &mut work[1..]), Err(Refusal::WorkArea));
}

/// The table of work areas, on models of empty rows: each number is enough and one fewer is not.
#[test]
fn the_work_areas() {
    let rows = rows("| States | 1 letter | 2 letters | 3 letters | 4 letters |");
    assert_eq!(rows.len(), 4);
    for row in rows {
        let n: usize = row[0].parse().expect("a number of states");
        let model = Model { n: n as u32, a: 1, d: 1, version: 1, ..Model::empty() };
        let file = model.to_file().expect("a model");
        for (letters, cell) in row.iter().enumerate().skip(1) {
            let text = format!("{}.!a1", "A".repeat(letters));
            let said = |room: usize| verdict(&file, text.as_bytes(), &mut vec![0; room]);
            if cell == "refused 11" {
                assert_eq!(said(work_area(n, letters)), Err(Refusal::TooManyTuples), "{row:?}");
                continue;
            }
            let room = cell.replace(',', "").parse().expect("a number");
            assert_eq!(work_area(n, letters), room, "{row:?}");
            assert_eq!(said(room), Ok(Verdict::Holds), "{row:?}");
            assert_eq!(said(room - 1), Err(Refusal::WorkArea), "{row:?}");
        }
    }
}

#[test]
fn every_refusal_has_its_row() {
    let rows = rows("| No. | Given because | What to do |");
    let numbers: Vec<String> = rows.iter().map(|row| row[0].clone()).collect();
    let all: Vec<String> = Refusal::ALL.iter().map(|refusal| refusal.number().to_string()).collect();
    assert_eq!(numbers, all);
    assert!(rows.iter().all(|row| row.len() == 3 && row.iter().all(|cell| !cell.is_empty())));
}

/// The model file of a sample merged by a grouping is printed as the page prints it.
#[test]
fn the_merged_models() {
    for (sample, grouping) in [("m2", [0, 1, 1]), ("halted", [0, 1, 2])] {
        let file = read(at("samples").join(sample).join("model.blk")).expect(sample);
        let mut out = [0; LONGEST_FILE];
        let length = merge(&file, &grouping, &mut out).expect(sample);
        let table = Table::of(read_model(&out[..length]).expect(sample)).to_string();
        let printed: String = table.lines().map(|line| format!("    {line}\n")).collect();
        let words = grouping.map(|group| group.to_string()).join(" ");
        assert!(
            page().contains(&format!("--example merge -- samples/{sample} {words}\n{printed}")),
            "{printed}"
        );
    }
}

/// The lines of a table of version 1 are those of the sample that the page names.
#[test]
fn a_halted_state() {
    let text = read_to_string(at("samples/halted/table.txt")).expect("a table");
    let says: Vec<String> = rows("| Line | Says |").into_iter().map(|row| row[0].clone()).collect();
    for line in ["version 1", "state halted (halted):"] {
        assert!(text.lines().any(|other| other == line) && says.contains(&format!("`{line}`")), "{line}");
    }
    assert!(text.replace("version 1", "").parse::<Table>().is_err());
}

/// M1 with the bytes and the checks that the page tells for version 1.
#[test]
fn the_bytes_of_version_1() {
    assert!(
        page().contains("the head's check is then 43.") && page().contains("then the second check is 18.")
    );
    let mut file = read(at("samples/m1/model.blk")).expect("M1");
    (file[3], file[510]) = (1, 43);
    let mut model = read_model(&file).expect("M1 in version 1");
    assert_eq!((model.version, model.weights[1][1]), (1, 4));
    file[580] = 0;
    file[1_022..].copy_from_slice(&[18, 0]);
    model.weights[1][1] = 0;
    assert_eq!(read_model(&file), Ok(model));
    (file[3], file[510]) = (0, 39);
    assert_eq!(read_model(&file), Err(Refusal::RowSum));
    (file[3], file[510]) = (2, 47);
    assert_eq!(read_model(&file), Err(Refusal::Layout));
}

#[test]
fn the_bytes_of_m1() {
    let file = read(at("samples/m1/model.blk")).expect("M1");
    let mut shown = vec![0; 1_024];
    for row in rows("| Byte | Holds | Says |") {
        let first: usize =
            row[0].split([' ', ';']).next().expect("a place").replace(",", "").parse().expect("a place");
        let bytes =
            row[1].trim_matches('`').split(' ').map(|byte| u8::from_str_radix(byte, 16).expect("a byte"));
        bytes.enumerate().for_each(|(place, byte)| shown[first + place] = byte);
    }
    assert_eq!(shown, file);
}
