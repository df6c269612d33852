//! A path formula counts the variables that it names: its two numbers are those of their runs, and the size rule reads
//! them, whatever the number of letters.

use twolsken::{numerator, verdict, Model, Refusal, Verdict, WORK_AREA};

/// A model of two states: state 0 stays or, with weight 1, goes on to state 1, which has the label and stays.
fn with(d: u16) -> Vec<u8> {
    let mut model = Model { n: 2, a: 1, d: d.into(), ..Model::empty() };
    model.masks[1] = 1;
    model.weights[0][..2].copy_from_slice(&[d - 1, 1]);
    model.weights[1][1] = d;
    model.to_file().expect("a file")
}

/// The fraction of a text's path formula at a tuple, with D = 4: the model is M1.
fn fraction(text: &str, tuple: &[u8], path: usize) -> String {
    let answer = numerator(&with(4), text.as_bytes(), tuple, path, &mut vec![0; WORK_AREA]);
    answer.expect(text).to_string()
}

/// What is said of a text, by D.
fn said(d: u16, text: &str) -> Result<Verdict, Refusal> {
    verdict(&with(d), text.as_bytes(), &mut vec![0; WORK_AREA])
}

/// A state formula that names the first `count` variables.
fn naming(count: usize) -> &'static str {
    ["T", "a1", "&a1a2", "&a1&a2a3", "&a1&a2&a3a4"][count]
}

#[test]
fn fractions_are_those_of_the_named_variables() {
    for (path, tuple, expected) in [
        ("Xa1", &[0, 0][..], "1/4"),
        ("Xa1", &[0, 1], "1/4"),
        ("Xa1", &[1, 0], "4/4"),
        ("Xa2", &[0, 1], "4/4"),
        ("Xa2", &[1, 0], "1/4"),
        ("X&a1a2", &[0, 0], "1/16"),
        ("X&a1a2", &[0, 1], "4/16"),
        ("X&a1!a1", &[0, 0], "0/4"),
        ("U0,2:Ta2", &[1, 0], "7/16"),
        ("U2,2:!a1a2", &[0, 0], "84/256"),
        ("U0,2:Ta3", &[0, 0, 1, 0], "16/16"),
        ("X&a4a2", &[0, 1, 0, 0], "4/16"),
        ("X&a4a2", &[1, 0, 1, 0], "1/16"),
    ] {
        let text = format!("{}.GP{path}#0/1;", "A".repeat(tuple.len()));
        assert_eq!(fraction(&text, tuple, 0), expected, "{text} at {tuple:?}");
    }
}

/// The outer path names what the inner one does, and the inner one no more than it says itself.
#[test]
fn nested_variables_count_for_the_outer_path() {
    let text = "AAA.GPU0,2:a1=PXa2#1/1;#0/1;";
    assert_eq!(fraction(text, &[1, 0, 0], 0), "112/256");
    assert_eq!(fraction(text, &[1, 0, 0], 1), "1/4");
    let text = "AAA.GPX=PXa2#1/1;#0/1;";
    assert_eq!(fraction(text, &[1, 0, 0], 0), "1/4");
}

#[test]
fn a_path_that_names_no_variable_is_0_or_1() {
    for (path, expected) in
        [("U0,3:TT", "1/1"), ("U2,60:TT", "1/1"), ("U2,3:T!T", "0/1"), ("XT", "1/1"), ("X!T", "0/1")]
    {
        assert_eq!(fraction(&format!("AA.GP{path}#0/1;"), &[0, 1], 0), expected, "{path}");
    }
    assert_eq!(fraction("AA.GPU1,5:=PXT#1/1;>#1/2;#1/3;#0/1;", &[0, 0], 0), "1/1");
    assert_eq!(said(65_535, "AAAA.=PU0,60:TTPU60,60:TT"), Ok(Verdict::Holds));
}

/// With D = 2 and windows of 15 each denominator is 2^15, and the bound of a sum of four is 2^62.
#[test]
fn four_variables_each_with_a_path_of_its_own() {
    let ordered = "AAAA.&LPU0,15:Ta1PU0,15:Ta2LPU0,15:Ta3PU0,15:Ta4";
    assert_eq!(said(2, ordered), Ok(Verdict::Fails));
    assert_eq!(said(2, &ordered.replacen("AAAA", "AEAE", 1)), Ok(Verdict::Holds));
    let sum = "AAAA.G+PU0,15:Ta1+PU0,15:Ta2+PU0,15:Ta3PU0,15:Ta4#3/1;";
    assert_eq!(said(2, sum), Ok(Verdict::Holds));
    assert_eq!(said(2, &sum.replace("#3/1;", "#4/1;")), Ok(Verdict::Fails));
    assert_eq!(said(2, &sum.replacen("15", "16", 1)), Err(Refusal::SizeRule));
}

/// The greatest k2 with D^(v × k2) at most 2^62 is let through and the next is refused, by the v variables that the path
/// names and not by the letters.
#[test]
fn an_until_on_both_sides_of_the_size_rule() {
    for d in [2, 3, 4, 10, 255, 256, 46_340, 65_535] {
        for v in 1..=4 {
            let fits = |k: u32| u128::from(d).checked_pow(v * k).is_some_and(|power| power <= 1 << 62);
            let longest = (0..=60).take_while(|&k| fits(k)).last().expect("0 fits");
            for letters in v..=4 {
                let text = |k: u32| {
                    let prefix = "A".repeat(letters as usize);
                    format!("{prefix}.GPU0,{k}:T{}#0/1;", naming(v as usize))
                };
                assert_eq!(said(d, &text(longest)), Ok(Verdict::Holds), "D = {d}: {}", text(longest));
                let beyond = if longest == 60 { Refusal::Range } else { Refusal::SizeRule };
                assert_eq!(said(d, &text(longest + 1)), Err(beyond), "D = {d}: {}", text(longest + 1));
            }
        }
    }
}

/// D^v is at most 2^62 for every D if v is up to 3, and for D up to 46,340 if v is 4.
#[test]
fn a_next_on_both_sides_of_the_size_rule() {
    for v in 0..=4 {
        let text = format!("AAAA.GPX{}#0/1;", naming(v));
        assert_eq!(said(46_340, &text), Ok(Verdict::Holds), "{text}");
        for d in [46_341, 65_535] {
            let expected = if v == 4 { Err(Refusal::SizeRule) } else { Ok(Verdict::Holds) };
            assert_eq!(said(d, &text), expected, "D = {d}: {text}");
        }
    }
}
