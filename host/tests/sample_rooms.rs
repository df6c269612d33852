//! The samples: what each README says of the work area is what its model and its sentence need.

use std::fs::{read, read_to_string};
use std::path::Path;
use twolsken::{read_model, read_sentence, verdict, work_area, Refusal};
use twolsken_host::files::samples;

/// The only line of a sample's README about its work area.
fn told(sample: &Path) -> String {
    let readme = read_to_string(sample.join("README.md")).expect("a README");
    let lines: Vec<&str> = readme.lines().filter(|line| line.contains("ork area")).collect();
    assert_eq!(lines.len(), 1, "{}: {lines:?}", sample.display());
    lines[0].to_string()
}

#[test]
fn each_readme_tells_the_work_area() {
    for sample in samples() {
        let [file, line] = ["model.blk", "sentence.txt"].map(|name| read(sample.join(name)).expect(name));
        let text = line.strip_suffix(b"\n").expect("a newline at the end");
        let states = read_model(&file).expect("a model").n as usize;
        let letters = read_sentence(text).expect("a sentence").prefix.len();
        let tuples: usize = vec![states; letters].iter().product();
        let numbers = 8 * tuples;
        let name = sample.display();
        assert_eq!(told(&sample), format!("Work area: 8 × {tuples} = {numbers} numbers."), "{name}");
        assert_eq!(work_area(states, letters), numbers, "{name}");
        assert!(verdict(&file, text, &mut vec![0; numbers]).is_ok(), "{name}");
        assert_eq!(verdict(&file, text, &mut vec![0; numbers - 1]), Err(Refusal::WorkArea), "{name}");
    }
}
