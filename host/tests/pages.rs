//! The pages for users: each link leads somewhere, and each picture is that of its table, as tools/pictures makes it.

use std::fs::read_to_string;
use std::path::{Path, PathBuf};
use twolsken_host::files::{at, samples};
use twolsken_host::picture::picture_of;

#[test]
fn each_picture_is_that_of_its_table() {
    for picture in at("docs/pictures").read_dir().expect("the pictures") {
        let path = picture.expect("a picture").path();
        let name = path.file_stem().expect("a name");
        let drawn = picture_of(&at("samples").join(name)).expect("a table");
        assert!(read_to_string(&path).expect("a picture") == drawn, "run tools/pictures for {name:?}");
    }
}

/// The name by which a page calls a heading: in small letters, blanks as hyphens.
fn anchor(heading: &str) -> String {
    heading.trim_start_matches('#').trim().to_lowercase().replace(' ', "-")
}

/// Stops unless each link of a page leads to a file, or to a heading of the page.
fn follow(page: &Path) -> usize {
    let text = read_to_string(page).expect("a page");
    let anchors: Vec<String> = text.lines().filter(|line| line.starts_with('#')).map(anchor).collect();
    let links = text.split("](").skip(1).map(|rest| rest.split(')').next().expect("a link"));
    let follows = |link: &str| match link.strip_prefix('#') {
        Some(name) => assert!(anchors.iter().any(|anchor| anchor == name), "{}: #{name}", page.display()),
        None => assert!(page.with_file_name(link).exists(), "{}: {link}", page.display()),
    };
    links.inspect(|link| follows(link)).count()
}

#[test]
fn each_link_leads_somewhere() {
    let own = samples().into_iter().map(|sample| sample.join("README.md"));
    let pages: Vec<PathBuf> = own.chain(["README.md", "docs/USING.md"].map(at)).collect();
    let links: usize = pages.iter().map(|page| follow(page)).sum();
    assert!(links >= 30, "{links} links");
}
