//! Document 01's 'Examples on both sides' on the proved library: every line, those on merging among them.

use twolsken_host::compare::compare_examples;
use twolsken_host::proved::Proved;

#[test]
fn every_line_holds() {
    compare_examples(&Proved);
}
