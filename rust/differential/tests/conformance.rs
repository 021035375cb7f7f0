//! The stored cases of the program `conformance`, malformed commands included, are answered by the library as
//! linked here and by the reference, but for the few verdicts that have more choices than it can try.

use std::fs;
use std::path::Path;

use differential::vectors::hold;

#[test]
fn the_stored_cases_have_the_same_answers() {
    let folder = Path::new(env!("CARGO_MANIFEST_DIR")).join("../../crates/conformance");
    let commands = fs::read(folder.join("stdin")).expect("conformance has stored cases");
    let answers = fs::read(folder.join("stdout")).expect("conformance has stored answers");
    match hold(&commands, &answers) {
        Ok(held) => {
            assert!(held.lines > 1_000, "{} lines only", held.lines);
            assert!(held.alone < held.lines / 100, "{} unheld", held.alone);
        }
        Err(faults) => panic!("{} faults, the first: {}", faults.len(), faults[0]),
    }
}
