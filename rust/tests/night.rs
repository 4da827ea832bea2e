//! The demonstration runs, finds no fault, and draws its picture.
use std::path::Path;
use std::process::Command;

#[test]
fn a_night() {
    let picture = Path::new(env!("CARGO_TARGET_TMPDIR")).join("night.svg");
    let mut night = Command::new(env!("CARGO_BIN_EXE_night"));
    let run = night.arg("1").arg(&picture).output().expect("it runs");
    let said = String::from_utf8_lossy(&run.stdout);
    assert!(run.status.success(), "{said}");
    assert!(said.contains("3000, 3000 of them home"), "{said}");
    assert!(said.contains("keys have one owner each"), "{said}");
    let picture = std::fs::read_to_string(&picture).expect("the picture");
    assert!(picture.starts_with("<svg ") && picture.ends_with("</svg>\n"));
}
