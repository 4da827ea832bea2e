//! Finds the archive of the proved host, and has it made where it is missing. On x86-64 the crate links it. It holds
//! x86-64 code only, so for other machines this builds a program around it that the crate starts and asks. Another
//! archive, which a variable names, may hold code for another machine.
#[path = "build/kit.rs"]
mod kit;

use kit::{run, Kit};
use std::env;
use std::path::{Path, PathBuf};
use std::process::{exit, Command};

/// The boundary's functions, in the order in which src/back_end/asked.rs numbers them.
const FUNCTIONS: [&str; 6] = ["start", "receive", "process", "retransmit", "turn", "audit"];

fn main() {
    if let Err(why) = build() {
        println!("cargo:warning=tagshards: {why}");
        eprintln!("tagshards: {why}");
        exit(1);
    }
}

fn build() -> Result<(), String> {
    println!("cargo:rerun-if-env-changed=TAGSHARDS_BACK_END");
    println!("cargo:rerun-if-env-changed=TAGSHARDS_ARCHIVE");
    println!("cargo:rerun-if-changed=build/kit.rs");
    let root = PathBuf::from(variable("CARGO_MANIFEST_DIR")?).join("..");
    let archive = archive(&root)?;
    if is_native()? {
        link(&archive)
    } else {
        build_program(&root, &archive)
    }
}

/// Is the archive linked? Otherwise it is asked. The variable is for whoever wants to choose.
fn is_native() -> Result<bool, String> {
    match env::var("TAGSHARDS_BACK_END").as_deref() {
        Ok("native") => Ok(true),
        Ok("asked") => Ok(false),
        Ok(other) => Err(format!(
            "TAGSHARDS_BACK_END is '{other}', neither 'native' nor 'asked'"
        )),
        Err(_) => Ok(variable("CARGO_CFG_TARGET_ARCH")? == "x86_64"),
    }
}

/// The archive of crate `boundary`: the one that the variable names, from the repository's folder on, or else the
/// shipped one. Making that proves what no check has kept, so it is made only where there is none.
fn archive(root: &Path) -> Result<PathBuf, String> {
    let named = env::var_os("TAGSHARDS_ARCHIVE");
    let shipped = Path::new("crates/boundary/out/libboundary.a");
    let archive = root.join(named.as_deref().map_or(shipped, Path::new));
    println!("cargo:rerun-if-changed={}", archive.display());
    if archive.exists() {
        return Ok(archive);
    }
    if named.is_some() {
        let archive = archive.display();
        return Err(format!(
            "TAGSHARDS_ARCHIVE names {archive}, which is missing"
        ));
    }
    let mut rt = Command::new("rt");
    let made = run(rt.arg("lib").current_dir(root.join("crates/boundary")));
    made.map_err(|error| {
        let shipped = shipped.display();
        format!("{shipped} is missing; 'rt lib' in crates/boundary makes it, which failed: {error}")
    })?;
    Ok(archive)
}

fn link(archive: &Path) -> Result<(), String> {
    let folder = archive.parent().ok_or("the archive lies in no folder")?;
    let name = archive.file_stem().and_then(|stem| stem.to_str());
    let name = name.and_then(|stem| stem.strip_prefix("lib"));
    let name = name.ok_or("the linker takes only archives that are named lib*.a")?;
    println!("cargo:rustc-link-search=native={}", folder.display());
    println!("cargo:rustc-link-lib=static={name}");
    println!("cargo:rustc-cfg=tagshards_native");
    Ok(())
}

/// The program that is asked: the judges' caller, with the boundary's functions alone in its table.
fn build_program(root: &Path, archive: &Path) -> Result<(), String> {
    let kit = Kit::find()?;
    let out = PathBuf::from(variable("OUT_DIR")?);
    let caller = root.join("tests/judges/src/caller.c");
    println!("cargo:rerun-if-changed={}", caller.display());
    let table = FUNCTIONS.map(|name| format!("FUNCTION(tagshards_{name})\n"));
    let written = std::fs::write(out.join("functions.inc"), table.concat());
    written.map_err(|error| format!("functions.inc cannot be written: {error}"))?;
    let (object, program) = (out.join("caller.o"), out.join("caller"));
    kit.compile(&caller, &[&out], &object)?;
    kit.link(&object, archive, &program)?;
    let mut words = kit.starters()?;
    words.push(program);
    let words: Vec<String> = words
        .iter()
        .map(|word| word.display().to_string())
        .collect();
    // No path has a tab, and a variable of cargo is one line.
    println!("cargo:rustc-env=TAGSHARDS_PROGRAM={}", words.join("\t"));
    Ok(())
}

fn variable(name: &str) -> Result<String, String> {
    env::var(name).map_err(|_| format!("cargo has not set {name}"))
}
