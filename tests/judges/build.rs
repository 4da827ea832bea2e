//! Builds the program that calls the proved functions (src/caller.c) from the archives that `rt lib` writes of the
//! CRATES, with the compiler, linker and C library of the Rattle toolchain. Tells src/library.rs how the program is
//! started: it is x86-64 code, so other machines need an emulator, `qemu-x86_64`, which is none of the toolchain's.
use std::env;
use std::path::{Path, PathBuf};
use std::process::{exit, Command};

include!("src/functions.rs");

const TARGET: &str = "x86_64-unknown-linux-gnu";

/// The crates whose exported functions are called. Of their archives only the exported names can be seen from
/// outside, so one program links them all.
const CRATES: [&str; 3] = ["judged", "judged_messages", "boundary"];

fn main() {
    let here = PathBuf::from(variable("CARGO_MANIFEST_DIR"));
    let out = PathBuf::from(variable("OUT_DIR"));
    for file in ["src/caller.c", "src/functions.rs"] {
        println!("cargo:rerun-if-changed={}", here.join(file).display());
    }
    let archives = CRATES.map(|name| archive(&here, name));
    let kit = kit();
    let tools = kit.join("toolchain");
    let program = built(&kit, &here, &out, &archives);
    tell("CALLER", &program);
    tell("CALLER_LOADER", &tools.join("lib/ld-linux-x86-64.so.2"));
    tell("CALLER_LIBRARIES", &tools.join("lib"));
    tell("CALLER_EMULATOR", &emulator());
}

/// The archive of a crate.
fn archive(here: &Path, name: &str) -> PathBuf {
    let archive = here.join(format!("../../crates/{name}/out/lib{name}.a"));
    println!("cargo:rerun-if-changed={}", archive.display());
    if !archive.exists() {
        fail(&format!(
            "crates/{name}/out/lib{name}.a is missing; 'rt lib' in crates/{name} makes it"
        ));
    }
    archive
}

/// The program, from the C file and the archives.
fn built(kit: &Path, here: &Path, out: &Path, archives: &[PathBuf]) -> PathBuf {
    list_functions(&out.join("functions.inc"));
    let object = out.join("caller.o");
    let program = out.join("caller");
    let tools = kit.join("toolchain");
    run(Command::new(tools.join("bin/clang"))
        .args([
            "--target=x86_64-unknown-linux-gnu",
            "-O2",
            "-Wall",
            "-Werror",
            "-I",
        ])
        .args([
            out,
            Path::new("-c"),
            &here.join("src/caller.c"),
            Path::new("-o"),
            &object,
        ]));
    run(Command::new(kit.join("bin/rattle-link"))
        .args(["--target", TARGET, "--toolchain"])
        .args([&tools, Path::new("-o"), &program, &object])
        .args(archives));
    program
}

/// The toolchain's folder: that of the page of which the command `rt doc` prints the path.
fn kit() -> PathBuf {
    let said = match Command::new("rt").arg("doc").output() {
        Ok(said) => String::from_utf8_lossy(&said.stdout).into_owned(),
        Err(_) => fail("the Rattle toolchain is missing: put its command 'rt' on the PATH"),
    };
    match Path::new(said.trim()).parent() {
        Some(home) if home.join("bin/rattle-link").exists() => home.to_path_buf(),
        _ => fail("'rt doc' names no page beside which the toolchain lies"),
    }
}

/// The emulator that a machine needs which is no x86-64; no path where none is needed.
fn emulator() -> PathBuf {
    if env::consts::ARCH == "x86_64" {
        return PathBuf::new();
    }
    let places = env::var_os("PATH").unwrap_or_default();
    let found = env::split_paths(&places)
        .map(|place| place.join("qemu-x86_64"))
        .find(|it| it.exists());
    found.unwrap_or_else(|| {
        fail("the judges' program is x86-64 code: put 'qemu-x86_64' on the PATH")
    })
}

fn list_functions(path: &Path) {
    let lines: String = functions()
        .iter()
        .map(|name| format!("FUNCTION({name})\n"))
        .collect();
    if let Err(error) = std::fs::write(path, lines) {
        fail(&format!("{}: {error}", path.display()));
    }
}

fn tell(name: &str, path: &Path) {
    println!("cargo:rustc-env={name}={}", path.display());
}

fn run(command: &mut Command) {
    match command.status() {
        Ok(status) if status.success() => {}
        Ok(status) => fail(&format!("{command:?} ended with {status}")),
        Err(error) => fail(&format!("{command:?} does not start: {error}")),
    }
}

fn variable(name: &str) -> String {
    env::var(name).unwrap_or_else(|_| fail(&format!("cargo has not set {name}")))
}

fn fail(why: &str) -> ! {
    eprintln!("tests/judges: {why}");
    exit(1)
}
