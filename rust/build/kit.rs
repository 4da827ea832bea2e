//! The Rattle toolchain: where it is, and how x86-64 programs are compiled, linked and started with it. A machine that
//! is no x86-64 starts them under an emulator, `qemu-x86_64`, which is none of the toolchain's.
use std::env;
use std::path::{Path, PathBuf};
use std::process::{Command, Stdio};

const TARGET: &str = "x86_64-unknown-linux-gnu";

pub struct Kit {
    home: PathBuf,
}

impl Kit {
    /// The toolchain's folder is that of the page of which the command `rt doc` prints the path.
    pub fn find() -> Result<Kit, String> {
        let said = Command::new("rt").arg("doc").output().map_err(|_| {
            "the Rattle toolchain is missing: put its command 'rt' on the PATH".to_string()
        })?;
        let page = PathBuf::from(String::from_utf8_lossy(&said.stdout).trim());
        match page.parent() {
            Some(home) if home.join("bin/rattle-link").exists() => Ok(Kit { home: home.into() }),
            _ => Err("'rt doc' names no page beside which the toolchain lies".to_string()),
        }
    }

    fn tools(&self) -> PathBuf {
        self.home.join("toolchain")
    }

    /// Compiles a C file; headers are looked for in the folders.
    pub fn compile(&self, source: &Path, folders: &[&Path], object: &Path) -> Result<(), String> {
        let mut clang = Command::new(self.tools().join("bin/clang"));
        clang.args([
            "-O2",
            "-Wall",
            "-Wextra",
            "-Werror",
            "-Wno-unused-parameter",
        ]);
        clang.arg(format!("--target={TARGET}"));
        for folder in folders {
            clang.arg("-I").arg(folder);
        }
        run(clang.arg("-c").arg(source).arg("-o").arg(object))
    }

    pub fn link(&self, object: &Path, archive: &Path, program: &Path) -> Result<(), String> {
        let mut link = Command::new(self.home.join("bin/rattle-link"));
        link.args(["--target", TARGET, "--toolchain"]);
        link.arg(self.tools()).arg("-o").arg(program);
        run(link.arg(object).arg(archive))
    }

    /// The words that start a program, but for the program's own name at the end.
    pub fn starters(&self) -> Result<Vec<PathBuf>, String> {
        let tools = self.tools();
        let loader = tools.join("lib/ld-linux-x86-64.so.2");
        let words = [loader, PathBuf::from("--library-path"), tools.join("lib")];
        let emulator = match env::consts::ARCH {
            "x86_64" => None,
            arch => Some(emulator().ok_or(format!(
                "an x86-64 program runs on {arch} only under 'qemu-x86_64': put it on the PATH"
            ))?),
        };
        Ok(emulator.into_iter().chain(words).collect())
    }
}

fn emulator() -> Option<PathBuf> {
    let places = env::var_os("PATH")?;
    let found = env::split_paths(&places).map(|place| place.join("qemu-x86_64"));
    found.into_iter().find(|it| it.exists())
}

/// Runs a command. What it says on its standard output is for nobody.
pub fn run(command: &mut Command) -> Result<(), String> {
    match command.stdout(Stdio::null()).status() {
        Ok(status) if status.success() => Ok(()),
        Ok(status) => Err(format!("{command:?} ended with {status}")),
        Err(error) => Err(format!("{command:?} does not start: {error}")),
    }
}
