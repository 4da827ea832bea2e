//! The example in C, compiled against include/tagshards.h with the Rattle toolchain, linked with the archive, and run.
#[path = "../build/kit.rs"]
mod kit;

use kit::Kit;
use std::path::{Path, PathBuf};
use std::process::Command;

/// What the example prints. The datagrams are those of document 01's table: Ack 1, Reply 5 with "Oslo" and number 1,
/// then the same with number 2.
const PRINTED: &str = "\
the host is started: 0
Set 5 to Oslo is received: 13
  to k:3: 01 01 00 00 00 00 00 00 00
Set 5 to Oslo is processed: 22
  to k:3: 00 01 00 00 00 00 00 00 00 03 00 00 00 00 00 00 00 6b 3a 33 02 05 00 00 00 00 00 00 00 \
01 04 00 00 00 00 00 00 00 4f 73 6c 6f
Get 5 is received: 13
  to k:3: 01 02 00 00 00 00 00 00 00
Get 5 is processed: 22
  to k:3: 00 02 00 00 00 00 00 00 00 03 00 00 00 00 00 00 00 6b 3a 33 02 05 00 00 00 00 00 00 00 \
01 04 00 00 00 00 00 00 00 4f 73 6c 6f
records: 1
";

/// The three headers that the compiler should have of its own, and the toolchain's has not.
const HEADERS: [(&str, &str); 3] = [
    ("stdbool.h", "#define bool _Bool\n"),
    ("stddef.h", "typedef __SIZE_TYPE__ size_t;\n"),
    (
        "stdint.h",
        "typedef __UINT8_TYPE__ uint8_t;\ntypedef __UINT64_TYPE__ uint64_t;\n#define UINT64_MAX __UINT64_MAX__\n",
    ),
];

fn build(kit: &Kit, root: &Path, out: &Path) -> Result<PathBuf, String> {
    for (name, text) in HEADERS {
        std::fs::write(out.join(name), text).map_err(|error| error.to_string())?;
    }
    let (object, program) = (out.join("host.o"), out.join("host"));
    let source = root.join("examples/c/host.c");
    kit.compile(&source, &[&root.join("include"), out], &object)?;
    let archive = root.join("crates/boundary/out/libboundary.a");
    kit.link(&object, &archive, &program)?;
    Ok(program)
}

#[test]
fn the_example_in_c() {
    let root = Path::new(env!("CARGO_MANIFEST_DIR")).join("..");
    let out = PathBuf::from(env!("CARGO_TARGET_TMPDIR")).join("c_example");
    std::fs::create_dir_all(&out).expect("a folder");
    let kit = Kit::find().expect("the toolchain");
    let program = build(&kit, &root, &out).expect("the example is built");
    let mut words = kit.starters().expect("a way to start it");
    words.push(program);
    let run = Command::new(&words[0])
        .args(&words[1..])
        .env_clear()
        .output();
    let run = run.expect("the example runs");
    assert_eq!(String::from_utf8_lossy(&run.stdout), PRINTED);
    assert!(run.status.success(), "it ended with {}", run.status);
}
