"""The Rattle kit that the command `rt` belongs to, the crates of crates.txt, and the making of an archive with the kit's compiler.

For the scripts beside this file. Standard library only.
"""
import os
import shutil
import subprocess
from pathlib import Path

ROOT = Path(__file__).resolve().parent.parent


class Fault(Exception):
    """What a script ends with, in words."""


def kit():
    """The kit's folder: that of the page of which `rt doc` prints the path."""
    if shutil.which("rt") is None:
        raise Fault("the Rattle toolchain is missing: put its command 'rt' on the PATH")
    done = subprocess.run(["rt", "doc"], stdout=subprocess.PIPE, text=True)
    home = Path(done.stdout.strip() or ".").parent
    if done.returncode != 0 or not (home / "bin" / "rattle").exists():
        raise Fault("'rt doc' names no page beside which the kit lies")
    return home


def rows():
    """The lines of crates.txt: each crate's name, whether it is a static library, and the libraries that it names."""
    found = {}
    for line in (ROOT / "crates.txt").read_text(encoding="utf-8").splitlines():
        head, _, libraries = line.split("#")[0].partition(":")
        if head.strip():
            name, *words = head.split()
            found[name] = ("staticlib" in words, libraries.split())
    return found


def archives():
    """The crates that are static libraries."""
    return [name for name, (is_static, _) in rows().items() if is_static]


def archive(name):
    return ROOT / "crates" / name / "out" / f"lib{name}.a"


def rlib(name):
    return ROOT / "crates" / name / "out" / "rlib" / f"{name}.rlib"


def below(name):
    """The repository's libraries below a crate, those that are named and those below them."""
    known = rows()
    found, left = [], list(known[name][1])
    while left:
        library = left.pop()
        if library in known and library not in found:
            found.append(library)
            left += known[library][1]
    return sorted(found)


def is_fresh(name):
    """Is a crate's archive newer than every file that it can be made of? What rt made itself, in out/, is not among them."""
    made = archive(name)
    if not made.exists():
        return False
    since = made.stat().st_mtime_ns
    files = [ROOT / "crates.txt"]
    for at, folders, names in os.walk(ROOT / "crates"):
        if "out" in folders:
            folders.remove("out")
        files += [Path(at) / it for it in names]
    return all(it.stat().st_mtime_ns < since for it in files)


def build(name, to, toolchain=None, more=()):
    """Proves a static library's own functions over the libraries below it as they stand built, and writes its archive.

    The words are those that `rt lib` gives to the same command."""
    home = kit()
    own = rows()
    words = [home / "bin" / "rattle", "build", "--crate-name", name, "src/lib.rt", "--extern", f"std={home}/rlibs/std.rlib"]
    for library in own[name][1]:
        words += ["--extern", f"{library}={rlib(library) if library in own else f'{home}/rlibs/{library}.rlib'}"]
    words += ["-L", f"dependency={home}/rlibs"]
    for library in below(name):
        words += ["-L", f"dependency={rlib(library).parent}"]
    words += ["--antt-project", home / "rattle" / "logic" / "antt-project.json", "--logic-built", home / "logic_built"]
    words += ["--jobs", min(4, os.cpu_count() or 1), "--links", f"{name}=", "--crate-type", "staticlib"]
    words += ["--toolchain", toolchain or home / "toolchain", "--backend", "llvm", *more, "-o", to]
    done = subprocess.run([str(it) for it in words], cwd=ROOT / "crates" / name, stdout=subprocess.PIPE, stderr=subprocess.STDOUT, text=True)
    if done.returncode != 0:
        raise Fault(f"'rattle build' of {name} ended with status {done.returncode}: {done.stdout[-2000:].strip()}")


def rt_lib(name):
    """Makes a crate's archive over what `rt check` and `rt lib` kept; what is not there is proved first."""
    done = subprocess.run(["rt", "lib"], cwd=ROOT / "crates" / name, stdout=subprocess.PIPE, stderr=subprocess.STDOUT, text=True)
    if done.returncode != 0:
        raise Fault(f"'rt lib' in crates/{name} ended with status {done.returncode}: {done.stdout[-2000:].strip()}")
