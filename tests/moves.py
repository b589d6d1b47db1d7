"""Shows that no workspace is used twice: the compiler refuses such programs.

    python3 tests/moves.py

A ring goes into the workspace that is opened on it, and a workspace goes into
its close; neither can be copied.  So a second open on one ring, a call on a
closed workspace and a second close under another name must not compile.

A small library does the three things rightly and must be proved.  For each of
the three, a line of it is changed so that a value is used after it is gone;
the compiler must say so and name the value.  Since the library is proved as
it stands, the change alone is what is refused.

The library is written to a temporary folder and checked against the crates
that `rt ci` has built in this repository, so `rt ci` comes first.  Exit status
1 if any of the answers is another.
"""

import pathlib
import subprocess
import sys
import tempfile

from run_program import ROOT, SECONDS, readable

# The crates whose names the library below writes; the others are found by -L.
NAMED = ["guarded", "rings", "workspace"]

LIBRARY = """\
#![tactic(auto)]

use guarded::Redundant;
use rings::Refusal;
use workspace::Workspace;

pub fn two_rings(words: &mut [u32]) -> Result<(), Refusal> {
    let ring = Redundant::approve(7681, 3)?;
    let other = Redundant::approve(7681, 3)?;
    let first = Workspace::open(ring);
    let second = Workspace::open(other);
    first.close(words);
    second.close(words);
    Ok(())
}

pub fn called_and_closed(ring: Redundant, words: &mut [u32]) -> Result<(), Refusal> {
    let mut space = Workspace::open(ring);
    let answer = space.clear(words, 0);
    space.close(words);
    answer
}

pub fn moved_and_closed(ring: Redundant, words: &mut [u32]) {
    let space = Workspace::open(ring);
    let other = space;
    other.close(words);
}
"""

# What is refused, what changes in the library, what stands in its place, and the value that is gone.
CHANGES = [
    ("a second open on one ring",
     "Workspace::open(other)", "Workspace::open(ring)", "ring"),
    ("a call on a closed workspace",
     "    let answer = space.clear(words, 0);\n    space.close(words);\n",
     "    space.close(words);\n    let answer = space.clear(words, 0);\n", "space"),
    ("a workspace closed under two names",
     "    other.close(words);\n", "    other.close(words);\n    space.close(words);\n", "space"),
]


def built(name):
    """Where `rt ci` leaves a crate for those that use it."""
    return ROOT / "crates" / name / "out" / "rlib" / f"{name}.rlib"


def command(source):
    """The check of a library `moves` with this root file, as `rt check` makes it: over the kit's logic and libraries."""
    page = subprocess.run(["rt", "doc"], stdout=subprocess.PIPE, check=True).stdout
    kit = pathlib.Path(readable(page).strip()).parent
    words = ["rattle", "check", "--crate-name", "moves",
             "--antt-project", str(kit / "rattle" / "logic" / "antt-project.json"),
             "--logic-built", str(kit / "logic_built"),
             "--extern", f"std={kit / 'rlibs' / 'std.rlib'}", "-L", f"dependency={kit / 'rlibs'}"]
    for folder in sorted(ROOT.glob("crates/*/out/rlib")):
        words += ["-L", f"dependency={folder}"]
    for name in NAMED:
        words += ["--extern", f"{name}={built(name)}"]
    return words + [str(source)]


def checked(text):
    """The status and the output of a check of the library with this text."""
    with tempfile.TemporaryDirectory() as folder:
        source = pathlib.Path(folder) / "src" / "lib.rt"
        source.parent.mkdir()
        source.write_text(text, encoding="ascii")
        try:
            done = subprocess.run(command(source), stdout=subprocess.PIPE, stderr=subprocess.STDOUT, timeout=SECONDS)
        except OSError as error:
            raise SystemExit(f"cannot run the check: {error.strerror}")
        except subprocess.TimeoutExpired:
            raise SystemExit(f"the check did not end within {SECONDS} seconds")
        return done.returncode, readable(done.stdout)


def changed(old, new):
    if LIBRARY.count(old) != 1:
        raise SystemExit(f"this stands not once in the library: {old}")
    return LIBRARY.replace(old, new)


def report(name, holds, wanted, output):
    print(f"{name}: {wanted}" if holds else f"{name}: NOT {wanted}\n{output[-2000:]}")
    return holds


def main():
    if not built("workspace").is_dir():
        raise SystemExit("the crate workspace is not built: run rt ci first")
    status, output = checked(LIBRARY)
    all_hold = report("each ring and each workspace used once",
                      status == 0 and "logic=proved functions=3 " in output, "proved", output)
    for name, old, new, value in CHANGES:
        status, output = checked(changed(old, new))
        # the compiler says 'use of' or 'borrow of', by what is done with the value
        refused = status != 0 and f"of moved value: `{value}`" in output
        all_hold &= report(name, refused, f"refused, for `{value}` is gone", output)
    return 0 if all_hold else 1


if __name__ == "__main__":
    sys.exit(main())
