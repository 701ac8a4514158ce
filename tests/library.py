"""The static library has the functions that relay/fashlemor.h declares and no other name, each with the clauses of the crate fashlemor, and the
command `./library` makes it.

usage: library.py LIBRARY. The last line counts the checks.
"""
import os
import pathlib
import re
import shutil
import subprocess
import sys
import tempfile

from usage import arguments, counted

ROOT = pathlib.Path(__file__).resolve().parent.parent
HEADER = ROOT / "relay" / "fashlemor.h"
OURS = ROOT / "crates" / "fashlemor" / "src"
EXPORTED = ROOT / "crates" / "fashlemor_c" / "src"
# a function with its parameters and clauses, up to its body
FUNCTION = re.compile(r'^pub (?:extern "C" )?fn (\w+)(.*?)^\{$', re.M | re.S)
# a stand-in for rt: it ends with the status there, and makes a library of the octets there
STAND_IN = """#!/bin/sh
[ "$*" = lib ] && [ -f src/lib.rt ] && [ -f ../../crates.txt ] || exit 9
echo what rt writes
[ "$STATUS" -eq 0 ] || exit "$STATUS"
mkdir -p out && printf %s "$MAKES" >out/libfashlemor_c.a
"""


def functions(folder):
    """The public functions of a crate, each with what it takes, returns and promises."""
    return {name: told for path in sorted(folder.glob("**/*.rt")) for name, told in FUNCTION.findall(path.read_text())}


def library_checks(library):
    declared = set(re.findall(r"^\w+ (fashlemor_\w+)\(", HEADER.read_text(), re.M))
    listed = subprocess.run(["nm", "--extern-only", "--defined-only", "--format=posix", library], capture_output=True, text=True, check=True).stdout
    names = {line.split(" ")[0] for line in listed.splitlines() if line.count(" ") > 1}
    yield f"the library's names are {sorted(declared)}", names == declared and len(declared) > 3
    ours, exported = functions(OURS), functions(EXPORTED)
    yield "the crate fashlemor_c exports them", exported.keys() == declared
    for name, told in exported.items():
        yield f"{name} has the clauses of the crate fashlemor", "ensures" in told and ours.get(name) == told
    marked = re.findall(r"^#\[unsafe\(no_mangle\)\]\npub extern", "".join(path.read_text() for path in EXPORTED.glob("**/*.rt")), re.M)
    yield "each by its own name", len(marked) == len(declared)


def run(*words, **settings):
    done = subprocess.run(words, stdin=subprocess.DEVNULL, capture_output=True, text=True, **settings)
    return done.returncode, done.stdout, done.stderr


def command_checks(folder):
    """A copy of the command in a folder with nothing built, and a stand-in for rt."""
    tree, tools = folder / "tree", folder / "tools"
    (tree / "crates/fashlemor_c/src").mkdir(parents=True)
    (tree / "tools").mkdir()
    tools.mkdir()
    for name in ("library", "tools/build"):
        shutil.copy(ROOT / name, tree / name)
    (tree / "crates/fashlemor_c/src/lib.rt").write_text("// A library.\n")
    library = tree / "target/staticlib/libfashlemor.a"
    (tree / "crates.txt").write_text("rules:\nfashlemor: rules\nfashlemor_c staticlib: rules fashlemor\n")
    (tools / "rt").write_text(STAND_IN)
    (tools / "rt").chmod(0o755)

    def made(status, makes):
        found = {"PATH": f"{tools}:{os.environ['PATH']}", "STATUS": str(status), "MAKES": makes}
        return run(tree / "library", env={**os.environ, **found})

    def aged():
        """What is made is older than its source."""
        os.utime(tree / "crates/fashlemor_c/out/libfashlemor_c.a", (0, 0))

    first = "proving and building fashlemor_c, 3 crates, some minutes the first time\n"
    end = "what rt writes\nfashlemor_c is not built; target/fashlemor_c.log has all that rt wrote\n"
    yield "a library that is not built", made(1, "one") == (1, "", f"{first}{end}") and not library.exists()
    yield "one that is built first", made(0, "one") == (0, "", first) and library.read_text() == "one"
    yield "and once only", made(1, "two") == (0, "", "") and library.read_text() == "one"
    was = library.stat().st_mtime_ns
    aged()
    yield "a source that is newer", made(1, "two") == (1, "", f"{first}{end}")
    yield "one that is as it was", made(0, "one") == (0, "", first) and library.stat().st_mtime_ns == was
    aged()
    yield "one that is another", made(0, "two") == (0, "", first) and library.read_text() == "two"
    library.unlink()
    yield "one that is only to be copied", made(1, "three") == (0, "", "") and library.read_text() == "two"


def main():
    [library] = arguments(__doc__, 1, 1)
    with tempfile.TemporaryDirectory() as folder:
        checks = [*library_checks(library), *command_checks(pathlib.Path(folder))]
    return counted(checks)


if __name__ == "__main__":
    sys.exit(main())
