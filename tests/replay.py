"""What the program `replay` and the command `./replay` do with names, standard input and output, and with what is no session file, and
what the command tells while it builds the program.

usage: replay.py PROGRAM. The last line counts the checks.
"""
import os
import pathlib
import shutil
import subprocess
import sys
import tempfile

from usage import arguments, counted

ROOT = pathlib.Path(__file__).resolve().parent.parent
SAMPLES = ROOT / "samples"
COMMAND = ROOT / "replay"
# 48 entries, a setup and 47 arrivals of 1,024 octets
LONGEST = 2 + 4 * 48 + 25 + 47 * 1024
HINT = "./replay: this looks like a text, from which ./session-file makes a session file"
USAGE = "usage: ./replay [FILE]"
# what is no session file but looks like the text of one
TEXTS = [b"# a comment\n", b"setup ::1 192.0.2.31\n", b"\n \n\tsetup ::1\r\n", b'client "x"', b"server end\n", b'cut 1 client "x"\n', b"setup"]
# what does not: octets that no text has, and other words
OTHERS = [b"", b"\n", b"# a\0\n", b"setup \xe9\n", b"# \x7f\n", b"\0\1", b"hello\nsetup ::1\n", b"clientele\n", b"\0\2# setup\n"]
# a stand-in for rt: it writes what its environment has, makes the program that is named there, and ends with the status there
STAND_IN = """#!/bin/sh
[ "$*" = run ] && [ -f src/main.rt ] && [ -f ../../crates.txt ] || exit 9
printf '%b' "$WRITES"
[ "$STATUS" -eq 0 ] || exit "$STATUS"
mkdir -p out && cp "$MAKES" out/replay
"""


def largest():
    """The largest session file: after AUTH every octet passes, and each is shown by three."""
    table = bytes([0, 48, 4, 0, 0, 25]) + bytes([0, 0, 4, 0]) * 47
    octets = b"AUTH\n".ljust(1024, b"\0")
    return table + bytes(20) + b"\7" + bytes(4) + octets * 47


def run(*words, given=b"", output=subprocess.PIPE, **settings):
    done = subprocess.run(words, input=given, stdout=output, stderr=subprocess.PIPE, **settings)
    return done.returncode, done.stdout or b"", done.stderr.decode()


def report(name):
    return (SAMPLES / f"{name}.report").read_bytes()


def complains(result, words):
    """No report, and one line on standard error that has these words."""
    return not result[1] and result[2].count("\n") == 1 and words in result[2]


def program_checks(program, folder):
    sample = (SAMPLES / "epsv.session").read_bytes()
    yield "a file that is named", run(program, SAMPLES / "epsv.session") == (0, report("epsv"), "")
    yield "standard input", run(program, given=sample) == (0, report("epsv"), "")
    yield "nothing on standard input", run(program) == (0, b"REFUSED 7\n", "")
    yield "a file that is not there", complains(run(program, folder / "none"), f"{folder / 'none'}: No such file")
    yield "a folder", complains(run(program, folder), "Is a directory")
    yield "a name that is too long", complains(run(program, "x" * 5000), "File name too long")
    yield "two names", complains(run(program, "a", "b"), "usage: replay [FILE]")
    with open("/dev/full", "wb") as full:
        yield "an output that is full", complains(run(program, SAMPLES / "epsv.session", output=full), "No space left")
    written = run(program, given=largest())
    yield "the largest session file", written[1].startswith(b"FTP64 REPORT 48\n") and written[1].count(b"\n") == 49 and not written[2]
    yield "as many octets as it has", run(program, given=bytes(LONGEST)) == (0, b"REFUSED 8\n", "")
    yield "one octet more", run(program, given=bytes(LONGEST + 1)) == (0, b"REFUSED 8\n", "")
    yield "many octets more", run(program, given=bytes(1000000)) == (0, b"REFUSED 8\n", "")
    yield "the largest with an octet more", run(program, given=largest() + b"x") == (0, b"REFUSED 7\n", "")
    yield "the largest many times", run(program, given=largest() * 20) == (0, b"REFUSED 7\n", "")
    yield "a small one with many octets more", run(program, given=sample + bytes(100000)) == (0, b"REFUSED 7\n", "")


def command_checks(folder):
    wrong = folder / "wrong.txt"
    wrong.write_text("setup ::1 192.0.2.31 198.51.100.7\nclint end\n")
    yield "./replay of a session file", run(COMMAND, SAMPLES / "auth.session")[:2] == (0, report("auth"))
    yield "./replay of a text, which has nothing to prove any more", run(COMMAND, SAMPLES / "eprt.txt") == (0, report("eprt"), "")
    odd = os.fsencode(folder) + b"/n\xffme.session"
    shutil.copy(os.fsencode(SAMPLES / "auth.session"), odd)
    yield "./replay of a name that is not UTF-8", run(COMMAND, odd)[:2] == (0, report("auth"))
    yield "./replay of such a name that is not there", run(COMMAND, odd + b"x")[:2] == (1, b"")
    status, written, said = run(COMMAND)
    yield "./replay without a name", (status, written) == (0, report("epsv")) and "samples/epsv.session" in said
    for name, words in ((folder / "none", "No such file"), ("", "No such file"), (wrong, "wrong.txt:2: unknown word clint"), (folder / "none.txt", "none.txt")):
        result = run(COMMAND, name)
        yield f"./replay of {name or 'an empty name'}", result[0] == 1 and complains(result, words)
    yield "./replay of two names", run(COMMAND, "a", "b") == (2, b"", f"./replay: more than one name\n{USAGE}\n")
    for words in (["--what"], ["-x"], ["--"], [SAMPLES / "auth.session", "--what"]):
        yield f"./replay of {words}", run(COMMAND, *words) == (2, b"", f"./replay: unknown option {words[-1]}\n{USAGE}\n")
    for words in (["--help"], ["-h"], [SAMPLES / "auth.session", "-h"]):
        status, written, said = run(COMMAND, *words)
        yield f"./replay of {words}", status == 0 and written.startswith(f"{USAGE}\n\n".encode()) and b"standard input" in written and not said


def input_checks():
    """Standard input by the name -."""
    for name in ("auth", "epsv", "damaged-length", "damaged-kind", "cut-table"):
        yield f"./replay - of {name}", run(COMMAND, "-", given=(SAMPLES / f"{name}.session").read_bytes()) == (0, report(name), "")
    yield "./replay - of nothing", run(COMMAND, "-") == (0, b"REFUSED 7\n", "")
    yield "./replay - of the largest with an octet more", run(COMMAND, "-", given=largest() + b"x") == (0, b"REFUSED 7\n", "")
    made = run(ROOT / "session-file", SAMPLES / "eprt.txt")[1]
    yield "./replay - of what session-file writes", run(COMMAND, "-", given=made) == (0, report("eprt"), "")


def hint_checks(folder):
    """A hint for a text, and none for anything else; the report is what the program wrote."""
    path = folder / "given"
    for octets in [*TEXTS, *OTHERS, *(sample.read_bytes() for sample in sorted(SAMPLES.glob("*.txt")))]:
        path.write_bytes(octets)
        for result in (run(COMMAND, path), run(COMMAND, "-", given=octets)):
            hinted = result[2].startswith(HINT) and result[2].count("\n") == 1
            good = hinted if octets not in OTHERS else not result[2]
            yield f"{octets[:30]} and the hint", good and result[0] == 0 and result[1] in (b"REFUSED 7\n", b"REFUSED 8\n")
    for sample in sorted(SAMPLES.glob("*.session")):
        yield f"no hint for {sample.name}", run(COMMAND, sample) == (0, report(sample.stem), "")


def terminal(words, settings):
    """What goes to standard error where that is a terminal."""
    ours, theirs = os.openpty()
    subprocess.run(words, stdin=subprocess.DEVNULL, stdout=subprocess.DEVNULL, stderr=theirs, **settings)
    os.close(theirs)
    said = b""
    try:
        while part := os.read(ours, 4096):
            said += part
    except OSError:
        pass
    os.close(ours)
    return said.decode()


def building(folder, program, writes, status):
    """A copy of the command in a folder with nothing built, and the settings by which it finds the stand-in."""
    tree, tools = folder / "tree", folder / "tools"
    for path in (tree, tools):
        shutil.rmtree(path, ignore_errors=True)
        path.mkdir()
    (tree / "tools").mkdir()
    for name in ("replay", "session-file", "tools/build"):
        shutil.copy(ROOT / name, tree / name)
    (tree / "crates/replay/src").mkdir(parents=True)
    (tree / "crates/replay/src/main.rt").write_text("// A program.\n")
    (tree / "crates.txt").write_text("replay: report lines csv\nrules:\nother: rules  # beside it\nlines: rules csv\nreport: lines rules\n")
    (tools / "rt").write_text(STAND_IN)
    (tools / "rt").chmod(0o755)
    found = {"PATH": f"{tools}:{os.environ['PATH']}", "TERM": "xterm", "WRITES": writes, "STATUS": str(status), "MAKES": str(pathlib.Path(program).resolve())}
    return tree, {"env": {**os.environ, **found}}


def build_checks(folder, program):
    sample, names = SAMPLES / "auth.session", ["rules", "lines", "report", "replay"]
    first = "proving and building replay, 4 crates, some minutes the first time\n"
    told = [f"proved {at} of 4: {name}" for at, name in enumerate(names, 1)]
    begun = {name: f"rt: chose --jobs 2 for {name}\n" for name in names}
    proved = "".join(f"{begun[name]}fn {name}::f: proved\nlogic=proved functions=1\n" for name in names)
    ran = "rt: running out/replay; to give it other input, run that file yourself\nREFUSED 7\n"

    tree, settings = building(folder, program, proved + ran, 0)
    yield "a build tells each crate that is proved, and how many there are", (
        run(tree / "replay", sample, **settings) == (0, report("auth"), first + "".join(f"{line}\n" for line in told))
    )
    yield "what rt wrote is kept", (tree / "target/replay.log").read_text() == proved + ran
    yield "nothing is told where all is built", run(tree / "replay", sample, **settings) == (0, report("auth"), "")
    os.utime(tree / "crates/replay/out/replay", (0, 0))
    yield "a source that is newer is built", run(tree / "replay", sample, **settings)[2].startswith(first)
    tree, settings = building(folder, program, proved + ran, 0)
    rewritten = "".join(f"\r\033[K{line}" for line in told)
    yield "a terminal has one line, written anew", terminal([tree / "replay", sample], settings) == f"{first}{rewritten}\n".replace("\n", "\r\n")
    tree, settings = building(folder, program, f"{begun['report']}logic=proved functions=1\n", 0)
    yield "a crate that is as it was counts", run(tree / "replay", sample, **settings)[2] == f"{first}proved 3 of 4: report\n"

    bad = f"{begun['rules']}logic=proved functions=1\n{begun['lines']}what is wrong\nlogic=not-proved\nrt: the library lines did not build"
    for status in (1, 2, 3):
        tree, settings = building(folder, program, bad, status)
        status, written, said = run(tree / "replay", sample, **settings)
        yield "a crate that is not proved is told, with the end of the log", status == 1 and not written and (
            said.startswith(f"{first}proved 1 of 4: rules\nlines NOT PROVED\n")
            and "what is wrong\n" in said and "rt: the library lines did not build\n" in said and said.endswith("target/replay.log has all that rt wrote\n")
        )
        yield "then there is no program", not (tree / "crates/replay/out/replay").exists()
    tree, settings = building(folder, program, "x\n" * 1000 + bad, 1)
    yield "no more than the end of a long log", run(tree / "replay", sample, **settings)[2].count("\n") < 50
    tree, _ = building(folder, program, proved, 0)
    # a path with what the command needs and no rt
    for tool in ("sh", "dirname", "mktemp", "rm", "sed", "cat", "find", "awk", "wc", "mkdir"):
        (tree / tool).symlink_to(shutil.which(tool))
    result = run(tree / "replay", sample, env={"PATH": str(tree)})
    yield "where there is no rt", result[0] == 1 and complains(result, "there is no command rt")


def main():
    [program] = arguments(__doc__, 1, 1)
    with tempfile.TemporaryDirectory() as folder:
        place = pathlib.Path(folder)
        checks = [*program_checks(program, place), *command_checks(place), *input_checks(), *hint_checks(place), *build_checks(place, program)]
    return counted(checks)


if __name__ == "__main__":
    sys.exit(main())
