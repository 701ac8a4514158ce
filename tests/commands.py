"""Every command tells its usage by --help and by -h, and refuses an option that it has not.

usage: commands.py [PROGRAM..]: the commands of the repository, the tests among them, and these programs. The last line counts the checks.
"""
import pathlib
import shutil
import subprocess
import sys
import tempfile

from usage import arguments, counted

ROOT = pathlib.Path(__file__).resolve().parent.parent
# a module of the tests, and no command
MODULES = {"usage.py"}
# nothing that tells its usage takes longer, in seconds
LONGEST = 20


def commands(folder, programs):
    """Each command with its name; the gate as a copy in a folder, where it would find nothing to do."""
    (folder / ".ci").mkdir()
    yield ".ci/run", [shutil.copy(ROOT / ".ci/run", folder / ".ci/run")]
    for name in ("replay", "session-file", "prefix", "library", "tools/build"):
        yield name, [ROOT / name]
    for path in sorted((ROOT / "tests").glob("*.py")):
        if path.name not in MODULES:
            yield f"tests/{path.name}", [sys.executable, path]
    for program in programs:
        yield program, [pathlib.Path(program).resolve()]


def run(command, word):
    """The exit status, standard output and standard error; a command that sets to work is stopped."""
    try:
        done = subprocess.run([*command, word], stdin=subprocess.DEVNULL, capture_output=True, text=True, timeout=LONGEST)
    except (OSError, subprocess.TimeoutExpired) as error:
        return None, "", str(error)
    return done.returncode, done.stdout, done.stderr


def checks(folder, programs):
    for name, command in commands(folder, programs):
        told = run(command, "--help")
        yield f"{name} --help tells the usage", told[0] == 0 and len(told[1]) > 40 and not told[2]
        yield f"{name} -h tells the same", run(command, "-h") == told
        status, written, said = run(command, "--no-such-option")
        first = told[1].split("\n")[0]
        yield f"{name} --no-such-option is refused with the usage", status == 2 and not written and ("usage: " in said or first in said)


def main():
    programs = arguments(__doc__, 0, 9)
    with tempfile.TemporaryDirectory() as folder:
        results = list(checks(pathlib.Path(folder), programs))
    return counted(results)


if __name__ == "__main__":
    sys.exit(main())
