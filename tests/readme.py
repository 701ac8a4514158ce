"""Runs every command of README.md and docs/HOST.md and compares what it writes with what they show.

A block marked `console` has commands behind `$ `, each with the lines that it writes to standard output; a command that ends in `\\` goes on in the next line.
Commands run in the repository's root, one after the other; those of docs/HOST.md, which change routes, each in a network of its own. `.ci/run`, which
runs this, is left out. The last line counts the commands.
"""
import pathlib
import re
import subprocess
import sys

from usage import arguments

ROOT = pathlib.Path(__file__).resolve().parent.parent
# a network of its own, in which only the loopback is up
ALONE = ["unshare", "--map-root-user", "--net", "sh", "-c", 'ip link set lo up && exec "$@"', "sh"]
# each document, what its commands are run by, and how many it has at least
DOCUMENTS = {"README.md": ([], 5), "docs/HOST.md": (ALONE, 5)}
LEFT_OUT = {".ci/run"}


def steps(text):
    """Each command of the text with the output that is shown below it."""
    for block in re.findall(r"^```console\n(.*?)^```$", text, re.M | re.S):
        for step in re.split(r"^\$ ", block, flags=re.M)[1:]:
            command = re.match(r"(?:[^\n]*\\\n)*[^\n]*", step).group()
            yield re.sub(r"\\\n\s*", "", command), step[len(command) + 1 :]


def unmarked(text):
    """Marks of code blocks that are neither run nor known to be no commands."""
    return set(re.findall(r"^ *```(.*)", text, re.M)) - {"", "console", "text", "c", "rust"}


def holds(runner, command, shown):
    run = subprocess.run([*runner, "sh", "-c", command], cwd=ROOT, stdout=subprocess.PIPE, text=True)
    if run.returncode == 0 and run.stdout == shown:
        return True
    print(f"FAILED: {command}: status {run.returncode}, wrote\n{run.stdout}and the document shows\n{shown}", end="")
    return False


def document(name, runner, fewest):
    """Whether each command of a document holds."""
    text = (ROOT / name).read_text()
    if unmarked(text) or text.count("\n```\n") != len(re.findall(r"^```\w+$", text, re.M)):
        sys.exit(f"{name}: a code block with no mark, or one of {unmarked(text)}")
    listed = [step for step in steps(text) if step[0] not in LEFT_OUT]
    if len(listed) < fewest:
        sys.exit(f"{name}: only {len(listed)} commands")
    return [holds(runner, *step) for step in listed]


def main():
    arguments(__doc__)
    results = [good for name, asked in DOCUMENTS.items() for good in document(name, *asked)]
    print(f"{results.count(True)} passed, {results.count(False)} failed")
    return results.count(False) > 0


if __name__ == "__main__":
    sys.exit(main())
