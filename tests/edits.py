"""Each must-fail edit fits its source: a text that it replaces stands in its file exactly once."""
import pathlib
import sys

from usage import arguments

ROOT = pathlib.Path(__file__).resolve().parent.parent


def replaced(edit):
    """The file and the text of each replacement; a `file:` line holds for the pairs after it."""
    source = None
    for line in edit.read_text().splitlines():
        if line.startswith("file: "):
            source = edit.parent.parent / line.removeprefix("file: ")
        elif line.startswith("old: "):
            yield source, line.removeprefix("old: ")


def faults(edit):
    name = edit.relative_to(ROOT)
    texts = list(replaced(edit))
    if not texts:
        yield f"{name}: nothing is replaced"
    for source, old in texts:
        times = source.read_text().count(old) if source and source.exists() else 0
        if times != 1:
            yield f"{name}: its text stands {times} times in {source and source.relative_to(ROOT)}"


def main():
    arguments(__doc__)
    edits = sorted(ROOT.glob("crates/*/must-fail/*.edit"))
    found = [fault for edit in edits for fault in faults(edit)]
    for fault in found:
        print(fault)
    print(f"{len(edits)} edits, {len(found)} faults")
    return 1 if found or not edits else 0


if __name__ == "__main__":
    sys.exit(main())
