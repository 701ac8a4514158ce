"""docs/RECORD.md, the header and the Rust package tell the record's layout and the rooms as the definitions have them.

The layout is read from the definitions: each name with its sum, over the numbers of the rules. The table's rows are its fields in order, each with
the octets from where it begins to where the next one does.
"""
import pathlib
import re
import sys

from usage import arguments

ROOT = pathlib.Path(__file__).resolve().parent.parent
SPECS = ROOT / "crates"
PAGES = [SPECS / "rules/specs/Lines.antt", SPECS / "rules/specs/Answers.antt", SPECS / "rules/specs/Setup.antt", SPECS / "records/specs/Layout.antt"]
RECORD = ROOT / "docs" / "RECORD.md"
NUMBER = re.compile(r"^(?:abbrev|unfoldable) pub (\w+) : ℕ\n\1 = (.+)$", re.M)


def numbers():
    """Each number that the pages define, in their order."""
    known = {}
    for page in PAGES:
        for name, value in NUMBER.findall(page.read_text()):
            known[name] = eval(value, {"__builtins__": {}}, dict(known))
    return known


def rows():
    """The table's rows: first octet, last octet, the field's name in Layout."""
    for cell, name in re.findall(r"^\| ([0-9to ]+) \|[^|]*\| `Layout\.(\w+)` \|", RECORD.read_text(), re.M):
        ends = [int(n) for n in cell.split(" to ")]
        yield ends[0], ends[-1], name


def told(path, pattern, value):
    found = re.findall(pattern, (ROOT / path).read_text(), re.M)
    if not found:
        yield f"{path}: nothing like {pattern}"
    for text in found:
        if int(text.replace(",", "").replace("_", "")) != value:
            yield f"{path}: {text} is not {value}"


def faults():
    known = numbers()
    fields = [name for name in known if name.endswith("_at")]
    table = list(rows())
    if [name for _, _, name in table] != fields:
        yield f"docs/RECORD.md: the table's fields are not {', '.join(fields)}"
        return
    ends = [known[name] for name in fields[1:]] + [known["image_size"]]
    for (first, last, name), end in zip(table, ends):
        if (first, last) != (known[name], end - 1):
            yield f"docs/RECORD.md: {name} is at {known[name]} to {end - 1}, not {first} to {last}"
    # An end lets go what is held, each octet doubled at most, and two of a Telnet command.
    most_let_go = 2 * known["most_held"] + 2
    yield from told("docs/RECORD.md", r"as an image: ([\d,]+) octets", known["image_size"])
    yield from told("docs/RECORD.md", r"over (\d+) held where", known["most_held"])
    yield from told("relay/fashlemor.h", r"^#define FASHLEMOR_RECORD (\d+)$", known["image_size"])
    yield from told("relay/fashlemor.h", r"^#define FASHLEMOR_SETUP (\d+)$", known["setup_size"])
    yield from told("relay/fashlemor.h", r"^#define FASHLEMOR_ROOM (\d+)$", known["most_to_client"])
    yield from told("relay/fashlemor.h", r"^#define FASHLEMOR_END_ROOM (\d+)$", most_let_go)
    yield from told("relay/fashlemor.h", r"octets (\d+) to\s", known["up_removed_at"])
    yield from told("relay/fashlemor.h", r"client's, (\d+) to \d+ from", known["down_removed_at"])
    yield from told("relay/rust/src/lib.rs", r"^pub const RECORD: usize = ([\d_]+);$", known["image_size"])
    yield from told("relay/rust/src/lib.rs", r"^pub const SETUP: usize = ([\d_]+);$", known["setup_size"])
    yield from told("relay/rust/src/lib.rs", r"^pub const ROOM: usize = ([\d_]+);$", known["most_to_client"])
    yield from told("relay/rust/src/lib.rs", r"^pub const END_ROOM: usize = ([\d_]+);$", most_let_go)
    major, minor = re.search(r'^version = "(\d+)\.(\d+)\.', (ROOT / "relay/rust/Cargo.toml").read_text(), re.M).groups()
    yield from told("relay/fashlemor.h", r"^#define FASHLEMOR_VERSION_MAJOR (\d+)$", int(major))
    yield from told("relay/fashlemor.h", r"^#define FASHLEMOR_VERSION_MINOR (\d+)$", int(minor))


def main():
    arguments(__doc__)
    found = list(faults())
    for fault in found:
        print(fault)
    print(f"{len(list(rows()))} fields, {len(found)} faults")
    return 1 if found else 0


if __name__ == "__main__":
    sys.exit(main())
