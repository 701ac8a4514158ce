"""The samples are what `session-file` makes and what a replay writes, and `session-file` reports each fault at its line.

usage: samples.py REPLAY, a program that writes the report of the session file named on its command line. The last line counts the checks.
"""
import pathlib
import re
import subprocess
import sys
import tempfile

from usage import arguments

ROOT = pathlib.Path(__file__).resolve().parent.parent
MAKER = ROOT / "session-file"
SAMPLES = ROOT / "samples"
SCOPE = ROOT / "docs" / "01-scope.md"
EXCHANGE = ROOT / "docs" / "exchange.txt"
# the damaged samples, each made of document-01.session
DAMAGED = {
    "damaged-length": lambda good: good[:17] + bytes([good[17] + 1]) + good[18:],
    "damaged-kind": lambda good: good[:10] + b"\5" + good[11:],
    "cut-table": lambda good: good[:16],
}
FEWEST = 12

SETUP = "setup ::1 192.0.2.31 198.51.100.7 epsv\n"
# a bad text, the line of its fault, and what is said of it
FAULTS = [
    ("", 1, "no setup"),
    ("# nothing\n\n", 2, "no setup"),
    ('client "x"\n' + SETUP, 1, "no setup first"),
    ("\nclient end\n", 2, "no setup first"),
    (SETUP + "# once more\n" + SETUP, 3, "a second setup"),
    (SETUP + 'clint "x"\n', 2, "unknown word clint"),
    (SETUP + '"x"\n', 2, 'unknown word "x"'),
    (SETUP + "client x\n", 2, "unknown word x"),
    (SETUP + 'client "x" y\n', 2, "unknown word y"),
    (SETUP + "client * 3\n", 2, "unknown word *"),
    (SETUP + "cut 1 setup ::1 192.0.2.31 198.51.100.7\n", 2, "unknown word setup"),
    ("setup ::1 192.0.2.31 198.51.100.7 epsv pasv\n", 1, "unknown word pasv"),
    ("setup ::1 192.0.2.31 198.51.100.7 Strict\n", 1, "unknown word Strict"),
    ("setup ::1 192.0.2.31 198.51.100.7 198.51.100.8\n", 1, "unknown word 198.51.100.8"),
    ("setup ::1 192.0.2.31 198.51.100.7 flags 1 epsv\n", 1, "unknown word epsv"),
    ("\nsetup 1::2::3 192.0.2.31 198.51.100.7\n", 2, "bad address 1::2::3"),
    ("setup fe80::1%1 192.0.2.31 198.51.100.7\n", 1, "bad address fe80::1%1"),
    ("setup 192.0.2.31 ::1 198.51.100.7\n", 1, "bad address 192.0.2.31"),
    ("setup ::1 192.0.2.256 198.51.100.7\n", 1, "bad address 192.0.2.256"),
    ("setup ::1 192.0.2.31 198.51.100.256\n", 1, "bad address 198.51.100.256"),
    ("setup ::1 192.0.2.31 ::2\n", 1, "bad address ::2"),
    ("setup ::1 192.0.2 198.51.100.7\n", 1, "bad address 192.0.2"),
    ("setup\n", 1, "missing client's address"),
    ("setup epsv\n", 1, "missing client's address"),
    ("setup ::1\n", 1, "missing mapped address"),
    ("setup ::1 flags 7\n", 1, "missing mapped address"),
    ("setup ::1 192.0.2.31\n", 1, "missing server's address"),
    ("\nsetup ::1 192.0.2.31 epsv eprt-supported eprt\n", 2, "missing server's address"),
    ("setup ::1 192.0.2.31 strict\n", 1, "missing server's address"),
    ("setup ::1 192.0.2.31 flags 9\n", 1, "missing server's address"),
    ("setup ::1 192.0.2.31 epsv 198.51.100.7\n", 1, "missing server's address"),
    ("setup ::1 192.0.2.31 198.51.100.7 flags 256\n", 1, "bad number 256"),
    ("setup ::1 192.0.2.31 198.51.100.7 flags\n", 1, "missing number"),
    (SETUP + 'client "a\\q"\n', 2, "bad escape \\q"),
    (SETUP + 'client "a\\x4"\n', 2, "bad escape \\x"),
    (SETUP + 'client "\t"\n', 2, "octet \\x09 must be written so"),
    (SETUP + 'client "\xe9"\n', 2, "octet \\xe9 must be written so"),
    (SETUP + 'client "a\n', 2, "missing quote"),
    (SETUP + 'client "a\\"\n', 2, "missing quote"),
    (SETUP + 'client "a" "\n', 2, "missing quote"),
    (SETUP + "client\n", 2, "missing octets"),
    (SETUP + 'client "x" *\n', 2, "missing number"),
    (SETUP + 'client "x" * -1\n', 2, "bad number -1"),
    (SETUP + 'client "x" * "y"\n', 2, 'bad number "y"'),
    (SETUP + "cut\n", 2, "missing number"),
    (SETUP + "cut 1\n", 2, "missing client or server"),
    (SETUP + 'cut 0 client "x"\n', 2, "bad number 0"),
    (SETUP + 'cut 1025 client "x"\n', 2, "bad number 1025"),
    (SETUP + "cut 1 client end\n", 2, "an end has no octets"),
    (SETUP + 'server end "x"\n', 2, "an end has no octets"),
    (SETUP + 'client "x" * 1025\n', 2, "an entry over 1,024 octets"),
    (SETUP + '\nserver "x" * 1024 "\\n"\n', 3, "an entry over 1,024 octets"),
    (SETUP + 'client "x"\n' * 48, 49, "more than 48 entries"),
    (SETUP + 'cut 1 client "x" * 48\n', 2, "more than 48 entries"),
    (SETUP + 'cut 1 client "x" * 40\ncut 2 server "y" * 15\n', 3, "more than 48 entries"),
    (SETUP + 'cut 1024 client "x" * 999999\n', 2, "more than 48 entries"),
]

SERVER = b"\xc6\x33\x64\x07"


def body(flags):
    """The setup that `setup ::1 192.0.2.31 198.51.100.7` and these flags say."""
    return bytes(15) + b"\x01\xc0\x00\x02\x1f" + bytes([flags]) + SERVER


# a text, and the session file written out
MADE = [
    ("setup ::1 192.0.2.31 198.51.100.7", bytes([0, 1, 4, 0, 0, 25]) + body(0)),
    ("setup ::1 192.0.2.31 198.51.100.7 epsv eprt-supported eprt", bytes([0, 1, 4, 0, 0, 25]) + body(7)),
    ("setup ::1 192.0.2.31 198.51.100.7 strict", bytes([0, 1, 4, 0, 0, 25]) + body(8)),
    ("setup ::1 192.0.2.31 198.51.100.7 strict eprt eprt-supported epsv", bytes([0, 1, 4, 0, 0, 25]) + body(15)),
    ("setup ::1 192.0.2.31 198.51.100.7 flags 16", bytes([0, 1, 4, 0, 0, 25]) + body(16)),
    ("setup ::1 192.0.2.31 198.51.100.7 flags 255  # all", bytes([0, 1, 4, 0, 0, 25]) + body(255)),
    (
        SETUP.replace("\n", "\r\n") + '\r\nclient "# \\r\\n\\t\\\\\\"\\x00\\xFF~"\nserver "ab" * 2"c" "d" * 0 #"\n',
        bytes([0, 3, 4, 0, 0, 25, 0, 0, 0, 10, 1, 0, 0, 5]) + body(1) + b'# \r\n\t\\"\0\xff~ababc',
    ),
    (SETUP + 'cut 2 server "abc"\ncut 1 client ""', bytes([0, 4, 4, 0, 0, 25, 1, 0, 0, 2, 1, 0, 0, 1, 0, 0, 0, 0]) + body(1) + b"abc"),
    (SETUP + 'server end\nclient end\nserver ""\n', bytes([0, 4, 4, 0, 0, 25, 3, 0, 0, 0, 2, 0, 0, 0, 1, 0, 0, 0]) + body(1)),
    (SETUP + 'client "x" * 1024', bytes([0, 2, 4, 0, 0, 25, 0, 0, 4, 0]) + body(1) + b"x" * 1024),
    (SETUP + 'cut 1 client "x" * 47', bytes([0, 48, 4, 0, 0, 25]) + bytes([0, 0, 0, 1]) * 47 + body(1) + b"x" * 47),
]

GOOD = bytes([0, 3, 4, 0, 0, 25, 0, 0, 0, 2, 2, 0, 0, 0]) + body(1) + b"ab"


def changed(place, octet):
    return GOOD[:place] + bytes([octet]) + GOOD[place + 1 :]


SECOND_SETUP = bytes([0, 2] + [4, 0, 0, 25] * 2) + body(0) * 2
# as setups were before they named the server
OF_21 = bytes([0, 1, 4, 0, 0, 21]) + body(1)[:21]
TOO_LONG = bytes([0, 2, 4, 0, 0, 25, 0, 0, 4, 1]) + body(0) + b"x" * 1025
# what is no session file, and the number that refuses it
REFUSED = [
    (b"", 7), (GOOD[:1], 7), (GOOD[:2], 7), (GOOD[:13], 7), (GOOD[:14], 7), (GOOD[:-1], 7), (GOOD + b"x", 7), (changed(9, 1), 7),
    (changed(1, 0), 8), (changed(1, 49), 8), (changed(0, 1), 8), (b"\0\0", 8), (changed(6, 5), 8), (changed(6, 4), 8), (changed(2, 0), 8),
    (SECOND_SETUP, 8), (TOO_LONG, 8), (changed(7, 1), 8), (changed(8, 5), 8), (changed(13, 1), 8), (OF_21, 8), (changed(5, 21), 8),
    (changed(5, 24), 8), (changed(5, 26), 8),
]


def make(*arguments, text=b""):
    """The exit status of the maker, its standard output and its standard error."""
    done = subprocess.run([sys.executable, "-IS", MAKER, *arguments], input=text, capture_output=True)
    return done.returncode, done.stdout, done.stderr.decode()


def content(path):
    return path.read_bytes() if path.exists() else b""


def shown(text):
    return repr(text if len(text) < 100 else text[:60] + " .. " + text[-30:])


def report(replay, path):
    return subprocess.run([replay, path], capture_output=True).stdout


def comes_back(octets):
    """The text of a session file makes that file again."""
    status, text, _ = make("--text", "-", text=octets)
    return status == 0 and make("-", text=text) == (0, octets, "")


def folder_checks():
    names = {ending: {path.stem for path in SAMPLES.glob(f"*.{ending}")} for ending in ("txt", "session", "report")}
    yield f"there are at least {FEWEST} texts", len(names["txt"]) >= FEWEST
    yield "each session file has a report, and each but the damaged ones a text", (
        names["session"] == names["report"] == names["txt"] | DAMAGED.keys() and not names["txt"] & DAMAGED.keys()
    )
    printed = content(SAMPLES / "document-01.report")
    yield "document-01.report is what document 01 prints", b"```\n" + printed + b"```" in SCOPE.read_bytes()
    good = content(SAMPLES / "document-01.session")
    for name, damage in DAMAGED.items():
        yield f"{name}.session is document-01.session damaged", content(SAMPLES / f"{name}.session") == damage(good)


def sample_checks(replay):
    for path in sorted(SAMPLES.glob("*.session")):
        stored, expected = content(path), content(path.with_suffix(".report"))
        yield f"{path.name} is replayed as its report has it", report(replay, path) == expected
        if path.stem in DAMAGED:
            yield f"{path.name} is refused by --text", make("--text", path) == (1, b"", expected.decode())
            continue
        text = path.with_suffix(".txt")
        yield f"{text.name} says first what it shows", content(text).startswith(b"# ")
        yield f"{text.name} makes {path.name}", make(text) == (0, stored, "")
        yield f"{path.name} comes back by --text", comes_back(stored)


def made_checks(folder):
    out = folder / "made"
    for text, expected in MADE:
        octets = text.encode("latin-1")
        yield f"{shown(text)} is made", make("-", text=octets) == (0, expected, "")
        yield f"{shown(text)} is made into a file", make("-", out, text=octets) == (0, b"", "") and out.read_bytes() == expected
        yield f"{shown(text)} comes back by --text", comes_back(expected)


def fault_checks(folder):
    bad, out = folder / "bad.txt", folder / "out"
    for text, line, said in FAULTS:
        bad.write_bytes(text.encode("latin-1"))
        out.write_bytes(b"as it was")
        yield f"{shown(text)}: line {line}, {said}", make(bad, out) == (1, b"", f"{bad}:{line}: {said}\n")
        yield f"{shown(text)}: nothing is written", out.read_bytes() == b"as it was"
    out.unlink()
    yield "no file is made where there was none", make(bad, out)[0] == 1 and not out.exists()
    yield "nothing goes to standard output, and standard input is named -", make("-") == (1, b"", "-:1: no setup\n")


def refused_checks(replay, folder):
    path = folder / "refused"
    for octets, number in REFUSED:
        path.write_bytes(octets)
        line = f"REFUSED {number}\n"
        yield f"{octets[:24].hex()}.. is refused by --text with {number}", make("--text", path) == (1, b"", line)
        yield f"{octets[:24].hex()}.. is refused by the replay with {number}", report(replay, path) == line.encode()


def picture_checks(replay, folder):
    """The lines that come to the gateway in the picture of an exchange, replayed, give those that leave it there."""
    given, sides = [SETUP.strip()], []
    for source, target, words in re.findall(r"^(\w+) [-=]> (\w+): (.+)$", EXCHANGE.read_text(), re.M):
        if target == "gateway":
            given.append(f'{source} "{words}\\r\\n"')
            sides.append({"server": "-", "client": "-"})
        else:
            sides[-1][target] = words.replace(" ", "\\20") + "\\0d\\0a"
    shown = [f"{side['server']} {side['client']}" for side in sides]
    path = folder / "exchange"
    make("-", path, text="\n".join(given).encode())
    written = [line.split(" ", 3)[3] for line in report(replay, path).decode().splitlines()[2:]]
    yield "docs/exchange.txt shows what a replay writes", len(shown) > 2 and written == shown


def usage_checks(folder):
    helped = subprocess.run([MAKER, "--help"], capture_output=True)
    yield "--help tells the usage", helped.returncode == 0 and b"session-file TEXT [OUT]" in helped.stdout
    for words in (["-h"], ["--text", "-h"], ["-", "--help"]):
        yield f"{words} tells it too", make(*words) == (0, helped.stdout, "")
    for words in ([], ["a", "b", "c"], ["--text"], [SAMPLES / "none.txt"]):
        status, written, said = make(*words)
        yield f"{words} ends with status 2", status == 2 and not written and said.count("\n") == 1
    for words in (["--what"], ["--text", "-x"], ["-", "--text"], ["-", "--"]):
        status, written, said = make(*words)
        lines = said.splitlines()
        yield f"{words} is refused with the usage", status == 2 and not written and len(lines) == 2 and (
            lines[0] == f"session-file: unknown option {words[-1]}" and lines[1].startswith("usage: session-file TEXT [OUT]")
        )
    text, session = SAMPLES / "epsv.txt", content(SAMPLES / "epsv.session")
    yield "a file to standard output, named -", make(text, "-") == (0, session, "")
    yield "standard input to standard output, both named -", make("-", "-", text=content(text)) == (0, session, "")
    back = make("--text", SAMPLES / "epsv.session")[1]
    yield "--text from a file to -", back and make("--text", SAMPLES / "epsv.session", "-") == (0, back, "")
    yield "--text from - to -", make("--text", "-", "-", text=session) == (0, back, "")
    out = folder / "from-standard-input"
    yield "--text from - into a file", make("--text", "-", out, text=session) == (0, b"", "") and content(out) == back
    yield "no file is called -", not pathlib.Path("-").exists()


def groups(replay, folder):
    yield "the folder of samples", folder_checks()
    yield "samples", sample_checks(replay)
    yield "texts with their session files written out", made_checks(folder)
    yield "faults of texts", fault_checks(folder)
    yield "files that are no session files", refused_checks(replay, folder)
    yield "the picture of an exchange", picture_checks(replay, folder)
    yield "command lines", usage_checks(folder)


def main():
    [replay] = arguments(__doc__, 1, 1)
    passed = failed = 0
    with tempfile.TemporaryDirectory() as folder:
        for name, checks in groups(replay, pathlib.Path(folder)):
            results = list(checks)
            wrong = [what for what, good in results if not good]
            for what in wrong:
                print(f"FAILED: {what}")
            print(f"{name}: {len(results)} checks")
            passed += len(results) - len(wrong)
            failed += len(wrong)
    print(f"{passed} passed, {failed} failed")
    return 1 if failed else 0


if __name__ == "__main__":
    sys.exit(main())
