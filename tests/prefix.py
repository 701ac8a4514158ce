"""Addresses by prefix: the program `prefixes` against RFC 6052's published examples and against a reading of its own, and the command
`./prefix`.

usage: prefix.py PROGRAM SEED COUNT, with COUNT random questions from SEED on. The stored answers of the program are held to the same
reading, which works on whole numbers and shifts where the program works on octets. The last line counts the checks.
"""
import ipaddress
import os
import pathlib
import random
import shutil
import socket
import subprocess
import sys
import tempfile

from usage import arguments, counted

ROOT = pathlib.Path(__file__).resolve().parent.parent
COMMAND = ROOT / "prefix"
STORED = ROOT / "crates" / "prefixes"
LENGTHS = [32, 40, 48, 56, 64, 96]
# RFC 6052, section 2.4, the well-known prefix last: prefix, IPv4 address, IPv6 address
PUBLISHED = [
    ("2001:db8::/32", "192.0.2.33", "2001:db8:c000:221::"),
    ("2001:db8:100::/40", "192.0.2.33", "2001:db8:1c0:2:21::"),
    ("2001:db8:122::/48", "192.0.2.33", "2001:db8:122:c000:2:2100::"),
    ("2001:db8:122:300::/56", "192.0.2.33", "2001:db8:122:3c0:0:221::"),
    ("2001:db8:122:344::/64", "192.0.2.33", "2001:db8:122:344:c0:2:2100::"),
    ("2001:db8:122:344::/96", "192.0.2.33", "2001:db8:122:344::192.0.2.33"),
    ("64:ff9b::/96", "192.0.2.33", "64:ff9b::192.0.2.33"),
]
# questions that the program's buffer holds at once
AT_ONCE = 500
USAGE = "usage: ./prefix PREFIX/LENGTH ADDRESS.."
# a stand-in for rt: it ends with the status there, and makes the program that is named there
STAND_IN = """#!/bin/sh
[ "$*" = run ] && [ -f src/main.rt ] && [ -f ../../crates.txt ] || exit 9
echo what rt writes
[ "$STATUS" -eq 0 ] || exit "$STATUS"
mkdir -p out && cp "$MAKES" out/prefixes
"""


def bits(number, first, last):
    """The bits first to last, counted from the front, of a number of 128 bits."""
    return number >> (127 - last) & (1 << (last - first + 1)) - 1


def refusal(length, looked_at):
    """The number that refuses an address, or 0."""
    if length not in LENGTHS:
        return 9
    return 10 if bits(looked_at, 64, 71) else 0


def into_ipv6(prefix, length, ipv4):
    """The number of the answer, and the address: 32 bits behind the prefix, and those from bit 64 on moved by eight."""
    number = refusal(length, prefix if length == 96 else 0)
    if number:
        return number, 0
    address = prefix >> (128 - length) << (128 - length)
    for place in range(32):
        bit = ipv4 >> (31 - place) & 1
        at = length + place
        address |= bit << (127 - (at + 8 if length <= 64 <= at else at))
    return 0, address


def back_to_ipv4(address, length):
    number = refusal(length, address)
    if number:
        return number, 0
    if length == 96:
        return 0, bits(address, 96, 127)
    # the octet of bits 64 to 71 cut out
    closed = bits(address, 0, 63) << 64 | bits(address, 72, 127) << 8
    return 0, bits(closed, length, length + 31)


def ipv6_of(text):
    """The address of a text, or none. Zones, which a later Python reads, are none of the program's."""
    try:
        return None if "%" in text else int(ipaddress.IPv6Address(text))
    except ValueError:
        return None


def reading(line):
    """What the program has to answer a line."""
    text, slash, rest = line.partition("/")
    length, space, second = rest.partition(" ")
    address = ipv6_of(text)
    ipv4 = ipv6_of(second) if space else 0
    if not slash or address is None or ipv4 is None or not length.isdecimal() or len(length) > 10 or int(length) > 0xFFFFFFFF:
        return "unreadable"
    if space:
        number, made = into_ipv6(address, int(length), ipv4 & 0xFFFFFFFF)
        return f"{number} {made:032x}"
    number, made = back_to_ipv4(address, int(length))
    return f"{number} {made:08x}"


def asked(program, lines):
    """What the program writes for each line."""
    found = []
    for at in range(0, len(lines), AT_ONCE):
        given = "".join(f"{line}\n" for line in lines[at : at + AT_ONCE])
        found += subprocess.run([program], input=given, capture_output=True, text=True).stdout.splitlines()
    return found


def drawn(random):
    """A question: mostly a good length, and an octet 8 that is often zero."""
    length = random.choice(LENGTHS if random.random() < 0.85 else [random.randrange(140), random.getrandbits(32), random.choice(LENGTHS) + 256])
    address = random.getrandbits(128)
    if random.random() < 0.7:
        address &= ~(0xFF << 56)
    if random.random() < 0.2:
        address &= random.getrandbits(128) & random.getrandbits(128)
    text = ipaddress.IPv6Address(address)
    if random.random() < 0.5:
        return f"{text}/{length}"
    return f"{text}/{length} ::{ipaddress.IPv4Address(random.getrandbits(32))}"


def program_checks(program, seed, count):
    given = [line for line in (STORED / "stdin").read_text().splitlines() if line and not line.startswith("#")]
    stored = (STORED / "stdout").read_text().splitlines()
    yield "as many stored answers as questions", len(given) == len(stored) > 150
    for line, answer in zip(given, stored):
        yield f"the stored answer to {line}", reading(line) == answer
    for prefix, ipv4, ipv6 in PUBLISHED:
        yield f"{ipv4} behind {prefix} is published", asked(program, [f"{prefix} ::{ipv4}"]) == [f"0 {int(ipaddress.IPv6Address(ipv6)):032x}"]
        length = prefix.split("/")[1]
        yield f"{ipv6} is published with {prefix}", asked(program, [f"{ipv6}/{length}"]) == [f"0 {int(ipaddress.IPv4Address(ipv4)):08x}"]
        yield f"and the stored questions have {prefix}", {f"{prefix} ::{ipv4}", f"{ipv6}/{length}"} <= {*given}
    generator = random.Random(seed)
    lines = [drawn(generator) for _ in range(count)]
    answers = asked(program, lines)
    wrong = [line for line, answer in zip(lines, answers) if reading(line) != answer]
    yield f"{count} random questions from {seed} on, first wrong: {wrong[:1]}", not wrong and len(answers) == count
    seen = {(answer.split(" ")[0], " " in line) for line, answer in zip(lines, answers)}
    yield "each answer was among them, both ways", seen == {(number, into) for number in ("0", "9", "10") for into in (False, True)}


def run(*words, command=COMMAND, **settings):
    done = subprocess.run([command, *words], capture_output=True, text=True, **settings)
    return done.returncode, done.stdout, done.stderr


def command_checks():
    # where a source is newer than the program, the first call builds it and says so
    run("64:ff9b::/96", "192.0.2.33")
    for prefix, ipv4, ipv6 in PUBLISHED:
        shown = socket.inet_ntop(socket.AF_INET6, socket.inet_pton(socket.AF_INET6, ipv6))
        yield f"./prefix {prefix} {ipv4}", run(prefix, ipv4) == (0, f"{shown}\n", "")
        yield f"./prefix {prefix} {ipv6}", run(prefix, ipv6) == (0, f"{ipv4}\n", "")
    two = run("2001:db8::/32", "192.0.2.33", "2001:db8:c000:221::", "0.0.0.0")
    yield "several addresses, in their order", two == (0, "2001:db8:c000:221::\n192.0.2.33\n2001:db8::\n", "")
    many = [f"10.{number // 256}.{number % 256}.1" for number in range(3000)]
    status, written, said = run("64:ff9b::/96", *many)
    yield "more addresses than the program reads at once", (status, said) == (0, "") and run("64:ff9b::/96", *written.split())[1].split() == many
    yield "a suffix is not looked at", run("2001:db8::/32", "2001:db8:c000:221::1:2") == (0, "192.0.2.33\n", "")
    yield "nor a prefix past its length", run("2001:db8:ffff::/32", "192.0.2.33") == (0, "2001:db8:c000:221::\n", "")
    refusals = [
        (("2001:db8::/33", "192.0.2.33"), "number 9: a prefix of 33 bits, where 32, 40, 48, 56, 64 and 96 are possible"),
        (("2001:db8::/128", "2001:db8::1"), "number 9: a prefix of 128 bits, where 32, 40, 48, 56, 64 and 96 are possible"),
        (("2001:db8::/4294967295", "192.0.2.33"), "number 9: a prefix of 4294967295 bits, where 32, 40, 48, 56, 64 and 96 are possible"),
        (("2001:db8:0:0:100::/96", "192.0.2.33"), "number 10: 2001:db8:0:0:100:: has a bit set among bits 64 to 71"),
        (("2001:db8::/32", "2001:db8:0:0:8000::"), "number 10: 2001:db8:0:0:8000:: has a bit set among bits 64 to 71"),
        (("2001:db8::/32", "2001:db9::"), "2001:db9:: is not behind the prefix 2001:db8::/32"),
        (("2001:db8::/32", "192.0.2.33", "2001:db9::"), "2001:db9:: is not behind the prefix 2001:db8::/32"),
    ]
    for words, said in refusals:
        yield f"./prefix {' '.join(words)} is refused", run(*words) == (1, "", f"./prefix: {said}\n")
    misuses = [
        (("2001:db8::", "192.0.2.33"), "no length behind the prefix 2001:db8::, which is PREFIX/LENGTH"),
        (("2001:db8/32", "192.0.2.33"), "bad prefix '2001:db8', which is no IPv6 address"),
        (("192.0.2.0/24", "192.0.2.33"), "bad prefix '192.0.2.0', which is no IPv6 address"),
        (("/96", "192.0.2.33"), "bad prefix '', which is no IPv6 address"),
        (("2001:db8::/", "192.0.2.33"), "bad length '', which is not 32, 40, 48, 56, 64 or 96"),
        (("2001:db8::/x", "192.0.2.33"), "bad length 'x', which is not 32, 40, 48, 56, 64 or 96"),
        (("2001:db8::/ 32", "192.0.2.33"), "bad length ' 32', which is not 32, 40, 48, 56, 64 or 96"),
        (("2001:db8::/32/32", "192.0.2.33"), "bad length '32/32', which is not 32, 40, 48, 56, 64 or 96"),
        (("2001:db8::/4294967296", "192.0.2.33"), "bad length '4294967296', which is not 32, 40, 48, 56, 64 or 96"),
        (("2001:db8::/32", "192.0.2"), "bad address '192.0.2', which is neither IPv4 nor IPv6"),
        (("2001:db8::/32", "192.0.2.033"), "bad address '192.0.2.033', which is neither IPv4 nor IPv6"),
        (("2001:db8::/32", "fe80::1%eth0"), "bad address 'fe80::1%eth0', which is neither IPv4 nor IPv6"),
        (("2001:db8::/32", ""), "bad address '', which is neither IPv4 nor IPv6"),
        (("2001:db8::/32", "192.0.2.33\n"), "bad address '192.0.2.33\\n', which is neither IPv4 nor IPv6"),
        (("2001:db8::/32", "192.0.2.33", "x"), "bad address 'x', which is neither IPv4 nor IPv6"),
    ]
    for words, said in misuses:
        yield f"./prefix {' '.join(words)!r} is misused", run(*words) == (2, "", f"./prefix: {said}\n")
    for words in ((), ("2001:db8::/32",)):
        yield f"./prefix {' '.join(words)!r} has too few words", run(*words) == (2, "", f"{USAGE}\n")
    for words in (("2001:db8::/32", "192.0.2.33"), ("--help",)):
        with open("/dev/full", "w") as full:
            done = subprocess.run([COMMAND, *words], stdout=full, stderr=subprocess.PIPE, text=True)
        yield f"./prefix {' '.join(words)!r} can't write", (done.returncode, done.stderr) == (2, "./prefix: can't write: No space left on device\n")
    for word in ("--what", "-x", "--"):
        yield f"./prefix {word} is unknown", run("2001:db8::/32", "192.0.2.33", word) == (2, "", f"./prefix: unknown option {word}\n{USAGE}\n")


def build_checks(program, folder):
    """A copy of the command in a folder with nothing built, and a stand-in for rt."""
    tree, tools = folder / "tree", folder / "tools"
    (tree / "crates/prefixes/src").mkdir(parents=True)
    (tree / "tools").mkdir()
    tools.mkdir()
    for name in ("prefix", "tools/build"):
        shutil.copy(ROOT / name, tree / name)
    (tree / "crates/prefixes/src/main.rt").write_text("// A program.\n")
    (tree / "crates.txt").write_text("rules:\nprefixes: rules\n")
    (tools / "rt").write_text(STAND_IN)
    (tools / "rt").chmod(0o755)
    made = {"PATH": f"{tools}:{os.environ['PATH']}", "MAKES": str(pathlib.Path(program).resolve())}
    good = {"command": tree / "prefix", "env": {**os.environ, **made, "STATUS": "0"}}
    bad = {"command": tree / "prefix", "env": {**os.environ, **made, "STATUS": "1"}}
    first = "proving and building prefixes, 2 crates, some minutes the first time\n"
    end = "what rt writes\nprefixes is not built; target/prefixes.log has all that rt wrote\n./prefix: the program is not built\n"
    words, written = ("2001:db8::/32", "192.0.2.33"), "2001:db8:c000:221::\n"
    yield "a program that is not built", run(*words, **bad) == (1, "", f"{first}{end}")
    yield "a word that is wrong builds nothing", run("x", "y", **bad)[0] == 2
    yield "a program that is built first", run(*words, **good) == (0, written, first)
    yield "and once only", run(*words, **bad) == (0, written, "")
    os.utime(tree / "crates/prefixes/out/prefixes", (0, 0))
    yield "a source that is newer", run(*words, **bad)[:2] == (1, "")
    # a path with what the commands need and no rt
    (tree / "python3").symlink_to(sys.executable)
    for tool in ("sh", "dirname", "sed", "find", "awk", "wc", "mkdir"):
        (tree / tool).symlink_to(shutil.which(tool))
    alone = {"command": tree / "prefix", "env": {"PATH": str(tree)}}
    none = "there is no command rt, which comes with the Rattle kit\n./prefix: the program is not built\n"
    yield "where there is no rt", run(*words, **alone) == (1, "", none)


def main():
    program, seed, count = arguments(__doc__, 3, 3)
    with tempfile.TemporaryDirectory() as folder:
        checks = [*program_checks(program, int(seed), int(count)), *command_checks(), *build_checks(program, pathlib.Path(folder))]
    return counted(checks)


if __name__ == "__main__":
    sys.exit(main())
