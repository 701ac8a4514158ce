"""The readings of crates/rules, computed on many sessions, give what the reference gateway writes.

Sessions are made by seed, replayed by the reference, and written down as cases of a crate of their own, in a folder outside the repository; the
checker then computes the readings on each and compares: what goes to each side by the history, and what is spoken to the server by the client's
text alone. The latter is what the reference writes to the server of the same session without Telnet commands: they are put into it afterwards.
usage: definitions.py REPLAY [SEED [COUNT]]
"""
import pathlib
import random
import shutil
import subprocess
import sys
import tempfile

from usage import arguments

ROOT = pathlib.Path(__file__).resolve().parent.parent
CLIENT = bytes.fromhex("20010db8000200000000000000000031")
MAPPED = bytes([192, 0, 2, 31])
SERVER = bytes([198, 51, 100, 7])  # as in `all_on`
FLAGS = [0, 1, 2, 3, 6, 7, 7, 7, 8, 9, 9, 11, 15, 15, 15, 15]
BATCH = 8
ENDINGS = [b"\r\n"] * 6 + [b"\n", b"\n", b"\r\r\n", b" \r\n", b"\t\r\n"]
COMMANDS = [
    b"EPSV", b"EPSV ", b"EPSV 2", b"EPSV 02", b"EPSV   2  ", b"EPSV 1", b"EPSV 0", b"EPSV ALL", b"EPSV  all ", b"EPSV ALL x", b"EPSV 2 2",
    b"EPSV x", b"EPSV\t2", b" EPSV", b"EPSVX", b"EPSV 4294967298", b"EPSV 00000000000000000000002", b"EPSV 2a", b"",
    b"EPRT |2|2001:db8:2::31|5282|", b"EPRT  |2|2001:DB8:2:0:0::31|65535|  ", b"EPRT |1|192.0.2.31|5282|", b"EPRT |2|2001:db8:2::31|0|",
    b"EPRT |2|2001:db8:2::31|65536|", b"EPRT |2|2001:db8:2::31|00021|", b"EPRT |2|2001:db8:2::31|000021|", b"EPRT |02|2001:db8:2::31|21|",
    b"EPRT |2|2001:db8:2::31|21|x", b"EPRT |2|2001:db8:2::32|21|", b"EPRT", b"EPRT x2x2001:db8:2::31x255x", b"EPRT |2|2001:db8:2::0.0.0.49|21|",
    b"EPRT |2|2001:db8:2:0:0:0:0:31|21|", b"EPRT |2|2001:db8:2:0:0:0:0::31|21|", b"EPRT \x7f2\x7f2001:db8:2::31\x7f21\x7f",
    b"ALGS STATUS64", b"ALGS ENABLE64", b"ALGS DISABLE64", b"ALGS", b"ALGS STATUS64 x", b"ALGSX STATUS64",
    b"AUTH TLS", b"AUTH", b"AUTHX", b"NOOP", b"PASV", b"USER x", b"\xff\xffEPSV", b"CWD \xff\xff", b"QUIT",
]
REPLIES = [
    b"220 hi", b"200 ok", b"227 x (192,0,2,31,237,19)", b"227 x (192,0,2,31,0,0)", b"227 =1,2,3,4,5,6", b"227 (1,2,3,4,5,6789)", b"227", b"227 ",
    b"227 x (198,51,100,7,237,19)", b"227 198,051,100,007,1,2", b"227 198,51,100,8,1,2", b"227 x (198,51,100,7,0,0)",
    b"227 1,2,3,4,5,6,7", b"227 a 4 (1,2,3,4,5,6)", b"227-x (1,2,3,4,5,6)", b"227 (0255,1,1,1,1,1)", b"227 (1,2,3,4,256,1)",
    b"227 001,02,3,4,019,000", b"229 x (|||5|)", b"150 wait", b"120", b"500 no", b"600 x", b"099 y", b"220x", b"220-multi", b" 220 x", b"", b"hello",
    b"234 go", b"22", b"2200 x", b"620 x", b"099-y", b"100-x", b"214-x", b"214 end", b"227\t1,2,3,4,5,6", b"220 \xff\xff",
]
# codes that open a reply of several lines, and what may stand inside one beside its own code
OPENING = [b"214", b"214", b"211", b"220", b"150", b"227"]
INSIDE = [b"220 bar is the rated pressure", b"220-x", b"214-x", b"227 (1,2,3,4,5,6)", b"200", b"600 x", b" 214 x", b"hello", b""]
# what may stand before the 227 that answers EPSV
BEFORE_PASSIVE = [b"", b"hello\r\n", b"\r\n", b"620-x\n", b"214-x\r\n227 (1,2,3,4,5,6)\r\n214 y\r\n", b"150-x\r\n220 y\r\n150 z\r\n", b"227-x\r\n"]
# options, octets that make a command of two, what stands inside subnegotiations, and commands of which an end may find so much
OPTIONS = [1, 3, 24, 10, 13, 65, 240, 250, 255]
COMMAND_OCTETS = [0, 10, 13, 65, 240, 241, 242, 244, 249]
NEGOTIATED = [b"", b"\x18\x00VT100", b"\n", b"\xff\xff\xf0", b"\xff\xfb\x01", b"\xff\xfa", b"\xff\n"]
UNFINISHED = [b"\xff", b"\xff\xfb", b"\xff\xfc", b"\xff\xfd", b"\xff\xfe", b"\xff\xfa\x01", b"\xff\xfa\xff"]
END = {0: "end client", 1: "end server"}
SAYS = {0: "client_says", 1: "server_says"}


def in_any_case(r, text):
    return bytes(x ^ 32 if chr(x).isalpha() and x < 128 and r.random() < 0.5 else x for x in text)


def line(r, side):
    if r.random() < 0.03:  # around the judged length
        head = r.choice([b"EPSV", b"AUTH ", b"auth x", b"NOOP", b"AUTHX"] if side == 0 else [b"227 1,2,3,4,5,6", b"220-x", b"220 y", b"hello", b"230 y"])
        return head + b" " * (r.randint(509, 514) - len(head)) + r.choice([b"\n", b"\r\n", b"x\r\n"])
    text = r.choice(COMMANDS if side == 0 else REPLIES)
    return (text if side or text.startswith(b"EPRT x") else in_any_case(r, text)) + r.choice(ENDINGS)


def several_lines(r):
    """A reply: its code and a hyphen, lines inside, the same code and a space, which may be missing. One of its lines may flow."""
    code = r.choice(OPENING)
    texts = [code + b"-x"] + [r.choice([code, code + b"-again", r.choice(INSIDE), r.choice(INSIDE)]) for _ in range(r.randint(0, 3))]
    if r.random() < 0.85:
        texts.append(code + r.choice([b" ", b" end", b" (1,2,3,4,5,6)"]))
    lines = [text + r.choice(ENDINGS) for text in texts]
    if r.random() < 0.12:
        flowing = r.randrange(len(lines))
        lines[flowing] = texts[flowing].ljust(r.randint(511, 516)) + r.choice([b"\n", b"\r\n"])
    return lines


def passive(r):
    """EPSV, at times behind another command, and a 227 behind lines that may spoil it."""
    commands = r.choice([b"EPSV\r\n", b"NOOP\r\nEPSV\r\n"])
    address = r.choice([b"198,51,100,7", b"198,051,100,007", b"198,51,100,70", b"192,0,2,31", b"10,0,0,5"])
    return [(0, commands), (1, r.choice(BEFORE_PASSIVE) + b"227 x (" + address + b",237,19)\r\n")]


def divides_pair(text):
    """Whether a text ends in the middle of a doubled 255."""
    return (len(text) - len(text.rstrip(b"\xff"))) % 2 == 1


def session(r):
    """Entries of a session: a side with octets, or a side that ends."""
    entries = [(1, b"220 hi\r\n")] if r.random() < 0.75 else []
    if r.random() < 0.3:
        entries += passive(r)
    for _ in range(r.randint(2, 8)):
        side = r.randint(0, 1)
        if r.random() < 0.06:
            entries.append((side, None))
            continue
        if r.random() < 0.15:  # with a client line inside a reply
            before = line(r, 0) if r.random() < 0.5 else b""
            lines = several_lines(r)
            place = r.randint(0, len(lines))
            entries += [(0, before), (1, b"".join(lines[:place])), (0, line(r, 0)), (1, b"".join(lines[place:]))]
            continue
        octets = line(r, side)
        cut = r.randint(0, len(octets))
        entries.append((side, octets[:cut]))
        if r.random() < 0.3:
            entries.append((1 - side, line(r, 1 - side)))
        if r.random() < 0.9 or divides_pair(octets[:cut]):
            entries.append((side, octets[cut:]))
    return r.choice(FLAGS), entries


def telnet(r):
    """A Telnet command, most often an offer."""
    kind = r.random()
    if kind < 0.5:
        return bytes([255, r.choice([251, 253, 251, 253, 252, 254]), r.choice(OPTIONS)])
    if kind < 0.75:
        return bytes([255, r.choice(COMMAND_OCTETS)])
    return b"\xff\xfa" + r.choice(NEGOTIATED) + b"\xff\xf0"


def with_telnet(r, entries):
    """The session with Telnet commands put between its octets, not inside a doubled 255; of the client's, only before AUTH, since what comes after
    it is spoken whatever it is. Some ends find a command unfinished."""
    said, out, ended = {0: b"", 1: b""}, [], set()
    for side, octets in entries:
        if octets is None:
            tail = r.random() < 0.8 and side not in ended and not divides_pair(said[side])
            if tail and (side == 1 or b"auth" not in said[0].lower()):
                out.append((side, r.choice(UNFINISHED)))
            ended.add(side)
            out.append((side, None))
            continue
        mixed = b""
        for i in range(len(octets) + 1):
            free = not divides_pair(said[side]) and (side == 1 or b"auth" not in said[0].lower())
            if free and r.random() < (0.25 if i == 0 else 0.02):
                mixed += telnet(r)
            mixed += octets[i : i + 1]
            said[side] += octets[i : i + 1]
        out.append((side, mixed))
    return out


def session_file(flags, entries):
    bodies = [(4, CLIENT + MAPPED + bytes([flags]) + SERVER)]
    bodies += [(side + 2, b"") if octets is None else (side, octets) for side, octets in entries]
    table = b"".join(bytes([kind, 0]) + len(body).to_bytes(2, "big") for kind, body in bodies)
    return len(bodies).to_bytes(2, "big") + table + b"".join(body for _, body in bodies)


def unescaped(field):
    out, i = bytearray(), 0
    while field != b"-" and i < len(field):
        if field[i : i + 1] == b"\\":
            out.append(int(field[i + 1 : i + 3], 16))
            i += 3
        else:
            out.append(field[i])
            i += 1
    return bytes(out)


def replayed(replay, flags, entries):
    """What the reference writes to each side, or None where the session stops on the way."""
    report = subprocess.run([replay], input=session_file(flags, entries), capture_output=True, check=True).stdout
    header, *lines = report.splitlines() or [b""]
    if header != b"FTP64 REPORT %d" % (len(entries) + 1):
        sys.exit(f"the reference refuses a session file that is one: {header}")
    if lines[-1] == b"STOPPED":
        return None
    fields = [entry.split(b" ") for entry in lines]
    return b"".join(unescaped(f[3]) for f in fields), b"".join(unescaped(f[4]) for f in fields)


def literal(octets):
    """A list of octets in antt: quoted where it can be, number by number elsewhere."""
    pieces, quoted = [], ""
    for x in octets:
        if x in (10, 13) or 32 <= x < 127 and x not in (34, 92):
            quoted += {10: "\\n", 13: "\\r"}.get(x, chr(x))
        else:
            pieces += [f'oct "{quoted}"'] * bool(quoted) + [f"({x} ∷ [])"]
            quoted = ""
    pieces += [f'oct "{quoted}"'] * bool(quoted)
    return " ++ (".join(pieces or ["[]"]) + ")" * (len(pieces) - 1 if pieces else 0)


def history(entries):
    pieces = [f"({END[side]} ∷ [])" if octets is None else f"{SAYS[side]} ({literal(octets)})" for side, octets in entries]
    return " ++ (".join(pieces or ["[]"]) + ")" * (len(pieces) - 1 if pieces else 0)


PAGES = ["Octets", "Answers", "Setup", "Lines", "Telnet", "Address", "Commands", "Replies", "Edition", "History"]
HEAD = """use mathlib.Core.Path.{◌≡◌, refl}
use mathlib.Core.List.{List, [], ◌∷◌, ◌++◌, map}
use Prim.Native.Nat.{ℕ}
use Rattle.rules.specs.Octets.{oct}
use Rattle.rules.specs.Answers.{client, server}
use Rattle.rules.specs.declared.Setup.{Setup}
use Rattle.rules.specs.History.{Item, end, text_of, has_ended}
use Rattle.rules.specs.ToServer.{to_server, to-server-opened}
use Rattle.rules.specs.ToClient.{to-client-opened}
use Rattle.rules.specs.Items.{all_to_server, each_item, to_client, items-opened}
use Rattle.rules.specs.Exchanges.{client_says, server_says, all_on, exchanges-opened}
""" + "".join(f"use Rattle.rules.specs.{page}.{{{page.lower()}-opened}}\n" for page in PAGES) + """
pub record Case : Type 0 where
  pub flags : ℕ
  pub history : List Item

abbrev pub case : ℕ → List Item → Case
case f h = record { flags = f; history = h }

pub record Sent : Type 0 where
  pub speech : List ℕ
  pub up : List ℕ
  pub down : List ℕ

abbrev pub sent : List ℕ → List ℕ → List ℕ → Sent
sent said s c = record { speech = said; up = s; down = c }

unfoldable pub read : Case → Sent
read c =
    let su : Setup = record { client = all_on.client; mapped = all_on.mapped; flags = c.flags; server = all_on.server } in
    let spoken = to_server su (text_of client c.history) (has_ended client c.history) in
    sent spoken (all_to_server (each_item su c.history)) (to_client su c.history)
"""
OPENED = " ".join(f"{page.lower()}-opened" for page in PAGES) + " to-server-opened to-client-opened items-opened exchanges-opened read"


def crate(folder, cases):
    for part in ("src", "specs", "proofs"):
        (folder / part).mkdir(parents=True)
    (folder / "src" / "lib.rt").write_text("// Cases only.\n")
    (folder / "specs" / "Lib.antt").write_text("-- no definitions\n")
    (folder / "proofs" / "Lib.antt").write_text("pub mod Cases\n")
    text = HEAD
    for n, start in enumerate(range(0, len(cases), BATCH)):
        batch = cases[start : start + BATCH]
        given = "\n    ∷ ".join(f"case {flags} ({history(entries)})" for flags, entries, _ in batch)
        wanted = "\n    ∷ ".join("sent " + " ".join(f"({literal(text)})" for text in sent) for _, _, sent in batch)
        text += f"\nunfoldable pub given{n} : List Case\ngiven{n} =\n    {given}\n    ∷ []\n"
        text += f"\nunfoldable pub wanted{n} : List Sent\nwanted{n} =\n    {wanted}\n    ∷ []\n"
        text += f"\npub agree{n} : map read given{n} ≡ wanted{n}\nunfolding {OPENED} given{n} wanted{n}\nagree{n} = refl\n"
    (folder / "proofs" / "Cases.antt").write_text(text)


def computed(cases):
    """What the checker says to a crate of these cases."""
    with tempfile.TemporaryDirectory() as place:
        top = pathlib.Path(place)
        shutil.copytree(ROOT / "crates" / "rules", top / "crates" / "rules")
        crate(top / "crates" / "cases", cases)
        (top / "crates.txt").write_text("rules:\ncases: rules\n")
        return subprocess.run(["rt", "check"], cwd=top / "crates" / "cases", capture_output=True, text=True)


def main():
    words = arguments(__doc__, 1, 3)
    replay = pathlib.Path(words[0]).resolve()
    seed = int(words[1]) if len(words) > 1 else 1
    count = max(1, int(words[2])) if len(words) > 2 else 200
    r = random.Random(seed)
    cases = []
    while len(cases) < count:
        flags, plain = session(r)
        entries = with_telnet(r, plain) if r.random() < 0.6 else plain
        sent = replayed(replay, flags, entries)
        spoken = sent and replayed(replay, flags, plain)
        if sent is not None:
            cases.append((flags, entries, (spoken[0], *sent)))
    result = computed(cases)
    if result.returncode:
        print("\n".join(x[:600] for x in result.stdout.splitlines() if "error" in x or "FAILED" in x))
        print(f"the definitions and the reference differ: seed {seed}, {count} sessions; agreeN is sessions 8N to 8N+7")
        return 1
    flags, entries, sent = cases[0]
    spoiled = computed([(flags, entries, (*sent[:2], sent[2] + b"x"))])
    if not spoiled.returncode or "error: `agree0`" not in spoiled.stdout:
        print("an octet too many was not noticed: this test shows nothing")
        return 1
    print(f"{count} sessions of seed {seed}: the definitions give what the reference writes, and an octet too many is noticed")
    return 0


if __name__ == "__main__":
    sys.exit(main())
