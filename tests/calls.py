"""Our session and the reference gateway, call by call: the same lists of calls give the same answers, octets and offsets.

usage: calls.py OURS REFERENCE [SEED [SCRIPTS]], or calls.py --stored, which writes the hand-made lists, with which crates/calls/stdin ends. Both
programs read scripts (see crates/calls/src/main.rt) and write what each call did. Beside the hand-made lists, lists are made by seed: valid and
odd lines, replies of several lines, Telnet commands, foreign addresses, cut anywhere, small rooms, wrong directions, calls after ends.
"""
import random
import struct
import subprocess
import sys

from definitions import CLIENT, MAPPED, line, passive, several_lines, telnet
from usage import arguments

LIMIT = 60000  # octets of scripts handed to the programs at once
SERVER = bytes([198, 51, 100, 7])
NOOP, EPSV, ALGS, AUTH = b"NOOP\r\n", b"EPSV\r\n", b"ALGS STATUS64\r\n", b"AUTH TLS\r\n"


def arrival(side, octets, server=4096, client=4096):
    return struct.pack(">BBHHH", 0, side, server, client, len(octets)) + octets


def end(side, server=4096, client=4096):
    return struct.pack(">BBHHH", 1, side, server, client, 0)


def script(flags, *calls, server=SERVER):
    return CLIENT + MAPPED + bytes([flags]) + server + b"".join(calls)


def stops():
    """Calls that stop in the middle for want of room, and go on with the rest."""
    greeting = arrival(1, b"220 hi\r\n")
    long = b"x" * 600 + b"\r\n"
    held = b"x" * 511
    for room in (0, 1, 510, 511, 512, 601, 602):
        # the 512th octet needs 512 at once; the ones before it need nothing, the ones behind it one each
        taken = 511 if room < 512 else room
        yield script(7, greeting, arrival(0, long, room, 4096), arrival(0, long[taken:]))
        yield script(7, greeting, arrival(1, long, 4096, room), arrival(1, long[taken:]))
        yield script(7, greeting, arrival(0, b"EPS", room, room), end(0, room, room), end(0), end(0))
        for side in (0, 1):
            yield script(7, greeting, arrival(side, held), end(side, room, room), end(side), arrival(side, b"x"))
    # a line's LF lets own answers go behind it: fifteen of 14 octets, then sixteen of 48 behind 512 octets, the most where no octet is 255
    for room in (0, 511, 512, 721, 722):
        yield script(7, arrival(0, ALGS * 15), arrival(1, b"220 " + b"y" * 507 + b"\n", 4096, room), arrival(1, b"200 z\r\n"))
    for room in (0, 512, 1279, 1280, 1281):
        yield script(1, greeting, arrival(1, b"200-\r\n200 " + b" " * 507), arrival(0, b"ALGS\r\n" * 16), arrival(1, b"\n", 0, room), arrival(1, b"\n"))
    # a client octet that waits for the client's buffer: an own answer, and a reply's octets that AUTH lets go
    for room in (0, 13, 14):
        yield script(7, greeting, arrival(0, ALGS + NOOP, 4096, room), arrival(0, ALGS[-1:] + NOOP))
    for room in (0, 3, 4):
        yield script(7, greeting, arrival(1, b"held"), arrival(0, AUTH + EPSV, 4096, room), arrival(0, AUTH[-1:] + EPSV))


def own_codes():
    """Replies that end by their own code: own answers wait for that line alone, and it is judged by its first four octets where it flows."""
    greeting = arrival(1, b"220 hi\r\n")
    port = b"227 x (192,0,2,31,237,19)\r\n"
    reply = b"214-a\r\n214\r\n220 b\r\n214 c\r\n"
    for cut in range(len(reply) + 1):
        yield script(7, greeting, arrival(1, reply[:cut]), arrival(0, ALGS), arrival(1, reply[cut:]))
    for code in (b"214", b"150"):
        opener, ender = code + b"-" + b"x" * 600 + b"\r\n", code + b" " + b"y" * 600 + b"\r\n"
        yield script(7, greeting, arrival(0, NOOP + EPSV + ALGS), arrival(1, opener), arrival(1, port + b"220 z\r\n"), arrival(1, ender), arrival(1, port * 2))
    for before in (b"hello\r\n", b"\r\n", b"620-x\r\n", b"150-x\r\n150 y\r\n", b"227-x\r\n", b"214-x\r\n"):
        yield script(7, greeting, arrival(0, EPSV), arrival(1, before), arrival(0, ALGS), arrival(1, port), arrival(1, b"214 z\r\n"))
    for opener in (b"214-x", b"214-x\r\n"):
        yield script(7, greeting, arrival(1, opener), arrival(0, ALGS), end(1), end(0))
        yield script(7, greeting, arrival(1, opener), arrival(0, AUTH), arrival(1, b"214"), arrival(1, b" y\r\n2"))


def telnet_commands():
    """Telnet commands cut everywhere on both sides, their answers without room, 255s of data, and what an end or AUTH finds of a command."""
    greeting = arrival(1, b"220 hi\r\n")
    answered = b"\xff\xfb\x01\xff\xfd\x01\xff\xfc\x01\xff\xfe\x01"
    for octets in (answered, b"a\xff\xffb\xff\xf4\r\n", b"N\xff\xfa\x18\x01\n\xff\xff\xff\xf0\xffOP\xff\xf0\r\n"):
        for cut in range(len(octets) + 1):
            for side in (0, 1):
                yield script(7, greeting, arrival(side, octets[:cut]), arrival(side, octets[cut:]), end(side))
    # an answer goes to its sender, a command on to the other side: three octets, two octets
    for room in (0, 1, 2, 3):
        for side in (0, 1):
            there = (room, 0) if side == 0 else (0, room)
            rest = b"\xf1\xff\xfb\x03"[0 if room < 2 else 3 :]
            yield script(7, greeting, arrival(side, b"\xff\xf1\xff\xfb\x03", *there), arrival(side, rest, *there[::-1]), arrival(side, rest))
    # held octets may all leave doubled, 511 of them, before a 512th, an LF, or at an end a 255 that is unfinished
    for last, need in ((b"\xff\xff", 1024), (b"\n", 1023)):
        for room in (need - 1, need):
            yield script(7, greeting, arrival(0, b"\xff\xff" * 511), arrival(0, last, room, 0), arrival(0, last[-1:] + b"\xff\xff\n"))
    for room in (1022, 1023):
        yield script(7, greeting, arrival(1, b"\xff\xff" * 511 + b"\xff"), end(1, 0, room), end(1))
    # the server's, behind the code that ends an open reply, and sixteen own answers of 48 behind their LF: 4 + 2 * 507 + 1 + 16 * 48 octets
    for room in (1786, 1787):
        reply = arrival(1, b"200-\r\n200 " + b"\xff\xff" * 507)
        yield script(1, greeting, reply, arrival(0, b"ALGS\r\n" * 16), arrival(1, b"\n", 0, room), arrival(1, b"\n"))
    # what is unfinished at an end or for AUTH: 255, 255 251, a subnegotiation, and 255 inside one
    for begun in (b"\xff", b"\xff\xfb", b"\xff\xfe", b"\xff\xfa", b"\xff\xfa\x18\xff"):
        for held in (b"", b"23"):
            yield script(7, greeting, arrival(1, held + begun), end(1, 0, 1), end(1), arrival(1, b"\xf0"))
            yield script(7, greeting, arrival(1, held + begun), arrival(0, AUTH), arrival(1, b"\xf0\xff\xfb\x01"), arrival(0, b"\xff\xfd\x01\n"))
            yield script(7, greeting, arrival(0, NOOP + AUTH + held + begun), arrival(1, b"200 a\r\n"), end(0))


def foreign():
    """The strict form: 227s of the server's address and of others, compared by value; those that are not read; and the room of a 425."""
    greeting = arrival(1, b"220 hi\r\n")
    own, other = b"227 x (198,51,100,7,237,19)\r\n", b"227 x (10,0,0,5,237,19)\r\n"
    for flags in (1, 9):
        for numbers in (b"198,051,100,007,1,2", b"198,51,100,70,1,2", b"7,100,51,198,1,2", b"192,0,2,31,1,2", b"10,0,0,5,0,0", b"10,0,0,5,1"):
            yield script(flags, greeting, arrival(0, EPSV + NOOP), arrival(1, b"227 (" + numbers + b")\n"), arrival(1, other))
        yield script(flags, greeting, arrival(0, EPSV * 3 + ALGS), arrival(1, other + own), arrival(1, other))
        yield script(flags, greeting, arrival(0, b"PASV\r\n" + EPSV * 2), arrival(1, other), arrival(1, b"227-x\r\n" + other), arrival(1, other))
        yield script(flags, greeting, arrival(0, EPSV), arrival(1, b"227 1,2,3,4,5,6" + b"x" * 498 + b"\n"), arrival(1, other))
        yield script(flags, greeting, arrival(0, EPSV + AUTH), arrival(1, other + other))
        yield script(flags, greeting, arrival(0, EPSV), arrival(1, other[:-1]), end(1))
    for place in range(4):
        server = bytearray(SERVER)
        server[place] ^= 1
        yield script(9, greeting, arrival(0, EPSV), arrival(1, own), server=bytes(server))
    # switched on later, off and on again
    for on in (b"ENABLE64", b"DISABLE64\r\nALGS ENABLE64"):
        yield script(8, greeting, arrival(0, b"ALGS " + on + b"\r\n" + EPSV), arrival(1, other))
    # 33 octets, and 14 of an own answer behind them
    for room in (0, 32, 33, 46, 47, 48):
        yield script(15, greeting, arrival(0, EPSV + ALGS), arrival(1, other, 0, room), arrival(1, b"\n"))
        yield script(15, greeting, arrival(0, EPSV), arrival(1, other, 0, room), arrival(1, b"\n"))


def hand_made():
    """Stops in the middle, sixteen owed, AUTH behind owed replies and with held octets, ends in every order, replies of several lines, Telnet, and
    foreign addresses."""
    greeting = arrival(1, b"220 hi\r\n")
    yield script(7, greeting, arrival(0, EPSV), arrival(1, b"227 x (192,0,2,31,237,19)\r\n"))
    yield from stops()
    yield script(7, *[arrival(0, NOOP)] * 17, arrival(1, b"200 ok\r\n" * 18), arrival(0, NOOP * 3))
    yield script(7, arrival(0, NOOP * 17), arrival(0, b""), arrival(1, b"200 ok\r\n"), arrival(0, NOOP * 3))
    yield script(7, arrival(0, NOOP * 3 + AUTH + EPSV * 20), arrival(1, b"22"), arrival(1, b"0 a\r\n200 b\r\n200 c\r\n200 d\r\n2"), arrival(1, b"34 go\r\n\x16\x03"))
    yield script(7, arrival(0, NOOP * 14 + AUTH + EPSV * 9), arrival(0, EPSV), arrival(1, b"200 ok\r\n" * 17))
    yield script(7, greeting, arrival(1, b"234"), arrival(0, AUTH), arrival(1, b" held"), arrival(0, b"\x16\x03\n"))
    yield script(7, greeting, arrival(1, b"200-"), arrival(0, ALGS + AUTH), arrival(1, b"x\r\n200 y\r\nz"))
    yield script(7, arrival(1, b"2"), end(1), arrival(0, ALGS * 17), arrival(0, NOOP), end(0))
    for first, second in ((0, 1), (1, 0), (0, 0), (1, 1)):
        yield script(7, greeting, arrival(0, b"EP"), arrival(1, b"2"), end(first), end(second), arrival(0, b"SV\r\n"), arrival(1, b"00\r\n"), end(2))
    yield from own_codes()
    yield from telnet_commands()
    yield from foreign()


def every_flag():
    """Each of the 256 flag octets, most of which a setup refuses."""
    for flags in range(256):
        yield script(flags, arrival(1, b"220 hi\r\n"), arrival(0, EPSV + b"EPRT |2|2001:db8:2::31|21|\r\n" + ALGS))


def made(r):
    """A list of calls by chance."""
    calls = [arrival(side, octets) for side, octets in [(1, b"220 hi\r\n"), *passive(r)]] if r.random() < 0.2 else []
    for _ in range(r.randint(1, 14)):
        side = r.choice([0, 0, 0, 1, 1, 1, 1, r.randint(0, 255) if r.random() < 0.1 else 0])
        rooms = [r.choice([0, 1, 2, 3, 5, 6, 40, 48, 511, 512, 1024, 1280, 1786, 1787, 4096, 4096, 4096, 4096, 4096]) for _ in range(2)]
        if r.random() < 0.08:
            calls.append(end(side, *rooms))
            continue
        several = side == 1 and r.random() < 0.25
        octets = b"".join(several_lines(r) if several else (line(r, side % 2) for _ in range(r.choice([0, 1, 1, 1, 2, 3, 9]))))
        while r.random() < 0.3:
            place = r.randint(0, len(octets))
            octets = octets[:place] + telnet(r) + octets[place:]
        cut = r.randint(0, len(octets))
        for piece in [octets] if r.random() < 0.5 else [octets[:cut], octets[cut:]]:
            calls.append(arrival(side, piece, *rooms))
            if several and r.random() < 0.5:
                calls.append(arrival(0, line(r, 0), *rooms))
    server = r.choice([SERVER, MAPPED, bytes([1, 2, 3, 4])])
    return script(r.choice([7, 7, 7, 1, 3, 6, 0, 15, 15, 9, r.randint(0, 255)]), *calls, server=server)


def given(scripts):
    return b"".join(struct.pack(">I", len(s)) + s for s in scripts)


def results(program, scripts):
    written = subprocess.run([program], input=given(scripts), capture_output=True, check=True).stdout
    found = []
    while written:
        n = struct.unpack(">I", written[:4])[0]
        found.append(written[4 : 4 + n])
        written = written[4 + n :]
    return found


def batches(scripts):
    batch, size = [], 0
    for s in scripts:
        if size + len(s) + 4 > LIMIT:
            yield batch
            batch, size = [], 0
        batch.append(s)
        size += len(s) + 4
    yield batch


def main():
    words = arguments(__doc__, 1, 4, ["--stored"])
    if words == ["--stored"]:
        sys.stdout.buffer.write(given(hand_made()))
        return 0
    ours, reference = words[:2]
    seed = int(words[2]) if len(words) > 2 else 1
    count = max(1, int(words[3])) if len(words) > 3 else 5000
    r = random.Random(seed)
    scripts = [*hand_made(), *every_flag(), *(made(r) for _ in range(count))]
    seen = 0
    for batch in batches(scripts):
        one, other = results(ours, batch), results(reference, batch)
        if len(one) != len(batch) or len(other) != len(batch):
            print(f"{len(batch)} lists were given, {len(one)} and {len(other)} results came back")
            return 1
        for s, a, b in zip(batch, one, other):
            if a != b:
                print(f"seed {seed}: they differ on the list\n{s.hex()}\nours:\n{a.hex()}\nthe reference:\n{b.hex()}")
                return 1
        seen += len(batch)
    print(f"{seen} lists of calls of seed {seed}: the same answers, octets and offsets")
    return 0


if __name__ == "__main__":
    sys.exit(main())
