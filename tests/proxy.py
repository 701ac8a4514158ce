"""Runs relay/proxy.c between scripted peers on the loopback, and compares every octet that reaches them.

    python3 tests/proxy.py LIBRARY [SOURCE]

It is built twice with the sanitizers: as it is, and with the least sizes (arrivals of one octet, the smallest out
buffers), so that every wait happens. Each case runs with both. The last line counts the cases.
"""
import contextlib
import ftplib
import pathlib
import random
import resource
import select
import signal
import socket
import subprocess
import sys
import threading
import time

from usage import arguments

ROOT = pathlib.Path(__file__).resolve().parent.parent
SOURCE = ROOT / "relay" / "proxy.c"
SANITIZED = ["-std=c11", "-O1", "-g", "-fsanitize=address,undefined", "-fno-sanitize-recover=all"]
WARNED = ["-Wall", "-Wextra", "-Wconversion", "-Werror"]
# how a build is made; the deadline is short, so that the case that waits for it is
BUILDS = {
    "usual": ["-DLINGER_MS=200"],
    "least": ["-DLINGER_MS=200", "-DSESSIONS=8", "-DWAITING=1", "-DOUT=1791"],
}
PLACES = 8
# how long anything may take before it counts as lost, in seconds
PATIENCE = 10
# how long the proxy is watched when it has nothing to do, in seconds; how often, since under load it may still be at work;
# and what it may use of the processor meanwhile, in ticks of 10 ms: one that never waits uses fifty, or half of that on a
# busy machine, and one that waits uses one or none
QUIET = 0.5
LOOKS = 4
TICKS = 5
# of the peers' sockets: small, so that one that does not read is soon full
BUFFER = 32768
MAPPED = "127.0.0.2"
GREETING = b"220 hi\r\n"


class Fault(Exception):
    """What a peer heard is not what it should have heard."""


def shown(octets):
    return repr(octets) if len(octets) < 120 else f"{octets[:100]!r} .. ({len(octets)} octets)"


class Peer:
    """One end of a connection to the proxy: it says octets, and hears exactly those that it should."""

    def __init__(self, connection):
        self.connection = connection
        connection.settimeout(PATIENCE)
        connection.setsockopt(socket.IPPROTO_TCP, socket.TCP_NODELAY, 1)

    def says(self, octets):
        self.connection.sendall(octets)

    def says_cut(self, octets):
        for octet in octets:
            self.connection.sendall(bytes([octet]))

    def says_meanwhile(self, octets):
        """Says it in a thread of its own, since it may be more than anybody reads at once."""
        thread = threading.Thread(target=self.says, args=(octets,), daemon=True)
        thread.start()
        return thread

    def next_octets(self, most):
        try:
            return self.connection.recv(most)
        except TimeoutError:
            return None

    def hears(self, octets):
        heard = 0
        while heard < len(octets):
            more = self.next_octets(len(octets) - heard)
            wanted = octets[heard:]
            if not more:
                end = "nothing" if more is None else "the end"
                raise Fault(f"heard {end} after {heard} octets, not {shown(wanted)}")
            if not wanted.startswith(more):
                raise Fault(f"heard {shown(more)} after {heard} octets, not {shown(wanted)}")
            heard += len(more)

    def hears_end(self):
        more = self.next_octets(4096)
        if more != b"":
            raise Fault("no end came" if more is None else f"heard {shown(more)}, not the end")

    def lines(self):
        """The lines that it hears, as they come; nothing else may be heard beside it."""
        return self.connection.makefile("rb")

    def ends(self):
        self.connection.shutdown(socket.SHUT_WR)

    def resets(self):
        self.connection.setsockopt(socket.SOL_SOCKET, socket.SO_LINGER, b"\1\0\0\0\0\0\0\0")
        self.connection.close()

    def is_closed_meanwhile(self):
        """Whether the proxy closes the connection altogether, so that octets sent to it come back as an error."""
        until = time.monotonic() + PATIENCE
        with contextlib.suppress(ConnectionError):
            while time.monotonic() < until:
                self.connection.send(b"x")
                select.select([], [], [], 0.02)
            return False
        return True


class Proxy:
    """A running proxy and the scripted server behind it."""

    def __init__(self, program, *words, listens=True):
        self.server = socket.create_server(("127.0.0.1", 0))
        self.server.settimeout(PATIENCE)
        self.server.setsockopt(socket.SOL_SOCKET, socket.SO_RCVBUF, BUFFER)
        self.server.setsockopt(socket.SOL_SOCKET, socket.SO_SNDBUF, BUFFER)
        port = self.server.getsockname()[1]
        if not listens:
            # a port that nobody listens on and nobody else gets
            self.server.close()
            self.server = socket.socket()
            self.server.bind(("127.0.0.1", 0))
            port = self.server.getsockname()[1]
        self.errors = program.with_suffix(".stderr")
        command = [program, "--port", "0", "--server", "127.0.0.1", "--server-port", str(port), *words]
        with open(self.errors, "w") as errors:
            self.process = subprocess.Popen(command, stdout=subprocess.PIPE, stderr=errors, text=True)
        line = self.process.stdout.readline().split()
        if line[:2] != ["listening", "on"]:
            raise Fault(f"the proxy does not listen: {self.said()}")
        self.address = (line[2], int(line[3]))
        self.peers = []
        self.files_at_first = self.files()

    def client(self):
        connection = socket.socket(socket.AF_INET6)
        connection.setsockopt(socket.SOL_SOCKET, socket.SO_RCVBUF, BUFFER)
        connection.setsockopt(socket.SOL_SOCKET, socket.SO_SNDBUF, BUFFER)
        client = Peer(connection)
        connection.connect(self.address)
        self.peers.append(client)
        return client

    def served(self):
        connection, self.seen_from = self.server.accept()
        server = Peer(connection)
        self.peers.append(server)
        return server

    def pair(self, greeted=True):
        """A client and the server's end of its session."""
        client, server = self.client(), self.served()
        if greeted:
            server.says(GREETING)
            client.hears(GREETING)
        return client, server

    def files(self):
        """How many files the proxy has open, where the system tells it."""
        folder = pathlib.Path(f"/proc/{self.process.pid}/fd")
        return len(list(folder.iterdir())) if folder.exists() else 0

    def has_closed_all(self):
        """Whether no session is left, some time after all peers have gone."""
        until = time.monotonic() + PATIENCE
        while self.files() > self.files_at_first and time.monotonic() < until:
            time.sleep(0.02)
        return self.files() <= self.files_at_first

    def gets_empty(self):
        """Waits until no session of an earlier case is left."""
        if not self.has_closed_all():
            raise Fault("sessions are left")

    def processor_time(self):
        """What the proxy has used of the processor, in ticks, where the system tells it."""
        path = pathlib.Path(f"/proc/{self.process.pid}/stat")
        if not path.exists():
            return 0
        # from the state on: the name before it may have spaces
        fields = path.read_text().rpartition(")")[2].split()
        return int(fields[11]) + int(fields[12])

    def used_meanwhile(self):
        before = self.processor_time()
        time.sleep(QUIET)
        return self.processor_time() - before

    def rests(self):
        """While nothing arrives the proxy waits, and does not ask again and again."""
        used = []
        while not used or used[-1] > TICKS:
            if len(used) == LOOKS:
                raise Fault(f"the proxy does not rest: it used {used} ticks of the processor, each in {QUIET} s")
            used.append(self.used_meanwhile())

    @contextlib.contextmanager
    def no_more_files(self):
        """Meanwhile the proxy can't open a file."""
        limits = resource.prlimit(self.process.pid, resource.RLIMIT_NOFILE)
        resource.prlimit(self.process.pid, resource.RLIMIT_NOFILE, (self.files(), limits[1]))
        try:
            yield
        finally:
            resource.prlimit(self.process.pid, resource.RLIMIT_NOFILE, limits)

    def said(self):
        return self.errors.read_text()

    def says(self, words):
        """Waits until the proxy has said it."""
        until = time.monotonic() + PATIENCE
        while words not in self.said():
            if time.monotonic() > until:
                raise Fault(f"the proxy does not say {words!r}: {self.said()[-400:]}")
            time.sleep(0.02)

    @contextlib.contextmanager
    def paused(self):
        """What is said meanwhile the proxy finds all at once."""
        self.process.send_signal(signal.SIGSTOP)
        try:
            yield
        finally:
            self.process.send_signal(signal.SIGCONT)

    @contextlib.contextmanager
    def unanswered(self):
        """Meanwhile the server's queue is full: its system answers no connection, and each asks again after a second."""
        self.server.listen(0)
        with socket.create_connection(self.server.getsockname()):
            try:
                yield
            finally:
                self.server.listen()
                self.server.accept()[0].close()

    def settle(self):
        """Closes what a case has left open."""
        for peer in self.peers:
            peer.connection.close()
        self.peers = []

    def stop(self):
        """What is wrong with the proxy's own end, if anything."""
        self.settle()
        died = self.process.poll()
        left = died is None and not self.has_closed_all()
        self.process.terminate()
        self.process.wait()
        self.server.close()
        said = self.said()
        if died is not None or "Sanitizer" in said or "runtime error" in said or "internal error" in said:
            return f"the proxy ended with status {died}, and its standard error has\n{said[-4000:]}"
        return "sessions are left when all peers have gone" if left else ""


def part(client, server):
    """Both end, and neither hears anything else."""
    client.ends()
    server.hears_end()
    server.ends()
    client.hears_end()


def number(i):
    return b"NOOP %d\r\n" % i


def exchange(proxy):
    client, server = proxy.pair()
    passive_exchange(client, server)
    client.says(b"PASV\r\n")
    server.hears(b"PASV\r\n")
    server.says(b"227 x (127,0,0,1,4,1)\r\n")
    client.hears(b"227 x (127,0,0,1,4,1)\r\n")
    client.says(b"EPRT |2|::1|5282|\r\n")
    server.hears(b"PORT 127,0,0,2,20,162\r\n")
    server.says(b"200 ok\r\n")
    client.hears(b"200 ok\r\n")
    part(client, server)


def passive_exchange(client, server):
    client.says(b"EPSV\r\n")
    server.hears(b"PASV\r\n")
    server.says(b"227 x (192,0,2,31,237,19)\r\n")
    client.hears(b"229 Entering Extended Passive Mode (|||60691|)\r\n")


def single_octets(proxy):
    client, server = proxy.pair(greeted=False)
    server.says_cut(GREETING)
    client.hears(GREETING)
    client.says_cut(b"USER me\r\nepsv 2\nEPSV 1\r\nNOOP\r\n")
    server.hears(b"USER me\r\nPASV\r\nNOOP\r\n")
    server.says_cut(b"331 yes\r\n227 x (192,0,2,31,237,19)\r\n200-a\r\n 200 b\r\n200 c\r\n")
    client.hears(b"331 yes\r\n229 Entering Extended Passive Mode (|||60691|)\r\n522 Network protocol not supported\r\n")
    client.hears(b"200-a\r\n 200 b\r\n200 c\r\n")
    part(client, server)


def own_answers(proxy):
    """A call of the client's octets writes to the client too, here with nothing else on its way."""
    client, server = proxy.pair()
    for line, answer in [
        (b"EPSV 1\r\n", b"522 Network protocol not supported\r\n"),
        (b"EPSV ALL\r\n", b"504 Command not implemented for that parameter\r\n"),
        (b"ALGS STATUS64\r\n", b"216 EPSVEPRT\r\n"),
    ]:
        client.says(line)
        client.hears(answer)
    client.says(b"EPSV 1\r\n" * 40)
    client.hears(b"522 Network protocol not supported\r\n" * 40)
    part(client, server)


def pipelined(proxy):
    """Far more commands than may be owed a reply; the server answers each when it has read it."""
    client, server = proxy.pair()
    client.says(b"".join(map(number, range(100))))
    for i in range(100):
        server.hears(number(i))
        server.says(b"200 ")
        server.says(b"%d\r\n" % i)
        client.hears(b"200 %d\r\n" % i)
    part(client, server)


def pipelined_mixed(proxy):
    client, server = proxy.pair()
    client.says(b"EPSV\r\nEPSV 1\r\nNOOP\r\n" * 40)
    for _ in range(40):
        server.hears(b"PASV\r\nNOOP\r\n")
        server.says(b"227 x (1,2,3,4,4,1)\r\n200 ok\r\n")
        client.hears(b"229 Entering Extended Passive Mode (|||1025|)\r\n522 Network protocol not supported\r\n200 ok\r\n")
    part(client, server)


def pipelined_then_end(proxy):
    """The client's end waits for its commands, and those for the server's replies."""
    client, server = proxy.pair()
    client.says(b"".join(map(number, range(100))) + b"QUI")
    client.ends()
    for i in range(100):
        server.hears(number(i))
        server.says(b"200 %d\r\n" % i)
    server.hears(b"QUI")
    server.hears_end()
    client.hears(b"".join(b"200 %d\r\n" % i for i in range(100)))
    server.says(b"221 bye\r\n")
    server.ends()
    client.hears(b"221 bye\r\n")
    client.hears_end()


def before_the_greeting(proxy):
    """A client that does not wait for the greeting: fifteen commands pass, the others wait for it."""
    client, server = proxy.pair(greeted=False)
    client.says(b"".join(map(number, range(30))))
    server.hears(b"".join(map(number, range(15))))
    server.says(GREETING)
    server.hears(number(15))
    client.hears(GREETING)
    for i in range(30):
        server.says(b"200 %d\r\n" % i)
    server.hears(b"".join(map(number, range(16, 30))))
    client.hears(b"".join(b"200 %d\r\n" % i for i in range(30)))
    part(client, server)


def long_lines(proxy):
    client, server = proxy.pair()
    line = b"SITE " + b"a" * 65536 + b"\r\n"
    reply = b"200 " + b"b" * 65536 + b"\r\n"
    speaking = client.says_meanwhile(line)
    server.hears(line)
    speaking.join()
    speaking = server.says_meanwhile(reply)
    client.hears(reply)
    speaking.join()
    passive_exchange(client, server)
    part(client, server)


def client_ends_first(proxy):
    """The held line reaches the server before the end does; the server may still speak."""
    client, server = proxy.pair()
    client.says(b"NOOP\r\n" + b"x" * 511)
    client.ends()
    server.hears(b"NOOP\r\n" + b"x" * 511)
    server.hears_end()
    server.says(b"200 ok\r\n22")
    client.hears(b"200 ok\r\n")
    server.ends()
    client.hears(b"22")
    client.hears_end()


def server_ends_first(proxy):
    """The held octets reach the client before the end does; the client may still speak."""
    client, server = proxy.pair()
    server.says(b"200-one\r\n" + b"y" * 511)
    server.ends()
    client.hears(b"200-one\r\n" + b"y" * 511)
    client.hears_end()
    client.says(b"NOOP\r\nQUI")
    server.hears(b"NOOP\r\n")
    client.ends()
    server.hears(b"QUI")
    server.hears_end()


def both_end_at_once(proxy):
    client, server = proxy.pair()
    client.says(b"ABO")
    server.says(b"42")
    client.ends()
    server.ends()
    server.hears(b"ABO")
    server.hears_end()
    client.hears(b"42")
    client.hears_end()


def server_ends_with_all_owed(proxy):
    """Sixteen replies are owed and will not come: the client hears what there is, and is closed although it does not close.

    It has said more than the proxy reads, and reads only when the proxy has sent all and has served somebody else: a close
    that resets would lose some.
    """
    client, server = proxy.pair()
    client.says(b"".join(map(number, range(1000))))
    server.hears(b"".join(map(number, range(16))))
    last = b"421-bye\r\n" * (BUFFER // 3) + b"42"
    server.says(last)
    server.ends()
    server.hears_end()
    passive_exchange(*proxy.pair())
    client.hears(last)
    client.hears_end()
    if not client.is_closed_meanwhile():
        raise Fault("the client is not closed")


def both_end_with_all_owed(proxy):
    client, server = proxy.pair()
    client.says(b"".join(map(number, range(40))))
    client.ends()
    server.hears(b"".join(map(number, range(16))))
    server.ends()
    server.hears_end()
    client.hears_end()


def transparent(proxy):
    """After AUTH every octet passes, both ways at once, however many lines they make."""
    client, server = proxy.pair()
    client.says(b"NOOP\r\nAUTH TLS\r\n")
    server.hears(b"NOOP\r\nAUTH TLS\r\n")
    server.says(b"200 ok\r\n234 go\r\n")
    client.hears(b"200 ok\r\n234 go\r\n")
    chance = random.Random(1)
    up, down = b"EPSV\r\n" * 40 + chance.randbytes(50000), b"227 (1,2,3,4,5,6)\r\n" + chance.randbytes(50000)
    speaking = [client.says_meanwhile(up), server.says_meanwhile(down)]
    server.hears(up)
    client.hears(down)
    for thread in speaking:
        thread.join()
    part(client, server)


def several_clients(proxy):
    """As many clients as the least table has places for, a step of each in turn."""
    pairs = [proxy.pair() for _ in range(PLACES)]
    for turn in range(6):
        for i, (client, _) in enumerate(pairs):
            client.says(b"EPSV\r\nRETR %d" % (i * 10 + turn))
        for i, (_, server) in reversed(list(enumerate(pairs))):
            server.hears(b"PASV\r\n")
            server.says(b"227 x (1,2,3,4,%d,%d)\r\n15" % (i + 1, turn))
        for i, (client, server) in enumerate(pairs):
            client.hears(b"229 Entering Extended Passive Mode (|||%d|)\r\n" % (256 * (i + 1) + turn))
            client.says(b"\r\n")
            server.hears(b"RETR %d\r\n" % (i * 10 + turn))
            server.says(b"0 now\r\n226 sent\r\n")
            client.hears(b"150 now\r\n226 sent\r\n")
    for client, server in pairs:
        part(client, server)


def served_late(proxy, client):
    """The server's end for a client that has waited."""
    server = proxy.served()
    server.says(GREETING)
    client.hears(GREETING)
    return server


def one_more_client(proxy):
    """A client for whom there is no place waits until another has gone; nothing is lost on it."""
    pairs = [proxy.pair() for _ in range(PLACES)]
    late = proxy.client()
    late.says(b"NOOP\r\n")
    part(*pairs[0])
    served_late(proxy, late).hears(b"NOOP\r\n")
    passive_exchange(*pairs[1])


def rests_between_octets(proxy):
    """Sessions half-closed, a client whose commands wait for replies, and one more client than the least table takes."""
    pairs = [proxy.pair() for _ in range(PLACES)]
    pairs[0][0].ends()
    pairs[0][1].hears_end()
    pairs[1][1].ends()
    pairs[1][0].hears_end()
    pairs[2][0].says(b"".join(map(number, range(1000))))
    pairs[2][1].hears(b"".join(map(number, range(16))))
    late = proxy.client()
    try:
        proxy.rests()
    finally:
        # else the late client would be served in the next case
        part(*pairs[3])
        passive_exchange(late, served_late(proxy, late))


def rests_after_a_reset(proxy):
    """The server resets, and what it said waits for a client that does not read. Usual sizes only."""
    client, server = proxy.pair()
    line = b"200-" + bytes(range(97, 123)) * 300 + b"\r\n"
    fills(server, line)
    server.resets()
    proxy.rests()
    client.hears(line)


def no_file_for_a_client(proxy):
    """There is a place for one more client, but no file: the proxy says so and waits, and the client is served later.

    It is the last place, since poll(2) refuses to ask about more sockets than there may be files.
    """
    proxy.gets_empty()
    pairs = [proxy.pair() for _ in range(PLACES - 1)]
    with proxy.no_more_files():
        late = proxy.client()
        proxy.says("accept: Too many open files")
        proxy.rests()
        passive_exchange(*pairs[0])
    passive_exchange(late, served_late(proxy, late))


def fills(peer, octets):
    """Says octets again and again until nobody takes any more; how many were taken."""
    said = 0
    while select.select([], [peer.connection], [], 0.3)[1]:
        rest = octets[said % len(octets) :]
        said += peer.connection.send(rest, socket.MSG_DONTWAIT)
        if said > 1 << 26:
            raise Fault("there is no back pressure")
    return said


def does_not_read(proxy):
    """Back pressure towards a server whose client does not read, while another session goes on; then nothing is missing."""
    client, server = proxy.pair()
    line = b"200-" + bytes(range(97, 123)) * 300 + b"\r\n"
    said = fills(server, line)
    other_client, other_server = proxy.pair()
    passive_exchange(other_client, other_server)
    part(other_client, other_server)
    server.ends()
    client.hears((line * (said // len(line) + 1))[:said])
    client.hears_end()
    client.ends()
    server.hears_end()


def server_does_not_read(proxy):
    """The same towards a client, whose commands also wait for the server; replies still reach it."""
    client, server = proxy.pair()
    line = b"SITE " + bytes(range(97, 123)) * 300 + b"\r\n"
    client.says(b"AUTH TLS\r\n")
    server.hears(b"AUTH TLS\r\n")
    said = fills(client, line)
    server.says(b"234 go\r\n")
    client.hears(b"234 go\r\n")
    client.ends()
    server.hears((line * (said // len(line) + 1))[:said])
    server.hears_end()


def client_resets(proxy):
    """Its session ends, another one does not notice."""
    client, server = proxy.pair()
    other_client, other_server = proxy.pair()
    client.says(b"".join(map(number, range(40))))
    server.hears(b"".join(map(number, range(16))))
    client.resets()
    server.hears_end()
    passive_exchange(other_client, other_server)
    part(other_client, other_server)


def server_resets(proxy):
    """What the server said before it is heard, and then the end."""
    client, server = proxy.pair()
    other_client, other_server = proxy.pair()
    client.says(b"NOOP\r\n")
    server.hears(b"NOOP\r\n")
    server.says(b"421 bye\r\n")
    client.hears(b"421 bye\r\n")
    server.resets()
    client.hears_end()
    passive_exchange(other_client, other_server)
    part(other_client, other_server)


def says_busy(server):
    server.says(b"421 busy\r\n")
    server.resets()


def hears_busy(client):
    client.hears(b"421 busy\r\n")
    client.hears_end()
    client.ends()


def server_is_busy(proxy):
    """It says so and resets at once: each client hears it, whether it speaks first or not."""
    for first in [b"", b"NOOP\r\n"] * 30:
        client = proxy.client()
        client.says(first)
        says_busy(proxy.served())
        hears_busy(client)


def server_is_busy_early(proxy):
    """The same, but all that the proxy sees of the server is what is left after the reset.

    It takes a client each turn, and an exchange takes two turns: so after as many exchanges it is connecting for all.
    """
    proxy.gets_empty()
    other_client, other_server = proxy.pair()
    with contextlib.ExitStack() as later:
        with proxy.unanswered():
            clients = [proxy.client() for _ in range(PLACES - 1)]
            for client in clients[::2]:
                client.says(b"NOOP\r\n")
            for _ in clients:
                passive_exchange(other_client, other_server)
            later.enter_context(proxy.paused())
        for _ in clients:
            says_busy(proxy.served())
    for client in clients:
        hears_busy(client)
    part(other_client, other_server)


def server_goes_while_the_client_speaks(proxy):
    """What is sent to a server that is gone is an error of this session alone; it gives more than one send can take."""
    client, server = proxy.pair()
    other_client, other_server = proxy.pair()
    client.says(b"NOOP\r\n" + b"x" * 511)
    server.hears(b"NOOP\r\n")
    server.connection.close()
    client.hears_end()
    client.says(b"x" * 4096)
    passive_exchange(other_client, other_server)
    if not client.is_closed_meanwhile():
        raise Fault("the client is not closed")
    passive_exchange(other_client, other_server)
    part(other_client, other_server)


def end_without_room(proxy):
    """The server's end, with a line held, comes when own answers have filled the client's buffer. Usual sizes only."""
    client, server = proxy.pair()
    server.says(b"200-one\r\n200 two\r\n" + b"y" * 511)
    client.hears(b"200-one\r\n200 two\r\n")
    with proxy.paused():
        client.says(b"EPSV 1\r\n" * 110)
        server.ends()
    client.hears(b"522 Network protocol not supported\r\n" * 110 + b"y" * 511)
    client.hears_end()
    client.ends()
    server.hears_end()


def answered(server, lines):
    """A server that answers every line it hears, some in several lines, with a number that says which it was."""
    for i, line in zip(range(lines), server.lines()):
        code = b"227 x (1,2,3,4,%d,%d)" % (i // 256 + 1, i % 256) if line == b"PASV\r\n" else b"200 %d" % i
        server.says(b"200-more\r\n" * (i % 7 == 0 and line != b"PASV\r\n") + code + b"\r\n")


def many_commands(proxy):
    """Commands of all sorts in pieces cut by chance, as fast as they go, and all that comes back."""
    chance = random.Random(2)
    client, server = proxy.pair()
    said, wanted, lines = b"", b"", 0
    for _ in range(1500):
        line = chance.choice([b"EPSV\r\n", b"epsv 2\n", b"NOOP\r\n", b"EPSV 1\r\n", b"RETR " + b"a" * chance.randrange(600) + b"\r\n"])
        said += line
        if line == b"EPSV 1\r\n":
            wanted += b"522 Network protocol not supported\r\n"
            continue
        if line.lower().startswith(b"epsv"):
            wanted += b"229 Entering Extended Passive Mode (|||%d|)\r\n" % (lines + 256)
        else:
            wanted += b"200-more\r\n" * (lines % 7 == 0) + b"200 %d\r\n" % lines
        lines += 1
    threading.Thread(target=answered, args=(server, lines), daemon=True).start()
    threading.Thread(target=says_in_pieces, args=(client, said, chance), daemon=True).start()
    client.hears(wanted)
    part(client, server)


def says_in_pieces(peer, octets, chance):
    while octets:
        length = chance.choice([1, 2, 9, 100, 5000])
        peer.says(octets[:length])
        octets = octets[length:]


def directory(server, data):
    """A server with one directory, whose listing goes over a data connection where the NAT64 would bring it from."""
    high, low = divmod(data.getsockname()[1], 256)
    answers = {
        b"USER me\r\n": b"331 and the password?\r\n",
        b"PASS x\r\n": b"230-welcome\r\n230 in\r\n",
        b"TYPE A\r\n": b"200 text\r\n",
        b"PASV\r\n": b"227 Entering Passive Mode (127,0,0,1,%d,%d).\r\n" % (high, low),
        b"LIST\r\n": b"150 here it comes\r\n",
        b"QUIT\r\n": b"221 bye\r\n",
    }
    server.says(GREETING)
    for line in server.lines():
        server.says(answers.get(line, b"500 what?\r\n"))
        if line == b"LIST\r\n":
            with data.accept()[0] as connection:
                connection.sendall(b"one\r\ntwo\r\n")
            server.says(b"226 that was it\r\n")
    server.connection.close()


def ftplib_client(proxy):
    """Python's FTP client lists a directory of a server that knows no EPSV."""
    data = socket.create_server((proxy.address[0], 0), family=socket.AF_INET6)
    data.settimeout(PATIENCE)
    threading.Thread(target=lambda: directory(proxy.served(), data), daemon=True).start()
    listed = []
    with data, ftplib.FTP(timeout=PATIENCE) as client:
        client.connect(*proxy.address)
        client.login("me", "x")
        client.retrlines("LIST", listed.append)
        farewell = client.quit()
    if (listed, farewell) != (["one", "two"], "221 bye"):
        raise Fault(f"the client has {listed} and {farewell}")


def urgent(proxy):
    """Telnet's interrupt and Synch before ABOR, with the urgent mark: no octet of it is lost, in either direction."""
    client, server = proxy.pair()
    client.says(b"RETR x\r\n")
    client.connection.send(b"\xff\xf4\xff", socket.MSG_OOB)
    client.says(b"\xf2ABOR\r\n")
    server.hears(b"RETR x\r\n\xff\xf4\xff\xf2ABOR\r\n")
    server.connection.send(b"426 cut\r\n225 ok\r\n", socket.MSG_OOB)
    client.hears(b"426 cut\r\n225 ok\r\n")
    part(client, server)


def source_address(proxy):
    proxy.pair()
    if proxy.seen_from[0] != MAPPED:
        raise Fault(f"the server sees {proxy.seen_from[0]}, not {MAPPED}")


def strict(proxy):
    """The server is at 127.0.0.1, and may name no other address."""
    client, server = proxy.pair()
    for named, answer in [(b"127,0,0,1", b"229 Entering Extended Passive Mode (|||60691|)\r\n"), (b"127,0,0,2", b"425 Can't open data connection.\r\n")]:
        client.says(b"EPSV\r\n")
        server.hears(b"PASV\r\n")
        server.says(b"227 x (" + named + b",237,19)\r\n")
        client.hears(answer)
    part(client, server)


def refused(proxy):
    """Nobody listens where the server should be: a client is closed, the next one too."""
    for _ in range(3):
        proxy.client().hears_end()
    if "no connection to the server" not in proxy.said():
        raise Fault(f"the proxy does not say why: {proxy.said()}")


CASES = [
    exchange, single_octets, own_answers, pipelined, pipelined_mixed, pipelined_then_end, before_the_greeting, long_lines,
    client_ends_first, server_ends_first, both_end_at_once, server_ends_with_all_owed, both_end_with_all_owed, transparent,
    several_clients, many_commands, does_not_read, server_does_not_read, client_resets, server_resets,
    server_is_busy, server_is_busy_early, server_goes_while_the_client_speaks, rests_between_octets, urgent, source_address,
    ftplib_client,
]  # fmt: skip
# those that hold with the sizes of one build only
SIZED = {"usual": [end_without_room, rests_after_a_reset], "least": [one_more_client, no_file_for_a_client]}
TRANSLATED = ["--mapped", MAPPED, "--bind-mapped", "--eprt"]


def holds(name, case, proxy):
    """Whether a case passes; says what is wrong."""
    try:
        case(proxy)
        return True
    except (Fault, OSError, EOFError, ftplib.Error) as fault:
        print(f"FAILED: {name}: {case.__name__}: {type(fault).__name__}: {fault}")
        return False
    finally:
        proxy.settle()


def run_cases(name, program, cases, *words, **how):
    """The results of some cases on one proxy, and of the proxy itself."""
    try:
        proxy = Proxy(program, *words, **how)
    except Fault as fault:
        print(f"FAILED: {name}: {fault}")
        return [False]
    try:
        results = [holds(name, case, proxy) for case in cases]
    finally:
        wrong = proxy.stop()
    if wrong:
        print(f"FAILED: {name}: {wrong}")
    return results + [not wrong]


def options_hold(name, program):
    """Help is told; wrong options are refused with a message."""
    told = subprocess.run([program, "--help"], capture_output=True, text=True)
    good = [told.returncode == 0 and "--bind-mapped" in told.stdout]
    server = ["--server", "127.0.0.1"]
    for words in [[], ["--server", "::1"], server + ["--port", "65536"], server + ["--eprt"], server + ["--none"], server + ["x"]]:
        run = subprocess.run([program, *words], capture_output=True, text=True, timeout=PATIENCE)
        good.append(run.returncode == 2 and run.stderr != "")
    if not all(good):
        print(f"FAILED: {name}: options: {good}")
    return [all(good)]


def build(name, library, source):
    program = ROOT / "target" / f"proxy-{name}"
    program.parent.mkdir(exist_ok=True)
    words = [*SANITIZED, *WARNED, *BUILDS[name], "-I", ROOT / "relay", source, library, "-o", program]
    subprocess.run(["cc", *words], check=True)
    return program


def main():
    library, *others = (pathlib.Path(word) for word in arguments(__doc__, 1, 2))
    source = others[0] if others else SOURCE
    results = []
    for name in BUILDS:
        program = build(name, library, source)
        results += options_hold(name, program)
        results += run_cases(name, program, CASES + SIZED[name], *TRANSLATED)
        results += run_cases(name, program, [strict], "--strict")
        results += run_cases(name, program, [refused], listens=False)
    print(f"{results.count(True)} passed, {results.count(False)} failed")
    return results.count(False) > 0


if __name__ == "__main__":
    sys.exit(main())
