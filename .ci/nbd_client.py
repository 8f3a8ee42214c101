"""A client of the NBD protocol, and a server of nbd_server's kind as its tests start it. What other clients never send, a wrong magic,
an offset beyond the end, half a request, this one does."""
import queue
import random
import re
import signal
import socket
import struct
import subprocess
import threading
import time

REQUEST, REPLY, OPTION, ANSWER = 0x25609513, 0x67446698, b"IHAVEOPT", 0x3E889045565A9
READ, WRITE, DISC, FLUSH, TRIM, ZEROES = 0, 1, 2, 3, 4, 6
EXPORT_NAME, ABORT, LIST, INFO, GO = 1, 2, 3, 6, 7
MAX = 32 << 20
# The errors that a server may reply.
FAULTS = {0, 5, 12, 22, 28, 108}
# Most seconds that one step may take, on a machine that is busy with other work.
STEP = 60
# Bytes of replies that a socket holds for a client that does not take them.
UNREAD = 65536
BUSY = re.compile(r"busy: ordinary (\d+)/(\d+), reserved (\d+)/(\d+); connections (\d+), of which (\d+) wait for a tag")


class Closed(Exception):
    """The server has closed the connection."""


class Server:
    """nbd_server with a Unix socket in this folder."""

    def __init__(self, program, folder, *options, env=None, by=()):
        self.socket = f"{folder}/socket"
        command = [*by, program, "--unix", self.socket, *map(str, options)]
        self.ran = subprocess.Popen(command, stdin=subprocess.DEVNULL, stdout=subprocess.PIPE, stderr=subprocess.STDOUT, text=True, env=env)
        self.lines, self.said, self.is_stopped = queue.Queue(), [], False
        self.listening = threading.Thread(target=self.listen, daemon=True)
        self.listening.start()
        try:
            self.wait_for(re.compile(r"serving (\d+) bytes"))
        except OSError:
            self.ran.kill()
            raise

    @property
    def uri(self):
        return f"nbd+unix:///?socket={self.socket}"

    def listen(self):
        for line in self.ran.stdout:
            self.said.append(line)
            self.lines.put(line)
        self.lines.put(None)

    def wait_for(self, pattern):
        end = time.monotonic() + STEP
        while True:
            try:
                line = self.lines.get(timeout=max(0.1, end - time.monotonic()))
            except queue.Empty:
                raise TimeoutError(f"the server does not say {pattern.pattern}") from None
            if line is None:
                raise OSError("the server has ended: " + "".join(self.said)[-2000:])
            found = pattern.match(line)
            if found:
                return found

    def busy(self):
        """How many ordinary and reserved tags are busy, how many connections are open, and how many of these wait for a tag."""
        self.ran.send_signal(signal.SIGUSR1)
        found = self.wait_for(BUSY)
        return int(found[1]), int(found[3]), int(found[5]), int(found[6])

    def becomes(self, *wanted):
        """Whether that is what is busy within the time of a step."""
        end = time.monotonic() + STEP
        while self.busy() != wanted:
            if time.monotonic() > end:
                return False
            time.sleep(0.02)
        return True

    def stop(self):
        """Has the server end. Returns what was wrong: nothing, if it says that all tags came back, and that is all that it says."""
        self.is_stopped = True
        self.ran.send_signal(signal.SIGTERM)
        try:
            status = self.ran.wait(STEP)
        except subprocess.TimeoutExpired:
            self.ran.kill()
            return "it does not end"
        self.listening.join(STEP)
        said = "".join(it for it in self.said if not it.startswith(("serving ", "busy: ", "tag ")))
        is_well = status == 0 and re.fullmatch(r"got=(\d+)\nback=\1\n", said)
        return "" if is_well else f"status {status}: {said[-3000:]}"


class Client:
    """A connection. `shakes` is false for one that begins with something else than a handshake."""

    def __init__(self, at, shakes=True):
        kind = socket.AF_UNIX if isinstance(at, str) else socket.AF_INET
        self.socket = socket.socket(kind, socket.SOCK_STREAM)
        self.socket.settimeout(STEP)
        self.socket.connect(at)
        self.cookies = 0
        if shakes:
            self.greet()
            self.size, self.flags = self.go()

    def __enter__(self):
        return self

    def __exit__(self, *_):
        self.socket.close()

    def send(self, data):
        try:
            self.socket.sendall(data)
        except (BrokenPipeError, ConnectionResetError) as error:
            raise Closed from error

    def receive(self, size):
        data = bytearray()
        while len(data) < size:
            try:
                part = self.socket.recv(size - len(data))
            except ConnectionResetError as error:
                raise Closed from error
            if not part:
                raise Closed
            data += part
        return bytes(data)

    def is_closed(self):
        """Whether the server closes the connection, and sends nothing more."""
        try:
            self.receive(1)
        except Closed:
            return True
        return False

    def greet(self, flags=3):
        assert self.receive(18) == b"NBDMAGIC" + OPTION + b"\0\3", "the greeting"
        self.send(struct.pack(">I", flags))

    def option(self, kind, data=b""):
        self.send(OPTION + struct.pack(">II", kind, len(data)) + data)

    def answers(self, kind):
        """The answers to an option, up to the one that ends them."""
        found = []
        while not found or found[-1][0] in (2, 3):
            magic, to, answer, length = struct.unpack(">QIII", self.receive(20))
            assert (magic, to) == (ANSWER, kind), "an answer"
            found.append((answer, self.receive(length)))
        return found

    def ask(self, kind, data=b""):
        self.option(kind, data)
        return self.answers(kind)

    def go(self, name=b"", kind=GO):
        *infos, last = self.ask(kind, struct.pack(">I", len(name)) + name + b"\0\0")
        assert last == (1, b""), last
        return next(struct.unpack(">QH", data[2:]) for _, data in infos if data[:2] == b"\0\0")

    def request(self, command, offset=0, length=0, data=b"", flags=0, magic=REQUEST):
        """Sends a request, and returns its cookie."""
        self.cookies += 1
        self.send(struct.pack(">IHHQQI", magic, flags, command, self.cookies, offset, length) + data)
        return self.cookies

    def reply(self, reads=None):
        """The next reply: its error, its cookie and its data, the length of which `reads` has by cookie."""
        magic, error, cookie = struct.unpack(">IIQ", self.receive(16))
        assert magic == REPLY and error in FAULTS, (hex(magic), error)
        return error, cookie, self.receive((reads or {}).get(cookie, 0)) if error == 0 else b""

    def done(self, command, offset=0, length=0, data=b"", flags=0):
        """Carries one request out: its error and its data."""
        cookie = self.request(command, offset, length, data, flags)
        error, found, read = self.reply({cookie: length} if command == READ else {})
        assert found == cookie, "a cookie"
        return error, read


class Fuzzer:
    """Sends what a seed says, right and wrong, and knows what has to come back."""

    def __init__(self, server, size, seed):
        self.server, self.size, self.random = server, size, random.Random(seed)

    def number(self, bits):
        edges = [0, 1, 511, 4096, self.size - 1, self.size, self.size + 1, MAX, MAX + 1, (1 << bits) - 1, 1 << bits - 1]
        return self.random.choice([*edges, self.random.getrandbits(bits)]) % (1 << bits)

    def garbage(self):
        with Client(self.server.socket, shakes=False) as client:
            client.send(self.random.randbytes(self.random.randrange(1, 200)))

    def option(self, client):
        """One option, of which some are wrong. The server has to answer it, or to close the connection."""
        data = self.random.randbytes(self.random.choice([0, 4, 6, 7, 20, 4096, 4097]))
        if self.random.random() < 0.5:
            data = struct.pack(">I", self.number(32)) + data
        magic = OPTION if self.random.random() < 0.9 else self.random.randbytes(8)
        length = len(data) if self.random.random() < 0.9 else self.number(32)
        kind = self.random.choice([0, ABORT, LIST, INFO, 5, 8, 9, 10, max(11, self.number(32))])
        client.send(magic + struct.pack(">II", kind, length) + data)
        if (magic, length) != (OPTION, len(data)):
            raise Closed
        client.answers(kind)

    def handshake(self):
        with Client(self.server.socket, shakes=False) as client:
            client.greet(self.random.choice([0, 1, 2, 3, 3, 3, self.number(32)]))
            for _ in range(self.random.randrange(1, 6)):
                self.option(client)

    def make(self):
        """A request: its arguments, whether it is refused, and whether the connection ends with it."""
        command = self.random.choice([READ, READ, WRITE, WRITE, FLUSH, TRIM, ZEROES, 5, 7, max(7, self.number(16))])
        offset, length = self.random.randrange(self.size), self.random.choice([0, 1, 512, 4096, 65536])
        if self.random.random() < 0.3:
            offset, length = self.number(64), self.number(32)
        if command == FLUSH and self.random.random() < 0.8:
            offset = length = 0
        flags = self.random.choice([0, 0, 0, 1, 2, 3, self.number(16)])
        known = 3 if command == ZEROES else 1
        is_refused = command not in (READ, WRITE, FLUSH, TRIM, ZEROES) or flags & ~known or offset + length > self.size
        is_refused = is_refused or command == READ and length > MAX or command == FLUSH and offset + length > 0
        return (command, offset, length, flags), bool(is_refused), command == WRITE and length > MAX

    def collect(self, client, wanted, reads):
        error, cookie, _ = client.reply(reads)
        assert wanted.pop(cookie) == (error != 0), f"error {error}"
        reads.pop(cookie, None)

    def requests(self):
        """Sends many requests at once, and compares the replies with what they have to be. Some end in the middle."""
        wanted, reads = {}, {}
        with Client(self.server.socket) as client:
            for _ in range(self.random.randrange(1, 40)):
                (command, offset, length, flags), is_refused, ends = self.make()
                # The server sends what is read while this sends, and neither may wait for the other: a reply that this does not
                # take holds its tag, and where all tags are held so the server reads no more.
                more = length if command == READ else 0
                while wanted and sum(reads.values()) + more > UNREAD:
                    self.collect(client, wanted, reads)
                if ends or self.random.random() < 0.01:
                    client.request(command, offset, length, b"", flags, REQUEST if ends else self.number(32) & ~1)
                    return
                data = bytes(length) if command == WRITE else b""
                if data and self.random.random() < 0.02:
                    client.request(command, offset, length, data[1:], flags)
                    return
                cookie = client.request(command, offset, length, data, flags)
                wanted[cookie] = is_refused
                if command == READ and length <= MAX:
                    reads[cookie] = length
            while wanted:
                self.collect(client, wanted, reads)
            if self.random.random() < 0.5:
                client.request(DISC)
                assert client.is_closed(), "a disconnect"

    def run(self, seconds, least):
        """How many sessions there were in that time, or in as much as it takes for the least."""
        end, count = time.monotonic() + seconds, 0
        while time.monotonic() < end or count < least:
            behaviour = self.random.choice([self.garbage, self.handshake, self.requests, self.requests])
            try:
                behaviour()
            except Closed:
                assert behaviour != self.requests, "the connection was closed"
            count += 1
        return count
