"""A `kbroker start` that runs, and its clients: what the cases of tests/cases stand on.

What differs is raised as a Fault; a call of a socket that fails, or that waits for a minute, raises an OSError.
"""
import contextlib
import os
import random
import re
import resource
import select
import signal
import socket
import struct
import subprocess
import threading
import time

from cases.cleaning_words import is_of_cleaning, told_of
from encoders import copies
from runner.places import ROOT

SECONDS = 60  # that a client, or a look at what the program writes, waits at most
FILES = 200  # that a program whose open files are limited could have if it raised the limit itself
ENDED = re.compile(r"connection (\d+) (\S+): (.*)")
MORE = re.compile(r"(\d+) more connections? ended")
NOTHING_KEPT = "nothing is kept on disk: --data DIR keeps it"  # which is said at the start where no directory is given


def is_notice(line):
    """Whether it is a line that each start says of itself: that nothing is kept, or what it cleans."""
    return line == NOTHING_KEPT or is_of_cleaning(line)


class Fault(Exception):
    """What is not as it must be."""


RANDOM = "random runs and kills take minutes"
LIMITED = "the program's checks take more memory than is allowed"
KEEPS = "the program's checks keep memory that is given back"


class CannotBeTried(Exception):
    """Why a case can't be tried on this machine."""


def slow(why):
    """Marks a case that tests/quick leaves out, and why."""

    def marked(case):
        case.slow = why
        return case

    return marked


def shown(held):
    text = repr(held)
    return text if len(text) <= 300 else f"{text[:150]} .. {text[-150:]} ({len(held)} long)"


def same(what, given, wanted):
    if given != wanted:
        raise Fault(f"{what}: {shown(given)}, not {shown(wanted)}")


def holds(what, is_so):
    if not is_so:
        raise Fault(what)


def is_soon(look, seconds=SECONDS, every=0.01):
    """Whether a look, each so many seconds, comes to say yes."""
    late = time.monotonic() + seconds
    while not look():
        if time.monotonic() > late:
            return False
        time.sleep(every)
    return True


def request(words):
    """The bytes of a request in the words of tests/rows."""
    return copies.input_of(words, ROOT)


def reply(words):
    """The bytes of a response in the words of tests/rows."""
    return copies.reply_of(words, ROOT)


# ---- clients


class Client:
    """A connection to a broker."""

    def __init__(self, at, room=None, host=None):
        """With `room`, so many bytes are taken that nobody reads, and no more; with `host`, that is the client's own address."""
        self.socket = socket.socket(socket.AF_INET6 if ":" in at[0] else socket.AF_INET)
        if host is not None:
            self.socket.bind((host, 0))
        if room is not None:
            self.socket.setsockopt(socket.SOL_SOCKET, socket.SO_RCVBUF, room)
        self.socket.settimeout(SECONDS)
        self.socket.setsockopt(socket.IPPROTO_TCP, socket.TCP_NODELAY, 1)
        self.socket.connect(at)
        host, port = self.socket.getsockname()[:2]
        self.address = f"[{host}]:{port}" if ":" in host else f"{host}:{port}"

    def __enter__(self):
        return self

    def __exit__(self, *_):
        self.close()

    def send(self, data):
        self.socket.sendall(data)

    def send_what_is_taken(self, data):
        """Sends bytes until no more are taken for a third of a second, and returns how many were."""
        sent, late = 0, time.monotonic() + SECONDS
        while sent < len(data) and time.monotonic() < late:
            if not select.select([], [self.socket], [], 0.3)[1]:
                break
            sent += self.socket.send(data[sent : sent + (1 << 16)], socket.MSG_DONTWAIT)
        return sent

    def receive(self, size):
        """The next bytes: so many, or fewer where the other side ends."""
        got = bytearray()
        while len(got) < size and (piece := self.socket.recv(min(size - len(got), 1 << 20))):
            got += piece
        return bytes(got)

    def gets(self, wanted, what="a reply"):
        same(what, self.receive(len(wanted)), wanted)

    def ask(self, words, answer):
        """Sends a request, and compares what comes for it; both in the words of tests/rows."""
        self.send(request(words))
        self.gets(reply(answer), f"the reply to {words[:60]}")

    def gets_nothing(self, seconds):
        """Whether nothing comes for so long, and the connection stays."""
        return not select.select([self.socket], [], [], seconds)[0]

    def rest(self):
        """All that still comes, up to the end of the connection, or until it is reset."""
        got = bytearray()
        with contextlib.suppress(ConnectionResetError):
            while piece := self.socket.recv(1 << 20):
                got += piece
        return bytes(got)

    def gets_to_the_end(self, wanted, what="all that comes"):
        same(what, self.rest(), wanted)

    def stop(self):
        """Sends no more; the other side may go on."""
        self.socket.shutdown(socket.SHUT_WR)

    def reset(self):
        self.socket.setsockopt(socket.SOL_SOCKET, socket.SO_LINGER, struct.pack("ii", 1, 0))
        self.socket.close()

    def close(self):
        self.socket.close()


def taken_unread(room):
    """How many bytes the system takes for a client that reads nothing, about."""
    with socket.create_server(("127.0.0.1", 0)) as server, Client(server.getsockname(), room):
        sender, taken = server.accept()[0], 0
        sender.setblocking(False)
        with sender, contextlib.suppress(BlockingIOError):
            while True:
                taken += sender.send(bytes(1 << 18))
    return taken


# ---- the program


class Ends:
    """What stands on standard error of the ends of connections."""

    def __init__(self, lines):
        found = [ENDED.fullmatch(it) for it in lines]
        self.told = [(int(it[1]), it[2], it[3]) for it in found if it]
        self.more = sum(int(it[1]) for it in map(MORE.fullmatch, lines) if it)
        self.others = [it for it in lines if not ENDED.fullmatch(it) and not MORE.fullmatch(it)]

    def count(self):
        return len(self.told) + self.more

    def why(self, client):
        """Why a client's connection ended; of one that didn't, none."""
        return next((why for _, address, why in self.told if address == client.address), None)


class Started:
    """A `kbroker start` that runs until the `with` is left. It must not end before."""

    def __init__(self, program, *arguments, listen="127.0.0.1:0", topics=("t:4",), files=None, **ways):
        """`files` is the number of files that it may have open, below the one to which it might raise that; `ways` are the three
        standard streams as Popen has them, and `closed`, those descriptors that it hasn't got."""
        place = [] if listen is None else ["--listen", listen]
        self.command = ["kbroker", "start", *place, *arguments, *topics]
        self.files, self.closed = files, ways.pop("closed", ())
        self.ways = {"stdin": subprocess.DEVNULL, "stdout": subprocess.PIPE, "stderr": subprocess.PIPE, **ways}
        self.program, self.lines, self.reader, self.listening, self.is_over = program, [], None, None, False
        self.notices, self.passes = [], []  # lines that say that nothing is kept, and what is cleaned; those of cleanings by itself

    def prepare(self):
        """Limits what will be the program, and lets signals end it: a shell may have them passed over in what it doesn't wait for."""
        for it in (signal.SIGINT, signal.SIGTERM):
            signal.signal(it, signal.SIG_DFL)
        resource.setrlimit(resource.RLIMIT_CORE, (0, 0))
        if self.files is not None:
            resource.setrlimit(resource.RLIMIT_NOFILE, (self.files, FILES))
        for it in self.closed:
            os.close(it)

    def __enter__(self):
        self.process = subprocess.Popen(self.command, executable=self.program, preexec_fn=self.prepare, **self.ways)
        try:
            if self.process.stderr is not None and 2 not in self.closed:
                self.reader = threading.Thread(target=self.read, daemon=True)
                self.reader.start()
            if self.process.stdout is not None and 1 not in self.closed:
                self.listening = self.first_line()
                self.at = address_of(self.listening.removeprefix("listening "))
        except BaseException:
            self.kill()
            raise
        return self

    def first_line(self):
        late = threading.Timer(SECONDS, self.process.kill)
        late.start()
        line = self.process.stdout.readline().decode("ascii", "replace")
        late.cancel()
        if not re.fullmatch(r"listening \S+:\d+\n", line):
            self.kill()
            raise Fault(f"standard output begins with {line!r}; standard error has {self.lines}")
        return line.rstrip("\n")

    def read(self):
        for data in self.process.stderr:
            line = data.decode("ascii", "replace").rstrip("\n")
            (self.notices if is_notice(line) else self.passes if told_of(line) else self.lines).append(line)

    def __exit__(self, kind, *_):
        status = self.process.poll()
        self.kill()
        if kind is None and status is not None and not self.is_over:
            raise Fault(f"it ended with status {status}; standard error has {self.lines[-5:]}")

    def kill(self):
        """Ends it, and waits until it is gone and what it wrote is read."""
        self.process.kill()
        self.process.wait()
        if self.reader:
            self.reader.join()
        for it in (self.process.stdout, self.process.stderr):
            if it is not None:
                it.close()

    def end(self, by=signal.SIGKILL):
        """Ends it by a signal before the `with` is left, and returns its status."""
        self.is_over = True
        self.process.send_signal(by)
        return self.process.wait(SECONDS)

    def client(self, room=None, host=None):
        return Client(self.at, room, host)

    def clients(self, count, host=None):
        """So many connections, each opened after the one before, which is the order in which they are accepted."""
        return [self.client(host=host) for _ in range(count)]

    def ends(self, count=0, seconds=SECONDS):
        """What is said of connections' ends, once so many have ended."""
        is_soon(lambda: Ends(self.lines).count() >= count, seconds)
        found = Ends(self.lines)
        holds(f"{found.count()} connections' ends are told, not {count}: {shown(self.lines)}", found.count() >= count)
        return found

    def tells(self, number, client, why):
        """It must tell this of a connection's end: its number, the client's address, and why. In `why`, * is anything."""
        form = re.escape(f"connection {number} {client.address}: {why}").replace(r"\*", ".+")
        said = is_soon(lambda: any(re.fullmatch(form, it) for it in self.lines))
        holds(f"no line 'connection {number} {client.address}: {why}' in {shown(self.lines)}", said)

    @contextlib.contextmanager
    def stands_still(self):
        """It does nothing meanwhile: all that comes is there before it looks at any of it."""
        self.process.send_signal(signal.SIGSTOP)
        try:
            holds("it doesn't stop", is_soon(lambda: self.fields()[0] == "T"))
            yield
        finally:
            self.process.send_signal(signal.SIGCONT)

    def fields(self):
        """What the system says of it, from its state on."""
        with open(f"/proc/{self.process.pid}/stat", encoding="ascii") as file:
            return file.read().rpartition(")")[2].split()

    # -- what it costs

    def memory(self):
        """The bytes of memory that it has at present."""
        with open(f"/proc/{self.process.pid}/status", encoding="ascii") as file:
            return int(re.search(r"^VmRSS:\s+(\d+) kB$", file.read(), re.M)[1]) * 1024

    def processor_seconds(self):
        fields = self.fields()
        return (int(fields[11]) + int(fields[12])) / os.sysconf("SC_CLK_TCK")

    def schedule(self):
        """The seconds in which it ran, and those in which it waited for a processor, where the system counts these."""
        try:
            with open(f"/proc/{self.process.pid}/schedstat", encoding="ascii") as file:
                return [int(it) / 1e9 for it in file.read().split()[:2]]
        except FileNotFoundError:
            return [self.processor_seconds()]

    def busy_seconds(self):
        """The seconds in which it ran or waited for a processor: where all are busy, a program that never rests has as many of
        these as on a quiet machine. A system that doesn't count how long it waited tells the processor time alone."""
        return sum(self.schedule())

    def rests(self, what, meanwhile=lambda: time.sleep(0.5)):
        """It must come to rest: to a half second, or what else goes on meanwhile, in which it runs, or waits for a processor, for
        next to no time: a tenth of a second at most."""
        busy = []

        def is_at_rest():
            before = self.busy_seconds()
            meanwhile()
            busy.append(self.busy_seconds() - before)
            return busy[-1] <= 0.1

        rested = is_soon(is_at_rest, 5)
        holds(f"{what}: each time it ran or waited for a processor, for {[round(it, 3) for it in busy]} s", rested)

    def limit_files(self, count):
        """Lets it have descriptors below this from now on."""
        most = resource.prlimit(self.process.pid, resource.RLIMIT_NOFILE)[1]
        resource.prlimit(self.process.pid, resource.RLIMIT_NOFILE, (count, most))

    def take_files(self):
        """Lets it have no further descriptor."""
        taken = {int(it) for it in os.listdir(f"/proc/{self.process.pid}/fd")}
        self.limit_files(next(it for it in range(len(taken) + 1) if it not in taken))


def address_of(text):
    """The address of ADDRESS:PORT, with brackets around one of IPv6, as sockets take it."""
    host, _, port = text.rpartition(":")
    return host.strip("[]"), int(port)


def is_free(port):
    """Whether nobody has a port of 127.0.0.1."""
    with contextlib.suppress(OSError):
        socket.create_server(("127.0.0.1", port)).close()
        return True
    return False


def free_port():
    """A port of 127.0.0.1 that nobody has, and that the system doesn't give to those who ask for any."""
    while not is_free(port := random.randrange(10_000, 32_000)):
        pass
    return port


def ends_by_itself(program, *arguments):
    """The status, standard output and standard error, but for what each start says of itself, of a `kbroker start` that must end by
    itself."""
    started = subprocess.Popen(
        ["kbroker", "start", *arguments],
        executable=program,
        stdin=subprocess.DEVNULL,
        stdout=subprocess.PIPE,
        stderr=subprocess.PIPE,
    )
    try:
        out, err = started.communicate(timeout=SECONDS)
    except subprocess.TimeoutExpired:
        started.kill()
        started.communicate()
        raise Fault("it did not end") from None
    lines = err.decode("ascii", "replace").splitlines(keepends=True)
    return started.returncode, out.decode("ascii", "replace"), "".join(it for it in lines if not is_notice(it.rstrip("\n")))
