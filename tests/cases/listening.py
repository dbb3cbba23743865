"""How `kbroker start` comes to listen and what it names: its address, the one that clients are told, refusals before it listens;
and its standard streams, none of which can stop it.

What must come is worked by hand.
"""
import contextlib
import os
import re
import signal
import socket
import struct
import tempfile
import time

from cases.many_clients import fill, frame, works
from cases.started import (
    SECONDS,
    CannotBeTried,
    Client,
    Ends,
    Fault,
    Started,
    ends_by_itself,
    free_port,
    holds,
    is_free,
    is_soon,
    reply,
    request,
    same,
)
from encoders import frames
from runner.places import ROOT

LARGEST_LINE = 4_096


# ---- addresses


def described(host, port):
    """A Metadata response without topics, of a leader at this host and port."""
    broker = struct.pack(">i", 1) + frames.text(host.encode()) + struct.pack(">ih", port, -1)
    return frames.response(frames.array([broker]) + struct.pack(">i", 1) + frames.array([]))


def coordinated(host, port):
    return frames.response(struct.pack(">hi", 0, 1) + frames.text(host.encode()) + struct.pack(">i", port))


def tells_where(client, host, port):
    """Both responses that name the broker must name this host and port."""
    client.send(request("metadata none") + request("coordinator g"))
    client.gets(described(host, port), f"Metadata, of {host} and {port}")
    client.gets(coordinated(host, port), f"FindCoordinator, of {host} and {port}")


def default_address(program):
    """It is told as it listens, with the port that it got, on one line and no more."""
    with Started(program) as broker:
        same("the host that it listens on", broker.at[0], "127.0.0.1")
        holds(f"the port {broker.at[1]}", 0 < broker.at[1] < 65_536)
        with broker.client() as client:
            tells_where(client, *broker.at)
            works(client, 0)
        same("standard error behind an ordinary client", broker.ends(1).others, [])
        os.set_blocking(broker.process.stdout.fileno(), False)
        same("standard output behind its line", broker.process.stdout.read(), None)


def given_address(program):
    """A port that is given is the one that it listens on."""
    port = free_port()
    with Started(program, listen=f"127.0.0.1:{port}") as broker, broker.client() as client:
        same("what it listens on", broker.listening, f"listening 127.0.0.1:{port}")
        tells_where(client, "127.0.0.1", port)


ADVERTISED = [
    ("broker.example:19092", "broker.example", 19_092),
    ("10.1.2.3:1", "10.1.2.3", 1),
    ("[2001:db8::1]:65535", "2001:db8::1", 65_535),
    ("::1:7", "::1", 7),
    ("[a:1", "[a", 1),
    ("a" * 255 + ":9", "a" * 255, 9),
]


def advertised(program):
    """What is given is named, and the address that it listens on is not; port 0 is the port that it got."""
    for given, host, port in ADVERTISED:
        with Started(program, "--advertise", given) as broker, broker.client() as client:
            tells_where(client, host, port)
    with Started(program, "--advertise", "broker.example:0") as broker, broker.client() as client:
        tells_where(client, "broker.example", broker.at[1])
    with Started(program, "--advertise", "a.example:7", listen="0.0.0.0:0") as broker:
        holds(f"{broker.listening} for 0.0.0.0", broker.listening.startswith("listening 0.0.0.0:"))
        with Client(("127.0.0.1", broker.at[1])) as client:
            tells_where(client, "a.example", 7)


def has_address(host):
    """Whether this machine has an address."""
    try:
        socket.create_server((host, 0), family=socket.AF_INET6 if ":" in host else socket.AF_INET).close()
    except OSError:
        return False
    return True


def version_6(program):
    """An address of IPv6, where the machine has it: in brackets on the lines, and without them in responses."""
    if not has_address("::1"):
        raise CannotBeTried("the machine has no address of IPv6")
    with Started(program, listen="[::1]:0") as broker, broker.client() as client:
        holds(f"{broker.listening} for [::1]", broker.listening.startswith("listening [::1]:"))
        tells_where(client, "::1", broker.at[1])
        client.send(frame(60, 0))
        client.gets_to_the_end(b"")
        broker.tells(0, client, "frame 2: UnknownApi (key 60, version 0)")
    with Started(program, "--advertise", "a.example:7", listen="[::]:0") as broker:
        with Client(("::1", broker.at[1])) as client:
            tells_where(client, "a.example", 7)


def refused(program, status, begins, *arguments):
    """It must end by itself with a status and one line on standard error, which begins so, and with nothing on standard output."""
    got, out, err = ends_by_itself(program, *arguments)
    same(f"the status of {arguments}", got, status)
    same(f"standard output of {arguments}", out, "")
    lines = err.splitlines()
    holds(f"standard error of {arguments}: {err!r}", len(lines) == 1 and lines[0].startswith(begins))
    return lines[0]


def taken_port(program):
    """Where another listens, status 4, and a line that names the address; the other listens on."""
    with socket.create_server(("127.0.0.1", 0)) as other:
        at = f"127.0.0.1:{other.getsockname()[1]}"
        refused(program, 4, f"kbroker: {at}: ", "--listen", at, "t:1")
        Client(other.getsockname()).close()
    with Started(program) as broker, broker.client() as client:
        at = broker.listening.removeprefix("listening ")
        refused(program, 4, f"kbroker: {at}: ", "--listen", at, "t:1")
        works(client, 0, 3)


def address_of_another(program):
    """An address that isn't one of this machine's is named likewise: one for documents, which none has."""
    refused(program, 4, "kbroker: 192.0.2.1:0: ", "--listen", "192.0.2.1:0", "t:1")


def refused_configuration(program):
    """It is refused before anything is bound: a port that is taken, which would be status 4, isn't looked at."""
    with socket.create_server(("127.0.0.1", 0)) as other:
        at = f"127.0.0.1:{other.getsockname()[1]}"
        for topics, name in ((["t:65"], "BadPartitions"), (["t:1", "t:2"], "TopicTwice"), (["a b:1"], "BadTopic")):
            line = refused(program, 2, "configuration: ", "--listen", at, *topics)
            same("the refusal", line, f"configuration: {name}")
        other.settimeout(0.1)
        with contextlib.suppress(TimeoutError):
            other.accept()
            raise Fault("it connected to the port")


def unspecified_address(program):
    """Clients can't be told an address that is none: where it listens on all, --advertise must be given."""
    for listen in ("0.0.0.0:0", "[::]:0"):
        status, out, err = ends_by_itself(program, "--listen", listen, "t:1")
        same(f"the status of {listen}", (status, out), (2, ""))
        holds(f"standard error of {listen}: {err!r}", "--advertise" in err)


def same_port_again(program):
    """A port is free at once after an end: with a client that is connected, and one that the broker ended before."""
    port = free_port()
    for _ in range(3):
        with Started(program, listen=f"127.0.0.1:{port}") as broker:
            client, ended = broker.clients(2)
            works(client, 0, 2)
            ended.send(frame(60, 0))
            ended.gets_to_the_end(b"")
            ended.close()
            broker.end()
            client.gets_to_the_end(b"")
            client.close()


def ended_from_outside(program):
    """By a signal, whatever its clients do."""
    for name in (signal.SIGTERM, signal.SIGINT):
        with Started(program) as broker, broker.client() as client, broker.client(room=4096) as slow:
            fill(client)
            slow.send(request("fetch t:0 0") * 20)
            client.send(request("versions")[:7])
            same(f"the status by {name.name}", broker.end(name), -name)


def stopped_and_continued(program):
    """A stop and a go-on, by signals, change nothing: not while it waits, and not for what came meanwhile."""
    with Started(program) as broker, broker.client() as client:
        works(client, 0)
        for turn in range(1, 4):
            broker.process.send_signal(signal.SIGSTOP)
            time.sleep(0.1)
            if turn > 1:
                client.send(request("versions"))
            broker.process.send_signal(signal.SIGCONT)
            if turn > 1:
                client.gets(reply("versions 0"))
            time.sleep(0.1)
            works(client, turn)


def options_that_reach_it(program):
    """A follower takes what it is delivered and nothing that is produced; a leader gives out the first producer id that is said."""
    with Started(program, "--role", "follower") as broker, broker.client() as client, broker.client() as other:
        client.ask("deliver t:0 batch base:7 a=1", "delivered 0 0")
        other.ask("get t:0 a", "got 0 1")
        other.ask("produce t:0 batch a=2", "produced t:0 6 -1")
        client.ask("coordinator g", "coordinator 6 -1 :-1")
    with Started(program, "--role", "leader", "--first-producer", "41") as broker:
        with broker.client() as client, broker.client() as other:
            client.ask("producer-id", "producer 0 41 0")
            other.ask("producer-id", "producer 0 42 0")


def ordinary_port(program):
    """Unless it is said where, it listens on 127.0.0.1:9092. Where another has this port, that can't be seen."""
    if not is_free(9092):
        raise CannotBeTried("another has port 9092")
    with Started(program, listen=None) as broker, broker.client() as client:
        same("what it listens on", broker.listening, "listening 127.0.0.1:9092")
        tells_where(client, "127.0.0.1", 9092)


def unit_of_systemd(program):
    """The unit in examples/ starts a broker that no other machine reaches, and that keeps what it is sent."""
    with open(f"{ROOT}/examples/kbroker.service", encoding="utf-8") as file:
        words = re.search(r"^ExecStart=\S+ start (.*)$", file.read(), re.M)[1].replace("%H", "localhost").split()
    topics = [words.pop(), words.pop()]
    options = dict(zip(words[::2], words[1::2]))
    host = options.pop("--listen").rpartition(":")[0]
    with tempfile.TemporaryDirectory() as folder:
        options["--data"] = f"{folder}/data"
        for number in range(2):
            with Started(program, *sum(options.items(), ()), listen=f"{host}:0", topics=topics) as broker:
                holds(f"it is {broker.listening}", broker.listening.startswith("listening 127.0.0.1:"))
                with broker.client() as client:
                    client.ask("produce prices:3 batch apple=3", f"produced prices:3 0 {number}")


# ---- standard streams


def talks(broker, first=0):
    """Clients that end in several ways, so that lines are due, and one that is served all along: its replies must be its own."""
    with broker.client() as other:
        for turn in range(4):
            clients = broker.clients(5)
            for it in clients[:3]:
                it.send(request("versions") + frame(60, 0))
            for it in clients[:3]:
                it.gets_to_the_end(reply("versions 0"))
            clients[3].reset()
            for it in clients:
                it.close()
            works(other, first + turn * 3, 3)
    return first + 12


@contextlib.contextmanager
def full_pipe():
    """The end of a pipe that nobody reads and that takes no more bytes."""
    source, sink = os.pipe()
    try:
        os.set_blocking(sink, False)
        for size in (LARGEST_LINE, 1):
            with contextlib.suppress(BlockingIOError):
                while True:
                    os.write(sink, b"x" * size)
        os.set_blocking(sink, True)
        yield source, sink
    finally:
        os.close(source)
        os.close(sink)


def left_pipe():
    """The end of a pipe whose other end is closed."""
    source, sink = os.pipe()
    os.close(source)
    return sink


def read_what_is_there(source):
    """What a pipe holds at present."""
    got = b""
    os.set_blocking(source, False)
    with contextlib.suppress(BlockingIOError):
        while piece := os.read(source, 1 << 16):
            got += piece
    return got


def full_errors(program):
    """Standard error is a full pipe; once there is room, later lines come, and whole ones alone."""
    with full_pipe() as (source, sink), Started(program, stderr=sink) as broker:
        end = talks(broker)
        read_what_is_there(source)
        with broker.client() as client:
            client.send(frame(60, 0))
            client.gets_to_the_end(b"")
        got, wanted = [b""], f" {client.address}: frame 0: UnknownApi (key 60, version 0)\n".encode()

        def is_told():
            got[0] += read_what_is_there(source)
            return wanted in got[0]

        said = is_soon(is_told)
        holds(f"no line of an end once there is room: {got[0]!r}", said)
        same("lines of another kind", Ends(got[0].decode().splitlines()).others, [])
        talks(broker, end)


def closed_errors(program):
    """Nobody reads standard error; it is closed, so that the socket which listens has its number; it is a full device."""
    sink = left_pipe()
    with Started(program, stderr=sink) as broker:
        talks(broker)
    os.close(sink)
    with Started(program, closed=[2]) as broker:
        talks(broker)
    with open("/dev/full", "wb") as full, Started(program, stderr=full) as broker:
        talks(broker)


def when_it_listens(broker, port):
    """Waits until it listens at a port of which no line could be written."""

    def is_there():
        try:
            socket.create_connection(("127.0.0.1", port), timeout=SECONDS).close()
        except ConnectionRefusedError:
            holds("it has ended", broker.process.poll() is None)
            return False
        return True

    holds("it doesn't listen", is_soon(is_there))
    broker.at = ("127.0.0.1", port)


def closed_output(program):
    """Standard output is closed, a pipe that nobody reads, one that is full, a full device; or all three streams are closed."""
    for closed in ([1], [0, 1, 2]):
        port = free_port()
        with Started(program, listen=f"127.0.0.1:{port}", closed=closed) as broker:
            when_it_listens(broker, port)
            talks(broker)
    sink = left_pipe()
    for output in (sink, os.open("/dev/full", os.O_WRONLY)):
        port = free_port()
        with Started(program, listen=f"127.0.0.1:{port}", stdout=output) as broker:
            os.close(output)
            when_it_listens(broker, port)
            talks(broker)
    port = free_port()
    with full_pipe() as (_, sink), Started(program, listen=f"127.0.0.1:{port}", stdout=sink, stderr=sink) as broker:
        when_it_listens(broker, port)
        talks(broker)


def closed_streams(program):
    """All three are closed, so that connections have their numbers. Of the first ones, which stay, none gets a line of the ends of
    others, and each is served on."""
    port, kept = free_port(), []
    with Started(program, listen=f"127.0.0.1:{port}", closed=[0, 1, 2]) as broker:
        when_it_listens(broker, port)
        for offset in range(4):
            kept.append(broker.client())
            works(kept[-1], offset)
        end = talks(broker, len(kept))
        for offset, it in enumerate(kept, end):
            came = b"" if it.gets_nothing(0.1) else it.socket.recv(LARGEST_LINE)
            same("what comes to a connection that asked for nothing while others ended", came, b"")
            works(it, offset)
        for it in kept:
            it.close()


def streams_that_break(program):
    """Both are left while it runs, and standard error while lines come."""
    with Started(program) as broker:
        end = talks(broker)
        broker.process.stdout.close()
        broker.process.stdout = None
        end = talks(broker, end)
    source, sink = os.pipe()
    with Started(program, stderr=sink) as broker:
        os.close(sink)
        end = talks(broker)
        os.close(source)
        talks(broker, end)


CASES = [
    ("the address that it listens on", default_address),
    ("a port that is given", given_address),
    ("the address where none is given", ordinary_port),
    ("an address that is advertised", advertised),
    ("addresses of IPv6", version_6),
    ("a follower, and a first producer id", options_that_reach_it),
    ("a port at which another listens", taken_port),
    ("an address of another machine", address_of_another),
    ("configurations that are refused", refused_configuration),
    ("all addresses, and none advertised", unspecified_address),
    ("a port that is free again at once", same_port_again),
    ("an end from outside", ended_from_outside),
    ("a stop from outside, and a go-on", stopped_and_continued),
    ("the unit in examples", unit_of_systemd),
    ("standard error that is full", full_errors),
    ("standard error that nobody reads", closed_errors),
    ("standard output that nobody reads", closed_output),
    ("standard streams that are all closed", closed_streams),
    ("standard streams that break while it runs", streams_that_break),
]
