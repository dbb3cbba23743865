"""Runs the program on a row, and says what differs from what the row says."""
import contextlib
import copy
import functools
import os
import resource
import signal
import socket
import struct
import subprocess
import tempfile
import threading

from encoders import copies
from generated import cleanings, orders
from runner.places import ROOT
from runner.rows import SECONDS, made

CLIENT_SECONDS = 30  # that a client waits for the next bytes of a reply


def reset_behind(data):
    """Returns the descriptor of a connection that gives these bytes, and of which each read behind them fails."""
    with socket.create_server(("127.0.0.1", 0)) as server:
        client = socket.create_connection(server.getsockname())
        source, _ = server.accept()
    send_and_reset(client, data)
    return source.detach()


def send_and_reset(client, data):
    """Sends bytes, and resets the connection. They are still given before the other side's calls fail."""
    client.sendall(data)
    client.setsockopt(socket.SOL_SOCKET, socket.SO_LINGER, struct.pack("ii", 1, 0))
    client.close()


def source_of(row, data):
    """Returns the descriptor that the program reads, and what feeds it."""
    if row.stdin == "closed":
        return None, lambda: None
    if row.stdin == "reset":
        return reset_behind(data), lambda: None
    if row.stdin:
        return os.open(row.stdin, os.O_RDONLY), lambda: None
    # A pipe in packet mode gives each write to a read of its own.
    mode = os.O_DIRECT if row.reads == "bytes" else 0
    source, sink = os.pipe2(os.O_CLOEXEC | mode)
    step = 1 if row.reads == "bytes" else 1 << 16

    def feed():
        try:
            for at in range(0, len(data), step):
                piece = data[at : at + step]
                while piece:
                    piece = piece[os.write(sink, piece) :]
        except BrokenPipeError:
            pass  # the program refused before it read all
        finally:
            os.close(sink)

    return source, feed


@contextlib.contextmanager
def at_a_taken_port(arguments):
    """The arguments with a port at which another listens meanwhile, in place of the argument PORT."""
    with socket.create_server(("127.0.0.1", 0)) as other:
        port = str(other.getsockname()[1]).encode()
        yield [port if it == b"PORT" else it for it in arguments]


@functools.cache
def own_space(program):
    """The address space that a program has once it has answered a request, in bytes."""
    started = subprocess.Popen([program, "session", "t:1"], stdin=subprocess.PIPE, stdout=subprocess.PIPE)
    with started, started.stdin, started.stdout:
        started.stdin.write(bytes.fromhex("0000000a 0012 0000 00000009 ffff"))
        started.stdin.flush()
        started.stdout.read(4)
        with open(f"/proc/{started.pid}/statm", encoding="ascii") as file:
            return int(file.read().split()[0]) * resource.getpagesize()


def space_of(row, program):
    """The most address space that a program may have, in bytes, if the row says so."""
    if row.beyond_own:
        return own_space(program) + row.memory
    return row.memory


def limit(row, space):
    """Gives this process so much address space, if any is said, the files that the row says, and no core file. A file then takes the
    bytes that the row says, and a write behind them fails."""
    resource.setrlimit(resource.RLIMIT_CORE, (0, 0))
    if space is not None:
        resource.setrlimit(resource.RLIMIT_AS, (space, space))
    if row.files is not None:
        resource.setrlimit(resource.RLIMIT_NOFILE, (row.files, row.files))
    if row.takes is not None:
        resource.setrlimit(resource.RLIMIT_FSIZE, (row.takes, row.takes))
        signal.signal(signal.SIGXFSZ, signal.SIG_IGN)


def taken_by(row):
    """A new file for what is written, where the row says how many bytes are taken; else nothing."""
    return contextlib.nullcontext() if row.takes is None else tempfile.TemporaryFile()


def all_of(file):
    file.seek(0)
    return file.read()


def sink_of(name):
    """Where the program writes what isn't looked at: a file, or a pipe that nobody reads; and else a pipe that is read."""
    if name is None or name == "closed":
        return subprocess.PIPE
    if name == "left":
        source, sink = os.pipe()
        os.close(source)
        return sink
    return os.open(name, os.O_WRONLY)


def close_all(descriptors):
    for it in descriptors:
        if it is not None and it != subprocess.PIPE:
            os.close(it)


def communicate(row, started):
    """Returns what came on standard output and on standard error, and the status."""
    try:
        out, err = started.communicate(timeout=row.seconds)
    except subprocess.TimeoutExpired:
        started.kill()
        started.communicate()
        return b"", b"(it did not end)", -1
    return out or b"", err or b"", started.returncode


def run(program, row, arguments):
    """Returns what came on standard output and on standard error, and the status."""
    source, feed = source_of(row, b"".join(copies.input_of(it, ROOT) for it in row.input) + row.data)

    space = space_of(row, program)

    def prepare():
        limit(row, space)
        if source is None:
            os.close(0)
        if row.output == "closed":
            os.close(1)
        if row.errors == "closed":
            os.close(2)

    with taken_by(row) as taken:
        output = os.dup(taken.fileno()) if taken else sink_of(row.output)
        errors = sink_of(row.errors)
        started = subprocess.Popen(
            ["kbroker", *arguments],
            executable=program,
            stdin=source,
            stdout=output,
            stderr=errors,
            preexec_fn=prepare,
        )
        close_all((source, output, errors))
        feeder = threading.Thread(target=feed, daemon=True)
        feeder.start()
        out, err, status = communicate(row, started)
        feeder.join()
        return all_of(taken) if taken else out, err, status


def received(client, size):
    """The next bytes that a client gets: so many, or fewer where the program ends what it sends."""
    got = b""
    while len(got) < size and (piece := client.recv(min(size - len(got), 1 << 16))):
        got += piece
    return got


def send_too_much(client, data):
    """Sends what the program doesn't read to its end, since it ends the connection before: then one of the calls fails."""
    try:
        client.sendall(data)
        client.shutdown(socket.SHUT_WR)
        client.recv(1)
    except TimeoutError:
        raise
    except OSError:
        return
    raise ValueError("the connection was not ended")


def ask(port, steps):
    """Returns what a client gets for each of its steps. One of a single step sends its bytes and stops; one of several reads
    what it must get for a step before it goes on to the next, and before it stops."""
    got = []
    with socket.create_connection(("127.0.0.1", port), timeout=CLIENT_SECONDS) as client:
        for sent, wanted in steps:
            if sent == "reset":
                send_and_reset(client, b"")
                return [*got, b""]
            if sent.startswith("behind "):
                other = socket.create_connection(("127.0.0.1", port), timeout=CLIENT_SECONDS)
                send_and_reset(other, copies.input_of(sent.removeprefix("behind "), ROOT))
                got.append(b"")
                continue
            if sent.startswith("unread "):
                send_too_much(client, copies.input_of(sent.removeprefix("unread "), ROOT))
                return [*got, b""]
            client.sendall(copies.input_of(sent, ROOT))
            got.append(received(client, len(wanted)) if len(steps) > 1 else b"")
        client.shutdown(socket.SHUT_WR)
        got[-1] += b"".join(iter(lambda: client.recv(1 << 16), b""))
    return got


def is_refused(address, port):
    """Whether nobody listens at an address."""
    try:
        socket.create_connection((address, port), timeout=CLIENT_SECONDS).close()
    except ConnectionRefusedError:
        return True
    return False


def talks_of(row, port):
    """Lets the clients ask, one after the other, and returns of each what it got, and what it must get."""
    talks = []
    for steps in row.clients:
        steps = [
            (sent, b"".join(copies.reply_of(it.replace("PORT", str(port)), ROOT) for it in gets)) for sent, gets in steps
        ]
        talks.append((ask(port, steps), [wanted for _, wanted in steps]))
    return talks


def listen(program, row):
    """Returns what came on standard output behind 'listening PORT', on standard error, the status, and the clients' talks."""
    errors = sink_of(row.errors)
    space = space_of(row, program)
    started = subprocess.Popen(
        ["kbroker", *row.arguments],
        executable=program,
        stdin=subprocess.DEVNULL,
        stdout=subprocess.PIPE,
        stderr=errors,
        preexec_fn=lambda: limit(row, space),
    )
    close_all([errors])
    late = threading.Timer(SECONDS, started.kill)
    late.start()
    try:
        name, _, port = started.stdout.readline().strip().partition(b" ")
        if reached := [it for it in row.refuses if not is_refused(it, int(port))]:
            raise ValueError(f"it listens at {reached}")
        if row.output == "left":
            started.stdout.close()
            started.stdout = None
        talks = talks_of(row, int(port)) if name == b"listening" else []
        out, err = started.communicate()
    except (OSError, ValueError) as why:
        started.kill()
        started.communicate()
        return b"", f"({why})".encode(), -1, []
    finally:
        late.cancel()
    return out or b"", err or b"", started.returncode, talks


def listens(row):
    """Whether the program must come to listen, so that clients can ask it."""
    is_asked = row.status == 0 or row.clients or row.files is not None
    return row.arguments[:1] == [b"serve"] and bool(is_asked)


def shown(data):
    return repr(data if len(data) <= 200 else data[:100] + b" .. " + data[-100:])


def faults_of_session(program, row):
    """What is wrong with a session that is run with several cleanings, where the replies to all else must be the same."""
    outputs = []
    for way, data in zip(cleanings.WAYS, row.session.inputs):
        each = copy.copy(row)
        each.data = data
        out, err, status = run(program, each, row.arguments)
        if err or status:
            return [f"{way}: status {status}, standard error {shown(err)}"]
        outputs.append(out)
    fault = row.session.fault(outputs)
    return [fault] if fault else []


def faults_of_run(program, row):
    """What of a run is not as the row says."""
    if listens(row):
        out, err, status, talks = listen(program, row)
    else:
        with at_a_taken_port(row.arguments) as arguments:
            out, err, status = run(program, row, arguments)
        talks = []
    wanted = row.stdout[: row.takes]
    faults = [
        f"{what}: {given}, not {due}"
        for what, given, due, same in (
            ("status", status, row.status, status == row.status),
            ("standard output", shown(out), shown(wanted), out == wanted),
            ("standard error", shown(err), shown(row.stderr), err == row.stderr),
            ("clients that were served", len(talks), len(row.clients), len(talks) == len(row.clients)),
        )
        if not same
    ]
    return faults + [
        f"client {number}: {[shown(it) for it in got]}, not {[shown(it) for it in wanted]}"
        for number, (got, wanted) in enumerate(talks)
        if got != wanted
    ]


def faults_of(program, row):
    """What is wrong with a row."""
    whole = made(row)
    return faults_of_session(program, whole) if whole.session else faults_of_run(program, whole)


# ---- sessions that aren't rows


def faults_of_millions(program):
    """What is wrong with the table of ten million batches, which are made as they are read."""
    started = subprocess.Popen([program, "table"], stdin=subprocess.PIPE, stdout=subprocess.PIPE)
    late = threading.Timer(SECONDS, started.kill)
    late.start()
    try:
        for block in orders.millions():
            started.stdin.write(block)
        out = started.communicate()[0]
    except OSError as why:
        started.kill()
        out = f"({why})".encode()
    finally:
        late.cancel()
    return [] if out == orders.LAST and started.wait() == 0 else [f"{shown(out)}"]


def faults_of_waiting(program):
    """What is wrong with a session whose client waits for each reply before it sends the next request."""
    asked = copies.input_of("listoffsets t:0 -1", ROOT)
    told = copies.reply_of("listed t:0 0 -1 0", ROOT)
    started = subprocess.Popen([program, "session", "t:1"], stdin=subprocess.PIPE, stdout=subprocess.PIPE)
    late = threading.Timer(CLIENT_SECONDS, started.kill)
    late.start()
    out = b""
    try:
        for _ in range(3):
            started.stdin.write(asked)
            started.stdin.flush()
            out += started.stdout.read(len(told))
        out += started.communicate()[0]
    except OSError as why:
        started.kill()
        out = f"({why})".encode()
    finally:
        late.cancel()
    return [] if out == told * 3 and started.wait() == 0 else [f"{shown(out)}"]
