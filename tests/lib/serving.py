"""Servers of the program on 127.0.0.1, and connections to them, for scripts that try both."""
import contextlib
import json
import os
import re
import socket
import subprocess
import threading
import time

PATIENCE = 5  # seconds after which a client gives up
TRIES = 5  # for a port that another program takes meanwhile
STOCK = b"GET /stock HTTP/1.1\r\n\r\n"
ANSWER = re.compile(rb"HTTP/1\.1 (\d+) [^\r]*\r\n(?:[^\r]+\r\n)*?Content-Length: (\d+)\r\n\r\n")


class Off(Exception):
    """What came is not what has to come."""


class Port(int):
    """The port of a server, which knows the server's process."""

    process = None


def busy(process):
    """The seconds for which a process ran or waited for a processor, as Linux counts them; 0 where
    that is not known."""
    try:
        with open(f"/proc/{process}/schedstat") as counts:
            return sum(map(int, counts.read().split()[:2])) / 1e9
    except OSError:
        return 0


class Waited:
    """How long a client waited for something: the seconds by the clock, and those of them in which
    neither it nor the server ran or waited for a processor. So a busy machine keeps nobody out, and
    a server that sleeps while a client is there does."""

    def __init__(self, port):
        self.processes = os.getpid(), port.process
        self.begun = time.monotonic(), *map(busy, self.processes)

    def seconds(self):
        return time.monotonic() - self.begun[0]

    def idle(self):
        """A lower bound of the seconds in which both slept."""
        return self.seconds() - sum(map(busy, self.processes)) + sum(self.begun[1:])


def exchange(port, sent, patience):
    """What is answered to these bytes over a connection, until it is closed or broken, or nothing
    comes for so many seconds."""
    came = b""
    with contextlib.suppress(OSError):
        with socket.create_connection(("127.0.0.1", int(port)), timeout=patience) as wire:
            sender = threading.Thread(target=send, args=(wire, sent))
            sender.start()
            with contextlib.suppress(OSError):
                while part := wire.recv(65_536):
                    came += part
            sender.join()
    return came


def send(wire, sent):
    """Sends these bytes over a connection, and that there are no more."""
    with contextlib.suppress(OSError):
        wire.sendall(sent)
        wire.shutdown(socket.SHUT_WR)


def started(program, *more, **how):
    """A server and its port, on which it listens. Where another program took the port meanwhile,
    it is tried again with another."""
    for _ in range(TRIES):
        with socket.create_server(("127.0.0.1", 0)) as free:
            port = free.getsockname()[1]
        words = [program, "serve", "--port", str(port), *map(str, more)]
        server = subprocess.Popen(words, stdin=subprocess.DEVNULL, stdout=subprocess.PIPE, **how)
        line = server.stdout.readline()
        if line == b"listening on 127.0.0.1:%d\n" % port:
            return server, port
        server.kill()
        server.communicate()
    raise Off(f"the server printed {line!r}")


@contextlib.contextmanager
def served(program, *more, **how):
    """The port of a server, by these further words, which is ended afterwards."""
    server, number = started(program, *more, **how)
    port = Port(number)
    port.process = server.pid
    try:
        yield port
        if server.poll() is not None:
            raise Off(f"the server ended with status {server.returncode}")
    finally:
        server.kill()
        server.communicate()


@contextlib.contextmanager
def within(seconds, port, what):
    """Something that may wait for a server for so many seconds."""
    waited = Waited(port)
    yield
    if (took := waited.idle()) > seconds:
        raise Off(f"{what} waited {took:.2f} s, and may wait {seconds} s")


def expect(what, came, wanted):
    if came != wanted:
        raise Off(f"{what}: {came!r}, not {wanted!r}")


class Wire:
    """A connection whose answers are read one by one."""

    def __init__(self, port, patience=PATIENCE):
        self.socket = socket.create_connection(("127.0.0.1", int(port)), timeout=patience)
        self.socket.setsockopt(socket.IPPROTO_TCP, socket.TCP_NODELAY, 1)
        self.came = b""

    def __enter__(self):
        return self

    def __exit__(self, *_):
        self.socket.close()

    def answer(self):
        """The body of the next answer, or None where the connection ended before it."""
        while not (head := ANSWER.match(self.came)) or len(self.came) < head.end() + int(head[2]):
            part = self.socket.recv(1 << 16)
            if not part and self.came:
                raise Off(f"the connection ended within an answer, after {self.came!r}")
            if not part:
                return None
            self.came += part
        expect("a status", head[1], b"200")
        end = head.end() + int(head[2])
        body, self.came = self.came[head.end():end], self.came[end:]
        return body

    def ask(self, request=STOCK):
        """The answer to a request."""
        self.socket.sendall(request)
        return self.answer()

    def expect_end(self, what):
        expect(f"after {what} its connection", self.answer(), None)


def delivery(part, number):
    return {"count": 1, "day": "2026-05-01", "number": number, "part": part}


def spelled(path, keys):
    """The bytes of a request that posts these keys."""
    body = json.dumps(keys)
    return f"POST {path} HTTP/1.1\r\nContent-Length: {len(body)}\r\n\r\n{body}".encode()


def on_hand(body):
    return {it["part"]: it["count"] for it in json.loads(body)["hand"]}
