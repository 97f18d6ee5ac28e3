"""Clients of a server that call again where no byte of an answer came, and how long calls wait."""
import collections
import contextlib
import http.client
import json
import socket
import struct

from serving import PATIENCE, Off, Waited, Wire, expect

LONGEST = 1  # seconds that a call may wait
TURNS = 6  # of one call


class Longest:
    """The longest of some calls, in seconds by the clock. One that kept its client waiting for too
    long is refused, with what happened when."""

    def __init__(self, port, most=LONGEST):
        self.port, self.most, self.seconds = port, most, 0

    @contextlib.contextmanager
    def call(self, what):
        """Something that a client waits for. It may note what happens meanwhile."""
        waited, notes = Waited(self.port), []
        yield lambda text: notes.append(f"{text} after {waited.seconds():.3f} s")
        took, idle = waited.seconds(), waited.idle()
        self.seconds = max(self.seconds, took)
        if idle > self.most:
            happened = "; ".join([f"{took:.2f} s by the clock", *notes])
            raise Off(f"{what} waited {idle:.2f} s, and may wait {self.most} s: {happened}")


class Caller:
    """A client of http.client, which sends a call again where no byte of its answer came."""

    def __init__(self, port, most=LONGEST):
        self.port, self.again, self.longest = port, 0, Longest(port, most)
        self.line, self.open = None, collections.deque()

    def connected(self):
        if self.line is None:
            patience = max(PATIENCE, self.longest.most)
            self.line = http.client.HTTPConnection("127.0.0.1", int(self.port), timeout=patience)
        return self.line

    def close(self):
        if self.line:
            self.line.close()
        self.line = None

    def close_late(self):
        """Closes the connection three connections later."""
        self.open.append(self.line)
        self.line = None
        if len(self.open) > 3:
            self.open.popleft().close()

    def call(self, method, path, keys=None):
        """The body of an answer."""
        with self.longest.call(f"{method} {path}") as note:
            for _ in range(TURNS):
                try:
                    self.connected().request(method, path, keys and json.dumps(keys))
                    note("it was sent")
                    answer = self.line.getresponse()
                    break
                except ConnectionError as it:
                    note(f"it ended by {it!r}")
                    self.close()
                    self.again += 1
            else:
                raise Off(f"no answer came to {method} {path} in {TURNS} turns")
            body = answer.read()
            expect(f"the status of {method} {path}, {body!r}", answer.status, 200)
        return body

    def abandon(self, request):
        """Sends these bytes, and breaks the connection without reading anything."""
        self.close()
        with contextlib.suppress(ConnectionError), Wire(self.port) as wire:
            wire.socket.setsockopt(socket.SOL_SOCKET, socket.SO_LINGER, struct.pack("ii", 1, 0))
            wire.socket.sendall(request)
