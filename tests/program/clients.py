#!/usr/bin/env python3
"""Tries servers of the program with several clients at once: none is kept out by another that has
no request under way, and none loses what it sent.

    tests/program/clients.py [PROGRAM [PART..]]

By default it takes the program that ./office built, and all parts.

Each part has a server of its own on 127.0.0.1, over tables in memory, and ends it:

- `processes`: three send 300 deliveries each over connections that are kept, closed late or
  dropped; beside them a dashboard polls every 50 ms over one connection. A call whose connection
  ended before a byte of its answer is sent again. None is lost, none was done without an answer,
  none waits for over a second. Time in which the client or the server runs, or waits for a
  processor, is no waiting: so a busy machine does not count.
- `sessions`: three sessions of `requests` do the same, with retries as docs/HTTP.md shows them, but
  no pauses before a retry.
- `turns`: three calls in turn, of which the earlier connections are still open, take under 0.1 s
  together; of `requests.get` too.
- `half`: a client that sent half a request is ended after 30 seconds while three others wait. Then
  each of these is served, although all keep their connections.
- `most`: of 40,000 requests that are sent at once, a connection answers 10,000 and ends, without a
  reset. The next connection is served.
- `pipelined`: one and a half requests are under way until the second one is whole, although another
  client waits. Then that one is served.
- `silent`: a new connection that sends nothing keeps the next one out for 0.2 s at most; one that
  sends after 30 ms is served before it.
- `idle`: a connection stays open while nobody waits (three seconds), and ends when another comes.
- `late`: a request that comes after its connection gave way sees an end, no reset, and is not done.
- `examples`: the one of docs/HTTP.md in Python prints what it shows, beside an idle connection.
- `lost`: examples/commit.py commits a plan, and drops one that breaks a rule, although of five
  requests one is lost, and the answer of another.

Where Python's `requests` is not installed, its cases are not tried. Prints what it tries, and ends
with status 1 if a part failed. Takes less than a minute.
"""
import concurrent.futures
import contextlib
import http.client
import http.server
import itertools
import json
import multiprocessing
import os
import pathlib
import random
import select
import signal
import socket
import subprocess
import sys
import threading
import time

sys.path.insert(0, str(pathlib.Path(__file__).resolve().parents[1] / "lib"))
from callers import LONGEST, Caller, Longest
from program import TOP, found
from serving import (PATIENCE, STOCK, Off, Waited, Wire, delivery, expect, on_hand, served,
                     spelled, within)
from shown import blocks

try:
    import requests
except ImportError:
    requests = None

CALLS, CLIENTS = 300, 3  # deliveries of each process, and processes
LIMIT = 30  # seconds that the server waits for the next bytes of a request
MOST = 10_000  # requests of a connection
HOWS = ("keep", "keep", "keep", "close late", "close late", "drop", "half", "unread")
EXAMPLES = TOP / "docs" / "HTTP.md"
PORT = "8081"  # of the examples in that document


def deliver(port, number):
    """A process: its deliveries, and how many of its calls were sent again."""
    dice, caller, part = random.Random(f"client {number}"), Caller(port), f"P{number}"
    for each in range(1, CALLS + 1):
        how, keys = dice.choice(HOWS), delivery(part, each)
        request = spelled("/deliveries", keys)
        if how in ("half", "unread"):
            caller.abandon(request[: len(request) // 2] if how == "half" else request)
        came = json.loads(caller.call("POST", "/deliveries", keys))["result"]
        if came != "added" and (how, came) != ("unread", "same"):
            raise Off(f"delivery {each} of {part} was {came}: it was done without an answer")
        if how == "close late":
            caller.close_late()
        elif how == "drop":
            caller.close()
    return caller.again, caller.longest.seconds


def watch(port):
    """A dashboard: it polls over one connection until all is delivered; no count ever falls."""
    caller, seen, begun = Caller(port), {}, time.monotonic()
    while sum(seen.values()) < CALLS * CLIENTS:
        now = on_hand(caller.call("GET", "/stock"))
        if any(now.get(part, 0) < count for part, count in seen.items()):
            raise Off(f"the dashboard saw {now} after {seen}")
        if time.monotonic() - begun > LONGEST * CALLS:
            raise Off(f"the dashboard saw {now} after {LONGEST * CALLS} seconds")
        seen = now
        time.sleep(0.05)
    return caller.again, caller.longest.seconds


def post_session(port, number):
    """A process with a session of `requests`, which sends again what had no answer."""
    session, office = requests.Session(), f"http://127.0.0.1:{port}"
    retry = requests.packages.urllib3.util.Retry(total=5, allowed_methods=None)
    session.trust_env = False
    session.mount(office, requests.adapters.HTTPAdapter(max_retries=retry))
    dice, again, longest = random.Random(f"session {number}"), 0, Longest(port)
    for each in range(1, CALLS + 1):
        keys = delivery(f"P{number}", each)
        with longest.call(f"call {each} of session {number}") as note:
            came = session.post(f"{office}/deliveries", json=keys, timeout=PATIENCE)
            for it in came.raw.retries.history:
                note(f"sent again since {it.error!r}, before the end, which came")
        expect(f"delivery {each}", came.json(), {"result": "added"})
        again += len(came.raw.retries.history)
        time.sleep(dice.choice((0, 0.001, 0.02)))
    return again, longest.seconds


def side_by_side(port, *works):
    """Runs each in a process of its own, all at once; then all of the deliveries are there."""
    context = multiprocessing.get_context("fork")
    with concurrent.futures.ProcessPoolExecutor(len(works), mp_context=context) as pool:
        running = [pool.submit(work, port, *words) for work, *words in works]
        results = [it.result() for it in running]
    with Wire(port) as wire:
        expect("on hand", on_hand(wire.ask()), {f"P{it}": CALLS for it in range(CLIENTS)})
    again, longest = sum(it[0] for it in results), max(it[1] for it in results)
    return f"{again} calls sent again, the longest {longest:.3f} s"


def processes(port):
    return side_by_side(port, *((deliver, it) for it in range(CLIENTS)), (watch,))


def sessions(port):
    if not requests:
        return "not tried, requests is not installed"
    return side_by_side(port, *((post_session, it) for it in range(CLIENTS)))


def fastest(tries, call, *words):
    """The seconds of the fastest of some tries: the others waited for this machine."""
    least = PATIENCE
    for _ in range(tries):
        begun = time.monotonic()
        call(*words)
        least = min(least, time.monotonic() - begun)
    return least


def take_turns(port):
    with contextlib.ExitStack() as open_wires:
        for _ in range(3):
            expect("a stock", open_wires.enter_context(Wire(port)).ask(), b'{"hand":[]}')


def get_thrice(port):
    address = f"http://127.0.0.1:{port}/stock"
    came = [requests.get(address, timeout=PATIENCE) for _ in range(3)]
    expect("three stocks", [it.json() for it in came], [{"hand": []}] * 3)


def turns(port):
    tried = []
    for call in (take_turns, get_thrice) if requests else (take_turns,):
        took = fastest(5, call, port)
        tried.append(f"{took:.3f} s")
        if took > 0.1:
            raise Off(f"three calls took {took:.2f} s, and may take 0.1 s")
    return ", of requests ".join(tried)


def half(port):
    with contextlib.ExitStack() as open_wires:
        first = open_wires.enter_context(Wire(port))
        first.socket.sendall(b"GET /stock HTTP/1.1\r\nHost: 127")
        waited, others = Waited(port), []
        for _ in range(3):
            others.append(open_wires.enter_context(Wire(port)))
            others[-1].socket.sendall(STOCK)
        others[0].socket.settimeout(LIMIT + 2 * PATIENCE)
        expect("the first of those who wait", others[0].answer(), b'{"hand":[]}')
        took = waited.seconds()
        if took < LIMIT - 1 or waited.idle() > LIMIT + 3:
            raise Off(f"half a request kept others out for {took:.2f} s, not {LIMIT} s")
        with within(LONGEST, port, "the two behind it"):
            expect("the others", [it.answer() for it in others[1:]], [b'{"hand":[]}'] * 2)
        first.expect_end("half a request")
    return f"others waited {took:.1f} s"


def send_all(wire, data):
    with contextlib.suppress(OSError):
        wire.sendall(data)


def most(port):
    with Wire(port) as wire:
        sender = threading.Thread(target=send_all, args=(wire.socket, STOCK * 4 * MOST))
        sender.start()
        count = 0
        try:
            while wire.answer() is not None:
                count += 1
        except ConnectionError:
            raise Off(f"after {count} answers came a reset") from None
        finally:
            with contextlib.suppress(OSError):
                wire.socket.shutdown(socket.SHUT_RDWR)
            sender.join()
        expect("answers of a connection", count, MOST)
        with within(LONGEST, port, "the next connection"), Wire(port) as other:
            expect("the next connection", other.ask(), b'{"hand":[]}')
    return f"{count} answers, and an end"


def pipelined(port):
    with Wire(port) as wire:
        expect("the first", wire.ask(STOCK + STOCK[:8]), b'{"hand":[]}')
        with Wire(port) as other:
            other.socket.sendall(STOCK)
            if select.select([wire.socket, other.socket], [], [], 0.5)[0]:
                raise Off("it gave way, or the other was served, while half a request was there")
            expect("the second", wire.ask(STOCK[8:]), b'{"hand":[]}')
            with within(LONGEST, port, "the other"):
                expect("the other", other.answer(), b'{"hand":[]}')
        wire.expect_end("both requests")
    return "both were served"


def ask_behind_silent(port):
    with Wire(port) as quiet:
        time.sleep(0.01)
        with Wire(port) as other:
            expect("the next one", other.ask(), b'{"hand":[]}')
        quiet.expect_end("nothing was sent")


def ask_slowly(port):
    """Whether a new connection is served that sends after 30 ms, while another waits."""
    with Wire(port) as slow, Wire(port) as other:
        other.socket.sendall(STOCK)
        time.sleep(0.03)
        return slow.ask() == b'{"hand":[]}'


def silent(port):
    took = fastest(3, ask_behind_silent, port)
    if took > 0.2:
        raise Off(f"it kept the next one out for {took:.2f} s, and may for 0.2 s")
    if not any(ask_slowly(port) for _ in range(5)):
        raise Off("it was not waited for")
    return f"the next one waited {took:.3f} s"


def idle(port):
    with Wire(port) as wire:
        wire.ask()
        if select.select([wire.socket], [], [], 3)[0]:
            raise Off("it was ended although nobody waits")
        expect("three seconds later", wire.ask(), b'{"hand":[]}')
        with within(LONGEST, port, "another"), Wire(port) as other:
            expect("another", other.ask(), b'{"hand":[]}')
        wire.expect_end("another came")
    return "it stayed for 3 s, and gave way"


def late(port):
    request = spelled("/import", {"csv": "delivery,LATE,1,2026-05-01,1\n" * 6_000})
    with Wire(port) as wire:
        wire.ask()
        with Wire(port) as other:
            if not select.select([wire.socket], [], [], LONGEST)[0]:
                raise Off("it did not give way")
            wire.socket.sendall(request[:100])
            expect("the late request", wire.ask(request[100:]), None)
            expect("the stock", other.ask(), b'{"hand":[]}')
    return "it was not done, and its client saw an end"


def shown(text):
    """The lines that an example prints, by the comments behind its calls of `print`."""
    prints = (line for line in text.splitlines() if line.strip().startswith("print("))
    return (line.partition("  # ")[2] for line in prints)


def examples(port):
    add = {"id": 12, "interval": 365, "name": "Main St"}
    texts = ["\n".join(block).strip() for block in blocks(EXAMPLES.read_text())]
    tried = [it for it in texts if it.startswith("import ")]
    expect("examples in Python", len(tried), 1)
    tried = tried if requests else []
    with Wire(port) as wire:
        expect("an intersection", wire.ask(spelled("/intersections", add)), b'{"result":"added"}')
        for text in tried:
            words = [sys.executable, "-c", text.replace(PORT, str(port))]
            ran = subprocess.run(words, capture_output=True, text=True, timeout=3 * PATIENCE)
            expect(f"example, {ran.stderr[-300:]}", ran.stdout.splitlines(), [*shown(text)])
    return f"{len(tried)} examples"


def losing(port):
    """What passes requests on to a server; of five it loses one, and the answer of another."""
    class Handler(http.server.BaseHTTPRequestHandler):
        turns = itertools.count()

        def do_GET(self):
            body = self.rfile.read(int(self.headers.get("Content-Length", 0)))
            turn = next(self.turns) % 5
            if turn == 1:
                return
            wire = http.client.HTTPConnection("127.0.0.1", int(port), timeout=PATIENCE)
            wire.request(self.command, self.path, body)
            with contextlib.closing(wire), wire.getresponse() as answer:
                if turn != 3:
                    self.send_response_only(answer.status)
                    self.end_headers()
                    self.wfile.write(answer.read())

        do_POST = do_GET

    return Handler


def lost(port):
    add = {"id": 12, "interval": 365, "name": "Main St"}
    plan = (TOP / "bench" / "plan.csv").read_text()
    tries = ((plan, "committed revision 1\n", ""),
             (plan.replace("split,1,2,35", "split,1,2,34"), "", "not committed: pattern 1 V12\n"),
             (plan.replace("pattern,1,60,0", "pattern,1,60,5"), "committed revision 2\n", ""))
    with Wire(port) as wire:
        expect("an intersection", wire.ask(spelled("/intersections", add)), b'{"result":"added"}')
    with http.server.HTTPServer(("127.0.0.1", 0), losing(port)) as proxy:
        threading.Thread(target=proxy.serve_forever, daemon=True).start()
        office = f"http://127.0.0.1:{proxy.server_port}"
        for csv, *wanted in tries:
            words = [TOP / "examples" / "commit.py", office, "12", "Ana", "/dev/stdin"]
            ran = subprocess.run(words, input=csv, capture_output=True, text=True, timeout=60)
            expect("a plan", [ran.stdout, ran.stderr], wanted)
        proxy.shutdown()
    return f"{len(tries)} plans"


PARTS = (processes, sessions, turns, half, most, pipelined, silent, idle, late, examples, lost)


def comes_of(program, part):
    """Whether a part passed, which is said."""
    print(f"{part.__name__}: ", end="", flush=True)
    try:
        with served(program) as port:
            print(part(port), flush=True)
        return True
    except (TimeoutError, subprocess.TimeoutExpired):
        print(f"FAILED, nothing came for {PATIENCE} seconds", flush=True)
    except (Off, OSError) as it:
        print(f"FAILED, {type(it).__name__}: {it}", flush=True)
    return False


def main():
    program, names = found(sys.argv[1:2]), sys.argv[2:]
    signal.signal(signal.SIGTERM, lambda *_: sys.exit(1))  # ends the server too
    os.environ["NO_PROXY"] = "*"
    parts = [it for it in PARTS if not names or it.__name__ in names]
    failed = [it.__name__ for it in parts if not comes_of(program, it)]
    print(f"clients.py: failed: {', '.join(failed)}" if failed else "ok")
    sys.exit(bool(failed))


if __name__ == "__main__":
    main()
