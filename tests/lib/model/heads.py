"""Requests as bytes: heads that are spelled in one way or another and mean the same, and how a
stream may end (RFC 9112, in the profile of docs/HTTP.md)."""
from .refusal import Refused
from .wire import answer, answer_bytes

FIELDS = ("Host: a", "Expect: 100-continue", "Connection: keep-alive", "A:", "A: b, c", "B:  d ")
LENGTHS = ("Content-Length: ", "content-length:", "CONTENT-LENGTH: 000")
# What ends a stream: a request's first line and fields, and its fault, or that it is the last.
ENDS = (
    ("GET /stock HTTP/1.1", "Transfer-Encoding: gzip", 5),
    ("POST /import HTTP/1.1", "Content-Length: 2\r\ncontent-length: 2", 3),
    ("POST /import HTTP/1.1", "Content-Length: +2", 3),
    ("POST /import HTTP/1.1", "Content-Length: 262145", 4),
    ("GET  /stock HTTP/1.1", "A: b", 1),
    ("GET /stock HTTP/1.1", "A b", 1),
    ("GET /stock HTTP/1.1", "\r\n".join(["A: b"] * 65), 1),
    ("GET /stock HTTP/1.1", f"A: {'a' * 8_192}", 2),
    ("GET /stock HTTP/1.0", "A: b", None),
    ("GET /stock HTTP/1.1", "Connection: keep-alive, CLOSE", None),
    ("POST /stock HTTP/1.0", "Content-Length: 2", None),
)


def spelled(dice, method, target, body):
    """The bytes of a request. A body may be told with zeros and in any letters, lines may end in
    LF alone, empty lines may stand before, and most fields are not looked at."""
    lines = [f"{method} {target} HTTP/1.1", *dice.sample(FIELDS, dice.choice((0, 0, 1, 4)))]
    if body is not None:
        lines.insert(dice.randint(1, len(lines)), f"{dice.choice(LENGTHS)}{len(body)}")
    end = dice.choice(("\r\n", "\r\n", "\r\n", "\n"))
    before = dice.choice(("", "", "", "\r\n", "\n\n"))
    return (before + end.join([*lines, "", ""])).encode() + (body or b"")


def ending(dice, office):
    """Bytes that end a stream, with the bytes of their answer: a fault, a last request, or nothing
    where a request is not there whole. Behind a fault or a last request nothing is answered."""
    first, fields, fault = dice.choice((*ENDS, ("GET /stock HTTP/1.1", "A: b", "more")))
    asked = f"{first}\r\n{fields}\r\n\r\n".encode()
    if fault == "more":
        return asked[:dice.randrange(len(asked))], b""
    after = b"{}" + spelled(dice, "GET", "/stock", None)
    if fault:
        refused = Refused(fault)
        return asked + after, answer_bytes(refused.status(), refused.text())
    method, target, _ = first.split(" ")
    return asked + after, answer_bytes(*answer(office, method, target, b"{}"))
