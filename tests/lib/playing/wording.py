"""The bytes that the lines of a row stand for."""
import re

ESCAPE = re.compile(r"\\(?:([\\rnt])|x([0-9A-Fa-f]{2})|\(([^*)\\]*)\*([0-9]{1,9})\))")
SPACES = " \t\n\f\r"
SPACED = re.compile(r"[^ \t\n\f\r]+")
PLAIN = {"\\": b"\\", "r": b"\r", "n": b"\n", "t": b"\t"}


class Unread(Exception):
    """A line that says nothing that a row can say."""


def meant(escape):
    """The bytes that an escape stands for."""
    letter, digits, repeated, times = escape.groups()
    if letter:
        return PLAIN[letter]
    return bytes.fromhex(digits) if digits else repeated.encode() * int(times)


def unescaped(text):
    """The bytes of a text with the escapes `\\r`, `\\n`, `\\t`, `\\\\`, `\\xHH` and `\\(a*8174)`."""
    parts, at = [], 0
    for escape in ESCAPE.finditer(text):
        parts += [plain(text[at:escape.start()]), meant(escape)]
        at = escape.end()
    return b"".join([*parts, plain(text[at:])])


def plain(text):
    """The bytes of a text without escapes."""
    if "\\" in text:
        raise Unread(f"an escape that stands for nothing: {text}")
    return text.encode()


def request(text):
    """The bytes of a request of a method, a path, and a body if it has one."""
    method, _, rest = text.partition(" ")
    path, has_body, body = rest.partition(" ")
    length = f"Content-Length: {len(body.encode())}\r\n" if has_body else ""
    return f"{method} {path} HTTP/1.1\r\n{length}\r\n{body}".encode()


def answer(text):
    """The bytes of an answer of a status, a reason and a body."""
    at = text.find("{")
    status, body = (text, "") if at < 0 else (text[:at], text[at:])
    head = f"HTTP/1.1 {status.rstrip(SPACES)}\r\nContent-Type: application/json\r\n"
    return f"{head}Content-Length: {len(body.encode())}\r\n\r\n{body}".encode()


def words_of(text):
    """The words of a run. What stands in quotes is one word."""
    found = []
    for number, piece in enumerate(text.split('"')):
        found += [piece] if number % 2 else SPACED.findall(piece)
    return found
