"""Names and texts of others: how wide they are on a terminal, and how they stand in markup."""
import html
import unicodedata


def places(letter):
    """How many places a letter takes on a terminal: a mark on another one takes none."""
    if unicodedata.category(letter) in ("Mn", "Me", "Cf"):
        return 0
    return 2 if unicodedata.east_asian_width(letter) in "WF" else 1


def width(text):
    """How many places a text takes."""
    return sum(map(places, text))


def left(text, wide):
    """A text at the left of so many places; a longer one stands whole."""
    return text + " " * (wide - width(text))


def quoted(text):
    """A name or text of others, no character of which is markup."""
    return html.escape(text).replace("&#x27;", "&#39;")
