"""Records as spreadsheets leave them: with empty fields at their end that their kind does not have
(`--padded`)."""

WIDTHS = {"split": 6, "pattern": 6, "seq": 4, "inspection": 6, "order": 6, "use": 6, "close": 5,
          "delivery": 5}
KEYS = {"phase": 3, "pattern": 3, "seq": 4, "split": 4}  # behind `remove`
PHASE, CROSSED = 9, 15


def width_of(record):
    """How many fields a record has by its kind; none of an unknown one."""
    kind, *rest = record
    if kind == "remove":
        return KEYS.get(rest[0]) if rest else None
    if kind == "phase":
        return CROSSED if any(record[PHASE:]) else PHASE
    return WIDTHS.get(kind)


def is_blank(record):
    """A record of empty fields alone, which is none."""
    return not any(record)


def unpadded(record):
    """A record without the padding; one behind whose width anything stands is as it was."""
    width = width_of(record)
    return record[:width] if width and not any(record[width:]) else record
