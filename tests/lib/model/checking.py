"""Records that are tried one after the other, and not taken: what is told of each that would be
refused, with what is there."""
from .refusal import NAMES, Refused

ON_HAND = (25, 26)  # refusals that are told with the pieces on hand
MOST_NOTES = 100


def order(it):
    """An order in one line."""
    closed = f", closed {it.closed} {it.closer}" if it.closed else ""
    return f"{it.opened} {it.clerk} {it.text}{closed}"


def record_there(register, name, values, number):
    """The record that stands where one was refused; none where nothing stands there."""
    if name == "inspect":
        it = register.inspections.get((values["id"], values["number"]))
        return it and f"{it.day} {it.clerk} {it.text}"
    if name == "receive":
        it = register.deliveries.get((values["part"], values["number"]))
        return it and f"{it.day} {it.count}"
    if name == "use_part" and number == 28:
        it = register.lines[values["id"], values["order"], values["line"]]
        return f"{it.part} {it.count}"
    it = register.orders.get((values["id"], values["number" if name == "open_order" else "order"]))
    return it and order(it)


def there(register, name, values, number):
    """What is told behind the name of a refusal."""
    if number == 10:
        return ""
    if number in ON_HAND:
        return f": {values['part']}, {register.on_hand(values['part'])} on hand"
    found = record_there(register, name, values, number)
    return f": there is {found}" if found else ""


def checked(office, records, lines):
    """A line for each record that would be refused, by its number and the line of its file, and
    how many would be added, are the same, or would be refused."""
    office, told, added = office.copy(), [], 0
    for at, ((name, values), line) in enumerate(zip(records, lines), 1):
        try:
            added += office.record(name, values)
        except Refused as it:
            what = there(office.register, name, values, it.number)
            told.append(f"record {at}, line {line}: {NAMES[it.number]}{what}\n")
    same = len(records) - added - len(told)
    counts = f"would add {added}, same {same}, refused {len(told)}\n"
    return "".join(told) + counts, bool(told)


def records_noted(office, records):
    """A note for each record that is the first to name a part which the office never had, or that
    is there already once those before it are taken."""
    had = {part for part, _ in office.register.deliveries}
    after = office.copy()
    for at, (name, values) in enumerate(records, 1):
        if values.get("part", None) not in {None, *had}:
            had.add(values["part"])
            yield f"note: record {at}: new part {values['part']}"
        try:
            if not after.record(name, values):
                yield f"note: record {at} is there already"
        except Refused:
            pass


def record_notes(office, records):
    """The same, for the first hundred of them, and how many more there are."""
    notes = list(records_noted(office, records))
    more = len(notes) - MOST_NOTES
    return notes[:MOST_NOTES] + [
        f"note: {more} more records are of a new part or there already"] * (more > 0)
