"""What requests were drawn and what they were answered, so that nothing is left out."""
import collections
import json

from .refusal import NAMES
from .wire import ROUTES, find

UNREACHED = {*range(1, 6), 18}  # the framing's, and the last revision: a million commits
ROW_FAULTS = ("Kind", "Count", "Number", "Range", "List", "Mode", "Day", "Text")


class Tally(collections.Counter):
    """Counts of routes that were answered with 200, of refusals, bad rows and broken rules."""

    def note(self, method, target, text):
        """One more request, and the body of its answer."""
        tree = json.loads(text)
        number = tree.get("number") if "error" in tree else None
        if number is None:
            route, _ = find(method, target.partition("?")[0])
            self[f"{route[0]} {route[1]}"] += 1
        else:
            self[f"{number} {NAMES[number]}"] += 1
        if number == 31:
            self[tree["fault"]] += 1
        for violation in tree.get("violations", ()):
            self[violation["rule"]] += 1

    def wanted(self):
        """All that has to come."""
        yield from (f"{method} {path}" for method, path, *_ in ROUTES)
        yield from (f"{it} {name}" for it, name in sorted(NAMES.items()) if it not in UNREACHED)
        yield from ROW_FAULTS
        yield from (f"V{it}" for it in range(1, 15))

    def missing(self):
        """What did not come."""
        return [it for it in self.wanted() if not self[it]]

    def lines(self):
        """Each that has to come with its count."""
        return [f"{self[it]:7} {it}" for it in self.wanted()]
