"""Why a request is refused: the number, its name, and the status of the answer."""
import json

NAMES = {
    1: "Head", 2: "HeadTooLarge", 3: "Length", 4: "BodyTooLarge", 5: "Coded",
    6: "NoRoute", 7: "Method", 8: "Json", 9: "Field", 31: "BadRow",
    10: "UnknownIntersection", 11: "IntersectionDiffers",
    12: "NotNormal", 13: "NotTransaction", 14: "NotOwner", 15: "NotVerify", 16: "NotDone",
    17: "VerifyFailed", 18: "RevisionFull",
    20: "InspectionDiffers", 21: "OrderDiffers", 22: "UnknownOrder", 23: "OrderClosed",
    24: "DayBeforeOpening", 25: "NoStock", 26: "StockFull", 27: "DeliveryDiffers",
    28: "LineDiffers", 29: "CloseDiffers", 30: "ImportRow",
}
STATUSES = {
    "400 Bad Request": {1, 2, 3, 8, 9, 31},
    "404 Not Found": {6, 10, 22},
    "405 Method Not Allowed": {7},
    "409 Conflict": {*range(11, 19), 20, 21, *range(23, 31)},
    "413 Payload Too Large": {4},
    "501 Not Implemented": {5},
}


def text_of(tree):
    """Compact JSON with its keys in ascending order."""
    return json.dumps(tree, ensure_ascii=False, sort_keys=True, separators=(",", ":"))


class Refused(Exception):
    """A request is refused, and what was there stays."""

    def __init__(self, number, **more):
        super().__init__(number)
        self.number, self.more = number, more

    def text(self):
        """The body of the answer: its name and number, and what else it tells."""
        return text_of({"error": NAMES[self.number], "number": self.number, **self.more})

    def status(self):
        """The status line's number and reason."""
        return next(status for status, numbers in STATUSES.items() if self.number in numbers)


class RowFault(Exception):
    """A row spells nothing: why, and in which field from 1, or 0 where no field is named."""

    def __init__(self, name, field=0):
        super().__init__(name, field)
        self.name, self.field = name, field
