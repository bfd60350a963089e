"""What the format can't say of a page: each kind once, with how often it came and the first place where it did."""


class Notes:
    """Counted remarks."""

    def __init__(self):
        self.found = {}

    def add(self, remark, where=""):
        """Counts a remark; the first place that it was made for is kept. A place counts once."""
        places = self.found.setdefault(remark, {})
        places.setdefault(where, len(places))

    def lines(self):
        """One line a remark, the most frequent first."""
        rows = sorted(self.found.items(), key=lambda row: (-len(row[1]), row[0]))
        return [f"{remark} ({len(places)}{first_place(places)})" for remark, places in rows]


def first_place(places):
    """The first place, told behind a count."""
    first = next(iter(places))
    return f", first {first}" if first else ""
