"""The table of the library beside other readers, by bench/peers/counts.txt and times.txt."""
import os

from cases import table

HERE = os.path.join(os.path.dirname(os.path.abspath(__file__)), "peers")
LIBRARY = "library"
# The same texts by the call that also answers where a number ends.
READ = "library, within a text"
# The columns of the table for C: the ends of a side's name from C and of the same call in Rattle.
DOOR = {
    "constant word": (", from C", ""),
    "word as argument": (", a word, from C", ", a word"),
    "form as argument": (", a form, from C", ""),
}
# The rows that the table for C shows.
DOOR_ROWS = [
    "u64, 1 to 4 digits", "u64, 19 digits", "i32, 1 to 9 digits, signs",
    "grouped u64, 8 to 20 digits", "f64, coordinates", "f64, 17 digits in [0, 1)", "JSON, mixed",
]
# What a side doesn't do that the library does, in the rows whose names begin so.
LESS = {
    ("", "atoi"): "no test for overflow",
    ("", "simdjson, one number"): "no test for the end of the text",
    ("f64", "serde_json"): "wrong last bits of some floats, as it is built without its feature "
                           "`float_roundtrip`",
    ("JSON", "serde_json"): "the same",
    ("JSON", "serde_json, the array"): "the same",
    ("JSON", "rapidjson, the array"): "another value than 0 for `0e83` and its like",
    ("JSON", "std, all as floats"): "integers are floats too",
}
PLAIN = "the text without its separators"


class Figures:
    """What a file has: `head` is its first line, `rows` has for each row its sides, each with its
    figures. A file that isn't there has none."""

    def __init__(self, name):
        self.head, self.rows = "", {}
        path = os.path.join(HERE, name)
        if not os.path.exists(path):
            return
        with open(path, encoding="utf8") as file:
            head, *lines = file.read().splitlines()
        self.head = head.removeprefix("# ")
        for row, side, *figures in (line.split("\t") for line in lines):
            self.rows.setdefault(row, {})[side] = [float(it) for it in figures]


def lacks(row, side):
    """What a side doesn't do, or None."""
    if side.endswith(", plain"):
        return PLAIN
    found = [it for (start, name), it in LESS.items() if row.startswith(start) and name == side]
    return found[0] if found else None


def best(row, sides, value, does_less, lacks=lacks):
    """The least of the sides that do the same work, or of those that do less, with its name."""
    found = [(value(figures), side) for side, figures in sides.items()
             if not side.startswith(LIBRARY) and bool(lacks(row, side)) == does_less]
    return min(found) if found else None


def ratio(mine, peer):
    """A ratio, and the peer's name without what it reads."""
    return f"{mine / peer[0]:.2f} {peer[1].partition(',')[0]}" if peer else "–"


def cells(row, sides):
    """What the counts say of a row."""
    mine, same = sides[LIBRARY], best(row, sides, lambda it: it[0], False)
    return [row, f"{mine[0]:.0f}", ratio(mine[0], same),
            ratio(mine[0], best(row, sides, lambda it: it[0], True))]


# The readers that don't say where a number ends.
WITHOUT_END = ("std", "lexical-core", "serde_json", "minimal-lexical")


def lacks_end(row, side):
    """What a side doesn't do where the end of a number is needed, too."""
    return lacks(row, side) or ("no end" if side in WITHOUT_END else None)


def slower_run(row, sides, side=LIBRARY, does_less=False, lacks=lacks):
    """A side's time, and the fastest peer that does the same work, or does less, in the run in which
    their ratio is greatest; or None."""
    runs = range(min(len(it) for it in sides.values()))
    found = [(sides[side][run], best(row, sides, lambda it: it[run], does_less, lacks)) for run in runs]
    return max(found, key=lambda it: it[0] / it[1][0]) if found[0][1] else None


def timed(row, sides):
    """What the times say of a row."""
    mine, peer = slower_run(row, sides)
    # by a form the library's call is one that answers the end
    by_read = slower_run(row, sides, READ if READ in sides else LIBRARY, lacks=lacks_end)
    less = slower_run(row, sides, does_less=True)
    name = peer[1].partition(",")[0]
    has_read = READ in sides or row.startswith("JSON")
    return [row, f"{mine:.1f}", f"{by_read[0]:.1f} ({by_read[0] / by_read[1][0]:.2f})" if has_read else "–",
            f"{peer[0]:.1f} {name}", f"{mine / peer[0]:.2f}", ratio(less[0], less[1]) if less else "–"]


def peers():
    """What docs/SPEED.md has between its comments on peers."""
    counts, times = Figures("counts.txt"), Figures("times.txt")
    less = [f"- {side}: {it}" for (_, side), it in LESS.items() if it != "the same"]
    return "\n".join([
        *table("By time:", ["What is read", "Here, ns", "By `read_`, ns", "The next one, ns", "Ratio",
                           "To one that does less"],
               [timed(row, sides) for row, sides in times.rows.items()]),
        *table("By instructions:", ["What is read", "Here", "To the best other one",
                                   "To one that does less"],
               [cells(row, sides) for row, sides in counts.rows.items()]),
        "These readers do less than this library:\n", *less,
        f"- of grouped numbers every one but lexical-core: it gets {PLAIN}\n",
        "Where simdjson does the same work, it reads a JSON array. fast_float is the library for C++, "
        "lexical-core the crate of Rust. All are as Debian 12 has them: fast_float 3.9.0, lexical-core "
        "0.7.6, serde_json 1.0.87, simdjson 3.0.1. [counts.txt](../bench/peers/counts.txt) and "
        "[times.txt](../bench/peers/times.txt) have every reader.\n",
        f"Instructions: {counts.head}. Times: {times.head}."])


# ---- from C

def above(sides, column):
    """The instructions of a call from C, and how many more those are than of the same call in
    Rattle; or None."""
    ends = DOOR[column]
    if LIBRARY + ends[0] not in sides:
        return None
    mine, same = (sides[LIBRARY + end][0] for end in ends)
    return mine, mine - same


def more_by(column):
    """How many instructions a call from C takes more, over all that is counted."""
    more = [it[1] for sides in Figures("counts.txt").rows.values() if (it := above(sides, column))]
    return f"{min(more):.0f} to {max(more):.0f}"


def door():
    """What docs/SPEED.md has between its comments on calls from C."""
    rows = Figures("counts.txt").rows
    body = []
    for name in DOOR_ROWS:
        found = [above(rows[name], column) for column in DOOR]
        body.append([name, *(f"{it[0]:.0f} (+{it[1]:.0f})" if it else "–" for it in found)])
    spans = {column: more_by(column) for column in DOOR}
    text = table("Instructions for a number; in brackets how many more than of the same call in "
                 "Rattle, which the compiler puts into the caller's loop:",
                 ["What is read", *DOOR], body)
    text.append("Over all that is counted a call takes "
                f"{spans['constant word']} instructions more, by a word as argument "
                f"{spans['word as argument']}: each call tests whether the word is supported, and a "
                "loop in Rattle does so once.")
    return "\n".join(text)
