"""The table of the library beside other writers, by bench/peers/written-counts.txt and
written-times.txt."""
from cases import table
from peers import LIBRARY, Figures, best, ratio, slower_run

PLAIN = "library, plain"
FROM_C = "library, from C"
# What a side doesn't do that the library does, in the rows whose names begin so.
LESS = {
    ("", "itoa, its own buffer"): "its text isn't in the slice of the caller",
    ("f", "dtoa"): "sometimes a digit too many",
    ("f", "snprintf, %.17g"): "17 digits",
    ("f", "snprintf, %.9g"): "9 digits",
    ("%", "double-conversion"): "a tie is rounded up",
}
# The most that a row may take beside a peer, in the rows whose names begin so; and beside the best.
AIMS = {
    "u64": {"itoa": 0.95},
    "i32": {"itoa": 0.95},
    "grouped": {PLAIN: 1.15},
    "f64": {"ryu": 0.85, "to_chars": 0.65},
    "f32": {"ryu": 0.85, "to_chars": 0.65},
    "%.2f": {"to_chars": 0.5, "snprintf": 0.2},
}
MOST = 1.05


def lacks(row, side):
    """What a side doesn't do, or None."""
    if side.endswith(", plain"):
        return "no separators"
    found = [it for (start, name), it in LESS.items() if row.startswith(start) and name == side]
    return found[0] if found else None


def best_of(row, sides, does_less, run=0):
    return best(row, sides, lambda it: it[run], does_less, lacks)


def aims_of(row, sides):
    """Each peer beside which the row has an aim: its name, the ratio, and the aim."""
    found = [it for start, it in AIMS.items() if row.startswith(start)]
    for peer, most in (found[0] if found else {}).items():
        if peer in sides:
            yield peer, sides[LIBRARY][0] / sides[peer][0], most


def named(row):
    """A row's name, with its format as code."""
    return f"`{row[:4]}`{row[4:]}" if row[0] == "%" else row


def cells(row, sides):
    """What the counts say of a row."""
    mine = sides[LIBRARY][0]
    return [named(row), f"{mine:.0f}", ratio(mine, best_of(row, sides, False)),
            ratio(mine, best_of(row, sides, True))]


def time(row, sides):
    """The ratio of the library's time to the fastest that does the same work."""
    if not sides or not best_of(row, sides, False):
        return "–"
    return ratio(*slower_run(row, sides, lacks=lacks))


def beside(row, sides):
    """Each ratio of a row that has an aim: the peer, the ratio, and the aim."""
    yield from aims_of(row, sides)
    same = best_of(row, sides, False)
    if same:
        yield same[1].partition(",")[0], sides[LIBRARY][0] / same[0], MOST


def aims():
    """What docs/PERF.md has between its comments on the aims of writing."""
    rows = Figures("written-counts.txt").rows
    ratios = {row: list(beside(row, sides)) for row, sides in rows.items()}
    missed = {row: [it for it in found if it[1] > it[2]] for row, found in ratios.items()}
    body = [[named(row), "; ".join(f"{value:.2f} of {peer.removeprefix('library, ')}, aim {aim}"
                                   for peer, value, aim in found)]
            for row, found in missed.items() if found]
    count, lost = sum(map(len, ratios.values())), sum(map(len, missed.values()))
    return "\n".join(table(f"Of {count} such ratios {count - lost} are within their aim. These are "
                           "not:", ["What is written", "Instructions, beside the aim"], body))


def from_c(rows):
    """How many instructions more a call from C takes, as a sentence."""
    more = [sides[FROM_C][0] - sides[LIBRARY][0] for sides in rows.values() if FROM_C in sides]
    return f" From C a call takes {min(more):.0f} to {max(more):.0f} more." if more else ""


def times(*starts, side=LIBRARY):
    """The least and the greatest ratio of a side's time to that of the fastest writer that does the same
    work, in the rows whose names begin so; a dash if none has the side."""
    runs = (slower_run(row, sides, side, lacks=lacks)
            for row, sides in Figures("written-times.txt").rows.items()
            if row.startswith(starts) and side in sides)
    found = [mine / peer[0] for mine, peer in filter(None, runs)]
    least, most = f"{min(found, default=0):.1f}", f"{max(found, default=0):.1f}"
    return "–" if not found else most if least == most else f"{least} to {most}"


def writers():
    """What docs/SPEED.md has between its comments on writing."""
    counts, times = Figures("written-counts.txt"), Figures("written-times.txt")
    head = ["What is written", "Here", "To the best other one", "To one that does less"]
    body = [cells(row, sides) for row, sides in counts.rows.items()]
    words = ("Instructions for one number, written into your slice with a comma behind it; and their "
             "ratio to those of the best writer that does the same work, and of the best that does "
             "less. Below 1 this library takes fewer")
    if times.rows:
        head.append("Time")
        words += (". *Time* is the ratio of the time to that of the fastest one that does the same "
                  "work, the greater one of two runs")
        for line, row in zip(body, counts.rows):
            line.append(time(row, times.rows.get(row)))
    told = "; ".join(f"{side} ({it})" for (_, side), it in LESS.items())
    return "\n".join([
        f"{counts.head}.\n", *table(f"{words}:", head, body),
        f"Writers that do less have a column of their own: {told}. Of grouped numbers they write the "
        "same without separators. to_chars is that of libstdc++, "
        "and writes all digits of a whole number. double-conversion is the library for C++. itoa, "
        "ryu, dtoa and lexical-core are crates of Rust, and std's floats are of two as close not "
        "always the even one. [written-counts.txt](../bench/peers/written-counts.txt) has every "
        f"writer, and mispredicted branches.{from_c(counts.rows)}"])
