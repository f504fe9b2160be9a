"""What README.md and the head of docs/SPEED.md say of the times beside other readers."""
from cases import table
from peers import LIBRARY, READ, Figures, lacks, lacks_end, slower_run
from written import lacks as lacks_of_writers
from written import times

# The rows whose times README.md has.
EXAMPLE = "f64, coordinates"
FROM_C = f"{LIBRARY}, from C"
LOST_EXAMPLES = ("%.6e, 3 digits and 2 places", "%.6e, random bits")
def rows():
    return Figures("times.txt").rows


def ratios(start="", side=LIBRARY):
    """The ratio of a side's time to that of the fastest reader that does the same work, by the rows
    that have the side and whose names begin so, or with one of several words."""
    less = lacks_end if side.startswith(READ) else lacks
    found = ((row, slower_run(row, sides, side, lacks=less)) for row, sides in rows().items()
             if row.startswith(start) and side in sides)
    return {row: mine / peer[0] for row, (mine, peer) in found}


def span(start, side=LIBRARY):
    """The least and the greatest of these ratios."""
    found = ratios(start, side).values()
    return f"{min(found):.2f} to {max(found):.2f}"


def fastest(side=LIBRARY):
    """In how many rows a side is the fastest, and of how many."""
    found = ratios(side=side).values()
    return f"{sum(it <= 1 for it in found)} of {len(found)}"


def least(found):
    return f"{min(found.values()):.2f}"


def most(found):
    return f"{max(found.values()):.2f}"


def by_read():
    """What the calls take that also answer where a number ends."""
    mine, peer = slower_run("f64, coordinates", rows()["f64, coordinates"], READ)
    return (f"a `u64` takes {span('u64', READ)} times as long as by the fastest other reader, an `f64` "
            f"{span('f64', READ)} times. Coordinates take {mine:.1f} ns by `read_float`, and "
            f"{peer[0]:.1f} by {peer[1]}")


def answer():
    """The first lines of docs/SPEED.md."""
    slower = sorted((it for it in ratios().items() if it[1] > 1), key=lambda it: -it[1])
    others = " and ".join(f"{it:.2f} times ({row})" for row, it in slower)
    below = [it for it in ratios().values() if it <= 1]
    return f"""\
- **The number is a whole text** (`parse_number`, `parse_float`), or of JSON (`read_number_of`): the fastest in {fastest()} rows, by \
time, of the readers that do the same work. It takes {min(below):.2f} to {max(below):.2f} times as \
long as the next one{f", in the other rows {others}" if slower else ""}.
- **You also need where it ends**, as a lexer does (`read_number`, `read_float`): {by_read()}.
- **Many integers:** read them [as a list](#how-to-call-it).
- **Slower than others:** floats in groups, and iterators over a `Bytes` ([where you lose](#where-you-lose)).
- **From C, C++, Rust or Python** each call costs [more than in Rattle](#from-c), since the compiler \
can't put it into its caller's loop."""


def beside(row):
    """The time of a row, and that of the fastest reader that does the same work, with its name."""
    return slower_run(row, rows()[row], LIBRARY, lacks=lacks_end)


def told(mine, peer):
    """A time, and that of the fastest other library, with its name."""
    return f"{mine:,.0f} ns, by {peer[1]} {peer[0]:,.0f}"


def readme():
    """What README.md has between its comments: the picture, what you gain, and what you lose."""
    found, written = ratios(), Figures("written-times.txt").rows
    below = [it for it in found.values() if it <= 1]
    coordinate = told(*beside(EXAMPLE))
    price, any_float = (told(*slower_run(row, written[row], lacks=lacks_of_writers)) for row in LOST_EXAMPLES)
    integers = times("u64, 3 digits", "u64, 1 to", "u64, 8", "u64, 16", "u64, 20", "i32")
    floats = times("f64, ", "f64 with", "f32, ")
    return f"""\
![Whole texts, and numbers whose end is needed, by what is read](docs/times.svg)

- **You gain** when you read whole texts, or numbers of JSON: for {len(below)} of {len(found)} kinds of numbers no library that does the same work is faster, and \
through the C library for {fastest(FROM_C)}. A coordinate such as `-12.3456` takes {coordinate}.
- **It depends** when you also need where a number ends ({least(ratios(side=READ))} to {most(ratios(side=READ))} times as long as by the fastest other library), and when you write \
integers ({integers}) or floats with the fewest digits ({floats}).
- **You lose** when you write `%.2f` of numbers up to 1e22 ({times("%.2f, in [0, 1e22)")}), and floats like `%.6e`: a price takes {price}, and a float of random bits {any_float}.

[SPEED.md](docs/SPEED.md) has [all that is slower](docs/SPEED.md#where-you-lose), each kind of input, the libraries (of Debian 12: fast_float 3.9.0, lexical-core 0.7.6, serde_json 1.0.87), what a call from C costs, and how to \
call so that it is fast."""


# What others write faster: how the page calls it, how the rows begin, and those of which it gains.
LOST = [
    ("write a `u64` of up to 4 digits", ("u64, 3 digits", "u64, 1 to 4"), ()),
    ("write `u64`s whose lengths vary at random from 1 to 20 digits; where all have 8, 16 or 20, you gain",
     ("u64, 1 to 20",), ("u64, 8 digits", "u64, 16 digits", "u64, 20 digits")),
    ("write the shortest text of a float, except coordinates and prices of `f64`",
     ("f64, random", "f64, in [", "f64, whole", "f64, powers", "f64 with an", "f32, "), ()),
    ("write `%.2f` of numbers anywhere in [0, 1e22), most of them huge; of prices you gain",
     ("%.2f, in [0, 1e22)",), ("%.2f, prices", "%.2f, 3 digits")),
    ("write `%.6e` of coordinates and prices", ("%.6e, coordinates", "%.6e, 3 digits"), ()),
    ("write `%.6e` of floats of any size: it computes every digit", ("%.6e, random bits",), ()),
]


def lost_by_time():
    """What docs/SPEED.md says of the inputs for which another library is faster, by time."""
    body = [[f"{what}: for {fastest(side)} data sets no other library is faster", f"up to {most(ratios(side=side))}"]
            for what, side in (("read a whole text, or a number of JSON", LIBRARY),
                               ("the same from C++, by the C library", f"{LIBRARY}, from C"),
                               ("read a number, and need where it ends", READ))]
    body += [[f"{what}: {times(*gained)}" if gained else what, times(*starts)]
             for what, starts, gained in LOST]
    return table("The time of this library, divided by that of the fastest other one:",
                 ["You", "Times as long"], body)
