"""What bench/run writes: docs/TIMES.md and docs/times.svg."""

from math import ceil, floor, log10
from statistics import median

KEPT = "## What the profile shows"


# ---- numbers

def short(x):
    """A number with three digits."""
    return f"{x:,.{max(0, 2 - floor(log10(x)))}f}"


def in_ms(times):
    """The median and, in brackets, the least, in milliseconds."""
    return f"{short(median(times) / 1e6)} ({short(min(times) / 1e6)})"


def ratio(times, others):
    """The median of the ratios in a round, which has one of the others, and in brackets the ratio of the least times."""
    in_round = len(times) // len(others)
    ratios = [x / others[i // in_round] for i, x in enumerate(times)]
    return f"{short(median(ratios))} ({short(min(times) / min(others))})"


def millions(count):
    return short(count / 1e6) if count else "–"


def per_sum(number, sums):
    return short(number / sums) if number else "–"


# ---- tables

def rows_of(head, rows):
    lines = [head, ["---"] + ["--:"] * (len(head) - 1), *rows]
    return "\n".join("| " + " | ".join(map(str, line)) + " |" for line in lines)


def compared(results):
    head = ["order", "n", "generators", "g", "rows", "k", "sums", "vectors", "program", "C call", "4ti2",
            "program / 4ti2", "C call / 4ti2"]
    return rows_of(head, [
        [r.order.name, r.order.n, len(r.order.generators), f"{r.members:,}", r.rows, r.stored, f"{r.sums:,}", r.vectors,
         in_ms(r.times["program"]), in_ms(r.times["list"]), in_ms(r.times["graver"]),
         ratio(r.times["program"], r.times["graver"]), ratio(r.times["list"], r.times["graver"])] for r in results])


def calls(results):
    head = ["order", "List", "Split", "Check", "million instructions of List", "instructions of List for each sum"]
    return rows_of(head, [
        [r.order.name, *(in_ms(r.times[s]) if s in r.times else "–" for s in ("list", "split", "check")),
         millions(r.instructions), per_sum(r.instructions, r.sums)] for r in results])


def growth(results):
    head = ["order", "g", "k", "sums", "C call", "µs for each sum", "million instructions", "4ti2", "C call / 4ti2"]
    return rows_of(head, [
        [r.order.name, f"{r.members:,}", r.stored, f"{r.sums:,}", in_ms(r.times["list"]),
         per_sum(median(r.times["list"]) / 1000, r.sums), millions(r.instructions), in_ms(r.times["graver"]),
         ratio(r.times["list"], r.times["graver"])] for r in results])


def windows(runs):
    head = ["run", "W", "C call", "plain C", "C call / plain C"]
    return rows_of(head, [
        [name, width, f"{millions(call)} ({millions(call_best)})", f"{millions(plain)} ({millions(plain_best)})",
         f"{short(call / plain)} ({short(call_best / plain_best)})"]
        for name, width, call, call_best, plain, plain_best in runs])


def thousands(count):
    return short(count / 1e3)


def plans(runs):
    head = ["plan", "steps", "ends", "C call", "plain C", "C call / plain C", "C call, budget 0", "plain C, budget 0"]
    return rows_of(head, [
        [name, f"{steps:,}", "cheapest" if cheapest else "budget spent",
         f"{thousands(call)} ({thousands(call_best)})", f"{thousands(plain)} ({thousands(plain_best)})",
         f"{short(call / plain)} ({short(call_best / plain_best)})", f"{short(call_ms)} ({short(call_least)})",
         f"{short(plain_ms)} ({short(plain_least)})"]
        for name, steps, cheapest, call, call_best, call_ms, call_least, plain, plain_best, plain_ms, plain_least
        in runs])


# ---- the plot

WIDTH, HEIGHT, LEFT, TOP = 330, 260, 60, 50  # of a panel's field, and of what stands around it
COLOURS = ["#0072b2", "#d55e00", "#009e73"]


def marks(least, greatest):
    """Round numbers from least to greatest."""
    digits = (1, 2, 5) if greatest > 20 * least else (1, 1.5, 2, 3, 4, 6, 8)
    powers = range(floor(log10(least)), ceil(log10(greatest)) + 1)
    return [x for p in powers for x in (d * 10.0 ** p for d in digits) if least <= x <= greatest]


def scale(values, size):
    """A logarithmic scale that has room for the values, and its marks."""
    least, greatest = min(values) / 1.25, max(values) * 1.25
    return lambda x: size * log10(x / least) / log10(greatest / least), marks(least, greatest)


def text(x, y, words, anchor="middle", more=""):
    return f'<text x="{x:.1f}" y="{y:.1f}" text-anchor="{anchor}"{more}>{words}</text>'


def panel(at, title, label, series):
    """A panel whose field begins at this x. A series is a name, a colour, whether it is dashed, and its points."""
    across, across_marks = scale([x for *_, points in series for x, _ in points], WIDTH)
    up, up_marks = scale([y for *_, points in series for _, y in points], HEIGHT)
    bottom = TOP + HEIGHT
    parts = [text(at + WIDTH / 2, TOP - 26, title, more=' font-weight="bold"'),
             text(at + WIDTH / 2, bottom + 36, label), text(at - 40, TOP - 8, "ms", "start")]
    for x in across_marks:
        parts += [f'<path d="M{at + across(x):.1f} {TOP}v{HEIGHT}" stroke="#ddd"/>',
                  text(at + across(x), bottom + 16, f"{x:g}")]
    for y in up_marks:
        parts += [f'<path d="M{at} {bottom - up(y):.1f}h{WIDTH}" stroke="#ddd"/>',
                  text(at - 6, bottom - up(y) + 4, f"{y:g}", "end")]
    parts.append(f'<rect x="{at}" y="{TOP}" width="{WIDTH}" height="{HEIGHT}" fill="none" stroke="#888"/>')
    for index, (name, colour, dashed, points) in enumerate(series):
        places = [(at + across(x), bottom - up(y)) for x, y in points]
        line = f'fill="none" stroke="{colour}" stroke-width="1.8"' + ' stroke-dasharray="5 4"' * dashed
        parts.append(f'<path d="M{" L".join(f"{x:.1f} {y:.1f}" for x, y in places)}" {line}/>')
        parts += [f'<circle cx="{x:.1f}" cy="{y:.1f}" r="2.6" fill="{colour}"/>' for x, y in places]
        key = bottom + 60 + 17 * index
        parts += [f'<path d="M{at} {key - 4}h28" {line}/>', text(at + 36, key, name, "start")]
    return parts


def points(results, across, of):
    return [(across(r), min(r.times[of]) / 1e6) for r in results]


def plot(groups, stored):
    """The least times of one List call and of 4ti2, over the members of the group and over the rows stored."""
    first = [(f"{name}, {words}", colour, dashed, points(results, lambda r: r.members, of))
             for (name, results), colour in zip(groups.items(), COLOURS)
             for words, dashed, of in (("one List call", False, "list"), ("4ti2", True, "graver"))]
    second = [(f"random lattices, {words}", COLOURS[2], dashed, points(stored, lambda r: r.stored, of))
              for words, dashed, of in (("one List call", False, "list"), ("4ti2", True, "graver"))]
    width, height = 2 * (WIDTH + LEFT) + 40, TOP + HEIGHT + 125
    return "\n".join([
        f'<svg xmlns="http://www.w3.org/2000/svg" width="{width}" height="{height}" viewBox="0 0 {width} {height}" '
        'font-family="sans-serif" font-size="12">', f'<rect width="{width}" height="{height}" fill="white"/>',
        *panel(LEFT, "more of a table's symmetry", "g, members of the group", first),
        *panel(2 * LEFT + WIDTH + 15, "more rows", "k, rows stored", second), "</svg>", ""])


# ---- the page

def page(about, smallest, results, groups, stored, windowed, planned, stack, kept):
    """The text of docs/TIMES.md; what was kept stands at its end."""
    start = [in_ms(smallest.times[name]) for name in ("program", "list", "graver")]
    return f"""\
# Times

`bench/run` writes this page, down to its last heading, and the plot, [times.svg](times.svg).

{about["date"]}; {about["processor"]}, {about["cores"]} cores; {about["4ti2"]}; {about["valgrind"]}.

Times are in milliseconds: the median and, in brackets, the least of {about["rounds"]} rounds, and of {about["fewer"]}
for orders that only show growth. In each round the program, 4ti2 and three calls of each kind are timed one after the
other, so other work on the machine meets them alike. A ratio is the median of the ratios in a round and, in brackets,
the ratio of the least times.

- Program: `list_moves`, the whole process, from an order file to a file.
- C call: one call of `sukoreta_list` on the bytes of the order.
- 4ti2: `graver -q`, at its default precision of 32 bits, the whole process, from a file with the same generators to a
  file. It does not use exchanges.

The smallest lattice, that of (1), takes the program {start[0]}, the C call {start[1]} and 4ti2 {start[2]}:
so much of a process is its start.

## List beside 4ti2

{compared(results)}

g: members of the group; k: rows stored; vectors: those of the Graver basis, both signs. All images of List's rows were
exactly 4ti2's vectors and their negatives. Tables have all their moves as generators and all exchanges of their lines
and axes; in "slices" the sum of each slice is kept, in "lines" that of each line. Random lattices have no exchanges;
±1 is how large the entries of their generators may be.

## The C calls

{calls(results)}

Split gets the first generator, twice the second, three times the third and so on, added up. Check gets List's rows,
with coefficients that integer elimination finds. Instructions are those of one call, counted by callgrind.

## Growth with the group

The same tables with only some of their exchanges, one more in each line. Without any, 4 by 4 has 204 rows, more than a
list can have.

{growth([r for some in groups.values() for r in some])}

## Growth with the rows

Random lattices of one kind, without exchanges.

{growth(stored)}

The plot has the least times of one List call and of 4ti2 in these two tables.

![Times over the members of the group and over the rows stored](times.svg)

## The window over a run of draws

{windows(windowed)}

Million records a second, the median and, in brackets, the best of {about["rounds"]} rounds, on 1,000,000 records on the
3 by 3 table with its group of 72. The C call is `sukoreta_lent_window`, its List included; plain C is a function in
`bench/window.c` that has the list and the group's table and reads the window afresh for each record. Both wrote the
same answers. Images are random; in "slow" none takes the chosen cell down for 2,000 records, and none up for the next
2,000; in "straight" one image takes it up 2,000 times, and its negative down as often.

## The best plan within a budget

{plans(planned)}

Thousand steps a second, the median and, in brackets, the best of {about["fewer"]} rounds, and milliseconds with the
budget 0, on the 4 by 4 table with all its moves and its group of 1,152; the budget is 100,000. The C call is
`sukoreta_lent_plan`; with the budget 0 it makes its List and searches for a step once, and this time is taken off
before the steps are counted. Plain C is a function in `bench/plan.c` that has the list and the group's table: it forms
the distinct images once, which is its time with the budget 0, and for each step goes through them and takes the one
that keeps the bounds and gains the most. Both ended with the same plan, steps and distance bound. In "straight" the
bounds are far, and one image is taken 100,000 times; in "turning" one image after the other comes to a bound; in "even"
too, with costs of 1 and −1 like the fields of a chessboard, so that many images gain the same.

## Stack

{rows_of(["call, on the 4 by 4 order", "bytes of stack"], [[f"`{name}`", f"{size:,}"] for name, size in stack])}

{kept}"""


def kept_part(old):
    """What stands in the old page from the kept heading on."""
    at = old.find(KEPT)
    return old[at:] if at >= 0 else f"{KEPT}\n"
