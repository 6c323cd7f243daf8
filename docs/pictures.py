#!/usr/bin/env python3
"""docs/pictures.py check|write

The pictures of the architecture, as plain SVG in docs/: layers.svg comes from crates.txt, the others from the data below.
'write' writes them, 'check' says which of them are not what this script makes; status 1: some are not, 2: a wrong use.
"""
import itertools
import pathlib
import sys

DOCS = pathlib.Path(__file__).resolve().parent
CRATES = DOCS.parent / "crates.txt"

# What the pictures say besides crates.txt.

LINE = "0: c = add_wuz a b"

# The way of a line: what is done, what there is then, which crate does it, and where else it may lead.
LINE_STAGES = [
    ("read", "… 20 30\\n0: c = add_wuz a b\\n0: get c\\n …", "script_lines", "up to 64 KiB of the input; at its end the run ends"),
    ("line", LINE, "script_lines", "too long a line is bad; blank, or begun with #: skipped"),
    ("caller", "caller 0, text: c = add_wuz a b", "script_lines", "no caller: a bad line"),
    ("call", "word add_wuz, target c, names a, b", "cvl_text", "no call of the profile: a bad line"),
    ("validate", "a → 1 2 3, b → 10 20 30: as long", "cvl_calls", "the first check that fails: a fault 1 to 8"),
    ("run", "add: 11 22 33", "scan_kernels", "permute_kernels for what moves items"),
    ("store", "c → 11 22 33 in the memory", "vector_memory", "no room, too many names: faults 9, 10"),
    ("entry", "history + (caller 0, ticket 2, the call)", "call_history", "a fault is an entry too; out of memory is none"),
    ("reply", "0 ok", "cvl_text", "of a fault: 0 fault and its number"),
    ("output", "… 0 ok\\n0 ok\\n", "script_lines", "written at 64 KiB, and before more input is asked for"),
]

# The states of the word of a caller, with what lies in its slot, and the steps between them with who makes them.
WORD_STATES = [("1 idle", "empty, with the caller"), ("2 posted", "the call"), ("3 taken", "the holder has the call"), ("4 done", "the outcome")]
WORD_STEPS = [("post", "caller"), ("take", "holder"), ("answer", "holder")]
LOCK_STATES = [("0 free", "the desk at home"), ("h + 1", "caller h is the holder and has the desk with the book"), ("0 free", "the desk at home")]
LOCK_STEPS = ["lock", "unlock"]
LENGTH_STATES = ["n: every front begins this history", "n + the calls answered in the pass"]
FAST_PATH = ["lock", "run on the book", "enter", "look at each word", "unlock"]

# A batch: its calls by caller, the wave of each, and the runs: operation, callers, their operands and results, or the single result.
BATCH = [(0, "p = add_wuz a a", 0), (1, "b = mul_wuz a c", 0), (2, "q = add_wuz b b", 1), (3, "r = add_wuz d d", 0)]
WAVES = [(0, "wave 0", ""), (1, "wave 1", "reads what 1 writes")]
JOINED_RUN = ("one run of add", [("a, a", "p"), ("d, d", "r")])
SINGLE_RUNS = [("one run of mul", "b, by itself"), ("one run of add", "q, by itself")]

# Drawing.

INK, RULE, BLUE, YELLOW, GREEN, GREY = "#000000", "#57606a", "#ddf4ff", "#fff8c5", "#dafbe1", "#f0f2f4"
MONO = "monospace"


def escape(text):
    return text.replace("&", "&amp;").replace("<", "&lt;").replace(">", "&gt;")


def number(value):
    return f"{value:.1f}".removesuffix(".0")


class Picture:
    """Shapes on white, in black, with no text below 13 pixels."""

    def __init__(self, width, height, title, description):
        self.width, self.height = width, height
        self.parts = [
            f'<svg xmlns="http://www.w3.org/2000/svg" viewBox="0 0 {width} {height}" width="{width}" height="{height}" '
            'role="img" aria-labelledby="t d" font-family="sans-serif" font-size="14">',
            "  <!-- Written by docs/pictures.py. -->",
            f'  <title id="t">{escape(title)}</title>',
            f'  <desc id="d">{escape(description)}</desc>',
            '  <defs><marker id="head" viewBox="0 0 10 10" refX="9" refY="5" markerWidth="8" markerHeight="8" orient="auto">'
            f'<path d="M0 0 L10 5 L0 10 z" fill="{INK}"/></marker></defs>',
            f'  <rect width="{width}" height="{height}" fill="#ffffff"/>',
        ]

    def box(self, x, y, width, height, fill="#ffffff", radius=6):
        self.parts.append(f'  <rect x="{number(x)}" y="{number(y)}" width="{number(width)}" height="{number(height)}" '
                          f'rx="{radius}" fill="{fill}" stroke="{RULE}"/>')

    def text(self, x, y, words, size=14, bold=False, family=None, anchor=None):
        more = f' font-size="{size}"' if size != 14 else ""
        more += ' font-weight="bold"' if bold else ""
        more += f' font-family="{family}"' if family else ""
        more += f' text-anchor="{anchor}"' if anchor else ""
        self.parts.append(f'  <text x="{number(x)}" y="{number(y)}" fill="{INK}"{more} xml:space="preserve">{escape(words)}</text>')

    def path(self, way, head=True, dashed=False):
        more = ' marker-end="url(#head)"' if head else ""
        more += ' stroke-dasharray="4 4"' if dashed else ""
        self.parts.append(f'  <path d="{way}" fill="none" stroke="{INK}" stroke-width="1.4"{more}/>')

    def svg(self):
        return "\n".join(self.parts + ["</svg>", ""])


# The layers.

def read_crates(text):
    """Each crate with those of this repository that its line names."""
    named = {}
    for line in text.splitlines():
        line = line.split("#")[0].strip()
        if line:
            head, _, rest = line.partition(":")
            named[head.split()[0]] = rest.split()
    return {crate: [low for low in lows if low in named] for crate, lows in named.items()}


def all_below(crates):
    """All crates that a crate stands on, also by others."""
    found = {}

    def below(crate):
        if crate not in found:
            found[crate] = set()
            for low in crates[crate]:
                found[crate] |= {low} | below(low)
        return found[crate]

    for crate in crates:
        below(crate)
    return found


def nearest(crates):
    """Of the crates that a crate stands on those that it does not stand on by others as well."""
    below = all_below(crates)
    return {crate: [low for low in lows if not any(low in below[other] for other in lows)] for crate, lows in crates.items()}


def levels_of(lines):
    level = {}

    def find(crate):
        if crate not in level:
            level[crate] = max((find(low) + 1 for low in lines[crate]), default=0)
        return level[crate]

    for crate in lines:
        find(crate)
    return level


def crossings(lows, highs, lines):
    ends = [(lows.index(low), highs.index(high)) for high, low in lines]
    return sum((a[0] - b[0]) * (a[1] - b[1]) < 0 for a, b in itertools.combinations(ends, 2))


def shift(lows, highs, lines):
    middle = lambda row, node: row.index(node) - (len(row) - 1) / 2
    return sum(abs(middle(highs, high) - middle(lows, low)) for high, low in lines)


def order(rows, lines):
    """The rows, each in the order by which the fewest lines cross, and then by which they lean least."""
    best = {row: ((0, 0), [row]) for row in itertools.permutations(rows[0])}
    for depth in range(1, len(rows)):
        here = [line for line in lines if line[0] in rows[depth]]
        further = {}
        for highs in itertools.permutations(rows[depth]):
            choices = []
            for lows, (cost, path) in best.items():
                more = (cost[0] + crossings(lows, highs, here), cost[1] + shift(lows, highs, here))
                choices.append((more, path + [highs]))
            further[highs] = min(choices)
        best = further
    return min(best.values())[1]


def apart(want, weights, gaps):
    """The places nearest to those that are wanted, by weight, of which each is so far behind the one before."""
    ahead = [0]
    for gap in gaps:
        ahead.append(ahead[-1] + gap)
    pools = []
    for i, weight in enumerate(weights):
        pools.append([want[i] - ahead[i], weight, 1])
        while len(pools) > 1 and pools[-2][0] > pools[-1][0]:
            at, heavy, count = pools.pop()
            before = pools[-1]
            before[0] = (before[0] * before[1] + at * heavy) / (before[1] + heavy)
            before[1] += heavy
            before[2] += count
    flat = [at for at, _, count in pools for _ in range(count)]
    return [at + far for at, far in zip(flat, ahead)]


def place(rows, lines, widths, gap, sweeps=400):
    """Where the middle of each node lies, from left to right: near those that it is joined with, and apart from its neighbours."""
    beside = {node: [low for high, low in lines if high == node] + [high for high, low in lines if low == node] for row in rows for node in row}
    gaps = {id(row): [(widths[a] + widths[b]) / 2 + gap for a, b in zip(row, row[1:])] for row in rows}
    at = {node: 0 for node in beside}
    for _ in range(sweeps):
        for row in rows:
            want = [sum(at[other] for other in beside[node]) / max(1, len(beside[node])) for node in row]
            at.update(zip(row, apart(want, [max(1, len(beside[node])) for node in row], gaps[id(row)])))
    # A hundredth past a half, so that no last bit decides.
    return {node: round(x + 0.01) for node, x in at.items()}


def layers():
    crates = read_crates(CRATES.read_text())
    lines = nearest(crates)
    stood_on = {low for lows in crates.values() for low in lows}
    inner = {crate: lows for crate, lows in lines.items() if crate in stood_on}
    level = levels_of(inner)
    rows = [[] for _ in range(1 + max(level.values()))]
    for crate in inner:
        rows[level[crate]].append(crate)
    # A line past a row takes a place in it.
    short, bends = [], set()
    for crate, lows in inner.items():
        for low in lows:
            high = crate
            for depth in range(level[crate] - 1, level[low], -1):
                bend = f"{crate} over {low} at {depth}"
                bends.add(bend)
                rows[depth].append(bend)
                short.append((high, bend))
                high = bend
            short.append((high, low))
    rows = [sorted(row) for row in rows]
    rows = order(rows, short)
    widths = {node: 20 if node in bends else 26 + 8.5 * len(node) for row in rows for node in row}
    at = place(rows, short, widths, 34)

    above = {}
    for crate, lows in lines.items():
        if crate not in stood_on:
            above.setdefault(" and ".join(lows) or "nothing", []).append(crate)
    listed = []
    for low, names in sorted(above.items(), key=lambda item: -max(level.get(crate, 0) for crate in item[0].split(" and "))):
        for first in range(0, len(names), 4):
            listed.append((low if first == 0 else "", ", ".join(names[first:first + 4])))

    tall, step, top = 34, 76, 58
    margin = 30 - min(at[node] - widths[node] / 2 for node in at)
    width = max(760, int(max(at[node] + widths[node] / 2 for node in at) + margin + 30))
    foot = top + step * (len(rows) - 1) + tall + 54
    height = foot + 22 * len(listed) + 20
    picture = Picture(width, height, "The layers", "From below to above: " + "; ".join(
        f"{crate} stands on {' and '.join(lows)}" for crate, lows in lines.items() if lows) + ".")
    picture.text(24, 32, "Each crate stands on those that a line leads down to", 16, True)
    spread = (width - 60 - (max(at[n] + widths[n] / 2 for n in at) - min(at[n] - widths[n] / 2 for n in at))) / 2
    x = {node: at[node] + margin + spread for node in at}
    y = {node: top + step * (len(rows) - 1 - depth) for depth, row in enumerate(rows) for node in row}
    for high, low in short:
        start = y[high] + tall
        middle = (start + y[low]) / 2
        way = f"M{number(x[high])} {start} C{number(x[high])} {number(middle)} {number(x[low])} {number(middle)} {number(x[low])} {y[low]}"
        if low in bends:
            way += f" V{y[low] + tall}"
        picture.path(way, head=False)
    for crate in inner:
        picture.box(x[crate] - widths[crate] / 2, y[crate], widths[crate], tall, BLUE)
        picture.text(x[crate], y[crate] + 22, crate, family=MONO, anchor="middle")
    picture.text(24, foot, "Programs and tests, on which no crate stands", 16, True)
    for i, (low, names) in enumerate(listed):
        if low:
            picture.text(24, foot + 26 + 22 * i, f"on {low}:")
        picture.text(190, foot + 26 + 22 * i, names, family=MONO)
    return picture.svg()


# The life of a line.

def life_of_a_line():
    step, top, tall = 54, 92, 40
    height = top + step * (len(LINE_STAGES) - 1) + tall + 24
    picture = Picture(1000, height, "The life of a line", f"The line {LINE} goes through these stages: " + "; ".join(
        f"{stage}, by {crate}" for stage, _, crate, _ in LINE_STAGES) + ".")
    picture.text(24, 34, f"The line  {LINE}  in a serial run; yellow: what the book does", 16, True)
    for x, head in ((24, "stage"), (128, "what there is then"), (490, "crate"), (628, "else")):
        picture.text(x, 72, head, bold=True)
    for i, (stage, there, crate, other) in enumerate(LINE_STAGES):
        y = top + step * i
        fill = YELLOW if crate in ("cvl_calls", "scan_kernels", "vector_memory", "call_history") else "#ffffff"
        picture.text(24, y + 25, f"{i + 1}  {stage}", bold=True)
        picture.box(128, y, 340, tall, fill)
        picture.text(140, y + 25, there, 13, family=MONO)
        picture.text(490, y + 25, crate, 13, family=MONO)
        picture.text(628, y + 25, other, 13)
        if i:
            picture.path(f"M298 {y - step + tall} V{y - 1}")
    return picture.svg()


# The life of a call on the shared machine.

def life_of_a_call():
    picture = Picture(900, 590, "The life of a call", "The word of a caller goes from idle to posted, taken and done, and back to idle. "
                      "The caller makes the steps post and collect, the holder of the lock the steps take and answer. "
                      "Between take and answer the holder commits, which makes the history longer for all. "
                      "A caller that finds the lock free runs its own call at once, with no slot.")
    picture.text(24, 34, "The word of caller k, and its slot", 16, True)
    wide, between, left = 165, 64, 24
    for i, (state, slot) in enumerate(WORD_STATES):
        x = left + i * (wide + between)
        picture.box(x, 56, wide, 62, GREEN)
        picture.text(x + wide / 2, 81, state, bold=True, anchor="middle")
        picture.text(x + wide / 2, 103, slot, 13, anchor="middle")
        if i < len(WORD_STEPS):
            step, who = WORD_STEPS[i]
            picture.path(f"M{x + wide} 87 H{x + wide + between - 2}")
            picture.text(x + wide + between / 2, 78, step, anchor="middle")
            picture.text(x + wide + between / 2, 106, who, 13, anchor="middle")
    last = left + 3 * (wide + between) + wide / 2
    picture.path(f"M{number(last)} 118 V172 H{number(left + wide / 2)} V120")
    picture.text(450, 163, "collect, by caller k: its front becomes the history up to its call, if that is longer", anchor="middle")

    picture.text(24, 222, "The lock word, and where the desk lies", 16, True)
    boxes = [(24, 150), (242, 416), (726, 150)]
    for (x, width), (state, what) in zip(boxes, LOCK_STATES):
        picture.box(x, 240, width, 62, YELLOW)
        picture.text(x + width / 2, 265, state, bold=True, anchor="middle")
        picture.text(x + width / 2, 287, what, 13, anchor="middle")
    for (x, width), (further, _), step in zip(boxes, boxes[1:], LOCK_STEPS):
        picture.path(f"M{x + width} 271 H{further - 2}")
        picture.text((x + width + further) / 2, 262, step, anchor="middle")
    picture.text(450, 326, "a pass: lock, take where a call is posted, one batch, commit, answer each, unlock", anchor="middle")

    picture.text(24, 376, "The length word: how long the committed history is", 16, True)
    for x, what in zip((24, 496), LENGTH_STATES):
        picture.box(x, 394, 380, 42, BLUE)
        picture.text(x + 190, 420, what, anchor="middle")
    picture.path("M404 415 H494")
    picture.text(450, 407, "commit", anchor="middle")
    picture.text(450, 460, "look, by any caller: its front becomes the history of this moment", anchor="middle")

    picture.text(24, 508, "Fast path: the lock is free, and the caller's own call lies in no slot", 16, True)
    wide, between = 138, 40
    for i, step in enumerate(FAST_PATH):
        x = 24 + i * (wide + between)
        picture.box(x, 526, wide, 40, GREY)
        picture.text(x + wide / 2, 551, step, anchor="middle")
        if i:
            picture.path(f"M{x - between} 546 H{x - 2}")
    return picture.svg()


# The waves of a batch.

def waves_of_a_batch():
    picture = Picture(900, 480, "A batch, planned and joined", "Four callers have posted a call each. Calls 0, 1 and 3 are the first wave; "
                      "call 2 reads what call 1 writes, and is the second wave. In the first wave calls 0 and 3 have one word and run as one "
                      "kernel over their joined operands, and call 1 runs by itself. The history grows by 0, 1, 3 and then 2.")
    for x, head, under in ((24, "1 taken", "in the order of the callers"), (300, "2 planned", "in waves: takes no memory"),
                           (610, "3 run", "alike calls of a wave as one")):
        picture.text(x, 34, head, 16, True)
        picture.text(x, 56, under)
    fills = (BLUE, YELLOW)
    taken = {}
    for i, (caller, call, _) in enumerate(BATCH):
        y = 78 + 58 * i
        taken[caller] = y + 20
        picture.box(24, y, 210, 40)
        picture.text(36, y + 25, f"{caller}: {call}", family=MONO)
    planned, y = {}, 70
    for wave, name, why in WAVES:
        inside = [(caller, call) for caller, call, its in BATCH if its == wave]
        tall = 32 + 40 * len(inside)
        picture.box(300, y, 240, tall, fills[wave], 8)
        picture.text(312, y + 23, name, bold=True)
        picture.text(372, y + 23, why)
        for i, (caller, call) in enumerate(inside):
            planned[caller] = y + 48 + 40 * i
            picture.text(324, planned[caller] + 5, f"{caller}: {call}", family=MONO)
        y += tall + 40
    for caller, _, _ in BATCH:
        picture.path(f"M234 {taken[caller]} C266 {taken[caller]} 264 {planned[caller]} 298 {planned[caller]}")
    title, parts = JOINED_RUN
    picture.box(610, 70, 270, 92)
    picture.text(622, 91, title, bold=True)
    for i, (operands, result) in enumerate(parts):
        x, width = (622, 80) if i == 0 else (702, 56)
        for y, words, fill in ((100, operands, BLUE), (130, result, GREEN)):
            picture.box(x, y, width, 24, fill, 0)
            picture.text(x + width / 2, y + 17, words, anchor="middle")
    picture.text(770, 117, "borrowed")
    picture.text(770, 147, "a vector each")
    runs = [176, planned[2] - 22]
    for y, (title, result) in zip(runs, SINGLE_RUNS):
        picture.box(610, y, 270, 44)
        picture.text(622, y + 27, title, bold=True)
        picture.text(744, y + 27, result)
    for caller, end in ((0, 100), (3, 140), (1, runs[0] + 22), (2, runs[1] + 22)):
        y = planned[caller]
        picture.path(f"M540 {y} C576 {y} 572 {end} 608 {end}")
    picture.text(24, 378, "4 stored and committed", 16, True)
    picture.text(250, 378, "wave after wave, and each wave in the order of the callers")
    picture.box(24, 396, 148, 40, radius=0)
    picture.text(36, 421, "… the history", family=MONO)
    x = 172
    for wave, _, _ in WAVES:
        for caller, call, its in BATCH:
            if its == wave:
                picture.box(x, 396, 176, 40, fills[wave], 0)
                picture.text(x + 12, 421, f"{caller}: {call}", family=MONO)
                x += 176
    kernels = 1 + len(SINGLE_RUNS)
    picture.text(24, 462, f"Served: {len(BATCH)} calls, {len(WAVES)} waves, {kernels} kernel runs. "
                 "Each caller is told the place of its own entry, and its reply.")
    return picture.svg()


PICTURES = {
    "layers.svg": layers,
    "life-of-a-line.svg": life_of_a_line,
    "life-of-a-call.svg": life_of_a_call,
    "waves-of-a-batch.svg": waves_of_a_batch,
}


def main(words):
    if words not in (["check"], ["write"]):
        print("usage: docs/pictures.py check|write", file=sys.stderr)
        return 2
    status = 0
    for name, draw in PICTURES.items():
        path = DOCS / name
        svg = draw()
        if words == ["write"]:
            path.write_text(svg, encoding="utf-8")
        elif not path.is_file() or path.read_text(encoding="utf-8") != svg:
            print(f"docs/{name} is not what docs/pictures.py makes", file=sys.stderr)
            status = 1
    return status


if __name__ == "__main__":
    sys.exit(main(sys.argv[1:]))
