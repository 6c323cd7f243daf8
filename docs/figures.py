#!/usr/bin/env python3
"""docs/figures.py run [ROUNDS]   measures, and writes docs/figures.tsv
docs/figures.py write           writes the tables of PERFORMANCE.md and README.md, and the chart, from docs/figures.tsv
docs/figures.py check           status 1 where they are not what it would write

A line of figures.tsv is `workload TAB row TAB column TAB best TAB median`, over the repeats of all rounds. `run` takes the program that
./cvl runs and crates/bench/out/bench, which `rt run` in crates/bench builds. Each command in FIGURES_WITH, one a line, is run once in each
round, and prints lines `workload TAB row TAB column TAB number` of other programs on the same work. A table stands between `<!-- NAME -->`
and `<!-- end -->`."""
import collections
import os
import random
import re
import statistics
import subprocess
import sys
import tempfile
import time

DOCS = os.path.dirname(os.path.realpath(__file__))
ROOT = os.path.dirname(DOCS)
FIGURES = f"{DOCS}/figures.tsv"
CHART = f"{DOCS}/shared-machine.svg"
# Workloads whose numbers are times, in nanoseconds, of which the least is the best; the others are rates a second.
TIMES = ("kernels", "latency")
# In what the tables show rates: million calls, thousand lines.
SHOWN = {"shared": 1e6, "script": 1e3}


def scripts():
    """The scripts that are timed: a name, the lines before, the lines that repeat, how often, and the lines behind."""
    chance = random.Random(7)
    ints = lambda count: " ".join(str(chance.randrange(-(1 << 40), 1 << 40)) for _ in range(count))
    add = ["a = add_wuz a b"]
    yield "add16", [f"a = z {ints(16)}", f"b = z {ints(16)}"], add, 200000, ["get a"]
    yield "add4096", [f"a = z {ints(4096)}", f"b = z {ints(4096)}"], add, 20000, ["get a"]
    yield "add1M", ["a = dis_vuz 3 1048576", "b = dis_vuz -7 1048576"], add, 200, ["add_ruz a"]
    order = list(range(16))
    chance.shuffle(order)
    mixed = ["c = mul_wuz a b", "p = add_suz c", "f = les_wuz a p", "q = pck_puz p f", "h = sel_wuz f a p", "add_ruz q"]
    mixed += ["s = add_sez h g", "t = add_rez h g", "a = bck_puz s i", "a = add_wuz a b"]
    names = [f"a = z {ints(16)}", f"b = z {ints(16)}", "l = z 3 0 5 1 7", "g = mke_fov l", f"i = z {' '.join(map(str, order))}"]
    yield "mixed16", names, mixed, 20000, ["get a"]
    yield "numbers", [], [f"v = z {ints(1000)}", "get v"], 2000, []


def time_script(folder, name, before, lines, count, behind):
    path = f"{folder}/{name}.cvl"
    if not os.path.exists(path):
        with open(path, "w") as it:
            it.writelines(f"0: {line}\n" for line in [*before, *lines * count, *behind])
    with open(path) as script:
        began = time.perf_counter()
        subprocess.run([f"{ROOT}/cvl", "serial"], stdin=script, stdout=subprocess.DEVNULL, check=True)
        took = time.perf_counter() - began
    return f"script\t{name}\tcvl\t{(len(before) + len(lines) * count + len(behind)) / took:.1f}\n"


def measure(rounds):
    bench, found = f"{ROOT}/crates/bench/out/bench", collections.defaultdict(list)
    commands = [[bench, word] for word in ("kernels", "shared")]
    commands += [["sh", "-c", line] for line in os.environ.get("FIGURES_WITH", "").splitlines() if line]
    with tempfile.TemporaryDirectory() as folder:
        for number in range(1, rounds + 1):
            print(f"round {number} of {rounds}, load {os.getloadavg()[0]:.2f}", flush=True)
            said = [time_script(folder, *script) for script in scripts() for _ in range(3)]
            for command in commands:
                said += subprocess.run(command, capture_output=True, text=True, check=True).stdout.splitlines(True)
            for line in said:
                cells = line.rstrip("\n").split("\t")
                if len(cells) == 4:
                    found[tuple(cells[:3])].append(float(cells[3]))
    version = subprocess.run([f"{ROOT}/cvl", "--version"], capture_output=True, text=True).stdout.splitlines()[0]
    with open(FIGURES, "w") as it:
        it.write(f"# {os.cpu_count()} processors, {processor()}; {version}\n")
        for (workload, row, column), values in found.items():
            best = min(values) if workload in TIMES else max(values)
            it.write(f"{workload}\t{row}\t{column}\t{best:.6g}\t{statistics.median(values):.6g}\n")


def processor():
    with open("/proc/cpuinfo") as it:
        return re.search(r"model name\s*: (.*)", it.read())[1]


def read():
    """The first line, and of each figure the best and the median, where there is one."""
    found = {}
    with open(FIGURES) as it:
        head = it.readline()[2:].rstrip("\n")
        for line in it:
            *key, best, median = line.rstrip("\n").split("\t")
            scale = SHOWN.get(key[0], 1)
            found[tuple(key)] = float(best) / scale, float(median) / scale if median else None
    return head, found


def words(number):
    """A number as a table shows it: three figures, thousands parted."""
    if number is None:
        return ""
    if number >= 1000:
        return f"{number:,.0f}"
    return f"{number:.0f}" if number >= 100 else f"{number:.1f}" if number >= 10 else f"{number:.2f}"


def table(heads, rows):
    lines = [heads, ["---"] * len(heads), *rows]
    return "".join(" | ".join(line).strip() + "\n" for line in lines)


class Figures:
    LOGGED = ("mutex-fresh-log", "fc-fresh-log")

    def __init__(self):
        self.head, self.found = read()

    def best(self, workload, row, column):
        return self.found.get((workload, row, column), (None, None))[0]

    def median(self, workload, row, column):
        return self.found.get((workload, row, column), (None, None))[1]

    def beside(self, row, of, peers=None, workload="shared", own=None):
        """A figure of cvl by the best of its peers'."""
        theirs = [value for value in (of(workload, own or row, it) for it in peers or self.LOGGED) if value]
        value = of(workload, row, "cvl")
        return f"{value / max(theirs):.2f}" if value and theirs else ""

    def scripts(self):
        rows = []
        for name in ("add16", "add4096", "add1M", "mixed16", "numbers"):
            values = [self.best("script", name, it) for it in ("cpp-tuned", "rust-plain", "numpy", "cvl")]
            rows.append([f"`{name}`", *map(words, values), self.beside(name, self.best, ["rust-plain"], "script")])
        return table(["Script", "C++ tuned", "plain Rust", "Python, NumPy", "cvl", "beside plain Rust"], rows)

    def shared(self):
        rows = []
        for threads in (1, 2, 4):
            for items in (2, 16, 256, 4096):
                row = f"T={threads} len={items}"
                values = [self.best("shared", row, it) for it in (*self.LOGGED, "libcds-fc", "tbb-hashmap", "cvl")]
                rows.append([f"{threads}", f"{items:,}", *map(words, values), self.beside(row, self.best), self.beside(row, self.median)])
        return table(["Threads", "Items", "mutex, log", "flat combining, log", "libcds, in place", "TBB map, no log", "cvl", "beside: best", "median"], rows)

    def blocks(self):
        rows = []
        for threads in (1, 2, 4):
            for items in (2, 16, 256):
                row = f"T={threads} len={items}"
                values = [self.best("shared", it, "cvl") for it in (row, f"block=4 {row}", f"block=16 {row}", f"block=64 {row}", f"book {row}")]
                rows.append([f"{threads}", f"{items:,}", *map(words, values), self.beside(f"block=16 {row}", self.best, own=row)])
        return table(["Threads", "Items", "by `call`", "blocks of 4", "of 16", "of 64", "a book alone", "of 16 beside"], rows)

    def latency(self):
        rows = []
        for threads in (1, 4):
            for column, name in (("mutex-fresh-log", "mutex, log"), ("fc-fresh-log", "flat combining, log"), ("cvl", "cvl")):
                values = [self.best("latency", f"T={threads} len=16 {it}", column) for it in ("p50", "p99", "p99.9")]
                rows.append([f"{threads}", name, *map(words, values)])
        return table(["Threads", "Program", "median", "99%", "99.9%"], rows)

    def kernels(self):
        rows = []
        for kernel, name in (("add", "addition"), ("scan", "scan"), ("segscan", "segmented scan"), ("segreduce", "segmented reduction"), ("gather", "gather"), ("pack", "pack")):
            for size, short in ((1000, "1,000"), (32000, "32,000"), (1000000, "1M"), (16000000, "16M")):
                values = [self.best("kernels", f"{kernel}/{size}", it) for it in ("rust", "rust-spawn", "tbb", "cvl")]
                rows.append([name, short, *map(words, values), self.beside_threads(f"{kernel}/{size}")])
        return table(["Kernel", "Items", "Rust", "Rust, threads", "TBB", "cvl", "beside Rust, threads"], rows)

    def beside_threads(self, row):
        """The rate of a kernel by that of plain Rust with threads."""
        return f"{self.best('kernels', row, 'rust-spawn') / self.best('kernels', row, 'cvl'):.2f}"

    def short(self):
        """README's rows."""
        row = lambda text, peer, figure: [text, peer, figure]
        return table(["What", "Peer", "Rate beside it"], [
            row("script of short additions", "an interpreter in plain Rust", self.beside("add16", self.best, ["rust-plain"], "script")),
            row("shared machine, one thread, 16 items", "flat combining with a log", self.beside("T=1 len=16", self.best)),
            row("blocks of 16 calls, four threads", "the same", self.beside("block=16 T=4 len=16", self.best, own="T=4 len=16")),
            row("segmented reduction of a million items", "Rust with threads", self.beside_threads("segreduce/1000000")),
        ])

    def machine(self):
        return f"{self.head}.\n"

    def chart(self):
        """Bars of the shared machine's rates beside those of its peers, by one thread and by four."""
        columns = (("mutex-fresh-log", "mutex with a log", "#d0d7de"), ("fc-fresh-log", "flat combining with a log", "#bf8700"), ("cvl", "cvl", "#0550ae"))
        left, low, tall, wide, bar = 40, 330, 240, 98, 29
        most = max(self.best("shared", f"T={threads} len=2", it) or 0 for threads in (1, 4) for it, *_ in columns)
        parts = ['<svg xmlns="http://www.w3.org/2000/svg" width="860" height="400" font-family="sans-serif" font-size="14">', '<rect width="860" height="400" fill="white"/>']
        text = lambda x, y, said, how="": parts.append(f'<text x="{x}" y="{y}"{how}>{said}</text>')
        text(24, 28, "Million calls a second on the shared machine, best of the repeats", ' font-weight="bold"')
        for at, (_, name, fill) in enumerate(columns):
            parts.append(f'<rect x="{24 + 230 * at}" y="42" width="14" height="14" fill="{fill}" stroke="black"/>')
            text(44 + 230 * at, 54, name)
        for group, threads in enumerate((1, 4)):
            for place, items in enumerate((2, 16, 256, 4096)):
                start = left + 400 * group + wide * place
                for at, (column, _, fill) in enumerate(columns):
                    value = self.best("shared", f"T={threads} len={items}", column) or 0
                    high = tall * value / most
                    parts.append(f'<rect x="{start + bar * at}" y="{low - high:.1f}" width="{bar}" height="{high:.1f}" fill="{fill}" stroke="black"/>')
                    text(start + bar * at + bar / 2, f"{low - high - 4:.1f}", f"{value:.1f}" if value >= 1 else f"{value:.2f}", ' font-size="13" text-anchor="middle"')
                text(start + 1.5 * bar, low + 20, f"{items:,} items", ' text-anchor="middle"')
            text(left + 400 * group + 2 * wide - 10, low + 46, "one thread" if threads == 1 else "four threads", ' font-weight="bold" text-anchor="middle"')
        return "\n".join([*parts, "</svg>"]) + "\n"


def filled(text, figures):
    fill = lambda it: f"{it[1]}\n{getattr(figures, it[2])()}{it[3]}"
    return re.sub(r"(<!-- (\w+) -->)\n.*?(<!-- end -->)", fill, text, flags=re.S)


def made():
    """Each file that is made of the figures, as it is and as it should be."""
    figures = Figures()
    for page in (f"{DOCS}/PERFORMANCE.md", f"{ROOT}/README.md"):
        with open(page, encoding="utf-8") as it:
            text = it.read()
        yield page, text, filled(text, figures)
    with open(CHART, encoding="utf-8") as it:
        yield CHART, it.read(), figures.chart()


def main(asked):
    if asked[:1] == ["run"] and len(asked) <= 2:
        return measure(int(asked[1]) if asked[1:] else 5)
    if asked not in (["write"], ["check"]):
        print(__doc__)
        return 2
    stale = [(file, text) for file, found, text in made() if found != text]
    for file, text in stale:
        if asked == ["write"]:
            with open(file, "w", encoding="utf-8") as it:
                it.write(text)
        else:
            print(f"{os.path.relpath(file, ROOT)} has not the figures of docs/figures.tsv: docs/figures.py write puts them there")
    return 1 if stale and asked == ["check"] else 0


sys.exit(main(sys.argv[1:]))
