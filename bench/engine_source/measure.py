"""Measures cqlrun beside plain.rs: bench/engine builds all three and says what is compared.

usage: measure.py CQLRUN PLAIN TESTED FOLDER [SHARE | instructions [WAY ...]]
"""

import json
import os
import random
import re
import subprocess
import sys
import time
from concurrent.futures import ThreadPoolExecutor

ROWS = 8
SPANS = (10, 100, 1_000, 10_000)
INSTANTS = 30_000
TAKE = 4_096
# The instants of an append, a heartbeat and a take.
STRIDE = 64

TEXTS = {
    "filter": "Select Rstream(k, v) From A [Now] Where v > 500",
    "range": "Select Istream(k, v) From A [Range {span}]",
    "groups": "Select Istream(k, Count(*), Sum(v)) From A [Range {span}] Group By k",
    "join": "Select Istream(A.v, B.v) From A [Range {span}], B [Range {span}] Where A.k = B.k",
    "distinct": "Select Istream(Distinct k) From A [Range {span}]",
}
# The queries of one table more: a window that moves at each tenth instant, and a join of three.
MORE = {
    "slide": "Select Istream(k, v) From A [Range {span} Slide 10]",
    "three": "Select Istream(A.v, B.v, C.v) From A [Range {span}], B [Range {span}], "
             "C [Range {span}] Where A.k = B.k And B.k = C.k",
}
STREAMS = {"join": "AB", "three": "ABC"}
# How rows come: a name, the instants of a line, whether by rising instants, rows of an instant, and
# the instants of the longer run.
WAYS = (
    ("shuffled", STRIDE, False, ROWS, 6_400),
    ("rising", STRIDE, True, ROWS, 6_400),
    ("one", STRIDE, True, 1, 25_600),
    ("instants", 1, True, ROWS, 1_600),
)
# The shares of the program by hand to reach, by instructions.
GOALS = {
    "shuffled": {"filter": 0.4, "range": 0.65, "groups": 0.75, "join": 0.55, "distinct": 0.45,
                 "slide": 0.75, "three": 0.4},
    "rising": {},
    "one": {"filter": 0.35, "range": 0.45, "groups": 0.5, "join": 0.4, "distinct": 0.4},
    "instants": {"filter": 0.35, "range": 0.6, "groups": 0.7, "join": 0.5, "distinct": 0.45},
}


def keys_of(kind, span, each=ROWS):
    """How many keys there are: as many as a window has rows where an answer needs a key that is new
    or met, so that answers stay as many."""
    return each * (span + 1) if kind in ("join", "three", "distinct") else 64


def declared(streams):
    return [{"op": "stream", "name": name, "columns": ["k", "v"], "from": 0} for name in streams]


def script(path, kind, span, instants, stride=STRIDE, rising=False, each=ROWS):
    """Writes the script of a query, and gives how many rows it has. An instant has so many rows of
    each stream. The rows of a line come in any order, or by rising instants."""
    draw = random.Random(1)
    streams = STREAMS.get(kind, "A")
    keys = keys_of(kind, span, each)
    lines = declared(streams)
    text = {**TEXTS, **MORE}[kind].format(span=span)
    lines.append({"op": "query", "name": "q", "text": text})
    for first in range(0, instants, stride):
        last = min(first + stride, instants) - 1
        for name in streams:
            rows = [
                [at, draw.randrange(keys),
                 None if draw.randrange(16) == 0 else draw.randrange(-1000, 1000)]
                for at in range(first, last + 1)
                for _ in range(each)
            ]
            if not rising:
                draw.shuffle(rows)
            lines.append({"op": "append", "stream": name, "rows": rows})
        lines += [{"op": "heartbeat", "stream": name, "at": last} for name in streams]
        lines += [{"op": "drain"}, {"op": "take", "query": "q", "limit": TAKE}]
    with open(path, "w") as out:
        for line in lines:
            out.write(json.dumps(line, separators=(",", ":")) + "\n")
    return instants * each * len(streams)


def run(words, script_path, replies):
    """The seconds of the processor that a run took."""
    with open(script_path) as source, open(replies, "w") as sink:
        child = os.posix_spawn(words[0], words, {}, file_actions=[
            (os.POSIX_SPAWN_DUP2, source.fileno(), 0),
            (os.POSIX_SPAWN_DUP2, sink.fileno(), 1),
        ])
        _, status, used = os.wait4(child, 0)
    if status != 0:
        sys.exit(f"bench/engine: {' '.join(words)} ended with {status}")
    return used.ru_utime + used.ru_stime


def least(words, script_path, replies, times=3):
    return min(run(words, script_path, replies) for _ in range(times))


def peak(words, script_path, replies):
    """The bytes that a run held at most. (What wait4 says of a child counts what its parent held as
    it began.)"""
    said = replies + ".peak"
    run(["/usr/bin/time", "-f", "%M", "-o", said, *words], script_path, replies)
    with open(said) as text:
        return int(text.read()) * 1024


# What went wrong in the run: replies that differ, and goals that are missed.
differences: list[str] = []
missed: list[str] = []


def compare(what, first, second):
    """Says where the replies of two runs differ."""
    with open(first) as one, open(second) as other:
        for number, (mine, theirs) in enumerate(zip(one, other), 1):
            if mine != theirs:
                differences.append(what)
                print(f"{what}: THE REPLIES DIFFER in line {number}:\n  {mine[:200].rstrip()}\n"
                      f"  {theirs[:200].rstrip()}", flush=True)
                return
        if one.read() or other.read():
            differences.append(what)
            print(f"{what}: THE REPLIES DIFFER in their number", flush=True)


def counted(words, script_path, replies, kept):
    """The instructions of a run, without those that fill memory with noughts, which valgrind counts
    byte by byte."""
    with open(script_path) as source, open(replies, "w") as sink:
        subprocess.run(["valgrind", "--tool=callgrind", f"--callgrind-out-file={kept}", *words],
                       stdin=source, stdout=sink, stderr=subprocess.DEVNULL, check=True)
    said = subprocess.run(["callgrind_annotate", "--threshold=100", kept],
                          stdout=subprocess.PIPE, text=True, check=True).stdout
    figures = re.findall(r"^ *([\d,]+) .*?(PROGRAM TOTALS|memset\S*)", said, re.M)
    whole = [int(it.replace(",", "")) for it, what in figures if what == "PROGRAM TOTALS"]
    noughts = [int(it.replace(",", "")) for it, what in figures if what != "PROGRAM TOTALS"]
    return whole[0] - sum(noughts)


def answers_in(path):
    with open(path) as replies:
        return sum(len(reply.get("rows", ())) for reply in map(json.loads, replies))


def refuse_faults(path):
    with open(path) as replies:
        for reply in replies:
            if reply.startswith('{"error"'):
                sys.exit(f"bench/engine: a request was refused: {reply.rstrip()}")


class Bench:
    def __init__(self, engine, plain, tested, folder, share):
        self.engine, self.plain, self.tested = engine, plain, tested
        self.folder, self.share = folder, share

    def at(self, name):
        return os.path.join(self.folder, name)

    def spans(self, rising=False, texts=TEXTS):
        """Rows a second at each span, and what they are of the hand-written programs'."""
        print(f"{'query':<9} {'span':>6} {'rows':>8} {'answers':>8} {'rows/s':>10} {'by hand':>10} "
              f"{'share':>6} {'tested':>10} {'share':>6}{'   rising instants' if rising else ''}")
        for kind in texts:
            rates = []
            for span in SPANS[:1] if kind == "filter" else SPANS[1:2] if rising else SPANS:
                instants = max(STRIDE, int(INSTANTS * self.share))
                rows = script(self.at("script"), kind, span, instants, rising=rising)
                mine = least([self.engine], self.at("script"), self.at("engine"))
                hand = least([self.plain, kind, str(span)], self.at("script"), self.at("hand"))
                tests = least([self.tested, kind, str(span)], self.at("script"), self.at("tests"))
                refuse_faults(self.at("engine"))
                compare(f"{kind} {span}, by hand", self.at("hand"), self.at("tests"))
                compare(f"{kind} {span}, engine and by hand", self.at("engine"), self.at("hand"))
                answers = answers_in(self.at("engine"))
                rates.append(rows / mine)
                print(f"{kind:<9} {span:>6} {rows:>8} {answers:>8} {rows / mine:>10.0f} "
                      f"{rows / hand:>10.0f} {hand / mine:>6.2f} {rows / tests:>10.0f} "
                      f"{tests / mine:>6.2f}", flush=True)
            if len(rates) > 1:
                print(f"{kind:<9} flat: the quickest span is {max(rates) / min(rates):.2f} times "
                      "the slowest")

    def small(self):
        """The definition itself, the engine and the program by hand at the smallest span, on fewer
        instants."""
        span, instants = SPANS[0], 256
        print(f"\n{'query':<9} {'rows':>8} {'rows/s':>10} {'definition':>10} {'ratio':>8}   "
              f"{instants} instants, span {span}")
        for kind in TEXTS:
            rows = script(self.at("script"), kind, span, instants, stride=32)
            mine = least([self.engine], self.at("script"), self.at("engine"))
            plain = least([self.engine, "--plain"], self.at("script"), self.at("definition"),
                          times=1)
            run([self.plain, kind, str(span)], self.at("script"), self.at("hand"))
            compare(f"{kind} {span}, engine and definition", self.at("engine"),
                    self.at("definition"))
            compare(f"{kind} {span}, engine and by hand", self.at("engine"), self.at("hand"))
            print(f"{kind:<9} {rows:>8} {rows / mine:>10.0f} {rows / plain:>10.0f} "
                  f"{plain / mine:>8.2f}", flush=True)

    def instructions(self, names):
        """Instructions a row at span 100, by the difference of two runs, of lines that come in the
        ways of these names."""
        print(f"{'query':<9} {'lines':>10} {'engine':>8} {'by hand':>8} {'share':>6} {'goal':>5} "
              f"{'tested':>8} {'share':>6}   instructions a row, span 100")
        ways = [(kind, *way) for way in WAYS if way[0] in names for kind in (*TEXTS, *MORE)]
        with ThreadPoolExecutor(int(os.environ.get("JOBS", os.cpu_count() or 1))) as pool:
            for (kind, how, *_), (mine, hand, tests) in zip(ways, pool.map(self.of_a_row, ways)):
                goal = GOALS[how].get(kind)
                if goal and hand / mine < goal:
                    missed.append(f"{kind} {how}")
                print(f"{kind:<9} {how:>10} {mine:>8.0f} {hand:>8.0f} {hand / mine:>6.2f} "
                      f"{goal if goal else '':>5} {tests:>8.0f} {tests / mine:>6.2f}", flush=True)

    def of_a_row(self, way):
        """The instructions of a row by each of the three programs."""
        kind, how, stride, rising, each, instants = way
        said = []
        for count in (instants // 10, instants):
            name = self.at(f"{kind}-{how}-{count}")
            rows = script(name, kind, 100, count, stride, rising, each)
            programs = {"engine": [self.engine], "hand": [self.plain, kind, "100"],
                        "tested": [self.tested, kind, "100"]}
            said.append((rows, [
                counted(words, name, f"{name}.{which}", f"{name}.kept")
                for which, words in programs.items()
            ]))
            refuse_faults(f"{name}.engine")
            for which in ("hand", "tested"):
                compare(f"{kind} {how}, {which}", f"{name}.engine", f"{name}.{which}")
        (rows, few), (rows_more, more) = said
        return [(b - a) / (rows_more - rows) for a, b in zip(few, more)]

    def reading(self):
        """What the lines alone cost, with no query."""
        instants = max(STRIDE, int(INSTANTS * self.share))
        rows = script(self.at("script"), "filter", 0, instants)
        with open(self.at("script")) as whole, open(self.at("alone"), "w") as alone:
            alone.writelines(line for line in whole
                             if not line.startswith(('{"op":"query"', '{"op":"take"')))
        mine = least([self.engine], self.at("alone"), self.at("engine"))
        refuse_faults(self.at("engine"))
        print(f"\nthe same lines with no query and no take: {rows / mine:.0f} rows/s")

    def instant_by_instant(self):
        """An append, a heartbeat, a drain and a take for each instant."""
        print(f"\n{'query':<9} {'rows':>8} {'rows/s':>10} {'by hand':>10} {'share':>6}   "
              "an append, a drain and a take for each instant, span 100")
        for kind in TEXTS:
            instants = max(STRIDE, int(INSTANTS * self.share / 3))
            rows = script(self.at("script"), kind, 100, instants, stride=1)
            mine = least([self.engine], self.at("script"), self.at("engine"))
            hand = least([self.plain, kind, "100"], self.at("script"), self.at("hand"))
            compare(f"{kind} 100 by instants", self.at("engine"), self.at("hand"))
            print(f"{kind:<9} {rows:>8} {rows / mine:>10.0f} {rows / hand:>10.0f} "
                  f"{hand / mine:>6.2f}", flush=True)

    def many(self):
        """Heartbeats of a stream that 1 query reads and that 256 read: no drain is between them."""
        print()
        for rows, stride, beats in ((0, 1, 5_000), (512, 64, 1_000)):
            beats = max(100, int(beats * self.share))
            seconds, bytes_held = {}, {}
            for queries in (1, 256):
                for count in (0, beats):
                    self.beats(queries, count, stride, rows)
                    seconds[queries, count] = least([self.engine], self.at("script"),
                                                    self.at("engine"))
                    refuse_faults(self.at("engine"))
                bytes_held[queries] = peak([self.engine], self.at("script"), self.at("engine"))
            one, many = ((seconds[queries, beats] - seconds[queries, 0]) / beats * 1e6
                         for queries in (1, 256))
            what = (f"a heartbeat over {stride} instants and the append of their {rows} rows"
                    if rows else "a heartbeat over 1 instant without rows")
            print(f"{what}, {beats} of them without a drain: {one:.1f} microseconds"
                  f" with 1 query, {many:.1f} with 256; ratio {many / one:.2f},"
                  f" {(many - one) / 255:.3f} for a query more;"
                  f" peak memory {bytes_held[256] / bytes_held[1]:.2f} times", flush=True)

    def beats(self, queries, count, stride, rows):
        draw = random.Random(3)
        with open(self.at("script"), "w") as out:
            lines = declared("A")
            text = TEXTS["range"].format(span=100)
            lines += [{"op": "query", "name": f"q{n}", "text": text} for n in range(queries)]
            for first in range(0, count * stride, stride):
                if rows > 0:
                    batch = [[first + n * stride // rows, draw.randrange(64), draw.randrange(1000)]
                             for n in range(rows)]
                    lines.append({"op": "append", "stream": "A", "rows": batch})
                lines.append({"op": "heartbeat", "stream": "A", "at": first + stride - 1})
            out.writelines(json.dumps(line, separators=(",", ":")) + "\n" for line in lines)

    def memory(self):
        """The bytes that a row takes: held by a window, not yet closed, and closed and given; one
        of 8 of its instant, and alone there."""
        few, more = 20_000, 20_000 + int(400_000 * self.share)
        print()
        for columns in (1, 2, 8):
            names = [f"c{n}" for n in range(columns)]
            for what, window, closes in (("that a Range holds", "Range 1000000", True),
                                         ("that waits to be closed", "Now", False),
                                         ("that is closed and that no window holds", "Now", True)):
                for at_once in (ROWS, 1):
                    held = {}
                    for rows in (few, more):
                        text = f"Select Istream(Count(*)) From A [{window}]"
                        self.stored(names, text, rows, closes, at_once)
                        held[rows] = peak([self.engine], self.at("script"), self.at("engine"))
                        refuse_faults(self.at("engine"))
                    bytes_each = (held[more] - held[few]) / (more - few)
                    print(f"a row {what}, of {columns} columns, {at_once} at an instant: "
                          f"{bytes_each:.0f} bytes, "
                          f"{bytes_each / (8 * columns):.1f} of its values' "
                          f"(goal: at most {3 * 8 * columns + 16})", flush=True)

    def stored(self, names, text, rows, closes, at_once):
        draw = random.Random(2)
        with open(self.at("script"), "w") as out:
            def say(line):
                out.write(json.dumps(line, separators=(",", ":")) + "\n")
            say({"op": "stream", "name": "A", "columns": names, "from": 0})
            say({"op": "query", "name": "q", "text": text})
            for first in range(0, rows, 512):
                batch = [[(first + n) // at_once] + [draw.randrange(-1000, 1000) for _ in names]
                         for n in range(min(512, rows - first))]
                say({"op": "append", "stream": "A", "rows": batch})
                if closes:
                    say({"op": "heartbeat", "stream": "A", "at": batch[-1][0]})
                    say({"op": "drain"})
                    say({"op": "take", "query": "q", "limit": TAKE})


def main():
    engine, plain, tested, folder = sys.argv[1:5]
    words = sys.argv[5:]
    if words[:1] == ["instructions"]:
        names = [name for name, *_ in WAYS]
        if not {*words[1:]} <= {*names}:
            sys.exit(f"bench/engine: the ways are {', '.join(names)}")
        Bench(engine, plain, tested, folder, 1.0).instructions(words[1:] or names)
        if missed:
            print(f"missed: {', '.join(missed)}")
        sys.exit(1 if missed or differences else 0)
    bench = Bench(engine, plain, tested, folder, float(words[0]) if words else 1.0)
    start = time.perf_counter()
    bench.small()
    print()
    bench.spans()
    bench.spans(rising=True)
    print()
    bench.spans(texts=MORE)
    bench.reading()
    bench.instant_by_instant()
    bench.many()
    bench.memory()
    print(f"\n{time.perf_counter() - start:.0f} seconds")
    sys.exit(1 if differences else 0)


main()
