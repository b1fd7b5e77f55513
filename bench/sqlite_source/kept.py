"""Measures cqlrun beside SQLite and PostgreSQL that keep each result by hand: at each instant they
look only at the rows that come and at those that leave.

usage: kept.py CQLRUN FOLDER SHARE
"""

import os
import pwd
import re
import signal
import sqlite3
import subprocess
import sys
import time
from pathlib import Path

from anew import ROWS, STRIDE, TEXTS, by_engine, rows_of

SPANS = (10, 100, 1_000)
# Where Debian puts PostgreSQL's programs: the newest, if any is there.
POSTGRES = max(Path("/usr/lib/postgresql").glob("[0-9]*/bin"), default=None,
               key=lambda path: float(path.parent.name))

# The rows that come at an instant, and those that leave. `:now` is the instant, and `:gone` the one
# that the window no longer holds.
CHANGES = ("(Select k, v, 1 As c From A Where at = :now "
           "Union All Select k, v, -1 From A Where at = :gone)")
# Of each key that is touched: how many rows more, their sum, and how many of them have a value.
TOUCHED = ("(Select k, Sum(c) As n, Sum(c * Coalesce(v, 0)) As s, "
           f"Sum(Case When v Is Null Then 0 Else c End) As m From {CHANGES} As it Group By k)")
PAIRS = "Select A.v As a, B.v As b, {} As c From A Join B On A.k = B.k Where "

# The tables beside those of the streams, by query.
TABLES = {
    "range": (),
    "groups": ("Create Table G (k Integer Primary Key, n Integer, s Integer, m Integer)",
               "Create Index G_empty On G (n) Where n = 0"),
    "join": (),
    "distinct": ("Create Table D (k Integer Primary Key, n Integer)",
                 "Create Index D_empty On D (n) Where n = 0"),
}

# What is answered at an instant.
ANSWERS = {
    "range": f"Select k, v, Sum(c) From {CHANGES} As it Group By k, v Having Sum(c) > 0 "
             "Order By k, v",
    "groups": "Select k, n, s, 1 From (Select T.k As k, Coalesce(G.n, 0) + T.n As n, "
              "Case When Coalesce(G.m, 0) + T.m > 0 Then Coalesce(G.s, 0) + T.s End As s, "
              "G.n As was, Case When G.m > 0 Then G.s End As sum "
              f"From {TOUCHED} As T Left Join G On G.k = T.k) As it "
              "Where n > 0 And (was Is Distinct From n Or sum Is Distinct From s) Order By k",
    "join": "Select a, b, Sum(c) From ("
            + PAIRS.format("1") + "A.at = :now And B.at Between :low And :now Union All "
            + PAIRS.format("1") + "B.at = :now And A.at Between :low And :now - 1 Union All "
            + PAIRS.format("-1") + "A.at = :gone And B.at Between :gone And :now - 1 Union All "
            + PAIRS.format("-1") + "B.at = :gone And A.at Between :low And :now - 1"
            + ") As it Group By a, b Having Sum(c) > 0 Order By a, b",
    "distinct": f"Select T.k, 1 From {TOUCHED} As T Left Join D On D.k = T.k "
                "Where D.k Is Null And T.n > 0 Order By T.k",
}

# What is kept then.
KEEPS = {
    "range": (),
    "groups": (
        f"Insert Into G Select k, n, s, m From {TOUCHED} As T Where True On Conflict (k) Do "
        "Update Set n = G.n + excluded.n, s = G.s + excluded.s, m = G.m + excluded.m",
        "Delete From G Where n = 0",
    ),
    "join": (),
    "distinct": (
        f"Insert Into D Select k, n From {TOUCHED} As T Where True On Conflict (k) Do "
        "Update Set n = D.n + excluded.n",
        "Delete From D Where n = 0",
    ),
}
# How many columns an answer has.
WIDTHS = {"range": 2, "groups": 3, "join": 2, "distinct": 1}


def indexes(names):
    for name in names:
        yield f"Create Table {name} (at Integer, k Integer, v Integer)"
        yield f"Create Index {name}_at On {name} (at)"
        if len(names) > 1:
            yield f"Create Index {name}_key On {name} (k, at)"


def in_order(answers):
    """Answers by instant and row, a null before each number."""
    return sorted(answers, key=lambda row: [(value is not None, value or 0) for value in row])


def by_sqlite(kind, span, rows, instants):
    """The answers, and the seconds that they took."""
    base = sqlite3.connect(":memory:", isolation_level=None)
    for statement in (*indexes(rows), *TABLES[kind]):
        base.execute(statement)
    leaves = [f"Delete From {name} Where at = :gone" for name in rows]
    answers = []
    began = time.process_time()
    for first in range(0, instants, STRIDE):
        last = min(first + STRIDE, instants) - 1
        base.execute("Begin")
        for name, held in rows.items():
            base.executemany(f"Insert Into {name} Values (?, ?, ?)",
                             held[first * ROWS:(last + 1) * ROWS])
        for now in range(first, last + 1):
            at = {"now": now, "low": max(now - span, 0), "gone": now - span - 1}
            for *values, count in base.execute(ANSWERS[kind], at):
                answers += [(now, *values)] * count
            for statement in (*KEEPS[kind], *leaves):
                base.execute(statement, at)
        base.execute("Commit")
    return answers, time.process_time() - began


class Postgres:
    """A server of its own in a folder, that nobody else can reach."""

    def __init__(self, folder):
        self.folder = os.path.join(folder, "postgres")
        os.makedirs(self.folder)
        self.user = None
        if os.geteuid() == 0:
            account = pwd.getpwnam("postgres")
            self.user = account.pw_name
            for path in (folder, self.folder):
                os.chmod(path, 0o755)
            os.chown(self.folder, account.pw_uid, account.pw_gid)
        self.run(f"{POSTGRES}/initdb", "-D", f"{self.folder}/data", "-A", "trust", "-U", "bench",
                 "--no-sync")
        # nothing is made to last: rows are in memory, as they are in the engine
        self.run(f"{POSTGRES}/pg_ctl", "-D", f"{self.folder}/data", "-w", "-l",
                 f"{self.folder}/log", "-o",
                 f"-k {self.folder} -h '' -c fsync=off -c full_page_writes=off -c jit=off "
                 "-c synchronous_commit=off -c shared_buffers=1GB -c enable_seqscan=off "
                 "-c client_min_messages=warning -c autovacuum_naptime=1", "start")

    def run(self, *words, given=None):
        return subprocess.run(words, check=True, input=given, text=True, cwd="/", user=self.user,
                              stdout=subprocess.PIPE).stdout

    def said(self, text):
        """What the server answers to a text, and what it says beside that."""
        words = [f"{POSTGRES}/psql", "-q", "-X", "-A", "-t", "-v", "ON_ERROR_STOP=1", "-h",
                 self.folder, "-U", "bench", "postgres"]
        ran = subprocess.run(words, input=text, text=True, cwd="/", user=self.user,
                             stdout=subprocess.PIPE, stderr=subprocess.PIPE)
        if ran.returncode != 0:
            sys.exit(f"bench/sqlite: PostgreSQL refused a statement:\n{ran.stderr}")
        return ran.stdout, ran.stderr

    def stop(self):
        self.run(f"{POSTGRES}/pg_ctl", "-D", f"{self.folder}/data", "-m", "immediate", "stop")

    def answers(self, kind, span, rows, instants):
        """The answers, and the processor seconds that they took: one process of the server does
        all in one call, and the instants of a line are one transaction."""
        def inside(statement):
            return re.sub(r":(now|low|gone)\b", r"\1_", statement)
        width = WIDTHS[kind]
        columns = ", ".join(f"c{n} Bigint" for n in range(width))
        leaves = [f"Delete From {name} Where at = gone_;" for name in rows]
        keeps = [inside(statement) + ";" for statement in KEEPS[kind]]
        comes = [f"Insert Into {name} Select at, k, v From {name}_all Where at Between first_ And "
                 "last_;" for name in rows]
        lines = ["Drop Schema public Cascade; Create Schema public;"]
        lines += [statement + ";" for statement in (*indexes(rows), *TABLES[kind])]
        lines += [f"Create Table answers (at Bigint, {columns}, times Bigint);"]
        for name, held in rows.items():
            lines += [f"Create Table {name}_all (at Integer, k Integer, v Integer);",
                      f"Create Index {name}_all_at On {name}_all (at);",
                      f"Copy {name}_all From Stdin (Null 'null');"]
            lines += ["\t".join("null" if it is None else str(it) for it in row) for row in held]
            lines += ["\\."]
        lines += [
            "Analyze;",
            "Create Procedure go() Language plpgsql As $$ Declare",
            "now_ Integer; low_ Integer; gone_ Integer; first_ Integer; last_ Integer; Begin",
            f"For first_ In Select generate_series(0, {instants - 1}, {STRIDE}) Loop",
            f"last_ := Least(first_ + {STRIDE}, {instants}) - 1;",
            *comes,
            "For now_ In first_ .. last_ Loop",
            f"low_ := Greatest(now_ - {span}, 0); gone_ := now_ - {span} - 1;",
            f"Insert Into answers Select now_, it.* From ({inside(ANSWERS[kind])}) As it;",
            *keeps, *leaves,
            "End Loop; Commit;",
            # so that it plans by what a full window has
            f"If first_ In ({STRIDE}, {STRIDE * 10}, {STRIDE * 40}) Then Analyze; End If;",
            "End Loop; End $$;",
            # what the next statement takes is said beside its answer
            "Set client_min_messages = log;",
            "Set log_statement_stats = on;",
            "Call go();",
            "Set log_statement_stats = off;",
            "Reset client_min_messages;",
            "Select * From answers;",
        ]
        said, beside = self.said("\n".join(lines))
        answers = []
        for line in filter(None, said.split("\n")):
            *values, count = (int(it) if it else None for it in line.split("|"))
            answers += [tuple(values)] * count
        user, system = re.findall(r"([\d.]+) s user, ([\d.]+) s system, ", beside)[0]
        return answers, float(user) + float(system)


def main():
    program, folder, share = sys.argv[1], sys.argv[2], float(sys.argv[3])
    signal.signal(signal.SIGTERM, lambda *_: sys.exit(1))
    postgres = Postgres(folder) if POSTGRES is not None else None
    if postgres is None:
        print("PostgreSQL is not installed: its columns stay empty")
    print(f"{'query':<9} {'span':>6} {'rows':>8} {'engine':>10} {'SQLite':>10} {'times':>6} "
          f"{'PostgreSQL':>10} {'times':>6}   rows a second, results kept by hand")
    status = 0
    try:
        for kind in TEXTS:
            for span in SPANS:
                instants = max(4 * span, int(30_000 * share))
                rows = rows_of(kind, span, instants)
                all_rows = ROWS * len(rows) * instants
                mine, seconds = by_engine(program, folder, kind, span, rows, instants)
                mine = in_order(mine)
                rates = []
                for theirs in (by_sqlite, postgres and postgres.answers):
                    if theirs is None:
                        rates.append(f"{'':>10} {'':>6}")
                        continue
                    answers, other = theirs(kind, span, rows, instants)
                    if in_order(answers) != mine:
                        print(f"{kind} {span}: THE ANSWERS DIFFER")
                        status = 1
                    rates.append(f"{all_rows / other:>10.0f} {other / seconds:>6.1f}")
                print(f"{kind:<9} {span:>6} {all_rows:>8} {all_rows / seconds:>10.0f} "
                      + " ".join(rates), flush=True)
    finally:
        if postgres is not None:
            postgres.stop()
    sys.exit(status)


main()
