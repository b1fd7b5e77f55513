"""Runs what the documents say over a built cqlrun and cqld: bench/use says what is compared."""
import json
import os
import re
import shutil
import subprocess
import sys
import tempfile
from pathlib import Path

program, server = sys.argv[1:3]
failures = []
# the client's shell, where it is in the repository
SHELL = Path("clients/python/cqld/__main__.py")


def check(what, found, wanted):
    """Counts a difference and prints it."""
    if found != wanted:
        failures.append(what)
        print(f"{what}\n--- wanted\n{wanted}\n--- found\n{found}")


def fenced(text):
    """The fenced blocks of a page, each with its kind and its line."""
    for block in re.finditer(r"^```(\w+)\n(.*?)^```$", text, re.M | re.S):
        yield block.group(1), text[:block.start()].count("\n") + 1, block.group(2)


def run_blocks(page, folder):
    """Runs the blocks of a page in order, and compares what each prints with the text behind it."""
    environment = {**os.environ, "PATH": f"{folder}/bin:{os.environ['PATH']}"}
    blocks = list(fenced(page.read_text())) + [("", 0, "")]
    tried = 0
    for (kind, line, code), (next_kind, _, wanted) in zip(blocks, blocks[1:]):
        words = {"sh": ["bash", "-euo", "pipefail", "-c"], "python": ["python3", "-c"]}.get(kind)
        if not words or (re.search(r"^cql\b", code, re.M) and not SHELL.is_file()):
            continue
        told = subprocess.run(words + [code], cwd=folder, env=environment, capture_output=True,
                              text=True, timeout=60)
        check(f"{page}:{line}", told.stderr + told.stdout, wanted if next_kind == "text" else "")
        tried += 1
    print(f"{page}: {tried} blocks run")


def first_query():
    """The requests of README's first query are those of examples/trades.jsonl."""
    shown = re.search(r"^cqlrun <<'END'\n(.*?)^END$", Path("README.md").read_text(), re.M | re.S)
    check("README's first query", shown.group(1), Path("examples/trades.jsonl").read_text())


def conversation(page):
    """The requests of a page are answered by the lines behind the arrows."""
    text = Path(page).read_text()
    text = text[text.index("## A conversation"):]
    shown = re.search(r'^    \{"op".*?\n\n', text, re.M | re.S).group()
    lines = [line.strip() for line in shown.strip().split("\n")]
    requests, replies = lines[0::2], [line.removeprefix("→ ") for line in lines[1::2]]
    told = subprocess.run([program], input="\n".join(requests), capture_output=True, text=True,
                          timeout=60)
    check(f"the conversation of {page}", told.stdout.splitlines(), replies)
    print(f"{page}: {len(requests)} requests asked")


def tables(page):
    """Each query of a table stands in the example that its line names, or else in some example."""
    every = "".join(path.read_text() for path in sorted(Path("examples").glob("*.jsonl")))
    rows = re.findall(r"^\|.*`(Select [^`]*)` (?:\| `(\w+)` )?\|$", Path(page).read_text(), re.M)
    for text, name in rows:
        scripts = Path(f"examples/{name}.jsonl").read_text() if name else every
        texts = re.findall(r'"text":"([^"]*)"', scripts)
        check(f"{page}: `{text}` in {name or 'the examples'}", text in texts, True)
    print(f"{page}: {len(rows)} queries sought in the examples")


def stored_run():
    """The input and output of tests_examples are made of the scripts and replies of examples/."""
    scripts = sorted(Path("examples").glob("*.jsonl"))
    crate = Path("crates/tests_examples")
    check("crates/tests_examples/stdin", (crate / "stdin").read_bytes(),
          b"".join(script.read_bytes() + b"\x1e\n" for script in scripts))
    check("crates/tests_examples/stdout", (crate / "stdout").read_bytes(),
          5 * b"".join(Path(f"{script}.stdout").read_bytes() for script in scripts))
    print(f"tests_examples: its input is that of {len(scripts)} examples")


def pictures():
    """Each picture is what its script draws."""
    scripts = sorted(Path("docs").glob("*.py"))
    scripts = [script for script in scripts if script.with_suffix(".svg").exists()]
    with tempfile.TemporaryDirectory() as folder:
        shutil.copytree("docs", f"{folder}/docs")
        for script in scripts:
            stored = script.with_suffix(".svg")
            drawn = Path(folder) / stored
            drawn.unlink()
            subprocess.run([sys.executable, "-B", script], cwd=folder, check=True)
            check(f"{script} draws its picture", drawn.read_bytes() == stored.read_bytes(), True)
    print(f"documents: {len(scripts)} pictures drawn")


def asked(requests):
    """What cqlrun answers to requests."""
    script = "".join(json.dumps(request) + "\n" for request in requests)
    told = subprocess.run([program], input=script, capture_output=True, text=True, timeout=60)
    return [json.loads(line) for line in told.stdout.splitlines()]


def heartbeats():
    """The calls of docs/heartbeats.svg are answered as it says."""
    import heartbeats as page
    query = {"op": "query", "name": "q", "text": "Select Rstream(Count(*)) From S [Now]"}
    told, late, closed, base = [], [], -1, None
    for _, kind, at in page.CALLS:
        if kind == "stream":
            told.append({"op": "stream", "name": "S", "columns": ["a"], "from": 0})
        elif kind == "append":
            if any(instant <= closed for instant in at):
                late.append(len(told))
            told.append({"op": "append", "stream": "S", "rows": [[instant, 0] for instant in at]})
        elif kind == "heartbeat":
            told.append({"op": "heartbeat", "stream": "S", "at": at})
            closed = at
        elif kind == "query":
            told.append(query)
            base = closed
        else:
            told += [{"op": "drain"}, {"op": "take", "query": "q", "limit": 100}]
    replies = asked(told)
    refused = [place for place, reply in enumerate(replies) if reply == {"error": "E10 Late"}]
    check("docs/heartbeats.svg: late rows", refused, late)
    check("docs/heartbeats.svg: other faults", [r for r in replies if "error" in r][len(late):], [])
    instants = [row[0] for row in replies[-1]["rows"]]
    check("docs/heartbeats.svg: answers", instants, list(range(base + 1, closed + 1)))
    print(f"docs/heartbeats.svg: {len(told)} requests asked")


def windows():
    """The windows of docs/windows.svg hold what the engine says that they hold."""
    import windows as page
    at, count = page.AT, len(page.WINDOWS)
    requests = [{"op": "stream", "name": "S", "columns": ["k", "v"], "from": 0}]
    for number, (window, _) in enumerate(page.WINDOWS):
        text = f"Select Rstream(*) From S {window}"
        requests.append({"op": "query", "name": f"q{number}", "text": text})
    requests += [{"op": "append", "stream": "S", "rows": [list(row) for row in page.ROWS]},
                 {"op": "heartbeat", "stream": "S", "at": at}, {"op": "drain"}]
    requests += [{"op": "take", "query": f"q{number}", "limit": 100} for number in range(count)]
    for (text, holds), reply in zip(page.WINDOWS, asked(requests)[-count:]):
        shown = [row[1:] for row in reply["rows"] if row[0] == at]
        check(f"docs/windows.svg: {text}", shown, sorted([k, v] for _, k, v in holds(page.ROWS)))
    print(f"docs/windows.svg: {count} windows asked")


def slides():
    """The windows of docs/slides.svg hold what the engine says that they hold."""
    import slides as page
    count = len(page.LENGTHS)
    texts = [f"Select Rstream(*) From S [Range {it} Slide {page.STEP}]" for it in page.LENGTHS]
    requests = [{"op": "stream", "name": "S", "columns": ["v"], "from": 0}]
    requests += [{"op": "query", "name": f"q{it}", "text": texts[it]} for it in range(count)]
    requests += [{"op": "append", "stream": "S", "rows": [list(row) for row in page.ROWS]},
                 {"op": "heartbeat", "stream": "S", "at": page.LAST}, {"op": "drain"}]
    requests += [{"op": "take", "query": f"q{it}", "limit": 100} for it in range(count)]
    for length, reply in zip(page.LENGTHS, asked(requests)[-count:]):
        drawn = [[at, v] for at in range(page.LAST + 1)
                 for _, v in page.held(length, at - at % page.STEP)]
        check(f"docs/slides.svg: [Range {length} Slide {page.STEP}]", reply["rows"], drawn)
    print(f"docs/slides.svg: {count} windows asked")


with tempfile.TemporaryDirectory() as folder:
    os.mkdir(f"{folder}/bin")
    os.symlink(program, f"{folder}/bin/cqlrun")
    os.symlink(server, f"{folder}/bin/cqld")
    shell = Path(folder) / "bin" / "cql"
    shell.write_text(f"#!/bin/sh\nPYTHONPATH={Path('clients/python').resolve()} CQLRUN={program} "
                     'exec python3 -B -m cqld "$@"\n')
    shell.chmod(0o755)
    run_blocks(Path("README.md"), folder)
    run_blocks(Path("docs/use.md"), folder)
first_query()
conversation("docs/wire.md")
tables("README.md")
tables("docs/use.md")
stored_run()
pictures()
sys.path.insert(0, "docs")
windows()
slides()
heartbeats()
print("bench/use: " + (f"{len(failures)} differ" if failures else "all as the documents say"))
sys.exit(1 if failures else 0)
