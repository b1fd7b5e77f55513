"""Checks how the documents read: bench/words says what is checked."""
import re
import subprocess
import sys
from collections.abc import Iterator
from pathlib import Path
from typing import NamedTuple

HERE = Path("bench/words_source")
MOST_WORDS, MOST_COLUMNS = 25, 100
# a link, an image, and inline code
LINK = re.compile(r"!?\[([^\]]*)\]\(([^)\s]+)\)")
CODE = re.compile(r"`[^`]+`")
# where a sentence ends: a stop, then a capital, a digit, code, a bracket or emphasis
STOP = re.compile(r"(?<=[.!?])[*_)\"”]*\s+(?=[*_(\"“]*[A-Z0-9`\[§])")
SHORT = re.compile(r"\b(e\.g|i\.e|etc|vs|cf|al|No|St)\.$")
# a text or a request of an example cannot be broken, and `rt fmt` joins an attribute
WIDE_TEXT = re.compile(r'"[^"]{90,}"|^ *#\[tactic\(|^\{"op"')
# (a program of bench/ that is proved before it is run is a .txt: rt leaves it alone)
CODE_KINDS = (".rt", ".antt", ".py", ".rs", ".c", ".txt", "")
STATEMENT = re.compile(r"≡|→ \(|^(pub )?(record|abbrev|unfoldable) |^pub fn .*\n\s+ensures", re.M)


class Line(NamedTuple):
    """A line of a page, and what it is part of."""
    number: int
    text: str
    kind: str  # prose, code, table, heading


class Block(NamedTuple):
    """Text that is read in one go: a paragraph, an item of a list, a cell of a table."""
    number: int
    text: str


def lines_of(text: str) -> list[Line]:
    """Sorts the lines of a page into prose, code, tables and headings."""
    found: list[Line] = []
    fence, kind_of_fence, listed, before_blank = "", "code", False, True
    for number, line in enumerate(text.split("\n"), 1):
        opening = re.match(r"\s*(```+|~~~+)", line)
        if fence:
            found.append(Line(number, line, kind_of_fence))
            fence = "" if opening and opening[1].startswith(fence) else fence
            continue
        if opening:
            # what a program wrote is as wide as it is
            kind_of_fence = "output" if line.strip().endswith("text") else "code"
            fence = opening[1]
            found.append(Line(number, line, "code"))
            continue
        follows = bool(found) and found[-1].kind == "code"
        is_code = line.startswith("    ") and not listed and (before_blank or follows)
        if not is_code and re.match(r"\s*([-*+]|\d{1,2}\.)\s", line):
            listed = True
        elif line and not line.startswith(" "):
            listed = False
        if is_code:
            kind = "code"
        elif line.lstrip().startswith("|"):
            kind = "table"
        elif line.startswith("#"):
            kind = "heading"
        else:
            kind = "prose"
        found.append(Line(number, line, kind))
        before_blank = not line.strip() if kind != "code" else True
    return found


def blocks_of(lines: list[Line]) -> Iterator[Block]:
    """Joins prose to paragraphs and items, and parts tables into cells and their lists."""
    start, words = 0, ""
    for line in [*lines, Line(0, "", "prose")]:
        text = line.text.strip()
        ends = line.kind != "prose" or not text or re.match(r"\s*([-*+>]|\d{1,2}\.)\s", line.text)
        if ends and words:
            yield Block(start, words)
            words = ""
        if line.kind == "table" and not re.fullmatch(r"[|\s:-]+", text):
            hidden = CODE.sub(lambda code: code[0].replace("|", "¦"), text)
            for cell in hidden.replace("\\|", "¦").strip("|").split("|"):
                for item in cell.split("; "):
                    yield Block(line.number, item.strip())
        elif line.kind == "heading":
            yield Block(line.number, text.lstrip("# "))
        elif line.kind == "prose" and text:
            text = re.sub(r"^([-*+>]|\d{1,2}\.)\s+", "", text)
            start, words = (start, f"{words} {text}") if words else (line.number, text)


def sentences(text: str) -> Iterator[str]:
    """Parts a block into sentences; code counts as one word, a link as its text."""
    text = CODE.sub(lambda code: "`" + re.sub(r"\W", "_", code[0].strip("`")) + "`", text)
    text = LINK.sub(lambda link: link[1][:1].upper() + link[1][1:], text)
    rest = ""
    for part in STOP.split(text):
        rest = f"{rest} {part}" if rest else part
        if not SHORT.search(rest):
            yield rest
            rest = ""
    if rest:
        yield rest


def slug(heading: str) -> str:
    """Returns the anchor that a heading has."""
    text = LINK.sub(lambda link: link[1], heading.lstrip("# "))
    return re.sub(r"[^\w\- ]", "", text.lower()).replace(" ", "-")


def table(name: str, parts: str) -> list[list[str]]:
    """Reads a file of lines that `parts` splits."""
    lines = (HERE / name).read_text().splitlines()
    return [re.split(parts, line.strip()) for line in lines if line and not line.startswith("#")]


GLOSSARY = [(re.compile(rf"\b({left})\b", re.I), right) for left, right in
            table("glossary.txt", r"\s{2,}")]
OTHER = [(path, words) for path, words, _ in table("other_senses.txt", r" \| ")]


def allowed(path: Path, text: str, at: int, end: int) -> bool:
    """Whether a word lies within words that other_senses.txt has for its file."""
    for name, words in OTHER:
        place = text.find(words) if str(path) == name else -1
        while place >= 0:
            if place <= at and end <= place + len(words):
                return True
            place = text.find(words, place + 1)
    return False


def check_words(path: Path, blocks: list[Block]) -> Iterator[str]:
    """Long sentences, and words of the glossary's left column."""
    for block in blocks:
        for sentence in sentences(block.text):
            count = sum(bool(re.search(r"\w", word)) for word in sentence.split())
            if count > MOST_WORDS:
                yield f"{path}:{block.number}: long sentence, {count} words: {sentence[:90]}"
        bare = CODE.sub(lambda code: "`" * len(code[0]), block.text)
        bare = LINK.sub(lambda link: link[1].ljust(len(link[0])), bare)
        for left, right in GLOSSARY:
            for hit in left.finditer(bare):
                if not allowed(path, block.text, *hit.span()):
                    near = bare[max(0, hit.start() - 30):hit.end() + 20].strip()
                    yield f"{path}:{block.number}: word '{hit[0]}' (write {right}): ..{near}.."


def check_picture(path: Path) -> Iterator[str]:
    """Words of the glossary's left column in a picture."""
    for said in re.findall(r"<t(?:ext|itle)[^>]*>([^<]*)", path.read_text()):
        yield from check_words(path, [Block(0, said)])


def check_columns(path: Path, lines: list[Line]) -> Iterator[str]:
    """Lines over 100 columns."""
    for line in lines:
        whole = LINK.fullmatch(line.text.strip()) or line.text.lstrip().startswith('{"op"')
        if len(line.text) > MOST_COLUMNS and line.kind not in ("table", "output") and not whole:
            yield f"{path}:{line.number}: wide line, {len(line.text)} columns"


def check_links(path: Path, blocks: list[Block]) -> Iterator[str]:
    """Links and paths that lead nowhere."""
    for block in blocks:
        for _, goal in LINK.findall(CODE.sub("`", block.text)):
            if re.match(r"\w+:", goal):
                continue
            name, _, anchor = goal.partition("#")
            target = path.parent / name if name else path
            if not target.exists():
                yield f"{path}:{block.number}: dead link {goal}"
            elif anchor and target.suffix == ".md":
                headings = [it.text for it in lines_of(target.read_text()) if it.kind == "heading"]
                if anchor not in map(slug, headings):
                    yield f"{path}:{block.number}: dead link {goal}: no such heading"
        for name in re.findall(r"`((?:bench|crates|examples|docs|clients)/[\w/.-]+)`", block.text):
            if "NAME" not in name and "/out/" not in name and not Path(name).exists():
                yield f"{path}:{block.number}: no file {name}"
        if path.name == "proofs.md":
            for name in re.findall(r"`(\w+/(?:src|specs|proofs)/[\w/.]*)`", block.text):
                if not (Path("crates") / name).exists():
                    yield f"{path}:{block.number}: no file crates/{name}"


def check_quotes(path: Path, lines: list[Line], stated: str) -> Iterator[str]:
    """Statements that are not in the specifications."""
    pieces: list[list[Line]] = [[]]
    for line in lines:
        if line.kind == "code" and line.text.strip() and "```" not in line.text:
            pieces[-1].append(line)
        else:
            pieces.append([])
    for piece in filter(None, pieces):
        text = "\n".join(line.text.strip() for line in piece)
        if STATEMENT.search(text) and " ".join(text.split()) not in stated:
            yield f"{path}:{piece[0].number}: quotation that is not in specs/: {text[:70]!r}"


def check_names(path: Path, lines: list[Line], known: set[str]) -> Iterator[str]:
    """Names in backticks, with an underscore or a capital inside, that the repository has not."""
    for line in lines:
        for code in CODE.findall(line.text) if line.kind not in ("code", "output") else ():
            for name in re.findall(r"[A-Za-z_]\w+", code):
                if not re.search(r"\w_\w|[a-z][A-Z]", name) or re.search(r"\bx_|_x$|X$", name):
                    continue
                if name not in known and not allowed(path, name, 0, len(name)):
                    yield f"{path}:{line.number}: no such name: {name}"


def comments_of(text: str) -> Iterator[Block]:
    """The doc comments of a file of code, each as the blocks of a page."""
    start, said = 0, []
    for number, line in enumerate([*text.split("\n"), ""], 1):
        comment = re.match(r"\s*//[/!] ?(.*)", line)
        if comment:
            start = start or number
            said.append(comment[1])
        elif said:
            for block in blocks_of(lines_of("\n".join(said))):
                yield Block(start + block.number - 1, block.text)
            start, said = 0, []


def check_code(below: list[Path]) -> Iterator[str]:
    """Doc comments as documents, those that begin with an article, and wide lines of code."""
    for path in git("*.rt", "crates/*.antt", "*.py", "bench/*"):
        if path.suffix not in CODE_KINDS or "proofs" in path.parts:
            continue
        if not is_below(path, below):
            continue
        text = path.read_text(errors="replace")
        before = ""
        for number, line in enumerate(text.split("\n"), 1):
            said = line.strip()
            if path.suffix == ".rt" and re.match(r"///\s+(The|A|An)\b", said):
                if not before.startswith("///"):
                    yield f"{path}:{number}: article: {said[:80]}"
            if len(line) > MOST_COLUMNS and not WIDE_TEXT.search(line):
                yield f"{path}:{number}: wide line, {len(line)} columns"
            before = said
        if path.suffix == ".rt":
            yield from check_words(path, list(comments_of(text)))


def is_below(path: Path, below: list[Path]) -> bool:
    """Whether a path is one of these or in one of them, or none is given."""
    return not below or any(path == it or it in path.parents for it in below)


def git(*patterns: str) -> list[Path]:
    """Lists the files that git knows, and those that it would add."""
    words = ["git", "ls-files", "-co", "--exclude-standard", "--", *patterns]
    told = subprocess.run(words, capture_output=True, text=True, check=True).stdout
    return [Path(name) for name in sorted(set(told.split("\n"))) if name and Path(name).exists()]


def main() -> int:
    code = "--code" in sys.argv[1:]
    below = [Path(word) for word in sys.argv[1:] if word != "--code"]
    pages = [page for page in git("*.md") if is_below(page, below)]
    stated = " ".join(" ".join(path.read_text() for path in git("crates/*.antt", "crates/*.rt"))
                      .split())
    known = set(re.findall(r"\w+", stated))
    for path in git():
        known |= set(re.findall(r"\w+", str(path)))
        if path.suffix in (".py", ".txt", ".edit", ".sh", "") and path.is_file():
            known |= set(re.findall(r"\w+", path.read_text(errors="replace")))
    found = 0
    for page in pages:
        lines = lines_of(page.read_text())
        blocks = list(blocks_of(lines))
        for hits in (check_words(page, blocks), check_columns(page, lines),
                     check_links(page, blocks), check_quotes(page, lines, stated),
                     check_names(page, lines, known)):
            for hit in hits:
                print(hit)
                found += 1
    for picture in git("docs/*.svg") if not below else []:
        for hit in check_picture(picture):
            print(hit)
            found += 1
    for hit in check_code(below) if code else ():
        print(hit)
        found += 1
    return 1 if found else 0


if __name__ == "__main__":
    sys.exit(main())
