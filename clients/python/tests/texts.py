"""Random query texts for tests: most of them right, and mutations that are mostly wrong."""

from random import Random

STREAMS = {
    "S": ["a", "b", "c"],
    "T": ["k", "v"],
    "Trades": ["symbol", "price", "amount", "k"],
    "One": ["k"],
}
"""The streams that the texts are over."""

_NUMBERS = [
    "0",
    "1",
    "-1",
    "007",
    "-0",
    "65536",
    "65537",
    "1099511627775",
    "1099511627776",
    "1099511627777",
    "-1099511627775",
    "-1099511627776",
    "99999999999999999999999999",
]
_TOKENS = (
    "Select Distinct Istream Dstream Rstream From As Where Group By And Or Not Range Rows "
    "Partition Now Unbounded Slide Count Sum Min Max ( ) [ ] , . ; * = <> != < <= > >= x S T k v "
    "a Trades Avg Having Every 1 minute null"
).split() + ["w" * 32, "w" * 33, *_NUMBERS]
_ODD = ["-", "!", "$", "'", '"', "\\", "\t", "\r", "\n", "\v", "\f", "\x00", "\x7f", "é", "+", "/"]


class Texts:
    """Makes random texts."""

    def __init__(self, random: Random) -> None:
        self._random = random

    def text(self) -> str:
        """Returns a text that keeps to the grammar; its names may be wrong."""
        return self._spaced(self._query())

    def mutated(self) -> str:
        """Returns a text with a few changes, of tokens or of bytes."""
        random = self._random
        tokens = self._query()
        for _ in range(random.choice([1, 1, 1, 2, 3])):
            at = random.randrange(len(tokens) + 1)
            change = random.randrange(6)
            if change == 0:
                tokens = tokens[:at] + tokens[at + 1 :]
            elif change == 1:
                tokens = tokens[:at] + [random.choice(_TOKENS)] + tokens[at:]
            elif change == 2:
                tokens = tokens[:at] + [random.choice(_TOKENS)] + tokens[at + 1 :]
            elif change == 3:
                tokens = tokens[:at]
            elif change == 4:
                tokens = tokens[:at] + tokens[at : at + 1] + tokens[at:]
            else:
                tokens = [
                    random.choice(_NUMBERS) if token.lstrip("-").isdigit() else token
                    for token in tokens
                ]
        text = self._spaced(tokens)
        if random.random() < 0.3:
            at = random.randrange(len(text) + 1)
            text = text[:at] + random.choice(_ODD) + text[at + random.randrange(2) :]
        return text

    def long(self) -> str:
        """Returns a text near a limit: of bytes, of depth, of items, or of sources."""
        random = self._random
        kind = random.randrange(5)
        if kind == 0:
            size = random.choice([4095, 4096, 4097])
            text = "Select Istream(a) From S"
            return text + " " * (size - len(text))
        if kind == 1:
            depth = random.choice([31, 32, 33])
            opened = [random.choice(["(", "Not "]) for _ in range(depth)]
            closed = ")" * opened.count("(")
            return f"Select Istream(a) From S Where {''.join(opened)}a > 1{closed}"
        if kind == 2:
            items = ", ".join(["a"] * random.choice([31, 32, 33]))
            where = random.choice(["{}", "Select Istream({}) From S", "Partition"])
            if where == "Partition":
                return f"Select Istream(a) From S [Partition By {items} Rows 1]"
            if where == "{}":
                return f"Select Istream(Count(*)) From S Group By {items}"
            return where.format(items)
        if kind == 3:
            sources = ", ".join(f"One x{number}" for number in range(random.choice([3, 4, 5])))
            keys = " And ".join(f"x0.k = x{number}.k" for number in range(1, random.choice([3, 4])))
            return f"Select Istream(x0.k) From {sources} Where {keys}"
        parts = " And ".join(["a=b"] * 500)
        return f"Select Istream(a) From S Where {parts}"

    def _spaced(self, tokens: list[str]) -> str:
        random = self._random
        space = random.choice([" ", " ", " ", "\n", "\t ", "\r\n"])
        tight = random.random() < 0.2
        text = ""
        for token in tokens:
            word = text[-1:].isalnum() or text[-1:] == "_"
            glued = tight and not (word and (token[0].isalnum() or token[0] in "_"))
            text += token if glued or not text else space + token
        if random.random() < 0.1:
            text = random.choice([text.lower(), text.upper(), " " + text + "  "])
        return text

    def _query(self) -> list[str]:
        random = self._random
        count = random.choices([1, 2, 3, 4], [60, 25, 8, 7])[0]
        streams = random.choices(list(STREAMS), k=count)
        aliases = ["x", "y", "z", "w"] if count > 1 or random.random() < 0.2 else [""]
        if count > 1 and random.random() < 0.1:
            aliases[random.randrange(1, count)] = "x"
        names = [alias or stream for alias, stream in zip(aliases, streams)]
        pairs = [
            (name, column) for name, stream in zip(names, streams) for column in STREAMS[stream]
        ]
        body: list[str] = ["Distinct"] if random.random() < 0.2 else []
        group = random.sample(pairs, min(len(pairs), random.choice([0, 0, 0, 1, 2])))
        for number in range(random.choice([0, 1, 1, 2, 3])):
            body += [","] if number else []
            body += self._item(random.choice(group or pairs), pairs, bool(group))
        if not body or body == ["Distinct"]:
            body += ["*"]
        rest = ["From"]
        for number, (stream, alias) in enumerate(zip(streams, aliases)):
            rest += [","] if number else []
            rest += self._source(stream, alias)
        wheres: list[list[str]] = []
        for number in range(1, count):
            if random.random() < 0.05:
                continue
            earlier = random.choice([pair for pair in pairs if pair[0] in names[:number]])
            later = random.choice([pair for pair in pairs if pair[0] == names[number]])
            sides = [self._column(earlier), self._column(later)]
            random.shuffle(sides)
            wheres.append([*sides[0], "=", *sides[1]])
        if random.random() < 0.4:
            wheres.append(self._condition(pairs, 0))
        for number, where in enumerate(wheres):
            rest += ["And"] if number else ["Where"]
            rest += where
        for number, pair in enumerate(group):
            rest += [","] if number else ["Group", "By"]
            rest += self._column(pair)
        operator = random.choice(["Istream", "Dstream", "Rstream"])
        end = [";"] if random.random() < 0.2 else []
        if random.random() < 0.5:
            return ["Select", operator, "(", *body, ")", *rest, *end]
        return [operator, "(", "Select", *body, *rest, ")", *end]

    def _column(self, pair: tuple[str, str]) -> list[str]:
        name, column = pair
        if self._random.random() < 0.05:
            column = self._random.choice(["nothing", "K", "k", "a"])
        if self._random.random() < 0.05:
            name = self._random.choice(["S", "T", "q", "x", "y"])
        return [name, ".", column] if self._random.random() < 0.7 else [column]

    def _item(
        self, pair: tuple[str, str], pairs: list[tuple[str, str]], grouped: bool
    ) -> list[str]:
        random = self._random
        alias = ["As", random.choice(["n", "volume", "k"])] if random.random() < 0.2 else []
        if random.random() < (0.6 if grouped else 0.15):
            if random.random() < 0.3:
                return ["Count", "(", "*", ")", *alias]
            function = random.choice(["Count", "Sum", "Min", "Max"])
            return [function, "(", *self._column(random.choice(pairs)), ")", *alias]
        return [*self._column(pair), *alias]

    def _source(self, stream: str, alias: str) -> list[str]:
        random = self._random
        if random.random() < 0.02:
            stream = random.choice(["Trade", "s", "Nothing"])
        named = [*(["As"] if random.random() < 0.3 else []), alias] if alias else []
        window = self._window(stream)
        return [stream, *window, *named] if random.random() < 0.5 else [stream, *named, *window]

    def _window(self, stream: str) -> list[str]:
        random = self._random
        number = str(random.choice([0, 1, 2, 5, 20]))
        kind = random.randrange(7)
        if kind == 0:
            return []
        if kind == 1:
            return ["[", "Now", "]"]
        if kind == 2:
            slide = ["Slide", str(random.choice([1, 2, 60]))] if random.random() < 0.5 else []
            return ["[", "Range", number, *slide, "]"]
        if kind == 3:
            return ["[", random.choice(["Range", "Rows"]), "Unbounded", "]"]
        if kind == 4:
            columns = STREAMS.get(stream, ["k"])
            by = [random.choice(columns)]
            if random.random() < 0.3:
                by += [",", random.choice(columns)]
            return ["[", "Partition", "By", *by, "Rows", str(random.choice([1, 2])), "]"]
        return ["[", "Rows", str(random.choice([1, 2, 3])), "]"]

    def _condition(self, pairs: list[tuple[str, str]], depth: int) -> list[str]:
        random = self._random
        kind = random.randrange(5) if depth < 3 else 4
        if kind == 0:
            return ["Not", *self._condition(pairs, depth + 1)]
        if kind == 1:
            return ["(", *self._condition(pairs, depth + 1), ")"]
        if kind == 2:
            word = random.choice(["And", "Or"])
            return [*self._condition(pairs, depth + 1), word, *self._condition(pairs, depth + 1)]
        sides = [
            self._column(random.choice(pairs))
            if random.random() < 0.6
            else [str(random.randint(-3, 200))]
            for _ in range(2)
        ]
        return [*sides[0], random.choice(["=", "<>", "!=", "<", "<=", ">", ">="]), *sides[1]]
