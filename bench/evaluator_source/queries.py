"""Random queries, and their texts."""

from evaluate import COMPARISONS

ALIASES = "xyzw"


class Window:
    """Rows of the last `span` instants, at multiples of `step` only where there is one.

    Where `span` is None, the `last` rows of each partition, or all where that is None too.
    `is_short` is of one that holds few rows.
    """

    def __init__(self, random, columns, is_short):
        self.span, self.step, self.last, self.partition = None, None, None, ()
        kinds = ["Now", "Range", "Slide", "Slide", "Rows", "Partition By"]
        whole = ["", "Range Unbounded", "Rows Unbounded"]
        kind = random.choice([*kinds, *whole * (not is_short)])
        self.text = f"[{kind}]" if kind else ""
        if kind == "Now":
            self.span = 0
        elif kind == "Range":
            self.span = random.choice([0, 1, 2] if is_short else [0, 1, 2, 5, 20])
            self.text = f"[Range {self.span}]"
        elif kind == "Slide":
            self.span = random.choice([0, 1, 2] if is_short else [0, 1, 2, 3, 5, 20])
            self.step = random.choice([1, 2, 3, 4, 7, 30])
            self.text = f"[Range {self.span} Slide {self.step}]"
        elif kind == "Rows":
            self.last = random.choice([1, 2, 3, 7])
            self.text = f"[Rows {self.last}]"
        elif kind == "Partition By":
            self.last = random.choice([1, 2, 3])
            count = random.randint(1, min(3, len(columns)))
            self.partition = random.sample(range(len(columns)), count)
            names = ", ".join(columns[it] for it in self.partition)
            self.text = f"[Partition By {names} Rows {self.last}]"


def condition_of(random, width, depth=0):
    """A condition over columns, as evaluate.truth takes it."""
    kind = "compare"
    if depth < 3:
        kind = random.choices(["or", "and", "not", "compare"], [20, 15, 15, 50])[0]
    if kind == "compare":
        second = ((True, random.randrange(width)) if random.random() < 0.4
                  else (False, random.randint(-3, 6)))
        return (kind, random.choice([*COMPARISONS]), (True, random.randrange(width)), second)
    parts = range(1 if kind == "not" else 2)
    return (kind, *(condition_of(random, width, depth + 1) for _ in parts))


def condition_text(condition, names):
    kind, *parts = condition
    if kind == "compare":
        sign, *operands = parts
        a, b = (names[it] if is_column else it for is_column, it in operands)
        return f"{a} {sign} {b}"
    texts = [f"({condition_text(it, names)})" for it in parts]
    return f"Not {texts[0]}" if kind == "not" else f" {kind} ".join(texts)


class Query:
    """A query over one to four streams, which `columns` has with their columns' names."""

    def __init__(self, random, columns):
        self.operator = random.choice(["Istream", "Dstream", "Rstream"])
        self.is_distinct = random.random() < 0.25
        count = random.choices([1, 2, 3, 4], [50, 30, 12, 8])[0]
        self.streams = random.choices([*columns], k=count)
        self.windows = [Window(random, columns[it], len(self.streams) > 2) for it in self.streams]
        sides = [columns[it] for it in self.streams]
        self.names = sides[0] if len(sides) == 1 else [
            f"{side}.{it}" for side, names in zip(ALIASES, sides) for it in names
        ]
        self.conditions = []
        before = len(sides[0])
        for side in sides[1:]:
            for _ in range(random.choice([1, 1, 1, 2])):
                key = [(True, random.randrange(before)),
                       (True, before + random.randrange(len(side)))]
                random.shuffle(key)
                self.conditions.append(("compare", "=", *key))
            before += len(side)
        if random.random() < 0.5:
            self.conditions.append(condition_of(random, len(self.names)))
        random.shuffle(self.conditions)
        self.choose_items(random)

    def becomes_empty(self):
        """Whether its relation is empty from some instants after the last row on: one of its
        windows has a span, and it has no group without rows."""
        is_empty_for_none = self.group_by or not self.is_grouped
        return is_empty_for_none and any(it.span is not None for it in self.windows)

    def choose_items(self, random):
        width = len(self.names)
        some = lambda least, most: [
            (random.choice(["Count", "Sum", "Min", "Max"]), random.randrange(width))
            for _ in range(random.randint(least, most))
        ] + [("Count", None)] * random.randint(0, 1)
        kind = random.choices(["by groups", "all in one", "*", "columns"], [35, 15, 15, 35])[0]
        self.is_grouped = kind in ("by groups", "all in one")
        self.has_all = kind == "*"
        self.group_by = []
        if kind == "by groups":
            self.group_by = random.sample(range(width), random.randint(1, min(3, width)))
            self.items = [(None, it) for it in self.group_by if random.random() < 0.5] + some(0, 3)
            self.items = self.items or [(None, self.group_by[0])]
            random.shuffle(self.items)
        elif kind == "all in one":
            self.items = some(1, 3)
        elif kind == "*":
            self.items = [(None, it) for it in range(width)]
        else:
            self.items = [(None, random.randrange(width)) for _ in range(random.randint(1, 4))]

    def item_text(self, item):
        function, column = item
        name = "*" if column is None else self.names[column]
        return f"{function}({name})" if function else name

    def text(self, random):
        body = "*" if self.has_all else ", ".join(self.item_text(it) for it in self.items)
        body = "Distinct " * self.is_distinct + body
        aliases = [""] if len(self.streams) == 1 else ALIASES
        sources = zip(self.streams, self.windows, aliases)
        rest = " From " + ", ".join(f"{name} {it.text} {alias}" for name, it, alias in sources)
        if self.conditions:
            rest += " Where " + " And ".join(
                f"({condition_text(it, self.names)})" if it[0] == "or"
                else condition_text(it, self.names)
                for it in self.conditions
            )
        if self.group_by:
            rest += " Group By " + ", ".join(self.names[it] for it in self.group_by)
        if random.random() < 0.5:
            return f"Select {self.operator}({body}){rest}"
        return f"{self.operator}(Select {body}{rest});"
