"""The texts of `help`: each statement, with an example."""

from collections.abc import Sequence
from dataclasses import dataclass

from ..language import nearest


@dataclass(frozen=True, slots=True)
class Topic:
    """A statement: its name, a sentence, its form, and an example."""

    name: str
    sentence: str
    form: str
    example: str


TOPICS: Sequence[Topic] = (
    Topic(
        "create stream",
        "Declares a stream, its columns, and the unit of its instants.",
        "create stream [if not exists] NAME (COLUMN TYPE [from 'HEADER'], ..)\n"
        "  [unit UNIT [since 'TIME']] [start INSTANT];\n"
        "TYPE: text, int, decimal(PLACES), bool, time\n"
        "UNIT: millisecond, second, minute, hour, day, week",
        "create stream Trades (symbol text, price decimal(2), amount int) unit second;",
    ),
    Topic(
        "create query",
        "Registers a query. Its input is the rows that come after it.",
        "create query [if not exists] NAME as\n"
        "  Select Istream|Dstream|Rstream([Distinct] ITEM, ..) From STREAM [WINDOW] [ALIAS], ..\n"
        "  [Where CONDITION] [Group By COLUMN, ..] [Having CONDITION] [Every LENGTH];\n"
        "ITEM: COLUMN, Count(*), or Count, Sum, Min, Max or Avg of a column, then [As NAME]\n"
        "WINDOW: [Now], [Range LENGTH], [Range LENGTH Slide LENGTH], [Rows N], [Range Unbounded],\n"
        "  [Partition By COLUMN, .. Rows N]\n"
        "LENGTH: a number of instants, or as 10 seconds, 1 minute, 1.5 hours\n"
        "Avg and Every go with Rstream only.",
        "create query volume as\n"
        "  Select Rstream(symbol, Sum(amount) As volume, Avg(price) As mean)\n"
        "  From Trades [Range 1 minute Slide 1 minute] Group By symbol\n"
        "  Having volume > 100 Every 1 minute;",
    ),
    Topic(
        "copy",
        "Copies the rows of a CSV file with a header, or of a .jsonl file.",
        "copy STREAM from 'FILE'|stdin [by 'CHARACTER'] time COLUMN [late LENGTH]\n"
        "  [on late stop|skip] [on bad stop|skip] [null 'TEXT'] [from line N] [keep open];\n"
        "A row is late where its instant is closed already; `late 5 seconds` closes that far\n"
        "before the newest row. `keep open` leaves the newest instants open for another file.",
        "copy Trades from 'trades.csv' time second on late skip;",
    ),
    Topic(
        "insert",
        "Appends rows: the instant, then the columns in their order.",
        "insert into STREAM values (INSTANT, VALUE, ..), ..;\n"
        "INSTANT: a number, a time in quotes, or now",
        "insert into Trades values (61, 'ABC', 10.25, 40), (62, 'XYZ', 7, null);",
    ),
    Topic(
        "close",
        "Promises that no row at or before an instant will come. Queries answer up to it.",
        "close STREAM to INSTANT;\nheartbeat STREAM at INSTANT;",
        "close Trades to 120;",
    ),
    Topic(
        "show",
        "Shows the answers of a query so far.",
        "show QUERY [first N|last N|all];",
        "show volume last 10;",
    ),
    Topic(
        "watch",
        "Shows the next answers of a query as they come, until Ctrl-C.",
        "watch QUERY [for N seconds|for N rows];",
        "watch volume for 10 seconds;",
    ),
    Topic(
        "explain",
        "Shows the text that the engine runs, what cql does itself, and the operators.",
        "explain QUERY;\nexplain SELECT ..;",
        "explain volume;",
    ),
    Topic(
        "show streams",
        "Lists streams or queries.",
        "show streams;\nshow queries;",
        "show streams;",
    ),
    Topic(
        "describe",
        "Shows the columns of a stream, or what a query answers. `\\d NAME` does the same.",
        "describe NAME;",
        "describe Trades;",
    ),
    Topic("drop", "Drops a query, and its answers.", "drop query NAME;", "drop query volume;"),
    Topic("status", "Shows how far each stream and each query is.", "status;", "status;"),
    Topic(
        "drain",
        "Brings every query up to what is closed. `close`, `copy` and `show` do it too.",
        "drain;",
        "drain;",
    ),
    Topic(
        "forget",
        "Lets the engine forget rows that no query needs any longer. No answer changes.",
        "forget;",
        "forget;",
    ),
    Topic(
        "connect",
        "Goes on over a running cqld, or over a fresh cqlrun of its own.",
        "connect HOST:PORT;\nconnect PORT;\nconnect own;",
        "connect 127.0.0.1:7711;",
    ),
    Topic("source", "Runs the statements of a file.", "source 'FILE';", "source 'rules.sql';"),
    Topic(
        "output",
        "Says how answers are shown from here on.",
        "output table|csv|json;",
        "output csv;",
    ),
    Topic("help", "Shows this list, or one statement.", "help [STATEMENT];", "help copy;"),
    Topic("quit", "Ends cql. So do exit, \\q, .quit and Ctrl-D.", "quit;", "quit;"),
)


def help_lines(topic: str) -> list[str]:
    """Returns the lines of help on a topic; all statements where it is empty."""
    if not topic:
        width = max(len(each.name) for each in TOPICS)
        listed = [f"{each.name.ljust(width)}  {each.sentence}" for each in TOPICS]
        return [*listed, "", "`help copy;` shows one, with an example. A statement ends with `;`."]
    found = [each for each in TOPICS if each.name == topic]
    found = found or [each for each in TOPICS if topic in each.name.split() or each.name in topic]
    if topic in ("heartbeat", "exit"):
        found = [each for each in TOPICS if each.name == {"heartbeat": "close"}.get(topic, "quit")]
    if topic in ("select", "having", "every", "avg", "units", "query"):
        found = [each for each in TOPICS if each.name == "create query"]
    if not found:
        close = nearest(topic, [each.name for each in TOPICS], 1)
        told = f"; did you mean `help {close[0]};`?" if close else "; `help;` lists all"
        return [f"there is no help on `{topic}`{told}"]
    lines: list[str] = []
    for each in found:
        lines += [*([""] if lines else []), each.sentence, ""]
        lines += [f"  {line}" for line in each.form.splitlines()]
        lines += ["", "For example:", ""]
        lines += [f"  {line}" for line in each.example.splitlines()]
    return lines
