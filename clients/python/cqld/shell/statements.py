"""The statements of the shell, as they are read."""

from collections.abc import Mapping
from dataclasses import dataclass, field
from enum import Enum

from ..language import Declared, Length


class Policy(Enum):
    """What to do with a row that cannot be taken."""

    STOP = "stop"
    SKIP = "skip"


class Mode(Enum):
    """How answers are shown."""

    TABLE = "table"
    CSV = "csv"
    JSON = "json"


@dataclass(frozen=True, slots=True)
class CreateStream:
    """`create stream`: `start` is a literal, the first instant that is open.

    `headers` has the names that columns have in files, where those are other ones.
    """

    name: str
    declared: Declared
    headers: Mapping[str, str] = field(default_factory=dict)
    start: str | None = None
    if_not_exists: bool = False


@dataclass(frozen=True, slots=True)
class CreateQuery:
    """`create query`: its text stands at `place` in the statement."""

    name: str
    text: str
    place: int
    if_not_exists: bool = False


@dataclass(frozen=True, slots=True)
class Insert:
    """`insert into`: rows of literals, the instant first."""

    stream: str
    rows: tuple[tuple[str, ...], ...]


@dataclass(frozen=True, slots=True)
class Copy:
    """`copy`: `time` is the column of the instants, `line` the first line of rows."""

    stream: str
    path: str
    time: str
    delimiter: str | None = None
    late: Length | None = None
    on_late: Policy = Policy.STOP
    on_bad: Policy = Policy.STOP
    null: str | None = None
    line: int = 2
    stays_open: bool = False


@dataclass(frozen=True, slots=True)
class Close:
    """`close` or `heartbeat`: no row at or before `at`, a literal, will come."""

    stream: str
    at: str


@dataclass(frozen=True, slots=True)
class Show:
    """`show`: all answers, or the `first` or `last` ones."""

    query: str
    first: int | None = None
    last: int | None = None
    everything: bool = False


@dataclass(frozen=True, slots=True)
class ShowStreams:
    """`show streams`."""


@dataclass(frozen=True, slots=True)
class ShowQueries:
    """`show queries`."""


@dataclass(frozen=True, slots=True)
class Describe:
    """`describe`: a stream or a query."""

    name: str


@dataclass(frozen=True, slots=True)
class Watch:
    """`watch`: for so many seconds, or until so many answers, or until it is interrupted."""

    query: str
    seconds: float | None = None
    rows: int | None = None


@dataclass(frozen=True, slots=True)
class Explain:
    """`explain`: a query by its name."""

    query: str


@dataclass(frozen=True, slots=True)
class ExplainText:
    """`explain`: a text, which stands at `place` in the statement."""

    text: str
    place: int


@dataclass(frozen=True, slots=True)
class Drop:
    """`drop query`."""

    query: str


@dataclass(frozen=True, slots=True)
class Drain:
    """`drain`."""


@dataclass(frozen=True, slots=True)
class Forget:
    """`forget`."""


@dataclass(frozen=True, slots=True)
class ShowStatus:
    """`status`."""


@dataclass(frozen=True, slots=True)
class Help:
    """`help`, perhaps of one statement."""

    topic: str = ""


@dataclass(frozen=True, slots=True)
class Run:
    """`source`: the statements of a file."""

    path: str


@dataclass(frozen=True, slots=True)
class Connect:
    """`connect`: a server, or a program of the shell's own where `port` is None."""

    host: str = "127.0.0.1"
    port: int | None = None


@dataclass(frozen=True, slots=True)
class Output:
    """`output`: how answers are shown from here on."""

    mode: Mode


@dataclass(frozen=True, slots=True)
class Quit:
    """`quit`."""


Statement = (
    CreateStream
    | CreateQuery
    | Insert
    | Copy
    | Close
    | Show
    | ShowStreams
    | ShowQueries
    | Describe
    | Watch
    | Explain
    | ExplainText
    | Drop
    | Drain
    | Forget
    | ShowStatus
    | Help
    | Run
    | Connect
    | Output
    | Quit
)
