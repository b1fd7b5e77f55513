"""Clients of a continuous query engine: `cqld` over TCP, or `cqlrun` over a pipe.

    from cqld import Client

    with Client(7711, timeout=30) as client:
        client.stream("Trades", ["symbol", "price"])
        client.query("high", "Select Rstream(symbol) From Trades [Now] Where price > 100")
        client.append("Trades", [(0, 7, 120), (1, 8, 99), (2, 7, 101)])
        client.heartbeat("Trades", 2)
        for instant, symbol in client.answers("high"):
            print(instant, symbol)
"""

from .aio import AsyncBatch, AsyncClient, AsyncPending
from .appends import RowSchema, Skipped
from .async_follow import AsyncFollow
from .client import Client, Process
from .columns import EPOCH, Bool, Clock, Column, Decimal, Int, Text, Time
from .connection import Batch, Connection, Pending
from .dictionary import Dictionary, FileDictionary, MemoryDictionary, RedisDictionary
from .faults import (
    BadReply,
    BadRequest,
    BadRow,
    BadValue,
    BatchRefused,
    CannotConnect,
    ClockBack,
    Closed,
    ConnectionLost,
    CqldError,
    DictionaryFault,
    LateRow,
    MissingPackage,
    OtherConsumer,
    PortTaken,
    ProgramFailed,
    ProgramMissing,
    Refused,
    TimedOut,
    UnknownNumber,
    UnknownProducer,
)
from .follow import Beat, Decoder, Follow
from .programs import Server, find_program
from .schema import Answers, Schema
from .streams import Query, Stream
from .watermark import AsyncWatermark, Watermark
from .wire import Operator, QueryStatus, Status, StreamStatus

__version__ = "0.9.0"

__all__ = [
    "Answers", "AsyncBatch", "AsyncClient", "AsyncFollow", "AsyncPending", "AsyncWatermark",
    "BadReply", "BadRequest", "BadRow", "BadValue", "Batch", "BatchRefused", "Beat", "Bool",
    "CannotConnect", "Client", "Clock", "ClockBack", "Closed", "Column", "Connection",
    "ConnectionLost", "CqldError", "Decimal", "Decoder", "Dictionary", "DictionaryFault", "EPOCH",
    "FileDictionary", "Follow", "Int", "LateRow", "MemoryDictionary", "MissingPackage", "Operator",
    "OtherConsumer", "Pending", "PortTaken", "Process", "ProgramFailed", "ProgramMissing", "Query",
    "QueryStatus", "RedisDictionary", "Refused", "RowSchema", "Schema", "Server", "Skipped",
    "Status", "Stream", "StreamStatus", "Text", "Time", "TimedOut", "UnknownNumber",
    "UnknownProducer", "Watermark", "find_program",
]
