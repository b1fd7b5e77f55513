"""Shows a running server on a live page: streams, queries, answers, plans.

    from cqld.page import Known, Watch
    from cqld.page.site import application

    watch = Watch("127.0.0.1", 7711, Known())
    web.run_app(application(watch), host="127.0.0.1", port=8080)

`watch` asks the server and remembers what it saw; `site` is the web server over it, and needs
aiohttp; `known` is what the page is told about columns, types and clocks, and `session` reads it
from statements of the shell; `command` is the command line.
"""

from .errors import BadOption, BadSession, PageError, PagePortTaken
from .known import Column, Known, QueryShape, StreamShape
from .session import read_session
from .watch import Watch

__all__ = [
    "BadOption", "BadSession", "Column", "Known", "PageError", "PagePortTaken", "QueryShape",
    "StreamShape", "Watch", "read_session",
]
