"""What the options of the programs mean, as a user meets them."""

import itertools
import json
import os
import resource
import select
import socket
import struct
import subprocess
import tempfile
import time
import unittest
from bisect import bisect_left
from collections.abc import Callable, Iterator
from contextlib import ExitStack, contextmanager, suppress
from pathlib import Path

from cqld.programs import find_program

from support import PATIENCE, ROOT, wait_until


# Declares S(a), and a query that answers with each row once its instant has closed.
SETUP = (
    '{"op":"stream","name":"S","columns":["a"],"from":0}\n'
    '{"op":"query","name":"q","text":"Select Rstream(a) From S [Now]"}\n'
)

DONE = '{"ok":true}\n'

DRAIN = b'{"op":"drain"}\n'

TAKE = '{"op":"take","query":"q","limit":9}\n'

EMPTY_APPEND = '{"op":"append","stream":"S","rows":[]}\n'

CALLS = 100_100  # more than a history of 100,000 calls has room for

EIGHT = ",".join(f'"{column}"' for column in "abcdefgh")

# More than 16,777,216 values in a history, which no query needs: a row counts as 36.
MANY_ROWS = [f'{{"op":"stream","name":"S","columns":[{EIGHT}],"from":0}}\n'] + [
    f'{{"op":"append","stream":"S","rows":[{",".join([f"[{at},1,2,3,4,5,6,7,8]"] * 1_024)}]}}\n'
    f'{{"op":"heartbeat","stream":"S","at":{at}}}\n'
    for at in range(480)
]

MANY_CALLS = [SETUP] + [EMPTY_APPEND * 100] * (CALLS // 100)

LISTEN = "0A"  # the state of a socket in /proc/net/tcp
LOOPBACK = "0100007F"  # 127.0.0.1 there

MANY_CONNECTIONS = 1_100  # more than a thousand, and than 1,024

SILENCE = 0.2  # seconds, after which workers were woken for what a client left

CYCLES = 300  # of requests in lines of their own

# What help says that the options of a program take.
HELP = {
    "cqlrun": {
        "plain": "plain engine",
        "turn <R>": "1 to 1024 [default: 256]",
        "workers <N>": "1 to 64",
        "forget <V>": "0 to 2^40",
    },
    "cqld": {
        "port <P>": "0 to 65535",
        "workers <N>": "1 to 64",
        "clients <C>": "1 to 64",
        "serve <K>": "0 to 1000000",
        "idle <S>": "1 to 86400",
        "forget <V>": "0 to 2^40",
    },
}

EVERY = 1_000_000_000  # growths: more than there are

REFUSED = "refused\n"  # what a malloc says on standard error that refused a growth


def said(
    program: str, *words: str, lines: str = "", variables: dict[str, str] | None = None
) -> "subprocess.CompletedProcess[str]":
    """Runs a program with these words, this input, and these variables of the environment."""
    command = [find_program(program), *words]
    return subprocess.run(
        command,
        input=lines,
        capture_output=True,
        text=True,
        timeout=PATIENCE,
        env={**os.environ, **(variables or {})},
    )


def append(at: int) -> str:
    """Returns a request that appends the row 5 at an instant."""
    return f'{{"op":"append","stream":"S","rows":[[{at},5]]}}\n'


def heartbeat(at: int) -> str:
    """Returns a request that closes the instants up to this one."""
    return f'{{"op":"heartbeat","stream":"S","at":{at}}}\n'


def script(instants: int) -> str:
    """Returns requests that append two rows at each instant, and take them."""
    lines = [SETUP]
    for at in range(instants):
        lines.append(f'{{"op":"append","stream":"S","rows":[[{at},{at}],[{at},7]]}}\n')
        lines.append(f'{{"op":"heartbeat","stream":"S","at":{at}}}\n')
        lines.append('{"op":"drain"}\n{"op":"take","query":"q","limit":9}\n')
    return "".join(lines)


def replies(instants: int) -> str:
    """Returns what these requests are answered."""
    lines = [DONE * 2]
    for at in range(instants):
        rows = sorted([[at, 7], [at, at]])
        shown = ",".join(f"[{instant},{value}]" for instant, value in rows)
        lines.append(DONE * 3 + f'{{"ok":true,"rows":[{shown}]}}\n')
    return "".join(lines)


@contextmanager
def listening(
    *words: str,
    clients: int = 1,
    files: int | None = None,
    variables: dict[str, str] | None = None,
    errors: int = subprocess.PIPE,
) -> Iterator[tuple["subprocess.Popen[str]", int]]:
    """Yields a server of some clients with these words, and its port.

    It may hold this many open files, if a number is given. It has these variables beside those of
    the environment, and says of errors where it is told.
    """
    command = [find_program("cqld"), "--port=0", f"--clients={clients}", *words]
    if not any(word.startswith("--workers") for word in words):
        command.append("--workers=1")
    if files is not None:
        command = ["prlimit", f"--nofile={files}:{files}", *command]
    server = subprocess.Popen(
        command,
        stdout=subprocess.PIPE,
        stderr=errors,
        text=True,
        env={**os.environ, **(variables or {})},
    )
    try:
        assert server.stdout is not None
        yield server, int(server.stdout.readline().rsplit(":", 1)[1])
    finally:
        server.kill()
        server.communicate()


def connected(port: int) -> socket.socket:
    """Returns a connection to the server."""
    return socket.create_connection(("127.0.0.1", port), PATIENCE)


def rest_of(connection: socket.socket) -> bytes:
    """Returns what still comes from a server until it closes."""
    parts = []
    try:
        while part := connection.recv(1 << 20):
            parts.append(part)
    except ConnectionResetError:
        pass
    return b"".join(parts)


def answers(connection: socket.socket) -> bool:
    """Returns whether a server answers a drain of this connection."""
    connection.sendall(DRAIN)
    return connection.recv(100) == DONE.encode()


def answered(port: int, count: int) -> int:
    """Returns how many of so many connections are answered. Some fifty wait at a time."""
    found = 0
    while count > 0:
        with ExitStack() as stack:
            some = [stack.enter_context(connected(port)) for _ in range(min(count, 50))]
            for connection in some:
                connection.sendall(DRAIN)
                connection.shutdown(socket.SHUT_WR)
            found += sum(rest_of(connection) == DONE.encode() for connection in some)
            count -= len(some)
    return found


def asked(connection: socket.socket, lines: str) -> list[str]:
    """Returns the replies to these lines."""
    connection.sendall(lines.encode())
    with connection.makefile("r", newline="\n") as replies:
        return [replies.readline() for _ in range(lines.count("\n"))]


def reset(connection: socket.socket) -> None:
    """Closes a connection by a reset, without a word of an end."""
    connection.setsockopt(socket.SOL_SOCKET, socket.SO_LINGER, struct.pack("ii", 1, 0))
    connection.close()


def send_half(connection: socket.socket) -> None:
    """Sends a line without its end."""
    connection.sendall(DRAIN[:8])


def end(connection: socket.socket) -> None:
    """Says that nothing more comes, and waits until the server has closed."""
    connection.shutdown(socket.SHUT_WR)
    rest_of(connection)


def send_half_and_reset(connection: socket.socket) -> None:
    """Sends a line without its end, and is reset."""
    send_half(connection)
    reset(connection)


def send_half_and_end(connection: socket.socket) -> None:
    """Sends a line without its end, and says that nothing more comes."""
    send_half(connection)
    end(connection)


def send_too_much(connection: socket.socket) -> None:
    """Sends a line that is too long, and takes no reply."""
    connection.sendall(b" " * 70_000 + b"\n" + DRAIN * 100)


def ask_to_forget(connection: socket.socket) -> None:
    """Asks the server to forget."""
    asked(connection, '{"op":"forget"}\n')


# Ways in which a client leaves that was answered before.
LEAVES: tuple[Callable[[socket.socket], None], ...] = (
    socket.socket.close,
    reset,
    send_half,
    end,
    send_half_and_reset,
    send_half_and_end,
    send_too_much,
    ask_to_forget,
)


def first_error(server: "subprocess.Popen[str]") -> str:
    """Returns the first line that a server says on standard error, or none if it says none."""
    assert server.stderr is not None
    readable, _, _ = select.select([server.stderr], [], [], PATIENCE)
    return server.stderr.readline() if readable else ""


def threads_of(process: int) -> list[tuple[str, str]]:
    """Returns of each thread of a process its state, and how often and how long it has run."""
    found = []
    for task in sorted(Path(f"/proc/{process}/task").iterdir()):
        state, *rest = Path(task, "stat").read_text().rsplit(")", 1)[1].split()
        switches = [
            line for line in Path(task, "status").read_text().splitlines() if "ctxt" in line
        ]
        found.append((state, " ".join([*rest[10:12], *switches])))
    return found


def is_idle(process: int) -> bool:
    """Returns whether for a second no thread of a process runs. It looks at ten seconds."""
    for _ in range(10):
        before = threads_of(process)
        time.sleep(1)
        if before == threads_of(process) and all(state == "S" for state, _ in before):
            return True
    return False


def options_of(*words: str, leaves_work: bool = False) -> dict[tuple[int, int], int]:
    """Returns the options that a server with these words gives the socket of a connection.

    They are by level and number, each as it was set last. The server says them itself, by a
    `setsockopt` that is loaded before it. If the client leaves work, it is silent until that is
    done.
    """
    with tempfile.TemporaryDirectory() as folder:
        library = compiled(Path(__file__).with_name("told_options.c"), folder)
        variables = {"LD_PRELOAD": str(library)}
        with listening("--serve=1", *words, variables=variables) as (server, port):
            with connected(port) as client:
                if leaves_work:
                    leave_work(client)
                    time.sleep(SILENCE)
                assert answers(client)
            _, errors = server.communicate(timeout=PATIENCE)
    found = {}
    for line in errors.splitlines():
        word, level, option, value = line.split()
        assert word == "option"
        found[int(level), int(option)] = int(value)
    return found


def leave_work(client: socket.socket) -> None:
    """Leaves the row 5 of the instant 0 to the workers, by a heartbeat in a line of its own."""
    for lines in (SETUP + DRAIN.decode(), append(0), heartbeat(0)):
        assert asked(client, lines) == [DONE] * lines.count("\n")


def switches_of_a_worker(server: int) -> int:
    """Returns how often the worker of a server has gone to sleep. It is the second thread."""
    threads = sorted(int(path.name) for path in Path(f"/proc/{server}/task").iterdir())
    status = Path(f"/proc/{server}/task/{threads[1]}/status").read_text()
    return next(
        int(line.split()[1])
        for line in status.splitlines()
        if line.startswith("voluntary_ctxt_switches")
    )


def listeners(port: int) -> list[tuple[str, str]]:
    """Returns where this machine listens at a port: tables of the kernel, and addresses there."""
    found = []
    for table in ("tcp", "tcp6"):
        path = Path("/proc/net", table)
        if not path.exists():
            continue  # the machine has no IPv6
        for line in path.read_text().splitlines()[1:]:
            _, local, _, state, *_ = line.split()
            address, number = local.split(":")
            if state == LISTEN and int(number, 16) == port:
                found.append((table, address))
    return found


def most_memory(process: int) -> int:
    """Returns the most memory that a running process has had, in KiB."""
    status = Path(f"/proc/{process}/status").read_text()
    return next(
        int(line.split()[1]) for line in status.splitlines() if line.startswith("VmHWM")
    )


def most_memory_of_a_pool(parts: list[str], values: int) -> int:
    """Returns the most memory that a pool had which forgets after so many values, in KiB."""
    words = ("--workers=1", f"--forget={values}")
    with subprocess.Popen(
        [find_program("cqlrun"), *words],
        stdin=subprocess.PIPE,
        stdout=subprocess.PIPE,
        text=True,
    ) as pool:
        assert pool.stdin is not None and pool.stdout is not None
        for part in parts:
            pool.stdin.write(part)
            pool.stdin.flush()
            for _ in range(part.count("\n")):
                pool.stdout.readline()
        most = most_memory(pool.pid)
        pool.stdin.close()
    return most


def most_memory_of_a_server(parts: list[str], *words: str) -> int:
    """Returns the most memory that a server had with these words, in KiB."""
    with listening(*words) as (server, port):
        with connected(port) as client, client.makefile("rb") as replies:
            for part in parts:
                client.sendall(part.encode())
                for _ in range(part.count("\n")):
                    replies.readline()
        return most_memory(server.pid)


def compiled(source: Path, folder: str) -> Path:
    """Makes a library in this folder that is loaded before a program."""
    library = Path(folder, f"{source.stem}.so")
    words = ["cc", "-shared", "-fPIC", "-O1", "-o", str(library), str(source), "-ldl"]
    subprocess.run(words, check=True, timeout=PATIENCE)
    return library


def refusing(folder: str) -> Path:
    """Makes a malloc in this folder that is loaded before a program, and refuses growths."""
    return compiled(ROOT / "bench/refusals_source/refuse.c", folder)


def refusals(library: Path, growth: int, count: int = 1) -> dict[str, str]:
    """Returns the variables of a program of which so many growths are refused, from this one on.

    Growths are counted from 1, among all of the program and its threads.
    """
    return {
        "LD_PRELOAD": str(library),
        "REFUSE_AT": str(growth),
        "REFUSE_COUNT": str(count),
    }


def said_without(
    library: Path, growth: int, lines: str, count: int = 1
) -> tuple[list[str], bool]:
    """Returns what one connection is answered to these lines, and whether a growth was refused.

    So many are, from this one on. There are fewer replies than lines, or none, if the server or the
    connection could not start without them.
    """
    command = [find_program("cqld"), "--port=0", "--workers=1", "--clients=1", "--serve=1"]
    growths = {**os.environ, **refusals(library, growth, count)}
    pipe = subprocess.PIPE
    with subprocess.Popen(command, env=growths, stdout=pipe, stderr=pipe, text=True) as server:
        try:
            assert server.stdout is not None
            opened, said = server.stdout.readline(), b""
            if opened:
                with suppress(OSError):  # of a server that ends meanwhile
                    with connected(int(opened.rsplit(":", 1)[1])) as client:
                        client.sendall(lines.encode())
                        client.shutdown(socket.SHUT_WR)
                        said = rest_of(client)
            _, errors = server.communicate(timeout=PATIENCE)
        finally:
            server.kill()
    return said.decode().splitlines(), REFUSED in errors


class Programs(unittest.TestCase):
    """Runs `cqlrun` and `cqld` by their command lines."""

    def test_both_tell_their_version(self) -> None:
        for program in ("cqlrun", "cqld"):
            ran = said(program, "--version")
            self.assertEqual((ran.returncode, ran.stdout), (0, f"{program} 0.9.0\n"))

    def test_help_of_cqlrun_says_what_each_option_takes(self) -> None:
        self.says_what_options_take("cqlrun")

    def test_help_of_cqld_says_what_each_option_takes(self) -> None:
        self.says_what_options_take("cqld")

    def says_what_options_take(self, program: str) -> None:
        """Asserts that a program's help says what each of its options takes."""
        ran = said(program, "--help")
        self.assertEqual((ran.returncode, ran.stderr), (0, ""))
        parts = " ".join(ran.stdout.split()).split(" --")
        for option, takes in HELP[program].items():
            self.assertTrue(any(it.startswith(option) and takes in it for it in parts), option)

    def test_a_failed_write_of_help_is_told_by_cqlrun(self) -> None:
        self.tells_a_failed_write("cqlrun")

    def test_a_failed_write_of_help_is_told_by_cqld(self) -> None:
        self.tells_a_failed_write("cqld")

    def tells_a_failed_write(self, program: str) -> None:
        """Asserts that a program says that its help could not be written."""
        for word in ("--help", "--version"):
            with open("/dev/full", "w") as full:
                ran = subprocess.run(
                    [find_program(program), word],
                    stdin=subprocess.DEVNULL,
                    stdout=full,
                    stderr=subprocess.PIPE,
                    text=True,
                    timeout=PATIENCE,
                )
            self.assertEqual((ran.returncode, ran.stderr), (1, f"{program}: write failed\n"))

    def test_a_word_that_is_no_text_is_refused_by_cqlrun(self) -> None:
        self.refuses_a_word("cqlrun")

    def test_a_word_that_is_no_text_is_refused_by_cqld(self) -> None:
        self.refuses_a_word("cqld")

    def refuses_a_word(self, program: str) -> None:
        """Asserts that a program refuses a word that is not UTF-8."""
        ran = said(program, os.fsdecode(b"\xff"))
        self.assertEqual((ran.returncode, ran.stdout), (2, ""))
        self.assertEqual(ran.stderr, f"{program}: a word is not UTF-8\n")

    def test_words_that_ask_for_no_server_are_named(self) -> None:
        right = {"--port": "0", "--workers": "1", "--clients": "1"}
        wrong = {
            "--port": ["65536", "-1", "x", None],
            "--workers": ["0", "65", "x", None],
            "--clients": ["0", "65", "x", None],
            "--serve": ["-1", "1000001", "x"],
            "--forget": ["-1", "1099511627777", "x"],
        }
        for option, values in wrong.items():
            for value in values:
                words = {**right, option: value}
                ran = said("cqld", *(f"{it}={of}" for it, of in words.items() if of is not None))
                self.assertEqual((ran.returncode, ran.stdout), (2, ""))
                self.assertIn(option, ran.stderr)

    def test_lack_of_memory_at_the_start_is_told_by_cqlrun(self) -> None:
        self.tells_lack_of_memory("cqlrun")

    def test_lack_of_memory_at_the_start_is_told_by_cqld(self) -> None:
        words = ("--port=0", "--workers=1", "--clients=1", "--serve=0")
        self.tells_lack_of_memory("cqld", *words)

    def tells_lack_of_memory(self, program: str, *words: str) -> None:
        """Asserts that a program says so if memory runs out at its start, whenever it does."""
        with tempfile.TemporaryDirectory() as folder:
            library = refusing(folder)
            lacks = 0
            for growth in itertools.count(1):
                ran = said(program, *words, variables=refusals(library, growth))
                errors = ran.stderr.replace(REFUSED, "")
                if ran.returncode == 0:
                    self.assertEqual(errors, "")
                    self.assertEqual(bool(ran.stdout), program == "cqld")
                else:
                    lacks += 1
                    self.assertEqual(ran.returncode, 3, f"growth {growth}")
                    self.assertRegex(errors, f"^{program}: (out of memory|thread failed)\n$")
                if REFUSED not in ran.stderr:
                    break
            self.assertGreater(lacks, 0)

    def test_a_server_listens_at_the_port_that_it_is_told(self) -> None:
        for _ in range(20):
            with socket.create_server(("127.0.0.1", 0)) as free:
                port = free.getsockname()[1]
            ran = said("cqld", f"--port={port}", "--workers=1", "--clients=1", "--serve=0")
            if ran.returncode == 0:  # nobody else took it meanwhile
                break
        self.assertEqual((ran.returncode, ran.stderr), (0, ""))
        self.assertEqual(ran.stdout, f"cqld: listening on 127.0.0.1:{port}\n")

    def test_a_port_that_is_taken_is_told(self) -> None:
        with listening() as (_, port):
            ran = said("cqld", f"--port={port}", "--workers=1", "--clients=1", "--serve=0")
        self.assertEqual((ran.returncode, ran.stdout), (1, ""))
        self.assertEqual(ran.stderr, "cqld: bind failed\n")

    def test_seconds_of_silence_out_of_range_are_a_wrong_command_line(self) -> None:
        for seconds in ("0", "86401", "x"):
            words = ("--port=0", "--workers=1", "--clients=1", f"--idle={seconds}")
            ran = said("cqld", *words)
            self.assertEqual((ran.returncode, ran.stdout), (2, ""))
            self.assertIn("--idle", ran.stderr)

    def test_a_silent_connection_is_closed_and_the_next_one_is_served(self) -> None:
        with listening("--idle=1", "--serve=2") as (server, port):
            with connected(port) as silent:
                self.assertEqual(silent.recv(1), b"")  # closed, though nothing was sent
            with connected(port) as other:
                other.sendall(b'{"op":"drain"}\n')
                self.assertEqual(other.recv(100), b'{"ok":true}\n')
            self.assertEqual(server.wait(PATIENCE), 0)

    def test_a_client_that_takes_nothing_is_closed_and_the_next_one_is_served(self) -> None:
        rows = ",".join("[0,1099511627775]" for _ in range(1024))
        lines = [
            SETUP,
            f'{{"op":"append","stream":"S","rows":[{rows}]}}\n' * 4,
            '{"op":"heartbeat","stream":"S","at":0}\n{"op":"drain"}\n',
        ]
        peek = '{"op":"peek","query":"q","limit":4096}\n'
        with listening("--idle=1", "--serve=2") as (server, port):
            with connected(port) as greedy, greedy.makefile("rb") as replies:
                greedy.sendall("".join(lines).encode() + peek.encode())
                self.assertEqual([replies.readline() for _ in range(8)], [DONE.encode()] * 8)
                size = len(replies.readline())
                self.assertGreater(size, 60_000)
                greedy.sendall(peek.encode() * 1_000)
                with connected(port) as other:
                    other.sendall(b'{"op":"drain"}\n')
                    self.assertEqual(other.recv(100), DONE.encode())
                self.assertLess(len(rest_of(greedy)), 1_000 * size)
            self.assertEqual(server.wait(PATIENCE), 0)

    def test_a_slow_client_keeps_its_place_without_idle(self) -> None:
        with listening("--serve=1") as (server, port):
            with connected(port) as slow:
                slow.settimeout(1.5)
                with self.assertRaises(TimeoutError):
                    slow.recv(1)
                slow.settimeout(PATIENCE)
                slow.sendall(b'{"op":"drain"}\n')
                self.assertEqual(slow.recv(100), DONE.encode())
            self.assertEqual(server.wait(PATIENCE), 0)

    def test_a_failed_accept_is_told_while_others_are_served(self) -> None:
        # files of a server of two clients: three of its own, the listener and one connection
        with listening(clients=2, files=5) as (server, port):
            with connected(port) as client, connected(port):
                self.assertEqual(first_error(server), "cqld: accept failed\n")
                client.sendall(b'{"op":"drain"}\n')
                self.assertEqual(client.recv(100), DONE.encode())
                self.assertIsNone(server.poll())
            self.assertEqual(server.wait(PATIENCE), 1)
            assert server.stderr is not None
            self.assertEqual(server.stderr.read(), "")

    def test_a_failed_accept_is_told_after_clients_have_left(self) -> None:
        with listening(clients=2) as (server, port):
            with connected(port) as client:
                self.assertTrue(answers(client))
                self.assertEqual(answered(port, 4), 4)
                # Three files of its own, and the listener: no accept that begins now is well. One
                # that waits already has its file.
                resource.prlimit(server.pid, resource.RLIMIT_NOFILE, (4, 4))
                connected(port).close()
                self.assertEqual(first_error(server), "cqld: accept failed\n")
                self.assertTrue(answers(client))
            self.assertEqual(server.wait(PATIENCE), 1)

    def test_a_thread_that_cannot_be_started_ends_the_server(self) -> None:
        # room for some twenty stacks of 8 MiB
        limited = ("prlimit", "--as=200000000", "--stack=8388608")
        command = [*limited, find_program("cqld"), "--port=0", "--workers=1", "--clients=64"]
        ran = subprocess.run(
            command, stdin=subprocess.DEVNULL, capture_output=True, text=True, timeout=PATIENCE
        )
        self.assertEqual((ran.returncode, ran.stderr), (3, "cqld: thread failed\n"))

    def test_each_thread_that_cannot_be_started_ends_the_server(self) -> None:
        words = ("--port=0", "--workers=2", "--clients=2", "--serve=0")
        with tempfile.TemporaryDirectory() as folder:
            library = compiled(ROOT / "bench/refusals_source/threads.c", folder)
            for thread in range(1, 6):
                variables = {"LD_PRELOAD": str(library), "REFUSE_THREAD": str(thread)}
                ran = said("cqld", *words, variables=variables)
                errors = ran.stderr.replace("started\n", "")
                if thread == 5:  # there are four
                    self.assertEqual((ran.returncode, errors), (0, ""))
                else:
                    self.assertEqual(ran.returncode, 3)
                    self.assertEqual(errors, f"{REFUSED}cqld: thread failed\n")

    def test_workers_and_clients_are_threads(self) -> None:
        for workers, clients in (3, 2), (64, 1), (64, 64):
            with listening(f"--workers={workers}", clients=clients) as (server, _):
                threads = Path(f"/proc/{server.pid}/task")
                count = workers + clients + 1  # with the one that waits
                wait_until(lambda: len(list(threads.iterdir())) == count)

    def test_as_many_clients_as_there_may_be_are_served_at_once(self) -> None:
        with listening(clients=64, files=68) as (_, port), ExitStack() as stack:
            clients = [stack.enter_context(connected(port)) for _ in range(64)]
            for client in clients * 2:
                self.assertTrue(answers(client))

    def test_a_client_that_leaves_makes_room_for_one(self) -> None:
        with listening(clients=2) as (_, port):
            for leave in LEAVES * 2:
                with connected(port) as client:
                    self.assertTrue(answers(client))
                    leave(client)
                with connected(port) as first, connected(port) as second:
                    with connected(port) as third:  # served after the others: it came after them
                        self.assertTrue(answers(first) and answers(second))
                        third.sendall(DRAIN)
                        third.settimeout(0.05)
                        with self.assertRaises(TimeoutError, msg=leave.__name__):
                            third.recv(1)
                        self.assertTrue(answers(first) and answers(second))
                        first.close()
                        third.settimeout(PATIENCE)
                        self.assertEqual(third.recv(100), DONE.encode())

    def test_a_silent_client_that_is_closed_makes_room_for_one(self) -> None:
        with listening("--idle=1", clients=2) as (_, port):
            for _ in range(3):
                with connected(port) as first, connected(port) as second:
                    self.assertEqual(rest_of(first) + rest_of(second), b"")

    def test_a_server_serves_more_than_1024_connections(self) -> None:
        with listening(files=6) as (server, port):
            self.assertEqual(answered(port, MANY_CONNECTIONS), MANY_CONNECTIONS)
            self.assertIsNone(server.poll())

    def test_a_server_serves_as_many_connections_as_it_is_told(self) -> None:
        with listening(f"--serve={MANY_CONNECTIONS}") as (server, port):
            self.assertEqual(answered(port, MANY_CONNECTIONS - 1), MANY_CONNECTIONS - 1)
            self.assertIsNone(server.poll())
            self.assertEqual(answered(port, 1), 1)
            self.assertEqual(server.wait(PATIENCE), 0)

    def test_a_server_of_silent_clients_is_idle(self) -> None:
        drained = script(20)
        left_to_workers = "".join(
            line for line in drained.splitlines(True) if '"drain"' not in line
        )
        for lines in drained, left_to_workers:
            with listening("--workers=2", "--idle=600", clients=3) as (server, port):
                with connected(port) as client, connected(port) as other:
                    asked(client, lines)
                    self.assertTrue(is_idle(server.pid))
                    self.assertTrue(answers(client) and answers(other))

    def test_workers_that_lack_memory_wait(self) -> None:
        rows = ",".join(f"[0,{value}]" for value in range(1_024))
        lines = (
            f'{SETUP}{{"op":"append","stream":"S","rows":[{rows}]}}\n'
            '{"op":"heartbeat","stream":"S","at":0}\n'
        )
        done = [DONE] * lines.count("\n")
        with tempfile.TemporaryDirectory() as folder:
            library = refusing(folder)

            def are_done(growth: int) -> bool:
                said, _ = said_without(library, growth, lines, EVERY)
                return [f"{reply}\n" for reply in said] == done

            # The client does without this growth and all after it. A worker's turn wants some.
            growth = 1 + bisect_left(range(1, 10_000), True, key=are_done)
            variables = refusals(library, growth, EVERY)
            refused = Path(folder, "refused")
            with (
                refused.open("w") as errors,
                listening(variables=variables, errors=errors.fileno()) as (server, port),
                connected(port) as client,
            ):
                self.assertEqual(asked(client, lines), done)
                wait_until(lambda: REFUSED in refused.read_text())
                self.assertTrue(is_idle(server.pid))

    def test_rows_of_a_turn_change_no_reply(self) -> None:
        for rows in ("1", "7", "1024"):
            for words in ((), ("--workers=2",)):
                ran = said("cqlrun", f"--turn={rows}", *words, lines=script(20))
                self.assertEqual((ran.returncode, ran.stderr), (0, ""))
                self.assertEqual(ran.stdout, replies(20))

    def test_rows_of_a_turn_out_of_range_are_a_wrong_command_line(self) -> None:
        for rows in ("0", "1025", "x"):
            ran = said("cqlrun", f"--turn={rows}", lines=script(1))
            self.assertEqual((ran.returncode, ran.stdout), (2, ""))
            self.assertIn("--turn", ran.stderr)

    def test_a_pool_that_forgets_answers_as_one_thread_does(self) -> None:
        for workers in ("1", "4"):
            for values in ("0", "1", "100", "1000000"):
                words = (f"--workers={workers}", f"--forget={values}")
                ran = said("cqlrun", *words, lines=script(300))
                self.assertEqual((ran.returncode, ran.stderr), (0, ""))
                self.assertEqual(ran.stdout, replies(300))

    def test_a_pool_that_forgets_also_forgets_when_it_is_asked(self) -> None:
        lines = script(3) + '{"op":"forget"}\n' + '{"op":"status"}\n'
        status = (
            '{"ok":true,"queries":[{"base":-1,"name":"q","taken":6,"upto":2,"waiting":0}],'
            '"streams":[{"closed":2,"columns":["a"],"name":"S","rows":6}]}\n'
        )
        for values in ("0", "1"):
            ran = said("cqlrun", "--workers=2", f"--forget={values}", lines=lines)
            self.assertEqual((ran.returncode, ran.stderr), (0, ""))
            self.assertEqual(ran.stdout, replies(3) + DONE + status)

    def test_a_pool_keeps_more_than_100000_calls(self) -> None:
        lines = SETUP + EMPTY_APPEND * CALLS
        ran = said("cqlrun", "--workers=1", lines=lines)
        self.assertEqual((ran.returncode, ran.stderr), (0, ""))
        self.assertEqual(ran.stdout.count(DONE), CALLS + 2)

    def test_a_server_that_never_forgets_keeps_more_than_100000_calls(self) -> None:
        part = EMPTY_APPEND.encode() * 100
        with listening("--forget=0", "--serve=1") as (server, port):
            with connected(port) as client, client.makefile("rb") as replies:
                client.sendall(SETUP.encode())
                found = {replies.readline() for _ in range(2)}
                for _ in range(CALLS // 100):
                    client.sendall(part)
                    found.update(replies.readline() for _ in range(100))
                self.assertEqual(found, {DONE.encode()})
            self.assertEqual(server.wait(PATIENCE), 0)

    def test_a_server_forgets_after_as_many_values_as_it_is_told(self) -> None:
        # A call without rows counts as 16 values. So all calls together are fewer than a server
        # keeps that is told nothing.
        few = most_memory_of_a_server(MANY_CALLS, "--forget=16000")
        many = most_memory_of_a_server(MANY_CALLS)
        self.assertGreater(many, few + CALLS * 100 // 1024)

    def test_a_pool_forgets_after_as_many_values_as_it_is_told(self) -> None:
        few = most_memory_of_a_pool(MANY_CALLS, 16_000)
        many = most_memory_of_a_pool(MANY_CALLS, 16 * 2 * CALLS)
        self.assertGreater(many, few + CALLS * 100 // 1024)

    def test_a_server_that_is_told_nothing_forgets_after_64_megabytes(self) -> None:
        half = most_memory_of_a_server(MANY_ROWS, "--forget=4194304")
        told_nothing = most_memory_of_a_server(MANY_ROWS)
        twice = most_memory_of_a_server(MANY_ROWS, "--forget=16777216")
        all_of_it = most_memory_of_a_server(MANY_ROWS, "--forget=0")
        self.assertGreater(told_nothing, half + 16_384)
        self.assertGreater(twice, told_nothing + 16_384)
        self.assertGreater(all_of_it, told_nothing + 16_384)

    def test_a_pool_that_never_forgets_keeps_all(self) -> None:
        some = most_memory_of_a_pool(MANY_ROWS, 8_388_608)
        all_of_it = most_memory_of_a_pool(MANY_ROWS, 0)
        self.assertGreater(all_of_it, some + 16_384)

    def test_forgetting_wants_a_pool(self) -> None:
        ran = said("cqlrun", "--forget=1", lines=script(1))
        self.assertEqual((ran.returncode, ran.stdout), (2, ""))
        self.assertEqual(ran.stderr, "cqlrun: --forget wants --workers\n")

    def test_a_burst_of_requests_is_answered_in_order(self) -> None:
        requests = [
            b'{"op":"stream","name":"S","columns":["a"],"from":0}',
            b'{"op":"query","name":"q","text":"Select Rstream(a) From S [Now]"}',
            b'{"op":"append","stream":"S","rows":[[0,5],[0,6]]}',
            b'{"op":"heartbeat","stream":"S","at":0}',
            b'{"op":"drain"}',
            b'{"op":"take","query":"q","limit":10}',
        ]
        with listening("--serve=1") as (server, port):
            with connected(port) as client, client.makefile("rb") as lines:
                client.sendall(b"\n".join(requests) + b"\n")
                replies = [lines.readline() for _ in requests]
            self.assertEqual(replies[:-1], [b'{"ok":true}\n'] * 5)
            self.assertEqual(replies[-1], b'{"ok":true,"rows":[[0,5],[0,6]]}\n')
            self.assertEqual(server.wait(PATIENCE), 0)

    def test_a_burst_of_requests_is_answered_by_one_send(self) -> None:
        # A window that slides makes a drain long. What one send has, one `recv` returns.
        query = '{"op":"query","name":"w","text":"Select Istream(a) From S [Range 9 Slide 10]"}\n'
        with listening("--serve=1") as (server, port):
            with connected(port) as client:
                client.sendall((SETUP + query).encode())
                self.assertEqual(client.recv(1 << 16), (DONE * 3).encode())
                for burst in range(5):
                    lines = []
                    for heartbeat in range(5):
                        at = (5 * burst + heartbeat + 1) * 60_000
                        lines.append(f'{{"op":"heartbeat","stream":"S","at":{at}}}\n')
                        lines.append('{"op":"drain"}\n')
                    client.sendall("".join(lines).encode())
                    self.assertEqual(client.recv(1 << 16), (DONE * 10).encode())
            self.assertEqual(server.wait(PATIENCE), 0)

    def test_what_is_sent_leaves_at_once(self) -> None:
        options = options_of()
        self.assertEqual(options.get((socket.IPPROTO_TCP, socket.TCP_NODELAY)), 1)

    def test_silence_is_limited_as_the_words_say(self) -> None:
        for words, seconds in ((), 0), (("--idle=86400",), 86_400):
            options = options_of(*words)
            for option in (socket.SO_RCVTIMEO, socket.SO_SNDTIMEO):
                self.assertEqual(options.get((socket.SOL_SOCKET, option), 0), seconds)

    def test_silence_is_limited_so_after_work_was_left_too(self) -> None:
        for words, seconds in ((), 0), (("--idle=86400",), 86_400):
            options = options_of(*words, leaves_work=True)
            self.assertEqual(options.get((socket.SOL_SOCKET, socket.SO_RCVTIMEO)), seconds)

    def test_workers_do_what_a_silent_client_left(self) -> None:
        with listening(clients=2) as (_, port):
            with connected(port) as silent, connected(port) as other:
                leave_work(silent)
                # neither a take nor anybody else wakes a worker
                wait_until(lambda: "[0,5]" in asked(other, TAKE)[0])
                time.sleep(SILENCE)
                self.assertTrue(answers(silent))

    def test_workers_do_what_a_client_leaves_that_never_drains(self) -> None:
        with listening() as (_, port), connected(port) as client:
            leave_work(client)
            for at in range(1, CYCLES):
                asked(client, append(at))
                asked(client, heartbeat(at))
            self.assertIn("[0,5]", asked(client, TAKE)[0])

    def test_a_client_that_drains_at_once_wakes_no_worker(self) -> None:
        with listening() as (server, port), connected(port) as client:
            leave_work(client)
            self.assertTrue(answers(client))
            time.sleep(SILENCE)
            before = switches_of_a_worker(server.pid)
            for at in range(1, CYCLES):
                for lines in append(at), heartbeat(at), DRAIN.decode(), TAKE:
                    asked(client, lines)
            woken = switches_of_a_worker(server.pid) - before
            # (a client that the system lets wait is silent meanwhile)
            self.assertLess(woken, CYCLES // 2)

    def test_a_server_listens_only_on_loopback(self) -> None:
        with listening() as (_, port):
            self.assertEqual(listeners(port), [("tcp", LOOPBACK)])

    def test_a_blank_line_holds_no_work_back(self) -> None:
        rows = (
            '{"op":"append","stream":"S","rows":[[0,5]]}\n'
            '{"op":"heartbeat","stream":"S","at":0}\n'
        )
        with listening("--serve=2", clients=2) as (_, port):
            with connected(port) as quiet, connected(port) as other:
                quiet.sendall((SETUP + rows + "\n").encode())
                with quiet.makefile("rb") as lines, other.makefile("rb") as taken:
                    said = [lines.readline() for _ in range(4)]
                    self.assertEqual(said, [DONE.encode()] * 4)

                    def is_there() -> bool:
                        other.sendall(b'{"op":"take","query":"q","limit":1}\n')
                        return b"[0,5]" in taken.readline()

                    wait_until(is_there)  # nobody asks for a drain

    def test_a_drain_goes_on_after_memory_ran_out_once(self) -> None:
        lines = script(3)
        asked = [json.loads(line)["op"] for line in lines.splitlines()]
        refused = 0
        with tempfile.TemporaryDirectory() as folder:
            library = refusing(folder)
            for growth in itertools.count(1):
                said, was_refused = said_without(library, growth, lines)
                if not was_refused:
                    break
                wanting = [op for op, reply in zip(asked, said) if "E20" in reply]
                refused += len(wanting)
                self.assertNotIn("drain", wanting, f"growth {growth}")
        self.assertEqual("".join(f"{reply}\n" for reply in said), replies(3))
        self.assertGreater(refused, 0)  # of other calls

    def test_workers_outlive_the_first_connection(self) -> None:
        setup = (
            b'{"op":"stream","name":"S","columns":["a"],"from":0}\n'
            b'{"op":"query","name":"q","text":"Select Rstream(a) From S [Now]"}\n'
        )
        rows = (
            b'{"op":"append","stream":"S","rows":[[0,5]]}\n'
            b'{"op":"heartbeat","stream":"S","at":0}\n'
        )
        with listening("--serve=2") as (server, port):
            for lines in (setup, rows):
                with connected(port) as client, client.makefile("rb") as replies:
                    client.sendall(lines)
                    said = [replies.readline(), replies.readline()]
                    self.assertEqual(said, [b'{"ok":true}\n'] * 2)
                    if lines is setup:
                        continue
                    reply = b""
                    while b"[0,5]" not in reply:  # nobody asks for a drain
                        client.sendall(b'{"op":"take","query":"q","limit":1}\n')
                        reply = replies.readline()
            self.assertEqual(server.wait(PATIENCE), 0)
