"""A client of the service's socket, mlsd, with the calls of a monitor."""
from __future__ import annotations

import json
import socket
import threading
from types import TracebackType
from typing import Any, Callable, Iterable, List, Optional, Type, TypeVar, Union

from .actions import Actions, Session
from .faults import BadRequest, Closed, Ended, NoService, Refused
from .lines import answer_of, check_line, is_asked, is_held, line_of, would_be
from .requests import Name, Request
from .values import Answer, Mode

SOCKET = "/run/mlsd/socket"
# mlsd takes no more lines of a client before their answers are read.
IN_FLIGHT = 64
ENDED = "mlsd has ended the session"
Told = TypeVar("Told")


def checked(line: str) -> bytes:
    """The bytes of a line that has one answer."""
    if "\n" in line or not line.strip(" ") or line.lstrip(" ").startswith(";"):
        raise BadRequest(f"no line that is answered: {line!r}")
    return line.encode("utf-8", "surrogatepass") + b"\n"


class Client(Actions):
    """One session, which is a connection: what is asked is answered in its order. What it got is the subject's, not the
    connection's. Its calls may come from all threads: they take turns, and a client for each thread waits less.

    Where the time is up, or a call is interrupted, within a question, the session ends: whether it was taken isn't
    known, and its answer may not be read as that of another."""

    def __init__(self, path: str = SOCKET, timeout: Optional[float] = None) -> None:
        connection = socket.socket(socket.AF_UNIX, socket.SOCK_STREAM)
        try:
            connection.settimeout(timeout)
            connection.connect(path)
        except OSError as error:
            connection.close()
            raise NoService(path, error.strerror or str(error)) from error
        except BaseException:
            connection.close()
            raise
        self._begin(connection)

    @classmethod
    def over(cls, connection: socket.socket) -> Client:
        """A client over a connection that was made otherwise, and from which nothing was read."""
        made = cls.__new__(cls)
        made._begin(connection)
        return made

    def _begin(self, connection: socket.socket) -> None:
        """Reads the greeting of mlsd, which gives the session its number, or refuses it."""
        self._socket, self._input = connection, connection.makefile("rb")
        self._lock = threading.RLock()
        try:
            word, _, number = self._line().partition(" ")
            if word != "session" or not number.isdecimal():
                raise Refused(f"{word} {number}".strip())
        except BaseException:
            self.close()
            raise
        self.session = int(number)

    def close(self) -> None:
        """Ends the session; with --release-on-close mlsd releases what only it held. All calls but this one then raise
        Closed."""
        self._input.close()
        self._socket.close()

    @property
    def is_closed(self) -> bool:
        return self._input.closed

    def __enter__(self) -> Client:
        return self

    def __exit__(self, kind: Optional[Type[BaseException]], error: Optional[BaseException],
                 trace: Optional[TracebackType]) -> None:  # fmt: skip
        self.close()

    def __reduce_ex__(self, protocol: Any) -> Any:
        raise TypeError("a client is neither copied nor pickled")

    def _line(self) -> str:
        try:
            line = self._input.readline()
        except OSError as error:
            # (it was closed before it had read all that was asked, or the time is up)
            raise Ended(str(error) if isinstance(error, socket.timeout) else ENDED) from error
        if not line.endswith(b"\n"):
            raise Ended(ENDED)
        return line[:-1].decode()

    def _send(self, text: bytes) -> None:
        try:
            self._socket.sendall(text)
        except OSError as error:
            raise Ended(str(error) if isinstance(error, socket.timeout) else ENDED) from error

    def _exchange(self, texts: List[bytes]) -> List[str]:
        """Sends lines and reads their answers."""
        with self._lock:
            if self.is_closed:
                raise Closed("the session is closed")
            try:
                self._send(b"".join(texts))
                return [self._line() for _ in texts]
            except BaseException:
                self.close()
                raise

    def ask(self, line: str) -> str:
        """Asks one line, of whatever kind, and returns its answer, as docs/FORMATS.md has both. A line behind `? ` is
        answered what it would be, behind `? `, and not asked."""
        return self._exchange([checked(line)])[0]

    def ask_all(self, lines: Iterable[str]) -> List[str]:
        """Asks many lines and returns their answers; some share a sync, so this is faster than one after the other."""
        texts, answers = [checked(line) for line in lines], []
        for first in range(0, len(texts), IN_FLIGHT):
            answers += self._exchange(texts[first : first + IN_FLIGHT])
        return answers

    def submit(self, request: Request, session: Session = None) -> Answer:
        """Has a request answered by the rules, and journalled. Its session is this client's. The answer has the number
        of its entry where mlsd runs its core with --numbers."""
        if session not in (None, self.session):
            raise BadRequest(f"this is session {self.session}")
        line = line_of(request)
        return self._told(answer_of, self.ask(line), line)

    def decide(self, request: Request) -> Answer:
        """What submit would answer now. Nothing changes, and there is no entry."""
        line = "? " + line_of(request)
        return self._told(would_be, self.ask(line), line)

    def check(self, subject: Name, mode: Union[Mode, str], object: Name) -> bool:
        """Whether a subject holds an access now. No entry is made."""
        line = check_line(subject, mode, object)
        return self._told(is_held, self.ask(line), line)

    def _told(self, reading: Callable[[str, str], Told], answer: str, line: str) -> Told:
        """What an answer says. Where it is none for its line, the session ends: another may be."""
        try:
            return reading(answer, line)
        except Ended:
            self.close()
            raise

    def note(self, text: str) -> None:
        """Has a note written in the sessions file; there is no answer."""
        with self._lock:
            if self.is_closed:
                raise Closed("the session is closed")
            try:
                self._send(b"; " + text.replace("\n", " ").encode("utf-8", "surrogatepass") + b"\n")
            except BaseException:
                self.close()
                raise

    def stats(self) -> Any:
        """What mlsd counts, for root alone."""
        answer = self.ask("stats")
        is_asked(answer, "stats")
        return json.loads(answer)
