"""A stand-in for mlsd: sessions at a socket, answered by a monitor of the package."""
import contextlib
import os
import socket
import tempfile
import threading

import mls

# By the words of lines; a get's has its mode.
REQUESTS = {it.__name__.lower(): it for it in mls.requests.ACTIONS if it is not mls.Get}


def named(token):
    return int(token[1:]) if token.startswith("#") else token


def request_of(subject, word, *operands):
    if word.startswith("get-"):
        return mls.Get(named(subject), word[4:], *map(named, operands))
    return REQUESTS[word](named(subject), *map(named, operands))


class Pretend:
    """Answers the lines of one session."""

    def __init__(self, monitor, session, has_numbers):
        self.monitor, self.session, self.has_numbers = monitor, session, has_numbers

    def asked(self, line):
        tokens = line.split()
        if tokens[0] == "?":
            return "? " + self.asked_of(lambda request: str(self.monitor.decide(request)), *tokens[1:])
        return self.asked_of(self.submitted, *tokens)

    def submitted(self, request):
        answer = self.monitor.submit(request, self.session)
        return f"{answer} {answer.number}" if self.has_numbers else str(answer)

    def asked_of(self, submitted, subject, word="", *operands):
        try:
            if word == "check":
                mode, where = operands
                return "held" if self.monitor.check(named(subject), mode, named(where)) else "not held"
            return submitted(request_of(subject, word, *operands))
        except mls.UnknownName:
            return "bad name"
        except mls.BadRequest:
            return "bad label"
        except (KeyError, TypeError, ValueError):
            return "bad form"


def serve(connection, pretend, notes):
    with connection, connection.makefile("rb") as lines:
        connection.sendall(b"session %d\n" % pretend.session)
        for line in lines:
            if line.startswith(b"; "):
                notes.append(line)
            else:
                connection.sendall(pretend.asked(line.decode()).encode() + b"\n")


@contextlib.contextmanager
def service(monitor, has_numbers=False, notes=None):
    """A socket that clients may connect to, one after the other, as sessions 1 and so on."""
    with tempfile.TemporaryDirectory() as folder, socket.socket(socket.AF_UNIX) as listener:
        path = os.path.join(folder, "socket")
        listener.bind(path)
        listener.listen()

        def accept():
            session = 0
            while True:
                try:
                    connection = listener.accept()[0]
                except OSError:
                    return
                session += 1
                serve(connection, Pretend(monitor, session, has_numbers), [] if notes is None else notes)

        thread = threading.Thread(target=accept, daemon=True)
        thread.start()
        yield path
        listener.shutdown(socket.SHUT_RDWR)
        thread.join()
