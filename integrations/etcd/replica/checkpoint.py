"""The checkpoint: up to which place of the log the journal was made, and what is to be known to go on from there."""
import dataclasses
import hashlib
import json

from . import files
from .ending import REFUSED, stop
from .sessions import Sessions

EMPTY = hashlib.sha256(b"").hexdigest()
# What stands between all other fields and the last, which is the SHA-256 of the text without it.
SUM = ', "sum": "'


def sum_of(text):
    return hashlib.sha256(text.encode()).hexdigest()


def with_sum(text):
    return f'{text[:-1]}{SUM}{sum_of(text)}"}}'


def without_sum(text):
    """The text of the fields. ValueError where it isn't what its sum says."""
    fields, _, digest = text.rpartition(SUM)
    if digest != f'{sum_of(fields + "}")}"}}':
        raise ValueError("it was changed, or is of a version before this one; without it all is made again")
    return fields + "}"


@dataclasses.dataclass
class Checkpoint:
    """A batch's number, its revision in etcd and its digest; the entries up to it and their digest; the bytes of marks
    that were there by then, and their digest; the sessions."""

    log: str = ""
    number: int = 0
    revision: int = 0
    batch: str = EMPTY
    entries: int = 0
    digest: str = EMPTY
    marks: int = 0
    marks_digest: str = EMPTY
    sessions: Sessions = dataclasses.field(default_factory=Sessions)

    def write(self, name):
        fields = {it.name: getattr(self, it.name) for it in dataclasses.fields(self)}
        files.put(name, with_sum(json.dumps({**fields, "sessions": self.sessions.as_json()})).encode())

    @classmethod
    def read(cls, name, log):
        """The checkpoint of this log; where there is none, that of its beginning."""
        text = files.content(name)
        if not text:
            return cls(log)
        try:
            found = cls(**json.loads(without_sum(text.decode())))
            found.sessions = Sessions.of_json(found.sessions)
        except (ValueError, TypeError, KeyError, AttributeError) as fault:
            stop(REFUSED, f"{name}: is no checkpoint: {fault}")
        if found.log != log:
            stop(REFUSED, f"{name}: is of another log: it has {found.log}, and the log is {log}")
        return found
