"""The eight actions as calls, which make a request and submit it. Arguments stand in the order of a script's line."""
from __future__ import annotations

from typing import Optional, Union

from .requests import Create, Delete, Get, Give, Level, Name, Relabel, Release, Request, Rescind
from .values import Answer, Label, Mode


# None: 0 of a monitor; the own number of a client and of an office's session, which take no other.
Session = Optional[int]


class Actions:
    """What can be asked of whatever answers requests, a monitor or a client of the service."""

    def submit(self, request: Request, session: Session = None) -> Answer:
        """Answers a request by the rules."""
        raise NotImplementedError

    def decide(self, request: Request) -> Answer:
        """What submit would answer now. Nothing changes."""
        raise NotImplementedError

    def check(self, subject: Name, mode: Union[Mode, str], object: Name) -> bool:
        """Whether a subject holds an access now. No entry is made."""
        raise NotImplementedError

    def get(self, subject: Name, mode: Union[Mode, str], object: Name, *, session: Session = None) -> Answer:
        """Asks for an access to an object."""
        return self.submit(Get(subject, mode, object), session)

    def release(self, subject: Name, mode: Union[Mode, str], object: Name, *, session: Session = None) -> Answer:
        """Ends an access."""
        return self.submit(Release(subject, mode, object), session)

    def give(self, subject: Name, mode: Union[Mode, str], other: Name, object: Name, *,
             session: Session = None) -> Answer:  # fmt: skip
        """Has another subject permitted an object in a mode."""
        return self.submit(Give(subject, mode, other, object), session)

    def rescind(self, subject: Name, mode: Union[Mode, str], other: Name, object: Name, *,
                session: Session = None) -> Answer:  # fmt: skip
        """Has another subject permitted it no longer."""
        return self.submit(Rescind(subject, mode, other, object), session)

    def create(self, subject: Name, parent: Name, security: Union[Label, str], integrity: Union[Label, str], *,
               session: Session = None) -> Answer:  # fmt: skip
        """Makes an object below its parent; the answer has its number."""
        return self.submit(Create(subject, parent, security, integrity), session)

    def delete(self, subject: Name, object: Name, *, session: Session = None) -> Answer:
        """Deletes an object and all below it."""
        return self.submit(Delete(subject, object), session)

    def level(self, subject: Name, security: Union[Label, str], *, session: Session = None) -> Answer:
        """Changes the subject's current label."""
        return self.submit(Level(subject, security), session)

    def relabel(self, subject: Name, object: Name, security: Union[Label, str], *, session: Session = None) -> Answer:
        """Changes an object's security label."""
        return self.submit(Relabel(subject, object, security), session)
