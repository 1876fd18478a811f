"""The life of a message, from the high folder to the low one, or to those that were refused.

It is a sequence of requests to the monitor, with deeds on files between them. A request is asked once the deed before
it is on the disk, so an entry says that the deed was done. After a crash a life goes on with the deed before the first
request that has no entry. What a deed found out, and the life depends on, is in the log before the next request.
"""
import collections

from deeds import Blocked, Deeds
from stop import DIFFERS, Stop


class Message:
    """A message of this session, which had this name in the high folder. `granted` are its requests that the journal
    has, with their replies; `object` is what stands for it in the monitor."""

    def __init__(self, guard, session, name, granted=()):
        self.guard, self.session, self.deeds = guard, session, Deeds(guard, session, name)
        self.granted, self.object = collections.deque(granted), None

    def ask(self, request):
        """Asks a request, or takes the reply that the journal has."""
        if not self.granted:
            return self.guard.ask(self.session, request)
        found, reply = self.granted.popleft()
        if found != request:
            raise Stop(DIFFERS, f"session {self.session}: the journal has {found}, due is {request}")
        return reply

    def do(self, deed, *what):
        """Does a deed, unless the entry behind it says that it was done."""
        if not self.granted:
            deed(*what)

    def decided(self, what, deed):
        """What the log says, or what comes of a deed, which the log says from then on."""
        log = self.guard.log
        if what not in log.lines:
            if self.granted:
                raise Stop(DIFFERS, f"session {self.session}: the log lacks {what}")
            self.guard.tell(self.session, what, deed())
        return log.lines[what]

    def live(self):
        self.ask("relabeller get-write passage")
        self.ask("reader get-write outbox")
        self.object = "#" + self.ask("relabeller create passage high message").split()[1]
        end = self.taken()
        self.ask(f"relabeller delete {self.object}")
        self.ask("relabeller release write passage")
        self.do(self.deeds.clear)
        self.decided("closed", lambda: end)

    def taken(self):
        """From the high folder to a copy, and on. Returns how the life ends."""
        if self.decided("taken", self.deeds.take) == ["gone"]:
            self.ask("reader release write outbox")
            return "gone"
        self.ask(f"relabeller give append reader {self.object}")
        self.ask(f"reader get-append {self.object}")
        if self.decided("copied", self.deeds.copied)[0] == "unfit":
            self.set_aside("reader", self.deeds.raw)
            self.ask(f"reader release append {self.object}")
            self.ask("reader release write outbox")
            return "refused"
        # (from here on nobody may change it)
        self.ask(f"relabeller rescind append reader {self.object}")
        self.ask("reader release write outbox")
        self.do(self.deeds.drop_raw)
        return self.checked()

    def checked(self):
        self.ask(f"relabeller give read checker {self.object}")
        self.ask(f"checker get-read {self.object}")
        self.ask("checker get-execute filter")
        answer, what, *_ = self.decided("verdict", self.deeds.judged)
        self.ask("checker release execute filter")
        if answer != "yes":
            self.set_aside("checker", self.deeds.copy)
        self.ask(f"checker release read {self.object}")
        return self.handed_down(what) if answer == "yes" else "refused"

    def set_aside(self, subject, name):
        self.ask(f"{subject} get-append refused")
        self.do(self.deeds.set_aside, name)
        self.ask(f"{subject} release append refused")

    def handed_down(self, new):
        """The relabelling, which lets it go, and the way into the low folder, under this name."""
        self.ask(f"relabeller relabel {self.object} low")
        self.ask(f"relabeller give read writer {self.object}")
        self.ask(f"writer get-read {self.object}")
        self.ask("writer get-append inbox")
        self.lay(self.deeds.stage, new)
        self.ask(f"writer release read {self.object}")
        self.lay(self.deeds.publish, new)
        self.ask("writer release append inbox")
        return self.turned_back(new) if "blocked" in self.guard.log.lines else f"delivered {new}"

    def lay(self, deed, new):
        """Does a deed in the low folder, as `do`. Where something lies in its way, the log says so from then on, and
        nothing more is laid there."""
        if self.granted or "blocked" in self.guard.log.lines:
            return
        try:
            deed(new)
        except Blocked as place:
            self.guard.tell(self.session, "blocked", str(place))

    def turned_back(self, new):
        """What was let go, and doesn't get into the low folder, is kept with those that were refused."""
        self.do(self.deeds.withdraw, new)
        self.ask(f"checker get-read {self.object}")
        self.set_aside("checker", self.deeds.copy)
        self.ask(f"checker release read {self.object}")
        return "refused"
