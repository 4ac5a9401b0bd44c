"""Reads a report of `kres sim` or `kres threads`, and tells from its lines what each process did.

A report of `sim` says everything but one thing: whom a `kill` ended. Where a process turns out later to have ended by
signal 9 (its parent is told so, or its call is abandoned), the last `kill` that was answered 0 before that is taken for the
one. A report of `threads` has a line where a call is over, sleeps or has done a part, and no bytes but those at the end.

With the script each call is told with its operands as they were, and with its line.
"""
import re
from dataclasses import dataclass, field

from controls import Follower

KEPT_BACK = 2176  # bytes that closing and ending may always use
AT_BOOT = 2816  # what is charged at boot: that reserve, the first process and the root's inode
BROKEN_PIPE = "signal 13"  # what ends who writes where nobody reads

# An event's line is its number, one of these, and, but for `threads`, what is charged after it.
SHAPES = (
    r"p(?P<pid>\d+) (?P<word>ask|admit|wake) (?P<call>\w+) bound (?P<bound>\d+)",
    r"p(?P<pid>\d+) (?P<word>refused) (?P<call>\w+) bound (?P<bound>\d+) = (?P<reply>ENOMEM)",
    r"p(?P<pid>\d+) (?P<word>done) (?P<call>\w+) = (?P<reply>.+)",
    r"p(?P<pid>\d+) (?P<word>part) (?P<call>\w+) (?P<reply>\d+)",
    r"p(?P<pid>\d+) (?P<word>sleep|abandon|gone) (?P<call>\w+)",
    r"p(?P<pid>\d+) (?P<word>ended) (?P<reply>(?:exit|signal) \d+)",
    r"p(?P<pid>\d+) (?P<word>killed) for p(?P<waiter>\d+) need (?P<bound>\d+) live (?P<live>\d+)",
    r"(?P<word>evict) (?P<call>name|block|vnode)",
)
EVENTS = [re.compile(rf"(?P<number>\d+) {shape} charged (?P<charged>\d+)") for shape in SHAPES]
ENTRIES = [re.compile(rf"(?P<number>\d+) {shape}") for shape in SHAPES]
HOW = r"end (?P<how>finished|starved p\d+ need \d+|asleep|spent)"
END = re.compile(rf"{HOW} events (?P<events>\d+) charged (?P<charged>\d+) peak (?P<peak>\d+) reads (?P<reads>\d+)")
END_OF_THREADS = re.compile(rf"{HOW} entries (?P<events>\d+) charged (?P<charged>\d+) reads (?P<reads>\d+)")


class NoReport(Exception):
    """The text is no report of `kres sim`: which line is at fault."""


@dataclass
class Event:
    """A line of the report. What its kind of line doesn't tell is None."""

    number: int
    word: str
    charged: int = None
    pid: int = None
    call: str = None
    bound: int = None
    reply: str = None
    waiter: int = None
    live: int = None


@dataclass
class Call:
    """One call of a process: the numbers of its events, its answer as the report has it, and with a script what it was
    there (its line and its operands)."""

    pid: int
    name: str
    bound: int
    asked: int
    admitted: list = field(default_factory=list)
    slept: list = field(default_factory=list)
    woken: list = field(default_factory=list)
    parts: list = field(default_factory=list)
    over: int = None
    answer: str = None
    said: object = None

    def text(self):
        """The call with its operands, where they are known."""
        return f"{self.name} {self.said.text()}".strip() if self.said else self.name

    def is_error(self):
        return bool(re.fullmatch(r"= E[A-Z]+|refused: ENOMEM", self.answer or ""))


@dataclass
class Span:
    """What a process did from one event to another: user, waiting, admitted, asleep, ended or left.

    Ended is a process that its parent has not waited for; left is one that was ended while its call held its bound.
    """

    state: str
    start: int
    call: Call = None
    end: int = None


@dataclass
class Process:
    pid: int
    parent: int
    born: int
    spans: list = field(default_factory=list)
    calls: list = field(default_factory=list)
    ended: int = None
    how: str = None
    gone: int = None
    mourner: int = None  # who was its parent when it ended
    follower: object = None

    def state(self):
        return self.spans[-1].state if self.spans and self.spans[-1].end is None else None

    def call(self):
        return self.calls[-1] if self.calls else None

    def open_call(self):
        """The call that isn't over, if there is one. That a process is killed stands among its calls."""
        return next((it for it in reversed(self.calls) if it.name != "killed" and it.over is None), None)

    def become(self, state, at, call=None):
        if self.state():
            self.spans[-1].end = at
        if state:
            self.spans.append(Span(state, at, call))


def read_event(line, shapes):
    for shape in shapes:
        found = shape.fullmatch(line)
        if found:
            parts = found.groupdict()
            numbers = ("number", "pid", "bound", "waiter", "live", "charged")
            return Event(**{name: int(it) if name in numbers and it else it for name, it in parts.items()})
    return None


class Run:
    """A whole report: its events, its end line by parts, and what each process did; with a script, what its calls were."""

    def __init__(self, text, script=None):
        self.lines = text.splitlines()
        self.is_threads = bool(self.lines and END_OF_THREADS.fullmatch(self.lines[-1]))
        self.read(self.lines)
        self.reserved = [0]  # after each event, beginning with boot
        self.held = {}
        first = Process(1, 0, 0, follower=script and Follower.first(script))
        first.become("user", 0)
        self.processes = {1: first}
        for event in self.events:
            self.take(event)
        # What still goes on at the end ends behind the last event.
        for process in self.processes.values():
            process.become(None, len(self.events) + 1)
            self.say(process)

    def read(self, lines):
        """The events of the lines, and the end."""
        self.events, self.end = [], None
        shapes, end = (ENTRIES, END_OF_THREADS) if self.is_threads else (EVENTS, END)
        for place, line in enumerate(lines, 1):
            self.end = end.fullmatch(line)
            if self.end:
                break
            event = read_event(line, shapes)
            if event is None or event.number != place:
                seen = "".join(it if it.isprintable() else "\ufffd" for it in line[:60])
                raise NoReport(f"line {place} is no line of a report: {seen}")
            self.events.append(event)
        if not lines or not self.end or len(lines) != len(self.events) + 1:
            raise NoReport("a report ends with the line that begins with 'end', and this text doesn't")

    def say(self, process):
        """Gives each call of a process what it was in the script."""
        calls = [it for it in process.calls if it.name != "killed"]
        for place, said in (process.follower.said() if process.follower else {}).items():
            calls[place].said = said

    def follow(self, event, process, name):
        """A process makes a call of this name, which has to be the one that its program makes there."""
        if process.follower and not process.follower.ask(name):
            raise NoReport(f"event {event.number}: the script has p{process.pid} make another call there than {name}")

    def summary(self):
        """How the run ended, in a line."""
        how = re.sub(r"starved (p\d+) need (\d+)", r"starved (\1 needs \2)", self.end["how"])
        if self.is_threads:
            return f"{how} after {self.end['events']} entries, {self.end['charged']} bytes charged at the end"
        return f"{how} after {self.end['events']} events, at most {self.end['peak']} bytes charged"

    def charged(self, number):
        """What is charged after an event; a report of threads doesn't tell it."""
        return self.events[number - 1].charged if number else AT_BOOT

    def live(self, number):
        """The bytes of all objects after an event: what is charged, without the reserve and what calls hold."""
        return self.charged(number) - KEPT_BACK - self.reserved[number]

    def take(self, event):
        process = self.processes.get(event.pid)
        if event.pid is not None and process is None:
            raise NoReport(f"line {event.number} speaks of p{event.pid}, which no fork has made")
        if event.word in ("done", "part", "sleep", "ended", "gone") and self.is_threads:
            self.begin(event, process)
        if event.word != "evict":
            getattr(self, f"take_{event.word}")(event, process)
        self.reserved.append(sum(self.held.values()))

    def begin(self, event, process):
        """Where threads ran it, a call is first spoken of where it is over, sleeps or has done a part."""
        if process.open_call() is None:
            name = event.call or self.ending_call(event, process)
            process.calls.append(Call(process.pid, name, None, event.number))
            self.follow(event, process, name)

    def ending_call(self, event, process):
        """The call that ended its process, which no report names: an exit says so, a kill of oneself and a write end it by a signal."""
        if event.reply.startswith("exit"):
            return "exit"
        writes = event.reply == BROKEN_PIPE and (process.follower is None or process.follower.may_make("write"))
        return "write" if writes else "kill"

    def take_gone(self, event, process):
        """The process had been ended when its call's turn came."""
        if process.ended is None:
            self.end_process(process, "signal 9", self.kill_before(event.number, process))
        call = process.open_call()
        call.over, call.answer = event.number, "gone"

    def take_ask(self, event, process):
        process.calls.append(Call(process.pid, event.call, event.bound, event.number))
        self.follow(event, process, event.call)
        process.become("waiting", event.number, process.call())

    def take_refused(self, event, process):
        call = Call(process.pid, event.call, event.bound, event.number, over=event.number, answer="refused: ENOMEM")
        process.calls.append(call)
        self.follow(event, process, event.call)
        self.answer(process, "ENOMEM")

    def take_admit(self, event, process):
        process.call().admitted.append(event.number)
        self.held[process.pid] = event.bound
        process.become("admitted", event.number, process.call())

    def take_done(self, event, process):
        call = process.call()
        call.over, call.answer = event.number, f"= {event.reply}"
        self.held.pop(process.pid, None)
        process.become("user", event.number)
        if event.call == "fork" and event.reply.isdigit():
            self.be_born(int(event.reply), process, event.number)
        if event.call == "exec" and event.reply == "0" and process.follower:
            process.follower.execute()
        else:
            self.answer(process, event.reply)
        reaped = re.fullmatch(r"(\d+) ((?:exit|signal) \d+)", event.reply)
        if event.call == "waitpid" and reaped:
            self.reap(self.processes[int(reaped[1])], reaped[2], event.number)

    def take_part(self, event, process):
        process.call().parts.append((event.number, event.reply))
        self.fall_asleep(event, process)

    def take_sleep(self, event, process):
        self.fall_asleep(event, process)

    def fall_asleep(self, event, process):
        process.call().slept.append(event.number)
        self.held.pop(process.pid, None)
        process.become("asleep", event.number, process.call())

    def take_wake(self, event, process):
        process.call().woken.append(event.number)
        process.become("waiting", event.number, process.call())

    def take_ended(self, event, process):
        call = process.call()
        call.over, call.answer = event.number, f"ended {event.reply}"
        self.held.pop(process.pid, None)
        self.end_process(process, event.reply, event.number)

    def take_killed(self, event, process):
        process.calls.append(
            Call(process.pid, "killed", None, event.number, over=event.number,
                 answer=f"p{event.waiter} needs {event.bound}, live is {event.live}")
        )
        self.end_process(process, "killed", event.number)

    def take_abandon(self, event, process):
        if process.ended is None:
            self.end_process(process, "signal 9", self.kill_before(event.number, process))
        call = process.call()
        call.over, call.answer = event.number, "abandoned"
        self.held.pop(process.pid, None)
        process.become(None if process.gone else "ended", event.number)
        process.gone = event.number if process.gone else None

    def answer(self, process, reply):
        if process.follower:
            process.follower.answer(reply)

    def be_born(self, pid, parent, at):
        follower = parent.follower and parent.follower.child()
        self.processes[pid] = Process(pid, parent.pid, at, follower=follower)
        self.processes[pid].become("user", at)

    def end_process(self, process, how, at):
        """Its ended children go with it, its live ones get the first process; with the first one all others end."""
        process.ended, process.how, process.mourner = at, how, process.parent
        process.become("left" if process.pid in self.held else "ended", at, process.call())
        if process.pid == 1:
            self.leave(process, at)
        for other in self.processes.values():
            if other.pid != 1 and process.pid == 1 and other.ended is None:
                other.ended, other.how = at, "ends with p1"
                other.become("left" if other.pid in self.held else "ended", at, other.call())
            if other.ended is not None and not other.gone and (other.parent == process.pid or process.pid == 1):
                self.leave(other, at)
            if other.parent == process.pid:
                other.parent = 1

    def reap(self, process, how, at):
        if process.ended is None:
            self.end_process(process, how, self.kill_before(at, process))
        self.leave(process, at)

    def leave(self, process, at):
        """It is there no more; but what its call holds is held until the call is abandoned."""
        process.gone = at
        if process.state() != "left":
            process.become(None, at)

    def kill_before(self, number, process):
        last = process.spans[-1].start
        kills = [it.number for it in self.events[last:number - 1] if it.call == "kill" and it.reply == "0"]
        return kills[-1] if kills else number
