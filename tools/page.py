"""Makes a page of a run: one HTML file with the picture, the report's lines, and what is so after each event."""
import json
import os
import re
from html import escape

from report import KEPT_BACK

TEMPLATE = os.path.join(os.path.dirname(os.path.realpath(__file__)), "page.html")
# The colours of a picture, and what stands for each of them on a dark page.
DARK = {
    "#ffffff": "#15191d", "#1f2933": "#e6e9ec", "#66727f": "#9aa6b2", "#e3e8ee": "#2a3138", "#d5dbe1": "#3a434c",
    "#a9d5cb": "#2f5f55", "#fff6df": "#3a3016", "#dbe6f8": "#1f2f4a", "#2f6fd0": "#5b93ea", "#cf3a3a": "#ff7b72",
    "#6a4fb3": "#b59cf0", "#8a96a3": "#8a96a3",
}
TEXTS = {"text": "#e6e9ec", ".said": "#b9c2cb", ".number": "#9aa6b2", ".red": "#ff7b72", ".went": "#7fcdbb"}
CACHED = {"name": "a name", "block": "a block", "vnode": "an inode"}
# What the kinds of events mean; the call is named where {} stands.
HAPPENS = {
    "ask": "{} is asked for, and waits for room",
    "admit": "{} is admitted: it holds what it may take",
    "wake": "{} goes on after its sleep, and waits for room",
    "sleep": "{} would block, so it sleeps, and holds nothing",
    "part": "{} has done a part, and sleeps",
    "done": "{} is over",
    "gone": "{} had its turn when its process was ended already",
}


def dark_rules():
    """The rules that give a picture the colours of a dark page."""
    rules = [f'  svg [{part}="{light}"] {{ {part}: {dark}; }}' for light, dark in DARK.items() for part in ("fill", "stroke")]
    rules += [f"  svg {name if name == 'text' else f'text{name}'} {{ fill: {colour}; }}" for name, colour in TEXTS.items()]
    return "\n".join([*rules, f"  svg text.halo {{ stroke: {DARK['#ffffff']}; }}"])


class Page:
    """The page of the events that a picture draws."""

    def __init__(self, picture):
        self.picture, self.run, self.told = picture, picture.run, picture.told
        self.states = {number: [] for number in range(picture.first - 1, picture.last + 1)}
        for process in self.run.processes.values():
            for span in process.spans:
                for number in range(max(span.start, picture.first - 1), min(span.end, picture.last + 1)):
                    self.states[number].append((process.pid, span))
        self.woken = {it.wake: it for it in picture.wakings}
        calls = [call for process in self.run.processes.values() for call in process.calls]
        self.calls = {number: call for call in calls for number in self.numbers(call)}

    def numbers(self, call):
        """The events at which a call is spoken of."""
        return [call.asked, call.over, *call.admitted, *call.slept, *call.woken, *(at for at, _ in call.parts)]

    def text(self):
        picture = self.picture.draw()
        lanes = [[it.pid, self.picture.middle(it) - self.picture.lane / 2, self.picture.lane] for it in self.picture.lanes]
        place = {
            "left": self.picture.x(self.picture.first - 1), "step": self.picture.step, "first": self.picture.first,
            "top": self.picture.lanes_top - 4, "bottom": self.picture.bottom, "width": self.picture.width, "lanes": lanes,
        }
        data = {
            "place": place,
            "events": [self.event(it) for it in self.run.events[self.picture.first - 1:self.picture.last]],
            "end": self.run.lines[-1],
        }
        with open(TEMPLATE, encoding="utf-8") as file:
            page = file.read()
        # What stands in a script mustn't end it.
        filled = {"title": escape(self.told.title), "dark": dark_rules(), "picture": picture,
                  "data": json.dumps(data, ensure_ascii=False).replace("<", "\\u003c")}
        return re.sub(r"\{\{(\w+)\}\}", lambda found: filled[found[1]], page)

    def event(self, event):
        """What is told of an event."""
        call = self.calls.get(event.number)
        said = call.said if call and call.name != "killed" else None
        return {
            "number": event.number, "line": self.run.lines[event.number - 1], "pids": self.pids(event),
            "kinds": self.kinds(event), "happens": self.happens(event, call),
            "call": call.text() if call and call.name != "killed" else None,
            "statement": [said.line, self.told.script.lines[said.line - 1].strip()] if said else None,
            "charge": self.charge(event.number), "waits": self.waits(event.number), "sleeps": self.sleeps(event.number),
        }

    def pids(self, event):
        """Whose event it is; what is evicted is so for who waits."""
        waiter = self.first_in_vain(event.number - 1)[0] if event.word == "evict" else event.waiter
        return [it for it in (event.pid, waiter) if it is not None]

    def kinds(self, event):
        is_error = event.word == "done" and event.reply.startswith("E")
        found = {"kill": event.word == "killed", "refusal": event.word == "refused", "eviction": event.word == "evict",
                 "error": is_error, "sleep": event.word in ("sleep", "part")}
        return [name for name, is_so in found.items() if is_so]

    def first_in_vain(self, number):
        """The lowest process whose call waits after an event and doesn't fit, and what that call may take."""
        waiting = sorted((pid, span.call.bound) for pid, span in self.states.get(number, []) if span.state == "waiting")
        return next((it for it in waiting if self.missing(number, it[1]) > 0), (None, None))

    def missing(self, number, bound):
        return self.run.charged(number) + bound - self.told.heap

    def happens(self, event, call):
        """What an event is, in words: what goes, and for whom; who woke whom."""
        if event.word == "evict":
            return [self.evicted(event)]
        who = f"p{event.pid}"
        if event.word == "killed":
            need = f"for p{event.waiter}, whose call needs" if event.waiter != event.pid else "since its own call needs"
            return [f"{who} is killed {need} {event.bound}; {event.live} bytes were live"]
        if event.word == "refused":
            return [f"{who} is told ENOMEM: {event.call} may take {event.bound}, which the heap can never give"]
        if event.word == "ended":
            return [f"{who} has ended: {event.reply}"]
        if event.word == "abandon":
            return [f"{who} was ended while its {event.call} was admitted; what that held is given back"]
        answer = f" with the answer {event.reply}" if event.word == "done" else ""
        told = [f"{who}: " + HAPPENS[event.word].format(event.call) + answer]
        waking = self.woken.get(event.number)
        return told + ([f"p{waking.waker} woke it at {waking.cause}"] if waking else [])

    def evicted(self, event):
        what = f"{CACHED[event.call]} goes from its cache"
        if self.run.is_threads:
            return what
        what += f", {self.run.charged(event.number - 1) - event.charged} bytes"
        pid, bound = self.first_in_vain(event.number - 1)
        if pid is None:
            return f"{what}, for nobody: no call waited in vain, and the choice fell on it"
        return f"{what}, for p{pid}, whose call needs {bound}"

    def charge(self, number):
        """What is charged after an event, part by part, and what is left of the heap."""
        if self.run.is_threads:
            return []
        held = [[f"held by p{pid}, {span.call.name}", span.call.bound, ""] for pid, span in self.states[number]
                if span.state in ("admitted", "left") and span.call.bound]
        charged = self.run.charged(number)
        return [["live objects", self.run.live(number), ""], ["kept back", KEPT_BACK, ""], *held, ["charged", charged, "sum"],
                ["left of the heap", self.told.heap - charged, ""]]

    def waits(self, number):
        told = []
        for pid, span in sorted(self.states[number], key=lambda it: it[0]):
            if span.state == "waiting":
                missing = self.missing(number, span.call.bound)
                why = f"{missing} are missing" if missing > 0 else "there is room"
                told.append(f"p{pid}, {span.call.name}: {span.call.bound} bytes; {why}")
        return told

    def sleeps(self, number):
        return [f"p{pid}, {span.call.text()}" for pid, span in sorted(self.states[number], key=lambda it: it[0])
                if span.state == "asleep"]
