"""Runs a script by kres with other settings than it has, and tells what came of it: for ./need, ./hunt and ./shrink."""
import glob
import os
import re
import subprocess
import sys

from report import AT_BOOT, EVENTS, Run, read_event
from script import BadScript, Script

TOP = os.path.dirname(os.path.dirname(os.path.realpath(__file__)))
WRAPPER = os.path.join(TOP, "kres")
BUILT = [os.path.join(TOP, it) for it in ("crates/kres_cli/out/kres_cli", "out/kres_unproved")]
LEAST_HEAP, GREATEST_HEAP = 8192, 8388608
ENDED = (0, 3, 4, 5)  # the statuses of a run that came to an end: finished, starved, all asleep, its events used up
SIGKILL = 9


class NotRun(Exception):
    """The program ran no script: with which status it ended, or why it couldn't be started."""


class Source:
    """A script's text, whose settings can be given anew."""

    def __init__(self, text):
        self.text, self.script = text, Script(text)

    def with_line(self, slot, line):
        """The same script, where one setting is made by this line; seed and choices share the slot `chooser`."""
        lines = self.text.rstrip(b"\n").split(b"\n")
        if slot in self.script.where:
            lines[self.script.where[slot][0] - 1] = line.encode()
        else:
            # Behind all others, so that each keeps its number.
            lines.append(line.encode())
        return Source(b"\n".join(lines) + b"\n")

    def with_heap(self, heap):
        return self.with_line("heap", f"heap {heap}")

    def with_chooser(self, line):
        """The same script with this line of seed or choices; with an empty one the default is taken."""
        return self.with_line("chooser", line) if line or "chooser" in self.script.where else self


def built_program():
    """The program that ./kres runs: the first that no source is newer than; ./kres itself where there is none."""
    sources = [os.path.join(TOP, "crates.txt"), *glob.glob(os.path.join(TOP, "crates", "*", "src", "**"), recursive=True)]
    newest = max(os.path.getmtime(it) for it in sources)
    return next((it for it in BUILT if os.access(it, os.X_OK) and os.path.getmtime(it) >= newest), WRAPPER)


class Kres:
    """The program that is asked: ./kres, or another one, as the tests do. The first run is ./kres's own, which makes the
    program where there is none and says so; all others are without that wrapper, which takes longer than the run."""

    def __init__(self):
        self.program, self.is_first = os.environ.get("KRES", WRAPPER), True

    def report(self, text):
        """What `kres sim` reports of a script."""
        said = None if self.is_first else subprocess.DEVNULL
        try:
            ran = subprocess.run([self.program, "sim"], input=text, stdout=subprocess.PIPE, stderr=said)
        except OSError as fault:
            raise NotRun(f"{self.program}: {fault.strerror}") from None
        if ran.returncode not in ENDED:
            raise NotRun(f"kres ended with status {ran.returncode}")
        if self.is_first and self.program == WRAPPER:
            self.program = built_program()
        self.is_first = False
        return ran.stdout.decode(errors="replace")


KRES = Kres()


class Trial:
    """What came of one run: its report, and how often what happened. Who has to know the calls' operands asks `followed`."""

    def __init__(self, source):
        self.source = source
        self.report = KRES.report(source.text)
        end = self.report.rstrip("\n").rsplit("\n", 1)[-1]
        found = re.match(r"end (\w+)(?: \w+ need \d+)? events (\d+) charged \d+ peak (\d+)", end)
        if not found:
            raise NotRun("kres told no end of the run")
        self.how, self.events, self.peak = found[1], int(found[2]), int(found[3])
        self.kills = self.report.count(" killed for ")
        self.evictions = self.report.count(" evict ")
        self.refusals = self.report.count(" refused ")

    def followed(self):
        """The run by its parts, with what each call was in the script."""
        return Run(self.report, self.source.script)

    def does(self, kind):
        """Whether the run kills, starves or ends with all asleep."""
        return self.kills > 0 if kind == "kill" else self.how == kind


def killed_by_calls(trial):
    """Whom each `kill` by a process ended, by the number of its event."""
    if " done kill = 0 " not in trial.report:
        return {}
    calls = (call for process in trial.followed().processes.values() for call in process.calls)
    kills = (it for it in calls if it.name == "kill" and it.answer == "= 0" and it.said)
    return {it.over: it.said.operands[0] for it in kills if it.said.operands[1] == SIGKILL}


def waiting_after(trial):
    """After boot and after each event: what is charged, and the bounds of the calls that wait, by their processes."""
    ended, waiting = killed_by_calls(trial), {}
    yield 0, AT_BOOT, waiting
    for line in trial.report.splitlines()[:-1]:
        event = read_event(line, EVENTS)
        if event.word in ("ask", "wake"):
            waiting[event.pid] = event.bound
        elif event.word in ("admit", "killed"):
            waiting.pop(event.pid, None)
        elif event.word == "ended" and event.pid == 1:
            waiting.clear()
        waiting.pop(ended.get(event.number), None)
        yield event.number, event.charged, waiting


def demand_of(trial):
    """The most that a run asks of its heap at any time: what is charged, with the greatest bound that waits."""
    return max(charged + max(waiting.values(), default=0) for _, charged, waiting in waiting_after(trial))


def waits_of(trial, heap):
    """How many calls had to wait, and the event from which the first one did; None where none had to."""
    vain, count, first = set(), 0, None
    for number, charged, waiting in waiting_after(trial):
        now = {pid for pid, bound in waiting.items() if charged + bound > heap}
        count += len(now - vain)
        # Who waits goes on waiting until it is admitted or ends, also while there is room.
        vain = (vain | now) & set(waiting)
        first = first or (number if now else None)
    return count, first


def source_of(path, tool):
    """The script of a file. Where it is none, one line says so, and the status is 1."""
    try:
        with open(path, "rb") as file:
            return Source(file.read())
    except OSError as fault:
        say_and_end(tool, 1, f"{path}: {fault.strerror}")
    except BadScript as fault:
        say_and_end(tool, 1, f"{fault}; ./explain {path} tells more of it")


def say_and_end(tool, status, line):
    print(f"{tool}: {line}", file=sys.stderr)
    sys.exit(status)


def number_behind(tool, words, name, default, least, most):
    """The number behind a word, which is taken out of the words with it; the default where the word isn't there."""
    if name not in words:
        return default
    at = words.index(name)
    told = words[at + 1] if at + 1 < len(words) else ""
    if not re.fullmatch("0|[1-9][0-9]{0,9}", told) or not least <= int(told) <= most:
        say_and_end(tool, 2, f"behind {name} stands a number from {least} to {most}")
    del words[at:at + 2]
    return int(told)


def flag_among(words, name):
    """Whether a word is there; it is taken out."""
    is_there = name in words
    if is_there:
        words.remove(name)
    return is_there


def script_word(tool, words, usage):
    """The one word that is left, a script's path; else one line says what is wanted, and the status is 2."""
    if len(words) != 1 or words[0].startswith("-"):
        say_and_end(tool, 2, usage)
    return words[0]


def run_tool(tool, main):
    """Runs a command: 125 where kres couldn't be run, 130 at Ctrl-C."""
    try:
        main()
    except NotRun as fault:
        say_and_end(tool, 125, f"no run: {fault}")
