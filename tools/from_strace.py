#!/usr/bin/env python3
"""Makes a script of the calls of a real run: strace -f -o LOG COMMAND; tools/from_strace.py LOG > FILE.kres

Each process of the log makes the calls in the script that it made there, as far as there are such calls. The processes of a
program that was executed stand in a program of their own, and a fork is where it was; in which order they go on is left to the
script. What the script can't have stands in its first lines, as comment: calls that were left out, by their names, and what was
changed. Then ./need tells how much kernel heap such a run takes.

The script begins with what the run found: the directories and files that it opened without making them, as long as it read
them, and the descriptors 0 to 2, which are one file. What is read and written are zeros, from and to one buffer.
"""
import os
import re
import sys
from collections import Counter, namedtuple
from dataclasses import dataclass, replace

sys.dont_write_bytecode = True
sys.path.insert(0, os.path.dirname(os.path.realpath(__file__)))
from language import CONSTANTS
from terminal import run as run_command

Made = namedtuple("Made", "name args result")
BUFFER = 4096  # where the buffer lies, the first that a process maps
MOST_COUNT, MOST_FILE, MOST_MEMORY = 32767, 200000, 262144
MOST_DESCRIPTORS = 32
LONGEST_NAME = 27
FLAGS = set(CONSTANTS["FLAGS"])
SAME = {"getpid": False, "getppid": False, "sched_yield": False, "listen": True}  # whether a descriptor stands behind it
FORKS = ("fork", "vfork", "clone", "clone3")
AT_PATHS = {"openat": "open", "mkdirat": "mkdir", "mknodat": "mknod", "newfstatat": "stat", "unlinkat": "unlink"}
PAIRS_AT = {"renameat": "rename", "renameat2": "rename", "linkat": "link"}
LOCK_CALLS = {"F_SETLK": "setlk", "F_SETLKW": "setlkw"}
LOCK = re.compile(r"\{l_type=(F_\w+), l_whence=SEEK_SET, l_start=(\d+), l_len=(\d+)")
RENAMED = {"lstat": "stat", "pread64": "pread", "pwrite64": "pwrite", "getdents64": "readdir", "accept4": "accept",
           "exit_group": "exit", "wait4": "waitpid", "dup3": "dup2", "pipe2": "pipe", "sendto": "write", "recvfrom": "read"}


# The log


def parts_of(text):
    """The arguments of a call: what commas part, but for those in quotes and brackets."""
    parts, depth, start = [], 0, 0
    for found in re.finditer(r'"(?:\\.|[^"\\])*"|[\[{(]|[\]})]|,', text):
        sign = found.group()
        depth += (sign in "[{(") - (sign in "]})") if len(sign) == 1 else 0
        if sign == "," and depth == 0:
            parts.append(text[start:found.start()].strip())
            start = found.end()
    rest = text[start:].strip()
    return parts + [rest] if rest else parts


def calls_in(lines):
    """The calls of a log in the order in which they ended, each with its process; also how processes ended."""
    begun = {}
    for line in lines:
        found = re.match(r"(?:\[pid\s+)?(\d+)\]?\s+(?:[\d:.]+\s+)?(.*)", line)
        if not found:
            continue
        pid, text = int(found[1]), found[2]
        if text.endswith("<unfinished ...>"):
            begun[pid] = text.removesuffix("<unfinished ...>").rstrip()
            continue
        resumed = re.match(r"<\.\.\. \w+ resumed>(.*)", text)
        text = begun.pop(pid, "") + resumed[1] if resumed else text
        call = re.match(r"(\w+)\((.*)\)\s+= (-?\d+|0x[0-9a-f]+|\?)", text)
        if call:
            yield pid, Made(call[1], parts_of(call[2]), int(call[3], 0) if call[3] != "?" else 0)


def number(word):
    """The number that a word is; of a flag or an octal one 0."""
    return int(word, 0) if re.fullmatch(r"-?(0x[0-9a-f]+|[1-9]\d*|0)", word) else 0


def path_in(word):
    """The path that stands in quotes, each of its names at most as long as one may be."""
    text = re.match(r'"((?:\\.|[^"\\])*)"', word)
    return "/".join(it[:LONGEST_NAME] for it in text[1].split("/"))[:255] if text else None


# The script


class Work:
    """What the processes of one program do: its lines, and those of children that stand behind them."""

    def __init__(self, name):
        self.name, self.lines, self.behind = name, [], []

    def text(self):
        return [f"program {self.name}", *self.lines, "end"]


@dataclass(frozen=True)
class Open:
    """A descriptor: its number in the script, what it is open on, and whether an exec closes it."""

    number: int
    what: str
    cloexec: bool = False


class Actor:
    """A process: the program in which it is, its lines there, its descriptors by their numbers in the log, and the registers
    that have its children's pids."""

    def __init__(self, work, files):
        self.work, self.lines = work, []
        self.files, self.registers = dict(files), {}
        self.ended = False

    def say(self, line):
        self.lines.append(line)

    def opens(self, fd, what, cloexec=False, least=0):
        """A descriptor of the log is open from now on. In the script it has the lowest number that is free."""
        self.files.pop(fd, None)
        taken = {it.number for it in self.files.values()}
        self.files[fd] = Open(next(it for it in range(least, 1024) if it not in taken), what, cloexec)

    def number(self, fd):
        """The number in the script; None where the script has no such descriptor."""
        opened = self.files.get(fd)
        return opened.number if opened and opened.what != "other" and opened.number < MOST_DESCRIPTORS else None

    def what(self, fd):
        return self.files[fd].what if fd in self.files else None


class Translation:
    def __init__(self, lines):
        self.left_out, self.notes = Counter(), Counter()
        self.found, self.dirs, self.made = {}, set(), set()
        self.works, self.actors, self.threads = [Work("init")], {}, set()
        self.largest = 64
        for pid, call in calls_in(lines):
            self.take(pid, call)

    def actor(self, pid):
        if not self.actors:
            self.actors[pid] = Actor(self.works[0], {fd: Open(fd, "tty") for fd in range(3)})
            self.works[0].behind.append((None, self.actors[pid]))
        return self.actors.get(pid)

    def take(self, pid, call):
        is_first = not self.actors
        actor = self.actor(pid)
        if pid in self.threads or actor is None or actor.ended:
            self.left_out[f"{call.name} of a thread" if pid in self.threads else call.name] += 1
        elif call.name == "execve" and is_first:
            return
        elif not self.said(actor, pid, call):
            self.left_out[call.name] += 1

    def said(self, actor, pid, call):
        """Says a call in the script; whether there is such a call."""
        name = RENAMED.get(call.name, call.name)
        if name in FORKS:
            return self.fork(actor, call)
        if name in AT_PATHS or name in PAIRS_AT:
            return self.at_path(actor, call)
        if name in SAME:
            return self.say_by(actor, name, call.args) if SAME[name] else actor.say(name) or True
        do = getattr(self, f"say_{name}", None)
        return do(actor, call.args, call.result) if do else False

    def say_by(self, actor, name, args, behind=""):
        """A call by a descriptor, where the script has that one."""
        fd = actor.number(number(args[0]))
        if fd is None:
            return False
        actor.say(f"{name} {fd} {behind}".rstrip())
        return True

    # Processes

    def fork(self, actor, call):
        if "CLONE_THREAD" in " ".join(call.args):
            self.threads.add(call.result)
            return False
        if call.result <= 0:
            return False
        register = f"r{len(actor.work.behind) % 14 + 1}"
        label = f"child{len(actor.work.behind)}"
        actor.say(f"{register} = fork")
        actor.say(f"if {register} == 0 {label}")
        child = Actor(actor.work, actor.files)
        actor.registers[call.result] = register
        actor.work.behind.append((label, child))
        self.actors[call.result] = child
        return True

    def say_execve(self, actor, args, result):
        if result != 0:
            return False
        base = re.sub(r"[^a-z0-9_]", "_", os.path.basename(path_in(args[0]) or "program").lower())[:20]
        name = f"{base if base[:1].isalpha() else 'p' + base}{len(self.works)}"
        work = Work(name)
        self.works.append(work)
        actor.say(f'exec "/{name}"')
        actor.say("exit 127")
        again = Actor(work, {fd: it for fd, it in actor.files.items() if not it.cloexec})
        again.registers = actor.registers
        actor.ended = True
        for pid, it in self.actors.items():
            if it is actor:
                self.actors[pid] = again
        work.behind.append((None, again))
        return True

    def say_exit(self, actor, args, result):
        actor.say(f"exit {number(args[0])}")
        actor.ended = True
        return True

    def say_waitpid(self, actor, args, result):
        who = actor.registers.get(number(args[0]), "-1")
        actor.say(f"waitpid {who} {'WNOHANG' if 'WNOHANG' in args[2] else 0}")
        return True

    def say_kill(self, actor, args, result):
        if number(args[0]) not in actor.registers or args[1] not in ("SIGKILL", "0"):
            return False
        actor.say(f"kill {actor.registers[number(args[0])]} {args[1]}")
        return True

    # Memory

    def say_mmap(self, actor, args, result):
        if "MAP_ANONYMOUS" not in args[3] or "MAP_FIXED" in args[3] or number(args[1]) > MOST_MEMORY:
            return False
        actor.say(f"mmap {number(args[1])}")
        return True

    # Descriptors

    def say_close(self, actor, args, result):
        said = self.say_by(actor, "close", args)
        actor.files.pop(number(args[0]), None)
        return said

    def shares(self, actor, line, old, new, least=0, cloexec=False):
        """Says a call by which another descriptor of the log is open on the same."""
        actor.opens(new, actor.what(old), cloexec, least)
        actor.say(line)
        if cloexec:
            actor.say(f"fcntl {actor.number(new)} F_SETFD FD_CLOEXEC")
        return True

    def say_dup(self, actor, args, result):
        old = number(args[0])
        return actor.number(old) is not None and result >= 0 and self.shares(actor, f"dup {actor.number(old)}", old, result)

    def say_dup2(self, actor, args, result):
        old, new = number(args[0]), number(args[1])
        if actor.number(old) is None or result < 0:
            return False
        taken = {it.number for it in actor.files.values()}
        to = actor.number(new) if new in actor.files else next(it for it in [new, *range(1024)] if it not in taken)
        if to is None or to >= MOST_DESCRIPTORS:
            return False
        line = f"dup2 {actor.number(old)} {to}"
        return self.shares(actor, line, old, new, to) if old != new else actor.say(line) or True

    def say_fcntl(self, actor, args, result):
        if args[1] in LOCK_CALLS:
            return self.say_lock(actor, args)
        fd, command = number(args[0]), args[1].replace("F_DUPFD_CLOEXEC", "F_DUPFD")
        if command not in CONSTANTS["COMMAND"] or actor.number(fd) is None:
            return False
        if command == "F_DUPFD":
            least = min(number(args[2]), MOST_DESCRIPTORS - 1)
            line = f"fcntl {actor.number(fd)} F_DUPFD {least}"
            return result >= 0 and self.shares(actor, line, fd, result, least, args[1] != command)
        argument = "|".join(it for it in args[2].split("|") if it in FLAGS | {"FD_CLOEXEC"}) if len(args) > 2 else ""
        if command == "F_SETFD":
            actor.files[fd] = replace(actor.files[fd], cloexec=argument == "FD_CLOEXEC")
        return self.say_by(actor, "fcntl", args, f"{command} {argument or 0}")

    def say_lock(self, actor, args):
        """A range that is counted from the file's beginning."""
        found = LOCK.match(args[2])
        return bool(found) and self.say_by(actor, LOCK_CALLS[args[1]], args, " ".join(found.groups()))

    def say_two(self, actor, name, told, more):
        """A call that opens two descriptors."""
        found = re.match(r"\[(\d+), (\d+)\]", told)
        if not found:
            return False
        actor.say(name)
        for fd in map(int, found.groups()):
            actor.opens(fd, name, "CLOEXEC" in more)
            if "CLOEXEC" in more:
                actor.say(f"fcntl {actor.number(fd)} F_SETFD FD_CLOEXEC")
        return True

    def say_pipe(self, actor, args, result):
        return self.say_two(actor, "pipe", args[0], "".join(args[1:]))

    def moved(self, actor, name, args, result, place=""):
        count = min(number(args[2]), MOST_COUNT)
        if count < number(args[2]):
            self.notes[f"counts above {MOST_COUNT} are {MOST_COUNT}"] += 1
        self.largest = max(self.largest, count)
        return self.say_by(actor, name, args, f"{BUFFER} {count} {place}")

    def reaches(self, actor, fd, end):
        """What was found and is read has to be that long."""
        path = actor.what(fd)
        if path in self.found:
            self.found[path] = min(MOST_FILE, max(self.found[path], end))

    def say_read(self, actor, args, result):
        path = actor.what(number(args[0]))
        if path in self.found and result > 0:
            self.found[path] = min(MOST_FILE, self.found[path] + result)
        return self.moved(actor, "read", args, result)

    def say_pread(self, actor, args, result):
        self.reaches(actor, number(args[0]), number(args[3]) + max(result, 0))
        return self.moved(actor, "pread", args, result, number(args[3]))

    def say_write(self, actor, args, result):
        return self.moved(actor, "write", args, result)

    def say_pwrite(self, actor, args, result):
        return self.moved(actor, "pwrite", args, result, number(args[3]))

    def say_readdir(self, actor, args, result):
        return self.moved(actor, "readdir", args, result)

    def say_lseek(self, actor, args, result):
        return args[2] in CONSTANTS["WHENCE"] and self.say_by(actor, "lseek", args, f"{number(args[1])} {args[2]}")

    def say_ftruncate(self, actor, args, result):
        return self.say_by(actor, "ftruncate", args, number(args[1]))

    def say_fstat(self, actor, args, result):
        return self.say_by(actor, "fstat", args)

    def say_poll(self, actor, args, result):
        pairs = re.findall(r"\{fd=(\d+), events=([A-Z|]+)", args[0])[:8]
        events = set(CONSTANTS["EVENTS"])
        known = [(actor.number(int(fd)), "|".join(it for it in asked.split("|") if it in events) or "0") for fd, asked in pairs]
        words = " ".join(f"{fd} {asked}" for fd, asked in known if fd is not None)
        if number(args[2]) > 0:
            self.notes["a poll with a time waits for ever"] += 1
        actor.say(f"poll {-1 if number(args[2]) else 0} {words}".rstrip())
        return True

    # Sockets

    def say_socket(self, actor, args, result):
        if result < 0:
            return False
        is_ours = args[0] in ("AF_UNIX", "AF_LOCAL") and args[1].startswith("SOCK_STREAM")
        actor.opens(result, "socket" if is_ours else "other", "CLOEXEC" in args[1])
        # What isn't there has its number all the same, so that all further ones are as they were.
        actor.say("socket" if is_ours else "dup 0")
        return is_ours

    def say_socketpair(self, actor, args, result):
        return self.say_two(actor, "socketpair", args[3], args[1])

    def named(self, actor, name, args):
        path = re.search(r'sun_path=("(?:\\.|[^"\\])*")', args[1])
        if not path or actor.number(number(args[0])) is None:
            return False
        self.need_directories(path_in(path[1]))
        return self.say_by(actor, name, args, f'"{path_in(path[1])}"')

    def say_bind(self, actor, args, result):
        return self.named(actor, "bind", args)

    def say_connect(self, actor, args, result):
        return self.named(actor, "connect", args)

    def say_accept(self, actor, args, result):
        if result < 0 or not self.say_by(actor, "accept", args):
            return False
        actor.opens(result, "socket", "CLOEXEC" in "".join(args[3:]))
        return True

    def say_shutdown(self, actor, args, result):
        return args[1] in CONSTANTS["HOW"] and self.say_by(actor, "shutdown", args, args[1])

    # Paths

    def at_path(self, actor, call):
        """A call by a path, which begins at the working directory."""
        if call.name in PAIRS_AT:
            old, new = path_in(call.args[1]), path_in(call.args[3])
            return self.two_paths(actor, PAIRS_AT[call.name], old, new)
        if call.name == "newfstatat" and path_in(call.args[1]) == "":
            return self.say_fstat(actor, call.args, call.result)
        if call.args[0] != "AT_FDCWD":
            return False
        if call.name == "unlinkat" and "AT_REMOVEDIR" in call.args[2]:
            return self.one_path(actor, "rmdir", path_in(call.args[1]))
        return getattr(self, f"say_{AT_PATHS[call.name]}")(actor, call.args[1:], call.result)

    def say_open(self, actor, args, result):
        path, flags = path_in(args[0]), [it for it in args[1].split("|") if it in FLAGS]
        if not path:
            return False
        if result >= 0:
            self.there(path, "O_DIRECTORY" in args[1], "O_CREAT" in flags)
            actor.opens(result, path, "O_CLOEXEC" in flags)
        actor.say(f'open "{path}" {"|".join(flags) or "O_RDONLY"}')
        return True

    def say_stat(self, actor, args, result):
        path = path_in(args[0])
        if path and result == 0:
            self.there(path, "S_IFDIR" in args[1])
        return self.one_path(actor, "stat", path)

    def say_chdir(self, actor, args, result):
        self.there(path_in(args[0]), True)
        return self.one_path(actor, "chdir", path_in(args[0]))

    def say_mkdir(self, actor, args, result):
        self.made.add(path_in(args[0]))
        return self.one_path(actor, "mkdir", path_in(args[0]))

    def say_mknod(self, actor, args, result):
        if "S_IFIFO" not in args[1]:
            return False
        self.made.add(path_in(args[0]))
        return self.one_path(actor, "mkfifo", path_in(args[0]))

    def say_rmdir(self, actor, args, result):
        return self.one_path(actor, "rmdir", path_in(args[0]))

    def say_unlink(self, actor, args, result):
        return self.one_path(actor, "unlink", path_in(args[0]))

    def say_rename(self, actor, args, result):
        return self.two_paths(actor, "rename", path_in(args[0]), path_in(args[1]))

    def say_link(self, actor, args, result):
        return self.two_paths(actor, "link", path_in(args[0]), path_in(args[1]))

    def one_path(self, actor, name, path):
        if not path:
            return False
        actor.say(f'{name} "{path}"')
        return True

    def two_paths(self, actor, name, old, new):
        if not old or not new:
            return False
        actor.say(f'{name} "{old}" "{new}"')
        return True

    def there(self, path, is_directory=False, is_made=False):
        """What the run found: the directories on the way to a path, and what is at its end, where nobody has made it before."""
        if not path:
            return
        self.need_directories(path)
        if is_made:
            self.made.add(path)
        elif path not in self.made and is_directory:
            self.dirs.add(path)
        elif path not in self.made:
            self.found.setdefault(path, 0)

    def need_directories(self, path):
        names = [it for it in path.split("/")[:-1] if it]
        lead = "/" if path.startswith("/") else ""
        self.dirs.update(lead + "/".join(names[:at]) for at in range(1, len(names) + 1))

    # The whole

    def beginning(self):
        """The lines that make what the run found."""
        yield f"mmap {self.buffer()}"
        yield 'open "/tty" O_RDWR|O_CREAT'
        yield "dup 0"
        yield "dup 0"
        for path in sorted(it for it in self.dirs if it.strip("/.")):
            yield f'mkdir "{path}"'
        for path, size in sorted(self.found.items()):
            if path not in self.dirs and path.strip("/."):
                yield f'open "{path}" O_WRONLY|O_CREAT'
                yield from (f"write 3 {BUFFER} {min(MOST_COUNT, size - at)}" for at in range(0, size, MOST_COUNT))
                yield "close 3"
        for work in self.works[1:]:
            yield f'open "/{work.name}" O_WRONLY|O_CREAT'
            yield f'store {BUFFER} "#!{work.name}\\n"'
            yield f"write 3 {BUFFER} {len(work.name) + 3}"
            yield "close 3"

    def buffer(self):
        return max(self.largest, *(min(it, MOST_COUNT) for it in self.found.values()), 64)

    def text(self):
        for work in self.works:
            mapped = [f"mmap {self.buffer()}"] if work is not self.works[0] else list(self.beginning())
            for place, (label, actor) in enumerate(work.behind):
                work.lines += [f"label {label}"] if label else []
                work.lines += (mapped if place == 0 else []) + actor.lines
                work.lines += [] if actor.ended else ["exit 0"]
        told = ", ".join(f"{name} {count}" for name, count in sorted(self.left_out.items()))
        yield f"# Left out: {told or 'nothing'}."
        for note in self.notes:
            yield f"# Changed: {note}."
        yield from ("heap 8388608", "disk 4096", "steps 100000")
        for work in self.works:
            yield from work.text()


def main():
    words = sys.argv[1:]
    if len(words) != 1 or words[0].startswith("-"):
        print("from_strace: tools/from_strace.py LOG, which `strace -f -o LOG COMMAND` writes", file=sys.stderr)
        sys.exit(2)
    try:
        with open(words[0], encoding="utf-8", errors="replace") as log:
            translation = Translation(log)
    except OSError as fault:
        sys.exit(f"from_strace: {words[0]}: {fault.strerror}")
    if not translation.actors:
        sys.exit(f"from_strace: {words[0]} has no call in it: it wants what `strace -f -o LOG COMMAND` writes")
    for line in translation.text():
        print(line)


if __name__ == "__main__":
    run_command(main)
