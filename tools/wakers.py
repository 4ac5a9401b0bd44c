"""Finds out who woke whom in a run: at which event a call that slept could go on, and whose event that was.

A report says that a process was woken, and not by whom. With the script it is known what each call was, so pipes, sockets, locks
and children can be followed: which descriptors lead to them, how many bytes wait in them, who holds which places, who has ended.
A call that sleeps could go on from the event on at which it would block no longer; of one that waits for a lock that is so too where
it is refused, since the next call of another closes a circle.
"""
from collections import deque, namedtuple
from dataclasses import dataclass, field

CAPACITY = 4096  # bytes of a pipe, and of each way of a connection
WHOLE = 512  # a write to a pipe of so many bytes goes whole or not at all
NONBLOCK, CLOEXEC = 2048, 524288
F_DUPFD, F_SETFD, F_SETFL = 0, 2, 4
POLLIN, POLLOUT = 1, 4
F_WRLCK, F_UNLCK = 1, 2
LAST_PLACE = 2 ** 63 - 1
REFUSED = ("= EINVAL", "= EBADF", "= EOVERFLOW")  # what is told of a lock that nobody waits for
READS, WRITES = False, True  # the sides of a pipe

Woken = namedtuple("Woken", "waker woken cause wake")  # the pids, and the events


@dataclass(eq=False)
class Pipe:
    """Of both sides, which may read and which may write: its ends, and how often it was opened so far."""

    unread: int = 0
    ends: list = field(default_factory=lambda: [0, 0])
    opens: list = field(default_factory=lambda: [0, 0])

    def open_side(self, writes):
        self.ends[writes] += 1
        self.opens[writes] += 1

    def close_side(self, writes):
        self.ends[writes] -= 1
        if not self.ends[READS]:
            self.unread = 0


@dataclass(eq=False)
class Socket:
    """Its peer is None until it is connected; the queue holds the peers of those that wait to be accepted."""

    unread: int = 0
    peer: object = None
    is_open: bool = True
    no_reading: bool = False
    no_writing: bool = False
    listens: bool = False
    queue: list = field(default_factory=list)


@dataclass(eq=False)
class File:
    """The ranges that processes hold of a file, by their pids: of each the first place, the last one and the kind."""

    held: dict = field(default_factory=dict)

    def set(self, pid, start, last, kind):
        """At each of these places the process has this kind from now on, elsewhere what it had."""
        pieces = [(left, right, its) for first, end, its in self.held.get(pid, [])
                  for left, right in ((first, min(end, start - 1)), (max(first, last + 1), end)) if left <= right]
        self.held[pid] = pieces + [(start, last, kind)] * (kind != F_UNLCK)

    def in_way(self, pid, start, last, kind):
        """The other processes that hold what doesn't go with this."""
        return {other for other, ranges in self.held.items() if other != pid and kind != F_UNLCK
                for first, end, its in ranges if first <= last and start <= end and F_WRLCK in (kind, its)}


def asked_of(operands):
    """What a call on locks asks for: the first place, the last one, and the kind."""
    _, kind, start, length = operands
    return start, start + length - 1 if length else LAST_PLACE, kind


@dataclass(eq=False)
class Description:
    """An open description: what it is open on (None: nothing that is followed), for a pipe on which side, whether calls on it may
    not wait, and how many descriptors name it."""

    on: object = None
    writes: bool = False
    no_waiting: bool = False
    count: int = 0


class Table:
    """The descriptors of a process, and those that an `exec` closes."""

    def __init__(self, pid, numbers=None, marked=()):
        self.pid, self.numbers, self.marked = pid, {}, set(marked)
        for number, description in (numbers or {}).items():
            self.put(number, description)

    def put(self, number, description):
        self.numbers[number] = description
        description.count += 1
        if isinstance(description.on, Pipe) and description.count == 1:
            description.on.open_side(description.writes)

    def drop(self, number):
        description = self.numbers.pop(number, None)
        self.marked.discard(number)
        if description is None:
            return
        if isinstance(description.on, File):
            description.on.held.pop(self.pid, None)
        description.count -= 1
        if description.count == 0:
            close(description)

    def copy(self, pid):
        return Table(pid, self.numbers, self.marked)

    def on(self, number):
        return self.numbers[number].on if number in self.numbers else None

    def free_number(self):
        return next(it for it in range(len(self.numbers) + 1) if it not in self.numbers)


def close(description):
    """The last descriptor of a description is gone."""
    if isinstance(description.on, Pipe):
        description.on.close_side(description.writes)
    elif isinstance(description.on, Socket):
        description.on.is_open = False
        for waiting in description.on.queue:
            waiting.is_open = False


class Streams:
    """The descriptors of all processes as a run goes on."""

    def __init__(self, run):
        self.run = run
        self.tables = {1: Table(1)}
        self.named, self.nodes = {}, {}
        # Who sleeps in an open: the FIFO, its other side, and how often that was opened before.
        self.opening = {}
        processes = run.processes.values()
        calls = [call for process in processes for call in process.calls if call.said]
        # The call that an event is over with, or has done a part of; who ends at it; and who was left without a child.
        self.calls = {number: call for call in calls for number in [call.over, *(at for at, _ in call.parts)]}
        self.made = {process.pid: deque(it for it in process.calls if it.said) for process in processes}
        self.ending, self.children = {}, {}
        for process in processes:
            self.ending.setdefault(process.ended, []).append(process.pid)
            self.children.setdefault(process.mourner, []).append(process)

    def take(self, event):
        """What an event changes."""
        call = self.calls.get(event.number)
        made = event.word == "done" and getattr(self, f"did_{event.call}", None)
        if call and event.word == "part" and call.name == "open":
            self.began_to_open(event.pid, call.said.operands)
        elif call and event.word == "part":
            self.moved(event, int(event.reply))
        elif call and made and not call.is_error():
            made(self.tables[event.pid], call.said.operands, event)
        for pid in self.ending.get(event.number, []):
            table = self.tables.pop(pid, Table(pid))
            for number in sorted(table.numbers):
                table.drop(number)

    def did_pipe(self, table, operands, event):
        pipe = Pipe()
        for number, writes in zip(map(int, event.reply.split()), (False, True)):
            table.put(number, Description(pipe, writes))

    def did_socketpair(self, table, operands, event):
        pair = Socket(), Socket()
        pair[0].peer, pair[1].peer = pair[1], pair[0]
        for number, socket in zip(map(int, event.reply.split()), pair):
            table.put(number, Description(socket))

    def did_socket(self, table, operands, event):
        table.put(int(event.reply), Description(Socket()))

    def did_mkfifo(self, table, operands, event):
        self.nodes[operands[0]] = Pipe()

    def began_to_open(self, pid, operands):
        """It has its end of a FIFO, and sleeps until the other side is opened. Where a path leads by which none was made isn't known."""
        table, node = self.tables[pid], self.nodes.get(operands[0])
        self.put_opened(table, table.free_number(), operands)
        other = not operands[1] & 1
        self.opening[pid] = (node, other, node.opens[other]) if isinstance(node, Pipe) else None

    def put_opened(self, table, number, operands):
        node = self.nodes.setdefault(operands[0], File())
        table.put(number, Description(node, bool(operands[1] & 1), isinstance(node, Pipe) and bool(operands[1] & NONBLOCK)))
        if operands[1] & CLOEXEC:
            table.marked.add(number)

    def did_open(self, table, operands, event):
        if event.pid in self.opening:
            del self.opening[event.pid]
        else:
            self.put_opened(table, int(event.reply), operands)

    def did_unlink(self, table, operands, event):
        self.nodes.pop(operands[0], None)

    def did_link(self, table, operands, event):
        """Two paths are known as those of one node where they are written as here."""
        self.nodes[operands[1]] = self.nodes.setdefault(operands[0], File())

    def did_rename(self, table, operands, event):
        if self.nodes.get(operands[0], event) is not self.nodes.get(operands[1]):
            self.did_link(table, operands, event)
            self.did_unlink(table, operands, event)

    def did_setlk(self, table, operands, event):
        on = table.on(operands[0])
        if isinstance(on, File):
            on.set(table.pid, *asked_of(operands))

    did_setlkw = did_setlk

    def did_dup(self, table, operands, event):
        table.put(int(event.reply), table.numbers[operands[0]])

    def did_dup2(self, table, operands, event):
        if operands[0] != operands[1]:
            description = table.numbers[operands[0]]
            table.drop(operands[1])
            table.put(operands[1], description)

    def did_fcntl(self, table, operands, event):
        if operands[1] == F_DUPFD:
            self.did_dup(table, operands, event)
        elif operands[1] == F_SETFD:
            (table.marked.add if operands[2] & 1 else table.marked.discard)(operands[0])
        elif operands[1] == F_SETFL:
            table.numbers[operands[0]].no_waiting = bool(operands[2] & NONBLOCK)

    def did_close(self, table, operands, event):
        table.drop(operands[0])

    def did_exec(self, table, operands, event):
        for number in sorted(table.marked):
            table.drop(number)

    def did_fork(self, table, operands, event):
        self.tables[int(event.reply)] = table.copy(int(event.reply))

    def did_bind(self, table, operands, event):
        self.named[operands[1]] = table.on(operands[0])

    def did_listen(self, table, operands, event):
        table.on(operands[0]).listens = True

    def did_connect(self, table, operands, event):
        """Of a path by which nobody was bound here it isn't known where it leads, but where one socket listens alone."""
        socket, peer = table.on(operands[0]), Socket()
        socket.peer, peer.peer = peer, socket
        known = {it.on for some in self.tables.values() for it in some.numbers.values() if isinstance(it.on, Socket)}
        listening = [it for it in known if it.listens]
        door = self.named.get(operands[1]) if self.named.get(operands[1]) in listening else None
        if door or len(listening) == 1:
            (door or listening[0]).queue.append(peer)

    def did_accept(self, table, operands, event):
        queue = table.on(operands[0]).queue
        table.put(int(event.reply), Description(queue.pop(0) if queue else Socket()))

    def did_shutdown(self, table, operands, event):
        socket, how = table.on(operands[0]), operands[1]
        if how in (0, 2):
            socket.no_reading, socket.unread = True, 0
        if how in (1, 2):
            socket.no_writing = True

    def did_read(self, table, operands, event):
        on = table.on(operands[0])
        if isinstance(on, (Pipe, Socket)):
            on.unread = max(0, on.unread - int(event.reply))

    def did_write(self, table, operands, event):
        parts = sum(int(it) for _, it in self.calls[event.number].parts)
        self.moved(event, int(event.reply) - parts)

    def moved(self, event, count):
        """So many bytes of a write have gone."""
        on = self.tables[event.pid].on(self.calls[event.number].said.operands[0])
        target = on.peer if isinstance(on, Socket) else on
        if isinstance(target, (Pipe, Socket)):
            target.unread += count

    def blocks(self, pid, call, number):
        """Whether a call would block after this event; None where that isn't known."""
        operands, table = call.said.operands, self.tables[pid]
        if call.name == "open":
            return self.opening_blocks(self.opening.get(pid))
        if call.name == "setlkw":
            return bool(self.stopping(pid, call)) and not self.leads_back(pid, number)
        if call.name == "waitpid":
            return not any(it.ended <= number and (it.gone is None or it.gone > number) and operands[0] in (-1, it.pid)
                           for it in self.children.get(pid, []) if it.ended is not None)
        if call.name == "poll":
            pairs = [(table.numbers[fd], events) for fd, events in zip(operands[1::2], operands[2::2]) if fd in table.numbers]
            return not any(self.is_told(it.on, it.writes, events) for it, events in pairs)
        on = table.on(operands[0])
        if not isinstance(on, (Pipe, Socket)):
            return None
        if table.numbers[operands[0]].no_waiting:
            return False
        if call.name == "accept":
            return not on.queue
        return self.reading_blocks(on) if call.name == "read" else self.writing_blocks(on, operands[2])

    def opening_blocks(self, opening):
        if opening is None:
            return None
        fifo, other, before = opening
        return fifo.opens[other] <= before

    def stopping(self, pid, call):
        """The processes that hold what is in the way of a call, if it is one that waits for that."""
        waits = call is not None and call.name == "setlkw" and call.answer not in REFUSED and pid in self.tables
        on = self.tables[pid].on(call.said.operands[0]) if waits else None
        return on.in_way(pid, *asked_of(call.said.operands)) if isinstance(on, File) else set()

    def next_call(self, pid, number):
        """The call that a process is at or makes next after this event, if the report tells it."""
        made = self.made[pid]
        while made and (made[0].over or number + 1) <= number:
            made.popleft()
        return made[0] if made else None

    def leads_back(self, pid, number):
        """Whether a process waits for itself, through those that hold what is in its way, and those in theirs."""
        seen, new = set(), {pid}
        while new and pid not in seen:
            new = {other for it in new for other in self.stopping(it, self.next_call(it, number))} - seen
            seen |= new
        return pid in seen

    def reading_blocks(self, on):
        if isinstance(on, Pipe):
            return on.unread == 0 and on.ends[WRITES] > 0
        return on.unread == 0 and not on.no_reading and on.peer is not None and on.peer.is_open and not on.peer.no_writing

    def writing_blocks(self, on, count):
        if isinstance(on, Pipe):
            room = CAPACITY - on.unread
            return on.ends[READS] > 0 and (room < count if count <= WHOLE else room == 0)
        peer = on.peer
        return not on.no_writing and peer is not None and peer.is_open and not peer.no_reading and peer.unread >= CAPACITY

    def is_told(self, on, writes, events):
        """Whether `poll` tells anything of what a descriptor is open on."""
        if isinstance(on, Pipe) and writes:
            return on.ends[READS] == 0 or bool(events & POLLOUT and CAPACITY - on.unread >= WHOLE)
        if isinstance(on, Pipe):
            return on.ends[WRITES] == 0 or bool(events & POLLIN and on.unread)
        if not isinstance(on, Socket) or not (on.listens or on.peer):
            return True
        if on.listens:
            return bool(events & POLLIN and on.queue)
        has_bytes = on.unread or not on.peer.is_open or on.peer.no_writing
        return bool(events & POLLIN and has_bytes or events & POLLOUT and on.peer.unread < CAPACITY) or not on.peer.is_open


def sleeps_of(run):
    """Of each sleep its process, its call, and the events at which it began and was over."""
    for process in run.processes.values():
        for span in process.spans:
            if span.state == "asleep" and span.call.said and span.end <= len(run.events):
                if run.events[span.end - 1].pid == process.pid and process.ended != span.end:
                    yield process.pid, span.call, span.start, span.end


class Sleepers:
    """The calls that sleep as a run goes on, and of each the event at which it could go on."""

    def __init__(self, streams, sleeps):
        self.streams, self.asleep, self.causes = streams, {}, {}
        self.starting = {start: (pid, call) for pid, call, start, _ in sleeps}
        self.waking = {end: pid for pid, _, _, end in sleeps}

    def take(self, event):
        """What an event makes of them; who is woken at it, and by whom, if that is known."""
        cause = None
        if event.number in self.waking:
            pid = self.waking[event.number]
            self.asleep.pop(pid, None)
            cause = self.causes.pop(pid, None)
        if event.number in self.starting:
            pid, call = self.starting[event.number]
            self.asleep[pid] = call
        for pid, call in self.asleep.items():
            if self.streams.blocks(pid, call, event.number) is not False:
                self.causes.pop(pid, None)
            else:
                self.causes.setdefault(pid, event)
        if cause and cause.pid not in (None, event.pid):
            return Woken(cause.pid, event.pid, cause.number, event.number)
        return None


def wakers_of(run):
    """Who woke whom, in the order of the wakings: nothing where the script isn't known."""
    streams = Streams(run)
    sleepers = Sleepers(streams, list(sleeps_of(run)))
    found = []
    for event in run.events:
        streams.take(event)
        found.append(sleepers.take(event))
    return [it for it in found if it]
