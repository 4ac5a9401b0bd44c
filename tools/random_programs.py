"""Random programs, for tools/random_scripts.py and tools/hostile_scripts.py.

Operands are mostly such as a program would use: registers that hold a descriptor of the right kind, a child or an address, and
names that others use too; and sometimes wrong. Between calls stand the pieces of tools/telling_pieces.py, with other calls in
between, and rounds of a few calls.
"""
import telling_pieces

NAMES = {
    "file": ["a", "a", "b", "/a", "dir/a", "dir/b", "dir/sub/a", "dir/../a"],
    "dir": ["dir", "dir/sub", "/dir", "b", "/", "..", "dir/..", "dir/", "dir/sub/.."],
    "sock": ["sock", "sock", "/sock", "dir/sock", "a"],
    "fifo": ["fifo", "fifo", "/fifo", "dir/fifo", "a"],
    "odd": [".", "a/", "none/a", "a/b", "", "dir/.", "x" * 27, "y" * 28, "none/", "//dir///sub", "prog"],
}
FLAGS = ["O_RDONLY", "O_RDWR", "O_RDWR|O_CREAT", "O_RDWR|O_CREAT", "O_WRONLY|O_CREAT|O_TRUNC", "O_RDWR|O_CREAT|O_EXCL",
         "O_WRONLY|O_APPEND", "O_RDWR|O_CREAT|O_CLOEXEC", "O_RDWR|O_NONBLOCK", "O_TRUNC", "3"]
# How a FIFO is opened, mostly.
SIDES = ["O_RDONLY", "O_RDONLY", "O_WRONLY", "O_WRONLY", "O_RDONLY|O_NONBLOCK", "O_WRONLY|O_NONBLOCK", "O_WRONLY|O_CREAT|O_TRUNC",
         "O_RDONLY|O_CREAT|O_EXCL", "O_RDWR", "O_RDONLY|O_CLOEXEC"]
# Which kinds of lock are asked for, and of which places, mostly; and where places end.
KINDS = ["F_RDLCK", "F_RDLCK", "F_WRLCK", "F_WRLCK", "F_WRLCK", "F_UNLCK", "F_UNLCK"]
LENGTHS = [0, 1, 1, 1, 2, 3, 5, 8]
LAST_PLACES = ["9223372036854775807 1", "9223372036854775807 2", "1 9223372036854775807", "2 9223372036854775807",
               "0 9223372036854775807", "9223372036854775806 0", "-1 5", "5 -1", "4294967295 2"]
# What the registers of a reply hold.
HELD = {"fork": ["child"], "mmap": ["address"], "open": ["file"], "socket": ["socket"], "accept": ["socket"],
        "pipe": ["reader", "writer"], "socketpair": ["socket", "socket"], "dup": ["file"], "dup2": ["file"]}
# On what a call is of use.
FITTING = {"read": ["file", "reader", "socket"], "write": ["file", "writer", "socket"], "listen": ["socket"], "accept": ["socket"],
           "bind": ["socket"], "connect": ["socket"], "shutdown": ["socket"], "pread": ["file"], "pwrite": ["file"],
           "lseek": ["file"], "ftruncate": ["file"], "readdir": ["directory", "file"], "setlk": ["file"], "setlkw": ["file"],
           "getlk": ["file"]}
DESCRIPTORS = ["file", "directory", "reader", "writer", "socket"]
EDGES = ["-9223372036854775808", "-2147483649", "4294967295", "4294967296", "9223372036854775807", "SIGKILL|O_APPEND", "r15"]


class Program:
    """One program under way: its lines, and what its registers hold."""

    def __init__(self, rng, calls):
        self.rng, self.calls = rng, calls
        self.lines, self.labels, self.holds = [], 0, {}
        self.pieces = [it for it in telling_pieces.PIECES if telling_pieces.calls_of(it) <= set(calls)]

    # Operands.

    def some(self, kinds, least, most):
        """Mostly a register that holds one of these, sometimes a number."""
        held = [register for register, kind in self.holds.items() if kind in kinds]
        if held and self.rng.random() < 0.9:
            return self.rng.choice(held)
        return str(self.rng.randint(least, most)) if self.rng.random() < 0.9 else self.rng.choice(EDGES)

    def fd(self, call=None):
        fitting = FITTING.get(call, DESCRIPTORS) if self.rng.random() < 0.85 else DESCRIPTORS
        return self.some(fitting, -1, 6)

    def address(self):
        how = self.rng.random()
        if how < 0.7:
            return "r0"
        return self.some(["address"], 0, 20) if how < 0.9 else str(4096 * self.rng.randint(0, 20) + self.rng.choice([0, 0, 4090]))

    def length(self):
        return str(self.rng.choice([0, 1, 5, 60, 64, 511, 512, 513, 1024, 1025, 4096, 4097, 5000, 9000]))

    def path(self, kind=None):
        kind = kind or self.rng.choice(["file", "file", "dir", "sock", "odd"] + ["fifo"] * ("mkfifo" in self.calls))
        return '"%s"' % self.rng.choice(NAMES[kind])

    def socket_path(self):
        return self.path("sock") if self.rng.random() < 0.8 else self.path()

    def text(self):
        return '"%s"' % "".join(self.rng.choice("abcxyz 019") for _ in range(self.rng.choice([0, 1, 5, 20, 64])))

    def operands(self, call):
        rng = self.rng
        return {
            "exit": lambda: str(rng.choice([0, 1, 3, 256])),
            "waitpid": lambda: f"{rng.choice([self.some(['child'], -2, 5), '-1'])} {rng.choice(['0', '0', 'WNOHANG', '2'])}",
            "kill": lambda: f"{self.some(['child'], -1, 6)} {rng.choice(['SIGKILL', 'SIGKILL', 'SIGTERM', 'SIGPIPE', '0', '14'])}",
            "signal": lambda: f"{rng.choice(['SIGPIPE', 'SIGPIPE', 'SIGTERM', '9'])} {rng.choice(['SIG_DFL', 'SIG_DFL', 'SIG_IGN', '2'])}",
            "mmap": lambda: rng.choice([self.length(), self.length(), "100000", "1044480", "1048577"]),
            "munmap": lambda: f"{self.address()} {self.length()}",
            "store": lambda: f"{self.address()} {self.text()}",
            "load": lambda: f"{self.address()} {rng.choice(['0', '1', '5', '64', '65'])}",
            "dup2": lambda: f"{self.fd()} {self.some(DESCRIPTORS, -1, 33)}",
            "fcntl": lambda: f"{self.fd()} {rng.choice(['F_DUPFD', 'F_GETFD', 'F_SETFD', 'F_GETFL', 'F_SETFL', '9'])} "
                             f"{rng.choice(['0', '1', '5', '32', 'O_NONBLOCK', 'O_APPEND', 'FD_CLOEXEC'])}",
            "readdir": lambda: f"{self.fd(call)} {self.address()} {rng.choice(['32', '64', '0', '31', '320'])}",
            "lseek": lambda: f"{self.fd(call)} {rng.choice(['0', '5', '-1', '32'])} "
                             f"{rng.choice(['SEEK_SET', 'SEEK_CUR', 'SEEK_END', '7'])}",
            "ftruncate": lambda: f"{self.fd(call)} {rng.choice(['0', '5', '2000', '12000', '272384', '272385', '67381248', '67381249', '-1'])}",
            "shutdown": lambda: f"{self.fd(call)} {rng.choice(['SHUT_RD', 'SHUT_WR', 'SHUT_RDWR', '5'])}",
            "open": self.opened,
            "mkfifo": lambda: self.path("fifo") if rng.random() < 0.8 else self.path(),
            "poll": self.polled,
            **{it: lambda: self.fd(call) for it in ("close", "dup", "fstat", "listen", "accept")},
            **{it: lambda: f"{self.fd(call)} {self.address()} {self.length()}" for it in ("read", "write")},
            **{it: lambda: f"{self.fd(call)} {self.address()} {self.length()} {rng.choice(['0', '5', '1023', '9000', '-1'])}"
               for it in ("pread", "pwrite")},
            **{it: lambda: f"{self.fd(call)} {self.socket_path()}" for it in ("bind", "connect")},
            **{it: lambda: f"{self.fd(call)} {self.kind()} {self.places()}" for it in ("setlk", "setlkw", "getlk")},
            **{it: self.path for it in ("stat", "chdir", "mkdir", "rmdir", "unlink", "exec")},
            **{it: lambda: f"{self.path()} {self.path()}" for it in ("link", "rename")},
        }.get(call, str)()

    def opened(self):
        """What an open is told; where there are FIFOs it is often a side of one."""
        if "mkfifo" in self.calls and self.rng.random() < 0.4:
            return f"{self.path('fifo')} {self.rng.choice(SIDES)}"
        return f"{self.path()} {self.rng.choice(FLAGS)}"

    def kind(self):
        """A kind of lock."""
        return self.rng.choice(KINDS) if self.rng.random() < 0.95 else self.rng.choice(["-1", "3", "4294967297"])

    def places(self):
        """A range, as its start and its length: of few places, so that those of two processes mostly meet."""
        if self.rng.random() < 0.9:
            return f"{self.rng.randint(0, 12)} {self.rng.choice(LENGTHS)}"
        return self.rng.choice(LAST_PLACES)

    def polled(self):
        pairs = " ".join(f"{self.fd()} {self.rng.choice(['POLLIN', 'POLLOUT', 'POLLIN|POLLOUT', '0'])}"
                         for _ in range(self.rng.choice([0, 1, 1, 2, 3, 8])))
        return f"{self.rng.choice(['0', '-1', '-1', '5'])} {pairs}".strip()

    # Lines.

    def register(self):
        """One that holds nothing, if there is one."""
        every = [f"r{number}" for number in range(1, 14)]
        return self.rng.choice([it for it in every if it not in self.holds] or every)

    def say(self, line):
        """The line stands there; what its registers then hold is kept in mind."""
        self.lines.append(line)
        before, equals, behind = line.rpartition(" = ")
        words = (behind if equals else line).split()
        kinds = HELD.get(words[0], [])
        if words[0] in ("dup", "dup2"):
            kinds = [self.holds.get(words[1], "file")]
        if words[0] == "open" and words[1].strip('"') in NAMES["dir"]:
            kinds = ["directory"]
        elif words[0] == "open" and "fifo" in words[1]:
            kinds = ["writer" if "O_WRONLY" in words[2] else "reader"]
        if words[0] == "close" and self.rng.random() < 0.7:
            self.holds.pop(words[1], None)
        self.holds.update(zip(before.split(), kinds))

    def call(self, depth):
        call = self.rng.choice(self.calls)
        if call == "exit" and depth == 0 and self.rng.random() < 0.8:
            call = "getpid"
        if call == "fork":
            if depth < 3:
                self.fork(depth)
            return
        registers = [self.register() for _ in HELD.get(call, [])]
        if not registers and self.rng.random() < 0.2:
            registers = [self.register()]
        line = f"{call} {self.operands(call)}".strip()
        self.say(f"{' '.join(registers)} = {line}" if registers else line)

    def fork(self, depth):
        """A fork; often the child goes another way, and ends there."""
        child = self.register()
        self.say(f"{child} = fork")
        if self.rng.random() < 0.7:
            behind = self.child_of(child)
            for _ in range(self.rng.randint(1, 6)):
                self.call(depth + 1)
            self.child_ends(behind)

    def label(self, name):
        self.labels += 1
        return f"{name}{self.labels}"

    def child_of(self, child):
        behind = self.label("behind")
        self.lines.append(f"if {child} != 0 {behind}")
        return behind

    def child_ends(self, behind):
        self.lines += [f"exit {self.rng.randint(0, 3)}"] * (self.rng.random() < 0.8) + [f"label {behind}"]

    def round(self):
        """A few calls, two or three times."""
        again = self.label("again")
        self.lines += [f"set r15 {self.rng.randint(1, 3)}", f"label {again}"]
        for _ in range(self.rng.randint(1, 3)):
            self.call(3)
        self.lines.append(f"loop r15 {again}")

    def turn(self):
        """Registers that change, and calls that are made where a test holds."""
        behind = self.label("past")
        self.lines.append(f"{self.rng.choice(['set', 'add'])} {self.register()} {self.some(['child', *DESCRIPTORS], -2, 9)}")
        test = self.rng.choice(["==", "!=", "<", "<="])
        self.lines.append(f"if {self.some(['child', *DESCRIPTORS], -1, 3)} {test} {self.some(DESCRIPTORS, -1, 3)} {behind}")
        for _ in range(self.rng.randint(1, 3)):
            self.call(3)
        self.lines += [f"jump {behind}"] * (self.rng.random() < 0.2) + [f"label {behind}"]

    # Pieces.

    def piece(self):
        """A piece, with other calls between its lines now and then."""
        mixed, piece = self.rng.choice([0, 0, 0.1, 0.3]), Piece(self)
        for line in self.rng.choice(self.pieces)[1:]:
            piece.say(line)
            if self.rng.random() < mixed:
                self.call(3)

    def body(self, length):
        self.lines += [f"r0 = mmap {self.rng.choice([4096, 12288, 12288, 32768])}"] * ("mmap" in self.calls)
        self.lines += ['mkdir "dir"'] * ("mkdir" in self.calls and self.rng.random() < 0.6)
        while len(self.lines) < length:
            how = self.rng.random()
            if how < 0.25 and self.pieces:
                self.piece()
            elif how < 0.32:
                self.round()
            elif how < 0.36:
                self.turn()
            self.call(0)
        self.lines.append("exit 0")
        return self.lines


class Piece:
    """A piece of a program under way: its registers and names, and what is to be closed."""

    def __init__(self, program):
        self.program, self.rng = program, program.rng
        self.registers, self.open = {}, []
        kinds = ["file", "dir", "sock"] + ["fifo"] * ("mkfifo" in program.calls)
        self.names = {kind: program.path(kind) for kind in kinds}
        self.names["other"] = program.path(self.rng.choice(kinds))

    def word(self, word):
        if word.startswith("$"):
            if word not in self.registers:
                self.registers[word] = self.program.register()
                self.program.holds[self.registers[word]] = "something"
            return self.registers[word]
        if word.startswith("@"):
            return self.names[word[1:]]
        if word == "%kind":
            return self.program.kind()
        if word == "%places":
            return self.program.places()
        if word == "#":
            return self.program.length()
        return str(self.rng.choice([0, 1, 5, 64])) if word == "##" else word

    def times(self, most):
        return most if self.rng.random() < 0.5 else self.rng.randint(1, most)

    def line(self, line):
        program = self.program
        words = [self.word(it) for it in line.split()]
        if words[0] == "child":
            child = words[1] if len(words) > 1 else self.word("$child")
            program.say(f"{child} = fork")
            self.open.append(program.child_of(child))
        elif words[0] == "done":
            program.child_ends(self.open.pop())
        elif words[0] == "repeat":
            self.open.append(program.label("again"))
            program.lines += [f"set r14 {self.times(int(words[1]))}", f"label {self.open[-1]}"]
        elif words[0] == "again":
            program.lines.append(f"loop r14 {self.open.pop()}")
        else:
            program.say(" ".join(words))

    def say(self, line):
        """A line of the piece, which may be left out, or stand for many."""
        head, _, rest = line.partition(" ")
        if head == "many":
            count, _, one = rest.partition(" ")
            for number in range(1, int(count) + 1):
                self.line(one.replace("*", str(number)))
        elif head != "?":
            self.line(line)
        elif self.rng.random() < 0.5:
            self.say(rest)
