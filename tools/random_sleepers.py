"""Programs of many processes that share a few pipes and sockets, FIFOs, or places of files, and mostly sleep on them, for
tools/random_scripts.py."""

EVENTS = ["POLLIN"] * 7 + ["POLLOUT", "POLLIN|POLLOUT", "0"]
SIZES = [0, 1, 7, 512, 513, 4000, 4096, 5000]
# How often one who mostly sleeps and one who mostly works makes each call, in the order of `call`.
SLEEPER = [40, 40, 3, 5, 4, 2, .2, .3, .2, .2, .1, .1, .3, .3, .3, .2]
WORKER = [4, 16, 24, 3, 2, 8, 1, 2, .5, 1, .4, .6, 1, 1, 1, .3]


class Crowd:
    """A first process that makes pipes and pairs of sockets, and children of it that call on these, each in rounds of its own."""

    def __init__(self, rng):
        self.rng = rng
        self.pairs = [rng.choice(["pipe", "pipe", "socketpair"]) for _ in range(rng.randint(1, 4))]
        self.children = rng.choice([6, 12, 20, 30, 45])
        self.has_listener = rng.random() < 0.3
        self.numbers = 2 * len(self.pairs) + self.has_listener

    def number(self):
        """A number that is mostly open."""
        return self.rng.randint(0, self.numbers) if self.rng.random() < 0.97 else self.rng.randint(-1, 31)

    def poll(self):
        entries = " ".join(f"{self.number()} {self.rng.choice(EVENTS)}" for _ in range(self.rng.randint(1, 8)))
        return f"r9 = poll {self.rng.choice([-1, -1, -1, 0])} {entries}"

    def call(self, weights):
        rng = self.rng
        return rng.choices([
            self.poll,
            lambda: f"r9 = read {self.number()} r1 {rng.choice(SIZES)}",
            lambda: f"r9 = write {self.number()} r1 {rng.choice(SIZES)}",
            lambda: f"r9 r10 = waitpid {rng.choice([-1, -1, rng.randint(1, 40)])} {rng.choice(['0', '0', 'WNOHANG'])}",
            lambda: f"r9 = accept {self.number()}",
            lambda: f"r9 = {rng.choice(['getpid', 'sched_yield', 'getppid'])}",
            lambda: f"r9 = close {self.number()}",
            lambda: f"r9 = {rng.choice(['dup', 'fstat'])} {self.number()}",
            lambda: f"r9 = dup2 {self.number()} {self.number()}",
            lambda: f"r9 = fcntl {self.number()} F_SETFL {rng.choice(['0', 'O_NONBLOCK'])}",
            lambda: f"r9 = shutdown {self.number()} {rng.choice(['SHUT_RD', 'SHUT_WR', 'SHUT_RDWR'])}",
            lambda: f"r9 = kill {rng.randint(1, self.children + 3)} {rng.choice(['0', '9', '9'])}",
            lambda: "r9 r10 = pipe",
            lambda: 'r9 = open "/f" O_RDWR|O_CREAT',
            lambda: 'r9 = connect 2 "/s"',
            lambda: "exit 0",
        ], weights)[0]()

    def rounds(self, name, works):
        """Some calls, over and over."""
        rng = self.rng
        calls = [self.call(WORKER if works else SLEEPER) for _ in range(rng.randint(1, 6))]
        return [f"set r13 {rng.choice([3, 20, 100])}", f"label {name}", *calls, f"loop r13 {name}"]

    def lines(self):
        made = [line for at, pair in enumerate(self.pairs) for line in [f"r2 r3 = {pair}"]]
        listener = ["r2 = socket", 'r3 = bind r2 "/s"', "r3 = listen r2"] if self.has_listener else []
        forks = [line for child in range(self.children) for line in ("r15 = fork", f"if r15 == 0 child{child}")]
        children = [line for child in range(self.children)
                    for line in (f"label child{child}", *self.rounds(f"again{child}", self.rng.random() < 0.15), "exit 0")]
        return ["r1 = mmap 8192", *made, *listener, *forks, *self.rounds("again", True), "exit 0", *children]


class Openers:
    """A first process that makes FIFOs, and children of it that open their sides, each in rounds of its own."""

    def __init__(self, rng):
        self.rng = rng
        self.fifos = [f'"/fifo{number}"' for number in range(rng.randint(1, 3))]
        self.children = rng.choice([2, 3, 5, 8, 12, 20])

    def fifo(self):
        return self.rng.choice(self.fifos)

    def visit(self):
        """A side is opened, which mostly sleeps until the other one is; something is done with it, and it is closed."""
        rng = self.rng
        side, call = rng.choice([("O_RDONLY", "read"), ("O_WRONLY", "write")])
        waits = rng.choice(["", "", "", "|O_NONBLOCK"])
        lines = [f"r2 = open {self.fifo()} {side}{waits}"]
        lines += [f"r9 = {call} r2 r1 {rng.choice(SIZES)}" for _ in range(rng.randint(0, 3))]
        return lines + ["close r2"] * (rng.random() < 0.8)

    def call(self):
        rng = self.rng
        return rng.choices([
            lambda: f"r9 = mkfifo {self.fifo()}",
            lambda: f"r9 = unlink {self.fifo()}",
            lambda: f"r9 = rename {self.fifo()} {self.fifo()}",
            lambda: f"r9 = kill {rng.randint(2, self.children + 3)} {rng.choice(['0', '9', '9', '9', '15'])}",
            lambda: f"r9 r10 = waitpid -1 {rng.choice(['0', 'WNOHANG', 'WNOHANG'])}",
            lambda: f"r9 = dup2 r2 {rng.randint(0, 3)}",
            lambda: f"r9 = fcntl r2 F_SETFL {rng.choice(['0', 'O_NONBLOCK'])}",
            lambda: f"r9 = {rng.choice(['stat ' + self.fifo(), 'fstat r2', 'sched_yield'])}",
            lambda: f"r9 = poll {rng.choice([-1, 0, 0])} r2 {rng.choice(EVENTS)}",
            lambda: "r9 = signal SIGPIPE SIG_DFL",
            lambda: "r9 = fork",
            lambda: "exit 0",
        ], [4, 2, 1, 8, 5, 2, 1, 3, 2, .3, .5, .5])[0]()

    def rounds(self, name):
        """Some visits, over and over, and other calls between them."""
        lines = []
        for _ in range(self.rng.randint(1, 4)):
            lines += self.visit() if self.rng.random() < 0.7 else [self.call()]
        return [f"set r13 {self.rng.choice([3, 10, 30])}", f"label {name}", *lines, f"loop r13 {name}"]

    def lines(self):
        made = [f"mkfifo {name}" for name in self.fifos]
        forks = [line for child in range(self.children) for line in ("r15 = fork", f"if r15 == 0 child{child}")]
        children = [line for child in range(self.children)
                    for line in (f"label child{child}", *self.rounds(f"again{child}"), "exit 0")]
        return ["r1 = mmap 8192", *made, *forks, *self.rounds("again"), "exit 0", *children]


class Lockers:
    """A first process that opens files, and children of it that want the same places of them, each in rounds of its own. Some open
    a file themselves, others have it of the fork."""

    def __init__(self, rng):
        self.rng = rng
        self.files = [f'"/file{number}"' for number in range(rng.randint(1, 3))]
        self.children = rng.choice([2, 2, 3, 3, 4, 6, 10, 16])
        self.places = rng.choice([3, 6, 12])

    def number(self):
        """A number that is mostly open on a file."""
        return self.rng.randint(0, len(self.files) - 1) if self.rng.random() < 0.97 else self.rng.randint(-1, 5)

    def range(self):
        return f"{self.rng.randint(0, self.places)} {self.rng.choice([1, 1, 1, 2, 3, 0])}"

    def hold(self):
        """Places are taken, mostly with a wait for who has them; others are wanted besides, and all or some are let go."""
        rng, number = self.rng, self.number()
        lines = []
        for _ in range(rng.choice([1, 1, 2, 2, 3])):
            call = rng.choice(["setlk", "setlkw", "setlkw", "setlkw"])
            lines.append(f"r9 = {call} {rng.choice([number, number, self.number()])} {rng.choice(['F_RDLCK', 'F_WRLCK', 'F_WRLCK'])} {self.range()}")
            lines += ["sched_yield"] * (rng.random() < 0.3)
        gives = rng.choice([f"r9 = setlk {number} F_UNLCK 0 0"] * 4 + [f"r9 = setlk {number} F_UNLCK {self.range()}", "r9 = getpid"])
        return lines + [gives]

    def call(self):
        rng = self.rng
        return rng.choices([
            lambda: f"r9 r10 = getlk {self.number()} {rng.choice(['F_RDLCK', 'F_WRLCK'])} {self.range()}",
            lambda: f"r9 = setlk {self.number()} {rng.choice(['F_RDLCK', 'F_UNLCK', 'F_WRLCK'])} {self.range()}",
            lambda: f"r9 = kill {rng.randint(2, self.children + 3)} {rng.choice(['0', '9', '9', '15'])}",
            lambda: f"r9 r10 = waitpid -1 {rng.choice(['0', 'WNOHANG', 'WNOHANG'])}",
            lambda: f"r9 = open {rng.choice(self.files)} {rng.choice(['O_RDWR', 'O_RDONLY', 'O_WRONLY'])}",
            lambda: f"r9 = close {rng.choice([self.number(), 'r9', 'r9', 'r9'])}",
            lambda: f"r9 = dup2 {self.number()} {rng.randint(0, 4)}",
            lambda: f"r9 = dup {self.number()}",
            lambda: f"r9 = {rng.choice(['getpid', 'sched_yield', 'getppid'])}",
            lambda: "r9 = fork",
            lambda: "exit 0",
        ], [5, 4, 3, 4, 3, 3, 1, 1, 4, .4, .5])[0]()

    def rounds(self, name):
        """Some places taken and given back, over and over, and other calls between them."""
        lines = []
        for _ in range(self.rng.randint(1, 4)):
            lines += self.hold() if self.rng.random() < 0.7 else [self.call()]
        return [f"set r13 {self.rng.choice([3, 10, 30])}", f"label {name}", *lines, f"loop r13 {name}"]

    def child(self, number):
        """What a child does; some open a file in the place of the one that they have, or have none of the others."""
        own = [f"close {at}" for at in range(len(self.files)) if self.rng.random() < 0.15]
        own += [f"r9 = open {name} O_RDWR" for name in self.files if self.rng.random() < 0.2]
        return [f"label child{number}", *own, *self.rounds(f"again{number}"), "exit 0"]

    def lines(self):
        made = [f"open {name} O_RDWR|O_CREAT" for name in self.files]
        forks = [line for child in range(self.children) for line in ("r15 = fork", f"if r15 == 0 child{child}")]
        children = [line for child in range(self.children) for line in self.child(child)]
        return [*made, *forks, *self.rounds("again"), "exit 0", *children]
