"""The language of scripts: its words, what each of them is followed by, and how that is said."""
import re

# The kinds of faults, in the order in which they are told of one line.
KINDS = ("not utf-8", "unknown word", "bad number", "out of range", "no such label", "wrong way", "twice defined",
         "unended", "no init", "too long")
MOST_BYTES = 1048576
MOST_PROGRAMS = 64
# Constants, by the operand for which they are meant.
CONSTANTS = {
    "FLAGS": {"O_RDONLY": 0, "O_WRONLY": 1, "O_RDWR": 2, "O_CREAT": 64, "O_EXCL": 128, "O_TRUNC": 512, "O_APPEND": 1024,
              "O_NONBLOCK": 2048, "O_CLOEXEC": 524288},
    "WHENCE": {"SEEK_SET": 0, "SEEK_CUR": 1, "SEEK_END": 2},
    "KIND": {"F_RDLCK": 0, "F_WRLCK": 1, "F_UNLCK": 2},
    "COMMAND": {"F_DUPFD": 0, "F_GETFD": 1, "F_SETFD": 2, "F_GETFL": 3, "F_SETFL": 4, "FD_CLOEXEC": 1},
    "OPTIONS": {"WNOHANG": 1},
    "SIGNAL": {"SIGKILL": 9, "SIGPIPE": 13, "SIGTERM": 15},
    "DISPOSITION": {"SIG_DFL": 0, "SIG_IGN": 1},
    "HOW": {"SHUT_RD": 0, "SHUT_WR": 1, "SHUT_RDWR": 2},
    "EVENTS": {"POLLIN": 1, "POLLOUT": 4, "POLLERR": 8, "POLLHUP": 16, "POLLNVAL": 32},
}
NUMBERS = {name: number for group in CONSTANTS.values() for name, number in group.items()}
# The operands of each call, in their order. PATH and TEXT stand in quotes, all others are values.
CALLS = {name: operands.split() for operands, names in {
    "": "getpid getppid sched_yield fork pipe socket socketpair",
    "STATUS": "exit",
    "LENGTH": "mmap",
    "FD": "close dup fstat listen accept",
    "PID OPTIONS": "waitpid",
    "PID SIGNAL": "kill",
    "SIGNAL DISPOSITION": "signal",
    "ADDRESS LENGTH": "munmap",
    "ADDRESS COUNT": "load",
    "FD NEW": "dup2",
    "FD LENGTH": "ftruncate",
    "FD HOW": "shutdown",
    "FD COMMAND ARGUMENT": "fcntl",
    "FD ADDRESS COUNT": "read write readdir",
    "FD OFFSET WHENCE": "lseek",
    "FD KIND START LENGTH": "setlk setlkw getlk",
    "FD ADDRESS COUNT PLACE": "pread pwrite",
    "PATH": "exec stat chdir mkdir mkfifo rmdir unlink",
    "PATH NEW_PATH": "link rename",
    "PATH FLAGS": "open",
    "FD PATH": "bind connect",
    "ADDRESS TEXT": "store",
    "TIMEOUT": "poll",
}.items() for name in names.split()}
STATEMENTS = {
    "set": ["REGISTER", "VALUE"],
    "add": ["REGISTER", "VALUE"],
    "if": ["VALUE", "TEST", "VALUE", "LABEL"],
    "jump": ["LABEL"],
    "label": ["NAME"],
    "loop": ["REGISTER", "LABEL"],
    "end": [],
}
RANGES = {"heap": (8192, 8388608), "disk": (16, 4096), "steps": (1, 100000), "seed": (0, 2147483647)}
MOST_CHOICES, MOST_CHOICE = 1000, 4294967295
SETTINGS = {**{name: ["NUMBER"] for name in RANGES}, "policy": ["POLICY"], "choices": ["NUMBER"], "program": ["NAME"]}
DEFAULTS = {"heap": 65536, "disk": 64, "steps": 1000, "policy": "heaviest"}
TESTS = ("==", "!=", "<", "<=")
NAME = re.compile(r"[a-z][a-z0-9_]{0,26}")
REGISTER = re.compile(r"r([0-9]|1[0-5])")
BLANKS = " \t\r"
# What stands in quotes.
TEXTS = ("PATH", "NEW_PATH", "TEXT")
VALUE = "a number, a register (r0 to r15)"
A_NAME = "1 to 27 of the letters a to z, digits and _, a letter first"
MAY_STAND = {
    "REGISTER": "a register: r0 to r15",
    "TEST": "a test: ==, !=, < or <=",
    "LABEL": f"the name of a label: {A_NAME}",
    "NAME": f"a name: {A_NAME}",
    "POLICY": "heaviest or youngest",
    "PATH": "a path in double quotes",
    "NEW_PATH": "a path in double quotes",
    "TEXT": "a text of at most 64 bytes in double quotes",
}


def may_stand(name):
    """What may stand where an operand of this name is wanted."""
    if name in MAY_STAND:
        return f"{name}, that is {MAY_STAND[name]}" if name in TEXTS else MAY_STAND[name]
    constants = f" or of these, joined by |: {', '.join(CONSTANTS[name])}" if name in CONSTANTS else " or a constant"
    return f"{VALUE}{constants}" if name == "VALUE" else f"{name}, that is {VALUE}{constants}"


def form_of(head, names):
    """How a statement is written."""
    return " ".join([head, *(f'"{it}"' if it in TEXTS else it for it in names)])
