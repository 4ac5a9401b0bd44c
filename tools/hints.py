"""What was probably meant where a script is at fault, of the commonest mistakes. A hint is a sentence, or empty."""
import difflib
import re

from language import CALLS, CONSTANTS, NAME, NUMBERS, REGISTER, SETTINGS, STATEMENTS

NO_SIGNS = "Words stand with blanks between them, without brackets, commas and semicolons."
BAR = "A bar stands between two constants without blanks: O_RDWR|O_CREAT"
COMMENT = "A comment stands on a line of its own, which begins with #."
BEGINS_COMMENT = re.compile(r"#|//|/\*|--|;")
# Words of other languages, and which one is meant here.
ELSEWHERE = {
    "goto": "jump", "return": "exit", "wait": "waitpid", "yield": "sched_yield", "vfork": "fork", "clone": "fork", "let": "set",
    "var": "set", "while": "loop", "for": "loop", "cd": "chdir", "ls": "readdir", "rm": "unlink", "mv": "rename", "ln": "link",
    "creat": "open", "send": "write", "recv": "read", "malloc": "mmap", "free": "munmap", "sigaction": "signal",
    "mknod": "mkfifo", "flock": "setlk", "lockf": "setlk", "lock": "setlk", "unlock": "setlk",
}
NO_SUCH = {
    **dict.fromkeys("print printf puts echo".split(), "A script prints nothing; the report tells what each call is answered."),
    **dict.fromkeys("sleep usleep nanosleep".split(), "There is no time; a process sleeps in waitpid, read, write, accept, poll, open and setlkw."),
    **dict.fromkeys("symlink chmod chown umask alarm select mprotect fsync getuid".split(),
                    "There is no such call; ./kres table lists all that there are."),
}
# Commands of POSIX's fcntl that are calls here.
COMMANDS_ELSEWHERE = {"F_SETLK": "setlk", "F_SETLKW": "setlkw", "F_GETLK": "getlk"}
UNITS = {"k": 1024, "m": 1048576}


def near(text, names):
    """The name that a word was probably meant to be; None where it is like none."""
    upper = text.isupper()
    found = difflib.get_close_matches(text, [it for it in names if it.isupper() == upper], 1, 0.6)
    return found[0] if found else None


def guess(text, names):
    close = near(text, names)
    return f"Is it {close}?" if close else ""


def line_hint(words):
    """What to say of words that are divided otherwise than by blanks."""
    bare = " ".join(it.text for it in words if it.said is None)
    unseen = next((it for it in bare if not it.isprintable()), None)
    if unseen == "\ufeff":
        return "The file begins with a byte order mark, and a script without one."
    if unseen:
        return f"One character isn't seen here (U+{ord(unseen):04X}): between words stand spaces and tabs."
    if re.search(r"(^| )[{}]$", bare):
        return "A program goes from its line program NAME to its line end."
    return NO_SIGNS if re.search(r"[,;()\[\]{}]", bare) else ""


# Of one word


def number_hint(text):
    """What to say of a word that begins as a number."""
    unit = re.fullmatch(r"(\d+)([km])(i?b)?", text.lower())
    if unit:
        return f"A number has no unit: {text} is {int(unit[1]) * UNITS[unit[2]]}."
    if re.match(r"-?0x", text):
        return "Numbers are decimal."
    return "Numbers are whole." if re.fullmatch(r"-?\d*\.\d+", text) else f"{text} begins as a number, and is none."


def constant_hint(text, name):
    """What to say of a word that is no constant and was meant to be one."""
    pieces = re.findall(r"\w+", text)
    if len(pieces) > 1 and all(it in NUMBERS for it in pieces) and "|" not in text:
        return f"Constants are joined by |: {'|'.join(pieces)}"
    for part in (it for it in text.split("|") if it not in NUMBERS):
        if not part:
            return BAR
        if part.upper() in COMMANDS_ELSEWHERE:
            return f"Locks have calls of their own: {COMMANDS_ELSEWHERE[part.upper()]} FD KIND START LENGTH"
        if part.upper() in NUMBERS:
            return f"{part} is no constant: {part.upper()} is."
        close = near(part, CONSTANTS.get(name, NUMBERS)) or near(part, NUMBERS)
        return f"{part} is no constant" + (f"; {close} is." if close else ".")
    return ""


def value_hint(word, name):
    """What to say of a word that is no value."""
    if word.said is not None:
        return ('An address in memory stands here; store ADDRESS "TEXT" puts bytes there.' if name == "ADDRESS" else
                "Quotes are for paths and for what store puts in memory.")
    if re.fullmatch(r"[rR]\d+", word.text):
        return "The registers are r0 to r15."
    if re.fullmatch(r"\+\d+", word.text):
        return "Of signs a number has - alone."
    if word.text in CALLS:
        return f"What a call answers gets into a register so: r1 = {word.text}"
    return "This looks like a path, and a value is wanted." if word.text.startswith(("/", ".")) else constant_hint(word.text, name)


def text_hint(word, name):
    """What to say of a word that should stand in quotes."""
    what = "What is stored stands" if name == "TEXT" else "A path stands"
    return f'{what} in double quotes: "{word.text.strip(chr(39) + "“”„‘’")}"'


def register_hint(word):
    if re.fullmatch(r"[rR]\d+", word.text):
        return "The registers are r0 to r15."
    return "Names are of programs and labels; values are in registers." if NAME.fullmatch(word.text) else ""


def name_hint(word):
    """What to say of a word that is no name."""
    if word.said is not None:
        return "A name stands without quotes."
    if word.text.endswith(":"):
        return "A name stands without a colon."
    small = word.text.lower()
    return f"Names are in small letters: {small}" if NAME.fullmatch(small) else ""


def test_hint(text):
    return {
        "=": "Whether two values are the same is asked by ==.", ">": "Turn it round: a > b is b < a.",
        ">=": "Turn it round: a >= b is b <= a.",
    }.get(text, "")


# Of the first word of a line, and of words too many


def call_hint(text):
    """What to say of a word that is no statement."""
    small, parts = text.lower(), re.fullmatch(r"([^=]+)=([^=]+)", text)
    if BEGINS_COMMENT.match(text):
        return COMMENT
    if parts:
        return f"Blanks stand around =: {parts[1]} = {parts[2]}"
    if text.endswith(":"):
        return f"A label is written so: label {text[:-1]}"
    if text in SETTINGS and text != "program":
        return f"{text} is a setting, and stands outside programs."
    if small in CALLS or small in STATEMENTS:
        return f"Words are written in small letters: {small}"
    if small in ELSEWHERE:
        return f"Is it {ELSEWHERE[small]}?"
    return NO_SUCH.get(small) or guess(text, [*CALLS, *STATEMENTS])


def no_call_hint(head, rest, gets):
    """What to say of a word that is no call, by what stands around it."""
    is_register = head.said is None and REGISTER.fullmatch(head.text)
    if gets and head.text in STATEMENTS:
        return "Registers get the values of calls alone; set rK V gives one a value."
    if not gets and is_register and any(it.text in CALLS for it in rest[:3]):
        return "Between the registers and a call stands =: r1 = getpid"
    if not gets and is_register and any(it.text == "=" for it in rest[2:]):
        return "A call gives two values at most: r1 r2 = pipe"
    if not gets and is_register:
        return "A register gets a value by set rK V, or from a call: r1 = getpid"
    if gets and (is_register or re.match(r"-?[0-9]", head.text)):
        return "Behind = stands a call; set rK V gives a register a value."
    return call_hint(head.text)


def setting_hint(head, rest):
    """What to say of a word that is no setting, where no program is open."""
    text, name = head.text, head.text.partition("=")[0]
    if BEGINS_COMMENT.match(text):
        return COMMENT
    if text in CALLS or text in STATEMENTS or any(it.text == "=" for it in rest[:2]):
        return "No program is open here: a statement stands behind a line program NAME, and before its end."
    if text.isdigit() and rest and re.fullmatch(r"p\d+|evict", rest[0].text):
        return "This is a report, and no script."
    if name in SETTINGS:
        return f"{name} is written without a sign: {name} N"
    bare = text.rstrip(":")
    return guess(text.lower(), SETTINGS) or (f"A program begins so: program {bare}" if NAME.fullmatch(bare) and not rest else "")


def many_hint(head, words, names, form):
    """What to say where a statement has a word too many."""
    texts = [it.text for it in words]
    extra = texts[len(names)]
    if head.text == "if" and texts[3] in ("goto", "jump", "then"):
        return f"Behind the test stands the label alone: {form}"
    if "--" in texts:
        return COMMENT
    if "|" in texts:
        return BAR
    if head.text == "open" and all(it in NUMBERS for it in texts[1:]):
        return f"Constants are joined by |, without blanks: {'|'.join(texts[1:])}"
    if head.text in ("open", "mkdir") and extra.isdigit():
        return f"There are no permissions: {form}"
    if not names and head.text in CALLS and all(REGISTER.fullmatch(it) for it in texts[:2]):
        return f"The registers that get a call's values stand before it: {' '.join(texts[:2])} = {head.text}"
    if head.text in ("set", "add") and extra in "+-*/":
        return "A value is one word; add REGISTER VALUE adds to a register."
    if head.text in SETTINGS and extra in SETTINGS:
        return "Each setting has a line of its own."
    count = "no operand" if not names else "one operand" if len(names) == 1 else f"{len(names)} operands"
    return f"There is a word too many: {head.text} has {count}: {form}"
