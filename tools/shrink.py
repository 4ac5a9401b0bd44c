"""Makes a script smaller while a command still says yes: ./shrink SCRIPT -- COMMAND

The command is run for each smaller script, which it gets on standard input, and whose path stands where one of its words is
{}. It says yes by the status 0. Lines, operands and processes are left out, numbers and texts get less, as long as it does;
what is left is written. The exit status is 3 where the command doesn't say yes to the script as it is.

    ./shrink SCRIPT -- sh -c './kres sim | grep -q " killed for "'
"""
import subprocess
import sys
import tempfile

sys.dont_write_bytecode = True
from shrinking import Shrinker
from terminal import run as run_command
from trials import run_tool, say_and_end, script_word, source_of

TOOL, USAGE = "shrink", "./shrink SCRIPT -- COMMAND"


def says_yes(command, source):
    """Whether the command says yes to a script."""
    with tempfile.NamedTemporaryFile(suffix=".kres") as file:
        file.write(source.text)
        file.flush()
        words = [file.name if it == "{}" else it for it in command]
        with open(file.name, "rb") as text:
            return subprocess.run(words, stdin=text, stdout=subprocess.DEVNULL, stderr=subprocess.DEVNULL).returncode == 0


def main():
    words = sys.argv[1:]
    at = words.index("--") if "--" in words else len(words)
    path, command = script_word(TOOL, words[:at], USAGE), words[at + 1:]
    if not command:
        say_and_end(TOOL, 2, USAGE)
    source = source_of(path, TOOL)
    try:
        if not says_yes(command, source):
            say_and_end(TOOL, 3, "the command doesn't say yes to the script as it is")
    except OSError as fault:
        say_and_end(TOOL, 2, f"{command[0]}: {fault.strerror}")
    smaller = Shrinker(source, lambda it: says_yes(command, it)).shrink()
    sys.stdout.write(smaller.text.decode(errors="replace"))


if __name__ == "__main__":
    run_command(lambda: run_tool(TOOL, main))
