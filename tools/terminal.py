"""What the commands that read a report do at a terminal, and where nobody reads what they write."""
import signal
import sys


def run(main):
    """Runs a command. It ends without a word where nobody reads on, and with 130 at Ctrl-C."""
    signal.signal(signal.SIGPIPE, signal.SIG_DFL)
    try:
        main()
    except KeyboardInterrupt:
        sys.exit(130)


def report_given(tool):
    """The report on standard input. At a terminal it says what was forgotten, and doesn't wait."""
    if sys.stdin.isatty():
        sys.exit(f"{tool}: a report is wanted on standard input: ./kres sim < SCRIPT | ./{tool} SCRIPT")
    return sys.stdin.buffer.read().decode(errors="replace")
