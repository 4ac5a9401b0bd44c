#!/usr/bin/env python3
"""Where the instructions of an event go: tools/cost_table.py KRES SCRIPT..

Runs the built program KRES on each script by `sim` under valgrind, and prints a table of what an event takes, by the parts of
the program whose functions took it. A function that the compiler put into another one counts as that. A script has a line
`steps`, which says how many events it has.
"""
import os
import re
import subprocess
import sys
import tempfile

# The parts, and what the names of their functions begin with; the first that fits counts.
PARTS = [
    ("the run: the core's events, the choice among them, most of the report's text", r"kern_|kres_tool::tool|run_report"),
    ("the text of entries, as far as it isn't there", r"report_text|itoa|std_alloc::string"),
    ("copies, from one value to another and of the bytes that calls move", r".*\b__memcpy|.*\b__memmove"),
    ("clearing, of locals and of memory that was never written", r".*\b__memset"),
    ("a process's next call, its operands checked, its need", r"call_run::store::StoreTurner::(next|asks)|prog_ctl|kabi_types::(arguments|calls|paths)|need_table"),
    ("whether a call that sleeps would go on", r"call_run::store::StoreTurner::ready|call_run::(calls::would_block|sleepers)|lock_calls::wait|wait_graph"),
    ("the file tree, the disk and the caches", r"memfs_|path_walk|blk_map|disk_layout|cached_disk|lru_index|\w+_cache"),
    ("pipes and sockets", r"pipe_|fifo_nodes|chunk_queue|usock_core|queue_calls|proc_numbers::(?!closing|opening)"),
    ("the turn but for these: processes, their memory and descriptors, the heap", r"(call_run|store_|process_|path_|file_|open_|lock_|proc_|page_|desc_|kheap_|bound_)\w*::"),
    ("the host's memory, the loader, boot and reading", r".*"),
]


def steps_of(script):
    with open(script, encoding="utf-8") as file:
        found = re.search(r"^steps (\d+)$", file.read(), re.M)
    if not found:
        sys.exit(f"{script} has no line of steps")
    return int(found[1])


def counts(kres, script, folder):
    """What each function of a run took by itself."""
    kept = os.path.join(folder, "counted")
    with open(script, "rb") as text:
        subprocess.run(["valgrind", "--tool=callgrind", f"--callgrind-out-file={kept}", kres, "sim"],
                       stdin=text, stdout=subprocess.DEVNULL, stderr=subprocess.DEVNULL)
    lines = subprocess.run(["callgrind_annotate", "--threshold=100", kept], capture_output=True, text=True, check=True).stdout
    for count, name in re.findall(r"^ *([\d,]+) \([ \d.]+%\)  (\S+)", lines, re.M):
        if ":" in name:
            yield int(count.replace(",", "")), name.split(":", 1)[1]


def column(kres, script, folder):
    events, taken = steps_of(script), [0] * len(PARTS)
    for count, name in counts(kres, script, folder):
        taken[next(i for i, (_, begins) in enumerate(PARTS) if re.match(begins, name))] += count
    return [round(it / events) for it in taken] + [round(sum(taken) / events)]


def main(words):
    if len(words) < 2:
        print(__doc__.split("\n")[0])
        return 2
    with tempfile.TemporaryDirectory() as folder:
        columns = [column(words[0], script, folder) for script in words[1:]]
    print("| what | " + " | ".join(os.path.basename(it).split(".")[0] for it in words[1:]) + " |")
    print("|---" * (len(columns) + 1) + "|")
    for row, name in enumerate([name for name, _ in PARTS] + ["**together**"]):
        print(f"| {name} | " + " | ".join(str(it[row]) for it in columns) + " |")
    return 0


if __name__ == "__main__":
    sys.exit(main(sys.argv[1:]))
