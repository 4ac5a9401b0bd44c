"""Scripts in which what a disk has in use grows, while one process makes and removes: rows for tools/growth.py."""


def nodes(count):
    """So many nodes are in use, and one file more is made, closed and removed, over and over."""
    lines = ["heap 1048576", "steps STEPS", "disk 1600", "program init"]
    made = 1
    for k in range(count - 1):
        # A directory for every 250, so that none grows past its direct blocks.
        if k % 250 == 0:
            lines += [f'r1 = mkdir "/d{k}"', f'r1 = chdir "/d{k}"']
        else:
            lines += [f'r2 = open "f{k}" O_RDWR|O_CREAT', "r1 = close r2"]
        made += 1
    assert made == count
    lines += ['r1 = mkdir "/w"', 'r1 = chdir "/w"', "set r3 1000000", "label again", 'r2 = open "new" O_WRONLY|O_CREAT', "r1 = close r2",
              'r1 = unlink "new"', "loop r3 again", "end"]
    return "\n".join(lines) + "\n"


def used(blocks):
    """So many blocks are in use, and a file of one block is written and cut, over and over."""
    lines = ["heap 1048576", "steps STEPS", "disk 4096", "program init"]
    left, k = blocks, 0
    while left > 0:
        # A file of 266 blocks of bytes takes one of pointers; a greater one would take two more.
        taken = min(left, 267)
        data = taken - 1 if taken > 10 else taken
        lines += [f'r2 = open "/u{k}" O_RDWR|O_CREAT', f"r1 = ftruncate r2 {1024 * data}", "r1 = close r2"]
        left, k = left - taken, k + 1
    lines += ["r1 = mmap 4096", 'r2 = open "/f" O_RDWR|O_CREAT', "set r3 1000000", "label again", "r5 = pwrite r2 r1 1000 0", "r5 = ftruncate r2 0",
              "loop r3 again", "end"]
    return "\n".join(lines) + "\n"


def names(disk):
    """Names in two directories of some forty are made, moved and removed, on a disk of so many blocks."""
    lines = ["heap 131072", "steps STEPS", f"disk {disk}", "program init", 'r1 = mkdir "/x"', 'r1 = mkdir "/y"', 'r2 = open "/x/f" O_RDWR|O_CREAT',
             "r1 = close r2", 'r1 = chdir "/x"']
    lines += [f'r1 = link "f" "n{k}"' for k in range(40)]
    lines += ["set r3 1000000", "label again", 'r2 = open "new" O_WRONLY|O_CREAT', "r1 = close r2", 'r1 = rename "new" "/y/new"',
              'r1 = rename "/y/new" "kept"', 'r1 = mkdir "/x/dir"', 'r1 = rename "dir" "/y/moved"', 'r1 = rmdir "/y/moved"', 'r1 = unlink "kept"',
              'r1 = unlink "n0"', 'r1 = link "f" "n0"', "loop r3 again", "end"]
    return "\n".join(lines) + "\n"


# At this event each has made what it needs.
BEGUN = 9000

# What grows, its numbers, the script for a number, the events before its steps are all alike, the most instructions an event, and the most
# growth in hundredths.
ROWS = [
    ("nodes in use, while a file is made, closed and removed", (10, 300, 1200), nodes, BEGUN, 2600, 110),
    ("blocks of the disk, while names are made, moved and removed", (32, 256, 1024, 4096), names, BEGUN, 4050, 110),
    ("blocks in use, while one is written and cut", (0, 1335, 3471), used, BEGUN, 2350, 110),
]
