"""What the makers of cases share, for programs that read lines of numbers and print a line for each name."""
import itertools
import os
import sys

# what a program reads
INPUT = 65536


def runs(things):
    """How often each comes before another does, and the thing."""
    return [(len(list(run)), thing) for thing, run in itertools.groupby(things)]


def write(groups, directory):
    """The file stdin, with each name behind its cases and a `#`; the file stdout, with how many there are of each name, and that none differs."""
    stdin = "".join("\n".join([*cases, f"#: {name}"]) + "\n" for name, cases in groups.items())
    if len(stdin) > INPUT:
        sys.exit(f"the cases take {len(stdin)} bytes, and the program reads {INPUT}")
    stdout = "".join(f"equal {len(cases)}, different 0: {name}\n" for name, cases in groups.items())
    for name, text in (("stdin", stdin), ("stdout", stdout)):
        with open(os.path.join(directory, name), "w", encoding="ascii", newline="\n") as file:
            file.write(text)
