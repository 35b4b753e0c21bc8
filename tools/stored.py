"""What the scripts that make cases share: draws that are the same everywhere, and the files of the programs."""
import os
import random
import sys


class Chance:
    """Draws from a fixed seed, by randrange and random alone."""

    def __init__(self, seed):
        self.source = random.Random(seed)

    def below(self, n):
        return self.source.randrange(n)

    def between(self, low, high):
        return low + self.below(high - low + 1)

    def one_in(self, n):
        return self.below(n) == 0

    def happens(self, share):
        return self.source.random() < share

    def pick(self, choices):
        return choices[self.below(len(choices))]

    def mixed(self, items):
        items = list(items)
        for i in range(len(items) - 1, 0, -1):
            j = self.below(i + 1)
            items[i], items[j] = items[j], items[i]
        return items


def settle(crate, lines, answers):
    """Writes the lines and the answers into the crate; with --check, only says whether they stand there already."""
    if sys.argv[1:] not in ([], ["--check"]):
        sys.exit("usage: %s [--check]" % os.path.basename(sys.argv[0]))
    folder = os.path.join(os.path.dirname(os.path.abspath(__file__)), "..", "crates", crate)
    stale = []
    for name, made in (("stdin", lines), ("stdout", answers)):
        path = os.path.join(folder, name)
        content = "".join(line + "\n" for line in made).encode("ascii")
        if sys.argv[1:]:
            stale += [name] if held(path) != content else []
        else:
            with open(path, "wb") as out:
                out.write(content)
    if stale:
        sys.exit("%s: in crates/%s, %s is not what this script makes; run it without --check to write it" %
                 (os.path.basename(sys.argv[0]), crate, " and ".join(stale)))
    print("%s: %d cases" % (os.path.basename(sys.argv[0]), len(lines)))


def held(path):
    try:
        with open(path, "rb") as file:
            return file.read()
    except FileNotFoundError:
        return None
