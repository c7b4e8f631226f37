"""What a part of a module needs of it: the functions and constants that its own reach."""
import re

from .kit import Failure

NAME = re.compile(r'@("[^"]*"|[\w.$]+)')


def to_the_end(lines):
    """The lines of a function after its first, as one text."""
    found = []
    for line in lines:
        found.append(line)
        if line == "}\n":
            return "".join(found)
    raise Failure("a function of the module has no end")


class Module:
    """A module in text form: its functions and constants by their names, and its other lines."""

    def __init__(self, lines):
        self.named, self.others, lines = {}, [], iter(lines)
        for line in lines:
            if line.startswith("define "):
                self.named[NAME.search(line)[1]] = line + to_the_end(lines)
            elif line.startswith("@"):
                self.named[NAME.search(line)[1]] = line
            elif not line.startswith((";", "\n")):
                self.others.append(line)

    def reached(self, roots):
        """The texts that the roots reach, by their names."""
        found, left = {}, list(roots)
        while left:
            name = left.pop()
            if name not in found and name in self.named:
                found[name] = self.named[name]
                left += NAME.findall(found[name])
        return found

    def write(self, file, roots):
        """Writes what the roots reach, in the order of the module."""
        found = self.reached(roots)
        with open(file, "w", encoding="utf-8") as made:
            made.writelines(self.others)
            made.writelines(found[it] for it in self.named if it in found)
