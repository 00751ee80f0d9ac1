"""The files that are made of a level: their names, and how they come into their places."""

import os


class Products:
    """The products of a level: the tree and the .bsp beside it or in a folder, and its leak line beside it."""

    def __init__(self, asked):
        self.level, self.name = asked.level, asked.name
        beside = os.path.dirname(asked.level) or "."
        self.folder = beside if asked.out is None else asked.out
        self.tree, self.bsp = self.named(self.folder, ".tree"), self.named(self.folder, ".bsp")
        self.lines = [self.named(beside, ending) for ending in (".pts", ".lin")[:1 + asked.lin]]

    def named(self, folder, ending):
        """The name of a product."""
        return os.path.join(folder, self.name + ending).removeprefix("./")

    def level_itself(self):
        """A product that is the level itself, or None."""
        if not os.path.exists(self.level):
            return None
        names = [self.tree, self.bsp, *self.lines]
        return next((name for name in names if os.path.exists(name) and os.path.samefile(name, self.level)), None)

    def put_line(self, line):
        """Writes the leak line."""
        for name in self.lines:
            with open(name, "w", encoding="ascii") as file:
                file.write(line)

    def remove_line(self):
        """Takes an old leak line away."""
        for name in self.lines:
            if os.path.lexists(name):
                os.remove(name)
