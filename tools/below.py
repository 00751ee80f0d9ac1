"""What the leaves below each child of a node hold."""

SOLID = frozenset({"solid"})


def contents_below(tree):
    """A list that has at each child all that leaves below it hold: the nodes from its first item on, and the leaves from its last
    one back, as -1 is the first leaf. It is found from the last node to the first, since a node stands before those below it."""
    alone = {leaf.contents: frozenset({leaf.contents}) for leaf in tree.leaves}
    found = [None] * len(tree.nodes) + [alone[leaf.contents] for leaf in reversed(tree.leaves)]
    for number in reversed(range(len(tree.nodes))):
        _, front, back = tree.nodes[number]
        found[number] = found[front] | found[back]
    return found
