"""The cells of a tree: which planes bound a leaf, where two leaves touch, and where a leaf touches the outside."""

from polygons import in_front, middle, on_plane, turned, walls


class NoContact(Exception):
    """What leaves do not do: touch one another, or the outside."""


class Cells:
    """The leaves of a tree as parts of the cube."""

    def __init__(self, tree):
        self.tree, self.walls = tree, walls(tree.bound)
        self.above = {}
        for number, node in enumerate(tree.nodes):
            self.above[node.front] = (number, True)
            self.above[node.back] = (number, False)

    def way(self, leaf):
        """The nodes above a leaf, each with whether the leaf lies to its front, from the nearest on."""
        if not 0 <= leaf < len(self.tree.leaves):
            raise NoContact(f"there is no leaf {leaf}")
        child, nodes = -1 - leaf, []
        while child in self.above:
            nodes.append(self.above[child])
            child = nodes[-1][0]
        return nodes

    def plane(self, node):
        """The plane of a node."""
        return self.tree.planes[self.tree.nodes[node].plane]

    def on_plane(self, plane):
        """What a plane has of the closed cube, or None."""
        return on_plane(plane, self.tree.bound)

    def borders(self, leaf):
        """The planes above a leaf, turned towards it. The leaf is what of the cube lies in front of them."""
        return [turned(self.plane(node), to_front) for node, to_front in self.way(leaf)]

    def middle(self, leaf):
        """A point strictly inside a leaf: the mean of the corners of all its faces."""
        borders = self.borders(leaf) + self.walls
        faces = [in_front(self.on_plane(border), borders) for border in borders]
        corners = [corner for face in faces if face for corner in face]
        if not corners:
            raise NoContact(f"leaf {leaf} has no points")
        return middle(corners)

    def contact(self, one, other):
        """The polygon in which two leaves touch. Raises `NoContact` where they do not."""
        ways = dict(self.way(one)), dict(self.way(other))
        parting = next((node for node, _ in self.way(one) if node in ways[1]), None)
        if one == other or parting is None:
            raise NoContact(f"leaf {one} does not touch leaf {other}")
        borders = [turned(self.plane(node), to_front) for way in ways for node, to_front in way.items() if node != parting]
        polygon = in_front(self.on_plane(self.plane(parting)), borders)
        if polygon is None:
            raise NoContact(f"leaf {one} does not touch leaf {other}")
        return polygon

    def outside_contacts(self, leaf):
        """The polygons in which a leaf touches the walls of the cube. Raises `NoContact` where there is none."""
        faces = [in_front(self.on_plane(wall), self.borders(leaf)) for wall in self.walls]
        faces = [face for face in faces if face]
        if not faces:
            raise NoContact(f"leaf {leaf} does not touch the outside")
        return faces
