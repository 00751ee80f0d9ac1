"""Holds the surfaces of a level for engines to its tree file and its map: faces, edges, marks, textures, and that nothing is missing.

Numbers of the file are rounded, so corners are held to their planes by a margin."""

from collections import Counter, defaultdict
from math import ceil, floor

from bsp_reader import SOLID
from map_reader import dot

# how far a corner may lie off its plane, a place of a texture off its own, and how far from an edge or a plane a place tells something
ROUNDED, TEXEL, MARGIN = 1 / 50, 1 / 4, 1 / 16
SKY = -6
# rays by chance, and how far they go
RAYS, FAR = 4000, 16384.0
# a mapping that is not cut or lit
SPECIAL = 1
BLOCK = 64


def minus(a, b):
    return a[0] - b[0], a[1] - b[1], a[2] - b[2]


def cross(a, b):
    return a[1] * b[2] - a[2] * b[1], a[2] * b[0] - a[0] * b[2], a[0] * b[1] - a[1] * b[0]


def length(a):
    return dot(a, a) ** 0.5


def faults_of_planes(level):
    """Where a plane has no normal of length 1, or a kind that is not its own. Along an axis normals have to be positive."""
    for number, (normal, _, kind) in enumerate(level.planes):
        largest = max(range(3), key=lambda axis: abs(normal[axis]))
        along = [axis for axis in range(3) if normal[axis] == 1.0]
        if abs(length(normal) - 1) > 1e-5:
            yield f"the normal of plane {number} has the length {length(normal)}"
        if kind != (along[0] if along else 3 + largest) and (along or abs(normal[kind - 3]) + 1e-6 < abs(normal[largest]) or kind < 3):
            yield f"plane {number} has the kind {kind} and the normal {normal}"
        if any(number == -1.0 for number in normal):
            yield f"plane {number} has the normal {normal}, against an axis"


def faults_of_edges(level):
    """Where an edge is used more than once each way, or an edge or a corner not at all."""
    used = Counter(level.face_edges)
    if 0 in used:
        yield "edge 0 is used, which has no sign"
    for edge, times in used.items():
        if abs(edge) >= len(level.edges) or max(level.edges[abs(edge)]) >= len(level.vertices):
            yield f"edge {edge} is not there, or has a corner that is not there"
        if times > 1:
            yield f"edge {edge} is used {times} times in one way"
    if {abs(edge) for edge in used} != set(range(1, len(level.edges))):
        yield "some edge is in no face"
    if len({corner for edge in level.edges[1:] for corner in edge}) < len(level.vertices) - 1:
        yield "more than one corner is on no edge"
    if sorted(at for face in level.faces for at in face.edges) != list(range(len(level.face_edges))):
        yield "the edges of faces are not those of one face each"


def faults_of_shape(level, number):
    """What is wrong with the shape of a face: it goes round with the clock as seen from its front, and is convex."""
    if len(level.faces[number].edges) < 3 or level.faces[number].side not in (0, 1):
        yield f"face {number} has {len(level.faces[number].edges)} edges and the side {level.faces[number].side}"
        return
    ring = level.faces[number].edges
    ends = [level.edges[abs(edge)][edge >= 0] for edge in (level.face_edges[at] for at in ring)]
    begins = [level.edges[abs(edge)][edge < 0] for edge in (level.face_edges[at] for at in ring)]
    if ends != begins[1:] + begins[:1]:
        yield f"the edges of face {number} do not follow one another"
    corners, (normal, distance) = level.corners(number), level.outward(number)
    if len(set(corners)) < len(corners):
        yield f"face {number} has a corner twice"
    off = max(abs(dot(normal, corner) - distance) for corner in corners)
    if off > ROUNDED:
        yield f"a corner of face {number} lies {off} off its plane"
    area = [0.0, 0.0, 0.0]
    for before, here, behind in zip(corners[-1:] + corners[:-1], corners, corners[1:] + corners[:1]):
        turn = cross(minus(here, before), minus(behind, here))
        area = [a + b for a, b in zip(area, cross(minus(before, corners[0]), minus(here, corners[0])))]
        if dot(turn, normal) > ROUNDED * (length(minus(here, before)) + length(minus(behind, here))):
            yield f"face {number} turns inward at {here}"
    if dot(area, normal) >= 0:
        yield f"face {number} goes round against the clock as seen from its front"


def faults_of_nodes(level):
    """Where a face is not in one node of its own plane below its own model."""
    owners, first = {}, 0
    for number, model in enumerate(level.models):
        if model.faces.start != first and model.faces:
            yield f"the faces of model {number} begin at {model.faces.start}, and not at {first}"
        first = max(first, model.faces.stop)
        waiting = [model.heads[0]]
        while waiting:
            child = waiting.pop()
            if child < 0:
                continue
            waiting += level.nodes[child].children
            for face in level.nodes[child].faces:
                if face in owners or face not in model.faces:
                    yield f"face {face} is in node {child} of model {number}, and elsewhere"
                owners[face] = child
    if sorted(owners) != list(range(len(level.faces))):
        yield f"of {len(level.faces)} faces {len(owners)} are in nodes"
    for face, node in owners.items():
        if face < len(level.faces) and level.faces[face].plane != level.nodes[node].plane:
            yield f"face {face} is in node {node}, which has another plane"


def faults_of_marks(level, rng):
    """Where a leaf before a face has no mark of it, or what lies on both sides of a face is the same."""
    marks, head = [set(level.marks[at] for at in leaf.marks) for leaf in level.leaves], level.models[0].heads[0]
    if sorted(at for leaf in level.leaves for at in leaf.marks) != list(range(len(level.marks))):
        yield "the marks are not those of one leaf each"
    for own in level.leaves:
        if len({level.marks[at] for at in own.marks}) < len(own.marks):
            yield "a leaf has a mark twice"
    marked = set().union(*marks[1:1 + level.models[0].numbered])
    if marked != set(level.models[0].faces):
        yield f"of {len(level.models[0].faces)} faces {len(marked)} have marks in leaves of the world"
    for face in level.models[0].faces:
        corners, (normal, _) = level.corners(face), level.outward(face)
        for _ in range(3):
            weights = [rng.random() + 0.05 for _ in corners]
            place = [sum(a * b for a, b in zip(weights, numbers)) / sum(weights) for numbers in zip(*corners)]
            before, behind = ([a + sign * 2 * ROUNDED * b for a, b in zip(place, normal)] for sign in (1, -1))
            before, behind = level.leaf_at(before, head, ROUNDED / 2), level.leaf_at(behind, head, ROUNDED / 2)
            if before is not None and face not in marks[before]:
                yield f"leaf {before} lies before face {face} at {place}, and has no mark of it"
            if None not in (before, behind) and level.leaves[before].contents == level.leaves[behind].contents:
                yield f"face {face} has the same before it and behind it at {place}"


def first_change(level, place, way):
    """The leaf before the first change of contents along a ray, the node of the plane there, and how far it is; None where there is
    none."""
    head = level.models[0].heads[0]
    own = level.leaves[level.leaf_at(place, head)].contents
    waiting, last = [(head, 0.0, FAR, None)], None
    while waiting:
        child, near, far, node = waiting.pop()
        if child < 0:
            if level.leaves[-1 - child].contents != own:
                return last, node, near
            last = -1 - child
            continue
        plane, (front, back) = level.nodes[child].plane, level.nodes[child].children
        here = level.value(plane, [a + near * b for a, b in zip(place, way)])
        there = level.value(plane, [a + far * b for a, b in zip(place, way)])
        if here >= 0 and there >= 0 or here < 0 and there < 0:
            waiting.append((front if here >= 0 else back, near, far, node))
        else:
            cut = near + (far - near) * here / (here - there)
            first, second = (front, back) if here >= 0 else (back, front)
            waiting += [(second, cut, far, child), (first, near, cut, node)]
    return None


def rays(level, bodies, tree, rng):
    """Places in the open, each with a direction of length 1 to somewhere near a corner of a leaf."""
    ends = [corner for corners in bodies.values() for corner in corners if max(map(abs, corner)) < FAR]
    starts = [corners for leaf, corners in bodies.items() if tree.leaves[leaf].contents != "sky" and any(map(near_middle, corners))]
    for _ in range(RAYS if starts and ends else 0):
        corners = [corner for corner in rng.choice(starts)]
        weights = [rng.random() + 0.01 if near_middle(corner) else 0.001 for corner in corners]
        place = tuple(sum(a * b for a, b in zip(weights, numbers)) / sum(weights) for numbers in zip(*corners))
        way = [number + rng.uniform(-64, 64) - own for number, own in zip(rng.choice(ends), place)]
        leaf = level.leaf_at(place, level.models[0].heads[0], MARGIN)
        if leaf:
            yield place, tuple(number / length(way) for number in way)


def near_middle(corner):
    """Whether a corner is not one of the far ends of the world."""
    return max(map(abs, corner)) < FAR


def hits(level, face, place):
    """Whether a place on the plane of a face is in it; None where it is near its rim."""
    corners, (normal, _) = level.corners(face), level.outward(face)
    nearest = None
    for here, there in zip(corners, corners[1:] + corners[:1]):
        along = minus(there, here)
        depth = -dot(cross(along, minus(place, here)), normal) / length(along)
        nearest = depth if nearest is None else min(nearest, depth)
    return None if abs(nearest) < MARGIN else nearest > 0


def faults_of_sight(level, bodies, tree, rng):
    """Where the first change of contents along a ray has not one face that is seen from there, with a mark in the leaf before it."""
    sure = 0
    for place, way in rays(level, bodies, tree, rng):
        found = first_change(level, place, way)
        if found is None:
            continue
        leaf, node, far = found
        hit = tuple(a + far * b for a, b in zip(place, way))
        seen = [(face, hits(level, face, hit)) for face in level.nodes[node].faces if dot(level.outward(face)[0], way) < 0]
        if any(what is None for _, what in seen):
            continue
        sure += 1
        there = [face for face, what in seen if what]
        if len(there) != 1:
            yield f"at {hit}, seen from {place}, are the faces {there}"
        elif there[0] not in (level.marks[at] for at in level.leaves[leaf].marks):
            yield f"leaf {leaf} has no mark of face {there[0]}, which is seen at {hit} from {place}"
    if bodies and sure < RAYS // 4:
        yield f"only {sure} rays of {RAYS} tell something"


def faults_of_texture(level, number, faces, texels):
    """What is wrong with a face's texture: it lies as on one of some faces of brushes with the same plane, and is not stretched
    over more texels than engines take."""
    face, corners, (normal, distance) = level.faces[number], level.corners(number), level.outward(number)
    if face.mapping >= len(level.mappings) or level.textures[level.mappings[face.mapping].texture] is None:
        yield f"face {number} has no texture"
        return
    mapping = level.mappings[face.mapping]
    name = level.textures[mapping.texture].name
    found = [[dot(way, corner) + way[3] for corner in corners] for way in (mapping.across, mapping.down)]
    wanted = [other for other in faces if abs(abs(dot(other.normal, normal)) - 1) < 1e-6
              and abs(abs(other.distance) - abs(distance)) < ROUNDED and is_named(name, other.texture)]
    if not any(lies_as(other, corners, found) for other in wanted):
        yield f"the texture {name} does not lie on face {number} as on a brush: {len(wanted)} faces of brushes are on its plane"
    if mapping.flags & SPECIAL:
        return
    sizes = [ceil(max(numbers) / 16) - floor(min(numbers) / 16) for numbers in found]
    if max(sizes) * 16 > texels:
        yield f"face {number} has {16 * max(sizes)} texels, and {texels} are allowed"
    if face.light >= 0 and face.styles[0] != 255:
        if face.light + (sizes[0] + 1) * (sizes[1] + 1) > len(level.light):
            yield f"the light of face {number} is not in the file"


def is_named(short, name):
    """Whether a name of at most 15 letters can be that of a texture, whose folders may be left out."""
    last = name.lower().split("/")[-1]
    return short.lower() in (name.lower(), last) or (len(last) > 15 or "~" in short) and short.lower()[:10] in last


def lies_as(other, corners, found):
    """Whether the texture of a brush's face gives the same places at some corners."""
    return all(abs(dot(way, corner) + way[3] - place) < TEXEL + 1e-4 * abs(place)
               for way, places in zip(other.mapping, found) for corner, place in zip(corners, places))


def faults_of_joints(level, faces):
    """Where a corner of one face lies inside an edge of another one, through which the void can shine: of faces that are not seen
    through."""
    boxes = defaultdict(set)
    faces = [face for face in faces if not level.mappings[level.faces[face].mapping].flags & SPECIAL]
    edges = {tuple(sorted(level.edges[abs(level.face_edges[at])])) for face in faces for at in level.faces[face].edges}
    for corner in {corner for edge in edges for corner in edge}:
        boxes[tuple(floor(number / BLOCK) for number in level.vertices[corner])].add(corner)
    for edge in edges:
        here, there = (level.vertices[at] for at in edge)
        for corner in corners_along(boxes, here, there) - set(edge):
            place, along = level.vertices[corner], minus(there, here)
            part = dot(minus(place, here), along) / dot(along, along)
            between = [a + part * b for a, b in zip(here, along)]
            if 0 < part < 1 and length(minus(place, between)) < 1 / 256 and min(part, 1 - part) * length(along) > 1 / 8:
                yield f"the corner at {place} lies inside the edge from {here} to {there}"


def corners_along(boxes, here, there):
    """The corners in the blocks that a way meets."""
    steps = int(length(minus(there, here)) / (BLOCK / 2)) + 1
    found = set()
    for step in range(steps + 1):
        place = [a + (b - a) * step / steps for a, b in zip(here, there)]
        for sign in (-1, 1):
            found |= boxes.get(tuple(floor((number + sign) / BLOCK) for number in place), set())
    return found


def faults_of_textures(level):
    """Where the size of a texture is none that engines take."""
    names = Counter(texture.name.lower() for texture in level.textures if texture)
    for texture in filter(None, level.textures):
        if names[texture.name.lower()] > 1:
            yield f"two textures are called {texture.name}"
        if texture.width % 16 or texture.height % 16 or not texture.width * texture.height:
            yield f"{texture.name} has {texture.width} by {texture.height} texels"
        if texture.name.lower().startswith("sky") and (texture.width, texture.height) != (256, 128):
            yield f"{texture.name} is no sky of 256 by 128 texels"
        if any(len(picture) != (texture.width >> at) * (texture.height >> at) for at, picture in enumerate(texture.pictures)):
            yield f"{texture.name} lacks a picture"
    for number, mapping in enumerate(level.mappings):
        special = level.textures[mapping.texture] and level.textures[mapping.texture].name.lower().startswith(("sky", "*"))
        if bool(special) != bool(mapping.flags & SPECIAL):
            yield f"mapping {number} is {'not ' if special else ''}marked as one of sky or of a liquid"
