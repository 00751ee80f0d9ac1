#!/usr/bin/env python3
"""Holds a page of `tools/qmlook view` to the tree from which it was written, and opens it.

    .ci/check_pages.py PAGE TREE [LISTING MAP]

The page needs no other file; what it holds, read back from its text, is the tree, its rows, and the surfaces with each corner
rounded to a float. A page with a listing and a map, whose entities it holds, is that of the courtyard. It is opened without a window
where there is a browser, Chromium or Chrome: at three places the colours of wall, water and sky stand where they should, keys
change what the page counts to what is counted here of the tree and its rows, walls stop one who walks by its clip hull, what one looks at is told, what the row of a frozen place leaves out is grey where
what it holds leaves room, the class of an entity is told under the pointer, and without WebGL a line says so."""

from array import array
from base64 import b64decode
from fractions import Fraction
import json
from math import hypot
from pathlib import Path
import re
import shutil
import struct
import subprocess
import sys
import tempfile
import zlib

sys.path.insert(0, str(Path(__file__).resolve().parent.parent / "tools"))

from check_views import Painter, seen_of
import colours
import corners
from eyes import Eye
import listing
import surfaces
import treefile

BROWSERS = ["chromium", "chromium-browser", "google-chrome", "google-chrome-stable"]
WORDS = ["--headless", "--no-sandbox", "--hide-scrollbars", "--window-size=1000,750", "--virtual-time-budget=4000",
         "--use-angle=swiftshader", "--enable-unsafe-swiftshader", "--ignore-gpu-blocklist"]
FILLS = ["empty", "solid", "water", "slime", "lava", "sky", "filled"]
# where one stands in the courtyard, and what stands where one looks
PLACE, AIM = (40, -150, 90), (300, 40, 20)
TARGETS = {"wall": (200, 192, 150), "water": (200, -50, 36), "sky": (416, 100, 150)}
# where one looks from outside at what is seen from a frozen place
OUTSIDE, DOWN, FROZEN = (40, -420, 520), (70, 50, 0), (-208, -128, 24)
# by how much a part of a colour may differ
NEAR = 4
# how far the eyes of a player are above the point of the clip hull, how near one comes to a wall, how far one walks, and how far aside
EYES, GAP, FAR, SLANT = 22, Fraction(1, 32), 2000, 0.5


def list_of(layout, text):
    """The numbers of a part of the page."""
    return [number for number, in struct.iter_unpack(f"<{layout}", b64decode(text))]


def faults_of_entities(text, name):
    """What is wrong with the entities that a page holds of the courtyard, whose map has a class before each origin."""
    found = re.findall(r'"classname" "(.*)"\n"origin" "(.*) (.*) (.*)"', Path(name).read_text())
    kinds = {"info_player_start": "player start", "light": "light"}
    wanted = [{"kind": kinds.get(its, "entity"), "told": f"{its} at {','.join(place)}", "name": its, "at": list(map(float, place))}
              for its, *place in found]
    if level_of(text)["entities"] != wanted or len(wanted) < 3:
        yield "its entities are not those of the map"


def level_of(text):
    """What a page holds of its level."""
    return json.loads(re.search(r"^const LEVEL = (.*);$", text, re.M).group(1))


def drawn_of(tree, seen, leaf):
    """The surfaces of a leaf that are drawn."""
    own = tree.leaves[leaf].contents
    return [surface for surface in seen[leaf].surfaces if colours.kind(own, surface.beyond)] if leaf in seen else []


def shape_of(model):
    """The surfaces of a brush model that are drawn."""
    found = surfaces.seen(model.tree)
    return [surface for leaf in sorted(found) for surface in drawn_of(model.tree, found, leaf)]


def models_of(tree):
    """The brush models of a tree, or None."""
    return tree.models() if any(section.kind == treefile.MODELS for section in tree.sections) else None


def faults_of_text(text, tree, seen):
    """What is wrong with what a page holds."""
    if re.search(r"https?:|\bsrc=|\bhref=|@import|fetch\(|XMLHttp|\bimport\b", text):
        yield "it asks for something from elsewhere"
    level = level_of(text)
    drawn = [drawn_of(tree, seen, leaf) for leaf in range(len(tree.leaves))]
    models = models_of(tree)
    shapes = list(map(shape_of, models or ()))
    polygons = [surface.polygon for those in (*drawn, *shapes) for surface in those]
    floats = list(array("f", (number for polygon in polygons for corner in polygon for number in corners.rounded(corner))))
    kept = list_of("f", level["corners"])
    wanted = {
        "planes": ("d", [number for plane in tree.planes for number in plane]),
        "nodes": ("i", [number for node in tree.nodes for number in node]),
        "leaves": ("B", [FILLS.index("filled" if leaf.filled else leaf.contents) for leaf in tree.leaves]),
        "surfaces": ("I", list(map(len, drawn))),
        "lengths": ("H", list(map(len, polygons))),
        "touched": ("I", [other for leaf in sorted(seen) for other in sorted(seen[leaf].touched)]),
    }
    told = level["models"] and [{part: its for part, its in model.items() if part != "told"} for model in level["models"]]
    if told != (models and [{"box": [*model.low, *model.high], "leaves": model.leaves, "surfaces": len(shape)}
                            for model, shape in zip(models, shapes)]):
        yield "its brush models are not those of the tree"
    if level["bound"] != tree.bound:
        yield "its bound is not that of the tree"
    for part, (layout, numbers) in wanted.items():
        if list_of(layout, level[part]) != numbers:
            yield f"its {part} are not those of the tree"
    if [number for at in list_of("I", level["rounds"]) for number in kept[3 * at:3 * at + 3]] != floats:
        yield "its corners are not those of the surfaces"
    if b64decode(level["rows"]) != b"".join(tree.rows):
        yield "its rows are not those of the tree"
    if (level["hull"] is not None) != any(section.kind == 1 for section in tree.sections):
        yield "it has a clip hull that the tree has not, or lacks one"
    elif level["hull"] is not None:
        hull = tree.hull(1)
        for part, (layout, numbers) in {
                "planes": ("d", [number for plane in hull.planes for number in plane]),
                "nodes": ("i", [number for node in hull.nodes for number in node]),
                "solid": ("B", [int(leaf.contents == "solid") for leaf in hull.leaves])}.items():
            if list_of(layout, level["hull"][part]) != numbers:
                yield f"the {part} of its clip hull are not those of the tree"


class Browser:
    """A browser without a window, which opens a page with words behind # in its address."""

    def __init__(self, name, page, folder):
        self.words, self.page, self.folder = [name, *WORDS, f"--user-data-dir={folder}/profile"], page, folder

    def run(self, words, more, script=""):
        """What the browser prints; a script runs behind those of the page."""
        page = Path(self.folder, "page.html")
        page.write_text(self.page.read_text(encoding="ascii").replace("</body>", f"<script>{script}</script></body>"), encoding="ascii")
        address = f"{page.as_uri()}#{words}"
        return subprocess.run([*self.words, *more, address], capture_output=True, text=True, timeout=120, check=True).stdout

    def told(self, words, *more):
        """What stands at the edge of the page."""
        return told_by(self.run(words, ["--dump-dom", *more]))

    def pixels(self, words):
        """The width, and the rows of pixels, each three or four bytes a pixel, and how many."""
        picture = Path(self.folder, "page.png")
        self.run(words, [f"--screenshot={picture}"])
        return unpacked(picture.read_bytes())


def told_by(text):
    """What stands at the edge of a page."""
    match = re.search(r'<pre id="told">(.*?)</pre>', text, re.S)
    return match.group(1) if match else ""


def unpacked(data):
    """The rows of a PNG picture of 8 bits a part, and how many bytes a pixel has."""
    at, packed, head = 8, b"", None
    while at < len(data):
        size, name = struct.unpack(">I4s", data[at:at + 8])
        body = data[at + 8:at + 8 + size]
        head, packed = body if name == b"IHDR" else head, packed + (body if name == b"IDAT" else b"")
        at += size + 12
    wide, high, _, kind = struct.unpack(">IIBB", head[:10])
    step, raw = {2: 3, 6: 4}[kind], zlib.decompress(packed)
    rows, before = [], bytes(wide * step)
    for at in range(0, high * (wide * step + 1), wide * step + 1):
        row = bytearray(raw[at + 1:at + 1 + wide * step])
        for place in range(len(row)):
            left = row[place - step] if place >= step else 0
            slanted = before[place - step] if place >= step else 0
            row[place] = row[place] + foretold(raw[at], left, before[place], slanted) & 255
        rows.append(row)
        before = row
    return rows, step


def foretold(way, left, above, slanted):
    """What a byte is foretold to be by its neighbours, in one of the five ways of PNG."""
    if way == 4:
        middle = left + above - slanted
        return min((left, above, slanted), key=lambda number: abs(middle - number))
    return (0, left, above, (left + above) // 2)[way]


def colour_along(painter, target):
    """The kinds that are seen where a target stands, and the colour there."""
    seen = painter.along(tuple(a - b for a, b in zip(target, PLACE)))
    colour = colours.GROUND
    for _, kind, plane in reversed(seen):
        part = colours.KINDS[kind][1]
        colour = tuple(part * above + (1 - part) * below for above, below in zip(colours.colour(kind, plane), colour))
    return seen[0][1], colour


def faults_of_pixels(browser, tree, seen):
    """What is wrong with what the page draws in the courtyard."""
    eye = Eye(PLACE, AIM)
    painter = Painter(tree, {leaf: what.surfaces for leaf, what in seen.items()}, eye.corner)
    rows, step = browser.pixels(f"from={spelled(PLACE)}&to={spelled(AIM)}&keys=HM")
    wide, high = len(rows[0]) // step, len(rows)
    for name, target in TARGETS.items():
        kind, wanted = colour_along(painter, target)
        x, y = on_page(eye, target, wide, high)
        found = tuple(rows[y][step * x:step * x + 3])
        if kind != name or any(abs(a - b) > NEAR for a, b in zip(found, wanted)):
            yield f"at {x},{y} of the page {name} should stand with the colour {wanted}, and there is {found}"


def spelled(place):
    """A place as words."""
    return ",".join(map(str, place))


def on_page(eye, target, wide, high):
    """Where a place stands on a page of a width and a height."""
    right, up = eye.at(corners.corner(target))
    return round(wide / 2 * (1 + right)), round(high / 2 - wide / 2 * up)


def faults_of_grey(browser, tree, seen):
    """What is wrong with what the page draws of the row of a frozen place: along rays from outside that meet something which the row
    holds its pixel has a colour, and along those that meet only what it leaves out it is grey. Pixels beside an edge are passed over."""
    eye, counts, wrong = Eye(OUTSIDE, DOWN), {True: 0, False: 0}, 0
    held = surfaces.held(tree, seen, tree.leaf_at(FROZEN))
    within, beyond = ({leaf: what.surfaces for leaf, what in seen.items() if (leaf in held) == is_held} for is_held in (True, False))
    painters = [Painter(tree, those, eye.corner) for those in (within, beyond)]
    rows, step = browser.pixels(f"from={spelled(OUTSIDE)}&to={spelled(DOWN)}&frozen={spelled(FROZEN)}&keys=HML")
    wide, high = len(rows[0]) // step, len(rows)
    for y in range(230, high, 11):
        for x in range(6, wide, 11):
            near = [rows[y + up][step * (x + right):step * (x + right) + 3] for up in (-2, 0, 2) for right in (-2, 0, 2)]
            way = [round((1 << 20) * (a + b * eye.wide * (2 * x + 1 - wide) / wide + c * eye.high * (high - 2 * y - 1) / wide))
                   for a, b, c in zip(eye.ahead, eye.right, eye.up)][:3]
            found = [painter.along(way) for painter in painters]
            if None in found or not any(found) or any(abs(a - b) > NEAR for one in near for a, b in zip(one, near[4])):
                continue
            is_held, is_grey = bool(found[0]), max(near[4]) - min(near[4]) <= NEAR
            counts[is_held] += 1
            wrong += is_held == is_grey
    if wrong > sum(counts.values()) // 100 or min(counts.values()) < 50:
        yield f"of {counts[True]} pixels of what a row holds and {counts[False]} of what it leaves out {wrong} have a wrong colour"


def faults_of_pointer(browser, entities):
    """What is wrong with what is told under the pointer: of the first entity, seen from the east, its class and place, and nothing
    beside it, nor of the last one where the rim of the pool hides it."""
    first, last = entities[0], entities[-1]
    for entity, east, aside, wanted in ((first, 100, 0, first["told"]), (first, 100, 200, ""), (last, -100, 0, "")):
        place, (x, y, z) = f"innerWidth / 2 + {aside}, clientY: innerHeight / 2", entity["at"]
        move = f"setTimeout(() => view.dispatchEvent(new PointerEvent('pointermove', {{ clientX: {place} }})), 500);"
        text = browser.run(f"from={x + east},{y},{z}&to={x},{y},{z}", ["--dump-dom"], move)
        hidden, told = re.search(r'<pre id="pointed"( hidden="")?[^>]*>(.*?)</pre>', text).groups()
        if (hidden is None, told) != (bool(wanted), wanted):
            yield f"{aside} beside {entity['told']} {told!r} is told under the pointer"


def faults_of_aim(browser, tree):
    """What is wrong with what is told below the crosshair: each change of contents straight ahead, as far as something solid."""
    # also from under water, from beyond the walls, and out of the world
    looks = [(PLACE, AIM), *((PLACE, target) for target in TARGETS.values()), ((200, -50, 20), (200, -50, 90)), (OUTSIDE, DOWN), (OUTSIDE, (40, -420, 900))]
    script = f"""setTimeout(() => document.body.append(Object.assign(document.createElement("pre"), {{ id: "looks", textContent: JSON.stringify(
        {json.dumps(looks)}.map(([place, aim]) => {{ state.eye = place; lookTo(aim); return toldAim(); }})) }})), 500);"""
    text = browser.run(f"from={spelled(PLACE)}&to={spelled(AIM)}&keys=X", ["--dump-dom"], script)
    told = json.loads(re.search(r'<pre id="looks">(.*?)</pre>', text).group(1))
    for (place, aim), found in zip(looks, told, strict=True):
        ends = re.findall(r"^leaf (\d+), (\w+)(?:, number \d+)?, ([\d.]+) away$", found, re.M)
        wanted = changes(tree, place, aim)
        if [(int(leaf), kind) for leaf, kind, _ in ends] != [(leaf, kind) for leaf, kind, _ in wanted] or any(
                abs(float(far) - exact) > 0.06 for (*_, far), (*_, exact) in zip(ends, wanted)):
            yield f"from {place} to {aim} the page tells {found!r}, and there are {wanted}"
        if not wanted and found != "nothing, as far as the wall of the world":
            yield f"from {place} to {aim} there is nothing, and the page tells {found!r}"
    shown, hidden = (re.search(r'<pre id="aimed"( hidden="")?[^>]*>(.*?)</pre>', page, re.S).groups() for page in (
        text, browser.run(f"from={spelled(PLACE)}&to={spelled(AIM)}", ["--dump-dom"])))
    if shown != (None, told[0]) or hidden != (' hidden=""', ""):
        yield f"below the crosshair stands {shown}, and without the key {hidden}"


def changes(tree, place, aim):
    """The leaves with which other contents begin from one place on towards another one, as far as something solid or the wall of the
    world: each with its kind, and how far away it is."""
    way = [b - a for a, b in zip(place, aim)]
    part = min(Fraction(tree.bound - a if b > 0 else -tree.bound - a, b) for a, b in zip(place, way) if b)
    end = [a + part * b for a, b in zip(place, way)]
    last, low, found = tree.leaves[tree.leaf_at(place)].contents, 0, []
    for leaf, to in tree.spans(place, end):
        what = tree.leaves[leaf]
        if what.contents != last:
            last = what.contents
            found.append((leaf, "filled" if what.filled else what.contents, float(low * part) * hypot(*way)))
            if last == "solid":
                break
        low = to
    return found


def faults_of_walls(browser, tree):
    """What is wrong with how walls stop one who walks. Along an axis one comes as near to them as the clip hull and a gap allow;
    aslant one slides along the first wall as far as the next one; and without the key, and without the hull, nothing stops."""
    hull, walks = tree.hull(1), []
    for axis in range(3):
        for way in (1, -1):
            reached = list(PLACE)
            reached[axis] = float(stop_of(hull, PLACE, axis, way))
            walks.append((PLACE, [way * int(axis == other) for other in range(3)], reached))
            other = (axis + 2) % 3
            slid = [*reached]
            slid[other] = float(stop_of(hull, reached, other, 1))
            walks.append((PLACE, [way if at == axis else SLANT if at == other else 0 for at in range(3)], slid))
    script = f"""setTimeout(() => {{
        const ends = {json.dumps([(place, way) for place, way, _ in walks])}.map(([place, way]) => {{
            state.eye = place;
            go(way, {FAR});
            return state.eye;
        }});
        document.body.append(Object.assign(document.createElement("pre"), {{ id: "walked", textContent: JSON.stringify(ends) }}));
    }}, 500);"""
    for keys, is_stopped in (("", False), ("C", True), ("CC", False)):
        text = browser.run(f"from={spelled(PLACE)}&keys={keys}", ["--dump-dom"], script)
        ends = json.loads(re.search(r'<pre id="walked">(.*?)</pre>', text).group(1))
        for (place, way, reached), end in zip(walks, ends, strict=True):
            wanted = reached if is_stopped else [a + FAR * b for a, b in zip(place, way)]
            if any(abs(a - b) > 1e-6 for a, b in zip(end, wanted)):
                yield f"with the keys {keys!r} one walks from {place} by {way} to {end}, and should come to {wanted}"
        if is_stopped != ("walls stop you, by clip hull 1" in told_by(text)):
            yield f"with the keys {keys!r} it is not told whether walls stop one"
    bare = Path(browser.folder, "bare.html")
    bare.write_text(re.sub(r'"hull": {.*?}', '"hull": null', browser.page.read_text(encoding="ascii")), encoding="ascii")
    if "nothing stops you, since the tree has no clip hull 1" not in Browser(browser.words[0], bare, browser.folder).told("keys=C"):
        yield "it is not told that nothing stops one where there is no clip hull"


def stop_of(hull, eyes, axis, way):
    """Where one comes who walks along an axis of a clip hull until something solid is a gap away, by the planes on the way."""
    def place(at):
        point = [*eyes[:axis], at, *eyes[axis + 1:]]
        return point[:2] + [point[2] - EYES]
    met = {Fraction(plane.d - sum(plane[other] * Fraction(place(0)[other]) for other in range(3)), plane[axis])
           for plane in hull.planes if plane[axis]}
    ends = sorted((at for at in met if way * (at - Fraction(eyes[axis])) > 0), key=lambda at: way * at)
    return next(at for at, after in zip(ends, ends[1:]) if hull.is_solid_at(place((at + after) / 2))) - way * GAP


def count_told(text, words):
    """The numbers of a line of the page."""
    match = re.search(words, text)
    return tuple(map(int, match.groups())) if match else None


def faults_of_keys(browser, tree, seen, portals, entities):
    """What is wrong with what the page counts before and after keys."""
    leaf = tree.leaf_at(PLACE)
    number = tree.leaves[leaf].number
    numbered = [other for other, what in enumerate(tree.leaves) if what.number is not None]
    held = surfaces.held(tree, seen, leaf)
    for keys, shown in (("", numbered), ("VP", sorted(held)), ("VPV", numbered), ("f", sorted(held)), ("V&frozen=" + spelled(PLACE), sorted(held))):
        text = browser.told(f"from={spelled(PLACE)}&keys={keys}")
        triangles = sum(len(surface.polygon) - 2 for other in shown for surface in drawn_of(tree, seen, other))
        outlined = sum(numbered[front] in shown and numbered[back] in shown for front, back, _ in portals)
        wanted = {
            r"leaf (\d+), empty, number (\d+)": (leaf, number), r"sees (\d+) of (\d+) leaves": (len(tree.row(number)), len(numbered)),
            r"marked: (\d+) of (\d+) entities": (sum(tree.leaf_at(entity["at"]) in shown for entity in entities), len(entities)),
            r"drawn: (\d+) leaves, (\d+) triangles": (len(shown), triangles),
            r"portals: (\d+)": (outlined,) if "P" in keys else None,
            r"(\d+) triangles, by the row": None if shown == numbered else (triangles,),
        }
        for words, numbers in wanted.items():
            if count_told(text, words) != numbers:
                yield f"with the keys {keys!r} the page tells {text!r}, and {numbers} should stand in {words!r}"
    if "WebGL 2" not in browser.told("", "--disable-3d-apis"):
        yield "without WebGL it does not say so"


def runs(browser):
    """Whether a browser is there, and not only its name."""
    return subprocess.run([browser, "--version"], capture_output=True, timeout=120, check=False).returncode == 0


def opened(page, faults):
    """What is wrong with a page as a browser shows it, where there is one."""
    browser = next((path for path in map(shutil.which, BROWSERS) if path and runs(path)), None)
    if browser is None:
        print("no browser is here: the page of qmlook view was not opened")
        return []
    with tempfile.TemporaryDirectory() as folder:
        return list(faults(Browser(browser, page, folder)))


def main():
    page, tree = Path(sys.argv[1]), treefile.load(sys.argv[2])
    seen, text = seen_of(tree), page.read_text(encoding="ascii")
    found = list(faults_of_text(text, tree, seen))
    if len(sys.argv) > 3:
        portals, entities = listing.load(sys.argv[3])[1], level_of(text)["entities"]
        found += faults_of_entities(text, sys.argv[4])
        found += opened(page, lambda browser: (
            *faults_of_pixels(browser, tree, seen), *faults_of_grey(browser, tree, seen),
            *faults_of_keys(browser, tree, seen, portals, entities), *faults_of_pointer(browser, entities),
            *faults_of_walls(browser, tree), *faults_of_aim(browser, tree)))
    sys.exit("\n".join(found) or 0)


if __name__ == "__main__":
    main()
