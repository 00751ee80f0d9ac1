#!/usr/bin/env python3
"""Holds the small plan in the corner of a page of `tools/qmlook view` to its tree, where there is a browser.

    .ci/check_page_plans.py PAGE TREE X,Y,Z=REACH..

From each place the plan reaches so far to each side: its pixels have the colours of what fills the leaves there at the height of the
place, lighter where the row of the place's leaf holds a leaf or what touches it, and what is solid is dark. Pixels beside the border
of a leaf, and what is drawn upon the plan, are passed over."""

from pathlib import Path
import sys

sys.path.insert(0, str(Path(__file__).resolve().parent.parent / "tools"))

from check_pages import level_of, opened, spelled
import surfaces
import treefile

SIZE = 220
# the colours of what the row holds, and of what it does not; whatever lies behind the plan, what is solid is darker than this
FILLS = {"empty": ((216, 208, 194), (133, 127, 117)), "water": ((106, 166, 228), (68, 99, 138)), "sky": ((180, 216, 246), (111, 135, 152))}
DARK = 62
# by how much a part of a colour may differ; how far apart the pixels are that are looked at, and how far from a border and a mark
NEAR, APART, BESIDE, MARK = 4, 3, 2, 8


def leaf_of(tree, place, reach, x, y):
    """The leaf where a pixel of the plan stands."""
    east, north = ((number + 0.5 - SIZE / 2) * 2 * reach / SIZE for number in (x, SIZE - 1 - y))
    return tree.leaf_at((place[0] + east, place[1] + north, place[2]))


def is_covered(entities, place, reach, x, y):
    """Whether something is drawn upon the plan there: the arrow, an entity, or the scale."""
    marks = [((entity["at"][0] - place[0]) / reach, (place[1] - entity["at"][1]) / reach) for entity in entities]
    middles = [(SIZE / 2 * (1 + right), SIZE / 2 * (1 + down)) for right, down in marks]
    return x < 100 and y > SIZE - 34 or abs(x - SIZE / 2) < 13 and abs(y - SIZE / 2) < 13 or any(
        abs(x - at) < MARK and abs(y - down) < MARK for at, down in middles)


def faults_of_plan(tree, seen, entities, place, reach, picture):
    """What is wrong with the plan at a place."""
    rows, step = picture
    left, counts, wrong = len(rows[0]) // step - SIZE, {}, 0
    held = surfaces.held(tree, seen, tree.leaf_at(place))
    for y in range(BESIDE, SIZE - BESIDE, APART):
        for x in range(BESIDE, SIZE - BESIDE, APART):
            near = {leaf_of(tree, place, reach, x + right, y + down) for right in (-BESIDE, 0, BESIDE) for down in (-BESIDE, 0, BESIDE)}
            if len(near) > 1 or is_covered(entities, place, reach, x, y):
                continue
            leaf, pixel = near.pop(), rows[y][step * (left + x):step * (left + x) + 3]
            what = tree.leaves[leaf].contents
            fits = max(pixel) < DARK if what == "solid" else all(
                abs(a - b) <= NEAR for a, b in zip(pixel, FILLS[what][leaf not in held]))
            counts[what, leaf in held] = counts.get((what, leaf in held), 0) + 1
            wrong += not fits
    if wrong > sum(counts.values()) // 100 or min(counts.get(("solid", False), 0), counts.get(("empty", True), 0)) < 50:
        yield f"from {place} {wrong} pixels of the plan are wrong, of {counts}"


def main():
    page, tree = Path(sys.argv[1]), treefile.load(sys.argv[2])
    entities, seen, places = level_of(page.read_text(encoding="ascii"))["entities"], surfaces.seen(tree), []
    for words in sys.argv[3:]:
        place, reach = words.split("=")
        places.append((tuple(map(int, place.split(","))), int(reach)))
    found = opened(page, lambda browser: [fault for place, reach in places for fault in faults_of_plan(
        tree, seen, entities, place, reach, browser.pixels(f"from={spelled(place)}&keys=H"))])
    sys.exit("\n".join(found) or 0)


main()
