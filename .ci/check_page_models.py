#!/usr/bin/env python3
"""Holds the brush models of a page of `tools/qmlook view` to its tree and its map, where there is a browser.

    .ci/check_page_models.py PAGE TREE MAP

From the middle of each leaf it is told how many models are drawn, by the row and without it; the list says of each what it is, and whether
it is drawn; a line that is pressed switches its model off, and the key switches off all. And what is seen of a model has its colour,
in a place that nothing hides."""

import json
from pathlib import Path
import re
import sys

sys.path.insert(0, str(Path(__file__).resolve().parent.parent / "tools"))

from cells import Cells
from check_pages import NEAR, level_of, on_page, opened, spelled
import colours
from eyes import Eye
from map_reader import load
import surfaces
import treefile

# how far from a model one looks at it
AWAY = 24


def names_of(entities, models):
    """What is told of each model."""
    for model in models:
        entity = entities[model.entity]
        words = [entity.value("classname"), entity.value("targetname")]
        yield f"{' '.join(filter(None, words))}, entity {model.entity}"


def line(name, model, how):
    """The line of a model in the list."""
    low, high = (",".join(map(str, end)) for end in (model.low, model.high))
    count = len(model.leaves)
    return f"{name}: {low} to {high}, {count} {'leaf' if count == 1 else 'leaves'}, {how}"


def drawn_from(tree, seen, models, leaf):
    """Which of the models are drawn by the row of a leaf, and by what touches that."""
    held = {tree.leaves[other].number for other in surfaces.held(tree, seen, leaf)}
    return [not held.isdisjoint(model.leaves) for model in models]


def looked(browser, places):
    """What the page tells and lists from each of some places, with the row and without it, and after the first line was pressed."""
    script = f"""setTimeout(() => {{
        const told = () => {{ show(); return [document.getElementById("told").textContent, Array.from(listed.children, line => line.textContent)]; }};
        const found = {json.dumps(places)}.map(place => {{ state.eye = place; return [true, false].map(by => {{ state.row = by; return told(); }}); }});
        listed.children[0].click();
        found.push([told()]);
        press("b");
        found.push([told()]);
        document.body.append(Object.assign(document.createElement("pre"), {{ id: "looks", textContent: JSON.stringify(found) }}));
    }}, 500);"""
    text = browser.run(f"from={spelled(places[0])}&keys=TM", ["--dump-dom"], script)
    return json.loads(re.search(r'<pre id="looks">(.*?)</pre>', text, re.S).group(1).replace("&gt;", ">").replace("&amp;", "&"))


def faults_of_list(browser, tree, seen, names):
    """What is wrong with what is told and listed."""
    models, cells = tree.models(), Cells(tree)
    leaves = [leaf for leaf, what in enumerate(tree.leaves) if what.number is not None]
    *found, first_off, all_off = looked(browser, [tuple(map(float, cells.middle(leaf))) for leaf in leaves])
    some = 0
    for leaf, both in zip(leaves, found, strict=True):
        for by_row, (told, lines) in zip((True, False), both):
            drawn = drawn_from(tree, seen, models, leaf) if by_row else [True] * len(models)
            some += 0 < sum(drawn) < len(models)
            if f"\nmodels: {sum(drawn)} of {len(models)} drawn" not in told:
                yield f"in leaf {leaf} is told {told!r}, and {sum(drawn)} models are drawn"
            if lines != [line(*each, "drawn" if is_drawn else "not in the row") for *each, is_drawn in zip(names, models, drawn)]:
                yield f"in leaf {leaf} is listed {lines}, and {drawn} are drawn"
    if not some:
        yield "some models are seen from everywhere, and others from nowhere: that tries nothing"
    (told, lines), = first_off
    if f"models: {len(models) - 1} of {len(models)} drawn" not in told or lines[0] != line(names[0], models[0], "off"):
        yield f"with a model switched off is told {told!r}, and listed {lines[:2]}"
    (told, lines), = all_off
    if "models:" in told or lines != [line(*each, "off") for each in zip(names, models)]:
        yield f"with all models switched off is told {told!r}, and listed {lines[:2]}"


def faults_of_colour(browser, tree):
    """What is wrong with the colour of the first model, a box, as one sees it from the west, and once it is switched off."""
    model = tree.models()[0]
    target = (model.low[0], *((a + b) // 2 + 3 for a, b in zip(model.low[1:], model.high[1:])))
    place = (model.low[0] - AWAY, target[1] + 1, target[2] + 2)
    wanted = colours.colour("model", (-1, 0, 0, 0))
    if any(tree.leaves[span.leaf].contents != "empty" for span in tree.spans(place, target)):
        yield f"from {place} the model is not seen"
    for keys, is_shown in ("HM", True), ("HMV", True), ("HMB", False):
        rows, step = browser.pixels(f"from={spelled(place)}&to={spelled(target)}&keys={keys}")
        x, y = on_page(Eye(place, target), target, len(rows[0]) // step, len(rows))
        found = tuple(rows[y][step * x:step * x + 3])
        if all(abs(a - b) <= NEAR for a, b in zip(found, wanted)) != is_shown:
            yield f"with the keys {keys} the model at {x},{y} of the page has the colour {found}, and its own is {wanted}"


def main():
    page, tree, entities = Path(sys.argv[1]), treefile.load(sys.argv[2]), load(sys.argv[3])
    names, seen = list(names_of(entities, tree.models())), surfaces.seen(tree)
    found = []
    if [model["told"] for model in level_of(page.read_text(encoding="ascii"))["models"]] != names:
        found.append("what it tells of its models is not what the map says")
    found += opened(page, lambda browser: (*faults_of_list(browser, tree, seen, names), *faults_of_colour(browser, tree)))
    sys.exit("\n".join(found) or 0)


main()
