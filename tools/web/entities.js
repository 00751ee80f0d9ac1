// Marks of the entities of a map: in the view, their classes beside them, and what is known of the one under the pointer.

// how wide a mark is, in units of the map, its colour in the view, and the colour of what is written
const MARKS = {
    "light": { size: 5, colour: [1, 0.82, 0.16, 1], name: "#ffd028" },
    "entity": { size: 8, colour: [0.25, 0.55, 0.95, 1], name: "#8cc0ff" },
    "player start": { size: 12, colour: [0.1, 0.75, 0.35, 1], name: "#50f090" },
};
const NAMED = 1024, MOST_NAMES = 40, POINTED = 14;
// how the page was last drawn
let seenBy = null;

// the entities of a kind that stand in leaves that are shown
function marked(kind) { return LEVEL.entities.filter(entity => entity.kind === kind && drawn.shown[leafAt(entity.at)]); }

// the upper or the lower half of each of some marks, as triangles
function halves(entities, size, way) {
    const ring = [[size, 0, 0], [0, size, 0], [-size, 0, 0], [0, -size, 0]];
    return entities.flatMap(({ at }) => ring.flatMap((corner, side) =>
        [[0, 0, way * size], corner, ring[(side + 1) % 4]].flatMap(off => off.map((number, axis) => number + at[axis]))));
}

// what is drawn of the marks: of each kind two halves, of which the lower one is darker
function markParts() {
    return Object.entries(MARKS).flatMap(([kind, { size, colour }]) => [1, -1].map(way =>
        ({ points: halves(marked(kind), size, way), colour: way > 0 ? colour : colour.map((part, at) => at < 3 ? 0.6 * part : part) })));
}

// the marks in the view, from the nearest on, each with where it stands on the page
function marksOnPage(matrix, over) {
    const found = Object.keys(MARKS).flatMap(marked).map(entity => [entity, onPage(matrix, entity.at, over)]).filter(([, at]) => at);
    return found.sort(([, one], [, other]) => one[2] - other[2]);
}

// for one who stands inside a mark is hidden where something solid stands before it
function isHiddenMark(entity) { return !isSolid(leafAt(state.eye)) && passed(state.eye, entity.at).some(([leaf]) => isSolid(leaf)); }

// the classes of the nearest entities, but for lights, where a nearer one leaves room
function drawNames(pen, matrix, over) {
    const written = [];
    seenBy = { matrix, over };
    Object.assign(pen, { font: "12px sans-serif", textAlign: "center", lineJoin: "round", lineWidth: 3, strokeStyle: "#000000" });
    for (const [entity, [x, y, far]] of marksOnPage(matrix, over)) {
        if (far > NAMED || written.length === MOST_NAMES) break;
        const wide = pen.measureText(entity.name).width, at = Math.max(wide / 2, Math.min(over.width - wide / 2, x));
        if (entity.kind === "light" || written.some(([u, v, w]) => Math.abs(at - u) < (wide + w) / 2 && Math.abs(y - v) < HIGH)) continue;
        if (isHiddenMark(entity)) continue;
        written.push([at, y, wide]);
        pen.fillStyle = MARKS[entity.kind].name;
        const above = y - 10 - MARKS[entity.kind].size * over.width / 2 / far;
        pen.strokeText(entity.name, at, above);
        pen.fillText(entity.name, at, above);
    }
}

// what is known of the entity under the pointer
function tellMark(x, y) {
    const pointed = document.getElementById("pointed"), off = ([, at]) => Math.hypot(at[0] - x, at[1] - y);
    const near = state.marks && seenBy ? marksOnPage(seenBy.matrix, seenBy.over).filter(one => off(one) < POINTED) : [];
    const [found] = near.sort((one, other) => off(one) - off(other)).filter(([entity]) => !isHiddenMark(entity));
    pointed.hidden = !found;
    if (!found) return;
    pointed.textContent = found[0].told;
    Object.assign(pointed.style, { left: `${Math.min(x + 14, seenBy.over.width - 320)}px`, top: `${y + 14}px` });
}
