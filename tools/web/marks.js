// What is written upon the view: numbers of leaves, and what is told at the edge.

const MOST_NUMBERS = 400, WIDE = 40, HIGH = 15;

// where a point stands on the page and how far ahead, or null where it is not in the view
function onPage(matrix, point, over) {
    const [x, y, far] = [0, 1, 3].map(part => matrix[part] * point[0] + matrix[part + 4] * point[1] + matrix[part + 8] * point[2] + matrix[part + 12]);
    return far > NEAR && Math.max(Math.abs(x), Math.abs(y)) < far ? [(1 + x / far) * over.width / 2, (1 - y / far) * over.height / 2, far] : null;
}

// at the middles of leaves, the nearest ones, where a nearer one leaves room; for one who stands inside only where nothing
// solid stands between
function drawNumbers(pen, matrix, over) {
    const inside = !isSolid(leafAt(state.eye)), middle = leaf => Array.from(middles.subarray(3 * leaf, 3 * leaf + 3));
    const isHidden = leaf => inside && passed(state.eye, middle(leaf)).some(([between]) => isSolid(between));
    const found = numbered.filter(leaf => drawn.shown[leaf]).map(leaf => [leaf, onPage(matrix, middle(leaf), over)]).filter(([, at]) => at);
    found.sort(([, one], [, other]) => one[2] - other[2]);
    Object.assign(pen, { font: "bold 13px sans-serif", textAlign: "center", lineJoin: "round", lineWidth: 3, strokeStyle: "#000000", fillStyle: "#ffff80" });
    const written = [];
    for (const [leaf, [x, y]] of found.slice(0, MOST_NUMBERS)) {
        if (written.some(([u, v]) => Math.abs(x - u) < WIDE && Math.abs(y - v) < HIGH) || isHidden(leaf)) continue;
        written.push([x, y]);
        pen.strokeText(leaf, x, y);
        pen.fillText(leaf, x, y);
    }
}

function nameOf(leaf) { return `leaf ${leaf}, ${NAMES[leaves[leaf]]}` + (isSolid(leaf) ? "" : `, number ${numbers[leaf]}`); }

function tell() {
    const write = point => point.map(number => +number.toFixed(1)).join(",");
    const from = leafAt(state.frozen || state.eye), lines = [LEVEL.name];
    lines.push(`from ${write(state.eye)} to ${write(moved(state.eye, ahead(), 64))}`, nameOf(leafAt(state.eye)));
    if (state.frozen) lines.push(`frozen at ${write(state.frozen)}: ${nameOf(from)}`);
    const sees = () => `sees ${row(from).length} of ${numbered.length} leaves`;
    lines.push(!rows ? "has no row, since the tree has none" : isSolid(from) ? "has no row, since the leaf is solid" : sees());
    lines.push(`drawn: ${drawn.leaves} leaves, ${drawn.triangles} triangles` + (drawn.limited ? ", by the row" : ""));
    const stops = () => isInTheWay(state.eye) ? "walls stop you, but you stand in one" : "walls stop you, by clip hull 1";
    if (state.solid) lines.push(hull ? stops() : "nothing stops you, since the tree has no clip hull 1");
    if (state.portals) lines.push(portals ? `portals: ${drawn.portals}` : "portals: none, since no listing was given");
    if (state.models && models.length) lines.push(`models: ${drawn.models.length} of ${models.length} drawn`);
    if (state.marks && LEVEL.entities.length) lines.push(`marked: ${drawn.entities} of ${LEVEL.entities.length} entities`);
    return lines.join("\n");
}
