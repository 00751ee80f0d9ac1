// What the level is. LEVEL is made by page.py, which says what each part of it holds: numbers as bytes in base64.

const NAMES = ["empty", "solid", "water", "slime", "lava", "sky", "filled"], SOLID = 1, FILLED = 6;

function read(Kind, text) {
    const raw = atob(text), bytes = new Uint8Array(raw.length);
    for (let at = 0; at < raw.length; at++) bytes[at] = raw.charCodeAt(at);
    return new Kind(bytes.buffer);
}

// where each part begins, of parts with these lengths, and where the last one ends
function begins(lengths) {
    const from = new Uint32Array(lengths.length + 1);
    lengths.forEach((length, at) => { from[at + 1] = from[at] + length; });
    return from;
}

// the planes and nodes of a tree: that of the level, and that of clip hull 1, of which a leaf is solid or not
function treeOf(part) { return { planes: read(Float64Array, part.planes), nodes: read(Int32Array, part.nodes) }; }

const world = treeOf(LEVEL), hull = LEVEL.hull && { ...treeOf(LEVEL.hull), solid: read(Uint8Array, LEVEL.hull.solid) };
const leaves = read(Uint8Array, LEVEL.leaves), middles = read(Float32Array, LEVEL.middles);
const corners = read(Float32Array, LEVEL.corners), rounds = read(Uint32Array, LEVEL.rounds);
const roundFrom = begins(read(Uint16Array, LEVEL.lengths)), kinds = read(Uint8Array, LEVEL.kinds);
const colours = read(Uint8Array, LEVEL.colours), surfaceFrom = begins(read(Uint32Array, LEVEL.surfaces));
// of each corner of each surface whether a face of a brush ends on the side to the next one, if that is known
const ends = LEVEL.ends && read(Uint8Array, LEVEL.ends);
const touched = read(Uint32Array, LEVEL.touched), touchedFrom = begins(read(Uint32Array, LEVEL.touches));
const rows = LEVEL.rows === null ? null : read(Uint8Array, LEVEL.rows);
const portals = LEVEL.portals && {
    sides: read(Uint32Array, LEVEL.portals.sides), corners: read(Float32Array, LEVEL.portals.corners),
    from: begins(read(Uint16Array, LEVEL.portals.lengths)),
};
// of each leaf its number among those that are not solid, or -1; and the other way round
const numbers = new Int32Array(leaves.length).fill(-1), numbered = [];
leaves.forEach((what, leaf) => { if (!isSolid(leaf)) numbers[leaf] = numbered.push(leaf) - 1; });
const rowBytes = (numbered.length + 7) >> 3;

function isSolid(leaf) { return leaves[leaf] === SOLID || leaves[leaf] === FILLED; }

function isSeenThrough(surface) { return LEVEL.kind[kinds[surface]].part < 1; }

function root(tree = world) { return tree.nodes.length ? 0 : -1; }

// how far in front of a node's plane a point is, as a multiple of the normal's length
function sideOf(node, point, { planes, nodes } = world) {
    const at = 4 * nodes[3 * node];
    return planes[at] * point[0] + planes[at + 1] * point[1] + planes[at + 2] * point[2] - planes[at + 3];
}

function child(node, toFront, tree = world) { return tree.nodes[3 * node + (toFront ? 1 : 2)]; }

function leafAt(point, tree = world) {
    let at = root(tree);
    while (at >= 0) at = child(at, sideOf(at, point, tree) >= 0, tree);
    return -1 - at;
}

// the leaves through which a straight way goes from one point to another, each with the part of the way at which it begins, and the
// node on whose plane that is
function passed(first, second, tree = world) {
    const found = [], waiting = [[root(tree), 0, 1, null]];
    while (waiting.length) {
        const [at, low, high, node] = waiting.pop();
        if (at < 0) { found.push([-1 - at, low, node]); continue; }
        const here = sideOf(at, first, tree), there = sideOf(at, second, tree);
        const near = here + low * (there - here) >= 0, far = here + high * (there - here) >= 0;
        if (near === far) { waiting.push([child(at, near, tree), low, high, node]); continue; }
        const cut = Math.max(low, Math.min(high, here / (here - there)));
        waiting.push([child(at, far, tree), cut, high, at], [child(at, near, tree), low, cut, node]);
    }
    return found;
}

// what a polygon that lies at a height, of two coordinates a corner, has of each leaf that it meets
function slice(height, polygon) {
    const found = [], waiting = [[root(), polygon]];
    while (waiting.length) {
        const [at, corners] = waiting.pop();
        if (at < 0) { found.push([-1 - at, corners]); continue; }
        const values = corners.map(([x, y]) => sideOf(at, [x, y, height])), parts = [[], []];
        if (values.every(value => value >= 0)) { waiting.push([child(at, true), corners]); continue; }
        if (values.every(value => value <= 0)) { waiting.push([child(at, false), corners]); continue; }
        values.forEach((here, to) => {
            const [x, y] = corners[to], from = (to || values.length) - 1, there = values[from], [u, v] = corners[from];
            if (here * there < 0) {
                const cut = there / (there - here), between = [u + cut * (x - u), v + cut * (y - v)];
                parts.forEach(part => part.push(between));
            }
            if (here >= 0) parts[0].push(corners[to]);
            if (here <= 0) parts[1].push(corners[to]);
        });
        parts.forEach((part, side) => waiting.push([child(at, side === 0), part]));
    }
    return found;
}

// the numbers that the row of a leaf holds
function row(leaf) {
    const from = rowBytes * numbers[leaf];
    return numbered.map((_, number) => number).filter(number => rows[from + (number >> 3)] >> (number & 7) & 1);
}

// the leaves that a row holds, and those that touch them and hold other contents, since a row knows one contents: of each
// leaf 1 or 0
function held(leaf) {
    const found = new Uint8Array(leaves.length);
    for (const number of row(leaf)) {
        const other = numbered[number];
        found[other] = 1;
        for (let at = touchedFrom[other]; at < touchedFrom[other + 1]; at++) found[touched[at]] = 1;
    }
    return found;
}
