// The small plan in the corner, north above: what fills the leaves at the eye's height, and which of them the row of your own leaf
// holds. It reaches farther in a large room than in a small one.

const SIZE = 220, LEAST_REACH = 128, ROUND = 32, ROOM = 1.25, SLACK = 4;
// of what fills a leaf, the colour where the row holds the leaf, and where it does not
const FILLS = {
    empty: ["#d8d0c2", "#857f75"], water: ["#6aa6e4", "#44638a"], slime: ["#9ac65a", "#5c7338"], lava: ["#f08a4a", "#8a5a3c"],
    sky: ["#b4d8f6", "#6f8798"],
};
const WALLS = "rgba(38, 36, 34, 0.92)", LEAK = "#e00020", FROZEN = "#d000d0", OWN = "#b8006c", BOX = "#a04a08";
// how far the plan reaches, before keys make it reach farther or less far; and the leaf whose row it shows, with what that holds
const planned = { reach: null, leaf: null, held: null };

// how far west, east, south and north the level goes
const extent = [0, 1].flatMap(axis => [Math.min, Math.max].map(end =>
    corners.reduce((last, number, at) => at % 3 === axis ? end(last, number) : last, LEVEL.at[axis])));

// where the middle of the plan is: with the one who looks, or with the frozen place when one looks at its row from outside
function middleOfPlan() { return state.frozen && isSolid(leafAt(state.eye)) ? state.frozen : state.eye; }

// how far a level way goes on from a place until something is solid
function clear(place, yaw) {
    const end = moved(place, [Math.cos(yaw), Math.sin(yaw), 0], FARTHEST);
    const [, part] = passed(place, end).find(([leaf]) => isSolid(leaf)) || [null, 1];
    return part * FARTHEST;
}

// Of ways all round seven in eight end inside the plan. It stays as it is until it is too small, or much too large, and never
// reaches far past the level.
function reach(place) {
    const [x, y] = place, [west, east, south, north] = extent;
    const most = ROOM * Math.max(x - west, east - x, y - south, north - y, LEAST_REACH);
    if (!isSolid(leafAt(place))) {
        const ends = Array.from({ length: ROUND }, (_, at) => clear(place, 2 * Math.PI * at / ROUND)).sort((one, other) => one - other);
        const wanted = ROOM * ends[ROUND * 7 / 8];
        if (planned.reach === null || wanted > planned.reach || SLACK * wanted < planned.reach)
            planned.reach = LEAST_REACH * 2 ** Math.max(0, Math.ceil(Math.log2(wanted / LEAST_REACH)));
    }
    return Math.min(planned.reach || most, most) * 2 ** state.zoom;
}

// of each leaf that is not solid whether the row of one's own leaf holds it; of all of them where there is no row
function lit() {
    const leaf = leafAt(state.frozen || state.eye), own = rows === null || isSolid(leaf) ? -1 : leaf;
    if (planned.leaf !== own) Object.assign(planned, { leaf: own, held: own < 0 ? everyLeaf : held(own) });
    return planned.held;
}

function drawPlan(pen, over) {
    const middle = middleOfPlan(), [x, y, z] = middle, far = reach(middle), size = Math.min(SIZE, over.width / 3);
    const place = ([u, v]) => [u - x, y - v].map(number => number * size / 2 / far);
    pen.save();
    pen.beginPath();
    pen.rect(over.width - size, 0, size, size);
    pen.fillStyle = WALLS;
    pen.fill();
    pen.clip();
    pen.translate(over.width - size / 2, size / 2);
    drawLeaves(pen, slice(z, [[-far, -far], [far, -far], [far, far], [-far, far]].map(([u, v]) => [x + u, y + v])), leafAt(middle), place);
    strokeLines(pen, drawn.models.map(at => models[at].box).filter(box => box[2] <= z && z <= box[5]).map(box => frameOf(box).map(place)), BOX);
    for (const entity of state.marks ? LEVEL.entities : []) if (isInPlan(entity.at, middle, far)) drawDot(pen, place(entity.at), entity.kind);
    if (state.leak && LEVEL.leak) strokeLines(pen, [LEVEL.leak.map(place)], LEAK);
    if (state.frozen) strokeLines(pen, crossAt(place(state.frozen)), FROZEN);
    if (middle === state.eye) drawArrow(pen);
    drawScale(pen, size, far);
    pen.restore();
}

// the pieces of leaves that are not solid, those of one colour at once, and the frame of one's own
function drawLeaves(pen, pieces, own, place) {
    const open = pieces.filter(([leaf]) => !isSolid(leaf)), polygons = new Map(), known = lit();
    for (const [leaf, corners] of open) {
        const colour = FILLS[NAMES[leaves[leaf]]][known[leaf] ? 0 : 1];
        if (!polygons.has(colour)) polygons.set(colour, []);
        polygons.get(colour).push(corners.map(place));
    }
    polygons.forEach((those, colour) => fillPolygons(pen, those, colour));
    strokeLines(pen, open.filter(([leaf]) => leaf === own).map(([, corners]) => [...corners, corners[0]].map(place)), OWN);
}

// the frame of a box, from above
function frameOf([west, south, , east, north]) { return [[west, south], [east, south], [east, north], [west, north], [west, south]]; }

// two lines across one another
function crossAt([x, y]) { return [-4, 4].map(up => [[x - 4, y - up], [x + 4, y + up]]); }

// whether a place is in the plan, and nothing solid is straight above or below it as far as the height of the plan
function isInPlan(at, [x, y, z], far) {
    return Math.max(Math.abs(at[0] - x), Math.abs(at[1] - y)) < far && !passed(at, [at[0], at[1], z]).some(([leaf]) => isSolid(leaf));
}

function fillPolygons(pen, polygons, colour) {
    pen.beginPath();
    for (const polygon of polygons) {
        polygon.forEach(([x, y], at) => (at ? pen.lineTo(x, y) : pen.moveTo(x, y)));
        pen.closePath();
    }
    Object.assign(pen, { fillStyle: colour, strokeStyle: colour, lineWidth: 0.5 });
    pen.fill();
    pen.stroke();
}

function strokeLines(pen, lines, colour) {
    pen.beginPath();
    for (const line of lines) line.forEach(([x, y], at) => (at ? pen.lineTo(x, y) : pen.moveTo(x, y)));
    Object.assign(pen, { lineWidth: 1.5, strokeStyle: colour });
    pen.stroke();
}

function drawDot(pen, [x, y], kind) {
    pen.beginPath();
    pen.arc(x, y, MARKS[kind].size / 4 + 0.8, 0, 2 * Math.PI);
    Object.assign(pen, { fillStyle: MARKS[kind].name, strokeStyle: "#000000", lineWidth: 0.6 });
    pen.fill();
    pen.stroke();
}

// where one stands, and looks
function drawArrow(pen) {
    pen.save();
    pen.rotate(-state.yaw);
    pen.beginPath();
    [[10, 0], [-7, 6], [-4, 0], [-7, -6]].forEach(([x, y]) => pen.lineTo(x, y));
    pen.closePath();
    Object.assign(pen, { fillStyle: "#ffd040", strokeStyle: "#000000", lineWidth: 1 });
    pen.fill();
    pen.stroke();
    pen.restore();
}

// how long a line is in the units of the map: a power of two that takes less than half of the plan
function drawScale(pen, size, far) {
    const [x, y] = [-size / 2 + 8, size / 2 - 8], long = 2 ** Math.floor(Math.log2(far) - 0.3), wide = long * size / 2 / far;
    Object.assign(pen, { font: "11px sans-serif", textAlign: "left", lineJoin: "round", fillStyle: "#ffffff" });
    for (const [thick, colour] of [[5, "#000000"], [2, "#ffffff"]]) {
        pen.beginPath();
        pen.moveTo(x, y);
        pen.lineTo(x + wide, y);
        Object.assign(pen, { lineWidth: thick, strokeStyle: colour });
        pen.stroke();
    }
    Object.assign(pen, { lineWidth: 3, strokeStyle: "#000000" });
    pen.strokeText(`${long} units`, x, y - 6);
    pen.fillText(`${long} units`, x, y - 6);
}
