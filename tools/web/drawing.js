// Draws the level by WebGL 2: the surfaces of the leaves that are shown, portals, the leak line, and the frozen place.

const NEAR = 2, FAR = 4 * LEVEL.bound, BAND = 1.5, VERTEX = 20;

// surfaces are ruled each 64 units, so that you see how far things are
const SURFACES = [`#version 300 es
uniform mat4 camera; in vec3 place; in vec4 colour; in float ruled; uniform bool grey; out vec3 at; out vec4 tint; flat out float lines;
void main() {
    gl_Position = camera * vec4(place, 1); at = place;
    tint = grey ? vec4(vec3(0.45 + 0.65 * dot(colour.rgb, vec3(0.4, 0.4, 0.2))), 1) : colour; lines = grey ? 0.4 * ruled : ruled;
}`, `#version 300 es
precision highp float; in vec3 at; in vec4 tint; flat in float lines; out vec4 seen;
void main() {
    vec3 n = abs(cross(dFdx(at), dFdy(at)));
    vec2 across = (n.z >= n.x && n.z >= n.y ? at.xy : n.x >= n.y ? at.yz : at.xz) / 64.0, wide = max(fwidth(across), 1e-6);
    vec2 off = abs(fract(across - 0.5) - 0.5) / wide;
    float line = max(0.0, 1.0 - min(off.x, off.y)) * clamp(0.15 / max(wide.x, wide.y), 0.0, 1.0) * lines;
    seen = vec4(tint.rgb * (1.0 - 0.25 * line), tint.a);
}`];
const LINES = [`#version 300 es
uniform mat4 camera; in vec3 place; void main() { gl_Position = camera * vec4(place, 1); }`, `#version 300 es
precision highp float; uniform vec4 colour; out vec4 seen; void main() { seen = colour; }`];

const everyLeaf = new Uint8Array(leaves.length).fill(1);
let gl = null, made = null, drawn = null;

function program([vertex, fragment]) {
    const linked = gl.createProgram();
    for (const [type, source] of [[gl.VERTEX_SHADER, vertex], [gl.FRAGMENT_SHADER, fragment]]) {
        const shader = gl.createShader(type);
        gl.shaderSource(shader, source);
        gl.compileShader(shader);
        gl.attachShader(linked, shader);
    }
    ["place", "colour", "ruled"].forEach((name, at) => gl.bindAttribLocation(linked, at, name));
    gl.linkProgram(linked);
    if (!gl.getProgramParameter(linked, gl.LINK_STATUS)) throw new Error(gl.getProgramInfoLog(linked));
    return { linked, camera: gl.getUniformLocation(linked, "camera"), colour: gl.getUniformLocation(linked, "colour"), grey: gl.getUniformLocation(linked, "grey") };
}

// of each corner of each surface: its place, its colour, and whether the surface is ruled
function surfaceVertices() {
    const bytes = new ArrayBuffer(VERTEX * rounds.length), places = new Float32Array(bytes), tints = new Uint8Array(bytes);
    for (let surface = 0; surface < kinds.length; surface++) {
        const kind = LEVEL.kind[kinds[surface]], tint = colours.subarray(3 * surface, 3 * surface + 3);
        for (let at = roundFrom[surface]; at < roundFrom[surface + 1]; at++) {
            places.set(corners.subarray(3 * rounds[at], 3 * rounds[at] + 3), VERTEX / 4 * at);
            tints.set([...tint, Math.round(255 * kind.part), kind.name === "sky" ? 0 : 255], VERTEX * at + 12);
        }
    }
    return bytes;
}

function prepare(view) {
    gl = view.getContext("webgl2", { alpha: false });
    if (!gl) throw new Error("this browser does not have WebGL 2, or has switched it off");
    made = { surfaces: program(SURFACES), lines: program(LINES) };
    for (const name of ["vertices", "opaque", "unseen", "edges", "ends", "through", "path"]) made[name] = gl.createBuffer();
    gl.bindBuffer(gl.ARRAY_BUFFER, made.vertices);
    gl.bufferData(gl.ARRAY_BUFFER, surfaceVertices(), gl.STATIC_DRAW);
    gl.enable(gl.DEPTH_TEST);
    gl.depthFunc(gl.LEQUAL);
    gl.polygonOffset(1, 1);
    gl.blendFunc(gl.SRC_ALPHA, gl.ONE_MINUS_SRC_ALPHA);
}

// what is shown, and what the row leaves out; it changes only with the leaf of the eye, and with keys
function choose() {
    const leaf = leafAt(state.frozen || state.eye), limited = state.row && rows !== null && !isSolid(leaf);
    const mark = `${limited && leaf} ${state.portals} ${modelsOn()}`;
    if (drawn && drawn.mark === mark) return;
    const shown = limited ? held(leaf) : everyLeaf, opaque = [], through = [], edges = [], unseen = [], bounds = [];
    const add = (surfaces, isShown) => {
        addTriangles(isShown ? opaque : unseen, surfaces, false);
        addTriangles(isShown ? through : unseen, surfaces, true);
        if (isShown) addEdges(edges, surfaces, () => true);
        if (isShown && ends) addEdges(bounds, surfaces, at => ends[at]);
    };
    leaves.forEach((_, at) => add(surfacesOf(at), shown[at]));
    const triangles = (opaque.length + through.length) / 3, seen = modelsOn().filter(at => !limited || isModelIn(at, shown));
    for (const at of modelsOn()) add(surfacesOfModel(at), seen.includes(at));
    const isShown = one => shown[numbered[portals.sides[2 * one]]] && shown[numbered[portals.sides[2 * one + 1]]];
    const wanted = state.portals && portals ? Array.from(portals.sides.subarray(0, portals.sides.length / 2).keys()).filter(isShown) : [];
    drawn = {
        mark, shown, limited, opaque: opaque.length, unseen: unseen.length, edges: edges.length, bounds: bounds.length, triangles, models: seen,
        leaves: numbered.filter(at => shown[at]).length, portals: wanted.length, outlines: outlines(wanted),
    };
    drawn.marks = markParts();
    drawn.entities = LEVEL.entities.filter(entity => shown[leafAt(entity.at)]).length;
    fill(made.opaque, opaque);
    fill(made.unseen, unseen);
    fill(made.edges, edges);
    fill(made.ends, bounds);
}

function fill(buffer, places) {
    gl.bindBuffer(gl.ELEMENT_ARRAY_BUFFER, buffer);
    gl.bufferData(gl.ELEMENT_ARRAY_BUFFER, new Uint32Array(places), gl.DYNAMIC_DRAW);
}

// the surfaces of a leaf: the first, and the one behind the last
function surfacesOf(leaf) { return [surfaceFrom[leaf], surfaceFrom[leaf + 1]]; }

// adds the triangles of some surfaces: of those that are seen through, or of the others
function addTriangles(found, [first, end], through) {
    for (let surface = first; surface < end; surface++) {
        if (isSeenThrough(surface) !== through) continue;
        for (let at = roundFrom[surface] + 2; at < roundFrom[surface + 1]; at++) found.push(roundFrom[surface], at - 1, at);
    }
}

// adds the sides of some surfaces that are not seen through: those that are wanted, by the corner before
function addEdges(found, [first, end], isWanted) {
    for (let surface = first; surface < end; surface++) {
        if (isSeenThrough(surface)) continue;
        for (let at = roundFrom[surface], last = roundFrom[surface + 1] - 1; at < roundFrom[surface + 1]; last = at++)
            if (isWanted(last)) found.push(last, at);
    }
}

// the sides at which faces of brushes end, upon the surfaces
function drawEnds(matrix) {
    gl.useProgram(made.lines.linked);
    gl.uniformMatrix4fv(made.lines.camera, false, matrix);
    gl.uniform4fv(made.lines.colour, [0, 0, 0, 0.4]);
    gl.enable(gl.BLEND);
    gl.bindBuffer(gl.ELEMENT_ARRAY_BUFFER, made.ends);
    gl.drawElements(gl.LINES, drawn.bounds, gl.UNSIGNED_INT, 0);
    gl.disable(gl.BLEND);
    gl.useProgram(made.surfaces.linked);
}

// leaves that are shown, from the farthest on: on the other side of a plane than the eye's come first
function farthestFirst() {
    const found = [], waiting = [root()];
    while (waiting.length) {
        const at = waiting.pop();
        if (at >= 0) {
            const front = sideOf(at, state.eye) >= 0;
            waiting.push(child(at, front), child(at, !front));
        } else if (drawn.shown[-1 - at]) found.push(-1 - at);
    }
    return found;
}

// the sides of some portals, two points each
function outlines(wanted) {
    const found = [];
    for (const one of wanted) {
        const [first, end] = portals.from.subarray(one, one + 2);
        for (let at = first, last = end - 1; at < end; last = at++)
            for (const corner of [last, at]) found.push(...portals.corners.subarray(3 * corner, 3 * corner + 3));
    }
    return found;
}

// two bands along each piece of a line, across one another, as triangles
function bands(line) {
    return line.slice(1).flatMap((end, at) => {
        const way = moved(end, line[at], -1), steep = Math.abs(way[2]) > Math.hypot(way[0], way[1]);
        const one = cross(way, steep ? [1, 0, 0] : [0, 0, 1]);
        return [one, cross(way, one)].flatMap(wide => {
            const by = BAND / Math.hypot(...wide), [a, b, c, d] = [line[at], line[at], end, end].map((point, side) => moved(point, wide, side % 2 ? by : -by));
            return [a, b, c, c, b, d].flat();
        });
    });
}

function camera(view) {
    const right = aside(), front = ahead(), up = cross(right, front), high = view.width / view.height;
    const deep = (FAR + NEAR) / (FAR - NEAR), off = [right, up, front].map(way => -dot(way, state.eye)), columns = [];
    for (let axis = 0; axis < 3; axis++) columns.push(right[axis], high * up[axis], deep * front[axis], front[axis]);
    return new Float32Array([...columns, off[0], high * off[1], deep * off[2] - 2 * FAR * NEAR / (FAR - NEAR), off[2]]);
}

// What the row leaves out hides nothing that it holds, so it is drawn first, in grey.
// Where one surface ends between the corners of another a gap finer than a pixel can be left: so sides are drawn too.
function drawSurfaces(matrix) {
    gl.useProgram(made.surfaces.linked);
    gl.uniformMatrix4fv(made.surfaces.camera, false, matrix);
    gl.bindBuffer(gl.ARRAY_BUFFER, made.vertices);
    [[3, gl.FLOAT, false, 0], [4, gl.UNSIGNED_BYTE, true, 12], [1, gl.UNSIGNED_BYTE, true, 16]].forEach(([size, type, whole, from], at) => {
        gl.enableVertexAttribArray(at);
        gl.vertexAttribPointer(at, size, type, whole, VERTEX, from);
    });
    gl.enable(gl.CULL_FACE);
    gl.uniform1i(made.surfaces.grey, 1);
    gl.bindBuffer(gl.ELEMENT_ARRAY_BUFFER, made.unseen);
    gl.drawElements(gl.TRIANGLES, drawn.unseen, gl.UNSIGNED_INT, 0);
    gl.uniform1i(made.surfaces.grey, 0);
    gl.clear(gl.DEPTH_BUFFER_BIT);
    if (!isSolid(leafAt(state.eye)) && !state.frozen) {
        gl.disableVertexAttribArray(2);
        gl.vertexAttrib1f(2, 0);
        gl.bindBuffer(gl.ELEMENT_ARRAY_BUFFER, made.edges);
        gl.drawElements(gl.LINES, drawn.edges, gl.UNSIGNED_INT, 0);
        gl.enableVertexAttribArray(2);
    }
    gl.bindBuffer(gl.ELEMENT_ARRAY_BUFFER, made.opaque);
    // a little behind, so that lines on them are seen
    if (drawn.bounds) gl.enable(gl.POLYGON_OFFSET_FILL);
    gl.drawElements(gl.TRIANGLES, drawn.opaque, gl.UNSIGNED_INT, 0);
    gl.disable(gl.POLYGON_OFFSET_FILL);
    if (drawn.bounds) drawEnds(matrix);
    const through = [];
    for (const leaf of farthestFirst()) addTriangles(through, surfacesOf(leaf), true);
    for (const at of drawn.models) addTriangles(through, surfacesOfModel(at), true);
    gl.enable(gl.BLEND);
    gl.depthMask(false);
    fill(made.through, through);
    gl.drawElements(gl.TRIANGLES, through.length, gl.UNSIGNED_INT, 0);
    gl.depthMask(true);
    gl.disable(gl.BLEND);
    gl.disable(gl.CULL_FACE);
}

function drawPoints(points, mode, colour, isHidden) {
    gl[isHidden ? "enable" : "disable"](gl.DEPTH_TEST);
    gl.bufferData(gl.ARRAY_BUFFER, new Float32Array(points), gl.DYNAMIC_DRAW);
    gl.uniform4fv(made.lines.colour, colour);
    gl.drawArrays(mode, 0, points.length / 3);
    gl.enable(gl.DEPTH_TEST);
}

// the leak line is drawn thin where something stands before it
function drawLines(matrix) {
    gl.useProgram(made.lines.linked);
    gl.uniformMatrix4fv(made.lines.camera, false, matrix);
    gl.disableVertexAttribArray(1);
    gl.disableVertexAttribArray(2);
    gl.bindBuffer(gl.ARRAY_BUFFER, made.path);
    gl.vertexAttribPointer(0, 3, gl.FLOAT, false, 0, 0);
    for (const { points, colour } of state.marks ? drawn.marks : []) drawPoints(points, gl.TRIANGLES, colour, true);
    drawPoints(drawn.outlines, gl.LINES, [0, 0.75, 0.5, 1], true);
    if (state.leak && LEVEL.leak) {
        drawPoints(bands(LEVEL.leak), gl.TRIANGLES, [0.9, 0, 0.1, 1], true);
        drawPoints(LEVEL.leak.flat(), gl.LINE_STRIP, [1, 0.2, 0.25, 1], false);
    }
    const cross_of = place => [0, 1, 2].flatMap(axis => [-24, 24].flatMap(by => place.map((number, other) => number + (axis === other) * by)));
    if (state.frozen) drawPoints(cross_of(state.frozen), gl.LINES, [1, 0.2, 1, 1], false);
}

function draw(view) {
    const matrix = camera(view);
    gl.viewport(0, 0, view.width, view.height);
    gl.clearColor(...LEVEL.ground.map(part => part / 255), 1);
    gl.clear(gl.COLOR_BUFFER_BIT | gl.DEPTH_BUFFER_BIT);
    choose();
    drawSurfaces(matrix);
    drawLines(matrix);
    return matrix;
}
