// Where you stand and look, by keys, by the mouse, and by what stands after # in the page's address. Units are those of the
// map, seconds, and radians.

const SPEED = 320, FAST = 4, TURN = 1.8, STEP = 32, DRAG = 0.004, STEEPEST = 1.57, FARTHEST = 2 * LEVEL.bound - 1, WAYS = 16;

// `frozen` is the place whose row is shown while you walk on, or null
const state = {
    eye: LEVEL.at, yaw: 0, pitch: 0, frozen: null,
    row: false, portals: false, leak: LEVEL.leak !== null, numbers: false, marks: true, models: true, list: false, solid: false, aim: false, zoom: 0, help: true, changed: true,
};
const held_down = new Set();

const KEYS = {
    v() { state.row = !state.row; },
    f() { freeze(state.frozen ? null : state.eye); },
    p() { state.portals = !state.portals; },
    l() { state.leak = !state.leak; },
    n() { state.numbers = !state.numbers; },
    m() { state.marks = !state.marks; },
    b() { state.models = !state.models; },
    t() { state.list = !state.list; },
    c() { state.solid = !state.solid; },
    x() { state.aim = !state.aim; },
    h() { state.help = !state.help; },
    "+"() { state.zoom -= 1; },
    "="() { state.zoom -= 1; },
    "-"() { state.zoom += 1; },
};

function freeze(place) {
    state.frozen = place;
    if (place) state.row = true;
}

function dot(a, b) { return a[0] * b[0] + a[1] * b[1] + a[2] * b[2]; }
function cross(a, b) { return [a[1] * b[2] - a[2] * b[1], a[2] * b[0] - a[0] * b[2], a[0] * b[1] - a[1] * b[0]]; }
function moved(point, way, by) { return point.map((number, axis) => number + by * way[axis]); }

function ahead() {
    const level = Math.cos(state.pitch);
    return [level * Math.cos(state.yaw), level * Math.sin(state.yaw), Math.sin(state.pitch)];
}

function aside() { return [Math.sin(state.yaw), -Math.cos(state.yaw), 0]; }

function turn(left, up) {
    state.yaw += left;
    state.pitch = Math.max(-STEEPEST, Math.min(STEEPEST, state.pitch + up));
}

function go(way, by) {
    const to = state.solid && hull ? stopped(state.eye, way.map(number => by * number)) : moved(state.eye, way, by);
    state.eye = to.map(number => Math.max(-FARTHEST, Math.min(FARTHEST, number)));
}

function lookTo(point) {
    const [x, y, z] = moved(point, state.eye, -1);
    state.yaw = x || y ? Math.atan2(y, x) : Math.PI / 2;
    state.pitch = 0;
    turn(0, Math.atan2(z, Math.hypot(x, y)));
}

// looks along the level way that goes on longest before the contents change
function lookFarthest() {
    const own = leaves[leafAt(state.eye)];
    let longest = -1;
    for (let at = 0; at < WAYS; at++) {
        const yaw = 2 * Math.PI * at / WAYS, end = moved(state.eye, [Math.cos(yaw), Math.sin(yaw), 0], FARTHEST);
        const [, part] = passed(state.eye, end).find(([leaf]) => leaves[leaf] !== own) || [null, 1];
        if (part > longest) { longest = part; state.yaw = yaw; }
    }
}

// from=X,Y,Z and to=X,Y,Z, keys=.. as if they were pressed, and then frozen=X,Y,Z, which turns the row on as the key F does
function obey(words) {
    const place = name => {
        const found = (words.get(name) || "").split(",").map(Number);
        return found.length === 3 && found.every(isFinite) ? found : null;
    };
    state.eye = place("from") || state.eye;
    const to = place("to") || LEVEL.to;
    if (to) lookTo(to); else lookFarthest();
    for (const key of words.get("keys") || "") press(key);
    if (place("frozen")) freeze(place("frozen"));
}

function press(key) {
    if (KEYS[key.toLowerCase()]) KEYS[key.toLowerCase()]();
    state.changed = true;
}

function walk(seconds) {
    const is = code => +held_down.has(code), fast = is("ShiftLeft") || is("ShiftRight");
    const by = seconds * SPEED * (fast ? FAST : 1);
    turn(seconds * TURN * (is("ArrowLeft") - is("ArrowRight")), seconds * TURN * (is("ArrowUp") - is("ArrowDown")));
    go(ahead(), by * (is("KeyW") - is("KeyS")));
    go(aside(), by * (is("KeyD") - is("KeyA")));
    go([0, 0, 1], by * (is("KeyQ") - is("KeyE")));
    state.changed = true;
}

function listen(view) {
    addEventListener("keydown", event => {
        if (event.ctrlKey || event.metaKey || event.altKey) return;
        if (!/^(Key[WASDQE]|Shift|Arrow)/.test(event.code)) { if (!event.repeat) press(event.key); return; }
        held_down.add(event.code);
        event.preventDefault();
    });
    addEventListener("keyup", event => held_down.delete(event.code));
    addEventListener("blur", () => held_down.clear());
    addEventListener("resize", () => { state.changed = true; });
    view.addEventListener("contextmenu", event => event.preventDefault());
    view.addEventListener("pointerdown", event => view.setPointerCapture(event.pointerId));
    view.addEventListener("pointermove", event => {
        if (!event.buttons) { tellMark(event.clientX, event.clientY); return; }
        turn(-DRAG * event.movementX, -DRAG * event.movementY);
        state.changed = true;
    });
    view.addEventListener("wheel", event => {
        go(ahead(), -STEP * Math.sign(event.deltaY));
        state.changed = true;
    }, { passive: true });
}
