// What you look at: a crosshair in the middle of the view, and below it each change of contents as far as something solid.

const ARM = 9, BELOW = 16;

// how far it is from the eye to the wall of the world, straight ahead
function farAhead() {
    const far = ahead().map((part, axis) => (Math.sign(part) * LEVEL.bound - state.eye[axis]) / part).filter(length => length > 0);
    return Math.min(...far, 4 * LEVEL.bound);
}

// the leaves with which other contents begin, each with how far away it is
function aimedAt() {
    const far = farAhead(), what = leaf => isSolid(leaf) ? SOLID : leaves[leaf], found = [];
    let last = what(leafAt(state.eye));
    for (const [leaf, part] of passed(state.eye, moved(state.eye, ahead(), far))) {
        if (what(leaf) === last) continue;
        last = what(leaf);
        found.push([leaf, part * far]);
        if (last === SOLID) break;
    }
    return found;
}

function toldAim() {
    const lines = aimedAt().map(([leaf, far]) => `${nameOf(leaf)}, ${far.toFixed(1)} away`);
    return lines.join("\n") || "nothing, as far as the wall of the world";
}

function drawAim(pen, over, told) {
    told.hidden = !state.aim;
    if (!state.aim) return;
    told.textContent = toldAim();
    told.style.top = `calc(50% + ${BELOW}px)`;
    const [x, y] = [over.width / 2, over.height / 2];
    pen.beginPath();
    for (const [right, down] of [[ARM, 0], [0, ARM]]) {
        pen.moveTo(x - right, y - down);
        pen.lineTo(x + right, y + down);
    }
    for (const [wide, colour] of [[3, "#000000"], [1, "#ffffff"]]) {
        Object.assign(pen, { lineWidth: wide, strokeStyle: colour });
        pen.stroke();
    }
}
