// Begins, and draws again where something changed.

const view = document.getElementById("view"), over = document.getElementById("over"), told = document.getElementById("told");
const aimed = document.getElementById("aimed"), listed = document.getElementById("models");
let before = null;

function fit(canvas, scale) {
    const [wide, high] = [innerWidth, innerHeight].map(size => Math.round(size * scale));
    if (canvas.width !== wide || canvas.height !== high) Object.assign(canvas, { width: wide, height: high });
}

function show() {
    fit(view, devicePixelRatio);
    fit(over, 1);
    const pen = over.getContext("2d"), matrix = draw(view);
    pen.clearRect(0, 0, over.width, over.height);
    if (state.numbers) drawNumbers(pen, matrix, over);
    if (state.marks) drawNames(pen, matrix, over);
    if (state.list) drawModelNames(pen, matrix, over);
    drawPlan(pen, over);
    listModels(listed);
    drawAim(pen, over, aimed);
    document.getElementById("help").hidden = !state.help;
    told.textContent = tell();
}

function frame(now) {
    if (held_down.size) walk(before === null ? 0 : Math.min(0.1, (now - before) / 1000));
    before = held_down.size ? now : null;
    if (state.changed) show();
    state.changed = false;
    requestAnimationFrame(frame);
}

try {
    prepare(view);
    obey(new URLSearchParams(location.hash.slice(1)));
    listen(view);
    requestAnimationFrame(frame);
} catch (fault) {
    told.textContent = `Nothing is drawn: ${fault.message}.`;
}
