// Brush models, such as doors and lifts: which of them are drawn, and a list of what each is.

const models = LEVEL.models || [];
// where the surfaces of each begin: behind those of the leaves
const modelFrom = begins(models.map(model => model.surfaces)).map(at => at + surfaceFrom[leaves.length]);
// the places of those that are switched off
const switchedOff = new Set();
const MODEL_NAME = "#f0b070", FAINT = "#a09890";

function surfacesOfModel(at) { return [modelFrom[at], modelFrom[at + 1]]; }

// whether a leaf is shown that a model touches
function isModelIn(at, shown) { return models[at].leaves.some(number => shown[numbered[number]]); }

// the models that are switched on, by their places
function modelsOn() { return state.models ? Array.from(models.keys()).filter(at => !switchedOff.has(at)) : []; }

function switchModel(at) {
    if (!switchedOff.delete(at)) switchedOff.add(at);
    state.changed = true;
}

// what is known of a model, and whether it is drawn
function toldModel(at) {
    const { told, box, leaves: touched } = models[at], count = touched.length === 1 ? "1 leaf" : `${touched.length} leaves`;
    const how = drawn.models.includes(at) ? "drawn" : modelsOn().includes(at) ? "not in the row" : "off";
    return `${told}: ${box.slice(0, 3)} to ${box.slice(3)}, ${count}, ${how}`;
}

// the list, each line of which switches its model off and on
function listModels(list) {
    list.hidden = !state.list;
    if (list.hidden || list.dataset.mark === drawn.mark) return;
    list.dataset.mark = drawn.mark;
    list.replaceChildren(...models.map((_, at) => {
        const line = document.createElement("div");
        line.textContent = toldModel(at);
        line.style.color = drawn.models.includes(at) ? MODEL_NAME : FAINT;
        line.onclick = () => switchModel(at);
        return line;
    }));
    if (!models.length) list.textContent = LEVEL.models ? "the level has no brush models" : "no brush models, since the tree was made without --models";
}

// the names of the models that are drawn, in the middles of their boxes, while they are listed
function drawModelNames(pen, matrix, over) {
    Object.assign(pen, { font: "12px sans-serif", textAlign: "center", lineJoin: "round", lineWidth: 3, strokeStyle: "#000000", fillStyle: MODEL_NAME });
    for (const at of drawn.models) {
        const { told, box } = models[at], place = onPage(matrix, [0, 1, 2].map(axis => (box[axis] + box[axis + 3]) / 2), over);
        if (!place || place[2] > NAMED) continue;
        pen.strokeText(told, place[0], place[1]);
        pen.fillText(told, place[0], place[1]);
    }
}
