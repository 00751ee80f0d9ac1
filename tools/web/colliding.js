// What stops you, as it stops a player. In clip hull 1 the box of a player is a point, which is below the eyes; you come as far as
// this point meets nothing solid, and then slide along it.

const EYES = 22, GAP = 1 / 32, MOST_BUMPS = 4, NEARLY = 1e-9;

function isInTheWay(eye) { return hull.solid[leafAt(moved(eye, [0, 0, 1], -EYES), hull)] === 1; }

// at which fraction of a way something solid is met, and the direction away from that; or null if nothing is, or you stand in it
function struck(place, way) {
    const found = passed(place, moved(place, way, 1), hull), [, part, node] = found.find(([leaf]) => hull.solid[leaf]) || [];
    if (part === undefined || hull.solid[found[0][0]]) return null;
    const at = 4 * hull.nodes[3 * node], normal = Array.from(hull.planes.subarray(at, at + 3));
    const turned = Math.sign(-dot(normal, way)) / Math.hypot(...normal);
    return { part, normal: normal.map(number => turned * number) };
}

// where a way takes you from a place of the eyes
function stopped(eye, way) {
    let place = moved(eye, [0, 0, 1], -EYES), left = way;
    const met = [];
    for (let bump = 0; bump < MOST_BUMPS; bump++) {
        const hit = struck(place, left), reach = hit ? Math.max(0, hit.part + GAP / dot(left, hit.normal)) : 1;
        place = moved(place, left, reach);
        if (!hit) break;
        met.push(hit.normal);
        left = along(left.map(number => (1 - reach) * number), met);
    }
    return moved(place, [0, 0, 1], EYES);
}

// what there is of a way that leads into none of some planes: along one of them, or along the edge of two, or nothing
function along(way, met) {
    const slides = met.map(normal => moved(way, normal, -dot(way, normal)));
    const found = slides.find(slide => met.every(normal => dot(slide, normal) > -NEARLY));
    if (found || met.length !== 2) return found || [0, 0, 0];
    const edge = cross(met[0], met[1]);
    return moved([0, 0, 0], edge, dot(way, edge) / dot(edge, edge));
}
