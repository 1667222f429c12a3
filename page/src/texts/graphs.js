// Finite port-numbered graphs, as `explore cover` prints them and `solve` reads them: behind `== graph` one line for each passive node,
// its ends `u.q`, port q of active node u, in the order of its ports. With an input problem, which stands behind `== given`, come `== labels` and
// a line for each active node, with what it is given at its ports.

export const isGraphText = text => /^== graph[ \t\r]*$/m.test(text);

const section = word => new RegExp(`^== ${word}[ \\t\\r]*$`, 'm');
const linesIn = text => text.split('\n').map(line => line.trim()).filter(Boolean);

// {problem, input, lines, count, passive: [[{node, port}]], given: [[label]]}, `count` that of active nodes, `input` the text of an input
// problem and `given` its labels, null where there is none; null where it has another form.
export function readGraph(text) {
    const [before, behind = ''] = text.split(section('graph')), [problem, input = null] = before.split(section('given')),
                            [edges, labels = null] = behind.split(section('labels')), lines = linesIn(edges);
    const ends = lines.map(line => line.split(/\s+/).map(end => /^(\d{1,3})\.(\d{1,3})$/.exec(end)));
    if (!lines.length || ends.some(row => row.includes(null))) return null;
    const passive = ends.map(row => row.map(([, node, port]) => ({node: Number(node), port: Number(port)})));
    const given = labels === null ? null : linesIn(labels).map(line => line.split(/\s+/));
    return {
        problem: problem.trim(),
        input: input === null ? null : input.trim(),
        lines,
        count: Math.max(...passive.flat().map(({node}) => node)),
        passive,
        given
    };
}

// `given` are the lines behind `== labels`, where there is an input problem.
export const graphInput = (problem, lines, input = null, given = []) => [problem.trim(),
    ...(input === null ? [] : ['== given', input.trim()]), '== graph', ...lines, ...(input === null ? [] : ['== labels', ...given]), '']
                                                                            .join('\n');

// What `solve` answers: its first line, and the labels of each active node where there is a solution.
export function readSolution(text) {
    const [line, ...rows] = text.trim().split('\n');
    return {line, labels: line.startsWith('yes') ? rows.map(row => row.trim().split(/\s+/)) : null};
}

const APART = 46, LOOP = 74;

// Where the nodes stand: {active: [{x, y}], passive: [{x, y}]}. Active nodes stand in a circle, a passive one between its ends, or
// outside of the circle where all of them are at one node.
export function graphPlaces({count, passive}) {
    const radius = count < 2 ? 0 : Math.max(95, count * 34),
          angles = Array.from({length: count}, (_, i) => Math.PI + 2 * Math.PI * i / count);
    const active = angles.map(angle => ({x: radius * Math.cos(angle), y: radius * Math.sin(angle)}));
    const groups = new Map();
    passive.forEach((ends, s) => {
        const nodes = [...new Set(ends.map(({node}) => node))].sort((a, b) => a - b), key = nodes.join(' ');
        groups.set(key, {nodes, members: [...(groups.get(key)?.members || []), s]});
    });
    const places = [];
    for (const {nodes, members} of groups.values())
        members.forEach((s, i) => {
            places[s] =
                nodes.length === 1 ? loopPlace(active, angles, nodes[0], i, members.length) : middlePlace(active, nodes, i, members.length);
        });
    return {active, passive: keptApart(places, active)};
}

function loopPlace(active, angles, node, i, count) {
    const turn = active.length === 1 ? 2 * Math.PI * i / count : angles[node - 1] + (i - (count - 1) / 2) * Math.min(.9, 3 / count),
          {x, y} = active[node - 1];
    return {x: x + LOOP * Math.cos(turn), y: y + LOOP * Math.sin(turn)};
}

// Between two nodes that aren't neighbours in the circle it stands nearer to the first one, so that lines that cross keep their nodes apart.
function middlePlace(active, nodes, i, count) {
    const places = nodes.map(node => active[node - 1]), [first, last] = [places[0], places.at(-1)];
    const length = Math.hypot(last.x - first.x, last.y - first.y) || 1, aside = (i - (count - 1) / 2) * APART,
          around = nodes.at(-1) - nodes[0];
    const isAcross = nodes.length === 2 && around !== 1 && around !== active.length - 1, part = isAcross ? .37 : .5;
    const mean = axis => nodes.length === 2 ? first[axis] + (last[axis] - first[axis]) * part
                                            : places.reduce((sum, place) => sum + place[axis], 0) / places.length;
    return {x: mean('x') - (last.y - first.y) / length * aside, y: mean('y') + (last.x - first.x) / length * aside};
}

// Passive nodes that stand too near to another node are moved away from it, a little each time.
function keptApart(places, active) {
    for (let sweep = 0; sweep < 60; sweep++) {
        for (const [s, place] of places.entries()) {
            for (const other of [...active, ...places.filter((_, t) => t !== s)]) {
                const dx = place.x - other.x, dy = place.y - other.y, distance = Math.hypot(dx, dy);
                if (distance >= APART - 8) continue;
                // Nodes at one place part in directions of their own.
                const angle = distance < .5 ? 2.4 * s : Math.atan2(dy, dx), push = (APART - 8 - distance) / 2;
                place.x += push * Math.cos(angle);
                place.y += push * Math.sin(angle);
            }
        }
    }
    return places;
}
