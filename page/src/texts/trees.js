// Finite trees on which the algorithm of an upper bound works: the input of `re run`, and what it prints.

const MOST_NODES = 2000;

// Numbers from a seed, the same ones each time.
export function randomFrom(seed) {
    let state = seed;
    return () => {
        state = state * 1664525 + 1013904223 >>> 0;
        return state / 4294967296;
    };
}

function shuffledPorts(degree, random) {
    const ports = Array.from({length: degree}, (_, i) => i + 1);
    for (let i = degree - 1; i > 0; i--) {
        const j = Math.floor(random() * (i + 1));
        [ports[i], ports[j]] = [ports[j], ports[i]];
    }
    return ports;
}

// A full tree around a passive node, deep enough that all its neighbours output after radius - 1 rounds: nodes
// {depth, isActive, parent, port, own}, `port` that of the parent and `own` the node's. Null where it has too many nodes.
export function treeAround({active, passive}, radius, random) {
    const nodes = [{depth: 0, isActive: false, parent: null, free: shuffledPorts(passive, random)}];
    for (let at = 0; at < nodes.length; at++) {
        const {depth, isActive, free} = nodes[at];
        if (depth > radius) continue;
        for (const port of free) {
            if (nodes.length >= MOST_NODES) return null;
            // Nodes at the rim have one edge alone, so its port is 1.
            const [own, ...rest] = depth + 1 > radius ? [1] : shuffledPorts(isActive ? passive : active, random);
            nodes.push({depth: depth + 1, isActive: !isActive, parent: at, port, own, free: rest});
        }
    }
    return nodes;
}

// All messages, round by round: lines `node port round`.
export function deliveriesOf(nodes, rounds) {
    const ports = nodes.map(node => node.parent === null ? [] : [node.own]);
    for (const node of nodes)
        if (node.parent !== null) ports[node.parent].push(node.port);
    const lines = [];
    for (let round = 0; round < rounds; round++)
        ports.forEach((list, v) => [...list].sort((a, b) => a - b).forEach(port => lines.push(`${v} ${port} ${round}`)));
    return lines;
}

export function runInput(certificate, nodes, deliveries) {
    const joins = nodes.slice(1).map(({parent, port, own}) => `${parent} ${port} ${own}`);
    return [certificate.trimEnd(), '== tree', 'passive', ...joins, '== deliveries', ...deliveries].join('\n') + '\n';
}

// The lines `node v round r: A B` of `re run`: {round, labels} of each node, labels null where it doesn't output.
export const readRun = text => text.trim().split('\n').map(line => {
    const found = /^node \d+ round (\d+)(?:: (.*))?$/.exec(line);
    return {round: Number(found[1]), labels: found[2] ? found[2].split(' ') : null};
});

// Where the nodes stand when the tree is drawn in rings: [{x, y}].
export function ringPlaces(nodes) {
    const children = nodes.map(() => []), leaves = nodes.map(() => 1), places = [];
    nodes.forEach((node, v) => {
        if (node.parent !== null) children[node.parent].push(v);
    });
    for (let v = nodes.length - 1; v >= 0; v--)
        if (children[v].length) leaves[v] = children[v].reduce((sum, child) => sum + leaves[child], 0);
    const deepest = nodes.reduce((most, {depth}) => Math.max(most, depth), 1),
          ring = Math.max(78, 16 * leaves[0] / (2 * Math.PI) / deepest);
    const place = (v, from, to) => {
        const angle = (from + to) / 2, radius = nodes[v].depth * ring;
        places[v] = {x: radius * Math.cos(angle), y: radius * Math.sin(angle)};
        let start = from;
        for (const child of children[v]) {
            const end = start + (to - from) * leaves[child] / leaves[v];
            place(child, start, end);
            start = end;
        }
    };
    place(0, -Math.PI / 2, 1.5 * Math.PI);
    return places;
}
