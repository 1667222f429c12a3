// Diagrams as SVG pictures: a box is a class of equally strong labels, an arrow leads to a stronger one.

const SVG = 'http://www.w3.org/2000/svg';

export function svg(tag, values = {}, ...children) {
    const node = document.createElementNS(SVG, tag);
    for (const [key, value] of Object.entries(values)) node.setAttribute(key, value);
    node.append(...children);
    return node;
}

const WIDEST = 32;

// Pictures grow with the letters around them.
export const inRem = length => `${(length / 16).toFixed(2)}rem`;

// A picture with small letters is drawn no smaller than this part of its size.
const LEAST_SCALE = .75;
export function keepReadable(picture) {
    picture.style.minWidth = inRem(Number(picture.getAttribute('viewBox').split(' ')[2]) * LEAST_SCALE);
    return picture;
}

// The classes as nodes with their widths: those that an arrow ties to others, and those without arrows.
export function sizedNodes(classes, edges) {
    const ends = new Set(edges.flat());
    const nodes = classes.map(labels => {
        const text = labels.join(' '), shown = text.length > WIDEST ? text.slice(0, WIDEST - 1) + '…' : text;
        return {key: labels[0], labels, shown, width: Math.max(28, shown.length * 8 + 14)};
    });
    return {tied: nodes.filter(node => ends.has(node.key)), free: nodes.filter(node => !ends.has(node.key))};
}

// `placed` is what `layout` answers of the tied nodes.
export function drawDiagram(placed, free, title) {
    const {width, height, nodes, lines} = beside(placed, free);
    // Large pictures are drawn smaller, as long as they can be read.
    const scale = Math.max(.62, Math.min(1, 470 / height, 560 / width));
    const size = {width: inRem(width * scale), height: inRem(height * scale)};
    const picture =
        svg('svg', {class: 'diagram', viewBox: `0 0 ${width.toFixed(0)} ${height}`, ...size, role: 'img'}, svg('title', {}, title));
    picture.append(...lines.map(arrowNode), ...nodes.map(classNode));
    return picture;
}

function arrowNode({edge: [weak, strong], points}) {
    const way = points.map(({x, y}) => [x, y]), end = way.length - 1;
    way[0] = [way[0][0], way[0][1] - 13];
    way[end] = [way[end][0], way[end][1] + 14];
    const d = smoothPath(way);
    return svg('g', {class: 'edge', 'data-weak': weak, 'data-strong': strong}, svg('title', {}, `${strong} may take the place of ${weak}`),
        svg('path', {class: 'near', d}), svg('path', {class: 'line', d}), arrowHead(way[end], way[end - 1]));
}

function classNode({x, y, width, labels, shown}) {
    const text = svg('text', {x, y: y + 5, 'text-anchor': 'middle'});
    if (labels.join(' ') === shown)
        labels.forEach((label, i) => text.append(...(i ? [' '] : []), svg('tspan', {'data-label': label}, label)));
    else text.append(shown, svg('title', {}, labels.join(' ')));
    const group = svg('g', {class: 'node'}, svg('rect', {x: x - width / 2, y: y - 13, width, height: 26, rx: 7}), text);
    if (labels.length === 1) group.setAttribute('data-label', labels[0]);
    return group;
}

// Classes without arrows stand beside the others, in rows.
function beside(placed, others) {
    if (!others.length) return placed;
    const rows = Math.max(1, Math.min(others.length, Math.round(placed.height / 40) || Math.ceil(Math.sqrt(others.length / 2))));
    const columns = Math.ceil(others.length / rows), widest = Math.max(...others.map(node => node.width)) + 10;
    const left = placed.width ? placed.width + 8 : 0;
    const nodes =
        others.map((node, i) => ({...node, x: left + 6 + widest * (i % columns) + widest / 2, y: 22 + 36 * Math.floor(i / columns)}));
    const height = Math.max(placed.height, 36 * Math.ceil(others.length / columns) + 8);
    return {width: left + widest * columns + 12, height, nodes: [...placed.nodes, ...nodes], lines: placed.lines};
}

// A smooth line through the points.
function smoothPath(points) {
    const text = point => point.map(n => n.toFixed(1)).join(' '), at = i => points[Math.max(0, Math.min(points.length - 1, i))];
    const towards = (i, from, to, part) => at(i).map((n, axis) => n + (at(to)[axis] - at(from)[axis]) * part);
    let d = `M ${text(points[0])}`;
    for (let i = 0; i + 1 < points.length; i++)
        d += ` C ${text(towards(i, i - 1, i + 1, 1 / 6))} ${text(towards(i + 1, i, i + 2, -1 / 6))} ${text(at(i + 1))}`;
    return d;
}

function arrowHead([x, y], [fromX, fromY]) {
    const angle = Math.atan2(y - fromY, x - fromX), [c, s] = [Math.cos(angle), Math.sin(angle)];
    const point = (along, across) => `${(x + along * c - across * s).toFixed(1)},${(y + along * s + across * c).toFixed(1)}`;
    return svg('polygon', {class: 'head', points: `${point(0, 0)} ${point(-8, 3.5)} ${point(-8, -3.5)}`});
}
