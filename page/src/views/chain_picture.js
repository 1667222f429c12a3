// The whole chain as one picture: each card in a box with its constraints and diagrams, what leads from one to the next, and the verdict.
import {isStep, numberOf, titleOf} from '../cards/chains.js';
import {cut} from './dom.js';
import {drawDiagram, inRem, sizedNodes, svg} from './pictures.js';
import {SIDES} from '../texts/problems.js';

// Of more lines the first ones are drawn, of longer ones the beginning, and diagrams of no more classes.
const MOST_LINES = 16, LONGEST_DRAWN = 60, MOST_CLASSES = 20;
const LETTER = 8.2, LINE = 18, INNER = 16, HEAD = 34, WAY = 40, ASIDE = 26;

const words = (x, y, text, kind) => svg('text', {x, y, ...(kind && {class: kind})}, text);
const movedTo = (x, y, ...children) => svg('g', {transform: `translate(${x.toFixed(1)} ${y.toFixed(1)})`}, ...children);
const widthOf = lines => LETTER * Math.max(0, ...lines.map(line => line.length));

function fewLines(lines) {
    const few = lines.slice(0, MOST_LINES).map(line => cut(line, LONGEST_DRAWN)), rest = lines.length - few.length;
    return rest > 0 ? [...few, `… and ${rest} more`] : few;
}

// The diagram of one side, {picture, width, height}, where it is small enough to be read.
async function diagramOf({engine, facts}, card, side) {
    const known = facts.of(card.problem);
    if (known.isLarge) return null;
    const {classes, edges} = await known.diagram(side), {tied, free} = sizedNodes(classes, edges);
    if (classes.length > MOST_CLASSES) return null;
    const picture = drawDiagram(await engine.work('layout', tied, edges), free, `${side} diagram`),
          [, , width, height] = picture.getAttribute('viewBox').split(' ').map(Number);
    return {picture, width, height};
}

// How a card comes of the one before, in a few words.
function wayTo(card) {
    if (isStep(card)) return titleOf(card) === 'derived problem' ? 'step' : titleOf(card);
    const moved = Object.entries(card.relax || {}).filter(([from, to]) => from !== to).map(([from, to]) => `${from} → ${to}`);
    return cut([titleOf(card), moved.join(', ')].filter(Boolean).join(': '), LONGEST_DRAWN);
}

// The box of a card, with its size: {node, width, height}.
export function cardBox({head, lines, diagrams, back}) {
    const columns = SIDES.map(side => [side, ...fewLines(lines[side])]), parts = [],
          rows = Math.max(...columns.map(column => column.length));
    let x = INNER, height = HEAD + rows * LINE;
    for (const column of columns) {
        parts.push(...column.map((line, i) => words(x, HEAD + 14 + i * LINE, line, i ? '' : 'small')));
        x += widthOf(column) + ASIDE;
    }
    for (const {picture, width, height: tall} of diagrams.filter(Boolean)) {
        parts.push(movedTo(x, HEAD, ...[...picture.childNodes].filter(node => node.tagName !== 'title')));
        x += width + ASIDE;
        height = Math.max(height, HEAD + tall);
    }
    if (back) parts.push(words(INNER, (height += LINE), back, 'small'));
    const width = Math.max(x - ASIDE, widthOf([head]), widthOf([back || ''])) + INNER;
    return {
        node: svg('g', {}, svg('rect', {class: 'frame', x: 0, y: 0, width, height: height + 8, rx: 8}), words(INNER, 22, head, 'heading'),
            ...parts),
        width,
        height: height + 8
    };
}

// Boxes below one another; `ways` say how each comes of the one before, and `said` are the lines below all of them.
export function stackedPicture(boxes, ways, said, title) {
    const width = Math.max(...boxes.map(box => box.width), widthOf(said)) + 2, parts = [];
    let y = 1;
    for (const [i, box] of boxes.entries()) {
        if (i) {
            parts.push(svg('path', {class: 'line', d: `M 24 ${y} L 24 ${y + WAY - 8}`}), words(36, y + WAY / 2 + 4, ways[i], 'small'),
                svg('polygon', {class: 'head', points: `24,${y + WAY} 19.5,${y + WAY - 10} 28.5,${y + WAY - 10}`}));
            y += WAY;
        }
        parts.push(movedTo(1, y, box.node));
        y += box.height;
    }
    for (const line of said) parts.push(words(1, (y += LINE + 4), line, 'heading'));
    const size = [width, y + 8].map(length => length.toFixed(0));
    return svg('svg',
        {class: 'diagram chain', viewBox: `0 0 ${size.join(' ')}`, width: inRem(size[0]), height: inRem(size[1]), role: 'img'},
        svg('title', {}, title), ...parts);
}

// Of the chain that is shown, with what was said of it.
export async function chainPicture(bench, said) {
    const path = bench.cards.path();
    const boxes = await Promise.all(path.map(async card => {
        const [lines, ...diagrams] =
            await Promise.all([bench.linesOf(card), ...SIDES.map(side => diagramOf(bench, card, side).catch(() => null))]);
        const {back} = card === path.at(-1) ? card : {},
              closed = back && `back to problem ${back.number}: ${back.pairs.map(pair => pair.join(' → ')).join(', ')}`;
        return cardBox({
            head: `${numberOf(path, card)}  ${cut(titleOf(card), LONGEST_DRAWN)}`,
            lines,
            diagrams,
            back: closed && cut(closed, LONGEST_DRAWN)
        });
    }));
    return stackedPicture(boxes, path.map(wayTo), said, `The chain of ${titleOf(path[0])}`);
}
