// The algorithm of an upper bound: at work on a small tree, and as a table.
import {lineText} from '../views/claims.js';
import {button, code, copy, download, element, faulty, hint, plural, replace} from '../views/dom.js';
import {deliveriesOf, randomFrom, readRun, ringPlaces, runInput, treeAround} from '../texts/trees.js';
import {openWideDialog} from './dialogs.js';
import {pictureButtons} from '../views/picture_files.js';
import {inRem, keepReadable, svg} from '../views/pictures.js';
import {stagesOf} from '../cards/chains.js';

const FEW_NODES = 60, NEAR = 3, FEW_LINES = 60;

export function openTreeDialog(bench) {
    const {verdict} = bench.claim;
    if (verdict?.accepted && verdict.kind === 'upper') new TreeDialog(bench, verdict).draw();
}

class TreeDialog {
    constructor(bench, verdict) {
        const path = bench.cards.path(), {active, passive} = bench.facts.of(path[0].problem).problem;
        Object.assign(this, {
            bench,
            verdict,
            seed: 7,
            input: '',
            rounds: stagesOf(path).length - 1,
            degrees: {active: active.degree, passive: passive.degree}
        });
        this.state = element('div.state', {role: 'status', 'aria-label': 'state'});
        this.picture = element('div.picture', {});
        this.table = element('div', {});
        this.whole = element('input', {type: 'checkbox', onchange: () => this.draw()});
        this.wholeLabel = element('label', {hidden: true}, this.whole, 'the whole tree');
        openWideDialog('The algorithm of the upper bound',
            element('p', {}, element('span.good.line', {}, lineText(verdict.line)),
                hint(' Squares are active nodes, circles passive ones; small numbers are ports.')),
            this.picture, this.state,
            element('footer', {},
                button('Other port numbers',
                    () => {
                        this.seed += 1;
                        this.draw();
                    },
                    {class: 'primary'}),
                this.wholeLabel, button('Extract the table', () => this.extract()),
                button('Copy the input of re run', event => copy(this.input, event.currentTarget)),
                pictureButtons('the tree', () => 'run', () => this.picture.querySelector('svg'))),
            this.table);
    }

    async draw() {
        const turn = this.turn = {}, nodes = treeAround(this.degrees, this.rounds + 1, randomFrom(this.seed));
        if (!nodes) {
            replace(this.state, 'The tree for so many rounds has more than 2,000 nodes.');
            return;
        }
        this.input = runInput(this.verdict.certificate, nodes, deliveriesOf(nodes, this.rounds));
        const {text} = await this.bench.engine.ask('re', ['run'], this.input).catch(error => ({text: error.message}));
        if (turn !== this.turn) return;
        if (!text.startsWith('node')) {
            replace(this.state, faulty(text.trim()));
            return;
        }
        const standing = readRun(text);
        // What the neighbours of the passive node in the middle say of their shared edges.
        const around = nodes.flatMap((node, v) => node.parent === 0 && standing[v].labels ? [standing[v].labels[node.own - 1]] : []);
        replace(this.state,
            `After ${plural(this.rounds, 'round')} the neighbours of the passive node in the middle output; around it stands `,
            code(around.join(' ')), '.');
        this.wholeLabel.hidden = nodes.length <= FEW_NODES;
        const isCut = nodes.length > FEW_NODES && !this.whole.checked;
        replace(this.picture, drawRun(isCut ? nodes.filter(node => node.depth <= NEAR) : nodes, standing));
    }

    async extract() {
        replace(this.table, hint('asking…'));
        const {text} = await this.bench.engine.ask('re', ['extract'], this.verdict.certificate).catch(error => ({text: error.message}));
        const lines = text.split('\n', FEW_LINES + 1), isLong = lines.length > FEW_LINES;
        replace(this.table,
            element('div.group', {}, element('strong', {}, 'Table, view by view'),
                button('Copy', event => copy(text, event.currentTarget), {class: 'link'}),
                button('Download', () => download('algorithm.txt', text), {class: 'link'})),
            element('pre', {tabIndex: 0}, lines.slice(0, FEW_LINES).join('\n') + (isLong ? '\n… Copy and Download give all lines.' : '')));
    }
}

// The nodes in rings; `standing` says for each its round and what it outputs.
export function drawRun(nodes, standing) {
    const at = ringPlaces(nodes), xs = at.map(({x}) => x), ys = at.map(({y}) => y), margin = 24;
    const [left, top] = [Math.min(...xs) - margin, Math.min(...ys) - margin],
                 [width, height] = [Math.max(...xs) + margin - left, Math.max(...ys) + margin - top];
    const box = [left, top, width, height].map(n => n.toFixed(0));
    const picture = svg('svg', {class: 'run', viewBox: box.join(' '), width: inRem(box[2]), height: inRem(box[3]), role: 'img'},
        svg('title', {}, 'The tree with what its active nodes output'));
    const edges = nodes.map((node, v) => ({node, v})).filter(({node}) => node.parent !== null);
    for (const {node, v} of edges)
        picture.append(svg('line', {class: 'line', x1: at[v].x, y1: at[v].y, x2: at[node.parent].x, y2: at[node.parent].y}));
    for (const {node, v} of edges)
        picture.append(
            ...endTexts(nodes, standing, at, v, node.parent, node.own), ...endTexts(nodes, standing, at, node.parent, v, node.port));
    picture.append(...nodes.map((node, v) => nodeShape(node, v, standing[v], at[v])));
    return keepReadable(picture);
}

// A point beside the edge from one node to another, so far from the one and so far to the side.
function pointBeside(from, to, distance, side) {
    const dx = to.x - from.x, dy = to.y - from.y, d = Math.hypot(dx, dy);
    return {x: from.x + dx / d * distance - dy / d * side, y: from.y + dy / d * distance + dx / d * side + 4};
}

// The port number at one end of an edge, and what the active node there outputs at it.
function endTexts(nodes, standing, at, end, other, port) {
    const small = pointBeside(at[end], at[other], 20, 8), label = nodes[end].isActive && standing[end].labels?.[port - 1];
    const texts = [svg('text', {class: 'small', ...small, 'text-anchor': 'middle'}, String(port))];
    if (label) texts.push(svg('text', {class: 'output', ...pointBeside(at[end], at[other], 30, -9), 'text-anchor': 'middle'}, label));
    return texts;
}

function nodeShape({isActive}, v, {round, labels}, {x, y}) {
    const title = svg('title', {}, `node ${v}, ${isActive ? 'active' : 'passive'}, round ${round}${labels ? `: ${labels.join(' ')}` : ''}`);
    if (!isActive) return svg('circle', {class: 'passive', cx: x, cy: y, r: 9}, title);
    return svg('rect', {class: labels ? 'active output' : 'active', x: x - 9, y: y - 9, width: 18, height: 18, rx: 2}, title);
}
