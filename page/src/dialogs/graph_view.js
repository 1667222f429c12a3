// A finite graph as a picture: squares are active nodes, circles passive ones, small numbers are ports. And its window.
import {faultLine} from '../texts/certificates.js';
import {claimNodes, scopeOf} from '../views/claims.js';
import {button, code, copy, download, element, faulty, hint, intoView, replace} from '../views/dom.js';
import {say} from '../views/messages.js';
import {openWideDialog} from './dialogs.js';
import {graphInput, graphPlaces, readGraph, readSolution} from '../texts/graphs.js';
import {NumberedArea} from './numbered_area.js';
import {filledRows} from '../texts/texts.js';
import {pictureButtons} from '../views/picture_files.js';
import {inRem, keepReadable, svg} from '../views/pictures.js';
import {reportNodes} from '../views/report_view.js';

const MARGIN = 30;

// `text` is what `solve` reads; `ask(text)` answers what it prints, and `describe(words, text)` what a report on it prints, where there is one.
export function openGraphDialog(text, ask, describe = null) {
    // What was said is no word on a graph that was changed since.
    const changed = () => {
        replace(line, hint('changed since: Solve asks again'));
        paper.hidden = true;
    };
    const {problem, input, lines, given} = readGraph(text), nodes = areaOf('graph: one line for each passive node', lines, changed),
                                  areas = input === null
        ? [nodes]
        : [nodes, areaOf('what is given: one line for each active node', given.map(row => row.join(' ')), changed)];
    const rowsOf = area => filledRows(area.value), textsOf = area => rowsOf(area).map(row => row.text);
    const now = () => graphInput(problem, textsOf(nodes), input, areas[1] ? textsOf(areas[1]) : []);
    const line = element('p', {role: 'status', 'aria-label': 'what solve says'}), box = element('div.picture', {}),
          paper = element('div.paper', {hidden: true, tabIndex: 0, role: 'group', 'aria-label': 'the report on the graph'});
    // A fault at a line of the text that was sent is shown at the line that stands here: {area, line, text}.
    const faultOf = said => {
        const first = now().split('\n').indexOf('== graph') + 1, sent = faultLine(said) - first - 1, count = rowsOf(nodes).length;
        const [area, row] = sent < count ? [nodes, sent] : [areas[1], sent - count - 1], found = area && rowsOf(area)[row];
        return found && {area, line: found.line, text: said.replace(/^input: line \d+: /, '')};
    };
    const draw = async () => {
        const asked = now(), graph = readGraph(asked);
        replace(line, hint('asking…'));
        const {line: said, labels} = readSolution((await ask(asked).catch(error => ({text: error.message}))).text);
        if (asked !== now()) return;
        const fault = faultOf(said);
        areas.forEach(area => area.number(fault?.area === area ? fault.line : 0));
        replace(line, fault ? faulty(`line ${fault.line}: ${fault.text}`) : claimNodes(said, 'span.line', scopeOf(said)), hint(' · '),
            code('explore solve < graph.txt'));
        replace(box, graph && !fault ? graphPicture(graph, labels) : null);
    };
    openWideDialog('A finite graph', line, box,
        hint(`Squares are active nodes, circles passive ones; small numbers are ports.${
            input === null
                ? ''
                : ' Labels in italics are what is given.'} Nodes with equal views output the same, so an algorithm for the tree gives a solution here.`),
        element('label.below', {}, hint('One line for each passive node: its ends, port q of active node u as u.q'), nodes.node),
        areas[1] &&
            element('label.below', {}, hint('What is given: one line for each active node, its input labels in the order of ports'),
                areas[1].node),
        element('footer', {}, button('Solve', draw, {class: 'primary'}),
            button('Copy problem and graph', event => copy(now(), event.currentTarget)),
            button('Download', () => download('graph.txt', now())), describe && reportButtons(describe, now, paper),
            button(
                'Copy the command', event => copy('explore solve < graph.txt', event.currentTarget), {title: 'explore solve < graph.txt'}),
            pictureButtons('the graph', () => 'graph', () => box.querySelector('svg'))),
        paper);
    draw();
}

// The report on the graph that stands there by `now()`, to be read in `paper` or copied; what the program says where it writes none.
function reportButtons(describe, now, paper) {
    const read = said => {
        replace(paper, reportNodes(said));
        paper.hidden = false;
        intoView(paper, 'start');
    };
    const act = (text, words, title, take) => button(text, async event => {
        const from = event.currentTarget, asked = now(), answer = await describe(words, asked).catch(error => ({text: error.message}));
        // It is no report on a graph that was changed since.
        if (asked !== now()) return;
        if (answer.status === 0) take(answer.text, from);
        else say(`explore ${words.join(' ')}: ${answer.text.trim().split('\n', 1)[0]}`, true);
    }, {title});
    const plain = 'explore describe, of the problem and the graph';
    return [
        act('Read its report', ['describe'], plain, read), act('Copy its report', ['describe'], plain, copy),
        act('Copy its report for LaTeX', ['describe', 'latex'], 'explore describe latex, of the problem and the graph', copy)
    ];
}

function areaOf(label, lines, onInput) {
    const area = new NumberedArea({label, fewest: Math.min(10, lines.length + 1), most: 10, onInput});
    area.value = lines.join('\n');
    return area;
}

// `labels` are those of a solution, for each active node in the order of its ports, or null.
export function graphPicture(graph, labels = null) {
    const {active, passive} = graphPlaces(graph), all = [...active, ...passive], xs = all.map(({x}) => x), ys = all.map(({y}) => y);
    const [left, top] = [Math.min(...xs) - MARGIN, Math.min(...ys) - MARGIN],
                 size = [Math.max(...xs) + MARGIN - left, Math.max(...ys) + MARGIN - top].map(n => n.toFixed(0));
    const title = `${active.length} active nodes; passive nodes: ${graph.lines.join('; ')}`;
    const picture = svg('svg', {
        class: 'run graph',
        viewBox: `${left.toFixed(0)} ${top.toFixed(0)} ${size.join(' ')}`,
        width: inRem(size[0]),
        height: inRem(size[1]),
        role: 'img'
    },
        svg('title', {}, title));
    graph.passive.forEach(
        (ends, s) => ends.forEach((end, i) => picture.append(endNode(active[end.node - 1], passive[s], bendOf(ends, i), end.port, i + 1,
                                      labels?.[end.node - 1]?.[end.port - 1], graph.given?.[end.node - 1]?.[end.port - 1]))));
    active.forEach(({x, y}, u) => picture.append(svg('rect', {class: 'active', x: x - 11, y: y - 11, width: 22, height: 22, rx: 3}),
                       svg('text', {x, y: y + 5, 'text-anchor': 'middle'}, String(u + 1))));
    passive.forEach(({x, y}, s) => picture.append(svg(
                        'circle', {class: 'passive', cx: x, cy: y, r: 8}, svg('title', {}, `passive node ${s + 1}: ${graph.lines[s]}`))));
    return keepReadable(picture);
}

// How far an end bends aside: several ends of one passive node at the same active node part.
function bendOf(ends, i) {
    const same = ends.map((end, k) => ({node: end.node, k})).filter(({node}) => node === ends[i].node),
          at = same.findIndex(({k}) => k === i);
    return (at - (same.length - 1) / 2) * 44;
}

// One end of a passive node, with its two ports, what the active node outputs at it, and what it is given there.
function endNode(from, to, bend, port, passivePort, label, given) {
    const dx = to.x - from.x, dy = to.y - from.y, d = Math.hypot(dx, dy) || 1,
          middle = {x: (from.x + to.x) / 2 - dy / d * bend, y: (from.y + to.y) / 2 + dx / d * bend};
    const at = (t, aside) => ({
        x: (1 - t) ** 2 * from.x + 2 * t * (1 - t) * middle.x + t ** 2 * to.x - dy / d * aside,
        y: (1 - t) ** 2 * from.y + 2 * t * (1 - t) * middle.y + t ** 2 * to.y + dx / d * aside + 4
    });
    const aside = bend < 0 ? -10 : 10, small = (place, text) => svg('text', {class: 'small', ...place, 'text-anchor': 'middle'}, text);
    const parts = [
        svg('path', {
            class: 'line',
            d: `M ${from.x.toFixed(1)} ${from.y.toFixed(1)} Q ${middle.x.toFixed(1)} ${middle.y.toFixed(1)} ${to.x.toFixed(1)} ${
                to.y.toFixed(1)}`
        }),
        small(at(.28, aside), String(port)), small(at(.8, aside), String(passivePort))
    ];
    if (label) parts.push(svg('text', {class: 'output', ...at(.48, aside * 1.5), 'text-anchor': 'middle'}, label));
    if (given) parts.push(svg('text', {class: 'given', ...at(label ? .65 : .52, aside * 1.5), 'text-anchor': 'middle'}, given));
    return svg('g', {class: 'end'}, ...parts);
}
