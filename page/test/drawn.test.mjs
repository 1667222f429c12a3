// Without a browser: what pictures show and where, how far undo goes, whose notes are whose, and what the engine takes for one question.
import {allOf, numbersOf, wordsOf} from './document.mjs';
import {Cards} from '../src/cards/cards.js';
import {Notes} from '../src/cards/notes.js';
import {Tries} from '../src/cards/tries.js';
import {Engine} from '../src/engine/engine.js';
import {graphPicture} from '../src/dialogs/graph_view.js';
import {drawRun} from '../src/dialogs/tree_dialog.js';
import {cardBox, stackedPicture} from '../src/views/chain_picture.js';
import {layout} from '../src/texts/layout.js';
import {tikzOf} from '../src/texts/tikz.js';
import {readGraph} from '../src/texts/graphs.js';
import {drawDiagram, sizedNodes} from '../src/views/pictures.js';
import {randomFrom, ringPlaces, treeAround} from '../src/texts/trees.js';
import {checked} from './checks.mjs';

const distance = ([x, y], [u, v]) => Math.hypot(x - u, y - v);
const nearest = (place, others) => others.reduce((best, other) => distance(place, other.at) < distance(place, best.at) ? other : best);

await checked('the heads of arrows are at the stronger label', checks => {
    const classes = [['A'], ['B'], ['C'], ['D', 'E']], edges = [['A', 'B'], ['A', 'C'], ['B', 'D'], ['C', 'D']];
    const {tied, free} = sizedNodes(classes, edges), picture = drawDiagram(layout(tied, edges), free, 'a diagram');
    const places = allOf(picture, 'node').map(node => {
        const [rect, text] = node.children, [x, y, width, height] = numbersOf(rect, 'x', 'y', 'width', 'height');
        return {label: text.textContent.split(' ')[0], at: [x + width / 2, y + height / 2]};
    });
    const shown = allOf(picture, 'edge').map(edge => {
        const [tip] = allOf(edge, 'head')[0].getAttribute('points').split(' '),
              start = /^M ([-\d.]+) ([-\d.]+)/.exec(allOf(edge, 'line')[0].getAttribute('d')).slice(1).map(Number);
        return [nearest(start, places).label, nearest(tip.split(',').map(Number), places).label];
    });
    checks.equal('from the weaker to the stronger', shown.map(String).sort(), edges.map(String).sort());
    checks.equal('as it is marked',
        allOf(picture, 'edge').map(edge => `${edge.getAttribute('data-weak')},${edge.getAttribute('data-strong')}`).sort(),
        edges.map(String).sort());
});

await checked('what is given, and a solution, at the ports of a graph', checks => {
    const lines = ['1.1 2.2', '1.2 3.3', '1.3 2.1', '2.3 3.1'], given = [['a', 'b', 'c'], ['d', 'e', 'f'], ['g', 'h', 'i']],
          labels = given.map(row => row.map(label => label.toUpperCase()));
    const text =
        `A B\n\nA B\n== given\nA B\n\nA B\n== graph\n${lines.join('\n')}\n== labels\n${given.map(row => row.join(' ')).join('\n')}\n`;
    const picture = graphPicture(readGraph(text), labels),
          rects = picture.children.filter(node => node.tag === 'rect' || node.tag === 'text');
    const nodes = rects.filter(node => node.tag === 'rect')
                      .map(rect => ({name: wordsOf(rects[rects.indexOf(rect) + 1]), at: numbersOf(rect, 'x', 'y').map(n => n + 11)}));
    const ends = allOf(picture, 'end').map(end => {
        const [path] = end.children, start = /^M ([-\d.]+) ([-\d.]+)/.exec(path.getAttribute('d')).slice(1).map(Number),
              placed = name => allOf(end, name).map(node => ({says: node.textContent, at: numbersOf(node, 'x', 'y')}));
        return [nearest(start, nodes).name, nearest(start, placed('small')).says, placed('given')[0].says, placed('output')[0].says];
    });
    const wanted = lines.join(' ').split(' ').map(end => {
        const [node, port] = end.split('.').map(Number);
        return [String(node), String(port), given[node - 1][port - 1], labels[node - 1][port - 1]];
    });
    checks.equal('each at its port', ends.map(String).sort(), wanted.map(String).sort());
});

await checked('what the algorithm outputs at the ports of a tree', checks => {
    for (const seed of [7, 8, 9]) {
        const nodes = treeAround({active: 3, passive: 2}, 3, randomFrom(seed)), at = ringPlaces(nodes);
        const standing =
            nodes.map(({isActive, depth}, v) => ({round: 2, labels: isActive && depth === 1 ? [`${v}a`, `${v}b`, `${v}c`] : null}));
        const picture = drawRun(nodes, standing);
        // Each node with its neighbours, by its ports.
        const ports = nodes.map(({parent, own}, v) => parent === null ? [] : [[own, parent]]);
        nodes.forEach(({parent, port}, v) => parent !== null && ports[parent].push([port, v]));
        const places = at.map(({x, y}, v) => ({v, at: [x, y]}));
        let count = 0;
        for (const text of allOf(picture, 'output').filter(node => node.tag === 'text')) {
            const [x, y] = numbersOf(text, 'x', 'y'), here = [x, y - 4],
                      {v} = nearest(here, places.filter(place => standing[place.v].labels));
            // The neighbour in whose direction it stands.
            const angle = (to) => Math.abs(Math.atan2(Math.sin(to), Math.cos(to))), way = Math.atan2(here[1] - at[v].y, here[0] - at[v].x);
            const [[port]] = ports[v]
                                 .map(([number, u]) => [number, angle(Math.atan2(at[u].y - at[v].y, at[u].x - at[v].x) - way)])
                                 .sort((a, b) => a[1] - b[1]);
            checks.equal(`seed ${seed}, node ${v}, port ${port}`, wordsOf(text), standing[v].labels[port - 1]);
            count++;
        }
        checks.equal('three at each node that outputs', count, 3 * standing.filter(({labels}) => labels).length);
    }
});

await checked('pictures as TikZ', checks => {
    const classes = [['A'], ['B', '(C_1)'], ['D']], edges = [['A', 'B']], {tied, free} = sizedNodes(classes, edges);
    const picture = drawDiagram(layout(tied, edges), free, 'a diagram'), lines = tikzOf(picture).split('\n');
    checks.equal('a picture of its own', [lines[1].startsWith('\\begin{tikzpicture}[x=0.75pt, y=-0.75pt'), lines.at(-2)],
        [true, '\\end{tikzpicture}']);
    const named = lines.filter(line => line.startsWith('\\node')).map(line => /at \(([-\d.]+),([-\d.]+)\) \{(.*)\};$/.exec(line).slice(1));
    const wanted =
        allOf(picture, 'node').map(node => [...numbersOf(node.children[1], 'x', 'y'), node.children[1].textContent.replace('_', '\\_')]);
    checks.equal('each class at its place', named.map(([x, y, text]) => [Number(x).toFixed(1), Number(y).toFixed(1), text]),
        wanted.map(([x, y, text]) => [x.toFixed(1), y.toFixed(1), text]));
    checks.equal('a box for each class',
        lines.filter(line => /^\\draw\[rounded corners=5.25pt, fill=white\] \(.*\) rectangle \(.*\);$/.test(line)).length, 3);
    // The tip of the arrow is where it is in the picture, and its line leads there.
    const [tip] = allOf(picture, 'head')[0].getAttribute('points').split(' '), [head] = lines.filter(line => line.startsWith('\\fill'));
    checks.check(
        'one arrow with its head', head.startsWith(`\\fill (${tip.split(',').map(Number).join()}) -- `) && head.endsWith('-- cycle;'));
    const curves = lines.filter(line => /^\\draw \(.*\) \.\. controls \(.*\) and \(.*\) \.\. \(.*\);$/.test(line)),
          numbersIn = text => text.match(/-?\d+(?:\.\d+)?/g).map(Number);
    checks.equal('and its line, by the same points', curves.map(numbersIn), [numbersIn(allOf(picture, 'line')[0].getAttribute('d'))]);
    checks.check('nothing that isn\'t drawn',
        !tikzOf(picture).includes('undefined') && !tikzOf(picture).includes('NaN') && !tikzOf(picture).includes('a diagram'));
    // Of a graph: ports, circles and quadratic curves.
    const graph = tikzOf(graphPicture(readGraph('A B\n\nA B\n== graph\n1.1 2.2\n1.2 2.1\n'), [['A', 'B'], ['B', 'A']]));
    checks.equal('of a graph',
        ['circle[radius=6pt]', 'font=\\sffamily\\scriptsize', 'font=\\sffamily\\footnotesize\\bfseries', '.. controls'].map(
            part => graph.split(part).length - 1),
        [2, 8, 4, 4]);
});

await checked('the whole chain as one picture', checks => {
    const {tied, free} = sizedNodes([['A'], ['B']], [['A', 'B']]), drawnOnce = () => {
        const picture = drawDiagram(layout(tied, [['A', 'B']]), free, 'a diagram'),
              [, , width, height] = picture.getAttribute('viewBox').split(' ').map(Number);
        return {picture, width, height};
    };
    const box = (head, lines, back) => cardBox({head, lines, diagrams: [drawnOnce(), null], back});
    const boxes = [
        box('0  first', {active: ['M^3', 'P O^2'], passive: ['M [PO]']}),
        box('1  derived problem', {active: Array.from({length: 40}, (_, i) => `line ${i}`), passive: []}, 'back to problem 0: A → B')
    ];
    const picture = stackedPicture(boxes, ['', 'step'], ['accepted: ..'], 'The chain of first'),
          [, , width, height] = picture.getAttribute('viewBox').split(' ').map(Number);
    const texts = tikzOf(picture).split('\n').filter(line => line.startsWith('\\node')).map(line => ({
        says: /\{([^]*)\};$/.exec(line)[1],
        at: /at \(([-\d.]+),([-\d.]+)\)/.exec(line).slice(1).map(Number)
    }));
    const said = texts.map(({says}) => says);
    checks.equal('what stands in it',
        [
            '0  first', 'M\\textsuperscript{3}', 'M [PO]', 'step', '1  derived problem', 'line 15', '$\\dots{}$ and 24 more', 'accepted: ..'
        ].map(text => said.some(other => other.replace('\\dots{}', '$\\dots{}$').endsWith(text))),
        Array(8).fill(true));
    checks.check('and no more lines', !said.includes('line 16'));
    checks.check('all of it within its edges',
        texts.every(({says, at: [x, y]}) => x >= 0 && y > 0 && y < height && x + says.replace(/\\\w+/g, '').length < width));
    const heights = ['0  first', 'step', '1  derived problem', 'accepted: ..'].map(text => texts.find(({says}) => says === text).at[1]);
    checks.equal('one below the other', heights, [...heights].sort((a, b) => a - b));
});

await checked('a hundred changes are undone', checks => {
    const cards = new Cards();
    for (let i = 0; i < 120; i++) cards.add(null, {kind: 'first', problem: `${i}`});
    let undone = 0;
    while (cards.done.length) {
        cards.undo();
        undone++;
    }
    checks.equal('so many', [undone, cards.cards.length], [100, 20]);
    for (let i = 0; i < 100; i++) cards.redo();
    checks.equal('and done again', cards.cards.length, 120);
    // Changes within one are undone with it.
    cards.change(() => {
        cards.add(null, {kind: 'first', problem: 'a'});
        cards.add(null, {kind: 'first', problem: 'b'});
    });
    cards.undo();
    checks.equal('several at once', cards.cards.length, 120);
});

await checked('notes are those of a problem, rows those of an input', checks => {
    const notes = new Notes({}), list = [{kind: 'hint', text: 'mine'}];
    notes.known.set(1, {problem: 'A', list});
    checks.equal('of the card', notes.of({id: 1, problem: 'A'}), list);
    checks.equal('none of another one with its number', notes.of({id: 1, problem: 'B'}), []);
    checks.equal('nor of the same problem elsewhere', notes.of({id: 2, problem: 'A'}), []);
    const tries = new Tries({views: new Map(), otherInput: () => null}), view = {card: {problem: 'A'}};
    for (const input of ['1', '2', undefined, '1']) tries.add(view, 'rounds 4', 'more than 4', {input});
    checks.equal('a row for each input', tries.of('A').map(({input}) => input), ['2', undefined, '1']);
});

await checked('answers are kept for all words of a question', async checks => {
    let sent = 0;
    globalThis.URL.createObjectURL = () => 'worker';
    globalThis.Worker = class {
        addEventListener() {}
        postMessage(request) {
            if (!request.program) return;
            sent++;
            setTimeout(() => this.onmessage({data: {status: 0, text: `${request.words.join(' ')}: ${request.input}`}}));
        }
        terminate() {}
    };
    const engine = new Engine({}, '', 2), asked = [
        ['re', ['lower', '2', '0'], 'A'], ['re', ['lower', '2', '1'], 'A'], ['re', ['lower', '2', '0'], 'B'],
        ['explore', ['lower', '2', '0'], 'A'], ['re', ['lower', '2'], 'A']
    ];
    for (const [program, words, input] of asked)
        checks.equal(`${program} ${words.join(' ')}`, (await engine.ask(program, words, input)).text, `${words.join(' ')}: ${input}`);
    checks.equal('each was asked', sent, asked.length);
    for (const [program, words, input] of asked) await engine.ask(program, words, input);
    checks.equal('and none of them again', sent, asked.length);
});

await checked('what a program writes is told while it runs', async checks => {
    const told = [], workers = [];
    globalThis.Worker = class {
        constructor() { workers.push(this); }
        addEventListener() {}
        postMessage(request) { this.request = request; }
        terminate() {}
    };
    const engine = new Engine({}, '', 2), say = (worker, data) => worker.onmessage({data}), onText = text => told.push(text);
    const job = engine.start('explore', ['settle'], 'A', {onText}), [worker] = workers;
    checks.check('the worker is asked to tell', worker.request.isTold === true);
    say(worker, {part: 'more than 2\n'});
    say(worker, {part: 'by: re lower 2 0\n'});
    checks.equal('all that was written so far', told, ['more than 2\n', 'more than 2\nby: re lower 2 0\n']);
    checks.check('it runs on', !job.isOver);
    say(worker, {status: 1, text: 'the whole'});
    checks.equal('the answer is the whole', (await job.answer).text, 'the whole');
    checks.equal('and is kept', (await engine.ask('explore', ['settle'], 'A', {onText})).text, 'the whole');
    const other = engine.start('explore', ['settle'], 'B', {onText});
    say(workers.at(-1), {part: 'not'});
    other.stop();
    checks.equal('stopped, nothing is kept', [await other.answer.catch(error => error.message), engine.answers.size], ['stopped', 1]);
    engine.start('explore', ['settle'], 'C');
    checks.check('nobody is told who didn\'t ask', workers.at(-1).request.isTold === false);
});
