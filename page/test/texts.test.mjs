// The modules that handle texts alone, against the native program.
import * as texts from '../src/texts/texts.js';
import * as problems from '../src/texts/problems.js';
import * as certificates from '../src/texts/certificates.js';
import * as chains from '../src/cards/chains.js';
import * as sessions from '../src/keeping/sessions.js';
import {catalogueLine, namedForCatalogue, rowsFound, rowsOfTable, tableName, valuesIn} from '../src/texts/catalogue.js';
import {graphInput, graphPlaces, isGraphText, readGraph, readSolution} from '../src/texts/graphs.js';
import {givenFault, givenInput, inputCommand, raisedInput, readFit, readGiven, withoutInput} from '../src/texts/inputs.js';
import {InputNames} from '../src/cards/input_names.js';
import {bytesOf, lettersOf} from '../src/texts/letters.js';
import {inOneLine, problemsIn, tableOf} from '../src/texts/lists.js';
import {findRelaxation, findRenaming} from '../src/texts/maps.js';
import {blocksOfReport, partsOfText, roundsOfGraph} from '../src/texts/reports.js';
import {claimsBeyond, isEvidence, partsOfEvidence, refusedPart} from '../src/texts/evidence.js';
import {commandsIn, leavesQuestion, nameLabels, readSettled, wholeLines} from '../src/texts/settled.js';
import {clauseFault} from '../src/texts/certificates.js';
import {inWords, modelOf, scopeOf} from '../src/views/claims.js';
import {nameOfJob} from '../src/engine/job_names.js';
import {sharedIn} from '../src/keeping/sessions.js';
import * as kept from '../src/keeping/kept.js';
import {isUnknown, wordsIn} from '../src/engine/words.js';
import {texText} from '../src/texts/tikz.js';
import {deliveriesOf, randomFrom, readRun, runInput, treeAround} from '../src/texts/trees.js';
import {checked} from './checks.mjs';
import {answer, catalogueTables, certificatesOfGallery, claimsOfLine, example, linesOfTable, namesIn, natively, randomFrom as numbersFrom, re} from './place.mjs';

// The test that runs.
let checks = null;
const is = (what, found, wanted) => checks.equal(what, found, wanted), about = (name, run) => checked(name, now => {
    checks = now;
    return run();
});
const filled = text => texts.filledLines(text);

await about('parts of evidence', () => {
    const problem = 'A\n\nA\n', flexible = `${problem}== flexible\nA\n`, graph = `${problem}== graph\n1.1\n`,
          lower = `== certificate 1 lower\n${problem}== end\n`, given = `${lower}== given\n${problem}`,
          greedy = `${problem}== greedy\nactive\nA\n`, all = [flexible, graph, lower, given, greedy, problem], text = all.join('=====\n'),
          parts = partsOfEvidence(text);
    is('what it is', [text, `${problem}=====\n`, flexible, greedy, `${problem}== length\n1\n`].map(isEvidence),
        [true, true, true, true, true]);
    is('and what not', [problem, graph, lower, given, `${problem}======\n`, `% =====\n${problem}`].map(isEvidence), Array(6).fill(false));
    is('the bytes of each', parts.map(part => part.text), all);
    const lines = text.split('\n'), shown = parts.map(({first, last}) => `${lines.slice(first - 1, last).join('\n')}\n`);
    is('their lines', shown, all);
    is('what they hold', parts.map(({holds, isOpened}) => [holds, isOpened]), [
        ['a flexible set of labels', false], ['a graph', true], ['a lower bound', true], ['a bound given an input', true],
        ['labels for one node after another', false], ['no part that judge knows', false]
    ]);
    is('upper bounds and fixed points', ['upper', 'fixed 0'].map(kind => partsOfEvidence(lower.replace('lower', kind))[0].holds),
        ['an upper bound', 'a fixed point']);
    is('how many levels', partsOfEvidence(`${problem}== length\n1\n`)[0].holds, 'the number of its levels of labels');
    is('an empty part, and one without an end',
        partsOfEvidence(`=====\n${problem}=====\nA`).map(({first, last, text}) => [first, last, text]),
        [[1, 1, ''], [2, 4, problem], [6, 6, 'A']]);
    is('lines with other bytes are no joints',
        ['===== ', ' =====', '======', '=====\r', '===='].map(line => partsOfEvidence(`${problem}${line}\n${problem}`).length),
        [1, 1, 1, 1, 1]);
    is('the part that is refused', refusedPart('part 2: no: solvable\n', parts), {number: 2, line: parts[1].first});
    is('a fault at its line of the whole text', refusedPart('part 4: input: line 3: not a list of items\n', parts),
        {number: 4, line: parts[3].first + 2});
    const settled =
        'more than 3, at most 4\nby: re lower 3 0\nwith identifiers: constant, more than 3, at most 4\nliterature: order N\nnote: labels that fit no tree: B\n';
    is('what no part shows',
        [
            'holds: at most 4\nholds: with identifiers: constant, at most 4\n',
            'holds: more than 3, at most 4\nholds: with identifiers: constant, more than 3, at most 4\n', 'nothing follows\n'
        ].map(said => claimsBeyond(settled, said)),
        [settled.split('\n').filter((_, i) => i % 2 === 0).slice(0, 2), [], settled.split('\n').filter((_, i) => i % 2 === 0).slice(0, 2)]);
    is('without a solution there is nothing more',
        claimsBeyond('no solution\nby: explore flexible\n', 'holds: with identifiers: no solution\n'), []);
    is('what is said of no part',
        ['limit: more than 16 parts\n', 'holds: more than 1\n', 'part 7: no\n', ''].map(said => refusedPart(said, parts)),
        [null, null, null, null]);
});

await about('the model and the class beside a line', () => {
    const ports = 'with port numbers alone, by deterministic algorithms on infinite trees';
    for (const [line, scope] of Object.entries({
             'holds: not solvable in any number of rounds with port numbers alone': 'by deterministic algorithms on infinite trees',
             'holds: more than 3 (more than 1 rounds of the graph)': ports,
             'holds: more than 1, at most 4': ports,
             'holds: exactly 2 (1 rounds of the graph)': ports,
             'holds: at most 4': ports,
             'holds: with identifiers: order log* N': 'by deterministic algorithms with identifiers below N on finite forests of N nodes',
             'holds: given that input, not solvable in 1 or fewer rounds':
                 'with port numbers and that input, by deterministic algorithms on infinite trees',
             'accepted: not solvable in 1 or fewer rounds': ports,
             'accepted: solvable in 1 rounds': '',
             'nothing follows': '',
             'part 2: no: not flexible': '',
         }))
        is(line, scopeOf(line), scope);
});

await about('texts in TikZ', () => {
    is('powers are raised', texText('M^3 [PO]^12'), 'M\\textsuperscript{3} [PO]\\textsuperscript{12}');
    is('what TeX would take for its own', texText('(IN_1) 50% #1 a&b {x} ~ \\ ^ $'),
        '(IN\\_1) 50\\% \\#1 a\\&b \\{x\\} \\textasciitilde{} \\textbackslash{} \\textasciicircum{} \\$');
    is('arrows and dots', texText('A → B…'), 'A $\\to$ B\\dots{}');
});

await about('notation', () => {
    is('brackets', texts.bracketed('M PO\nO O'), 'M [PO]\nO O');
    is('brackets of long names', texts.bracketed('(IN)O^2 [AB] A^3'), '[(IN)O]^2 [AB] A^3');
    is('no brackets to add', [texts.bracketed('M [PO]'), texts.bracketed('%3')], [null, null]);
    is('places', texts.placesOf('A [B(CD)]^2'), [['A'], ['B', '(CD)'], ['B', '(CD)']]);
    is('no items', texts.itemsOf('A PO'), null);
    is('labels', texts.labelsIn('(A) (AB) C'), ['A', '(AB)', 'C']);
    is('a configuration', texts.configText(['(a)', 'B', 'B', 'A'].map(texts.labelOf)), 'A B^2 a');
    is('LaTeX', texts.latexOf({active: ['A [B(c_d)]^2'], passive: []}).includes('\\mathsf{A}\\,[\\mathsf{B}\\mathsf{c\\_d}]^{2}'), true);
});

await about('bytes as letters', () => {
    const number = numbersFrom(3);
    for (let size = 0; size < 80; size++)
        for (const made of [() => number(256), () => 0, () => 255]) {
            const bytes = Array.from({length: size}, made), letters = lettersOf(bytes);
            is(`${size} bytes`, [...bytesOf(letters)], bytes);
            is('letters that no text of JSON and no markup changes', /^[!-~]*$/.test(letters) && !/["<\\]/.test(letters), true);
        }
    is('two for 13 bits', lettersOf(new Uint8Array(1300)).length, 1600);
});

// All problems of the examples and what the program derives of them.
const firsts = [
    ...namesIn('problems').filter(name => !name.startsWith('without')).map(name => `problems/${name}`), 'first/independent.txt',
    'first/sinkless.txt'
].map(name => answer(['read'], example(name)));
const canonical =
    [...firsts, answer(['family', 'colouring', '3', '3', '3']), answer(['read'], 'A B\n\n%3\n'), answer(['read'], '%2\n\nA^3\n')];
for (const first of firsts)
    for (const n of ['1', '2', '3']) {
        const {status, text} = re(['step', n], first);
        if (status === 0) canonical.push(certificates.readStep(text).problem);
    }

await about('lists of problems, and the table of what is known of them', () => {
    const read = list => problemsIn(list).map(({name, text}) => [name, re(['read'], text)]),
          said = (...lines) => re(['read'], lines.join('\n'));
    is('one a line', read('M^3, P O^2 / M [PO], O^2\n\n(IN)^2 (OUT)/(IN) (OUT)\r\n'),
        [['', said('M^3', 'P O^2', '', 'M [PO]', 'O^2')], ['', said('(IN)^2 (OUT)', '', '(IN) (OUT)')]]);
    is('as the catalogue has them, numbers and answers and all', read('AAB ABB / AB BB\n17\tAA / AA AB\texactly 0 (0 rounds / x)\tre zero'),
        [['', said('A A B', 'A B B', '', 'A B', 'B B')], ['17', said('A A', '', 'A A', 'A B')]]);
    is('a side that is one line, and none', read('O [IO]^2 / I O\n%3 / A^2'),
        [['', said('O [IO]^2', '', 'I O')], ['', said('%3', '', 'A^2')]]);
    is('whole texts', read('# mine\nM^3\nP O^2\n\nM [PO]\nO^2\n---\nO [IO]^2\n\nI O\n-----\n\n'),
        [['mine', said('M^3', 'P O^2', '', 'M [PO]', 'O^2')], ['', said('O [IO]^2', '', 'I O')]]);
    is('one whole text', read('M^3\nP O^2\n\nM [PO]\nO^2\n').length, 1);
    is('none', [problemsIn(''), problemsIn(' \n')], [[], []]);
    for (const text of canonical)
        if (text.length < 3000) is('in one line, and back', re(['read'], problemsIn(inOneLine(text))[0].text), {status: 0, text});
    const rows = [
        {
            text: 'A^3\n\nA^2\n',
            claims: readSettled('exactly 0\nby: re zero\nwith identifiers: constant\nby: re zero\nby: x y\n'),
            time: 1234
        },
        {name: 'b\tc', text: 'A', fault: 'input: line 2:\n a block is missing'}, {text: 'B^3\n\nB^2\n'}
    ];
    is('the table', tableOf(rows).split('\n').slice(1), [
        '1\tA^3 / A^2\texactly 0\tre zero\tconstant\tre zero; x y\t1.2', 'b c\tA\tinput: line 2: a block is missing\t\t\t\t',
        '3\tB^3 / B^2\t\t\t\t\t', ''
    ]);
    is('which is a list again', problemsIn(tableOf([rows[0]]).split('\n')[1])[0], {name: '1', text: 'A^3\n\nA^2\n'});
});

await about('labels that fit no tree', () => {
    const lost = (...lines) => problems.lostLabels(re(['read'], lines.join('\n')).text);
    is('none', lost('M^3', 'P O^2', '', 'M [PO]', 'O^2'), {rounds: [], isAll: false});
    is('one behind the other', lost('A^3', 'B C^2', '', 'B C', 'A D'), {rounds: [['D'], ['A']], isAll: false});
    is('all of them', lost('A^3', 'B C^2', '', 'B D', 'A D').isAll, true);
    for (const text of canonical) {
        if (text.length > 3000) continue;
        const said = natively('explore', ['flexible'], text).text;
        is('as explore flexible says it', problems.lostLabels(text).isAll, said.startsWith('no solution'));
    }
});

await about('problems', () => {
    for (const text of canonical) {
        const {labels, active, passive} = problems.describe(text), [first, second] = text.split('\n\n');
        const count = block => block.startsWith('%') ? 0 : filled(block).length;
        is('numbers of configurations', [active.count, passive.count], [count(first), count(second)]);
        is('labels of a problem', labels, texts.sortedSet(problems.SIDES.flatMap(side => problems.configsOf(text, side)).flat()));
        is('degrees', problems.SIDES.map(side => problems.configsOf(text, side)[0]?.length ?? problems.describe(text)[side].degree),
            [active.degree, passive.degree]);
        is('exchanged twice', problems.exchanged(problems.exchanged(text)), text);
        is('sides',
            problems.problemText(
                problems.describe(text), ...problems.SIDES.map(side => problems.blockOf(filled(problems.sideText(text, side))))),
            text);
        const starts = problems.lineStarts(text);
        is('lines', [...starts.slice(0, -1)].map((start, i) => text.slice(start, starts[i + 1] - 1)), text.split('\n'));
        // Groups spell the same problem, in no more lines.
        const {status, text: few} = natively('explore', ['condense'], text);
        is('groups', [status, answer(['read'], few)], [0, text]);
        is('few lines', filled(few).length <= filled(text).length, true);
        is('sides in groups', problems.SIDES.map(side => problems.sideText(few, side)),
            few.trim().split('\n\n').map(block => block.startsWith('%') ? '' : block));
    }
    const lines = problems.mappedLines({active: ['A [BC]^2', 'B A^2'], passive: []}, [['A', 'B'], ['B', 'B'], ['C', 'C']]);
    is('a map of lines as written', lines, {active: ['B [BC]^2', 'B^3'], passive: []});
});

await about('certificates', () => {
    // Certificates: what is read of a chain and written again is the same text.
    for (const name of certificatesOfGallery()) {
        const text = example(`gallery/${name}`), bound = certificates.readCertificate(text),
              side = bound.kind === 'upper' ? 'upper' : 'lower';
        const path = [
            {kind: 'first', problem: bound.first, side},
            ...bound.steps.map(step => ({kind: 'given', side, ...step, isByRows: bound.version === 2}))
        ];
        if (bound.kind === 'fixed') path.at(-1).back = {number: bound.back, pairs: bound.pairs};
        is(`${name} comes back`, chains.certificateOf(path, bound.kind, card => card.problem), text);
    }
    is('a certificate before a tree', certificates.certificateAlone(example('first/orientation-run.txt')),
        example('first/orientation-upper.txt'));
    for (const name of ['sinkless-orientation-3', 'maximal-independent-set-3-lower', 'three-colouring-3']) {
        const given = example(`gallery/${name}.txt`), bound = certificates.readCertificate(given);
        const steps = bound.steps.map(step => ({
            problem: step.problem,
            rows: step.rows,
            images: certificates.imagesOf({rows: step.rows, entries: certificates.lowerEntries(step.map)})
        }));
        const text = certificates.writeCertificate({...bound, steps});
        is(`${name} by rows`, [text.startsWith('== certificate 2'), answer(['check'], text)], [true, answer(['check'], given)]);
    }
});

await about('maps of labels', () => {
    // Maps of labels that are found, judged by the program; changes are those that the program knows.
    for (const [i, text] of canonical.entries()) {
        const {labels} = problems.describe(text), names = labels.map((_, k) => `(n${(k * 7 + 3) % labels.length})`);
        if (new Set(names).size !== labels.length || labels.length > 20) continue;
        const other = answer(['read'], problems.mapped(text, labels.map((label, k) => [label, names[k]]))),
              pairs = findRenaming(text, other);
        is('a renaming', pairs && answer(['rename'], certificates.mapInput(text, other, certificates.pairLines(pairs))), 'yes\n');
        if (labels.length < 2 || i > 20) continue;
        // Merging two labels gives a relaxation, so a map is found.
        const [x, y] = labels, merged = answer(['read'], problems.mapped(text, [[y, x]])), map = findRelaxation(text, merged);
        is('a relaxation', map && answer(['relax'], certificates.mapInput(text, merged, certificates.pairLines(map))), 'yes\n');
        const more = answer(['read'], problems.withArrow(text, 'passive', x, y));
        is('an arrow relaxes', answer(['relax'], certificates.mapInput(text, more, labels.map(label => `${label} ${label}`))), 'yes\n');
        is('an arrow is there',
            answer(['diagram', 'passive'], more)
                    .split('\n')
                    .some(line => line.startsWith('class') && line.split(' ').includes(x) && line.split(' ').includes(y)) ||
                answer(['trim'], more) !== null,
            true);
    }
    is('no renaming', findRenaming(canonical[0], canonical[1]), null);
});

await about('trees', () => {
    // A tree on which an upper bound runs.
    for (const name of ['orientation-3-upper', 'proposals-3-upper', 'maximal-matching-3-upper']) {
        const text = example(`gallery/${name}.txt`), bound = certificates.readCertificate(text), first = answer(['read'], bound.first),
              {active, passive} = problems.describe(first);
        const nodes = treeAround({active: active.degree, passive: passive.degree}, bound.steps.length + 1, randomFrom(1));
        const standing = readRun(answer(['run'], runInput(text, nodes, deliveriesOf(nodes, bound.steps.length))));
        const around = nodes.flatMap((node, v) => node.parent === 0 ? [standing[v].labels[node.own - 1]] : []);
        is(`${name}: around the passive node`, filled(problems.sideText(first, 'passive')).includes(texts.configText(around)), true);
    }
});

await about('words of help', () => {
    is('words of help',
        [...wordsIn('help: reads nothing\nlongest K L: reads a chain, gives ..\nbegin lower: ..\nbegin upper: ..\n\nno word\n')],
        ['help', 'longest', 'longest N', 'begin']);
    is('a word with a number or without, and one that reads what is given',
        [
            ...wordsIn(
                'settle, settle N: reads a problem, gives ..\ncycle K M N: reads a chain, or one with a line == given and an input problem, gives ..\n')
        ],
        ['settle', 'settle N', 'cycle', 'cycle N', 'cycle given']);
    is('one that reads graphs',
        [...wordsIn('describe, describe latex: reads a problem, or one with a line == graph and a graph, gives a report\n')],
        ['describe', 'describe graph']);
    is('a word that the program lacks', ['words: not a command\nhelp: ..', 'not found: graphs 3\n'].map(text => isUnknown({text})),
        [true, false]);
});

const path = [
    {kind: 'first', problem: ''}, {kind: 'step', problem: '', meanings: [['A', ['I']], ['B', ['O']], ['C', ['I', 'O']]], rows: ['[I] [O]']},
    {kind: 'change', problem: '', relax: {A: 'X', B: 'B', C: 'X'}}
];
await about('composed maps, meanings and numbers', () => {
    is('a composed map', chains.lowerStep(chains.stagesOf(path)[1]).entries, [[['I'], 'X'], [['O'], 'B'], [['I', 'O'], 'X']]);
    is('a meaning', chains.meaningOf(path, 2, 'X'), '[I] or [IO]');
    is('a meaning unrolled', chains.unrolledMeaning(path, 2, 'X'), '[I]|[IO]');
    is('labels left out', chains.upperStep([path[1], {kind: 'change', restrict: {B: ['B'], Q: ['A', 'C']}}]).entries,
        [['B', ['O']], ['Q', ['I', 'O']]]);
    is('kinds', chains.kindsOf(path), ['lower']);
    is('numbers', path.map(card => chains.numberOf(path, card)), ['0', '1', '1′']);
});

await about('sessions', async () => {
    // Sessions: packed and read back; damaged ones are refused with a message.
    const cards =
              [
                  {kind: 'first', id: 1, parent: null, problem: 'A B\n\nA B\n', title: 't'}, {...path[1], id: 2, parent: 1},
                  {...path[2], id: 3, parent: 2, note: 'n'}
              ],
          state = {cards, current: 2};
    is('a session comes back', sessions.readSession(await sessions.unpackSession(await sessions.packSession(state))), state);
    const refused = what => {
        try {
            sessions.readSession(typeof what === 'string' ? what : JSON.stringify(what));
            return 'read';
        } catch (error) { return error.message; }
    };
    const session = JSON.parse(sessions.sessionText(state)),
          changed = (at, values) => ({...session, cards: session.cards.map((card, i) => i === at ? {...card, ...values} : card)});
    is('an old session', refused({...session, format: 're-workbench-0'}),
        'a session of another version of this page (re-workbench-0; this one reads re-workbench-1)');
    is('no session', refused({what: 1}), 'not a saved session');
    is('a damaged session', refused('{"format": "re-wor'), 'not a saved session: its text is damaged');
    for (const values of [{id: '<b>'}, {id: 0}, {kind: 'constructor'}, {problem: 3}, {title: {}}, {note: []}, {written: {active: 'A'}},
             {back: {number: 'x'}}, {meanings: [['A']]}, {meanings: [['A', ['x y']]]}, {rows: [1]}])
        is(`a card with ${JSON.stringify(values)}`, refused(changed(1, values)), 'card 2 of the session has another form');
    for (const values of [{relax: {A: 3}}, {relax: {'<i>': 'A'}}, {relax: undefined}, {images: [[['A'], ['A', 'B']]]}, {restrict: []}])
        is(`a change with ${JSON.stringify(values)}`, refused(changed(2, values)), 'card 3 of the session has another form');
    for (const values of [{parent: 3}, {parent: 9}, {id: 1}, {parent: null}])
        is(`a card at ${JSON.stringify(values)}`, refused(changed(1, values)), 'card 2 of the session is out of place');
});

await about('what the browser keeps', async () => {
    // Each problem once, its lines without what they share with the line before.
    const problems = ['A B\n\nA B\n', '', '\n', 'A^3\nA^2 B\nA^2 (ab)\n\n%2\n', answer(['family', 'colouring', '4', '4', '9'])];
    is('problems come back', problems.map(text => kept.lengthened(kept.shortened(text))), problems);
    is('shortened', kept.shortened('A B C\nA B D\n\nA B\n'), '0A B C\n4D\n0\n0A B\n0');
    const cards = [problems[0], problems[4], problems[0]].map(
              (problem, i) => ({kind: 'first', id: i + 1, parent: null, problem, title: `t${i}`})),
          others = {build: 'b', tab: '1', address: '', editor: {active: 'A', passive: '', isOwn: true, replaced: null}},
          notes = [[1, {problem: problems[0], list: [{kind: 'hint', text: 'n'}]}]],
          tries =
              [[problems[4], [{what: 'zero', line: 'no', time: 1}, {what: 'rounds 4', line: 'more than 4', time: 2, input: problems[0]}]]],
          history = sessions.historyOf(
              {cards, current: 3, done: [{cards: [cards[0]], current: 1}], undone: [{cards: cards.slice(0, 2), current: 2}]}),
          inputs = [[problems[3], 2]], data = {...others, notes, tries, inputs, history}, parts = kept.withoutTexts(data);
    const whole = {
        ...others,
        notes,
        tries,
        inputs,
        now: {current: 3, cards},
        done: [{current: 1, cards: [cards[0]]}],
        undone: [{current: 2, cards: cards.slice(0, 2)}],
        all: cards
    };
    is('each problem once', parts.texts, [problems[0], problems[4], problems[3]]);
    is('packed', await kept.readKept(await kept.packKept(parts)), whole);
    is('not packed', await kept.readKept(kept.keptText(parts)), whole);
    is('as it was kept once, with the problems in their places', await kept.readKept(JSON.stringify(data)), whole);
    for (const damaged of [{}, {...data, editor: null}, {...data, history: undefined}, {...data, history: {...history, cards: [{}]}}])
        is('damaged', await kept.readKept(JSON.stringify(damaged)).then(() => 'read', () => 'refused'), 'refused');
});

await about('what is given', () => {
    const degrees = {active: {degree: 3}, passive: {degree: 2}};
    is('a colouring without the word input', inputCommand(new Set(), 'colouring', degrees, 4),
        {program: 're', words: ['family', 'colouring', '3', '2', '4']});
    is('others not', inputCommand(new Set(), 'sides', degrees), null);
    is('with it', inputCommand(new Set(['input']), 'sides', degrees), {program: 'explore', words: ['input', 'sides', '3', '2', '0']});
    is('a fit', readFit('yes:\n1 = [A]\n(ab) = [BC]\n'), {isSolvable: true, map: [['1', '[A]'], ['(ab)', '[BC]']], line: 'yes:'});
    is('the same without signs', readFit('yes\n1 [A]\n'), {isSolvable: true, map: [['1', '[A]']], line: 'yes'});
    is('none', readFit('no\n'), {isSolvable: false, map: [], line: 'no'});
    const refused = readGiven(
        'refused: given that input, step 2, clause END\nyes\n1 [A]\nholds: given that input, not solvable in 1 or fewer rounds\n');
    is('refused, with what holds still', [refused.accepted, refused.line, refused.still, refused.map], [
        false, 'refused: given that input, step 2, clause END', 'holds: given that input, not solvable in 1 or fewer rounds', [['1', '[A]']]
    ]);
    // What a refusal says, of each form that the program prints.
    const mis = answer(['read'], example('first/independent.txt')), sides = natively('explore', ['input', 'sides', '3', '2']).text,
          judged = (text, input = sides) => natively('explore', ['given'], givenInput(text, input)).text;
    const lower = answer(['lower', '1', '0'], mis), upper = example('gallery/maximal-matching-3-upper.txt'),
          withoutRow = lower.replace(/(== rows\n)[^\n]*\n/, '$1');
    is('END of a lower bound', [judged(lower).split('\n', 1)[0], givenFault(judged(lower), 'lower')], [
        'refused: given that input, step 1, clause END',
        'END: problem 1 is solvable in 0 rounds given that input (1 → [A], 2 → [D]), so this is no lower bound given it'
    ]);
    const short = `${upper.split('== step').slice(0, -1).join('== step')}== end\n`,
          refusedUpper = judged(short, natively('explore', ['input', 'nothing', '3', '3']).text);
    is('END of an upper bound', [/clause END/.test(refusedUpper.split('\n', 1)[0]), givenFault(refusedUpper, 'upper')],
        [true, 'END: the last problem is not solvable in 0 rounds given that input, so this is no upper bound given it']);
    is('a clause of a step', [readGiven(judged(withoutRow)).line, givenFault(judged(withoutRow), 'lower')],
        ['refused: step 1, clause L2', clauseFault({clause: 'L2', kind: 'lower'})]);
    // Each has its own name: by its kind and number, or by its first line and a number.
    const names = new InputNames(), named = (kind, problem, more) => names.of({kind, problem, ...more});
    is('names',
        [named('colouring', 'x', {count: 4}), named('sides', 'x'), named('problem', 'A^3\n\nA B\n'), named('problem', 'A^3\n\nA^2\n')],
        ['a colouring, 4 colours', 'the two sides', 'your problem 1, “A^3”', 'your problem 2, “A^3”']);
    is('one problem keeps its name', [named('problem', 'A^3\n\nA B\n'), named('nothing', 'A^3\n\nA^2\n')],
        ['your problem 1, “A^3”', 'your problem 2, “A^3”']);
    is('of a session that has it, where it is free',
        [
            names.numbered({kind: 'problem', problem: 'B', number: 7}).number,
            names.numbered({kind: 'problem', problem: 'C', number: 2}).number
        ],
        [7, 8]);
    is('a kind that it has no name of', named('what', 'D'), 'your problem 9, “D”');
});

await about('reports', () => {
    for (const name of ['gallery/no-sinks-no-sources-3.txt', 'gallery/orientation-3-upper.txt', 'first/by-rows.txt',
             'first/colouring-refused.txt']) {
        const report = natively('explore', ['describe'], example(name)).text, blocks = blocksOfReport(report),
              words = text => text.replace(/[#`*\s-]/g, '');
        is(`${name}: all of it`, words(blocks.map(block => block.text ?? block.items.join('\n')).join('\n')), words(report));
    }
    is('parts', partsOfText('a `b^2` **c**'),
        [{kind: 'plain', text: 'a '}, {kind: 'code', text: 'b^2'}, {kind: 'plain', text: ' '}, {kind: 'bold', text: 'c'}]);
    is('rounds of the graph', roundsOfGraph(natively('explore', ['describe'], example('first/sinkless-fixed.txt')).text),
        `Problem 0 isn't solvable in any number of rounds of the graph.`);
    is('none of a hypergraph', roundsOfGraph(natively('explore', ['describe'], example('gallery/weak-splitting-3.txt')).text), null);
});

await about('what settles a problem', () => {
    is('the whole lines of what was written so far', ['', 'more', 'more than 4\n', 'more than 4\nby: re'].map(wholeLines),
        ['', '', 'more than 4\n', 'more than 4\n']);
    is('lines', readSettled('more than 4, at most 6 (3 rounds of the graph)\nby: re lower 4 0\nby: re upper 6 1\n'),
        [{line: 'more than 4, at most 6 (3 rounds of the graph)', shownBy: ['re lower 4 0', 're upper 6 1']}]);
    is('further lines, each with what shows it, whatever they are',
        readSettled(
            'not solvable in any number of rounds\nby: re fixed 4 0\nwith identifiers: order log* N\nby: explore rounds 8 given 4 colours\nanother line\n'),
        [
            {line: 'not solvable in any number of rounds', shownBy: ['re fixed 4 0']},
            {line: 'with identifiers: order log* N', shownBy: ['explore rounds 8 given 4 colours']}, {line: 'another line', shownBy: []}
        ]);
    is('what leaves a question',
        [
            'exactly 4 (2 rounds of the graph)\n', 'not solvable in any number of rounds\nwith identifiers: order log* N\n',
            'more than 4\n', 'more than 4, at most 6\n', 'exactly 4\nwith identifiers: constant, more than 1, at most 4\n',
            'not solvable in any number of rounds\nwith identifiers: at least order log* N\n',
            'not solvable in any number of rounds\nwith identifiers: at least order log N\n',
            'exactly 8 given that input\nby: explore rounds 8\nlaw: 7 hops do no more than 6 given that input\n'
        ].map(leavesQuestion),
        [false, false, true, true, true, true, false, false]);
    is('a command', commandsIn('explore cycle 3 1 2000', ['re', 'explore']), [{program: 'explore', words: ['cycle', '3', '1', '2000']}]);
    is('a command with a colouring that is given', commandsIn('explore shortest 12 8 given 4 colours', ['re', 'explore']),
        [{program: 'explore', words: ['shortest', '12', '8'], colours: 4}]);
    is('with colours of edges', commandsIn('explore rounds 8 given 5 edge colours', ['re', 'explore']),
        [{program: 'explore', words: ['rounds', '8'], colours: 5, isOfEdges: true}]);
    for (const [a, b] of [['A', 'B'], [`'A'`, `'B'`]])
        is('a pipe', commandsIn(`explore merge ${a} ${b} | explore closure`, ['re', 'explore']),
            [{program: 'explore', words: ['merge', 'A', 'B']}, {program: 'explore', words: ['closure']}]);
    is('labels with long names', commandsIn(`explore merge '(Far)' 'B'`, ['explore']),
        [{program: 'explore', words: ['merge', '(Far)', 'B']}]);
    is('a diagram', commandsIn('explore closure with diagram (Far) C', ['explore']),
        [{program: 'explore', words: ['closure'], diagram: '(Far) C'}]);
    is('a text with an input problem', ['A\n\nA\n== given\nB\n\nB\n', 'A\n\nA\n'].map(withoutInput),
        [{text: 'A\n\nA\n', input: 'B\n\nB\n'}, {text: 'A\n\nA\n', input: null}]);
    is('what a diagram raises', raisedInput('A B\n\nA B\n', ['A B']), 'A B\n\nA B\n== diagram\nA B\n');
    is('names of labels',
        ['explore merge A B | explore closure', 'explore closure with diagram A B', 're lower 2 0', 'explore step | explore closure 2'].map(
            text => nameLabels(commandsIn(text, ['re', 'explore']))),
        [true, true, false, false]);
    is('no command',
        ['rm file', 're', 'explore closure of problem A', `explore merge 'A' 'B`, ''].map(text => commandsIn(text, ['re', 'explore'])),
        [null, null, null, null, null]);
});

await about('what lines say in words', () => {
    is('the model of a claim',
        [
            'accepted: not solvable in 2 or fewer rounds', 'accepted: given that input, not solvable in 2 or fewer rounds',
            'with identifiers: at least order log N', 'accepted: solvable in 1 rounds', 'more than 4',
            'not solvable in any number of rounds with port numbers alone'
        ].map(modelOf),
        ['with port numbers alone', 'with port numbers and that input', '', '', '', '']);
    is('a search that found nothing',
        ['not found: nodes 15, cut 0', 'not found: nodes 1, cut 3', 'not found: graphs 16', 'more than 4'].map(inWords), [
            'not found: 15 problems looked at, none of them cut at a limit', 'not found: 1 problem looked at, 3 of them cut at a limit',
            'not found: 16 graphs tried', 'more than 4'
        ]);
    is('a refusal at END says what is wrong', ['lower', 'upper'].map(kind => clauseFault({clause: 'END', kind})), [
        'END: the last problem is solvable in 0 rounds, so this is no lower bound',
        'END: the last problem is not solvable in 0 rounds, with port numbers alone, so this is no upper bound'
    ]);
    is('jobs by what they do',
        ['groups', 'zero', 'readCertificate', 'check, lower', 'diagram passive', 'lower 8 2 from problem 1', 'step of problem 1'].map(
            nameOfJob),
        [
            'writing a problem in groups', 'asking for 0 rounds', 'reading a certificate', 'checking the chain', 'asking for a diagram',
            'lower 8 2 from problem 1', 'step of problem 1'
        ]);
    is('a session that was shared',
        [
            `MIS: 2 cards. Open it.\n#s=eJw-_9\n`, 'file:///a/workbench.html#s=eJw', 'A B\n\nA B\n', '{"format": 1}',
            '#s=eJw\nand #s=eJx of it', '', '#s='
        ].map(sharedIn),
        ['eJw-_9', 'eJw', null, null, null, null, null]);
});

await about('finite graphs', () => {
    const text = 'M^3\nO^2 P\n\nM O\nM P\nO^2\n== graph\n1.1 1.2\n2.1 2.2\n1.3 2.3\n', graph = readGraph(text);
    is('read', [isGraphText(text), graph.count, graph.passive.length, graph.passive[2]],
        [true, 2, 3, [{node: 1, port: 3}, {node: 2, port: 3}]]);
    is('of another form', [readGraph('A\n\nA\n== graph\n1.1 x\n'), readGraph('A\n\nA\n'), isGraphText('A B\n')], [null, null, false]);
    const whole = 'M^3\n\nM^2\n== given\nA B C\n\nA B\n== graph\n1.1 1.2\n2.1 2.2\n1.3 2.3\n== labels\nA B C\nB A (Far)\n',
          given = readGraph(whole);
    is('with what is given', [given.problem, given.input, given.lines.length, given.count, given.given],
        ['M^3\n\nM^2', 'A B C\n\nA B', 3, 2, [['A', 'B', 'C'], ['B', 'A', '(Far)']]]);
    is('without', [graph.input, graph.given], [null, null]);
    is('as solve reads them',
        [graphInput(graph.problem, graph.lines), graphInput(given.problem, given.lines, given.input, ['A B C', 'B A (Far)'])],
        [text, whole]);
    const {active, passive} = graphPlaces(graph), all = [...active, ...passive];
    is('places',
        [
            active.length, passive.length,
            all.every(({x, y}, i) => all.every((other, k) => k <= i || Math.hypot(x - other.x, y - other.y) > 20))
        ],
        [2, 3, true]);
    // No passive node of a complete graph stands on a line of others.
    const ends = [[1, 2], [1, 3], [1, 4], [2, 3], [2, 4], [3, 4]], free = [0, 1, 1, 1, 1];
    const lines = ends.map(pair => pair.map(node => `${node}.${free[node]++}`).join(' ')),
          complete = readGraph(`A B\n\nA B\n== graph\n${lines.join('\n')}\n`);
    const drawn = graphPlaces(complete),
          distance = (p, a, b) => Math.abs((b.x - a.x) * (p.y - a.y) - (b.y - a.y) * (p.x - a.x)) / Math.hypot(b.x - a.x, b.y - a.y);
    is('apart from lines',
        drawn.passive.every((place, s) => complete.passive.every(
                                (pair, t) => s === t || distance(place, ...pair.map(({node}) => drawn.active[node - 1])) > 12)),
        true);
    is('a solution', readSolution('yes:\nA B C\nA A A\n'), {line: 'yes:', labels: [['A', 'B', 'C'], ['A', 'A', 'A']]});
    is('none', readSolution('no: no solution on this graph, so not solvable in any number of rounds\n').labels, null);
});

// A problem of the catalogue in other names and another order of lines, as `read` writes it.
function renamedAtRandom(line, random) {
    const labels = [...new Set(line.match(/[A-Z]/g))], free = ['A', 'B', 'C', 'X', '(on)', '(AB)', '7'];
    const names = new Map(labels.map(label => [label, free.splice(random(free.length), 1)[0]]));
    const mixed = list => list.map(item => [random(1000), item]).sort((a, b) => a[0] - b[0]).map(([, item]) => item);
    const side = text => mixed(text.split(' ')).map(config => mixed([...config]).map(label => names.get(label)).join(' ')).join('\n');
    return answer(['read'], line.split(' / ').map(side).join('\n\n') + '\n');
}

await about('the catalogue', () => {
    const table =
        '1\tAAA / AA\texactly 0\tre zero\n2\tAAA AAB ABB / AB\tnot solvable in any number of rounds\tre fixed 4 0; explore closure\n';
    const problem = answer(['read'], 'O [IO]^2\n\nI O\n');
    is('the names by which it comes first', namedForCatalogue(problem), {line: 'AAA AAB ABB / AB', names: [['O', 'A'], ['I', 'B']]});
    is('its table', tableName(problems.describe(problem)), '2-3-2');
    is('its line', catalogueLine(table, problem), {
        number: '2',
        problem: 'AAA AAB ABB / AB',
        claims: [{line: 'not solvable in any number of rounds', shownBy: ['re fixed 4 0', 'explore closure']}],
        count: 2,
        names: [['I', 'B'], ['O', 'A']],
        isInOrder: false
    });
    const claimsOf = columns => catalogueLine(`1\tAAA AAB ABB / AB\tmore than 1\t${columns}\n`, problem).claims;
    is('with its class', claimsOf('re lower 1 0\torder log* N\texplore rounds 8 given 4 colours'), [
        {line: 'more than 1', shownBy: ['re lower 1 0']},
        {line: 'with identifiers: order log* N', shownBy: ['explore rounds 8 given 4 colours']}
    ]);
    is('what nothing shows', claimsOf('\tat least order log N\t'),
        [{line: 'more than 1', shownBy: []}, {line: 'with identifiers: at least order log N', shownBy: []}]);
    is('one that lacks', catalogueLine(table, answer(['read'], 'A^3\nB^3\n\nA B\n')), null);
    is('too many labels', namedForCatalogue(answer(['family', 'colouring', '3', '2', '8'])), null);
});

await about('the catalogue to browse', () => {
    for (const [name, text] of Object.entries(catalogueTables())) {
        if (!/^\d-\d-\d$/.test(name) || text.length > 500000) continue;
        const rows = rowsOfTable(text), lines = linesOfTable(text), of = found => found.map(({number}) => number);
        is(`${name}: all lines`, rows.map(({number, problem, answer: said}) => [number, problem, said].join()),
            lines.map(line => line.slice(0, 3).join()));
        is('nothing asked', rowsFound(rows, {}).length, lines.length);
        is('by number', of(rowsFound(rows, {words: ' 2 '})), ['2']);
        is('by words', of(rowsFound(rows, {words: 'AB BB'})),
            lines.filter(([, problem]) => problem.includes('AB') && problem.includes('BB')).map(([number]) => number));
        for (const [said, count] of valuesIn(rows, 'answer').slice(0, 3))
            is(`answered ${said}`, [rowsFound(rows, {answer: said}).length, lines.filter(line => line[2] === said).length], [count, count]);
        const [[said] = [], [, most] = []] = valuesIn(rows, 'identifiers'),
                                       both = rowsFound(rows, {answer: rows[0].answer, identifiers: rows[0].identifiers});
        is('the commonest class first', !most || rowsFound(rows, {identifiers: said}).length >= most, true);
        is('others like the first one',
            both.every(row => row.answer === rows[0].answer && row.identifiers === rows[0].identifiers) && both[0].number === '1', true);
        is('as the program reads them', re(['read'], problemsIn(rows.at(-1).problem)[0].text).status, 0);
    }
});

await about('each problem of the catalogue is found under any names', () => {
    const random = numbersFrom(11);
    for (const [name, table] of Object.entries(catalogueTables())) {
        // Of a large table some lines.
        const lines = linesOfTable(table), each = Math.ceil(lines.length / 10000);
        const written = line => line.split(' / ').map(side => side.split(' ').map(config => [...config].join(' ')).join('\n')).join('\n\n');
        is(`${name}: each line stands under the names by which it comes first`,
            lines.filter(([, line], i) => i % each === 0 && catalogueLine(table, `${written(line)}\n`)?.problem !== line), []);
        for (let n = 0; n < 12; n++) {
            const [number, line, ...columns] = lines[random(lines.length)], problem = renamedAtRandom(line, random);
            is(`${name}: the table of ${line}`, tableName(problems.describe(problem)), name);
            const {names, isInOrder, ...found} = catalogueLine(table, problem);
            is(`${name}: number ${number}`, found, {number, problem: line, claims: claimsOfLine(columns), count: lines.length});
            // Its names lead to the problem of the line.
            is(`${name}: the names of number ${number}`, answer(['read'], problems.mapped(problem, names)),
                answer(['read'], `${written(line)}\n`));
            is('in order', isInOrder, names.map(pair => pair[1]).join('') === [...new Set(line.match(/[A-Z]/g))].sort().join(''));
        }
    }
});
