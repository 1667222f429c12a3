// What is asked with more effort, with what is given, and of programs that have other words: the words that `explore` may lack are answered by
// the test in its place.
import {wait} from '../browser.mjs';
import {answer, natively} from '../place.mjs';
import {explored, hold, isHeld, letGo, teach} from '../teaching.mjs';
import {cardsAre, drawn, MIS} from '../user.mjs';

const quoted = value => JSON.stringify(value);
const notes = `[...document.querySelectorAll('.card.last .note')].map(note => note.textContent)`;
const effort = `document.querySelectorAll('.card.last .more-effort').length`;
const FIRST = 'more than 2, at most 5 (1 to 3 rounds of the graph)\nby: re lower 2 0\nby: explore shortest 12 8\n',
      SECOND = 'more than 3, at most 5\nby: re lower 3 0\n', THIRD = 'exactly 4\nby: re lower 3 0\nby: re upper 4 0\n';

export const effortSessions = {
    async 'settle with more effort'(user, page, checks) {
        await teach(page, {settle: [1, FIRST], 'settle 4': [0, THIRD]}, ['settle N']);
        // One that takes its time: it is a search that can be stopped, and answers only when the test says so.
        await page.value(
            `(() => { const start = engine.start.bind(engine); engine.start = (program, words, input, options) => words.join(' ') !== 'settle 2' ? start(program, words, input, options) :
            window.isDone ? {title: 'settle 2', started: 0, isOver: true, stop() {}, answer: Promise.resolve({status: 1, text: ${
                quoted(SECOND)}})} : start('re', ['lower', '9', '3'], input, options); })()`);
        await user.openProblem(...MIS);
        await user.act('Settle');
        checks.check('the first answer at once', (await page.until(`${notes}[0]`)).startsWith('settle: more than 2, at most 5'));
        checks.equal(
            'the command', await page.value(`document.querySelector('.card.last .more-effort').title.split(':')[0]`), 'explore settle 2');
        await page.click('.card.last .more-effort');
        await user.running('settle 2 problem 0');
        const job = part =>
            page.value(`[...document.querySelectorAll('#jobs .job')].find(node => node.title === 'settle 2 problem 0').querySelector('${
                part}').textContent`);
        checks.equal('what runs, and what is known so far', [await job('.name'), await job('.hint')],
            ['settle 2 problem 0', 'so far: more than 2, at most 5 (1 to 3 rounds of the graph)']);
        const time = await job('.time');
        checks.check(`and how long: ${time}`, /^(\d+\.\d|\d+|\d+ min \d+) s$/.test(time));
        checks.check('said on the card, without a second button',
            (await page.value(`${notes}[0]`)).includes('settle 2 runs…') && await page.value(effort) === 0);
        await user.stop('settle 2 problem 0');
        checks.equal('stopped', await page.until(`${notes}.length === 2 && ${notes}[0]`), 'settle 2 problem 0: stopped.×');
        checks.equal('the button is there again', await page.value(effort), 1);
        await page.value('window.isDone = true');
        await page.click('.card.last .more-effort');
        await page.until(`${notes}.length === 3`);
        const [second, , first] = await page.value(notes);
        checks.check('beside the first answer',
            second.startsWith('settle 2: more than 3, at most 5') && first.startsWith('settle: more than 2, at most 5'));
        checks.equal('it goes on from the one with the most effort',
            await page.value(
                `[...document.querySelectorAll('.card.last .more-effort')].map(button => [button.title.split(':')[0], button.closest('.note').textContent.startsWith('settle 2')])`),
            [['explore settle 4', true]]);
        await page.value(`document.querySelector('.card.last .more-effort').focus()`);
        await page.key('Enter');
        await page.until(`${notes}[0].startsWith('settle 4: exactly 4')`);
        checks.equal('no question is left', await page.value(effort), 0);
        checks.equal('what was tried',
            await page.value(`[...document.querySelectorAll('.card.last .tried td:first-child')].map(cell => cell.textContent)`),
            ['settle', 'settle 2', 'settle 4']);
    },

    async 'no more effort where the program takes none'(user, page, checks) {
        await teach(page, {settle: [1, FIRST]});
        await page.value(`bench.words.delete('settle N')`);
        await user.openProblem(...MIS);
        await user.act('Settle');
        await page.until(`${notes}[0]`);
        checks.equal('no button', await page.value(effort), 0);
        // A program whose help says more than it does.
        await teach(page, {settle: [1, FIRST], 'settle 2': [2, 'words: not a command\nhelp: ..\n']}, ['settle N']);
        await user.act('Settle');
        await page.click('.card.last .more-effort');
        checks.equal('it is said plainly', await page.until(`${notes}.length === 2 && ${notes}[0]`),
            `settle 2 isn't available with the programs of this page.×`);
    },

    async 'searches with what is given'(user, page, checks) {
        if (!explored.has('given')) return;
        await user.openProblem(...MIS);
        await user.step(2);
        await user.says('accepted: not solvable in 1 or fewer rounds');
        const colours = answer(['family', 'colouring', '3', '2', '4']), before = await user.certificate(),
              text = `${before}== given\n${colours}`;
        // The chain that the program lacks words for is the one without the input: it goes on from the same problem.
        const found = word => natively('explore', word.split(' '), before).text, alone = found('longest 1 10');
        const names = ['longest', 'shortest', 'cycle', 'closure'], own = names.filter(name => explored.has(`${name} given`));
        const teachGiven = () => teach(
            page, own.includes('longest') ? {} : {'longest 1 10': [0, `${alone}== given\n${colours}`]}, names.map(name => `${name} given`));
        await teachGiven();
        await user.search('longest', 1, 10);
        await page.until(cardsAre(3));
        checks.equal(
            'nothing is given: the chain alone is sent', await page.value(`sent.find(([words]) => words === 'longest 1 10')[1]`), before);
        await page.click('#undo');
        await page.until(cardsAre(2));
        await page.choose('#given-kind', 'a colouring');
        const hint =
            `[...document.querySelectorAll('.card.last .actions > .hint')].filter(node => node.getClientRects().length).map(node => node.textContent)`;
        const [said] = await page.until(`${hint}.length && ${hint}`);
        checks.check(said,
            /^Of these searches rounds, longest, [a-z, ]+ ask with what is given \(a colouring, 4 colours\)(, as Settle does)?; the others /
                .test(said));
        await page.value('sent.length = 0');
        await user.search('longest', 1, 10);
        await page.until(cardsAre(3));
        checks.equal('the chain, and what is given', await page.value(`sent.find(([words]) => words === 'longest 1 10')[1]`), text);
        checks.equal('the card says so', await page.value(`document.querySelector('.card.last .title').textContent`),
            'lower step, longest 1 10 given a colouring, 4 colours');
        const line = natively('explore', ['given'], `${await user.certificate()}== given\n${colours}`).text.split('\n', 1)[0];
        checks.check(`judged by explore given: ${line}`,
            await page.until(`document.querySelector('#given-line .line')?.textContent === ${quoted(line)}`));
        checks.check('what is given stays', await page.value(`bench.cards.path()[0].given.count === 4`));
        checks.check('what was tried',
            (await page.value(`document.querySelectorAll('.card .tried')[1].textContent`))
                .includes('longest 1 10 given a colouring, 4 colours'));
        // A program that reads no input: the searches ask without it, and the card says so.
        await page.value(`[...bench.words].filter(word => word.endsWith(' given')).forEach(word => bench.words.delete(word))`);
        await page.choose('#given-kind', 'nothing');
        await page.choose('#given-kind', 'a colouring');
        checks.check('none reads it',
            (await page.until(`${hint}.length && ${hint}`))[0].startsWith(
                'None of these searches asks with what is given (a colouring, 4 colours): '));
    },

    async 'bounds of each kind with what is given'(user, page, checks) {
        if (!explored.has('given')) return;
        const colours = answer(['family', 'colouring', '3', '2', '3']), line = `document.querySelector('#given-line .line')?.textContent`;
        const given = async () => natively('explore', ['given'], `${await user.certificate()}== given\n${colours}`).text.split('\n', 1)[0];
        const sent = words => page.value(`sent.find(([words]) => words === ${quoted(words)})[1]`);
        // What the program lacks a word for is answered as for the chain alone, with the input behind it.
        const teachWord = (name, words, chain) => teach(page,
            explored.has(`${name} given`) ? {} : {[words]: [0, `${natively('explore', words.split(' '), chain).text}== given\n${colours}`]},
            [`${name} given`]);
        const giveColours = async () => {
            await page.choose('#given-kind', 'a colouring');
            await page.until('bench.cards.path()[0].given?.count === 4');
            await page.fill('#given input', '3');
            await page.until(`bench.cards.path()[0].given.count === 3 && ${line}`);
        };
        // An upper bound, of a problem and what is given.
        await user.openProblem('M O\nP^2', 'M [OP]\nO^2');
        const upper = await user.problem();
        await page.choose('#given-kind', 'a problem…');
        await page.fill('dialog textarea', '[AB]^2', 0);
        await page.fill('dialog textarea', 'A B', 1);
        await page.until(`!document.querySelector('dialog footer button').disabled`);
        await page.click('dialog footer button', 'Use it');
        const input = await page.until('bench.cards.path()[0].given?.problem');
        await teach(page, explored.has('shortest given') ? {} : {
            'shortest 8 10': [0, `${natively('explore', ['shortest', '8', '10'], upper).text}== given\n${input}`]
        },
            ['shortest given']);
        await user.search('shortest', 8, 10);
        await page.until(`bench.cards.path().length > 1 && ${line}`);
        checks.check('the chain of kind upper, and what is given',
            (await sent('shortest 8 10')).startsWith('== certificate 1 upper\n') &&
                (await sent('shortest 8 10')).endsWith(`== given\n${input}`));
        const wanted = natively('explore', ['given'], `${await user.certificate()}== given\n${input}`).text.split('\n', 1)[0];
        checks.check(`an upper bound: ${wanted}`, /^accepted: given that input, solvable in /.test(wanted));
        checks.equal('its line', await page.until(`${line} === ${quoted(wanted)} && ${line}`), wanted);
        // A fixed point, behind a step.
        await user.openProblem('O [IO]^2', 'I O');
        await user.step(2);
        await giveColours();
        await teachWord('cycle', 'cycle 2 0 20000', await user.certificate());
        await user.search('cycle', 2, 0);
        await page.until(`bench.cards.path().length > 2 && ${line}?.includes('any number')`);
        checks.check('what is sent', (await sent('cycle 2 0 20000')).endsWith(`== given\n${colours}`));
        checks.equal('a fixed point given that input', await page.value(line), await given());
        checks.check('the card says so',
            (await page.value(`document.querySelector('.card.last .title').textContent`))
                .endsWith('cycle 2 0 20000 given a colouring, 3 colours'));
        // What the user chose meanwhile stays, and what was given when it was asked is given again by a click.
        await user.openProblem('O [IO]^2', 'I O');
        await giveColours();
        await teachWord('longest', 'longest 1 10', await user.certificate());
        await hold(page, ['longest']);
        await user.search('longest', 1, 10);
        await isHeld(page);
        await page.choose('#given-kind', 'nothing');
        await page.until('!bench.cards.path()[0].given');
        await letGo(page);
        await page.until(`bench.cards.path().length === 2`);
        checks.check('the choice stays', await page.value(`!bench.cards.path()[0].given`));
        checks.equal('the card says with what it was found',
            await page.until(`document.querySelector('.card.last .asked:not([hidden])')?.textContent`),
            'found given a colouring, 3 colours; now nothing is given Give that again');
        await page.click('.card.last .asked button', 'Give that again');
        await page.until(`bench.cards.path()[0].given?.count === 3`);
        checks.equal('judged with it', await page.until(`${line}?.includes('in 1 or') && ${line}`), await given());
    },

    async 'settle with what is given'(user, page, checks) {
        if (!explored.has('given')) return;
        const first = 'more than 2, at most 5 (1 to 3 rounds of the graph) given that input',
              bys = ['explore longest 1 10', 'explore shortest 8 10'];
        await user.openProblem(...MIS);
        const problem = await user.problem(), colours = answer(['family', 'colouring', '3', '2', '4']),
              longest = natively('explore', ['longest', '1', '10'], problem).text;
        await teach(page, {
            settle: [1, [first, ...bys.map(text => `by: ${text}`), ''].join('\n')],
            'settle 2': [0, 'not solvable in any number of rounds given that input\nby: explore cover 2\n'],
            'longest 1 10': [0, `${longest}== given\n${colours}`]
        },
            ['settle N', 'settle given']);
        const asked = words => page.value(`sent.filter(([words]) => words === ${quoted(words)}).map(([, text]) => text)`);
        await page.choose('#given-kind', 'a colouring');
        await page.until('bench.cards.path()[0].given');
        await user.act('Settle');
        const rows =
            `[...document.querySelectorAll('.card.last .note:first-child .settled')].map(row => [row.querySelector('strong')?.textContent, row.querySelector('.line').textContent, [...row.querySelectorAll('.by button')].map(button => button.textContent)])`;
        await page.until(`${notes}[0]`);
        checks.equal('one line, that of the program', await page.value(rows), [['settle given a colouring, 4 colours: ', first, bys]]);
        checks.equal('the problem, and what is given', await asked('settle'), [`${problem}== given\n${colours}`]);
        checks.check('the card says which words ask with it',
            (await page.until(`document.querySelector('.card.last .actions > .hint').textContent`)).includes(', as Settle does; '));
        // What shows it is asked with the same input.
        await page.click('.card.last .note .by button', 'longest');
        await page.until(cardsAre(2));
        checks.equal('what shows it', await asked('longest 1 10'), [`${problem}== given\n${colours}`]);
        checks.equal('what is given stays as it was', await page.value(`bench.cards.path()[0].given.kind`), 'colouring');
        const line = natively('explore', ['given'], `${await user.certificate()}== given\n${colours}`).text.split('\n', 1)[0];
        checks.check(`judged: ${line}`, await page.until(`document.querySelector('#given-line .line')?.textContent === ${quoted(line)}`));
        await page.click('#undo');
        await page.until(cardsAre(1));
        await page.click('.card.last .more-effort');
        await page.until(`${notes}.length === 2`);
        checks.equal('more of it', [await asked('settle 2'), (await page.value(rows))[0].slice(0, 2)], [
            [`${problem}== given\n${colours}`],
            ['settle 2 given a colouring, 4 colours: ', 'not solvable in any number of rounds given that input']
        ]);
        checks.check('its model',
            (await page.value(`${notes}[0]`)).includes('any number of rounds given that input with port numbers and that input'));
        // Nothing given: another question, with an answer of its own beside these.
        await page.choose('#given-kind', 'nothing');
        await page.until('!bench.cards.path()[0].given');
        await user.act('Settle');
        await page.until(`${notes}.length === 3`);
        checks.equal('the problem alone', (await asked('settle'))[1], problem);
        checks.equal('with more effort of its own',
            await page.value(`document.querySelector('.card.last .note:first-child .more-effort')?.title.split(':')[0]`),
            'explore settle 2');
        checks.check('both are known',
            (await page.value(notes)).map(text => text.split(':')[0]).join() ===
                'settle,settle 2 given a colouring, 4 colours,settle given a colouring, 4 colours');
        checks.equal('what was tried',
            await page.value(`[...document.querySelectorAll('.card.last .tried td:first-child')].map(cell => cell.textContent).sort()`),
            ['settle', 'settle 2 given a colouring, 4 colours', 'settle given a colouring, 4 colours']);
        // Behind a step what is given has its sides exchanged.
        await page.choose('#given-kind', 'a colouring');
        await page.until('bench.cards.path()[0].given');
        await user.step(2);
        await page.value('sent.length = 0');
        await user.act('Settle');
        await page.until(`${notes}.length === 1`);
        const [active, passive] = colours.trim().split('\n\n');
        checks.equal('with its sides exchanged', (await asked('settle'))[0], `${await user.problem()}== given\n${passive}\n\n${active}\n`);
    },

    async 'colours of edges'(user, page, checks) {
        if (!explored.has('input') || !explored.has('rounds')) return;
        await teach(page, {
            settle: [
                0,
                'not solvable in any number of rounds\nby: explore cover 2\nwith identifiers: order log* N\nby: explore rounds 8 given 5 edge colours\n'
            ]
        });
        await user.openProblem(...MIS);
        await user.act('Settle');
        await page.click('.card.last .note .by button', 'rounds 8 given 5 edge colours');
        const input = natively('explore', ['input', 'edges', '3', '2', '5']).text,
              line = natively('explore', ['rounds', '8'], `${await user.problem()}== given\n${input}`).text.trim();
        checks.check(line, (await page.until(`${notes}.length === 2 && ${notes}[0]`)).includes(line));
        checks.equal('asked with that input', await page.value(`sent.find(([words]) => words === 'rounds 8')[1]`),
            `${await user.problem()}== given\n${input}`);
        // The field has their number.
        await page.choose('#given-kind', 'an edge colouring');
        await page.until('bench.cards.path()[0].given?.count === 3');
        checks.equal('at least as many as the degree', await page.value('bench.cards.path()[0].given.problem'),
            natively('explore', ['input', 'edges', '3', '2']).text);
        await page.fill('#given input', '2');
        await page.until(`document.querySelector('#given input[aria-invalid=true]')`);
        await page.fill('#given input', '5');
        checks.equal('five', await page.until(`bench.cards.path()[0].given.count === 5 && bench.cards.path()[0].given.problem`), input);
    },

    async 'what is given to a card that has its buttons already'(user, page, checks) {
        if (!explored.has('given')) return;
        await user.openProblem(...MIS);
        await page.choose('#given-kind', 'a colouring');
        await page.until(`document.querySelector('#given-line .line')`);
        await user.search('rounds', 1);
        const line = natively(
            'explore', ['rounds', '1'], `${await user.problem()}== given\n${answer(['family', 'colouring', '3', '2',
                '4'])}`).text.trim();
        checks.check(line,
            /^more than|^exactly/.test(line) &&
                await page.until(`${notes}.some(text => text.startsWith(${quoted(`rounds 1 given a colouring, 4 colours: ${line}`)}))`));
    },

    async 'a chain with what is given is opened'(user, page, checks) {
        if (!explored.has('given')) return;
        const colours = answer(['family', 'colouring', '3', '2', '3']),
              chain = natively('explore', ['step'], answer(['read'], MIS.join('\n\n'))).text, text = `${chain}== given\n${colours}`;
        await user.openText(text);
        await page.until(`${cardsAre(2)} && bench.cards.path()[0].given`);
        checks.equal('what is given', await page.value('bench.cards.path()[0].given.problem'), colours);
        const line = natively('explore', ['given'], text).text.split('\n', 1)[0];
        checks.equal('its line', await page.until(`document.querySelector('#given-line .line')?.textContent`), line);
        // A fault behind the chain stands at its line.
        await user.openText(`${chain}== given\nA B C\n\nA [B\n`);
        checks.equal('a fault of it', await page.until(`document.querySelector('dialog .state .faulty')?.textContent`),
            `what is given: ${answer(['read'], 'A B C\n\nA [B\n').trim()}`);
        checks.equal('at its line', Number(await page.value(`document.querySelector('dialog .area').style.getPropertyValue('--fault')`)),
            text.slice(0, text.indexOf('== given')).split('\n').length + 3);
        await page.key('Escape');
    },

    async 'a graph with what is given'(user, page, checks) {
        const problem = answer(['read'], MIS.join('\n\n')), input = answer(['read'], '[AB]^3\n\nA B\n'),
              graph = '1.1 2.1\n1.2 2.2\n1.3 2.3',
              no = 'no: no solution on this graph, so not solvable in any number of rounds given that input';
        const text = `${problem}== given\n${input}== graph\n${graph}\n== labels\nA A A\nB B B\n`;
        await teach(page, {'cover 2': [0, text], solve: [1, `${no}\n`]}, ['cover given']);
        await user.openProblem(...MIS);
        await page.choose('#given-kind', 'a problem…');
        await page.fill('dialog textarea', '[AB]^3', 0);
        await page.fill('dialog textarea', 'A B', 1);
        await page.until(`!document.querySelector('dialog footer button').disabled`);
        await page.click('dialog footer button', 'Use it');
        await page.until('bench.cards.path()[0].given');
        await user.search('cover', 2);
        await page.until(`document.querySelector('dialog svg.graph') && document.querySelector('dialog p[role=status] .line')`);
        checks.equal('the problem, and what is given', await page.value(`sent.find(([words]) => words === 'cover 2')[1]`),
            `${problem}== given\n${input}`);
        checks.equal('the line, with its model', await page.value(`document.querySelector('dialog p[role=status]').textContent`),
            `${no} with port numbers and that input, by deterministic algorithms on infinite trees · explore solve < graph.txt`);
        checks.equal('what is given at each end',
            await page.value(`[...document.querySelectorAll('dialog svg.graph .end .given')].map(node => node.textContent)`),
            ['A', 'B', 'A', 'B', 'A', 'B']);
        const areas = `[...document.querySelectorAll('dialog textarea')].map(area => area.value)`;
        checks.equal('graph and labels', await page.value(areas), [graph, 'A A A\nB B B']);
        await user.watchCopies();
        await page.click('dialog button', 'Copy problem and graph');
        checks.equal('what solve reads', await user.copied(), text);
        // A fault of the labels stands at their line.
        await teach(page, {solve: [3, `input: line ${text.trimEnd().split('\n').length}: not a list of items\n`]});
        await page.click('dialog button', 'Solve');
        checks.equal('a fault of the labels', await page.until(`document.querySelector('dialog p .faulty')?.textContent`),
            'line 2: not a list of items');
        checks.equal('at their line',
            await page.value(`[...document.querySelectorAll('dialog .area')].map(area => area.style.getPropertyValue('--fault'))`),
            ['0', '2']);
        await page.key('Escape');
        checks.equal('it is listed',
            await page.value(`[...document.querySelectorAll('.card.last .tried td:first-child')].map(cell => cell.textContent)`),
            ["cover 2 given your problem 1, “A^3”"]);
        // Opened as a text, on a page without it.
        await page.go();
        await teach(page, {solve: [1, `${no}\n`]});
        await user.openText(text);
        await page.until(`document.querySelector('dialog svg.graph .given')`);
        checks.equal('the card has what is given', await page.until(`bench.cards.path()[0].given?.problem`), input);
    },

    async 'a fixed point behind a relaxation'(user, page, checks) {
        const has = `Boolean(document.querySelector('.card.last .ask[data-search=relaxed]'))`;
        await user.openProblem('1^3\n2^3\n3^3', '1 2\n1 3\n2 3');
        checks.equal('only where the program has the word', await page.value(has), explored.has('relaxed'));
        const fixed = natively('explore', ['closure'], await user.problem()).text;
        await page.go();
        await teach(page, {
            'relaxed 1': [4, 'limit: searched more than 1 nodes\n'],
            'relaxed 2': [0, fixed],
            'relaxed 3': [1, 'not found: searched nodes 3, cut 0\n'],
            'relaxed 8': [2, 'words: not a command\nhelp: ..\n']
        });
        await user.openProblem('1^3\n2^3\n3^3', '1 2\n1 3\n2 3');
        checks.check('it stands beside cycle',
            await page.value(
                `document.querySelector('.card.last .ask[data-search=cycle]').nextElementSibling.dataset.search === 'relaxed'`));
        await user.search('relaxed', 8);
        checks.equal('a program that lacks it', await page.until(`${notes}[0]`),
            `relaxed 8 isn't available with the programs of this page: they say “words: not a command”.×`);
        await user.searchOn('relaxed', 3);
        await page.until(
            `${notes}.length === 2 && ${notes}[0].startsWith('relaxed 3not found: ') || ${notes}[0].startsWith('relaxed 3 not found: ')`);
        await page.until('engine.tasks.size === 0');
        checks.check('not asked again where there are no more', !(await page.value(`sent.map(([words]) => words)`)).includes('relaxed 6'));
        await user.searchOn('relaxed', 1);
        await user.says('accepted: not solvable in any number of rounds');
        const tried = await page.value(`document.querySelector('.card .tried').textContent`);
        checks.check(`what was tried on the way: ${tried}`, tried.includes('relaxed 1') && tried.includes('relaxed 2'));
    },

    async 'a chain of the reduced problem is one of its own'(user, page, checks) {
        const reduced = answer(['read'], '1^3\n2^3\n3^3\n\n1 2\n1 3\n2 3\n'), fixed = natively('explore', ['closure'], reduced).text;
        await teach(page, {
            settle: [0, 'not solvable in any number of rounds\nby: explore reduce | explore closure\nby: explore nonsense 3\n'],
            reduce: [0, reduced],
            closure: [0, fixed]
        });
        await user.openProblem('1^3\n2^3\n3^3\n4^3', '1 2\n1 3\n2 3\n4 2\n4 3');
        await user.act('Settle');
        await page.until(`document.querySelector('.card.last .by button')`);
        checks.equal('no button for a word that the program lacks',
            await page.value(
                `[...document.querySelectorAll('.card.last .by > :not(.hint)')].map(node => [node.tagName, node.textContent])`),
            [['BUTTON', 'explore reduce | explore closure'], ['SPAN', 'explore nonsense 3']]);
        await page.click('.card.last .by button', 'reduce');
        await page.until(`bench.cards.roots().length === 2 && ${drawn}`);
        await user.says('accepted: not solvable in any number of rounds');
        checks.equal('it begins with the reduced problem', await page.value('bench.cards.path()[0].problem'), reduced);
        await wait(100);
    },
};
