// What is known of a problem: `settle` and the commands that show it, graphs without a solution, the catalogue, merges in a first
// problem. Words that the program doesn't have yet are answered here in its place, so that the page is tested before it has them.
import {catalogueLine} from '../../src/texts/catalogue.js';
import {claimsBeyond, partsOfEvidence, refusedPart} from '../../src/texts/evidence.js';
import {modelOf} from '../../src/views/claims.js';
import {answer, catalogueTables, claimsOfLine, linesOfTable, natively} from '../place.mjs';
import {explored, hold, isHeld, letGo, teach, teachMissing} from '../teaching.mjs';
import {cardsAre, MIS} from '../user.mjs';

const quoted = value => JSON.stringify(value);
const MIS_GRAPH = '1.1 1.2\n2.1 2.2\n1.3 2.3', NO = 'no: no solution on this graph, so not solvable in any number of rounds';

const note = `document.querySelector('.card.last .note')?.textContent`;

export const settlingSessions = {
    async 'settle, and what shows it'(user, page, checks, picture) {
        await teachMissing(page, {settle: [0, 'exactly 1 (1 rounds of the graph)\nby: re lower 0 0\nby: re upper 1 0\n']});
        await user.openExample('orientation');
        checks.equal('the first button', await page.value(`document.querySelector('.card.last .actions button').textContent`), 'Settle');
        await user.act('Settle');
        const said = await page.until(note);
        checks.check(said, said.startsWith('settle: exactly 1'));
        if (explored.has('settle'))
            checks.check('its first line', said.includes(natively('explore', ['settle'], await user.problem()).text.split('\n', 1)[0]));
        checks.check(
            'it is listed', (await page.value(`document.querySelector('.card.last .written table').textContent`)).startsWith('settle'));
        await picture('settle', '.card.last');
        await page.click('.card.last .note button', 're upper');
        await user.says('accepted: solvable in 1 rounds');
    },

    async 'a report on a graph'(user, page, checks) {
        const
            text = `${answer(['read'], MIS.join('\n\n'))}== graph\n${MIS_GRAPH}\n`,
            reports =
                `[...document.querySelectorAll('dialog footer button')].map(button => button.textContent).filter(text => text.includes('report'))`;
        await teach(page, {solve: [1, `${NO}\n`], describe: [0, '# Report on a graph\n'], 'describe latex': [1, 'yes\n']});
        await page.value(`bench.words.delete('describe graph')`);
        await user.watchCopies();
        await page.value(`bench.settling.draw(${quoted(text)})`);
        await page.until(`document.querySelector('dialog svg.graph')`);
        checks.equal('none where the program has no such report', await page.value(reports), []);
        await page.click('dialog button.close');
        await page.value(`bench.words.add('describe graph'), bench.settling.draw(${quoted(text)})`);
        await page.until(`document.querySelector('dialog svg.graph')`);
        await page.click('dialog footer button', 'Copy its report');
        checks.equal('its report', await user.copied(), '# Report on a graph\n');
        checks.equal('of the problem and the graph', await page.value(`sent.find(([words]) => words === 'describe')[1]`), text);
        const paper =
            `(node => node.hidden ? null : [...node.children].map(child => [child.tagName, child.textContent]))(document.querySelector('dialog .paper'))`;
        checks.equal('nothing is read yet', await page.value(paper), null);
        await page.click('dialog footer button', 'Read its report');
        checks.equal('read in the window', await page.until(paper), [['H3', 'Report on a graph']]);
        checks.check('which is seen',
            await page.until(
                `(box => box.top < innerHeight && box.bottom > 0)(document.querySelector('dialog .paper').getBoundingClientRect())`));
        await page.fill('dialog textarea', MIS_GRAPH.split('\n').reverse().join('\n'));
        checks.equal('no word on a graph that was changed since', await page.value(paper), null);
        // One that comes late is on the graph as it was.
        await hold(page, ['describe']);
        await page.click('dialog footer button', 'Read its report');
        await isHeld(page);
        await page.fill('dialog textarea', MIS_GRAPH);
        await letGo(page);
        checks.equal('nor a late one', await page.value(paper), null);
        await page.click('dialog footer button', 'Copy its report for LaTeX');
        checks.equal('what the program says',
            await page.until(
                `document.querySelector('#message').textContent.includes('latex') && document.querySelector('#message').textContent`),
            'explore describe latex: yes');
    },

    async 'labels that fit no tree, and no solution'(user, page, checks) {
        if (!explored.has('settle')) return;
        const tried =
            `[...document.querySelectorAll('.card.last .tried tr')].map(row => [row.cells[0].textContent, row.cells[1].textContent.trim()])`;
        await user.openProblem('A^3\nB^3', 'A A\nB C');
        await user.act('Settle');
        const said = natively('explore', ['settle'], await user.problem()).text.trim().split('\n'), last = said.at(-1);
        checks.equal('what settle says last', last, 'note: labels that fit no tree: B C');
        await page.until(`${note}?.includes(${quoted(last)})`);
        checks.equal('it is no claim',
            await page.value(
                `[...document.querySelectorAll('.card.last .note .line')].some(node => node.textContent.startsWith('note: '))`),
            false);
        checks.equal('the claims are what was tried', await page.value(tried),
            [['settle', said[0]], ['settle, with identifiers', said.find(line => line.startsWith('with '))]]);
        await user.openProblem('A^3\nB^3', 'C D');
        await user.act('Settle');
        checks.check('no solution', (await page.until(note)).startsWith('settle: no solution'));
        checks.equal('is what was tried', await page.value(tried), [['settle', 'no solution']]);
    },

    async 'never, by a fixed point'(user, page, checks) {
        await teachMissing(page, {settle: [0, 'not solvable in any number of rounds\nby: explore closure\n']});
        await user.openProblem('1^3\n2^3\n3^3', '1 2\n1 3\n2 3');
        await user.act('Settle');
        checks.check('the line', (await page.until(note)).startsWith('settle: not solvable in any number of rounds'));
        await page.click('.card.last .note .by button');
        await user.says('accepted: not solvable in any number of rounds');
    },

    async 'never, by a graph'(user, page, checks) {
        const problem = answer(['read'], MIS.join('\n\n'));
        await teachMissing(page, {
            settle: [0, 'not solvable in any number of rounds\nby: explore cover 3\n'],
            'cover 3': [0, `${problem}== graph\n${MIS_GRAPH}\n`],
            solve: [1, `${NO}\n`]
        });
        await user.openProblem(...MIS);
        await user.act('Settle');
        await page.until(note);
        await page.click('.card.last .note .by button', 'cover');
        await page.until(`document.querySelector('dialog svg.graph') && document.querySelector('dialog p[role=status] .line')`);
        checks.equal('the line of solve', await page.value(`document.querySelector('dialog p[role=status] .line').textContent`), NO);
        const lines = (await page.value(`document.querySelector('dialog textarea').value`)).split('\n'),
              ends = lines.flatMap(line => line.split(' '));
        if (explored.has('solve'))
            checks.equal(
                'by the native program', natively('explore', ['solve'], `${problem}== graph\n${lines.join('\n')}\n`).text.trim(), NO);
        const seen = await page.value(
            `(() => { const count = selector => document.querySelectorAll('dialog svg.graph ' + selector).length; return [count('rect.active'), count('circle'), count('path')]; })()`);
        checks.equal(
            'active nodes, passive nodes, ends', seen, [new Set(ends.map(end => end.split('.')[0])).size, lines.length, ends.length]);
        checks.check('nodes stand apart',
            await page.value(
                `(() => { const boxes = [...document.querySelectorAll('dialog svg.graph rect, dialog svg.graph circle')].map(node => node.getBoundingClientRect());
            return boxes.every((a, i) => boxes.every((b, k) => k <= i || a.right < b.left || b.right < a.left || a.bottom < b.top || b.bottom < a.top)); })()`));
        await user.watchCopies();
        await page.click('dialog button', 'Copy problem and graph');
        checks.equal('what solve reads', await user.copied(), `${problem}== graph\n${lines.join('\n')}\n`);
        await page.fill('dialog textarea', `${lines.join('\n')}\n`);
        checks.check('changed, nothing is said of it',
            (await page.until(
                 `!document.querySelector('dialog p[role=status] .line') && document.querySelector('dialog p[role=status]').textContent`))
                .includes('Solve asks again'));
        await page.click('dialog button', 'Solve');
        checks.equal('asked again', await page.until(`document.querySelector('dialog p[role=status] .line')?.textContent`), NO);
        await page.click('dialog button.close');
        checks.check('on the card', (await page.until(note)).includes(NO));
        await page.click('.card.last .note button', 'Copy');
        checks.equal('and its text', await user.copied(), `${problem}== graph\n${lines.join('\n')}\n`);
    },

    async 'evidence leaves whole'(user, page, checks) {
        const buttons = `[...document.querySelectorAll('.card.last .note .evidence')].map(button => button.title.split(':')[0])`,
              claim = 'not solvable in any number of rounds with port numbers alone', problem = answer(['read'], MIS.join('\n\n')),
              graph = `${problem}== graph\n${MIS_GRAPH}\n`, parts = `${graph}=====\n${problem}== greedy\npassive\nM\n`,
              holds = [`holds: ${claim}`, 'holds: with identifiers: order log* N'];
        const answered = `${claim}\nby: explore cover 3\nwith identifiers: order log* N\nby: explore greedy\n`;
        await teach(page, {settle: [0, answered]});
        await page.value(`['evidence', 'evidence N', 'judge'].forEach(word => bench.words.delete(word))`);
        await user.openProblem(...MIS);
        await user.act('Settle');
        await page.until(note);
        checks.equal('none where the program has no such words', await page.value(buttons), []);
        await teach(page, {settle: [0, answered], evidence: [0, parts], judge: [0, `${holds.join('\n')}\n`]});
        await user.act('Settle');
        await page.until(`${buttons}.length`);
        checks.equal('its command', await page.value(buttons), ['explore evidence']);
        await page.click('.card.last .note .evidence');
        await page.until(`document.querySelector('dialog textarea')`);
        checks.equal('what was sent: the problem, and the whole text to be judged',
            await page.value(`['evidence', 'judge'].map(word => sent.find(([words]) => words === word)[1])`), [problem, parts]);
        checks.equal('each line that was said, with its model',
            await page.value(
                `[...document.querySelectorAll('dialog p')].map(node => [node.textContent, node.querySelector('.line').classList.contains('good')])`),
            [
                [`${holds[0]} by deterministic algorithms on infinite trees`, true],
                [`${holds[1]} by deterministic algorithms with identifiers below N on finite forests of N nodes`, true]
            ]);
        checks.equal('the command', await page.value(`document.querySelector('dialog .code').textContent`), 'explore judge < evidence.txt');
        const listed = `[...document.querySelectorAll('dialog .parts li')].map(node => [node.textContent.trim(), node.matches('.faulty')])`,
              [last, end] = [graph, parts].map(text => text.trimEnd().split('\n').length);
        checks.equal('its parts', await page.value(listed), [
            [`a graph lines 1 to ${last} See it Open it`, false],
            [`labels for one node after another lines ${last + 2} to ${end} See it`, false]
        ]);
        await user.watchCopies();
        await page.click('dialog footer button', 'Copy');
        checks.equal('the text', await user.copied(), parts);
        await page.click('dialog button', 'Copy the command');
        checks.equal('and its command', await user.copied(), 'explore judge < evidence.txt');
        // Each part is seen in the text, which is higher than its window.
        await page.value(`document.querySelector('dialog textarea').rows = 3`);
        const top =
            `document.querySelector('dialog textarea').scrollTop / parseFloat(getComputedStyle(document.querySelector('dialog textarea')).lineHeight)`;
        await page.click('dialog .parts button[aria-label="see part 2 in the text"]');
        checks.equal('its first line is at the top', Math.round(await page.value(top)), last + 1);
        await page.click('dialog .parts button[aria-label="see part 1 in the text"]');
        checks.equal('and back', await page.value(top), 0);
        // A part is opened as it is.
        await page.value('sent.length = 0');
        await page.click('dialog .parts button', 'Open it');
        await page.until(`bench.cards.cards.length === 2 && document.querySelector('dialog svg.graph')`);
        checks.equal('the graph, as solve reads it', await page.value(`sent.find(([words]) => words === 'solve')[1]`), graph);
        await page.click('dialog button.close');
        await page.until(`!document.querySelector('dialog')`);
        await page.click('#undo');
        await page.until(cardsAre(1));
        // The same text opened.
        await user.openText(parts);
        await page.until(`document.querySelectorAll('dialog').length === 1 && document.querySelector('dialog .line')`);
        checks.equal('opened, it is judged', await page.value(`document.querySelector('dialog .line').textContent`), holds[0]);
        await page.key('Escape');
        await page.until(`!document.querySelector('dialog')`);
        await teach(page, {judge: [3, 'part 2: input: line 4: not a list of items\n']});
        await user.openText(parts);
        checks.equal('a fault stands in the window where it was opened',
            await page.until(`document.querySelector('dialog .state .faulty')?.textContent`), 'part 2: input: line 4: not a list of items');
        const marked = `document.querySelector('dialog .area').style.getPropertyValue('--fault')`;
        checks.equal('at its line of the whole text', await page.value(marked), String(last + 1 + 4));
        await page.key('Escape');
        await page.until(`!document.querySelector('dialog')`);
        // One part that judge alone reads.
        await teach(page, {judge: [0, 'holds: with identifiers: at most order log N\n']});
        const flexible = `${problem}== flexible\nM P\n`;
        await user.openText(flexible);
        await page.until(`document.querySelectorAll('dialog').length === 1 && document.querySelector('dialog .parts')`);
        checks.equal('a part alone',
            [await page.value(`sent.at(-1)`), await page.value(`document.querySelectorAll('dialog .parts li').length`)],
            [['judge', flexible], 1]);
        await page.key('Escape');
        await page.until(`!document.querySelector('dialog')`);
        // Refused, where nothing follows, and where there is no text.
        await teach(page, {evidence: [0, parts], judge: [1, 'part 2: no: not greedy with these multisets\n']});
        await page.click('.card.last .note .evidence');
        checks.equal('a refused one', await page.until(`document.querySelector('dialog .faulty.line')?.textContent`),
            'part 2: no: not greedy with these multisets');
        checks.equal('its part is told', (await page.value(listed))[1],
            [`labels for one node after another refused, lines ${last + 2} to ${end} See it`, true]);
        checks.equal('and stands in the text', await page.value(marked), String(last + 2));
        await page.key('Escape');
        await page.until(`!document.querySelector('dialog')`);
        // In a low window, as one of 200 percent, the lines are seen first.
        await page.ask('Emulation.setDeviceMetricsOverride', {width: 640, height: 400, deviceScaleFactor: 2, mobile: false});
        await teach(page, {judge: [0, `${holds.join('\n')}\n`]});
        await page.click('.card.last .note .evidence');
        const places = await page.until(
            `document.querySelector('dialog .parts') && [...document.querySelectorAll('dialog .line')].map(node => node.getBoundingClientRect()).map(({top, bottom}) => [top, bottom])`);
        checks.check(`in sight: ${places}`, places.length === 2 && places.flat().every(at => at >= 0 && at <= 400));
        await page.key('Escape');
        await page.until(`!document.querySelector('dialog')`);
        await page.ask('Emulation.setDeviceMetricsOverride', {width: 1366, height: 900, deviceScaleFactor: 1, mobile: false});
        await teach(page, {judge: [0, `${holds[0]}\n`]});
        await page.click('.card.last .note .evidence');
        checks.check('what no part shows',
            (await page.until(`document.querySelector('dialog [role=status]')?.textContent`))
                .includes('Settle says more than these parts show: with identifiers: order log* N.'));
        await page.key('Escape');
        await page.until(`!document.querySelector('dialog')`);
        await teach(page, {judge: [0, 'nothing follows\n']});
        await page.click('.card.last .note .evidence');
        checks.equal('where nothing follows that isn\'t said in green',
            await page.until(
                `(node => node && [node.textContent, node.classList.contains('good'), node.classList.contains('faulty')])(document.querySelector('dialog .line'))`),
            ['nothing follows', false, false]);
        await page.key('Escape');
        await page.until(`!document.querySelector('dialog')`);
        await teach(page, {evidence: [1, 'nothing to show\n']});
        await page.click('.card.last .note .evidence');
        await page.until(`${note}.startsWith('evidence problem 0: nothing to show')`);
        await teach(page, {evidence: [4, 'limit: more than 16777216 bytes\n']});
        await page.click('.card.last .note .evidence');
        await page.until(`${note}.startsWith('evidence problem 0: limit: more than 16777216 bytes')`);
    },

    async 'evidence of the program'(user, page, checks, picture) {
        if (!explored.has('evidence') || !explored.has('judge')) return;
        const lines = `[...document.querySelectorAll('dialog .line')].map(node => node.textContent)`;
        await user.watchCopies();
        for (const [active, passive] of [['O [IO]^2', 'I O'], MIS, ['1^3\n2^3\n3^3', '1 2\n1 3\n2 3'], ['A B', 'A B']]) {
            await user.openProblem(active, passive);
            await user.act('Settle');
            await page.until(`document.querySelector('.card.last .note .evidence')`);
            const problem = await user.problem(), {status, text} = natively('explore', ['evidence'], problem),
                  judged = natively('explore', ['judge'], text);
            checks.equal(`${active}: what the native programs say`, [status, judged.status], [0, 0]);
            await page.click('.card.last .note .evidence');
            await page.until(`document.querySelector('dialog .parts')`);
            if (active === MIS[0]) await picture('evidence', 'dialog');
            checks.equal('the lines of judge', await page.value(lines), judged.text.trimEnd().split('\n'));
            const beyond = claimsBeyond(natively('explore', ['settle'], problem).text, judged.text);
            checks.equal('what no part shows',
                await page.value(`document.querySelector('dialog [role=status]').textContent.includes('Settle says more')`),
                beyond.length > 0);
            await page.click('dialog footer button', 'Copy');
            checks.check('the text that was judged', await user.copied() === text);
            // Each part that is opened is what the word for it judges.
            const parts = partsOfEvidence(text);
            checks.equal('its parts', await page.value(`document.querySelectorAll('dialog .parts li').length`), parts.length);
            checks.check('no part that is unknown', parts.every(({holds}) => !holds.startsWith('no part')));
            await page.key('Escape');
            await page.until(`!document.querySelector('dialog')`);
            // A last line that lacks is a fault of the last part, at its line.
            const damaged = text.trimEnd().split('\n').slice(0, -1).join('\n'), refused = natively('explore', ['judge'], damaged);
            if (refused.status < 2) continue;
            await user.openText(damaged);
            checks.equal('a fault', await page.until(`document.querySelector('dialog .state .faulty')?.textContent`), refused.text.trim());
            const {line} = refusedPart(refused.text, partsOfEvidence(damaged));
            checks.equal(
                'at its line', await page.value(`document.querySelector('dialog .area').style.getPropertyValue('--fault')`), String(line));
            await page.key('Escape');
            await page.until(`!document.querySelector('dialog')`);
        }
    },

    async 'graphs of many forms are drawn'(user, page, checks) {
        for (const [lines, count] of [['1.1 1.2 1.3', 3], ['1.1 1.2\n1.3 2.1\n2.2 2.3', 6], ['1.1 2.1\n1.2 2.2\n1.3 2.3', 6],
                 ['1.1 2.1 3.1\n1.2 2.2 3.2\n1.3 2.3 3.3', 9], ['1.1 2.1\n1.2 3.1\n1.3 4.1\n2.2 3.2\n2.3 4.2\n3.3 4.3', 12],
                 ['1.1 1.2\n1.3 1.4\n1.5 1.6', 6]]) {
            await teach(page, {solve: [0, `yes:\n${'A '.repeat(6).trim()}\n`.repeat(1)]});
            await page.value(`bench.settling.draw(${quoted(`A B\n\nA B\n== graph\n${lines}\n`)})`);
            await page.until(`document.querySelectorAll('dialog svg.graph path').length === ${count}`);
            checks.check(`${lines.replaceAll('\n', ', ')}: nodes stand apart`,
                await page.value(
                    `(() => { const places = [...document.querySelectorAll('dialog svg.graph rect, dialog svg.graph circle')].map(node => node.getBBox()).map(box => [box.x + box.width / 2, box.y + box.height / 2]);
                return places.every(([x, y], i) => places.every(([u, v], k) => k <= i || Math.hypot(x - u, y - v) > 20)); })()`));
            await page.click('dialog button.close');
            await page.until(`!document.querySelector('dialog')`);
        }
        // A text of another form is drawn as none, and the program says why.
        await teach(page, {solve: [3, 'input: line 6: not a list of items\n']});
        await page.value(`bench.settling.draw('A B\\n\\nA B\\n== graph\\n1.1 1.2\\n')`);
        await page.until(`document.querySelector('dialog svg.graph')`);
        await page.fill('dialog textarea', 'nonsense');
        await page.click('dialog button', 'Solve');
        await page.until(
            `!document.querySelector('dialog svg.graph') && document.querySelector('dialog p[role=status] .line').textContent.startsWith('input: ')`);
    },

    async 'the labels of a solution stand at their ports'(user, page, checks) {
        // Three active nodes of degree 3, each with another label at each port.
        const labels = ['A B C', 'D E F', 'G H I'], graph = '1.1 2.2\n1.2 3.3\n1.3 2.1\n2.3 3.1\n3.2 3.2';
        await teach(page, {solve: [0, `yes\n${labels.join('\n')}\n`]});
        for (const lines of [graph.replace('\n3.2 3.2', ''), '1.1 1.2\n1.3 2.1\n2.2 2.3']) {
            await page.value(`bench.settling.draw(${quoted('A B C\n\nA B\n== graph\n')} + ${quoted(`${lines}\n`)})`);
            await page.until(`document.querySelectorAll('dialog svg.graph .end').length === ${lines.split(/\s/).length}`);
            // Of each end the node where it begins, by its place, the port that stands next to it, and the label between.
            const ends = await page.value(
                `(() => { const nodes = [...document.querySelectorAll('dialog svg.graph rect')].map(node => [node.nextElementSibling.textContent, Number(node.getAttribute('x')) + 11, Number(node.getAttribute('y')) + 11]);
                return [...document.querySelectorAll('dialog svg.graph .end')].map(end => { const [, x, y] = /^M ([-\\d.]+) ([-\\d.]+) /.exec(end.querySelector('path').getAttribute('d')).map(Number),
                    near = nodes.map(([name, u, v]) => [Math.hypot(x - u, y - v), name]).sort((a, b) => a[0] - b[0])[0][1],
                    ports = [...end.querySelectorAll('.small')].map(text => [Math.hypot(text.getAttribute('x') - x, text.getAttribute('y') - y), text.textContent]).sort((a, b) => a[0] - b[0]);
                    return [near + '.' + ports[0][1], end.querySelector('.output').textContent]; }).sort(); })()`);
            checks.equal(lines.replaceAll('\n', ', '), ends,
                lines.split(/\s/).map(end => [end, labels[end.split('.')[0] - 1].split(' ')[end.split('.')[1] - 1]]).sort());
            await page.click('dialog button.close');
            await page.until(`!document.querySelector('dialog')`);
        }
    },

    async 'a fault of a graph stands at its line'(user, page, checks) {
        const problem = answer(['read'], MIS.join('\n\n'));
        if (!explored.has('solve')) return;
        await page.value(`bench.settling.draw(${quoted(`${problem}== graph\n${MIS_GRAPH}\n`)})`);
        await page.until(`document.querySelector('dialog svg.graph')`);
        await page.fill('dialog textarea', '1.1 1.2\n\n2.1 2.2\n1.3 nonsense');
        await page.click('dialog button', 'Solve');
        const said = natively('explore', ['solve'], `${problem}== graph\n1.1 1.2\n2.1 2.2\n1.3 nonsense\n`).text.trim();
        checks.equal('the fault', await page.until(`document.querySelector('dialog .faulty')?.textContent`),
            `line 4: ${said.replace(/^input: line \d+: /, '')}`);
        checks.equal(
            'the line is marked', await page.value(`document.querySelector('dialog .area').style.getPropertyValue('--fault')`), '4');
        checks.check('the window is open', await page.value(`Boolean(document.querySelector('dialog[open]'))`));
    },

    async 'the line of the catalogue'(user, page, checks) {
        const shown = `document.querySelector('.card.last .catalogue')?.textContent`;
        // Problems of two and of three labels, under other names: the line is that of the table.
        for (const [name, problem, text] of [['2-3-2', ['O [IO]^2', 'I O'], 'AAA AAB ABB / AB'], ['3-3-2', MIS, 'AAA BBC / AB AC BB']]) {
            const table = linesOfTable(catalogueTables()[name]), [number, , ...columns] = table.find(line => line[1] === text);
            await user.openProblem(...problem);
            checks.equal(`its line in ${name}`, await page.until(`${shown}?.replace('Others like it…', '')`),
                `The catalogue's line, number ${number}:${
                    claimsOfLine(columns)
                        .map(({line, shownBy}) =>
                                 `${line}${modelOf(line) && ` ${modelOf(line)}`}${shownBy.length ? `shown by${shownBy.join('')}` : ''}`)
                        .join('')}`);
            const title = await page.value(`document.querySelector('.card.last .catalogue .hint').title`);
            checks.check(
                title, title.endsWith(`under these names: ${text}`) && title.includes(` ${table.length.toLocaleString('en')} problems `));
        }
        // What shows it opens the chain, or the graph.
        await page.click('.card.last .catalogue button', 'cover');
        await page.until(`document.querySelector('dialog svg.graph')`);
        await page.click('dialog button.close');
        await user.openProblem('O [IO]^2', 'I O');
        await page.until(shown);
        await page.click('.card.last .catalogue .by button');
        await user.says('accepted: not solvable in any number of rounds');
        // A search hangs on the order of the labels: where it is another one, the problem takes the catalogue's names first.
        const table = catalogueTables()['3-3-2'], named = line => line.replace(/[ABC]/g, label => ({A: 'Z', B: 'Y', C: 'X'})[label]);
        const sidesOf = line => line.split(' / ').map(side => side.split(' ').map(config => [...config].join(' ')).join('\n'));
        const [number, line, , by] = linesOfTable(table).find(([, line, , by]) => /^explore longest|^re lower [5-9]/.test(by) &&
                catalogueLine(table, answer(['read'], `${sidesOf(named(line)).join('\n\n')}\n`)).isInOrder === false);
        const [program, ...words] = by.split('; ')[0].split(' ');
        await user.openProblem(...sidesOf(named(line)));
        await page.until(`${shown}?.includes('number ${number}:')`);
        await page.click('.card.last .catalogue .by button');
        await user.says(answer(['check'], natively(program, words, `${sidesOf(line).join('\n\n')}\n`).text).trim());
        checks.check('the card of its names', (await page.value('bench.cards.path()[1].title')).startsWith('renamed '));
        await user.openProblem('1^3\n2^3\n3^3\n4^3', '1 [234]\n2 [34]\n3 4');
        checks.check('none of four labels', await page.value(`document.querySelector('.card.last .catalogue') === null`));
    },

    async 'a command of the catalogue that names labels'(user, page, checks) {
        // The labels have the same order there, and other names.
        const named = 'AAA AAB ABB / AB', text = answer(['read'], 'A [AB]^2\n\nA B\n');
        await page.value(`(() => { bench.catalogue.packed['2-3-2'] = ''; bench.catalogue.tables['2-3-2'] = Promise.resolve(${
            quoted(`1\t${named}\tmore than 1\texplore merge 'B' 'A' | explore step; explore longest 2 8\n`)}); })()`);
        await teach(page, {'merge B A': [0, natively('explore', ['step'], text).text]});
        await user.openProblem('I [IO]^2', 'I O');
        await page.click('.card.last .catalogue button', 'merge');
        await page.until(cardsAre(4));
        checks.equal('the names first', await page.value('bench.cards.path()[1].title'), 'renamed I→A O→B');
        await user.says('accepted: not solvable in 2 or fewer rounds');
        await page.click('#undo');
        await page.until(cardsAre(1));
        await page.click('.card.last .catalogue button', 'longest');
        await page.until(cardsAre(3));
        checks.check('no names where there is the same order', !(await page.value('bench.cards.path()[1].title')).startsWith('renamed'));
        await user.says('accepted: not solvable in 2 or fewer rounds');
    },

    async 'a merge in the first problem, and a step'(user, page, checks) {
        await user.openExample('no sinks no sources');
        await user.select('I', 'O');
        const can = natively('explore', ['merge', 'A', 'B'], 'A B\n\nA B\n').text.startsWith('==');
        checks.equal('only where the program does it', await page.value(`bench.changes.canMergeFirst()`), can);
        const chain = natively('explore', ['step'], await user.problem()).text;
        if (!can) await teach(page, {'merge A B': [0, '== certificate\n'], 'merge O I': [0, chain]});
        await page.click('.card.last .selection button', 'Clear');
        await user.select('I', 'O');
        await page.click('.card.last .selection button', 'O into I, and step');
        await page.until(cardsAre(2));
        checks.equal('it is judged', answer(['check'], await user.certificate()).trim(), await user.verdict());
        checks.check('and speaks of the problem itself',
            (await user.certificate()).includes(await page.value('bench.cards.path()[0].problem')) ||
                (await user.certificate()).startsWith('== certificate'));
    },
};
