// Many problems at once: a list of them settled as a table, the catalogue to browse, and two cards side by side.
import {problemsIn} from '../../src/texts/lists.js';
import {readSettled} from '../../src/texts/settled.js';
import {answer, catalogueTables, linesOfTable, natively} from '../place.mjs';
import {explored, hold, isHeld, letGo} from '../teaching.mjs';
import {cardsAre, drawn, MIS} from '../user.mjs';

const quoted = value => JSON.stringify(value);
const rows = `[...document.querySelectorAll('dialog tbody tr')]`,
      cells = `${rows}.map(row => [...row.cells].map(cell => cell.textContent))`;
const status = `[...document.querySelectorAll('dialog [role=status]')].map(node => node.textContent).join(' ')`;

const sessions = {
    async 'a list of problems is settled as a table'(user, page, checks) {
        const list = ['M^3, P O^2 / M [PO], O^2', 'AAB ABB / AB BB', 'A^3 / B^2', 'X Y', 'O [IO]^2 / I O'];
        await user.watchCopies();
        await page.click('#survey');
        await page.click('dialog footer button', 'Settle all');
        checks.check('an empty list', (await page.until(`${status}.trim() && ${status}`)).includes('Write a problem'));
        await page.fill('dialog textarea', list.join('\n'));
        await page.click('dialog footer button', 'Settle all');
        await page.until(`${status}.includes('5 of 5 problems')`);
        const shown = await page.value(cells), said = list.map(line => {
            const [{text}] = problemsIn(line), read = natively('re', ['read'], text);
            return read.status ? read.text.trim() : readSettled(natively('explore', ['settle'], read.text).text);
        });
        for (const [i, wanted] of said.entries()) {
            checks.equal('its number', shown[i][0], String(i + 1));
            if (typeof wanted === 'string') checks.equal(`the fault of ${list[i]}`, shown[i][2], wanted);
            else
                for (const {line, shownBy} of wanted)
                    checks.check(
                        `${list[i]}: ${line}`, shown[i][2].includes(line) && shownBy.every(command => shown[i][2].includes(command)));
        }
        checks.equal('the focus stays in the window',
            await page.until(`document.querySelector('dialog .progress button').hidden && document.activeElement.textContent`),
            'Copy as TSV');
        checks.equal('the bar', await page.value(`(({value, max}) => [value, max])(document.querySelector('dialog progress'))`), [5, 5]);
        await page.click('dialog footer button', 'Copy as TSV');
        const table = (await user.copied()).trimEnd().split('\n').map(line => line.split('\t'));
        checks.equal('the table: what was asked', table.slice(1).map(([, problem]) => problem).filter(problem => !problem.includes('AAB')),
            list.map(line => line.startsWith('AAB') ? 'A A B, A B B / A B, B B' : line));
        checks.equal('and what was said', table.slice(1).map(row => row[2]),
            said.map(wanted => typeof wanted === 'string' ? wanted : wanted[0].line));
        // The window opened again has the table, and a row opens as a card.
        await page.key('Escape');
        await page.until(`!document.querySelector('dialog')`);
        await page.click('#survey');
        checks.equal('it stays', (await page.until(`${cells}.length && ${cells}`)).length, 5);
        await page.click('dialog tbody tr:nth-child(5) button', 'Open');
        await page.until(`!document.querySelector('dialog') && ${cardsAre(1)} && ${drawn}`);
        checks.equal('the card', await user.problem(), answer(['read'], 'O [IO]^2\n\nI O\n'));
    },

    async 'rows come one by one, and Stop keeps them'(user, page, checks) {
        await page.click('#survey');
        await page.fill('dialog textarea', ['O [IO]^2 / I O', 'M^3, P O^2 / M [PO], O^2', 'A^3 / A^2', 'A^3 / B^2'].join('\n'));
        await hold(page, ['settle'], 3);
        await page.click('dialog footer button', 'Settle all');
        await isHeld(page, 2);
        checks.check('none yet', (await page.value(status)).includes('0 of 4'));
        await letGo(page, 1);
        await isHeld(page, 2);
        checks.check('one of them', (await page.value(status)).includes('1 of 4'));
        checks.equal('the others wait', await page.value(`${rows}.filter(row => row.textContent.includes('…')).length`), 3);
        checks.equal('one job in the bar', await page.until(`document.querySelectorAll('#jobs .job').length`), 1);
        await page.click('dialog .progress button', 'Stop');
        await letGo(page);
        checks.check('stopped', (await page.until(`${status}.includes('stopped') && ${status}`)).includes('of 4 problems, stopped'));
        checks.check('what came stays', (await page.value(cells))[0][2].startsWith('not solvable in any number of rounds'));
        checks.check('the rest was not asked', (await page.value(cells))[3][2] === '…');
        checks.equal('nothing runs', await page.value('engine.tasks.size'), 0);
        // Another list in place of one that runs.
        await page.value('engine.answers.clear()');
        await page.fill('dialog textarea', 'O [IO]^2 / I O\nA^3 / A^2\nA^3 / B^2');
        await hold(page, ['settle'], 2);
        await page.click('dialog footer button', 'Settle all');
        await isHeld(page, 2);
        await page.fill('dialog textarea', 'B^3 / B^2');
        await page.click('dialog footer button', 'Settle all');
        await page.until(`${status}.includes('1 of 1 problem')`);
        await letGo(page);
        checks.equal('the rows of that one alone', await page.value(`${cells}.map(row => row.slice(0, 2))`), [['1', 'B^3 / B^2']]);
        checks.check('with its answer', (await page.value(cells))[0][2].startsWith('exactly 0'));
        checks.check('and no more', (await page.value(status)).trim() === '1 of 1 problem');
    },

    async 'the catalogue to browse'(user, page, checks) {
        const all = linesOfTable(catalogueTables()['2-3-2']);
        await page.click('#browse');
        await page.until(`${rows}.length > 3`);
        await page.choose('dialog select[aria-label=table]', '2 labels, degrees 3 and 2');
        await page.until(`${status}.includes('of ${all.length}')`);
        checks.equal('all of them', await page.value(`${cells}.map(row => row[1])`), all.map(([, problem]) => problem).slice(0, 100));
        await page.fill('dialog input[type=search]', '9');
        const [number, problem, said] = all[8];
        checks.equal('by number', await page.until(`${rows}.length === 1 && ${cells}[0].slice(0, 2)`), [number, problem]);
        await page.fill('dialog input[type=search]', 'AAB BB');
        const found = all.filter(([, text]) => text.includes('AAB') && text.includes('BB'));
        checks.equal(
            'by words', await page.until(`${rows}.length === ${found.length} && ${cells}.map(row => row[0])`), found.map(([n]) => n));
        await page.fill('dialog input[type=search]', '');
        const same = all.filter(line => line[2] === said);
        await page.value(`(() => { const list = document.querySelector('dialog select[aria-label=answer]'); list.value = ${
            quoted(said)}; list.dispatchEvent(new Event('change', {bubbles: true})); })()`);
        checks.equal(`by answer: ${said}`, await page.until(`${rows}.length === ${same.length} && ${cells}.map(row => row[0])`),
            same.map(([n]) => n));
        await page.click('dialog tbody tr:last-child button', 'Open');
        await page.until(`!document.querySelector('dialog') && ${cardsAre(1)} && ${drawn}`);
        const last = same.at(-1);
        checks.equal('as a card', await user.problem(), answer(['read'], problemsIn(last[1])[0].text));
        // Its line says that it is that one, and leads to those like it.
        checks.check('its line', (await page.until(`document.querySelector('.catalogue')?.textContent`)).includes(`number ${last[0]}:`));
        await page.click('.catalogue button', 'Others like it');
        const like = all.filter(line => line[2] === last[2] && line[4] === last[4]);
        checks.equal(
            'others like it', await page.until(`${rows}.length === ${like.length} && ${cells}.map(row => row[0])`), like.map(([n]) => n));
    },

    async 'two cards side by side'(user, page, checks) {
        await user.openProblem('M^3\nP O^2', 'M [PO]\nO^2');
        await user.select('P', 'O');
        await user.actOnSelected('Merge into O');
        await page.until(`${cardsAre(2)} && ${drawn}`);
        await page.value(`document.querySelector('.card.last').focus()`);
        await page.key('b');
        await page.until(`document.querySelectorAll('dialog svg.diagram').length === 4`);
        const sides = `[...document.querySelectorAll('dialog .columns > section')]`,
              alone = `${sides}.map(side => side.querySelector('[role=status]').textContent)`;
        checks.equal('the earlier one on the left',
            await page.value(`${sides}.map(side => side.querySelector('select').selectedOptions[0].textContent)`),
            await page.value(`bench.cards.path().map(card => bench.nameOf(card))`));
        const [first, second] = await page.value('bench.cards.path().map(card => card.problem)'),
                      blocks = text => text.trim().split('\n\n').map(block => block.split('\n'));
        const rest = (text, other) => ['active', 'passive']
                                          .map((side, i) => [side, blocks(text)[i].filter(line => !blocks(other)[i].includes(line))])
                                          .filter(([, lines]) => lines.length)
                                          .map(([side, lines]) => `${side}, here alone: ${lines.join(', ')}`)
                                          .join('');
        checks.equal('what stands in one of them alone', await page.value(alone), [rest(first, second), rest(second, first)]);
        await page.click('dialog footer button', 'Exchange');
        checks.equal('exchanged', await page.value(alone), [rest(second, first), rest(first, second)]);
        await page.value(
            `(() => { const [list] = document.querySelectorAll('dialog .columns select'); list.value = String(bench.cards.path()[0].id); list.dispatchEvent(new Event('change', {bubbles: true})); })()`);
        checks.equal('the same twice', await page.value(alone), ['The same problem.', 'The same problem.']);
    },
};

export const tablesSessions = explored.has('settle') ? sessions : {};
