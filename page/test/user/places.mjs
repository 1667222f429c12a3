// Where things stand on the page: nothing covers a result, and what is used often has its room.
import {answer} from '../place.mjs';
import {teachMissing} from '../teaching.mjs';
import {cardsAre, drawn, MIS} from '../user.mjs';
import {wait} from '../browser.mjs';

const sized = (page, width, height) => page.ask('Emulation.setDeviceMetricsOverride', {width, height, deviceScaleFactor: 1, mobile: false});
const boxOf = (page, selector) => page.value(`(() => { const {left, top, right, bottom} = document.querySelector(${
    JSON.stringify(selector)}).getBoundingClientRect(); return {left, top, right, bottom}; })()`);

export const placesSessions = {
    async 'what runs covers no result'(user, page, checks) {
        await user.openProblem(...MIS);
        await user.search('rounds', 0);
        await page.until(`document.querySelector('.card.last .note')`);
        await user.search('lower', 8, 2);
        await user.running('lower 8 2');
        checks.check('it stands in the bar', await page.value(`document.querySelector('.bar').contains(document.querySelector('#jobs'))`));
        const bar = await boxOf(page, '.bar'), jobs = await boxOf(page, '#jobs');
        checks.check('within it', jobs.top >= bar.top && jobs.bottom <= bar.bottom && jobs.right <= bar.right);
        // Without the test scrolling to it.
        await user.search('rounds', 1);
        await page.until(`document.querySelectorAll('.card.last .note').length > 1`);
        await wait(300);
        checks.check('the result is seen',
            await page.value(
                `(() => { const note = document.querySelector('.card.last .note'), box = note.getBoundingClientRect(); return note.contains(document.elementFromPoint(box.left + 30, box.top + box.height / 2)); })()`));
        await user.stop('lower 8 2');
    },

    async 'three lines of buttons, and room for the cards'(user, page, checks) {
        await teachMissing(page, {'shortest 8 10': [1, 'not found'], reduce: [0, '']});
        await user.openProblem(...MIS);
        for (const n of [2, 3, 4]) await user.step(n);
        for (const [width, height] of [[1280, 800], [1366, 768]]) {
            await sized(page, width, height);
            await wait(300);
            const rows = await page.value(
                `new Set([...document.querySelectorAll('.card.last .actions button:not(.menu button), .card.last .actions input')].map(node => Math.round(node.getBoundingClientRect().bottom / 10))).size`);
            checks.check(`${width}x${height}: ${rows} lines of buttons`, rows <= 3);
            const seen = await page.value(
                `(() => { const list = document.querySelector('#card-list'); list.closest('aside').scrollTop = 0; return [...list.children].filter(row => row.getBoundingClientRect().bottom <= Math.min(list.getBoundingClientRect().bottom, document.querySelector('#claim').getBoundingClientRect().top) + 1).length; })()`);
            checks.check(`${width}x${height}: ${seen} rows of the list are seen`, seen === 4);
            checks.check(
                `${width}x${height}: nothing hangs over the side`, await page.value('document.documentElement.scrollWidth <= innerWidth'));
        }
        await sized(page, 1366, 900);
    },

    async 'few lines are shown whole, large diagrams when they are asked for'(user, page, checks) {
        const lines = count => Array.from({length: count}, (_, i) => `(a${i}) (b${i})`).join('\n');
        for (const [count, shown] of [[16, 16], [22, 22], [23, 14]]) {
            await user.openText(`${lines(count)}\n\n(a0)^2\n`);
            await page.until(`bench.cards.path()[0]?.problem.split('\\n\\n')[0].split('\\n').length === ${
                count} && document.querySelector('.card.last section .line')`);
            checks.equal(`of ${count} lines`,
                await page.value(`document.querySelectorAll('.card.last section[aria-label="active constraint"] .line').length`), shown);
        }
        const names = Array.from({length: 32}, (_, i) => `(L${i})`);
        await user.openText(
            `${names.map((name, i) => `${name} ${names[(i + 1) % 32]}`).join('\n')}\n\n${names.map(name => `${name}^2`).join('\n')}\n`);
        await page.until(`document.querySelectorAll('.card.last .classes').length === 2`);
        checks.equal(
            'a diagram of 32 labels is no picture', await page.value(`document.querySelectorAll('.card.last svg.diagram').length`), 0);
        await page.click('.card.last figure button', 'Draw it');
        await page.until(`document.querySelectorAll('.card.last svg.diagram .node').length === 32`);
    },

    async 'each search keeps its own numbers'(user, page, checks) {
        await user.openProblem('O [IO]^2', 'I O');
        await user.search('rounds', 5);
        await user.note();
        await user.search('lower', 3, 0);
        await user.says('accepted: not solvable in 3 or fewer rounds');
        const numbers = await page.value(
            `Object.fromEntries([...document.querySelectorAll('.card.last .ask')].map(ask => [ask.dataset.search, [...ask.querySelectorAll('input')].map(input => input.value)]))`);
        checks.equal('rounds has its own', numbers.rounds, ['5']);
        checks.equal('lower has its own', numbers.lower, ['3', '0']);
        checks.check('each says what it bounds',
            await page.value(`[...document.querySelectorAll('.card.last .ask input')].every(input => input.title.length > 10)`));
        checks.equal('what was tried',
            await page.value(`document.querySelector('.card .written tr').textContent`)
                .then(text => text.startsWith('rounds 5more than 5')),
            true);
    },

    async 'rounds of the graph beside hops'(user, page, checks) {
        await user.openProblem(...MIS);
        for (const n of [2, 3]) await user.step(n);
        await user.says('accepted: not solvable in 2 or fewer rounds');
        checks.equal('half of them', (await page.until(`document.querySelector('#rounds-of-graph')?.textContent`)).trim(),
            `· Problem 0 isn't solvable in 1 or fewer rounds of the graph.`);
        // None where passive nodes are no edges.
        await user.openExample('weak splitting');
        await page.until(`document.querySelector('#verdict-line') && !document.querySelector('#rounds-of-graph')`);
        checks.check('the line is that of the program', (await user.verdict()) === answer(['check'], await user.certificate()).trim());
    },

    async 'names of problems'(user, page, checks) {
        await user.openExample('orientation');
        checks.equal('that of an example', await page.value('document.title'), 'orientation – re workbench');
        await page.choose('#gallery', 'two colouring 3');
        await page.until(`document.title === 'two colouring 3 – re workbench'`);
        await user.openText('A B^2\n\nA [AB]\n');
        await page.until(`${cardsAre(1)} && document.title === 'A B^2 – re workbench' && ${drawn}`);
        checks.equal('in the list', await page.value(`document.querySelector('#card-list [aria-current]').textContent`), '0 A B^2');
    },
};
