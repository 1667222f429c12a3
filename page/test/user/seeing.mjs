// What a user sees of an answer: its colour, whose it is, and what is copied, saved, printed and kept.
import {readFileSync} from 'fs';
import {join} from 'path';
import {latexOf} from '../../src/texts/texts.js';
import {answer, natively, pageFolder} from '../place.mjs';
import {explored, teach} from '../teaching.mjs';
import {cardsAre, drawn, MIS} from '../user.mjs';

const hueOf = selector => `(() => { const [r, g, b] = getComputedStyle(document.querySelector('${
    selector}')).color.match(/[\\d.]+/g).map(Number); return g > r && g > b ? 'green' : r > g && r > b ? 'red' : 'none'; })()`;
const dark = on => `document.documentElement.dataset.theme = '${on ? 'dark' : 'light'}'`;

export const seeingSessions = {
    async 'accepted is green, refused is red'(user, page, checks) {
        for (const isDark of [false, true]) {
            await page.go();
            await page.value(dark(isDark));
            await user.openProblem(...MIS);
            await user.says('accepted: not solvable in 0 or fewer rounds');
            checks.equal('the verdict', await page.value(hueOf('#verdict-line')), 'green');
            if (explored.has('given')) {
                await page.choose('#given-kind', 'a colouring');
                await page.until(`document.querySelector('#given-line .line')?.textContent.startsWith('accepted')`);
                checks.equal('what is given', await page.value(hueOf('#given-line .line')), 'green');
                await user.step(2);
                await page.choose('#given-kind', 'the two sides');
                await page.until(`document.querySelector('#given-line .line')?.textContent.startsWith('refused')`);
                checks.equal('and refused', await page.value(hueOf('#given-line .line')), 'red');
            }
            await user.openProblem('1^3\n2^3', '[12]^2');
            await page.until(`bench.cards.path()[0].problem.startsWith('1^3') && document.querySelector('#verdict-line')`);
            const line = await user.verdict();
            checks.equal(line, await page.value(hueOf('#verdict-line')), line.startsWith('accepted') ? 'green' : 'red');
            await user.openText('== certificate 1 lower\nA^3\n\nA^2\n== end\n');
            await page.until(`document.querySelector('#verdict-line')?.textContent === 'refused: clause END'`);
            checks.equal('a refused one', await page.value(hueOf('#verdict-line')), 'red');
        }
        await page.value('delete document.documentElement.dataset.theme');
    },

    async 'the style is read as that of the source'(user, page, checks) {
        const source = readFileSync(join(pageFolder, 'src/style.css'), 'utf8'),
              rules = sheet => `[...${sheet}.cssRules].map(rule => rule.cssText)`;
        const [held, wanted] = await page.value(`(() => { const sheet = new CSSStyleSheet(); sheet.replaceSync(${
            JSON.stringify(source)}); return [${rules('document.styleSheets[0]')}, ${rules('sheet')}]; })()`);
        checks.equal('as many rules', held.length, wanted.length);
        // A value of a name of its own is kept as it is written.
        const plain = rule => rule.replace(/\s+/g, ' ').replace(/, /g, ',');
        checks.equal('each rule', held.filter((rule, i) => plain(rule) !== plain(wanted[i])), []);
    },

    async 'notes go with their problem'(user, page, checks) {
        await user.openProblem(...MIS);
        await user.act('Universal rows');
        await page.until(`document.querySelector('.card.last .note')`);
        await page.click('#undo');
        await page.until(cardsAre(0));
        await user.openProblem('1^3\n2^3\n3^3', '1 2\n1 3\n2 3');
        checks.equal('it is card 1 again', await page.value('bench.cards.path()[0].id'), 1);
        checks.equal('without the note of the other one', await page.value(`document.querySelectorAll('.note').length`), 0);
    },

    async 'copies and pictures are those of the card in hand'(user, page, checks) {
        await user.openProblem('O [IO]^2', 'I O');
        await user.step(2);
        await user.watchCopies();
        const wanted = async at => latexOf(await page.value(`bench.linesOf(bench.cards.path()[${at}])`));
        await page.click('.card.last .menu summary');
        await page.click('.card.last .menu button', 'Copy for LaTeX');
        const copied = await user.copied();
        checks.equal('LaTeX of the later card', copied, await wanted(1));
        checks.check('which is another one', copied !== await wanted(0));
        await page.value(`document.querySelectorAll('.card')[0].focus()`);
        await page.key('l');
        checks.equal('by a key, of the card that has the focus', await user.copied(), await wanted(0));
        if (explored.has('describe')) {
            await page.click('.card.last .menu summary');
            await page.click('.card.last .menu button', 'Copy its report for LaTeX');
            checks.equal('its report', await user.copied(),
                natively('explore', ['describe', 'latex'],
                    await page.value(`bench.facts.of(bench.cards.path()[1].problem).written().then(({text}) => text)`))
                    .text);
        }
        if (explored.has('given')) {
            await page.choose('#given-kind', 'an orientation');
            await page.until(`bench.cards.path()[0].given`);
            await page.click('.card.last .menu summary');
            await page.click('.card.last .menu button', 'Copy with what is given');
            const text = await user.copied();
            checks.equal('with what is given at it', answer(['read'], text.split('== given\n')[1]),
                await page.value(`bench.given.at(bench.cards.path(), bench.cards.path()[1])`));
            checks.check('that the program reads', natively('explore', ['fit'], text).status < 2);
        }
        // The files of its two diagrams.
        await page.value(
            `(() => { const make = URL.createObjectURL.bind(URL); window.saved = []; URL.createObjectURL = blob => { blob.text().then(text => saved.push(text)); return make(blob); }; })()`);
        for (const side of ['active', 'passive']) {
            await page.click(`.card.last figure[data-side=${side}] .save button`, 'SVG');
            const file = await page.until('saved.length && saved.pop()');
            checks.check(`that of the ${side} side`, file.startsWith('<svg') && file.includes(`<title>${side} diagram: `));
        }
    },

    async 'the report of the card in hand has what is given'(user, page, checks) {
        if (!explored.has('given') || !explored.has('describe')) return;
        await user.openProblem('O [IO]^2', 'I O');
        await user.step(2);
        const alone = await page.value(`bench.facts.of(bench.cards.path()[1].problem).written().then(({text}) => text)`);
        await page.choose('#given-kind', 'an orientation');
        await page.until(`bench.cards.path()[0].given`);
        await user.watchCopies();
        const message = `document.querySelector('#message').textContent`, copyReport = async () => {
            await page.click('.card.last .menu summary');
            await page.click('.card.last .menu button', 'Copy its report for LaTeX');
        };
        const given = await page.value(`bench.given.at(bench.cards.path(), bench.cards.path()[1])`),
              whole = `${alone.trimEnd()}\n== given\n${given}`, ofProgram = text => natively('explore', ['describe', 'latex'], text);
        await copyReport();
        checks.equal('as far as the program reads it', await user.copied(), ofProgram(explored.has('describe given') ? whole : alone).text);
        await teach(page, {'describe latex': [0, 'a report\n']}, ['describe given']);
        await copyReport();
        checks.equal('the report', await user.copied(), 'a report\n');
        checks.equal('of the problem and what is given at it',
            await page.value(`sent.filter(([words]) => words === 'describe latex').map(([, text]) => text)`), [whole]);
        // Where the program refuses that, the report is that of the problem alone, and it says so.
        await page.value(`(() => { const ask = engine.ask.bind(engine);
            engine.ask = (program, words, input, ...rest) => words[0] !== 'describe' ? ask(program, words, input, ...rest)
                : Promise.resolve(input.includes('== given') ? {status: 4, text: 'limit: more than 128 labels\\n'} : {status: 0, text: 'alone'}); })()`);
        await copyReport();
        checks.equal('of the problem alone', await user.copied(), 'alone');
        checks.equal(
            'it says so', await page.value(message), 'explore describe latex: limit: more than 128 labels. Copied without what is given.');
    },

    async 'the paper has what is closed on the page'(user, page, checks) {
        await user.openProblem(...MIS);
        for (const n of [2, 3]) await user.step(n);
        await page.click('#close-all');
        await page.value(
            `window.print = () => { window.printed = [...document.querySelectorAll('.card')].map(card => [card.classList.contains('closed'), card.querySelectorAll('svg.diagram, .classes').length]); }`);
        await page.key('p', {modifiers: 2});
        checks.equal('each card is open, with its diagrams', await page.until('window.printed'), [[false, 2], [false, 2], [false, 2]]);
        checks.equal('and closed again',
            await page.until(`[...document.querySelectorAll('.card')].every(card => card.classList.contains('closed'))`), true);
    },

    async 'a reload keeps what was tried, and what redo brings back'(user, page, checks) {
        await user.openProblem(...MIS);
        for (const k of [0, 1]) {
            await user.search('rounds', k);
            await page.until(`document.querySelectorAll('.card.last .tried tr').length === ${k + 1}`);
        }
        await user.step(2);
        await page.click('#undo');
        await page.until(cardsAre(1));
        await page.until('!bench.keeper.timer && location.hash.length > 20');
        await page.reload();
        await page.until(cardsAre(1));
        checks.equal('both commands',
            await page.value(`[...document.querySelectorAll('.card.last .tried td:first-child')].map(cell => cell.textContent)`),
            ['rounds 0', 'rounds 1']);
        await page.click('#redo');
        checks.check('the step is there again', await page.until(`${cardsAre(2)} && ${drawn}`));
    },
};
