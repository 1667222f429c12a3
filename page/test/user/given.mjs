// What the nodes are given: a field of the chain, judged by `explore given`, and on the cards by `explore fit`.
import {answer, example, natively} from '../place.mjs';
import {explored, teachMissing} from '../teaching.mjs';
import {cardsAre, drawn, MIS} from '../user.mjs';
import {wait} from '../browser.mjs';

const hasInput = explored.has('input');
const line = `document.querySelector('#given-line .line')?.textContent`;
const given = (text, input) => natively('explore', ['given'], `${text}== given\n${input}`).text.split('\n', 1)[0];
const choose = (page, says) => page.choose('#given-kind', says);

const sessions = {
    async 'a colouring is given'(user, page, checks, picture) {
        await user.openProblem(...MIS);
        for (const n of [2, 3]) await user.step(n);
        await user.says('accepted: not solvable in 2 or fewer rounds');
        await choose(page, 'a colouring');
        const four = answer(['family', 'colouring', '3', '2', '4']);
        checks.equal('the line of explore given', await page.until(line), given(await user.certificate(), four));
        checks.equal('it is accepted', await page.until(line), 'accepted: given that input, not solvable in 2 or fewer rounds');
        await user.says('accepted: not solvable in 2 or fewer rounds');
        checks.check('on the card',
            (await page.until(`document.querySelector('.card.last .badges').textContent.includes('0 rounds given: no') && 'no'`)) === 'no');
        await page.click('#close-all');
        await page.click('.card.last .toggle');
        await page.value('scrollTo(0, 0)');
        await picture('given');
        // Another number of colours.
        await page.fill('#given input', '2');
        await page.until(`bench.cards.path()[0].given.count === 2`);
        const two = answer(['family', 'colouring', '3', '2', '2']);
        checks.equal('two colours',
            await page.until(
                `bench.claim.verdict?.certificate && ${line} === ${JSON.stringify(given(await user.certificate(), two))} && ${line}`),
            given(await user.certificate(), two));
        await choose(page, 'nothing');
        await page.until(`!bench.cards.path()[0].given && !document.querySelector('#given-line').textContent`);
        checks.check('and nothing on the card',
            await page.value(
                `[...document.querySelectorAll('.card .badge')].every(badge => badge.hidden || !badge.textContent.includes('given'))`));
    },

    async 'what is given solves it: the map at the labels'(user, page, checks) {
        await user.openProblem('1^3\n2^3\n3^3', '1 2\n1 3\n2 3');
        await choose(page, 'a colouring');
        await page.until(`bench.cards.path()[0].given`);
        await page.fill('#given input', '3');
        await page.until(`document.querySelector('.card.last .fit .list')`);
        const input = answer(['family', 'colouring', '3', '2', '3']),
              fit = natively('explore', ['fit'], `${await user.problem()}== given\n${input}`).text.trim().split('\n').slice(1);
        const shown = await page.value(`[...document.querySelectorAll('.card.last .fit .meaning')].map(node => node.textContent)`);
        checks.equal('the lines of explore fit', shown, fit.map(row => row.replace(/ (= )?/, ' → ')));
        checks.check(
            'solvable', (await page.value(`document.querySelector('.card.last .badges').textContent`)).includes('0 rounds given: yes'));
        checks.check('the second line', (await page.until(line)).startsWith('refused: given that input'));
        // It is kept with the session: undo, a reload, a file.
        await page.until(`location.hash.length > 20`);
        await wait(400);
        const session = await page.value(`engine.work('sessionText', bench.cards.state)`);
        await page.ask('Page.reload');
        await wait(300);
        await page.until(`document.body?.classList.contains('ready') && ${
            cardsAre(
                1)} && document.querySelector('#given-kind').value === 'colouring' && document.querySelector('#given input').value === '3'`);
        checks.check('the line again', (await page.until(line)).startsWith('refused: given that input'));
        await page.key('z', {modifiers: 2});
        await user.openText(session);
        await page.until(`bench.cards.path()[0].given?.count === 3`);
        // A foreign session: what is given has to be a problem.
        const foreign = JSON.parse(session);
        foreign.cards[0].given.problem = 'nonsense';
        await user.openText(JSON.stringify(foreign));
        checks.equal('a foreign one', await page.until(`document.querySelector('dialog .state .faulty')?.textContent`),
            'card 1 of the session: what is given is no canonical text');
        await page.key('Escape');
    },

    async 'a problem of the own is given'(user, page, checks) {
        await user.openProblem('O [IO]^2', 'I O');
        await choose(page, 'a problem…');
        await page.until(`document.querySelector('dialog textarea')`);
        await page.fill('dialog textarea', '[IO]^3', 0);
        await page.fill('dialog textarea', 'I O', 1);
        await page.until(`!document.querySelector('dialog footer button').disabled`);
        await page.click('dialog footer button', 'Use it');
        const orientation = answer(['read'], '[IO]^3\n\nI O\n');
        checks.equal('an orientation as a problem', await page.until(line), given(await user.certificate(), orientation));
        await user.step(2);
        checks.equal('behind a step',
            await page.until(`bench.claim.verdict?.certificate && ${
                line} === 'accepted: given that input, not solvable in 1 or fewer rounds' && ${line}`),
            given(await user.certificate(), orientation));
        await page.click('#given button', 'Change');
        await page.until(`document.querySelector('dialog textarea')?.value`);
        await page.fill('dialog textarea', 'A B^2', 0);
        await page.fill('dialog textarea', 'A^2', 1);
        await page.until(`!document.querySelector('dialog footer button').disabled`);
        await page.click('dialog footer button', 'Use it');
        // One that is no input: the window stays, and marks the line at fault.
        const at =
            `[...document.querySelectorAll('dialog .area')].map(area => area.classList.contains('faulty') ? area.style.getPropertyValue('--fault') : '')`;
        const said = `document.querySelector('dialog .state .faulty')?.textContent`;
        checks.check('one that is no input', (await page.until(said)).startsWith('explore given: no: not an input: B: '));
        checks.equal('at its line', await page.value(at), ['1', '']);
        await page.fill('dialog textarea', '[IO]^3', 0);
        await page.fill('dialog textarea', '\nI^3 O^2', 1);
        await page.until(`!document.querySelector('dialog footer button').disabled`);
        await page.click('dialog footer button', 'Use it');
        checks.check('wrong degrees',
            (await page.until(`${said}?.includes('degrees') && ${said}`))
                .startsWith('explore given: no: not an input: degrees: here they are 3 and 5,'));
        checks.equal('at a line that stands there', await page.value(at), ['', '2']);
        checks.check('what was given stays', (await page.value('bench.cards.path()[0].given.problem')) === orientation);
    },

    async 'the product with what is given'(user, page, checks) {
        const product = answer(['read'], '[(I1)(O1)]^2 (O1)\n[(I2)(O2)]^2 (O2)\n\n(I1) (O2)\n(I2) (O1)\n');
        await teachMissing(page, {product: [0, product]});
        await user.openProblem('O [IO]^2', 'I O');
        checks.check(
            'not where nothing is given', await page.value(`[...document.querySelectorAll('#given button')].every(node => node.hidden)`));
        const first = await user.problem();
        await choose(page, 'a colouring');
        await page.until(`bench.cards.path()[0].given`);
        const input = await page.value('bench.cards.path()[0].given.problem');
        await page.click('#given button', 'Product');
        await page.until(`document.title.startsWith('O [IO]^2, and a colouring, 4 colours')`);
        const wanted = explored.has('product') ? natively('explore', ['product'], `${first}== given\n${input}`).text : product;
        checks.equal('a chain of its own', await user.problem(), wanted);
        checks.equal('the first one stays', await page.value('bench.cards.roots().length'), 2);
    },

    async 'inputs that explore names'(user, page, checks) {
        await user.openText(example('gallery/sinkless-orientation-3.txt'));
        await user.says('accepted: not solvable in any number of rounds');
        const offered = await page.value(`[...document.querySelectorAll('#given-kind option')].map(option => option.value)`);
        checks.equal('those that the programs print', offered,
            hasInput ? ['nothing', 'colouring', 'edges', 'sides', 'orientation', 'both', 'problem'] : ['nothing', 'colouring', 'problem']);
        for (const kind of offered.filter(name => !['nothing', 'problem'].includes(name))) {
            await page.value(`(() => { const list = document.querySelector('#given-kind'); list.value = '${
                kind}'; list.dispatchEvent(new Event('change')); })()`);
            await page.until(`bench.cards.path()[0].given?.kind === '${kind}'`);
            const input = await page.value('bench.cards.path()[0].given.problem'), numbers = kind === 'colouring' ? ['4'] : [];
            if (hasInput) checks.equal(`${kind}, by explore input`, input, natively('explore', ['input', kind, '3', '2', ...numbers]).text);
            const wanted = given(await user.certificate(), input);
            checks.equal(kind, await page.until(`${line} === ${JSON.stringify(wanted)} && ${line}`), wanted);
        }
        await page.until(drawn);
    },
};

export const givenSessions = explored.has('given') ? sessions : {};
