// Searches: in the background, stopped, asked again with more, and what they say meanwhile.
import {PATIENCE, wait} from '../browser.mjs';
import {inWords} from '../../src/views/claims.js';
import {answer, natively} from '../place.mjs';
import {explored, hold, isHeld, letGo, teachMissing} from '../teaching.mjs';
import {cardsAre, MIS} from '../user.mjs';

const jobs = `document.querySelector('#jobs').textContent`;

export const searchingSessions = {
    async 'a search, stopped'(user, page, checks) {
        await user.openProblem(...MIS);
        await user.search('lower', 8, 2);
        // The page lives meanwhile.
        await user.act('Universal rows');
        await page.until(`document.querySelector('.card.last .note pre')`);
        const shown = await user.running('lower 8 2');
        checks.check(`elapsed time: ${shown}`, /\d s/.test(shown));
        await user.best('lower 8 2');
        await user.stop('lower 8 2');
        // What shorter searches beside it found is kept.
        const [kept] = [await page.until(`bench.cards.path().length > 1 && bench.claim.verdict?.accepted && bench.claim.verdict.line`)];
        checks.check(`Stop keeps the best: ${kept}`, /not solvable in [1-9] or fewer/.test(kept));
        checks.equal('by the program', answer(['check'], await user.certificate()).trim(), kept);
        checks.check('it is said on the card',
            /lower 8 2: stopped; the best so far is kept, that of lower [1-7] 2\./.test(
                await page.value(`document.querySelector('.card .remarks').textContent`)));
        await page.click('#undo');
        await page.until(cardsAre(1));
        await user.search('lower', 4, 0);
        await user.says('accepted: not solvable in 4 or fewer rounds');
    },

    async 'words of explore that go on from a card'(user, page, checks) {
        await user.openProblem('O [IO]^2', 'I O');
        await user.step(2);
        const offered = ['longest', 'cycle', 'closure', 'cover'],
              shown = await page.value(`[...document.querySelectorAll('.card.last .ask')].map(ask => ask.dataset.search)`);
        checks.equal(
            'those that it has are offered', shown.filter(word => offered.includes(word)), offered.filter(word => explored.has(word)));
        await user.search('longest', 2, 10);
        await user.says('accepted: not solvable in 3 or fewer rounds');
        checks.equal('longest', await page.value('bench.cards.path().length'), 4);
        await user.search('cycle', 2, 0);
        await user.says('accepted: not solvable in any number of rounds');
        await page.click('#undo');
        await user.says(`accepted: not solvable in 3 or fewer rounds`);
        await user.search('closure');
        await user.says('accepted: not solvable in any number of rounds');
    },

    async 'what is found elsewhere is offered'(user, page, checks) {
        await user.openProblem(...MIS);
        await hold(page, ['lower 5 0']);
        await user.search('lower', 5, 0);
        await isHeld(page);
        await page.choose('#gallery', 'two colouring 3');
        await page.until(`bench.cards.path()[0].title === 'two colouring 3'`);
        await letGo(page);
        await page.until(`bench.cards.cards.some(card => card.title === 'lower 5 0')`);
        checks.equal('the user stays', await page.value('bench.cards.path()[0].title'), 'two colouring 3');
        await page.click('#card-list .other button', '0 M^3');
        await page.until(`bench.cards.path()[0].title === undefined`);
        checks.equal(
            'the card says it', await page.until(`document.querySelector('.card.last .note')?.textContent`), 'lower 5 0 found. Show×');
        await page.click('.card.last .note button', 'Show');
        await user.says('accepted: not solvable in 5 or fewer rounds');
    },

    async 'longer and longer lower bounds'(user, page, checks) {
        await user.openProblem('1^2\n2^2\n3^2', '1 2\n1 3\n2 3');
        await user.searchOn('lower', 2, 0);
        await user.says('accepted: not solvable in 3 or fewer rounds');
        checks.check('what was found is listed',
            (await page.until(`document.querySelector('.card .written table')?.textContent`)).includes('lower 4 0'));
    },

    async 'longest, with more until it is stopped'(user, page, checks) {
        await user.openProblem(...MIS);
        await user.searchOn('longest', 2, 6);
        // Asked again with twice as many steps, or labels.
        await page.until(`/best so far: [3-9] further steps; now longest/.test(${jobs})`);
        await user.stop('longest');
        const line = await user.verdict();
        await page.until(`bench.cards.path().length > 3`);
        const found = await page.until(`bench.claim.verdict?.accepted && bench.claim.verdict.line`);
        checks.check(`Stop keeps the best: ${line}, ${found}`, /not solvable in ([3-9]|\d\d) or fewer/.test(found));
        checks.equal('by the program', answer(['check'], await user.certificate()).trim(), found);
    },

    async 'a short upper bound, on chains of kind upper'(user, page, checks) {
        const problem = answer(['read'], 'M O\nP^2\n\nM [OP]\nO^2\n'), found = answer(['upper', '3', '0'], problem);
        await teachMissing(page, {'shortest 1 2': [1, 'not found\n'], 'shortest 2 4': [1, 'not found\n'], 'shortest 4 8': [0, found]});
        await user.openProblem('M O\nP^2', 'M [OP]\nO^2');
        await user.searchOn('shortest', 1, 2);
        const line = await page.until(
            `bench.cards.path().length > 1 && bench.claim.verdict?.kind === 'upper' && bench.claim.verdict.accepted && bench.claim.verdict.line`);
        await user.says(line);
        checks.check(`by the program: ${line}`, /^accepted: solvable in \d+ rounds$/.test(line));
        const words = `[...document.querySelectorAll('.card.last .ask')].map(ask => ask.dataset.search)`;
        const on =
            `[...document.querySelectorAll('.card.last .ask')].filter(ask => !ask.querySelector('button').disabled).map(ask => ask.dataset.search)`;
        checks.check('not longest behind it', !(await page.value(on)).includes('longest') && (await page.value(on)).includes('shortest'));
        checks.check('it stays, with the reason',
            (await page.value(words)).includes('longest') &&
                /Not here: [a-z, ]*longest[a-z, ]*: a restriction \(Leave out/.test(
                    await page.value(`document.querySelector('.card.last .search').textContent`)));
        // Behind a merge the chain is of kind lower.
        await user.openExample('no sinks no sources');
        await user.select('I', 'O');
        await user.actOnSelected('Merge into I');
        await page.until(`${cardsAre(2)} && document.querySelector('.card.last .ask')`);
        checks.check('not behind a merge', !(await page.value(on)).includes('shortest') && (await page.value(on)).includes('longest'));
    },

    async 'cycle, with more until one is found'(user, page, checks) {
        await user.openExample('no sinks no sources');
        await user.searchOn('cycle', 1, 0);
        await user.says('accepted: not solvable in any number of rounds');
        const tried = await page.value(`document.querySelector('.card .written table').textContent`);
        checks.check('what was tried on the way', tried.includes('cycle 1 0 20000') && tried.includes('cycle 2 1 20000'));
    },

    async 'closure, here or a few steps on'(user, page, checks) {
        await user.openProblem('1^3\n2^3\n3^3', '1 2\n1 3\n2 3');
        await user.search('closure');
        await user.says('accepted: not solvable in any number of rounds');
        // Edges in four colours, in degree 3: a closure after two steps, and none before.
        await user.openProblem('A B [CD]\n[AB] C D', 'A^2\nB^2\nC^2\nD^2');
        await user.search('closure', 0);
        const line = natively('explore', ['closure'], await user.problem()).text.trim();
        checks.check(line, line.startsWith('not found: ') && (await user.note()).startsWith(`closure ${inWords(line)}`));
        await user.search('closure', 2);
        await user.says('accepted: not solvable in any number of rounds', 4 * PATIENCE);
        checks.check('behind two steps', (await user.certificate()).startsWith('== certificate 1 fixed 3\n'));
        // A problem that only a diagram settles: C at least as high as A.
        const behind = async diagram => {
            await page.click('.card.last .menu summary');
            await page.click('.card.last .menu button', 'Closure with a diagram…');
            await page.fill('dialog textarea', diagram);
            await page.click('dialog button', 'Find');
        };
        await user.openProblem('A^3\nB^2 C', 'A C\nB^2');
        await behind('A C');
        await user.says('accepted: not solvable in any number of rounds');
        checks.check('the card says which problem was raised, and how',
            (await page.value(`document.querySelector('.card.last .title').textContent`)).includes('of problem 0 raised by A → C'));
        // A label that the problem lacks: the window stays open, with its line marked.
        await user.openProblem('A^3\nB^2 C', 'A C\nB^2');
        await behind('A C\n\nA D');
        const text = `${answer(['read'], 'A^3\nB^2 C\n\nA C\nB^2\n')}== diagram\nA C\nA D\n`;
        const fault = natively('explore', ['closure', '2'], text).text.trim(),
              said = await page.until(`document.querySelector('dialog .state .faulty')?.textContent`);
        checks.equal(
            'the fault of the program, at the line that stands there', said, `line 3: ${fault.replace(/^input: line \d+: /, '')}: “A D”. `);
        checks.equal(
            'the line is marked', await page.value(`document.querySelector('dialog .area').style.getPropertyValue('--fault')`), '3');
        checks.check('the labels that the card has',
            (await page.value(`document.querySelector('dialog .state').textContent`)).includes('labels of this problem: A, B, C.'));
        checks.equal('no note of it', await page.value(`document.querySelectorAll('.card.last .note').length`), 0);
    },

    async 'longest does what a heuristic did'(user, page, checks) {
        await user.openProblem(...MIS);
        await user.search('longest', 6, 10);
        await page.until(`bench.cards.path().length > 4`);
        const found = await page.until(`bench.claim.verdict?.accepted && bench.claim.verdict.line`);
        checks.check(found, /not solvable in ([4-9]|\d\d) or fewer/.test(found));
    },
};
