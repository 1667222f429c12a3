// Changes of a problem: merges, arrows, names, relaxations and restrictions.
import {mapInput} from '../../src/texts/certificates.js';
import {answer, example, natively, whyOf} from '../place.mjs';
import {explored, teachMissing} from '../teaching.mjs';
import {cardsAre, drawn, MIS} from '../user.mjs';

const hasBridge = explored.has('bridge');

export const changesSessions = {
    async 'an arrow, a merge, names by sets'(user, page, checks) {
        await user.openProblem(...MIS);
        await page.click('.card.last figure[data-side=passive] .edge .near');
        checks.equal('an arrow selects both labels',
            await page.until(`document.querySelector('.card.last .selection strong')?.textContent`), 'Labels P, O');
        await user.actOnSelected('Merge into O');
        await page.until(cardsAre(2));
        checks.equal('the merged problem', await user.problem(), answer(['read'], 'M^3\nO^3\n\nM O\nO^2\n'));
        checks.check('the first card is closed', await page.value(`document.querySelector('.card').classList.contains('closed')`));
        await page.key('z', {modifiers: 2});
        await page.until(cardsAre(1));
        await user.select('M');
        await user.actOnSelected('Leave out');
        await page.until(cardsAre(2));
        checks.equal('without a label', await user.problem(), answer(['read'], 'P O^2\n\nO^2\n'));
        await page.key('z', {modifiers: 2});
        await page.until(cardsAre(1));
        await user.step(2);
        await user.act('Rename');
        await page.click('dialog button', 'Name by sets');
        await page.click('dialog footer button', 'Rename');
        await page.until(`${cardsAre(3)} && ${drawn}`);
        checks.check('names by sets', (await user.problem()).includes('(MO)'));
        await user.says('accepted: not solvable in 1 or fewer rounds');
        await user.step(4);
        await user.says('accepted: not solvable in 2 or fewer rounds');
    },

    async 'a relaxation by labels that closes 3-colouring'(user, page, checks) {
        const text = example('gallery/three-colouring-3.txt'),
              target = text.slice(text.indexOf('== step\n') + 8, text.indexOf('== rows')).split('\n\n');
        await user.openProblem('1^3\n2^3\n3^3', '1 2\n1 3\n2 3');
        await user.step(2);
        await user.act('Edit');
        await page.until(`[...document.querySelectorAll('dialog .state')].at(-1)?.textContent === 're relax: yes'`);
        await page.fill('dialog .editor textarea', target[0], 0);
        await page.fill('dialog .editor textarea', target[1].trim(), 1);
        await page.until(`document.querySelector('dialog .editor .state').textContent.includes('8 labels')`);
        const cards = hasBridge ? 2 : 3;
        await page.click('dialog button', hasBridge ? 'Find a step' : 'Find a map');
        if (!hasBridge) {
            await page.until(`[...document.querySelectorAll('dialog .state')].at(-1).textContent === 're relax: yes'`);
            await page.click('dialog footer button', 'Make the card');
        }
        await page.until(`!document.querySelector('dialog') && ${cardsAre(cards)} && ${drawn}`);
        await user.says('accepted: not solvable in 1 or fewer rounds');
        for (const n of [cards + 1, cards + 2]) await user.step(n);
        await page.click('#offers button', 'close as a fixed point');
        await user.says('accepted: not solvable in any number of rounds');
    },

    async 'a relaxation by rows is a certificate of version 2'(user, page, checks) {
        await user.openProblem(...MIS);
        await user.step(2);
        await user.act('Edit');
        await page.click('dialog .radio', 'by rows');
        await page.until(`document.querySelector('dialog .map textarea').value.includes('A D | A D')`);
        // The row A D becomes A E, where E has all that D has.
        const passive = await page.value(`document.querySelectorAll('dialog .editor textarea')[1].value`);
        await page.fill('dialog .editor textarea', 'A E\nB C', 0);
        await page.fill('dialog .editor textarea', passive.replace(/D/g, 'E'), 1);
        await page.until(`document.querySelector('dialog .editor .state').textContent.includes('2 active and 10')`);
        await page.fill('dialog .map textarea', 'A D | A E\nB C | B C');
        await page.click('dialog footer button', 'Make the card');
        await page.until(`${cardsAre(3)} && ${drawn}`);
        await user.says('accepted: not solvable in 1 or fewer rounds');
        checks.check('version 2', (await user.certificate()).startsWith('== certificate 2 lower'));
        await user.step(4);
        await user.says('accepted: not solvable in 2 or fewer rounds');
        // Read back, it is the same chain.
        const text = await user.certificate();
        await user.openText(text);
        await page.until('bench.cards.path().length === 3');
        await user.says('accepted: not solvable in 2 or fewer rounds');
        checks.equal('the same text', await user.certificate(), text);
        await user.openText(text.replace('A E\nB C\n== step', 'A E\nB B\n== step'));
        await user.says('refused: step 1, clause L4');
        checks.equal('why', await page.until(`document.querySelector('.card.failing .fault div div')?.textContent`),
            whyOf(await user.certificate()));
    },

    async 'a fault of a map stands at its line'(user, page, checks) {
        await user.openProblem(...MIS);
        await user.act('Edit');
        const
            said = `[...document.querySelectorAll('dialog > .state')].at(-1).textContent`,
            marked =
                `(area => area.classList.contains('faulty') ? area.style.getPropertyValue('--fault') : '')(document.querySelector('dialog .map .area'))`;
        await page.until(`${said} === 're relax: yes'`);
        const fault = answer(['relax'], mapInput(await user.problem(), await user.problem(), ['M M', 'O Z', 'P P']));
        for (const [map, says, line] of [['M M\n\nO Z\nP P', `map line 3: re relax: ${fault.trim().replace(/.*: /, '')}`, '3'],
                 ['M M\nO\nP P', 'map line 2: it has another form.', '2'], ['\nM M\nO O\nP P', 're relax: yes', '']]) {
            await page.fill('dialog .map textarea', map);
            checks.equal(JSON.stringify(map), await page.until(`${said} === ${JSON.stringify(says)} && ${said}`), says);
            checks.equal(`${JSON.stringify(map)}: its mark`, await page.value(marked), line);
            checks.equal(`${JSON.stringify(map)}: a card of it`,
                await page.value(`document.querySelector('dialog footer .primary').disabled`), line !== '');
        }
        await page.key('Escape');
    },

    async 'a restriction by hand'(user, page, checks) {
        await user.openProblem('M O\nP^2', 'M [OP]\nO^2');
        await user.step(2);
        await user.act('Edit');
        await page.click('dialog .radio', 'Restriction');
        await page.until(`!document.querySelector('dialog footer button').disabled`);
        await page.click('dialog footer button', 'Make the card');
        await page.until(cardsAre(3));
        const kinds = await page.value(`bench.claim.verdict?.kind || 'waiting'`);
        checks.check(`an upper bound: ${kinds}`, ['upper', 'waiting'].includes(kinds) || (await user.verdict()).length > 0);
        await user.agrees(await user.verdict());
    },

    async 'how a changed first problem is related'(user, page, checks) {
        await user.openProblem('O [IO]^2', 'I O');
        await user.select('O', 'I');
        await user.actOnSelected('passive: O → I');
        await page.until(cardsAre(2));
        checks.equal('an arrow', await user.problem(), answer(['read'], 'O [IO]^2\n\nI [IO]\n'));
        await page.until(
            `document.querySelector('#verdict').textContent.includes('re relax: yes: problem 0′ is a relaxation of problem 0, so this is a bound of problem 0 too.')`);
        await user.openProblem('[MX] O^2\nM^3', 'M [XO]^2\nO^3\nM^3');
        await user.select('X');
        await user.actOnSelected('Leave out');
        await page.until(
            `document.querySelector('#verdict').textContent.includes('re relax: yes: problem 0 is a relaxation of problem 0′, so this is a bound of problem 0 too.')`);
    },

    async 'reduced by a map into itself'(user, page, checks) {
        // A path of four labels folds onto its first edge, and no label covers another one.
        const problem = answer(['read'], 'A^3\nB^3\nC^3\nD^3\n\nA B\nB C\nC D\n');
        await teachMissing(page, {reduce: [0, answer(['read'], 'A^3\nB^3\n\nA B\n')]});
        await user.openProblem(...problem.trim().split('\n\n'));
        await user.act('Reduce');
        await page.until(cardsAre(2));
        if (explored.has('reduce')) checks.equal('by the program', await user.problem(), natively('explore', ['reduce'], problem).text);
        checks.equal('the map', await page.value(`Object.keys(bench.cards.path()[1].relax).length`), 4);
        await user.says('accepted: not solvable in 0 or fewer rounds');
        await user.step(3);
        await user.says('accepted: not solvable in 1 or fewer rounds');
    },

    async 'merge equal, trim, rounds'(user, page, checks) {
        const problem = '[AB]^3\nC^3\n\n[AB] C\nC D\n';
        await user.openProblem(...problem.trim().split('\n\n'));
        await user.act('Merge equal');
        await page.until(`${cardsAre(2)} && ${drawn}`);
        checks.equal('merged', await user.problem(), answer(['merge'], problem));
        await user.act('Trim');
        await page.until(`document.querySelector('.card.last .note') || ${cardsAre(3)}`);
        checks.check('trimmed', [answer(['merge'], problem), answer(['trim'], answer(['merge'], problem))].includes(await user.problem()));
        await user.openExample('orientation');
        await user.search('rounds', 8);
        checks.check('rounds', (await user.note()).includes('rounds 8: exactly 1'));
        await user.search('fixed', 2, 0);
        await page.until(`document.querySelector('.card.last .note').textContent.includes('not found: ')`);
    },
};
