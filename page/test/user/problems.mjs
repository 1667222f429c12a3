// Problems that are written, and large ones.
import {answer, example, natively, re} from '../place.mjs';
import {explored} from '../teaching.mjs';
import {cardsAre} from '../user.mjs';

const quoted = value => JSON.stringify(value);

export const problemsSessions = {
    async 'a bad text'(user, page, checks) {
        await page.fill('#editor textarea', 'M M M\nP O O', 0);
        await page.fill('#editor textarea', 'M PO\nO O', 1);
        await page.until(`document.querySelector('#editor .state .faulty')`);
        checks.check('the fault, at its line',
            (await page.value(`document.querySelector('#editor .state').textContent`))
                .includes('input: line 4: not a list of items (passive, line 1)'));
        checks.equal('the line is marked',
            await page.value(
                `[...document.querySelectorAll('#editor .area')].map(area => area.classList.contains('faulty') ? area.style.getPropertyValue('--fault') : '')`),
            ['', '1']);
        checks.check('no card of it', await page.value(`[...document.querySelectorAll('#editor button')].at(-1).disabled`));
        await page.click('#editor .state button', 'Bracket the choices: M [PO]');
        await page.until(`document.querySelector('#editor .state .good')`);
        checks.equal('brackets', await page.value(`document.querySelectorAll('#editor textarea')[1].value`), 'M [PO]\nO O');
        await page.fill('#editor textarea', 'M^3\nP O^2 O', 0);
        await page.until(`document.querySelector('#editor .state .faulty')`);
        checks.check('no bracket is open', !(await page.value(`document.querySelector('#editor .state').textContent`)).includes('is open'));
        checks.check('a wrong degree',
            (await page.value(`document.querySelector('#editor .state').textContent`))
                .includes('input: line 2: wrong degree (active, line 2)'));
        await page.fill('#editor textarea', 'M^3\nP O^2', 0);
        for (const [text, said] of [['M [PO', 'A bracket [ is open: its ] lacks.'], ['M (PO', 'A bracket ( is open: its ) lacks.'],
                 ['M PO]', 'A bracket ] has no [ before it.']]) {
            await page.fill('#editor textarea', text, 1);
            checks.check(text,
                await page.until(
                    `document.querySelector('#editor .state .faulty') && document.querySelector('#editor .state').textContent.includes('${
                        said}')`));
        }
        // A label on one side alone, and a problem without a solution.
        for (
            const [active, passive, said] of [['M^3\nP O^2', 'M [PQ]\nO O', 'Q stands around passive nodes alone: no solution has it.'],
                ['M^3\nP O^2\nP Q O', 'M [PO]\nO O', 'Q stands around active nodes alone: no solution has it.'],
                [
                    'A^3\nB C^2', 'B C\nA D',
                    'D stands around passive nodes alone: no solution has it. Without it, A stands on one side alone: no solution has it either.'
                ],
                [
                    'A^3\nB C^2', 'B D\nA D',
                    'C stands around active nodes alone: no solution has it. D stands around passive nodes alone: no solution has it. There is no solution at all.'
                ]]) {
            await page.fill('#editor textarea', active, 0);
            await page.fill('#editor textarea', passive, 1);
            checks.check(said, await page.until(`document.querySelector('#editor .state .hint')?.textContent === ${quoted(said)}`));
        }
        if (explored.has('flexible'))
            checks.equal('as the program says it', await page.until(`document.querySelector('#editor .state .faulty')?.textContent`),
                `explore flexible: ${natively('explore', ['flexible'], 'A^3\nB C^2\n\nB D\nA D\n').text.trim()}`);
        await page.fill('#editor textarea', 'M^3\nP O^2', 0);
        await page.fill('#editor textarea', 'M [PO]\nO O', 1);
        checks.check('no hint',
            await page.until(`document.querySelector('#editor .state .good') && !document.querySelector('#editor .state .hint')`));
        // A whole problem is pasted into the first area.
        await page.fill('#editor textarea', '', 1);
        await page.fill('#editor textarea', example('problems/without-brackets.txt'), 0);
        await page.until(`document.querySelectorAll('#editor textarea')[1].value.startsWith('M PO')`);
        // A certificate with a fault stays in its window.
        await user.openText(example('first/sinkless-fixed.txt').replace('[IO] B', '[IO] Z'));
        const fault = await page.until(`document.querySelector('dialog .state .faulty')?.textContent`);
        checks.equal(
            'the fault of the program', fault, answer(['check'], example('first/sinkless-fixed.txt').replace('[IO] B', '[IO] Z')).trim());
        checks.equal('its line is marked', await page.value(`document.querySelector('dialog .area').style.getPropertyValue('--fault')`),
            /line (\d+)/.exec(fault)[1]);
    },

    async 'families, and the first buttons'(user, page, checks) {
        await page.click('#chain button', 'Colouring');
        await user.says('accepted: not solvable in any number of rounds');
        for (const [family, words] of [['sinkless orientation', ['orientation', '3', '2', '0']],
                 ['perfect matching', ['matching', '3', '2', '0']], ['colouring', ['colouring', '3', '2', '3']],
                 ['maximal independent set', ['mis', '3', '2', '0']]]) {
            await page.choose('#family', family);
            await page.click('#family-write');
            await page.until(`document.activeElement.textContent === 'Open as a card'`);
            await page.key('Enter');
            await page.until(`bench.cards.path()[0]?.title === ${quoted(words.join(' '))}`);
            checks.equal(family, await user.problem(), answer(['family', ...words]));
        }
    },

    async '128 labels'(user, page, checks) {
        const names = Array.from({length: 128}, (_, i) => `(L${i})`),
              problem = `${names.map((name, i) => `${name} ${names[(i + 1) % 128]}`).join('\n')}\n\n${
                  names.map(name => `${name}^2`).join('\n')}\n`;
        await user.openText(problem);
        await page.until(`${cardsAre(1)} && document.querySelectorAll('.card .classes').length === 2`);
        checks.equal('labels', await page.value(`document.querySelectorAll('.card.last .chip').length`), 128);
        checks.check(
            'diagrams as lists', (await page.value(`document.querySelector('.card.last figure').textContent`)).includes('128 classes'));
        await user.says(re(['check'], `== certificate 1 lower\n${problem}== end\n`).text.trim());
        await page.click('.card.last figure[data-side=active] button', 'Draw it');
        await page.until(
            `document.querySelectorAll('.card.last svg.diagram').length === 1 && document.querySelectorAll('.card.last svg.diagram .node').length === 128`);
        await page.click('.card.last .lines button', 'more line');
        await page.until(
            `document.querySelectorAll('.card.last .lines').length && document.querySelectorAll('.card.last .line').length > 100`);
        await page.hover('.card.last .lines .label', '(L5)');
        await page.until(`document.querySelectorAll('.card.last .marked').length > 2`);
        await user.select('(L3)', '(L7)');
        await user.actOnSelected('Merge into (L3)');
        await page.until(cardsAre(2));
        checks.equal('127 labels are left', await page.until(`document.querySelectorAll('.card.last .chip').length`), 127);
    },
};
