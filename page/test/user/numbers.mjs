// Numbers that the user writes: what is shown is what was judged, and what is out of its range is marked and judges nothing.
import {wait} from '../browser.mjs';
import {answer, natively} from '../place.mjs';
import {explored} from '../teaching.mjs';
import {MIS} from '../user.mjs';

const line = `document.querySelector('#given-line').textContent`, accepted = `${line}.startsWith('accepted: ')`;
// What is marked, with the range that is seen beside it: [value, range].
const marked =
    `[...document.querySelectorAll('input[aria-invalid=true]')].map(input => { const range = document.getElementById(input.getAttribute('aria-describedby')); return [input.value, range.getClientRects().length ? range.textContent : 'not seen']; })`;
const given = (text, input) => natively('explore', ['given'], `${text}== given\n${input}`).text.split('\n', 1)[0];

const sessions = {
    async 'the number of colours is the one that is judged'(user, page, checks) {
        await user.openProblem(...MIS);
        await user.step(2);
        await user.says('accepted: not solvable in 1 or fewer rounds');
        await page.choose('#given-kind', 'a colouring');
        await page.until(accepted);
        await page.fill('#given input', '16');
        await page.until(`bench.cards.path()[0].given.count === 16 && ${accepted}`);
        for (const bad of ['20', '99', '', '1', '-1']) {
            await page.fill('#given input', bad);
            await page.key('Tab');
            await page.until(`${marked}.length === 1`);
            await wait(900);
            checks.equal(`${bad}: marked, with its range`, await page.value(marked), [[bad, '2 to 16']]);
            checks.check(`${bad}: nothing is accepted of it: ${await page.value(line)}`,
                !(await page.value(`document.querySelector('#given').textContent`)).includes('accepted'));
            checks.check(`${bad}: nor on a card`,
                !(await page.value(
                      `[...document.querySelectorAll('.badge')].filter(badge => !badge.hidden).map(badge => badge.textContent).join()`))
                     .includes('given'));
        }
        // While a number is typed the line of another one isn't there.
        await page.fill('#given input', '5');
        checks.check('the old line is gone at once', !await page.value(accepted));
        await page.until(`bench.cards.path()[0].given.count === 5 && ${accepted}`);
        checks.equal('its line', await page.value(`document.querySelector('#given-line .line').textContent`),
            given(await user.certificate(), answer(['family', 'colouring', '3', '2', '5'])));
        checks.equal('nothing is marked', await page.value(marked), []);
        // Back to the number that was judged last.
        await page.fill('#given input', '99');
        await page.until(`${marked}.length === 1`);
        await page.fill('#given input', '5');
        await page.until(`${accepted} && ${marked}.length === 0`);
        // Undo goes to the number before, and the field says so.
        await page.fill('#given input', '99');
        await page.key('Tab');
        await page.click('#undo');
        await page.until(`document.querySelector('#given input').value === '16' && ${accepted}`);
        checks.equal('nothing is marked after undo', await page.value(marked), []);
    },

    async 'numbers of searches'(user, page, checks) {
        await user.openProblem(...MIS);
        const message = `document.querySelector('#message.fault')?.textContent`;
        for (const [kind, numbers, range] of [['lower', ['99', '99'], '0 to 64'], ['lower', ['2', '-1'], '0 to 8'],
                 ['lower', ['', '0'], '0 to 64'], ['rounds', ['1.5'], '0 to 64'], ['fixed', ['0', '0'], '1 to 64'],
                 ['longest', ['2', '1'], '2 to 128'], ['cover', ['65'], '1 to 64']]) {
            if (!await page.value(`Boolean(document.querySelector('.card.last .ask[data-search=${kind}]'))`)) continue;
            await page.value(`document.querySelector('#message').className = ''`);
            await user.search(kind, ...numbers);
            const shown = await page.until(message);
            checks.check(`${kind} ${numbers.join(' ')}: ${shown}`,
                shown.startsWith(`${kind}: `) && shown.endsWith(`a number from ${range.replace('to', 'to')}.`));
            checks.check(`${kind} ${numbers.join(' ')}: marked`, (await page.value(marked)).some(([, text]) => text === range));
            checks.check(
                `${kind}: the field has the focus`, await page.value(`document.activeElement.getAttribute('aria-invalid') === 'true'`));
            checks.equal(`${kind}: nothing runs`, await page.value('engine.tasks.size'), 0);
        }
        checks.equal('no note, nothing tried',
            await page.value(`[document.querySelectorAll('.card .note').length, bench.tries.of(bench.cards.path()[0].problem).length]`),
            [0, 0]);
        // What was said of a number goes with it.
        await user.search('lower', '99', '0');
        await page.until(`${message}?.startsWith('lower: ')`);
        await page.fill('.card.last .ask[data-search=lower] input', '1');
        checks.equal('the message is gone', await page.value(`document.querySelector('#message').className`), '');
        await user.search('lower', '1', '0');
        await user.says('accepted: not solvable in 1 or fewer rounds');
        // What was out of its range isn't kept for the next card.
        checks.check(
            'the next card has good numbers', await page.value(`document.querySelectorAll('.card.last input[aria-invalid]').length === 0`));
    },

    async 'numbers of families'(user, page, checks) {
        await page.choose('#family', 'colouring');
        for (const [id, bad, range] of [['#family-a', '9', '2 to 6'], ['#family-p', '1', '2 to 6'], ['#family-n', '17', '1 to 16'],
                 ['#family-n', '', '1 to 16']]) {
            await page.value(`document.querySelector('#message').className = ''`);
            const old = await page.value(`document.querySelector('${id}').value`);
            await page.fill(id, bad);
            await page.click('#family-write');
            await page.until(`document.querySelector('#message.fault')?.textContent.endsWith('a number from ${range}.')`);
            checks.equal(`${id} ${bad}`, await page.value(marked), [[bad, range]]);
            await page.fill(id, old);
        }
        checks.equal('nothing was written', await page.value('bench.editor.text.trim()'), '');
        await page.click('#family-write');
        await page.until(`bench.editor.problem === ${JSON.stringify(answer(['family', 'colouring', '3', '2', '3']))}`);
    },
};

const {'the number of colours is the one that is judged': ofColours, ...others} = sessions;
export const numbersSessions = explored.has('given') ? sessions : others;
