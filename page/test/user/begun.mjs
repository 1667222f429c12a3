// What `settle` writes while it searches on: it stands there at once, is replaced by the whole, and stays where the search is stopped.
import {answer, natively} from '../place.mjs';
import {answerSlowly} from '../slow.mjs';
import {explored} from '../teaching.mjs';
import {cardsAre, MIS} from '../user.mjs';

const CLAIM = 'not solvable in any number of rounds with port numbers alone', CLASS = 'with identifiers: order log* N';
// The second line on identifiers comes in two parts.
const FIRST = `${CLAIM}\nby: explore cover 4\nwith iden`, REST = 'tifiers: order log* N\nby: explore greedy\n';
const SOON = 200000000, NEVER = 10 ** 15;
const settled =
    `[...document.querySelectorAll('.card.last .note')].map(note => note.textContent).filter(text => text.startsWith('settle: '))`;
const notes = `[...document.querySelectorAll('.card.last .note')].map(note => note.textContent)`;
const tried = `[...document.querySelectorAll('.card.last .tried tr')].map(row => row.cells[1].textContent.trim())`;
const SEARCHING = 'still searching…', ENDED = 'the search ended before it wrote more';

const sessions = {
    async 'settle says at once what it has written'(user, page, checks) {
        await user.openProblem(...MIS);
        await answerSlowly(page, 'settle', [{text: FIRST, turns: SOON}, {text: REST, turns: 1}]);
        await user.act('Settle');
        const [begun] = await page.until(`${settled}.length && ${settled}`);
        checks.check(`marked as still searching: ${begun}`, begun.startsWith(`settle: ${CLAIM}`) && begun.includes(SEARCHING));
        checks.check('whole lines alone', begun.includes('explore cover 4') && !begun.includes('with iden'));
        await page.until(`!${settled}[0].includes(${JSON.stringify(SEARCHING)})`);
        const whole = await page.value(settled);
        checks.check(`replaced by the whole: ${whole}`,
            whole.length === 1 && whole[0].includes(CLASS) && whole[0].includes('explore greedy') && !whole[0].includes(ENDED));
        checks.equal('what was tried', await page.value(tried), [CLAIM, CLASS]);
    },

    async 'Stop keeps what settle wrote'(user, page, checks) {
        await user.openProblem(...MIS);
        await answerSlowly(page, 'settle', [{text: FIRST, turns: NEVER}]);
        await user.act('Settle');
        await page.until(`${settled}[0]?.includes(${JSON.stringify(SEARCHING)})`);
        checks.check('the bar says it', (await user.running('settle problem 0')).includes(`so far: ${CLAIM}`));
        // What shows it can be asked for meanwhile.
        await page.click('.card.last .note .by button', 'cover');
        await page.until(`document.querySelector('dialog svg.graph')`);
        await page.click('dialog button.close');
        checks.check('it searches on', (await page.value(settled))[0].includes(SEARCHING));
        await user.stop('settle problem 0');
        await page.until(`${notes}[0].startsWith('settle problem 0: ')`);
        checks.equal('it is said', (await page.value(notes))[0], 'settle problem 0: stopped; what it wrote until then stays.×');
        const stays = async when => {
            const [kept, ...others] = await page.value(settled);
            checks.check(`${when}: ${kept}`,
                kept.startsWith(`settle: ${CLAIM}`) && kept.includes(ENDED) && !kept.includes(SEARCHING) && !others.length);
            checks.equal(`${when}, among what was tried`, (await page.value(tried)).filter(line => line === CLAIM), [CLAIM]);
        };
        await stays('what it wrote stays');
        await page.until('!bench.keeper.timer && location.hash.length > 20');
        await page.reload();
        await page.until(cardsAre(1));
        await stays('behind a reload');
        if (!explored.has('settle')) return;
        // Asked again, the whole takes its place.
        await user.act('Settle');
        const said = natively('explore', ['settle'], answer(['read'], MIS.join('\n\n'))).text.trim().split('\n').at(-1);
        await page.until(
            `${settled}[0].includes(${JSON.stringify(said.replace(/^by: /, ''))}) && !${settled}[0].includes(${JSON.stringify(ENDED)})`);
        checks.equal('once', (await page.value(settled)).length, 1);
    },

    async 'a table has what settle wrote'(user, page, checks) {
        const status = `[...document.querySelectorAll('dialog [role=status]')].map(node => node.textContent).join(' ')`,
              said = `document.querySelector('dialog tbody tr').cells[2].textContent`;
        await answerSlowly(page, 'settle', [{text: FIRST, turns: NEVER}]);
        await user.watchCopies();
        await page.click('#survey');
        await page.fill('dialog textarea', 'M^3, P O^2 / M [PO], O^2');
        await page.click('dialog footer button', 'Settle all');
        await page.until(`document.querySelector('dialog tbody tr') && ${said}.includes(${JSON.stringify(SEARCHING)})`);
        checks.check(await page.value(said), (await page.value(said)).startsWith(`${CLAIM} · by explore cover 4`));
        await page.click('dialog .progress button', 'Stop');
        await page.until(`${status}.includes('0 of 1 problem, stopped')`);
        checks.check('stopped, it stays', (await page.value(said)).startsWith(CLAIM) && (await page.value(said)).endsWith('stopped here'));
        await page.click('dialog footer button', 'Copy as TSV');
        checks.equal('in the table too', (await user.copied()).split('\n')[1].split('\t').slice(2, 5), [CLAIM, 'explore cover 4', '']);
    },
};

export const begunSessions = explored.has('settle') ? sessions : {};
