// What goes wrong: workers that end, foreign texts, and texts that look like markup.
import {wait} from '../browser.mjs';
import {answer, example} from '../place.mjs';
import {cardsAre, drawn, MIS} from '../user.mjs';

const faultShown = `document.querySelector('dialog .state .faulty')?.textContent`;
const EVIL = '<img src=x onerror="window.evil=1"><script>window.evil=1</script>';

export const failuresSessions = {
    async 'a worker is killed'(user, page, checks) {
        await user.openProblem(...MIS);
        await user.search('lower', 8, 2);
        await page.until(`[...engine.running].some(job => job.title.startsWith('lower 8 2'))`);
        await page.value(`[...engine.running].find(job => job.title.startsWith('lower 8 2')).worker.terminate()`);
        checks.check('a message on the card',
            (await user.note()).includes('lower 8 2 from problem 0: the browser ended its worker. Nothing else is lost: ask again.'));
        await page.until(`document.querySelector('#jobs').hidden`);
        // Idle ones, too.
        await page.value(`engine.idle.forEach(worker => worker.terminate())`);
        await page.until('engine.idle.length === 0');
        await user.step(2);
        await user.says('accepted: not solvable in 1 or fewer rounds');
    },

    async 'a program that fails'(user, page, checks) {
        await user.openProblem(...MIS);
        const failing = await page.value(`engine.ask('nothing', ['read'], '').then(() => 'read', error => error.message)`);
        checks.check(`a message: ${failing}`, failing !== 'read' && failing.length > 5);
        await user.step(2);
        await user.says('accepted: not solvable in 1 or fewer rounds');
    },

    async 'a browser that can not unpack says so'(user, page, checks) {
        const {identifier} = await page.ask('Page.addScriptToEvaluateOnNewDocument', {source: 'delete window.DecompressionStream'});
        const told = page.events.length;
        await page.ask('Page.reload');
        const said = await page.until(`document.querySelector('p[role=alert]')?.textContent`);
        checks.equal('it says why', said, "The page can't start: DecompressionStream is not defined");
        await page.ask('Page.removeScriptToEvaluateOnNewDocument', {identifier});
        // The fault in the console is the one that was made here.
        const isFault = ({method}) => method === 'Runtime.exceptionThrown', made = page.events.splice(told);
        checks.equal('it is told once in the console', made.filter(isFault).length, 1);
        page.events.push(...made.filter(event => !isFault(event)));
    },

    async 'impatient clicks and keys'(user, page, checks) {
        await user.openProblem(...MIS);
        await page.value(
            `(() => { const step = [...document.querySelectorAll('.card.last .actions button')].find(button => button.textContent === 'Step'); step.click(); step.click(); })()`);
        await page.until(`${cardsAre(2)} && ${drawn}`);
        checks.equal('one step', await page.value('bench.cards.cards.length'), 2);
        await user.select('A', 'C');
        await page.value(
            `(() => { const merge = [...document.querySelectorAll('.card.last .selection button')].find(button => button.textContent === 'Merge into C'); merge.click(); merge.click(); })()`);
        await page.until(`${cardsAre(3)} && ${drawn}`);
        checks.equal('one merge', await page.value('bench.cards.cards.length'), 3);
    },

    async 'foreign texts'(user, page, checks) {
        for (const text of ['hello, world', '', '\u0000\u0001', '== something else', '== certificate 1 lower', '{"a": 1}', '[]',
                 'A B\n\nA B\n\nA B', '%PDF-1.4\n%âãÏÓ', '<html><body>no</body></html>']) {
            await user.openText(text);
            const fault = await page.until(faultShown), isProgram = !text.startsWith('{');
            checks.check(`${JSON.stringify(text)}: ${fault}`,
                isProgram ? fault === answer([text.startsWith('==') ? 'check' : 'read'], text).trim() : fault === 'not a saved session');
            await page.key('Escape');
            await page.until(`!document.querySelector('dialog')`);
        }
        checks.equal('no card came of them', await page.value('bench.cards.cards.length'), 0);
        checks.check('the page is as before', await page.value(`Boolean(document.querySelector('.welcome'))`));
    },

    async 'no text becomes markup'(user, page, checks) {
        const count = () => page.value(
            `document.querySelectorAll('img, iframe, object, embed, base, link:not([rel=icon]), #chain script, dialog script').length + (window.evil ? 100 : 0)`);
        await page.fill('#editor textarea', EVIL, 0);
        await page.fill('#editor textarea', EVIL, 1);
        await page.until(`document.querySelector('#editor .state .faulty')`);
        await user.openText(EVIL);
        await page.until(faultShown);
        await page.key('Escape');
        await user.openText(`== certificate 1 lower\n${EVIL}\n`);
        await page.until(faultShown);
        await page.key('Escape');
        await user.openProblem(...MIS);
        await user.step(2);
        const session = JSON.parse(await page.value(`engine.work('sessionText', bench.cards.state)`));
        session.cards[0] = {...session.cards[0], title: EVIL, note: EVIL};
        session.cards[1] = {...session.cards[1], title: EVIL, note: EVIL, rows: [EVIL, ...session.cards[1].rows]};
        await user.openText(JSON.stringify(session));
        await page.until(`document.querySelector('.card .comment').textContent.includes('<img')`);
        await page.until(`document.querySelector('#verdict-line')`);
        await page.click('.card.last .written summary');
        await page.until(`document.querySelector('.card.last .written .parts').textContent.includes('<img')`);
        await page.hover('.card.last .chip', 'A');
        await wait(300);
        checks.equal('no element came of it', await count(), 0);
        // And the browser would not run it.
        await page.value(`(() => { const box = document.createElement('div'); box.innerHTML = ${
            JSON.stringify(
                EVIL)}; document.body.append(box); const script = document.createElement('script'); script.textContent = 'window.evil = 1'; document.body.append(script); box.remove(); })()`);
        await wait(300);
        checks.equal('the policy of the page holds', await page.value('window.evil === undefined'), true);
        page.events.length = 0;
    },

    async 'long chains draw only what is seen'(user, page, checks) {
        await user.openText(example('gallery/three-colouring-2-lower.txt'));
        const count = await page.until(`bench.cards.path().length > 2 && bench.cards.path().length`);
        await user.says(answer(['check'], example('gallery/three-colouring-2-lower.txt')).trim());
        await page.click('#close-all');
        // A long chain: sinkless orientation comes back for ever.
        await user.openProblem('O [IO]^2', 'I O');
        await user.search('lower', 40, 0);
        await page.until(cardsAre(41));
        await user.says('accepted: not solvable in 40 or fewer rounds');
        await page.click('#open-all');
        await wait(500);
        const filled = () => page.value(`bench.cards.path().filter(card => bench.view(card).isFilled).length`);
        const before = await filled();
        checks.check(`of ${count} and 41 cards ${before} are drawn`, before < 20);
        // One that isn't drawn yet, once it is seen.
        const unseen = await page.value(`bench.cards.path().findIndex(card => !bench.view(card).isFilled) + 1`);
        await page.value(`document.querySelector('.card:nth-child(${unseen})').scrollIntoView()`);
        await page.until(`document.querySelectorAll('.card:nth-child(${unseen}) svg.diagram').length === 2`);
        const after = await filled();
        checks.check(`others when they are seen: ${after} in place of ${before}`, after > before && after < 30);
    },
};
