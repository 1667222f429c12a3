// Nothing is lost: what was written, asked for and noted outlives other texts, Esc, a reload, and the page being closed.
import {wait} from '../browser.mjs';
import {answer} from '../place.mjs';
import {explored} from '../teaching.mjs';
import {cardsAre, drawn, MIS} from '../user.mjs';

const texts = `[...document.querySelectorAll('#editor textarea')].map(area => area.value)`;
const kept = page => page.until(`!bench.keeper.timer && sessionStorage.getItem('re-workbench')`);
// Whether the browser asks before the page is left.
const asksFirst = `!dispatchEvent(new Event('beforeunload', {cancelable: true}))`;

export const keptSessions = {
    async 'a text in the editor is brought back'(user, page, checks) {
        const back = `document.querySelector('#editor .old button')`, own = ['A^3\nB^3', 'A B'];
        const write = async () => {
            await page.fill('#editor textarea', own[0], 0);
            await page.fill('#editor textarea', own[1], 1);
            await page.until(`document.querySelector('#editor .state .good')`);
        };
        await write();
        await page.click('#family-write');
        await page.until(`${texts}[0].startsWith('M^3') && ${back}?.getClientRects().length`);
        await page.click('#editor .old button', 'Bring it back');
        checks.equal('after a family', await page.until(`${texts}[0].startsWith('A') && ${texts}`), own);
        await page.choose('#gallery', 'orientation');
        await page.until(`${texts}[0] === '[IO]^3'`);
        await page.click('#editor .old button', 'Bring it back');
        checks.equal('after an example', await page.until(`${texts}[0].startsWith('A') && ${texts}`), own);
        // Behind two texts, behind what is written over them, and behind a reload.
        await page.choose('#gallery', 'orientation');
        await page.until(`${texts}[0] === '[IO]^3'`);
        await page.click('#family-write');
        await page.until(`${texts}[0].startsWith('M^3')`);
        checks.check('behind two texts', await page.value(`Boolean(${back}?.getClientRects().length)`));
        await wait(700);
        await kept(page);
        await page.reload();
        await page.until(`${texts}[0].startsWith('M^3') && ${back}?.getClientRects().length`);
        await page.fill('#editor textarea', 'C^3', 0);
        await page.click('#editor .old button', 'Bring it back');
        checks.equal('behind a reload', await page.until(`${texts}[0].startsWith('A') && ${texts}`), own);
        await page.click('#editor .old button', 'Bring it back');
        checks.equal('and what was written over it', (await page.until(`${texts}[0].startsWith('C') && ${texts}`))[0], 'C^3');
        await page.click('#editor .old button', 'Bring it back');
        await page.until(`${texts}[0].startsWith('A')`);
        await page.click('#editor .old .close');
        // A whole problem that is pasted into one field was not written over.
        await page.value(`bench.editor.set('', '')`);
        await page.fill('#editor textarea', `${own.join('\n\n')}\n`, 0);
        checks.equal('cut in two', await page.until(`${texts}[1] && ${texts}`), own);
        checks.check('nothing was replaced', await page.value(`!${back}?.getClientRects().length`));
        await page.click('#family-write');
        await page.until(`${texts}[0].startsWith('M^3')`);
        await page.click('#editor .old button', 'Bring it back');
        checks.equal('a pasted text', await page.until(`${texts}[0].startsWith('A') && ${texts}`), own);
        await page.until(`document.querySelector('#editor .state .good')`);
        // What became a card stands there.
        await page.click('#editor button', 'Open as a card');
        await page.until(cardsAre(1));
        await page.click('#family-write');
        await page.until(`${texts}[0].startsWith('M^3')`);
        checks.check('not where a card has it', await page.value(`!${back}?.getClientRects().length`));
    },

    async 'a reload'(user, page, checks) {
        await user.openProblem(...MIS);
        await user.step(2);
        await user.act('Universal rows');
        await page.until(`document.querySelector('.card.last .note pre')`);
        await user.search('rounds', 1);
        await page.until(`document.querySelectorAll('.card.last .note').length === 2`);
        if (explored.has('given')) {
            await page.choose('#given-kind', 'a colouring');
            await page.until(`document.querySelector('#given-line .line')`);
        }
        await page.fill('#editor textarea', 'A^3\nC^3', 0);
        await page.click('#theme');
        await wait(700);
        await kept(page);
        const seen =
            `[[...document.querySelectorAll('.card.last .note')].map(note => note.textContent), document.querySelector('.card.last .tried').textContent.replace(/[\\d.]+ s/, ''), ${
                texts}, document.querySelector('#given-kind')?.value, bench.cards.done.length, document.documentElement.dataset.theme]`;
        const before = await page.value(seen);
        await page.reload();
        await page.until(`${cardsAre(2)} && ${drawn} && document.querySelector('#verdict-line')`);
        checks.equal('notes, what was tried, the editor, what is given, undo, dark', await page.value(seen), before);
        checks.check('two notes', before[0].length === 2 && before[5] === 'dark');
        await user.says('accepted: not solvable in 1 or fewer rounds');
        if (explored.has('given')) {
            await page.click('#undo');
            await page.until(`!bench.cards.path()[0].given`);
        }
        await page.click('#undo');
        await page.until(cardsAre(1));
        await page.click('#redo');
        await page.until(cardsAre(2));
        checks.equal('notes come back with redo', await page.value(`document.querySelectorAll('.card.last .note').length`), 2);
        await page.click('.card.last .remarks .clear', 'Clear all 2 notes');
        checks.equal('cleared at once', await page.value(`document.querySelectorAll('.card.last .note').length`), 0);
        // A reload at once: what isn't packed yet is kept as it stands.
        await page.fill('#editor textarea', 'D^3', 0);
        await page.reload();
        checks.equal('the last word', (await page.until(`document.querySelector('#editor .state').textContent && ${texts}`))[0], 'D^3');
    },

    async 'what other programs answered is not kept'(user, page, checks) {
        await user.openProblem(...MIS);
        await user.act('Universal rows');
        await page.until(`document.querySelector('.card.last .note')`);
        await page.fill('#editor textarea', 'A^3', 0);
        await wait(700);
        await kept(page);
        await page.value(
            `(async () => { const kept = JSON.parse(await engine.work('unpackSession', sessionStorage.getItem('re-workbench')));
            bench.keeper.keepAtOnce = () => {};
            sessionStorage.setItem('re-workbench', JSON.stringify({...kept, build: 'another one'})); })()`);
        await page.reload();
        checks.equal('the text in the editor is', (await page.until(`${cardsAre(1)} && ${texts}[0] && ${texts}`))[0], 'A^3');
        checks.equal('notes are not', await page.value(`document.querySelectorAll('.note').length`), 0);
    },

    async 'light and dark at once'(user, page, checks) {
        const theme = 'document.documentElement.dataset.theme',
              before = await page.value(`matchMedia('(prefers-color-scheme: dark)').matches`);
        await page.click('#theme');
        await page.reload();
        checks.equal('behind a reload at once', await page.value(theme), before ? 'light' : 'dark');
        checks.equal('for another tab too', await page.value(`localStorage.getItem('re-workbench-theme')`), before ? 'light' : 'dark');
        // A browser whose storage is full or shut: the tab keeps it.
        await page.value(
            `Storage.prototype.setItem = (set => function(...words) { if (this === localStorage) throw new Error('full'); set.apply(this, words); })(Storage.prototype.setItem)`);
        await page.click('#theme');
        await page.reload();
        checks.equal('where the browser keeps nothing', await page.value(theme), before ? 'dark' : 'light');
    },

    async 'the file opened anew'(user, page, checks) {
        await user.openProblem(...MIS);
        await user.step(2);
        await user.act('Universal rows');
        await page.until(`document.querySelector('.card.last .note')`);
        await wait(700);
        await kept(page);
        await page.open();
        await page.until(`document.querySelector('.welcome.last button')`);
        checks.equal('nothing is opened by itself', await page.value('bench.cards.cards.length'), 0);
        checks.equal('the last session', await page.value(`document.querySelector('.welcome.last button').textContent`), 'M^3, 2 cards');
        // Another session doesn't take its place.
        await user.openProblem('1^3', '1^2');
        await wait(900);
        await page.open();
        checks.equal('both are there',
            await page.until(
                `document.querySelectorAll('.welcome.last button').length === 2 && [...document.querySelectorAll('.welcome.last button')].map(node => node.textContent)`),
            ['1^3, 1 card', 'M^3, 2 cards']);
        await page.click('.welcome.last button', 'M^3');
        await page.until(cardsAre(2));
        await user.says('accepted: not solvable in 1 or fewer rounds');
        checks.equal('with its notes', await page.value(`document.querySelectorAll('.card.last .note').length`), 1);
        // What others could write there is examined as a foreign session is.
        await page.value(
            `localStorage.setItem('re-workbench-last', '[{"tab": "x", "title": "<b>x</b>", "count": 2, "packed": "{\\\\"a\\\\": 1}"}]')`);
        await page.value('sessionStorage.clear()');
        await page.value(`bench.keeper.isReady = false`);
        await page.open();
        await page.click('.welcome.last button');
        checks.check('damaged',
            (await page.until(`document.querySelector('#message.fault')?.textContent`)).startsWith(`That session can't be opened: `));
        checks.equal('the page is as before', await page.value('bench.cards.cards.length'), 0);
    },

    async 'a running search asks before the page closes'(user, page, checks) {
        await user.openProblem(...MIS);
        await page.until('bench.sessions.isSaved && location.hash');
        await wait(300);
        checks.equal('leaving is free', await page.value(asksFirst), false);
        await user.search('lower', 8, 2);
        await page.until('engine.tasks.size === 1');
        checks.check('not while it runs', await page.until(asksFirst));
        await user.stop('lower 8 2');
        await page.until('engine.tasks.size === 0');
        await page.until('bench.sessions.isSaved');
        checks.check('and again', await page.until(`!${asksFirst}`));
    },

    async 'Esc keeps what was typed'(user, page, checks) {
        await user.openProblem(...MIS);
        const open = {
            note: async () => {
                await page.click('.card.last .menu summary');
                await page.click('.card.last .menu button', 'Note');
            },
            rename: () => user.act('Rename'),
            edit: async () => {
                await user.act('Edit');
                await page.until(`document.querySelector('dialog .map textarea')?.value`);
                await wait(300);
            },
            diagram: async () => {
                await page.click('.card.last .menu summary');
                await page.click('.card.last .menu button', 'Closure with a diagram');
            },
            open: () => page.click('#open'),
            name: async () => {
                await page.click('.card.last .menu summary');
                await page.click('.card.last .menu button', 'Name');
            }
        };
        const fields = 'dialog textarea, dialog input[type=text]';
        for (const [name, again] of Object.entries(open)) {
            if (name === 'diagram' && !explored.has('closure')) continue;
            await again();
            await page.until(`document.querySelector('${fields}')`);
            checks.check(`${name}: the focus is on a field`, await page.value(`document.activeElement.matches('textarea, input')`));
            await page.fill(fields, 'typed');
            await page.key('Escape');
            await page.until(`!document.querySelector('dialog')`);
            await again();
            checks.check(`${name}: it is there again`, await page.until(`document.querySelector('${fields}')?.value === 'typed'`));
            await page.key('Escape');
            await page.until(`!document.querySelector('dialog')`);
        }
        // What was kept is gone once it is done.
        await open.note();
        await page.click('dialog footer button', 'Keep');
        checks.equal('the note', await page.until(`document.querySelector('.card.last .comment').textContent`), 'typed');
        checks.equal('no problem was changed', await user.problem(), answer(['read'], MIS.join('\n\n')));
    },
};
