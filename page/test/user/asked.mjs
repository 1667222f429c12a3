// What was asked with an input keeps its name, and says where another one is given by now; the user's choice of what is given stays.
import {natively} from '../place.mjs';
import {explored, hold, isHeld, letGo} from '../teaching.mjs';
import {cardsAre, MIS} from '../user.mjs';

const quoted = value => JSON.stringify(value);
const texts = selector => `[...document.querySelectorAll('.card.last ${selector}')].map(node => node.textContent)`;
const notes = texts('.note'), tried = texts('.tried tr'), asked = texts('.asked:not([hidden])');
const kind = `bench.cards.path()[0].given?.kind`;
const shownLine = `document.querySelector('#given-line .line')?.textContent`;

// A problem of the user's own is given, by the window.
async function giveOwn(page, active, passive) {
    const before = await page.value('bench.cards.path()[0].given?.problem || ""');
    // The choice opens it by itself.
    if (!await page.value(`Boolean(document.querySelector('dialog'))`)) await page.click('#given button', 'Change');
    await page.until(`document.querySelector('dialog textarea')`);
    await page.fill('dialog textarea', active, 0);
    await page.fill('dialog textarea', passive, 1);
    await page.until(`!document.querySelector('dialog footer button').disabled`);
    await page.click('dialog footer button', 'Use it');
    await page.until(`!document.querySelector('dialog') && bench.cards.path()[0].given?.problem !== ${quoted(before)}`);
}

const sessions = {
    async 'what was asked with an input says so when another one is given'(user, page, checks) {
        await user.openProblem(...MIS);
        await page.choose('#given-kind', 'a colouring');
        await page.until(`${kind} === 'colouring'`);
        await user.search('rounds', 4);
        const four = natively('explore', ['rounds', '4'],
            await page.value('`${bench.cards.path()[0].problem}== given\n${bench.cards.path()[0].given.problem}`'))
                         .text.trim();
        await page.until(`${notes}.some(text => text.startsWith(${quoted(`rounds 4 given a colouring, 4 colours: ${four}`)}))`);
        checks.check('nothing more is said of it', !(await page.value(`${notes}.join()`)).includes('asked with'));
        await page.choose('#given-kind', 'the two sides');
        await page.until(`${kind} === 'sides'`);
        const said = '· asked with that input; now given: the two sides';
        const mine = rows => `${rows}.find(text => text.includes('rounds 4 given a colouring, 4 colours'))`;
        checks.check(`the note: ${await page.value(mine(notes))}`, (await page.value(mine(notes))).includes(said));
        checks.check(`the row of what was tried: ${await page.value(mine(tried))}`, (await page.value(mine(tried))).includes(said));
        checks.check('what was asked without an input says nothing',
            !(await page.value(`${notes}.find(text => text.startsWith('rounds 4:'))`)).includes('asked with'));
        // Asked again: each has its own row, and its own input.
        await user.search('rounds', 4);
        const two = natively('explore', ['rounds', '4'],
            await page.value('`${bench.cards.path()[0].problem}== given\n${bench.cards.path()[0].given.problem}`'))
                        .text.trim();
        await page.until(`${notes}.some(text => text.startsWith(${quoted(`rounds 4 given the two sides: ${two}`)}))`);
        checks.equal('each has its row',
            (await page.value(tried)).filter(text => /^rounds 4 given/.test(text)).map(text => text.split(/ colours| sides/)[0]),
            ['rounds 4 given a colouring, 4', 'rounds 4 given the two']);
        checks.check('that of now says nothing',
            !(await page.value(`${notes}.find(text => text.startsWith('rounds 4 given the two sides'))`)).includes('asked with'));
        // So behind a reload, and where nothing is given.
        await page.choose('#given-kind', 'nothing');
        await page.until(`!bench.cards.path()[0].given`);
        checks.equal('two of them now',
            (await page.value(notes)).filter(text => text.includes('asked with that input; now nothing is given')).length, 2);
        await page.until('!bench.keeper.timer && location.hash.length > 20');
        await page.reload();
        await page.until(cardsAre(1));
        checks.equal('and behind a reload',
            (await page.value(notes)).filter(text => text.includes('asked with that input; now nothing is given')).length, 2);
    },

    async 'two problems of the own have two names'(user, page, checks) {
        await user.openProblem('O [IO]^2', 'I O');
        await page.choose('#given-kind', 'a problem…');
        await giveOwn(page, '[IO]^3', 'I O');
        checks.equal(
            'its name stands there', await page.value(`document.querySelector('#given .code').textContent`), 'your problem 1, “I^3”');
        await user.act('Settle');
        await page.until(`${notes}.some(text => text.startsWith('settle given your problem 1, “I^3”: '))`);
        await giveOwn(page, '[IO]^3', '[IO]^2');
        checks.equal(
            'the other one has another', await page.value(`document.querySelector('#given .code').textContent`), 'your problem 2, “I^3”');
        await user.act('Settle');
        await page.until(`${notes}.some(text => text.startsWith('settle given your problem 2, “I^3”: '))`);
        const rows = (await page.value(tried)).filter(text => text.startsWith('settle given your problem'));
        checks.equal('each has its row', rows.map(row => row.slice(0, 27)), ['settle given your problem 1', 'settle given your problem 2']);
        checks.check(
            'the first one says what is given now', rows[0].includes('now given: your problem 2') && !rows[1].includes('now given'));
        // The names stay behind a reload, and where the first one is given again.
        await page.until('!bench.keeper.timer && location.hash.length > 20');
        await page.reload();
        await page.until(cardsAre(1));
        checks.equal('behind a reload', await page.value(`document.querySelector('#given .code').textContent`), 'your problem 2, “I^3”');
        await giveOwn(page, '[IO]^3', 'I O');
        checks.equal(
            'the first one again', await page.value(`document.querySelector('#given .code').textContent`), 'your problem 1, “I^3”');
    },

    async 'a search that ends leaves the choice of what is given'(user, page, checks) {
        if (!explored.has('longest given')) return;
        await user.openProblem(...MIS);
        await page.choose('#given-kind', 'a colouring');
        await page.until(`${kind} === 'colouring'`);
        await hold(page, ['longest 2 8']);
        await user.search('longest', 2, 8);
        await isHeld(page);
        await page.choose('#given-kind', 'the two sides');
        await page.until(`${kind} === 'sides'`);
        await letGo(page);
        await page.until(cardsAre(3));
        checks.equal('the choice stays', await page.value(`[${kind}, document.querySelector('#given-kind').value]`), ['sides', 'sides']);
        checks.equal('the cards say with what they were found', await page.value(asked),
            ['found given a colouring, 4 colours; now given: the two sides Give that again']);
        checks.check('and their names',
            (await page.value(`document.querySelector('.card.last .title').textContent`))
                .endsWith('longest 2 8 given a colouring, 4 colours'));
        await page.click('.card.last .asked button');
        await page.until(`${kind} === 'colouring'`);
        checks.equal('nothing more is said', await page.value(asked), []);
        checks.equal('the line is that of what is given now', await page.until(`${shownLine}?.startsWith('accepted') && ${shownLine}`),
            'accepted: given that input, not solvable in 2 or fewer rounds');
        await page.click('#undo');
        await page.click('#undo');
        await page.until(cardsAre(1));
        checks.equal('undone, the choice is there', await page.value(kind), 'sides');
    },

    async 'what a command gives is undone with its cards'(user, page, checks) {
        await user.openProblem(...MIS);
        await page.choose('#given-kind', 'the two sides');
        await page.until(`${kind} === 'sides'`);
        // The command names its own colouring, which the chain gets with the cards.
        const view = `bench.view(bench.cards.path()[0])`,
              run = `bench.settling.open(bench.cards.path()[0], ${
                  view}, 'explore longest 2 8 given 4 colours', [{program: 'explore', words: ['longest', '2', '8'], colours: 4}])`;
        await page.value(run);
        await page.until(`${cardsAre(3)} && ${kind} === 'colouring'`);
        await page.click('#undo');
        await page.until(cardsAre(1));
        checks.equal('one click brings back both', await page.value(kind), 'sides');
        // Where the user chooses meanwhile, the choice stays.
        await hold(page, ['longest 2 8']);
        await page.value(`engine.answers.clear(), void ${run}`);
        await isHeld(page);
        await page.choose('#given-kind', 'an orientation');
        await page.until(`${kind} === 'orientation'`);
        await letGo(page);
        await page.until(cardsAre(3));
        checks.equal('a choice made meanwhile', await page.value(kind), 'orientation');
        checks.check('the card says it',
            (await page.value(`${asked}[0]`)).startsWith('found given a colouring, 4 colours; now given: an orientation'));
    },

    async 'a refusal with what is given has words'(user, page, checks) {
        await user.openProblem(...MIS);
        await user.step(2);
        await page.choose('#given-kind', 'the two sides');
        await page.until(`${shownLine}?.startsWith('refused')`);
        const said = 'END: problem 1 is solvable in 0 rounds given that input (1 → [A], 2 → [D]), so this is no lower bound given it';
        checks.check('beside the line', (await page.value(`document.querySelector('#given-line').textContent`)).includes(` · ${said}`));
        checks.equal(
            'on the card', await page.value(texts('.fault:not([hidden])')), [`refused: given that input, step 1, clause END · ${said}.`]);
        checks.equal('not on the other one', await page.value(`document.querySelectorAll('.fault:not([hidden])').length`), 1);
        await page.choose('#given-kind', 'a colouring');
        await page.until(`${shownLine}?.startsWith('accepted')`);
        checks.equal('none where it is accepted', await page.value(texts('.fault:not([hidden])')), []);
    },

    async 'a foreign session names what it gives by what it is'(user, page, checks) {
        await user.openProblem(...MIS);
        await page.choose('#given-kind', 'a colouring');
        await page.until(`${kind} === 'colouring'`);
        const session = JSON.parse(await page.value(`engine.work('sessionText', bench.cards.state)`));
        session.cards[0].given.problem = natively('explore', ['input', 'sides', '3', '2']).text;
        await user.openText(JSON.stringify(session));
        checks.equal('no colouring', await page.until(`${kind} === 'problem' && document.querySelector('#given .code').textContent`),
            'your problem 1, “1^3”');
    },
};

export const askedSessions = explored.has('given') && explored.has('input') ? sessions : {};
