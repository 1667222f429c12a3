// The session: undo, the address, files, and texts that come from elsewhere.
import {wait} from '../browser.mjs';
import {answer} from '../place.mjs';
import {cardsAre, drawn, MIS} from '../user.mjs';

const quoted = value => JSON.stringify(value);
const faultShown = `document.querySelector('dialog .state .faulty')?.textContent`;
const EVIL = '<img src=x onerror="window.evil=1"><script>window.evil=1</script>';

export const sessionsSessions = {
    async 'undo, redo and a reload'(user, page, checks) {
        await user.openProblem('O [IO]^2', 'I O');
        await user.step(2);
        await user.says('accepted: not solvable in 1 or fewer rounds');
        await page.key('z', {modifiers: 2});
        await page.until(cardsAre(1));
        await user.says('accepted: not solvable in 0 or fewer rounds');
        await page.key('Z', {modifiers: 10});
        await page.until(cardsAre(2));
        await page.click('#undo');
        await page.until(cardsAre(1));
        await page.click('#redo');
        await page.until(`${cardsAre(2)} && location.hash.length > 20`);
        await wait(300);
        const session = await page.value('JSON.stringify(bench.cards.state)');
        await page.ask('Page.reload');
        await wait(300);
        await page.until(`document.body?.classList.contains('ready') && ${cardsAre(2)}`);
        checks.equal('the same session', await page.value('JSON.stringify(bench.cards.state)'), session);
        await user.says('accepted: not solvable in 1 or fewer rounds');
        // Branches: another card behind the first one.
        await page.click('#card-list button', '0 O [IO]^2');
        await page.until(cardsAre(1));
        checks.check('it goes on',
            (await page.value(`document.querySelector('.card .branches').textContent`)).includes('Goes on:1 derived problem'));
        await user.select('I', 'O');
        await user.actOnSelected('Merge into I');
        await page.until(cardsAre(2));
        checks.check('another branch',
            (await page.value(`document.querySelector('.card .branches').textContent`)).includes('Other branches:1 derived problem'));
    },

    async 'copy, and check again natively'(user, page, checks) {
        await user.watchCopies();
        await user.openProblem(...MIS);
        await page.key('s');
        await page.until(`${cardsAre(2)} && ${drawn}`);
        checks.check('the new card has the focus', await page.value(`document.activeElement === document.querySelector('.card.last')`));
        await user.says('accepted: not solvable in 1 or fewer rounds');
        await page.key('x');
        await page.until('document.querySelector("dialog textarea.code")');
        checks.check('the line stands above the text',
            (await page.value(`document.querySelector('dialog p').textContent`)).startsWith('accepted: not solvable in 1 or fewer rounds'));
        await page.click('dialog footer button', 'Copy');
        checks.equal('the certificate', answer(['check'], await user.copied()).trim(), 'accepted: not solvable in 1 or fewer rounds');
        await page.key('Escape');
        await page.until('!document.querySelector("dialog")');
        await user.act('Copy');
        checks.equal('the problem', answer(['read'], await user.copied()), await user.problem());
        const more = async text => {
            await page.click('.card.last .menu summary');
            await page.click('.card.last .menu button', text);
            return user.copied();
        };
        checks.equal('one configuration a line', await more('one configuration a line'), await user.problem());
        checks.check('LaTeX', (await more('LaTeX')).startsWith('\\begin{aligned}'));
        await user.act('Universal rows');
        await page.click('.card.last .note button', 'Copy');
        checks.equal('universal rows', await user.copied(), answer(['universal'], await user.problem()));
    },

    async 'files: a session, a picture, a note, a name'(user, page, checks) {
        // Files are caught where the page hands them to the browser.
        await page.value(
            `(() => { window.files = {}; const make = URL.createObjectURL; URL.createObjectURL = blob => { window.lastBlob = blob; return make.call(URL, blob); };
            document.addEventListener('click', event => { const link = event.target.closest('a[download]'); if (link) { event.preventDefault(); lastBlob.text().then(text => { files[link.download] = text; }); } }, true); })()`);
        const file = async name => page.until(`files[${quoted(name)}]`);
        await user.openProblem('O [IO]^2', 'I O');
        await user.step(2);
        await page.click('.card.last .menu summary');
        await page.click('.card.last .menu button', 'Note');
        await page.fill('dialog textarea', 'a note');
        await page.click('dialog footer button', 'Keep');
        checks.equal('the note', await page.until(`document.querySelector('.card.last .comment').textContent`), 'a note');
        await page.click('.card.last figure button', 'SVG');
        checks.check('the picture', (await file('problem-1-active.svg')).startsWith('<svg'));
        // A problem has the name of its first line, until it gets another one.
        checks.equal('the title', await page.value('document.title'), 'O [IO]^2 – re workbench');
        await page.click('#card-list button', '0 O [IO]^2');
        await page.click('.card.last .menu summary');
        await page.click('.card.last .menu button', 'Name');
        await page.fill('dialog input', 'No sinks, <b>degree</b> 3');
        await page.key('Enter');
        await page.until(`document.title === 'No sinks, <b>degree</b> 3 – re workbench'`);
        checks.equal(
            'the name on the card', await page.value(`document.querySelector('.card .title').textContent`), 'No sinks, <b>degree</b> 3');
        await page.click('#card-list button', '1 derived problem');
        await page.until(cardsAre(2));
        await page.click('#save');
        const session = await file('no-sinks-b-degree-b-3.json');
        await page.click('#card-list button', '0 No sinks');
        await page.click('.card.last .menu summary');
        await page.click('.card.last .menu button', 'Remove the card');
        await page.until(`document.querySelector('.welcome')`);
        await user.openText(session);
        await page.until(cardsAre(2));
        await page.until(`document.querySelector('.card.last .comment').textContent === 'a note'`);
        await page.click('#theme');
        await wait(100);
        checks.equal('dark', await page.value('document.documentElement.dataset.theme'), 'dark');
        await page.click('#help-button');
        checks.check('the commit under Help',
            /from commit [0-9a-f]{40}/.test(await page.until(`document.querySelector('dialog .build')?.textContent`)));
    },

    async 'a session of many cards'(user, page, checks) {
        await user.openProblem('O [IO]^2', 'I O');
        await user.step(2);
        const session = JSON.parse(await page.value(`engine.work('sessionText', bench.cards.state)`)), {cards: [, {problem}]} = session;
        for (let id = 3; id <= 300; id++)
            session.cards.push({kind: 'change', relax: {A: 'A', B: 'B'}, title: `card ${id}`, id, parent: id - 1, problem});
        await user.openText(JSON.stringify({...session, current: 300}));
        await page.until(cardsAre(300));
        const pause = await page.value(
            `(async () => { const started = performance.now(); bench.cards.select(150); return performance.now() - started; })()`);
        checks.check(`another card is shown in ${pause.toFixed(0)} ms`, pause < 2000);
        await user.says('accepted: not solvable in 1 or fewer rounds');
    },

    async 'a session that the address can not hold'(user, page, checks) {
        const asks = () => page.value(`!dispatchEvent(new Event('beforeunload', {cancelable: true}))`);
        await user.openProblem(...MIS);
        await page.until('bench.sessions.isSaved && location.hash');
        checks.equal('leaving is free', await asks(), false);
        await page.value(
            `(() => { const work = engine.work.bind(engine); engine.work = (name, ...args) => name === 'packSession' ? Promise.reject(new Error('the browser ended its worker')) : work(name, ...args); })()`);
        await user.step(2);
        await page.until(
            `document.querySelector('#message').textContent === 'The address does not hold this session: the browser ended its worker. Save keeps it.'`);
        checks.equal('leaving is asked for', await asks(), true);
        await page.value(
            `document.addEventListener('click', event => { if (event.target.closest('a[download]')) event.preventDefault(); }, true)`);
        await page.click('#save');
        await page.until('bench.sessions.isSaved');
        checks.equal('a file holds it', await asks(), false);
    },

    async 'old, damaged and foreign sessions'(user, page, checks) {
        await user.openProblem(...MIS);
        await user.step(2);
        await user.says('accepted: not solvable in 1 or fewer rounds');
        const session = JSON.parse(await page.value(`engine.work('sessionText', bench.cards.state)`));
        const refused = async (what, text, message) => {
            await user.openText(typeof text === 'string' ? text : JSON.stringify(text));
            checks.equal(what, await page.until(faultShown), message);
            await page.key('Escape');
            checks.equal(`${what}: nothing is lost`, await page.until('bench.cards.path().length'), 2);
        };
        const changed = values => ({...session, cards: session.cards.map((card, i) => i ? {...card, ...values} : card)});
        await refused('an old session', {...session, format: 're-workbench-0'},
            'a session of another version of this page (re-workbench-0; this one reads re-workbench-1)');
        await refused('a damaged one', JSON.stringify(session).slice(0, -9), 'not a saved session: its text is damaged');
        await refused('a card with a bad number', changed({id: EVIL}), 'card 2 of the session has another form');
        await refused('a problem that is none', changed({problem: 'nonsense'}), 'card 2 of the session: its problem is no canonical text');
        await refused('written lines of another problem', changed({written: {active: ['A D'], passive: ['A B C']}}),
            'card 2 of the session: what was written is another problem');
        // What was changed is a problem still; the chain is then refused by its clause.
        await user.openText(JSON.stringify(changed({problem: session.cards[1].problem.replace('A D\n', '')})));
        await user.says('refused: step 1, clause L4');
        await page.key('z', {modifiers: 2});
        await user.says('accepted: not solvable in 1 or fewer rounds');
    },

    async 'an address that can not be read'(user, page, checks) {
        const address = await page.value('location.href');
        for (const hash of ['#s=nonsense', '#s=AAAA']) {
            await page.go(`${address}${hash}`);
            checks.check('it is said',
                (await page.until(`!document.querySelector('#unread').hidden && document.querySelector('#unread').textContent`))
                    .includes(`can't be read`));
            checks.equal('the address stays', await page.value('location.hash'), hash);
        }
        await user.openProblem(...MIS);
        await page.until(`location.hash.length > 30`);
        await page.value('history.back()');
        await page.until(`location.hash === '#s=AAAA'`);
    },
};
