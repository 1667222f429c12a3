// What stands beside a verdict, what runs, and what is seen in small windows.
import {answer, example, natively, withoutFormulas} from '../place.mjs';
import {explored, hold, isHeld, letGo, teach} from '../teaching.mjs';
import {cardsAre, drawn, MIS} from '../user.mjs';
import {wait} from '../browser.mjs';

const quoted = value => JSON.stringify(value);
const sized = async (page, width, height) => {
    await page.ask('Emulation.setDeviceMetricsOverride', {width, height, deviceScaleFactor: 1, mobile: false});
    await wait(400);
};
const textOf = selector => `document.querySelector('${selector}')?.textContent`;
const SCOPE = 'with port numbers alone, by deterministic algorithms on infinite trees';
const GIVEN_SCOPE = 'with port numbers and that input, by deterministic algorithms on infinite trees';
const GRAPH = '1.1 1.2\n2.1 2.2\n1.3 2.3';

export const besideSessions = {
    async 'the model and the class beside each verdict'(user, page, checks) {
        await user.openProblem(...MIS);
        await user.step(2);
        await user.says('accepted: not solvable in 1 or fewer rounds');
        checks.check('in the foot', (await page.value(textOf('#verdict'))).includes(`fewer rounds ${SCOPE} · lower bound`));
        if (explored.has('describe'))
            checks.check('beside the rounds of the graph',
                (await page.until(`document.querySelector('#rounds-of-graph') && ${textOf('#verdict')}`))
                    .includes('rounds of the graph. (with port numbers alone)'));
        if (explored.has('given')) {
            await page.choose('#given-kind', 'a colouring');
            await page.until(`${textOf('#given-line .line')}?.startsWith('accepted')`);
            checks.check('of what is given', (await page.value(textOf('#given-line'))).endsWith(GIVEN_SCOPE));
            await page.choose('#given-kind', 'nothing');
            await page.until(`!bench.cards.path()[0].given && bench.claim.verdict`);
        }
        await page.click('#certificate');
        checks.check('in the window of the certificate', (await page.until(textOf('dialog'))).includes(SCOPE));
        if (explored.has('describe')) {
            const report = natively('explore', ['describe'], await user.certificate()).text,
                  sentence = withoutFormulas(/^With unique identifiers .*?(?= \()/m.exec(report)[0]);
            checks.check(
                `on identifiers, as describe says it: ${sentence}`, await page.until(`${textOf('dialog')}.includes(${quoted(sentence)})`));
        }
        await page.key('Escape');
        if (!explored.has('solve')) return;
        await page.value(`bench.settling.draw(${quoted(`${answer(['read'], MIS.join('\n\n'))}== graph\n${GRAPH}\n`)})`);
        await page.until(`document.querySelector('dialog .picture svg.graph')`);
        checks.check(
            'in the window of a graph', (await page.value(textOf('dialog p[role=status]'))).includes(`any number of rounds ${SCOPE}`));
    },

    async 'a certificate has what is given, and its command'(user, page, checks) {
        if (!explored.has('given')) return;
        await user.openProblem(...MIS);
        await user.step(2);
        await page.choose('#given-kind', 'a colouring');
        await page.until(`${textOf('#given-line .line')}?.startsWith('accepted')`);
        const certificate = await user.certificate(),
              whole = `${certificate}== given\n${await page.value('bench.cards.path()[0].given.problem')}`;
        await user.watchCopies();
        await page.click('#certificate');
        await page.until(`document.querySelector('dialog textarea')`);
        checks.equal('what is seen', await page.value(`document.querySelector('dialog textarea').value`), whole);
        const lines = await page.value(`[...document.querySelectorAll('dialog .line')].map(node => node.textContent)`);
        checks.equal('the lines of the programs', lines,
            [answer(['check'], certificate).trim(), natively('explore', ['given'], whole).text.split('\n', 1)[0]]);
        await page.click('dialog footer button', 'Copy');
        checks.equal('what explore given judged', await user.copied(), whole);
        await page.click('dialog footer button', 'Copy without what is given');
        checks.equal('what re check judged', await user.copied(), certificate);
        for (const [at, command] of ['re check < lower-bound.txt', 'explore given < lower-bound-given.txt'].entries()) {
            await page.value(`document.querySelectorAll('dialog button[aria-label^="copy the command"]')[${at}].click()`);
            checks.equal('the command', await user.copied(), command);
        }
        await page.click('dialog footer button', 'Condense');
        await page.until(
            `document.querySelector('dialog .state').textContent !== 'asking…' && document.querySelector('dialog .state').textContent`);
        await page.click('dialog footer button', 'Copy');
        const condensed = await user.copied();
        if (explored.has('condense given'))
            checks.equal('what explore condense gives of both', condensed, natively('explore', ['condense'], whole).text);
        checks.equal('condensed, it is judged again', natively('explore', ['given'], condensed).text.split('\n', 1)[0], lines[1]);
        await page.key('Escape');
        // It comes back as it was, with the name of what is given.
        await user.openText(whole);
        await page.until(`bench.cards.roots().length === 2 && bench.cards.path()[0].given`);
        checks.equal('of its kind', await page.value(`(({kind, count}) => [kind, count])(bench.cards.path()[0].given)`), ['colouring', 4]);
    },

    async 'what the page asks by itself is no job'(user, page, checks) {
        await user.openProblem(...MIS);
        await page.value('engine.answers.clear()');
        // The page's own runs take long, and one that the user asked for runs beside them.
        await page.value(`(() => { const start = engine.start.bind(engine); engine.start = (program, words, input, options) =>
            ['diagram', 'zero'].includes(words[0]) ? start('re', ['lower', '9', '3'], input, options) : start(program, words, input, options); })()`);
        await user.act('Step');
        await page.until(`${cardsAre(2)} && [...engine.running].filter(job => job.quiet).length > 1`);
        await user.search('lower', 9, 2);
        await user.running('lower 9 2');
        await wait(1500);
        checks.equal('one is shown', await page.value(`[...document.querySelectorAll('#jobs .name')].map(node => node.textContent)`),
            ['lower 9 2 from problem 1']);
        checks.check('the others run', await page.value(`[...engine.running].filter(job => job.quiet).length > 1`));
        // What takes long has a button where it comes.
        const figure = `.card.last figure[data-side=passive]`;
        await page.until(`(node => node && getComputedStyle(node).visibility === 'visible')(document.querySelector('${figure} .late'))`);
        await page.click(`${figure} .late`);
        checks.check(
            'and is stopped there', (await page.until(`${textOf(figure)}.includes('Ask again') && ${textOf(figure)}`)).includes('stopped'));
        await user.stopAll();
        await page.value('[...engine.running, ...engine.waiting].forEach(job => job.stop())');
    },

    async 'many jobs take a quarter of a narrow screen, with their names'(user, page, checks) {
        await user.openProblem(...MIS);
        await sized(page, 390, 844);
        await page.value(
            `for (let i = 0; i < 12; i++) engine.tasks.add({title: 'longest 8 ' + (10 + i) + ' given a colouring, 4 colours from problem 0', state: 'best so far: 4 further steps; now longest 16 10', started: performance.now() - 1000, isOver: false, stop() {}})`);
        await page.until(`document.querySelectorAll('#jobs .job').length === 12`);
        await wait(400);
        const height = await page.value(`document.querySelector('#jobs').getBoundingClientRect().height`);
        checks.check(`${height} px of 844`, height <= 844 / 4);
        const names = await page.value(`[...document.querySelectorAll('#jobs .name')].map(node => node.getBoundingClientRect().width)`);
        checks.check(`names of at least a word: ${names[0]}`, names.every(width => width >= 120));
        checks.equal(
            'nothing over the side', await page.value('document.documentElement.scrollWidth - document.documentElement.clientWidth'), 0);
        await page.value('engine.tasks.forEach(task => { task.isOver = true; }), engine.tasks.clear()');
        await sized(page, 1366, 900);
    },

    async 'fields, counts and small numbers on a narrow screen'(user, page, checks) {
        await sized(page, 390, 844);
        await page.go();
        await user.openProblem(...MIS);
        const small =
            await page.value(`[...document.querySelectorAll('input, select, textarea')].filter(node => node.getClientRects().length)
            .map(node => [node.getAttribute('aria-label') || node.id, node.getBoundingClientRect().width, node.getBoundingClientRect().height]).filter(([, width, height]) => width < 24 || height < 24)`);
        checks.equal('fields of at least 24 px', small, []);
        // Each search stands on a ground of its own, with what its numbers count.
        const grounds = await page.value(`(() => { const ground = getComputedStyle(document.querySelector('.card.last')).backgroundColor;
            return [...document.querySelectorAll('.card.last .ask')].map(node => getComputedStyle(node).backgroundColor !== ground); })()`);
        checks.check('counts are apart from the next button', grounds.length > 3 && grounds.every(Boolean));
        checks.check('and the counts of the list are no part of its buttons',
            await page.value(
                `[...document.querySelectorAll('#card-list li')].every(row => !row.querySelector('button').textContent.includes('label') && row.querySelector(':scope > small'))`));
        const numbers =
            `(() => { const svg = document.querySelector('dialog svg.run'), scale = svg.getBoundingClientRect().width / svg.viewBox.baseVal.width;
            return Math.min(...[...svg.querySelectorAll('.small')].map(node => parseFloat(getComputedStyle(node).fontSize) * scale)); })()`;
        for (const [width, height] of [[390, 844], [1280, 800], [640, 400]]) {
            await sized(page, width, height);
            await page.value(`bench.settling.draw(${
                quoted(`${answer(['read'], MIS.join('\n\n'))}== graph\n1.1 2.1\n1.2 3.1\n1.3 4.1\n2.2 3.2\n2.3 4.2\n3.3 4.3\n`)})`);
            await page.until(`document.querySelector('dialog svg.run')`);
            const graph = await page.value(numbers);
            checks.check(`${width}x${height}: port numbers of a graph, ${graph} px`, graph >= 10);
            await page.key('Escape');
            await page.until(`!document.querySelector('dialog')`);
        }
        await sized(page, 1280, 800);
        await page.choose('#gallery', 'proposals 3 upper');
        await page.until(`bench.cards.path()[0].title === 'proposals 3 upper' && bench.claim.verdict`);
        for (const [width, height] of [[390, 844], [1280, 800]]) {
            await sized(page, width, height);
            await page.value(`document.querySelector('#algorithm').click()`);
            await page.until(`document.querySelector('dialog svg.run')`);
            const tree = await page.value(numbers);
            checks.check(`${width}x${height}: of the tree, ${tree} px`, tree >= 10);
            await page.key('Escape');
            await page.until(`!document.querySelector('dialog')`);
        }
        await sized(page, 1366, 900);
    },

    async 'the line of what is given is seen at 200 percent'(user, page, checks) {
        if (!explored.has('given')) return;
        await sized(page, 640, 400);
        await page.go();
        await user.openProblem(...MIS);
        await page.choose('#given-kind', 'a colouring');
        await page.until(`document.querySelector('#given-line .line') && document.querySelector('#rounds-of-graph')`);
        await page.value('document.activeElement.blur()');
        await page.mouse('mouseMoved', {x: 5, y: 60});
        await wait(400);
        for (const selector of ['#verdict-line', '#given-line .line']) {
            const box = await page.value(
                `(({top, bottom, height}) => ({top, bottom, height}))(document.querySelector('${selector}').getBoundingClientRect())`);
            checks.check(`${selector}: ${JSON.stringify(box)}`,
                box.height > 4 && box.bottom <= 400 &&
                    box.top >= await page.value(`document.querySelector('#claim').getBoundingClientRect().top`));
        }
        checks.check('the foot is low', await page.value(`document.querySelector('#claim').getBoundingClientRect().height <= 100`));
        await sized(page, 1366, 900);
    },

    async 'a session without cards asks'(user, page, checks) {
        await user.openProblem(...MIS);
        const empty = '{"format": "re-workbench-1", "current": null, "cards": []}';
        await user.openText(empty);
        await page.until(`[...document.querySelectorAll('dialog h2')].some(node => node.textContent === 'A session without cards')`);
        checks.equal('the cards are there', await page.value('bench.cards.cards.length'), 1);
        await page.click('dialog footer button', 'Keep the cards');
        await page.until(`!document.querySelector('dialog')`);
        checks.equal('and stay', await page.value('bench.cards.cards.length'), 1);
        await user.openText(empty);
        await page.click('dialog footer button', 'Open it');
        await page.until('bench.cards.cards.length === 0');
        await page.click('#undo');
        checks.check('undone', await page.until(`${cardsAre(1)} && ${drawn}`));
    },

    async 'an upper bound behind a renaming says what it needs'(user, page, checks) {
        await user.openExample('maximal matching 2');
        await user.act('Rename');
        await page.click('dialog button', 'By letters');
        await page.click('dialog footer button', 'Rename');
        await page.until(`${cardsAre(2)} && ${drawn}`);
        await user.search('upper', 4, 0);
        await page.until(`${textOf('#verdict-line')}?.startsWith('accepted: solvable in ')`);
        const said = await page.until(`document.querySelector('#verdict div.hint')?.textContent`);
        checks.equal('the first problem is the relaxation', said,
            're relax: yes: problem 0 is a relaxation of problem 0′, so this is a bound of problem 0 too.');
        await page.click('#undo');
        await user.step(3);
        await page.until(`${textOf('#verdict-line')}?.startsWith('accepted: not solvable')`);
        checks.equal('of a lower bound the other one', await page.until(`document.querySelector('#verdict div.hint')?.textContent`),
            're relax: yes: problem 0′ is a relaxation of problem 0, so this is a bound of problem 0 too.');
    },

    async 'titles of a foreign session are no verdicts, and long ones are told apart'(user, page, checks) {
        await user.openProblem(...MIS);
        await user.step(2);
        const session = JSON.parse(await page.value(`engine.work('sessionText', bench.cards.state)`)),
              claim = 'accepted: not solvable in any number of rounds';
        session.cards[0].title = claim;
        await user.openText(JSON.stringify(session));
        await page.until(`document.querySelector('.card .title').textContent.includes('accepted')`);
        checks.equal('on the card', await page.value(textOf('.card .title')), `“${claim}”`);
        checks.equal('in the list', await page.value(textOf('#card-list button')), `0 “${claim}”`);
        checks.equal('of the page', await page.value('document.title'), `“${claim}” – re workbench`);
        const named = (title, id) => page.value(`bench.cards.amend(${id}, {title: ${quoted(title)}})`);
        for (const title of ['exactly 3', 'refused: clause END', 'Yes', 'no: B', 'No solution', 'at least order log N']) {
            await named(title, session.cards[0].id);
            checks.equal(title, await page.until(`document.querySelector('.card .title').textContent`), `“${title}”`);
        }
        for (const title of ['my matching', 'No sinks, no sources', 'Yesterday']) {
            await named(title, session.cards[0].id);
            checks.equal('another name as it is', await page.value(textOf('.card .title')), title);
        }
        // A note of the session is told to be one.
        await page.value(`bench.cards.amend(${session.cards[0].id}, {note: ${quoted(claim)}})`);
        checks.equal(
            'a note', await page.value(`getComputedStyle(document.querySelector('.card .comment'), '::before').content`), '"Note: "');
        // Two steps whose titles differ at their ends alone.
        const parent = session.cards[1].id, {problem} = session.cards[1], step = {kind: 'given', side: 'lower', rows: [], map: [], problem};
        await page.value(
            `bench.append(bench.cards.get(${parent}), ...['a colouring, 4 colours', 'a colouring, 5 colours'].map(input => ({...${
                quoted(step)}, title: 'longest 8 10 given ' + input})))`);
        await page.until(cardsAre(4));
        const rows = await page.value(
            `[...document.querySelectorAll('#card-list button')].slice(-2).map(node => [node.textContent, node.scrollWidth <= node.clientWidth && node.scrollHeight <= node.clientHeight + 1])`);
        checks.equal('both are seen whole', rows,
            [['2 longest 8 10 given a colouring, 4 colours', true], ['3 longest 8 10 given a colouring, 5 colours', true]]);
    },
};
