// Texts that come in from the clipboard and by dropping, and the report that goes out, on the page and on paper.
import {answer, example, natively, withoutFormulas} from '../place.mjs';
import {explored, hold, isHeld, letGo, teach} from '../teaching.mjs';
import {cardsAre, drawn, MIS} from '../user.mjs';

const fixed = example('first/sinkless-fixed.txt'), quoted = value => JSON.stringify(value);

// What the page gets where the user pastes, or drops something, at some element.
const pasted = (page, text, at = 'document.body') => page.value(`(() => { const data = new DataTransfer(); data.setData('text/plain', ${
    quoted(text)}); ${at}.dispatchEvent(new ClipboardEvent('paste', {clipboardData: data, bubbles: true, cancelable: true})); })()`);
const dropped = (page, type, put) => page.value(`(() => { const data = new DataTransfer(); ${put}; const event = new DragEvent('${
    type}', {dataTransfer: data, bubbles: true, cancelable: true}); document.querySelector('#chain').dispatchEvent(event); return event.defaultPrevented; })()`);

export const inAndOutSessions = {
    async 'paste anywhere, and by one click'(user, page, checks) {
        await pasted(page, fixed);
        await user.says('accepted: not solvable in any number of rounds');
        checks.equal('a chain', await user.certificate(), fixed);
        await pasted(page, 'A B^2\n\nA [AB]\n');
        await page.until(`document.title.startsWith('A B^2') && ${drawn}`);
        checks.equal('a problem', await user.problem(), answer(['read'], 'A B^2\n\nA [AB]\n'));
        // What is pasted into the editor stays there.
        const count = await page.value('bench.cards.cards.length');
        await pasted(page, 'A B\n\nA B\n', `document.querySelector('#editor textarea')`);
        checks.equal('into the editor', await page.value('bench.cards.cards.length'), count);
        // A text with a fault is shown with its fault.
        await pasted(page, fixed.replace('[IO] B', '[IO] Z'));
        checks.equal('a fault', await page.until(`document.querySelector('dialog .state .faulty')?.textContent`),
            answer(['check'], fixed.replace('[IO] B', '[IO] Z')).trim());
        checks.equal(
            'the text stays', await page.value(`document.querySelector('dialog textarea').value`), fixed.replace('[IO] B', '[IO] Z'));
        await page.key('Escape');
        await page.value(`navigator.clipboard.readText = async () => ${quoted(example('gallery/two-colouring-3.txt'))}`);
        await page.click('#paste');
        await user.says(answer(['check'], example('gallery/two-colouring-3.txt')).trim());
        // A browser that gives nothing: the window of Open.
        await page.value(`navigator.clipboard.readText = async () => { throw new Error('no'); }`);
        await page.click('#paste');
        await page.until(
            `document.activeElement === document.querySelector('dialog textarea') && document.querySelector('#message').textContent.includes('Ctrl+V')`);
        await page.key('Escape');
        await page.value(`navigator.clipboard.readText = async () => ''`);
        await page.click('#paste');
        await page.until(`document.querySelector('#message').textContent === 'The clipboard holds no text.'`);
    },

    async 'files and texts are dropped'(user, page, checks) {
        const file = (text, name) => `data.items.add(new File([${quoted(text)}], ${quoted(name)}, {type: 'text/plain'}))`;
        checks.check('a file may be dropped', await dropped(page, 'dragover', file(fixed, 'bound.txt')));
        checks.check('and the page says so', await page.value(`document.body.classList.contains('dropping')`));
        await dropped(page, 'drop', file(fixed, 'my bound.txt'));
        await user.says('accepted: not solvable in any number of rounds');
        checks.equal('its name', await page.value('document.title'), 'my bound – re workbench');
        checks.check('the sign is gone', await page.value(`!document.body.classList.contains('dropping')`));
        await dropped(page, 'drop', `data.setData('text/plain', 'A B^2\\n\\nA [AB]\\n')`);
        await page.until(`document.title.startsWith('A B^2')`);
        await dropped(page, 'drop', file('hello, world', 'hello.txt'));
        checks.equal('a foreign file', await page.until(`document.querySelector('dialog .state .faulty')?.textContent`),
            answer(['read'], 'hello, world').trim());
        await page.key('Escape');
    },

    async 'the report beside the cards'(user, page, checks) {
        await user.openProblem(...MIS);
        await user.step(2);
        await user.says('accepted: not solvable in 1 or fewer rounds');
        await user.watchCopies();
        await page.click('#report');
        await page.until(`document.querySelector('#report-box h3')?.textContent === 'Report on a certificate'`);
        const report = natively('explore', ['describe'], await user.certificate()).text;
        await page.click('#report-box button', 'Copy Markdown');
        checks.equal('the Markdown is that of describe', await user.copied(), report);
        await page.until(`[...document.querySelectorAll('#report-box button')].some(b => b.textContent === 'Copy LaTeX' && !b.disabled)`);
        await page.click('#report-box button', 'Copy LaTeX');
        checks.equal('the LaTeX is that of describe latex', await user.copied(),
            natively('explore', ['describe', 'latex'], await user.certificate()).text);
        const words = text => text.replace(/[#`*\s-]/g, '');
        checks.equal(
            'all of it is shown', words(await page.value(`document.querySelector('.paper').textContent`)), words(withoutFormulas(report)));
        checks.check('cards and report stand side by side',
            await page.value(
                `document.querySelector('.card.last').getBoundingClientRect().right <= document.querySelector('#report-box').getBoundingClientRect().left`));
        await user.step(3);
        await page.until(`document.querySelector('.paper pre')?.textContent === 'accepted: not solvable in 2 or fewer rounds'`);
        await page.click('#report-box .close');
        checks.check('closed', await page.value(`document.querySelector('#report-box').hidden && document.activeElement.id === 'report'`));
    },

    async 'what is given, in the report and on paper'(user, page, checks) {
        if (!explored.has('given')) return;
        // Of a program that reports on the bound alone.
        await page.value(`bench.words.delete('describe given')`);
        await user.openProblem(...MIS);
        await user.step(2);
        await page.choose('#given-kind', 'a colouring');
        const line = await page.until(`document.querySelector('#given-line .line')?.textContent`),
              input = await page.value('bench.cards.path()[0].given.problem');
        await user.watchCopies();
        await page.click('#report');
        await page.until(`document.querySelector('.paper')?.textContent.includes('What is given')`);
        const shown = `[...document.querySelectorAll('.paper pre')].map(node => node.textContent.trim())`;
        checks.check('the line', await page.until(`${shown}.includes(${JSON.stringify(line)})`));
        checks.equal('the problem', (await page.value(shown)).filter(text => text === input.trim()).length, 1);
        checks.check('its name', (await page.value(`document.querySelector('.paper').textContent`)).includes('a colouring, 4 colours'));
        await page.click('#report-box button', 'Copy Markdown');
        const text = await user.copied();
        checks.check('in the Markdown',
            text.startsWith(natively('explore', ['describe'], await user.certificate()).text) && text.includes(`    ${line}\n`));
        await page.click('#report-box button', 'Copy LaTeX');
        checks.check('in the LaTeX', (await user.copied()).includes(line));
        await page.ask('Emulation.setEmulatedMedia', {media: 'print'});
        checks.check('on paper',
            await page.value(
                `['#given-kind', '#given input', '#given-line .line'].every(selector => document.querySelector(selector).getClientRects().length)`));
        await page.ask('Emulation.setEmulatedMedia', {media: ''});
        // A line that comes behind the report is put into it.
        await hold(page, ['given']);
        await page.choose('#given-kind', 'an orientation');
        await isHeld(page);
        await page.until(`document.querySelector('.paper pre') && document.querySelector('.paper').textContent.includes('an orientation')`);
        checks.check('not there yet', !(await page.value(`document.querySelector('.paper').textContent`)).includes('given that input'));
        await letGo(page);
        const late = await page.until(`document.querySelector('#given-line .line')?.textContent`);
        checks.check(`a late line: ${late}`, (await page.value(shown)).includes(late));
        await page.choose('#given-kind', 'nothing');
        await page.until(`!document.querySelector('.paper').textContent.includes('What is given')`);
    },

    async 'a report that has what is given'(user, page, checks) {
        if (!explored.has('given')) return;
        const report = '# Report on a bound\n\n    accepted: given that input, not solvable in 1 or fewer rounds\n';
        await teach(page, {describe: [0, report], 'describe latex': [0, 'LaTeX\n']}, ['describe given']);
        await user.openProblem(...MIS);
        await user.step(2);
        await page.choose('#given-kind', 'a colouring');
        await page.until(`document.querySelector('#given-line .line')`);
        await user.watchCopies();
        await page.click('#report');
        await page.until(`document.querySelector('.paper h3')`);
        const whole = await page.value('bench.given.said.text');
        checks.equal('what was sent: the bound, and what is given',
            await page.value(`sent.findLast(([words]) => words.startsWith('describe'))[1]`), whole);
        checks.check(
            'which is what was judged', whole.includes('== given') && natively('explore', ['given'], whole).text.startsWith('accepted'));
        await page.click('#report-box button', 'Copy Markdown');
        checks.equal('nothing is added', await user.copied(), report);
        await page.click('#report-box button', 'Copy LaTeX');
        checks.equal('nor here', await user.copied(), 'LaTeX\n');
        await page.click('#report-box .close');
        // Where the program refuses it, the report is of the bound alone, and what is given stands behind.
        await page.go();
        await page.value(`bench.words.add('describe given')`);
        const refuse =
            `(() => { const start = engine.start.bind(engine); engine.start = (program, words, input, options) => words[0] === 'describe' && input.includes('== given') ?
            {title: 'describe', started: 0, isOver: true, stop() {}, answer: Promise.resolve({status: 1, text: 'refused: given that input, clause END'})} : start(program, words, input, options); })()`;
        await page.value(refuse);
        await user.openProblem(...MIS);
        await user.step(2);
        await page.choose('#given-kind', 'the two sides');
        await page.until(`document.querySelector('#given-line .line')?.textContent.startsWith('refused')`);
        await page.click('#report');
        await page.until(`document.querySelector('.paper')?.textContent.includes('What is given')`);
        checks.check(
            'the report of the bound', (await page.value(`document.querySelector('.paper').textContent`)).includes(await user.verdict()));
        await page.click('#report-box .close');
    },

    async 'the chain on paper'(user, page, checks) {
        await user.openText(example('gallery/three-colouring-2-lower.txt'));
        const count = await page.until(`bench.cards.path().length > 2 && bench.cards.path().length`);
        await user.says(answer(['check'], example('gallery/three-colouring-2-lower.txt')).trim());
        await page.value(
            `window.print = () => { window.printed = [...document.querySelectorAll('.card')].map(card => card.querySelectorAll('svg.diagram, .classes').length); }`);
        await page.key('p', {modifiers: 2});
        const printed = await page.until('window.printed');
        checks.equal('all diagrams are drawn first', printed, Array(count).fill(2));
        await page.ask('Emulation.setEmulatedMedia', {media: 'print'});
        const seen = selector =>
            page.value(`[...document.querySelectorAll(${quoted(selector)})].filter(node => node.getClientRects().length).length`);
        for (const selector of ['.bar', 'aside', '.actions', '#certificate', '.toggle'])
            checks.equal(`not on paper: ${selector}`, await seen(selector), 0);
        checks.check('the claim comes first',
            await page.value(
                `document.querySelector('#verdict-line').getBoundingClientRect().bottom < document.querySelector('.card').getBoundingClientRect().top`));
        checks.check('one column',
            await page.value(
                `new Set([...document.querySelectorAll('.card')].map(card => Math.round(card.getBoundingClientRect().left))).size === 1`));
        await page.ask('Emulation.setEmulatedMedia', {media: ''});
        await page.until(cardsAre(count));
    },
};
