// What the page says, in words: refusals, searches, jobs, addresses; identifiers and the model of a claim.
import {answer, example, natively} from '../place.mjs';
import {explored, teach} from '../teaching.mjs';
import {wait} from '../browser.mjs';
import {cardsAre, drawn, MIS} from '../user.mjs';

const quoted = value => JSON.stringify(value);
const verdict = `document.querySelector('#verdict').textContent`;

export const wordsSessions = {
    async 'a refusal at END says what is wrong'(user, page, checks) {
        await user.openText(example('first/trivial-lower.txt'));
        await user.says('refused: clause END');
        const wrong = 'END: the last problem is solvable in 0 rounds, so this is no lower bound';
        checks.check('below', (await page.value(verdict)).includes(wrong));
        checks.check('on the card', (await page.until(`document.querySelector('.card.failing .fault').textContent`)).includes(wrong));
    },

    async 'searches say what their numbers count, and their command'(user, page, checks) {
        await user.openProblem(...MIS);
        const shown = await page.value(
            `Object.fromEntries([...document.querySelectorAll('.card.last .ask')].map(ask => [ask.dataset.search, [...ask.querySelectorAll('.number-of > :not([hidden])')].map(node => node.textContent).filter(Boolean)]))`);
        checks.equal('lower', shown.lower, ['steps', 'merges']);
        checks.equal('upper', shown.upper, ['steps', 'left out']);
        if (explored.has('longest')) checks.equal('longest', shown.longest, ['steps', 'labels']);
        await page.fill('.card.last .ask[data-search=lower] input', '5');
        checks.check('the command as a title',
            (await page.value(`document.querySelector('.card.last .ask[data-search=lower] button').title`)).startsWith('re lower 5 0\n'));
        await user.search('upper', 2, 0);
        const line = answer(['upper', '2', '0'], await user.problem()).trim(),
              [, nodes, cut] = /^not found: (?:searched )?nodes (\d+), cut (\d+)$/.exec(line);
        const note = await user.note();
        checks.check(`${line}: ${note}`,
            note.includes(`not found: ${nodes} problem`) && note.includes('looked at') && !note.includes('nodes') && cut === '0' &&
                note.includes('none of them cut'));
        if (!explored.has('cover')) return;
        await user.search('cover', 1);
        checks.check('graphs',
            /not found: [\d,]+ graphs? tried/.test(await page.until(
                `document.querySelector('.card.last .note').textContent.startsWith('cover') && document.querySelector('.card.last .note').textContent`)));
    },

    async 'jobs are named by what they do'(user, page, checks) {
        await user.openProblem(...MIS);
        await page.value(
            `(() => { const enqueue = engine.enqueue.bind(engine); engine.enqueue = job => { const made = enqueue(job); if (/zero|diagram|read/.test(job.title)) { clearTimeout(made.timer); engine.tasks.add({title: job.title, started: performance.now() - 1000, isOver: false, stop() {}}); } return made; }; })()`);
        await user.act('Step');
        await page.until(cardsAre(2));
        await page.until(`document.querySelectorAll('#jobs .job').length > 2`);
        const names = await page.value(`[...document.querySelectorAll('#jobs .name')].map(node => node.textContent)`);
        checks.check(`${names}`,
            names.every(name => name.includes(' ')) && names.includes('asking for 0 rounds') && names.includes('asking for a diagram'));
    },

    async 'a damaged address says so'(user, page, checks) {
        await user.openProblem(...MIS);
        await page.until('location.hash.length > 30');
        const whole = await page.value('location.href');
        await page.open(whole.slice(0, -9));
        checks.check('a part of it lacks',
            (await page.until(`!document.querySelector('#unread').hidden && document.querySelector('#unread').textContent`))
                .startsWith(`The session in the address can't be read: it is damaged: a part of it lacks, or was changed.`));
    },

    async 'no step to an edited problem'(user, page, checks) {
        if (!explored.has('bridge')) return;
        await user.openProblem(...MIS);
        await user.step(2);
        await user.act('Edit');
        await page.until(`document.querySelector('dialog .editor .state .good')`);
        await page.fill('dialog .editor textarea', 'A D', 0);
        await page.fill('dialog .editor textarea', 'A^3\nD^3', 1);
        await page.until(`document.querySelector('dialog .editor .state').textContent.includes('1 active and 2')`);
        await page.click('dialog button', 'Find a step');
        checks.equal('a sentence',
            await page.until(
                `[...document.querySelectorAll('dialog .state .faulty')].map(node => node.textContent).find(text => text.includes('bridge'))`),
            'There is no step to this problem: explore bridge says no.');
    },

    async 'one round, and the line as it was printed'(user, page, checks) {
        await user.openExample('orientation');
        await user.search('upper', 1, 0);
        await user.says('accepted: solvable in 1 rounds');
        checks.equal('the last letter is there to be copied, and not seen',
            await page.value(
                `[document.querySelector('#verdict-line .caret').textContent, document.querySelector('#verdict-line .caret').getBoundingClientRect().width]`),
            ['s', 0]);
        await page.click('#algorithm');
        await page.until(`document.querySelector('dialog svg.run')`);
        const seen = `document.querySelector('dialog').innerText`;
        checks.check(`the algorithm: ${await page.value(seen)}`,
            (await page.value(seen)).includes('After 1 round the') &&
                await page.value(`Boolean(document.querySelector('dialog .line .caret'))`));
        await page.key('Escape');
        if (!explored.has('describe')) return;
        const letters =
            `['#rounds-of-graph', '.paper'].map(name => document.querySelector(name)).map(node => [node.textContent.split('1 rounds').length - 1, node.querySelectorAll('.caret').length])`;
        await page.click('#report');
        await page.until(`document.querySelector('.paper h3') && document.querySelector('#rounds-of-graph')`);
        // Sentences of the report say `1 round` by themselves; the line of `check` in it is as it was printed.
        const [graph, paper] = await page.value(letters);
        checks.equal('the sentence on the graph', graph, [0, 0]);
        checks.check('which says it in words',
            (await page.value(`document.querySelector('#rounds-of-graph').textContent`)).includes('in 1 round of the graph'));
        checks.check(`the report: ${paper}`, paper[0] > 0 && paper[1] === paper[0]);
        await page.click('#report-box .close');
    },

    async 'the model beside each claim'(user, page, checks) {
        await user.openProblem(...MIS);
        await user.step(2);
        await user.says('accepted: not solvable in 1 or fewer rounds');
        await page.until(`document.querySelector('.card .catalogue')`);
        if (explored.has('given')) {
            await page.choose('#given-kind', 'a colouring');
            await page.until(`document.querySelector('#given-line .line')`);
            checks.check('of what is given',
                (await page.value(`document.querySelector('#given-line').textContent`))
                    .endsWith(' with port numbers and that input, by deterministic algorithms on infinite trees'));
        }
        if (explored.has('settle')) {
            await user.act('Settle');
            await page.until(`document.querySelector('.card.last .note .line')`);
        }
        // A bound without a further step.
        await user.search('lower', 0, 0);
        await page.until(
            `[...document.querySelectorAll('.card.last .note strong')].some(node => node.textContent.includes('not solvable'))`);
        // A line that comes as an answer.
        await teach(page, {'longest 1 2': [1, 'not solvable in any number of rounds\n']});
        await user.search('longest', 1, 2);
        await page.until(`document.querySelector('.card.last .note strong').textContent.startsWith('longest 1 2')`);
        await page.click('#certificate');
        // Each text that says so names the model behind it.
        const bare = await page.value(`(() => { const walker = document.createTreeWalker(document.body, NodeFilter.SHOW_TEXT), bare = [];
            for (let node; (node = walker.nextNode());) {
                if (!/not solvable/.test(node.data) || node.parentElement.closest('script, template, textarea, pre, #report-box, .offscreen')) continue;
                const around = node.parentElement.closest('p, td, .note, .catalogue, #verdict, #given-line, .fault')?.textContent || '';
                if (!around.includes('with port numbers')) bare.push(node.parentElement.outerHTML.slice(0, 120));
            } return bare; })()`);
        checks.equal('none is bare', bare, []);
        await page.key('Escape');
    },

    async 'the line on identifiers, whatever it says'(user, page, checks) {
        const lines = {
            'with identifiers: constant, exactly 3': [],
            'with identifiers: constant, more than 1, at most 4': [],
            'with identifiers: constant, at most 4': [],
            'with identifiers: order log* N': ['explore rounds 8 given 4 colours'],
            'with identifiers: at least order log N': [],
            'with identifiers: at least order log* N': [],
            'with identifiers: more than 2': [],
            'a line of another kind': []
        };
        await user.openProblem('1^3\n2^3\n3^3', '1 2\n1 3\n2 3');
        for (const [line, by] of Object.entries(lines)) {
            await teach(page, {
                settle: [
                    0,
                    ['not solvable in any number of rounds', 'by: explore closure', line, ...by.map(text => `by: ${text}`), ''].join('\n')
                ]
            });
            await user.act('Settle');
            const shown = await page.until(`document.querySelector('.card.last .note')?.textContent.includes(${
                quoted(
                    line)}) && [...document.querySelectorAll('.card.last .note:first-child .settled')].map(row => [row.querySelector('.line').textContent, [...row.querySelectorAll('.by button')].map(button => button.textContent)])`);
            checks.equal(line, shown, [['not solvable in any number of rounds', ['explore closure']], [line, by]]);
        }
        checks.check('the model beside the claim',
            (await page.value(`document.querySelector('.card.last .note .settled').textContent`))
                .includes('not solvable in any number of rounds with port numbers alone'));
        checks.check('it is listed',
            (await page.value(`document.querySelector('.card.last .tried').textContent`)).includes('settle, with identifiers'));
        // A command with a colouring that is given: it is asked with that input.
        await teach(page,
            {settle: [0, 'not solvable in any number of rounds\nwith identifiers: order log* N\nby: explore rounds 8 given 4 colours\n']});
        await user.act('Settle');
        await page.until(`document.querySelectorAll('.card.last .note:first-child .by button').length === 1`);
        await page.click('.card.last .note .by button', 'rounds 8 given 4 colours');
        const line = natively('explore', ['rounds', '8'], `${await user.problem()}== given\n${natively('explore', [
            'input', 'colouring', '3', '2', '4'
        ]).text}`).text.trim();
        checks.check(line,
            (await page.until(
                 `document.querySelector('.card.last .note strong').textContent.includes('given 4 colours') && document.querySelector('.card.last .note').textContent`))
                .includes(line));
    },

    async 'an upper bound with a colouring that is given'(user, page, checks) {
        if (!explored.has('given')) return;
        const problem = answer(['read'], 'M O\nP^2\n\nM [OP]\nO^2\n'), chain = answer(['upper', '3', '0'], problem);
        await teach(page, {
            settle: [0, 'exactly 3\nwith identifiers: order log* N\nby: explore shortest 12 8 given 4 colours\n'],
            'shortest 12 8': [0, chain]
        });
        await user.openProblem('M O\nP^2', 'M [OP]\nO^2');
        await user.act('Settle');
        await page.click('.card.last .note .by button', 'shortest 12 8 given 4 colours');
        await page.until('bench.cards.path().length > 1');
        checks.equal('what is given is the colouring',
            await page.until(`bench.cards.path()[0].given && [bench.cards.path()[0].given.kind, bench.cards.path()[0].given.count]`),
            ['colouring', 4]);
        const line = natively(
            'explore', ['given'], `${await user.certificate()}== given\n${await page.value('bench.cards.path()[0].given.problem')}`)
                         .text.split('\n', 1)[0];
        checks.check(`the line of explore given: ${line}`,
            await page.until(`document.querySelector('#given-line').textContent.startsWith(${quoted(line)})`));
        await page.until(drawn);
        await wait(100);
    },

    async 'what is shared opens elsewhere'(user, page, checks) {
        await user.openProblem(...MIS);
        await user.step(2);
        await user.says('accepted: not solvable in 1 or fewer rounds');
        await user.watchCopies();
        await page.click('#share');
        await page.until(`document.querySelector('dialog textarea')?.value.includes('#s=')`);
        checks.check('it says what the other one does',
            /opens workbench\.html and presses Ctrl\+V/.test(await page.value(`document.querySelector('dialog').textContent`)));
        await page.click('dialog button', 'Copy the text');
        const text = await user.copied();
        checks.check('and so does the text',
            /^M\^3: 2 cards .*Open workbench\.html, copy all of this text, and press Ctrl\+V there\.\n#s=[\w-]+\n$/.test(text));
        // Elsewhere: a page that keeps nothing.
        await page.go();
        await page.value(`(() => { const data = new DataTransfer(); data.setData('text/plain', ${
            quoted(
                text)}); document.body.dispatchEvent(new ClipboardEvent('paste', {clipboardData: data, bubbles: true, cancelable: true})); })()`);
        await page.until(cardsAre(2));
        await user.says('accepted: not solvable in 1 or fewer rounds');
        // By a mail program that broke it.
        await user.openText(text.replace(/.{9}\n$/, '\n'));
        checks.check(
            'a damaged one', (await page.until(`document.querySelector('dialog .state .faulty')?.textContent`)).includes('damaged'));
    },
};
