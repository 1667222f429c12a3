// Answers that come late: what is shown of another chain, or another text, is never said of the one that is shown now.
import {mapInput} from '../../src/texts/certificates.js';
import {wait} from '../browser.mjs';
import {answer, example, natively} from '../place.mjs';
import {explored, hold, isHeld, letGo} from '../teaching.mjs';
import {cardsAre, drawn, MIS} from '../user.mjs';

const verdict = `document.querySelector('#verdict').textContent`, line = `document.querySelector('#verdict-line')?.textContent`;

export const lateSessions = {
    async 'a late verdict'(user, page, checks) {
        await user.openProblem(...MIS);
        await user.step(2);
        await user.says('accepted: not solvable in 1 or fewer rounds');
        await hold(page, ['check']);
        await user.step(3);
        await isHeld(page);
        await page.click('#undo');
        await page.until(line);
        await letGo(page);
        checks.equal('the line of the chain of one step', await page.value(line), 'accepted: not solvable in 1 or fewer rounds');
        await user.agrees('accepted: not solvable in 1 or fewer rounds');
    },

    async 'a late sentence on rounds of the graph'(user, page, checks) {
        if (!explored.has('describe')) return;
        await user.openProblem(...MIS);
        for (const n of [2, 3]) await user.step(n);
        const said = `document.querySelector('#rounds-of-graph')`;
        await page.until(said);
        await hold(page, ['describe']);
        await user.step(4);
        await page.until(`${line}?.includes('in 3 or')`);
        await isHeld(page);
        await page.click('#undo');
        await page.until(said);
        await letGo(page);
        checks.equal('of the chain that is shown',
            await page.value(`[...document.querySelectorAll('#rounds-of-graph')].map(node => node.textContent)`),
            [` · Problem 0 isn't solvable in 1 or fewer rounds of the graph.`]);
    },

    async 'a late relation of a changed first problem'(user, page, checks) {
        await user.openProblem('O [IO]^2', 'I O');
        await user.select('O', 'I');
        await user.actOnSelected('passive: O → I');
        await page.until(`${verdict}.includes('is a relaxation of problem 0, so this is a bound of problem 0 too.')`);
        await page.click('#undo');
        await page.until(cardsAre(1));
        await page.value(`engine.answers.clear()`);
        await hold(page, ['relax']);
        await page.click('#redo');
        await page.until(cardsAre(2));
        await isHeld(page);
        await page.click('#undo');
        await page.until(`${cardsAre(1)} && ${line}`);
        await letGo(page);
        checks.check('none where nothing was changed', !(await page.value(verdict)).includes('relaxation'));
    },

    async 'a late reason of a refusal'(user, page, checks) {
        if (!explored.has('why')) return;
        await hold(page, ['why']);
        await user.openText(example('first/colouring-refused.txt'));
        await page.until(`${line}?.startsWith('refused')`);
        await isHeld(page);
        await page.click('#undo');
        await user.openText(example('first/trivial-lower.txt'));
        await page.until(`document.querySelector('.card.failing .fault')?.textContent.includes('solvable without communication')`);
        await letGo(page);
        checks.check('the reason of the chain that is shown',
            (await page.value(`document.querySelector('.card.failing .fault').textContent`)).includes('solvable without communication'));
        checks.equal('one card fails', await page.value(`document.querySelectorAll('.card.failing').length`), 1);
    },

    async 'a late line of what is given'(user, page, checks) {
        if (!explored.has('given')) return;
        await user.openProblem(...MIS);
        await user.step(2);
        await page.choose('#given-kind', 'a colouring');
        const said = `document.querySelector('#given-line').textContent`;
        await page.until(`${said}.includes('in 1 or fewer')`);
        // While the next chain is checked nothing is said of it.
        await hold(page, ['check']);
        await user.act('Step');
        await page.until(cardsAre(3));
        await isHeld(page);
        checks.equal('nothing of the chain before', await page.value(said), 'asking…');
        await letGo(page);
        await page.until(`${said}.includes('in 2 or fewer')`);
        await page.click('#undo');
        await page.until(`${said}.includes('in 1 or fewer')`);
        await hold(page, ['given']);
        await user.step(3);
        await page.until(`${line}?.includes('in 2 or fewer')`);
        await isHeld(page);
        await page.click('#undo');
        await page.until(`${said}.includes('in 1 or fewer')`);
        await letGo(page);
        const wanted = natively(
            'explore', ['given'], `${await user.certificate()}== given\n${await page.value('bench.cards.path()[0].given.problem')}`)
                           .text.split('\n', 1)[0];
        checks.check(`of the chain that is shown: ${await page.value(said)}`, (await page.value(said)).startsWith(wanted));
        // Also where the chain that is shown isn't checked yet.
        await hold(page, ['given']);
        await page.click('#redo');
        await page.until(`${line}?.includes('in 2 or fewer')`);
        await isHeld(page);
        await hold(page, ['check']);
        await page.click('#undo');
        await isHeld(page, 2);
        await letGo(page, 1);
        checks.equal('nothing of the other one', await page.value(said), 'asking…');
        await letGo(page);
        await page.until(`${said}.includes('in 1 or fewer')`);
        // A kind that is chosen while another one is asked for.
        if (!explored.has('input')) return;
        await hold(page, ['input sides 3 2 0']);
        await page.choose('#given-kind', 'the two sides');
        await isHeld(page);
        await page.choose('#given-kind', 'an orientation');
        await page.until(`bench.cards.path()[0].given.kind === 'orientation'`);
        await letGo(page);
        checks.equal('the kind that was chosen last',
            await page.value(`[document.querySelector('#given-kind').value, bench.cards.path()[0].given.kind]`),
            ['orientation', 'orientation']);
    },

    async 'late badges and diagrams of a card'(user, page, checks) {
        await user.openProblem('1^3\n2^3\n3^3', '1 2\n1 3\n2 3');
        if (explored.has('fit') && explored.has('input')) {
            // In 0 rounds it is solvable with the sides, and not with four colours.
            const badges = `[...document.querySelectorAll('.card .badge')].filter(badge => !badge.hidden).map(badge => badge.textContent)`;
            await hold(page, ['fit']);
            await page.choose('#given-kind', 'a colouring');
            await isHeld(page);
            await page.choose('#given-kind', 'the two sides');
            await page.until(`${badges}.includes('0 rounds given: yes')`);
            await letGo(page);
            checks.check(
                `that of what is given now: ${await page.value(badges)}`, (await page.value(badges)).includes('0 rounds given: yes'));
            await page.choose('#given-kind', 'nothing');
        }
        await user.openProblem(...MIS);
        await hold(page, ['zero', 'diagram passive']);
        await user.act('Step');
        await page.until(cardsAre(2));
        await isHeld(page, 2);
        await page.click('#undo');
        await page.until(cardsAre(1));
        await user.openProblem('1^3\n2^3', '[12]^2');
        await letGo(page);
        checks.check('0 rounds of the card that is shown',
            (await page.until(
                 `!document.querySelector('.card.last .badge.waiting:not([hidden])') && document.querySelector('.card.last .badges').textContent`))
                .includes('0 rounds: yes'));
        const classes = ['active', 'passive'].flatMap(side => answer(['diagram', side], '1^3\n2^3\n\n[12]^2\n').match(/^class/gm)).length;
        checks.equal('its diagrams', await page.value(`document.querySelectorAll('.card.last svg.diagram .node').length`), classes);
    },

    async 'a late offer to close the chain'(user, page, checks) {
        await user.openProblem('O [IO]^2', 'I O');
        for (const n of [2, 3]) await user.step(n);
        await page.until(`document.querySelector('#offers button') || ${verdict}.includes('in 2 or')`);
        await page.value('engine.answers.clear()');
        await hold(page, ['rename']);
        await user.step(4);
        await page.until(`${line}?.includes('in 3 or')`);
        await isHeld(page);
        await user.openProblem(...MIS);
        await letGo(page);
        checks.equal('none on a chain of one card', await page.value(`document.querySelectorAll('#offers button').length`), 0);
        // A relaxation that leads back.
        const offers = `[...document.querySelectorAll('#offers button')].map(node => node.textContent)`;
        await user.openProblem('A [AB]', 'B [AB]');
        await hold(page, ['relax']);
        await user.step(2);
        await isHeld(page);
        await page.click('#undo');
        await page.until(`${cardsAre(1)} && ${line}`);
        await letGo(page);
        checks.equal('nor a relaxation', await page.value(offers), []);
        await page.click('#redo');
        await page.until(cardsAre(2));
        checks.equal('where it leads back', await page.until(`${offers}.length && ${offers}`), ['Relax problem 1 to problem 0: A→A B→B']);
        await page.click('#offers button', 'Relax');
        await page.until(cardsAre(3));
        checks.equal('it is the problem before', await user.problem(), await page.value('bench.cards.path()[0].problem'));
        await page.click('#offers button', 'close as a fixed point');
        await user.says('accepted: not solvable in any number of rounds');
    },

    async 'a check that is stopped by the next one'(user, page, checks) {
        await user.openProblem(...MIS);
        await user.says('accepted: not solvable in 0 or fewer rounds');
        // The next check takes for ever, and the one behind it comes when the test says so.
        await page.value(
            `(() => { const start = engine.start.bind(engine); let count = 0; engine.start = (program, words, input, options) => words[0] === 'check' && ++count === 1 ? start('re', ['lower', '9', '3'], ${
                JSON.stringify(answer(['read'], MIS.join('\n\n')))}, options) : start(program, words, input, options); })()`);
        await user.act('Step');
        await page.until(`${cardsAre(2)} && [...engine.running].some(({request}) => request.words?.[0] === 'lower')`);
        await hold(page, ['check']);
        await user.act('Step');
        await page.until(cardsAre(3));
        await isHeld(page);
        checks.equal('it says nothing yet, and can be stopped', await page.value(verdict), 'checking… Stop');
        await letGo(page);
        await user.says('accepted: not solvable in 2 or fewer rounds');
    },

    async 'late rows of a step'(user, page, checks) {
        await user.openProblem('M O\nP^2', 'M [OP]\nO^2');
        for (const n of [2, 3]) await user.step(n);
        await user.verdict();
        const parts =
            `[...document.querySelectorAll('.card:nth-child(2) .written .parts h4')].map(node => node.textContent.split(' ').slice(1).join(' '))`;
        await page.value(
            `document.querySelectorAll('.card')[1].querySelector('.toggle').getAttribute('aria-expanded') === 'true' || document.querySelectorAll('.card')[1].querySelector('.toggle').click()`);
        await hold(page, ['work stepLines']);
        await page.click('.card:nth-child(2) .written summary', 'The step');
        await isHeld(page);
        // A restriction behind it: the certificate is of kind upper, which has no rows.
        await user.select((await page.value(`bench.facts.of(bench.cards.path().at(-1).problem).problem.labels`))[0]);
        await user.actOnSelected('Leave out');
        await page.until(`${cardsAre(4)} && bench.claim.verdict?.kind === 'upper' && ${parts}.join() === 'lines of the map'`);
        await letGo(page);
        checks.equal('those of the certificate that is shown', await page.value(parts), ['lines of the map']);
    },

    async 'a late session'(user, page, checks) {
        // In the address, and as the browser keeps it.
        const cardsIn = {
            packSession: async () => JSON.parse(await page.value(`engine.work('unpackSession', location.hash.slice(3))`)).cards,
            packKept: async () =>
                JSON.parse(await page.value(`engine.work('unpackSession', sessionStorage.getItem('re-workbench'))`)).history.now[1]
        };
        for (const [work, cards] of Object.entries(cardsIn)) {
            await page.go();
            await user.openProblem(...MIS);
            await user.step(2);
            await page.until(`!bench.keeper.timer && location.hash.length > 20`);
            await hold(page, [`work ${work}`]);
            await page.click('#undo');
            await isHeld(page);
            await page.click('#redo');
            await page.until(`!bench.keeper.timer && sessionStorage.getItem('re-workbench') && location.hash.length > 20`);
            await wait(700);
            checks.equal(`${work}: the cards that are shown`, (await cards()).length, 2);
            await letGo(page);
            checks.equal(`${work}: still`, (await cards()).length, 2);
        }
    },

    async 'a late fault of a diagram'(user, page, checks) {
        if (!explored.has('closure')) return;
        await user.openProblem('A^3\nB^2 C', 'A C\nB^2');
        await hold(page, ['closure']);
        await page.click('.card.last .menu summary');
        await page.click('.card.last .menu button', 'Closure with a diagram…');
        await page.fill('dialog textarea', 'A C\n\nA D');
        await page.click('dialog button', 'Find');
        // Faults come at once, as a rule: a window that waits is closed.
        await page.until(`!document.querySelector('dialog')`);
        await isHeld(page);
        await letGo(page);
        checks.check('the window is there again, with the fault',
            (await page.until(`document.querySelector('dialog .state .faulty')?.textContent`)).startsWith('line 3: '));
        checks.equal('and with what was written', await page.value(`document.querySelector('dialog textarea').value`), 'A C\n\nA D');
        checks.equal('at its line', await page.value(`document.querySelector('dialog .area').style.getPropertyValue('--fault')`), '3');
        await page.key('Escape');
    },

    async 'late merges'(user, page, checks) {
        await user.openProblem(...MIS);
        await page.value('engine.answers.clear()');
        await hold(page, ['zero'], 2);
        await user.act('Try merges');
        await isHeld(page);
        await page.click('dialog button', 'Try all');
        await isHeld(page, 2);
        await letGo(page, 1);
        checks.check(
            'what runs now is shown', /^1 of 3 Stop$/.test(await page.value(`document.querySelector('dialog .state').textContent`)));
        await letGo(page);
        await page.until(`document.querySelector('dialog .state').textContent.startsWith('3 merges tried: ')`);
        await page.key('Escape');
    },

    async 'a late report'(user, page, checks) {
        if (!explored.has('describe')) return;
        await user.openProblem(...MIS);
        await user.step(2);
        await page.click('#report');
        await page.until(`document.querySelector('.paper pre')`);
        await page.value('engine.answers.clear()');
        // Asked by the report, and by the line at the bottom.
        await hold(page, ['describe'], 2);
        await user.step(3);
        await page.until(`${line}?.includes('in 2 or')`);
        await isHeld(page, 2);
        await page.click('#undo');
        await page.until(`document.querySelector('.paper pre')?.textContent.includes('in 1 or')`);
        await letGo(page);
        checks.equal(
            'that of the chain that is shown', await page.value(`document.querySelector('.paper pre').textContent`), await user.verdict());
        checks.equal('which has one step', await user.verdict(), 'accepted: not solvable in 1 or fewer rounds');
    },

    async 'late answers in windows'(user, page, checks) {
        // The algorithm: other port numbers while the first run is on its way.
        await page.choose('#gallery', 'orientation 3 upper');
        await page.until(`!document.querySelector('#algorithm').hidden`);
        await page.click('#algorithm');
        await page.until(`document.querySelector('dialog svg.run')`);
        const ports = `[...document.querySelectorAll('dialog svg.run text.small')].map(node => node.textContent).join('')`,
              first = await page.value(ports);
        await hold(page, ['run']);
        await page.click('dialog button', 'Other port numbers');
        await isHeld(page);
        await page.click('dialog button', 'Other port numbers');
        const second = await page.until(`${ports} !== '${first}' && ${ports}`);
        await letGo(page);
        checks.equal('the ports that are copied are those that are drawn', await page.value(ports), second);
        await page.key('Escape');
        // The edit of a problem: a map that was right for the text before.
        await user.openProblem(...MIS);
        await page.value('engine.answers.clear()');
        await hold(page, ['relax']);
        await user.act('Edit');
        await isHeld(page);
        await page.fill('dialog .editor textarea', 'M^3', 0);
        await page.until(
            `document.querySelector('dialog .map textarea').value && document.querySelector('dialog > .state').textContent.startsWith('re relax: ')`);
        const edited = await page.value(`[...document.querySelectorAll('dialog .editor textarea')].map(area => area.value).join('\\n\\n')`),
              map = (await page.value(`document.querySelector('dialog .map textarea').value`)).split('\n'),
              said =
                  natively('re', ['relax'], mapInput(answer(['read'], MIS.join('\n\n')), answer(['read'], `${edited}\n`), map)).text.trim();
        await letGo(page);
        checks.check(`not yes: ${said}`, said !== 'yes');
        checks.equal('of the text that stands there', await page.value(`document.querySelector('dialog > .state').textContent`),
            `re relax: ${said}`);
        await page.key('Escape');
        // A graph: the answer to the lines that stood there before.
        if (!explored.has('solve')) return;
        const problem = answer(['read'], MIS.join('\n\n')), lines = '1.1 1.2\n2.1 2.2\n1.3 2.3';
        await page.value(`bench.settling.draw(${JSON.stringify(`${problem}== graph\n${lines}\n`)})`);
        await page.until(`document.querySelector('dialog p .line')`);
        await page.value('engine.answers.clear()');
        await hold(page, ['solve']);
        await page.click('dialog button', 'Solve');
        await isHeld(page);
        await page.fill('dialog textarea', '1.1 2.1\n1.2 2.2\n1.3 2.3');
        await page.click('dialog button', 'Solve');
        await page.until(`document.querySelector('dialog p .line')`);
        await letGo(page);
        checks.equal('the line of the lines that stand there', await page.value(`document.querySelector('dialog p .line').textContent`),
            natively('explore', ['solve'], `${problem}== graph\n1.1 2.1\n1.2 2.2\n1.3 2.3\n`).text.split('\n', 1)[0]);
    },

    async 'a late reading of the editor'(user, page, checks) {
        const state = `document.querySelector('#editor .state').textContent`;
        // Good texts, then one with a fault; and one with a fault, then a good one.
        for (const [before, now, says] of [['A^3', 'A^3\nB', 'wrong degree'], ['A^3 [', 'A^3', 'Read: ']]) {
            await page.fill('#editor textarea', '', 0);
            await page.fill('#editor textarea', 'A^2', 1);
            await page.until(`${state}.includes('input: ')`);
            await hold(page, ['read']);
            await page.fill('#editor textarea', before, 0);
            await isHeld(page);
            await page.fill('#editor textarea', now, 0);
            await page.until(`${state}.includes('${says}')`);
            await letGo(page);
            checks.check(`that of the text that stands there: ${await page.value(state)}`, (await page.value(state)).includes(says));
            checks.equal(
                'a card of it', await page.value(`[...document.querySelectorAll('#editor button')].at(-1).disabled`), says !== 'Read: ');
        }
    },
};
