// Bounds made with clicks: chains, fixed points, upper bounds and refusals, each with its line.
import {isGraphText} from '../../src/texts/graphs.js';
import {answer, example, namesIn, natively, whyOf} from '../place.mjs';
import {cardsAre, drawn, MIS} from '../user.mjs';

const quoted = value => JSON.stringify(value);

export const boundsSessions = {
    async 'maximal independent sets, five steps, the verdict'(user, page, checks, picture) {
        await user.openProblem(...MIS);
        await user.says('accepted: not solvable in 0 or fewer rounds');
        await user.step(2);
        await user.says('accepted: not solvable in 1 or fewer rounds');
        checks.check('meanings', (await page.value(`document.querySelector('.card.last .meanings').textContent`)).includes('D[OP]'));
        await user.step(3);
        await user.says('accepted: not solvable in 2 or fewer rounds');
        checks.equal('arrows of the diagram',
            await page.value(`document.querySelectorAll('.card.last figure[data-side=passive] .edge').length`),
            answer(['diagram', 'passive'], await user.problem()).split('\n').filter(line => line.startsWith('edge')).length);
        await page.hover('.card.last .lines .label', 'E');
        checks.check('a tip unrolls the label',
            (await page.until(`!document.querySelector('#tip').hidden && document.querySelector('#tip').textContent`))
                .includes('[[M] [MO] [OP]]'));
        await page.click('.card.last .meanings button', 'unrolled');
        checks.check('unrolled to the first problem',
            (await page.value(`document.querySelector('.card.last .meanings').textContent`)).includes('E[[M] [MO] [OP]]'));
        await page.click('.card.last .meanings button', 'one step back');
        await user.act('Universal rows');
        checks.equal('universal rows', (await page.until(`document.querySelector('.card.last .note pre')?.textContent`)).trim(),
            answer(['universal'], await user.problem()).trim());
        await page.click('.card.last .note .close');
        await page.value(`document.querySelector('.card.last').scrollIntoView()`);
        await picture('card', '.card.last');
        for (const k of [3, 4, 5]) {
            await user.step(k + 1);
            await user.says(`accepted: not solvable in ${k} or fewer rounds`);
        }
    },

    async 'merges of labels to a bound'(user, page, checks, picture) {
        await user.openExample('no sinks no sources');
        for (const n of [2, 3]) await user.step(n);
        await user.act('Try merges');
        await page.until(`document.querySelector('dialog .state').textContent.includes('tried')`);
        await page.click('dialog .tried button');
        await page.until(`${cardsAre(4)} && ${drawn}`);
        await user.says('accepted: not solvable in 2 or fewer rounds');
        for (const n of [5, 6]) await user.step(n);
        await page.click('#offers button', 'close as a fixed point');
        await user.says('accepted: not solvable in any number of rounds');
        checks.check(
            'it goes back', (await page.value(`document.querySelector('.card.last .back').textContent`)).includes('Back to problem'));
        await page.click('#close-all');
        await page.click('.card.last .toggle');
        await page.value('scrollTo(0, 0)');
        await picture('chain');
    },

    async 'sinkless orientation, closed as a fixed point by hand'(user, page, checks) {
        await user.openProblem('O [IO]^2', 'I O');
        for (const n of [2, 3, 4]) {
            await user.step(n);
            await user.says(`accepted: not solvable in ${n - 1} or fewer rounds`);
        }
        await page.click('#offers button', 'Problem 3 is problem 1 under other names: close as a fixed point');
        await user.says('accepted: not solvable in any number of rounds');
        checks.check('a fixed point', (await user.certificate()).startsWith('== certificate 1 fixed 1'));
        await page.click('#offers button', 'Open the fixed point again');
        await user.says('accepted: not solvable in 3 or fewer rounds');
    },

    async 'a refused certificate is explained'(user, page, checks) {
        // The line on the card that fails is that of the native `explore why`, of the text that the page gives.
        const explained = async (text, line) => {
            const roots = await page.value('bench.cards.roots().length');
            await user.openText(text);
            const shown = await page.until(
                `bench.cards.roots().length > ${roots} && document.querySelector('.card.failing .fault div div')?.textContent`);
            await user.says(line);
            checks.equal(`why ${line}`, shown, whyOf(await user.certificate()));
            return shown;
        };
        checks.equal('the row that lacks', await explained(example('first/colouring-refused.txt'), 'refused: step 1, clause L2'),
            'maximal row that is missing: [12] [3]');
        checks.check('the clause in words',
            (await page.value(`document.querySelector('.card.failing .fault').textContent`))
                .includes('the rows are the maximal rows of the passive constraint before, in order'));
        checks.check('why END',
            (await explained(example('first/trivial-lower.txt'), 'refused: clause END'))
                .startsWith('solvable without communication: every node outputs '));
        const good = example('first/sinkless-fixed.txt'), lines = good.split('\n');
        const damaged = lines.map((_, at) => lines.filter((line, i) => i !== at).join('\n'))
                            .map(text => [text, answer(['check'], text).trim()])
                            .filter(([, line]) => line.startsWith('refused'));
        for (const [text, line] of damaged) await explained(text, line);
        checks.check(`refusals: ${damaged.length}`, new Set(damaged.map(([, line]) => line)).size > 3);
        const upper = example('gallery/orientation-3-upper.txt');
        await user.openText(upper.replace(/(== map\n.*\[)(.)(\])/, '$1$2$2$3').replace(/\n\n/, '\n[IO]^2\n\n'));
        await page.until(`document.querySelector('#verdict-line, dialog .state .faulty')`);
    },

    async 'an upper bound at work'(user, page, checks, picture) {
        await user.openExample('maximal matching 2');
        await user.search('upper', 4, 0);
        const line = await page.until(
            `document.querySelector('#verdict-line')?.textContent.startsWith('accepted: solvable in ') && document.querySelector('#verdict-line').textContent`);
        await user.says(await user.verdict());
        await page.click('#algorithm');
        await page.until(`document.querySelector('dialog svg.run')`);
        const state = await page.until(`document.querySelector('dialog .state code, dialog .state .code')?.textContent`);
        const first = await page.value('bench.cards.path()[0].problem'),
              around = answer(['read'], `${first.split('\n\n')[0]}\n\n${state}\n`).split('\n\n')[1].trim();
        checks.check(`around the passive node: ${state} ${line}`, first.split('\n\n')[1].split('\n').includes(around));
        await user.watchCopies();
        await page.click('dialog button', 'Copy the input of re run');
        checks.equal('nodes of the native run',
            answer(['run'], await user.copied()).split('\n').filter(row => row.startsWith('node')).length > 3, true);
        await page.click('dialog button', 'Other port numbers');
        await page.click('dialog button', 'Extract the table');
        checks.check('the table',
            answer(['extract'], await user.certificate())
                .startsWith((await page.until(`document.querySelector('dialog pre')?.textContent`)).slice(0, 200)));
        await page.click('dialog button.close');
        // By hand, with steps and a label left out.
        await user.openProblem('M O\nP^2', 'M [OP]\nO^2');
        for (const n of [2, 3, 4]) await user.step(n);
        await user.says('accepted: solvable in 3 rounds');
        const zero = answer(['zero'], await user.problem()),
              spare = (await page.value(`bench.facts.of(bench.cards.path().at(-1).problem).problem.labels`))
                          .find(label => !zero.includes(label));
        await user.select(spare);
        await user.actOnSelected('Leave out');
        await page.until(cardsAre(5));
        await user.says('accepted: solvable in 3 rounds');
        // One of the gallery.
        await page.choose('#gallery', 'proposals 3 upper');
        await page.until(`bench.cards.path()[0].title === 'proposals 3 upper'`);
        await user.says(answer(['check'], example('gallery/proposals-3-upper.txt')).trim());
        await page.click('#algorithm');
        await page.until(`document.querySelector('dialog svg.run')`);
        await picture('algorithm', 'dialog');
    },

    async 'all certificates and graphs of the gallery'(user, page, checks) {
        for (const file of namesIn('gallery')) {
            const name = file.replace('.txt', '').replaceAll('-', ' '), text = example(`gallery/${file}`),
                  line = answer(['check'], text).trim();
            await page.choose('#gallery', name);
            await page.until(`bench.cards.path()[0]?.title === ${quoted(name)}`);
            if (isGraphText(text)) {
                checks.equal(name,
                    await page.until(
                        `document.querySelector('dialog svg.graph') && document.querySelector('dialog p[role=status] .line').textContent`),
                    natively('explore', ['solve'], text).text.split('\n', 1)[0]);
                checks.equal(`${name}: its problem`, await user.problem(), answer(['read'], text.split('== graph')[0]));
                checks.equal(`${name}: its lines`, await page.value(`document.querySelector('dialog textarea').value`),
                    text.split('== graph\n')[1].trim());
                await page.click('dialog button.close');
                continue;
            }
            await user.says(line);
            checks.equal(`${name}: the same text comes back`, await user.certificate(), text);
        }
    },
};
