// Small screens and zoom: what is used is in sight, nothing hangs over the side, and what opens comes into view.
import {wait} from '../browser.mjs';
import {example} from '../place.mjs';
import {explored, teach} from '../teaching.mjs';
import {drawn, MIS} from '../user.mjs';

const sized = async (page, width, height) => {
    await page.ask('Emulation.setDeviceMetricsOverride', {width, height, deviceScaleFactor: 1, mobile: false});
    await wait(400);
};
// Whether an element is seen whole, and nothing stands over its middle.
const seen = selector =>
    `(() => { const nodes = [...document.querySelectorAll('${selector}')]; return nodes.length > 0 && nodes.every(node => {
    const box = node.getBoundingClientRect(), top = document.elementFromPoint(box.left + box.width / 2, box.top + box.height / 2);
    return box.width > 4 && box.left >= 0 && box.top >= 0 && box.right <= document.documentElement.clientWidth + 1 && box.bottom <= innerHeight && (node === top || node.contains(top)); }); })()`;
// How tall what stands over the page is, as far as it is seen.
const over =
    `['.bar', '#claim'].reduce((sum, selector) => { const box = document.querySelector(selector).getBoundingClientRect(); return sum + Math.max(0, Math.min(innerHeight, box.bottom) - Math.max(0, box.top)); }, 0)`;
const verdictSeen =
    `(() => { const box = document.querySelector('#verdict-line').getBoundingClientRect(); return box.top >= document.querySelector('#claim').getBoundingClientRect().top && box.bottom <= innerHeight && box.height > 4; })()`;
const overSide = 'document.documentElement.scrollWidth - document.documentElement.clientWidth';

// Messages stay, however slow the machine is.
const stay = page => page.value(
    `(() => { const later = window.setTimeout.bind(window); window.setTimeout = (run, ms, ...words) => later(run, [3000, 8000].includes(ms) ? 1e8 : ms, ...words); })()`);

export const smallSessions = {
    async 'Stop and the time are in sight, of one job and of three'(user, page, checks) {
        for (const [width, height] of [[1280, 800], [390, 844], [640, 400]]) {
            await sized(page, width, height);
            await page.go();
            await user.openProblem(...MIS);
            for (const [count, search] of [[1, ['lower', 8, 2]], [2, ['lower', 9, 2]], [3, ['lower', 9, 3]]]) {
                await user.search(...search);
                await page.until(`document.querySelectorAll('#jobs .job').length === ${count}`);
                await page.value('scrollTo(0, 400)');
                await wait(300);
                if (count === 2) continue;
                checks.check(`${width}x${height}: ${count} jobs: Stop`, await page.value(seen('#jobs button')));
                checks.check(`${width}x${height}: ${count} jobs: the time`, await page.value(seen('#jobs .time')));
                checks.equal(`${width}x${height}: ${count} jobs: nothing over the side`, await page.value(overSide), 0);
            }
            // By the mouse where the buttons stand, without scrolling.
            const left = () => page.value(`document.querySelectorAll('#jobs button[aria-label^="stop lower"]').length`);
            for (let i = 0, count = await left(); count > 0 && i < 40; i++, count = await left()) {
                const at = await page.value(
                    `(() => { const box = document.querySelector('#jobs button[aria-label^="stop lower"]')?.getBoundingClientRect(); return box ? {x: box.x + box.width / 2, y: box.y + box.height / 2} : {x: 1, y: 1}; })()`);
                for (const type of ['mouseMoved', 'mousePressed', 'mouseReleased']) await page.mouse(type, at);
                await wait(250);
            }
            checks.equal(`${width}x${height}: all were stopped`, await left(), 0);
        }
        await sized(page, 1366, 900);
    },

    async 'a narrow screen'(user, page, checks) {
        await sized(page, 390, 844);
        await page.go();
        checks.equal('the empty page', await page.value(overSide), 0);
        checks.check('Help is reachable', await page.value(seen('#help-button')));
        checks.check('the bar is one line',
            await page.value(
                `new Set([...document.querySelectorAll('.bar nav button')].map(node => Math.round(node.getBoundingClientRect().top / 4))).size === 1`));
        await user.openProblem(...MIS);
        for (const n of [2, 3]) await user.step(n);
        await page.value('scrollTo(0, 0)');
        checks.equal('cards', await page.value(overSide), 0);
        await user.act('Universal rows');
        await page.until(`document.querySelector('.card.last .note pre')`);
        await wait(400);
        checks.check('a note comes into view', await page.value(seen('.card.last .note strong')));
        await user.search('rounds', 2);
        await page.until(`document.querySelector('.card.last .tried tr')`);
        await page.click('.card.last .written:has(.tried) summary');
        const widths = await page.value(
            `[...document.querySelectorAll('.card.last .tried td:nth-child(2)')].map(cell => cell.getBoundingClientRect().width)`);
        checks.check(`tables have room for their words: ${widths}`, widths.every(width => width > 200));
        if (explored.has('describe')) {
            await page.value('scrollTo(0, 0)');
            await page.click('#report');
            await page.until(`document.querySelector('.paper h3')`);
            await wait(400);
            checks.check('the report comes into view', await page.value(seen('#report-box > header h2')));
            checks.check('with what it says',
                await page.value(
                    `document.querySelector('.paper pre').getBoundingClientRect().bottom < document.querySelector('#claim').getBoundingClientRect().top`));
            checks.equal('the report', await page.value(overSide), 0);
            await page.click('#report-box .close');
        }
        for (const [open, what] of [['#open', 'Open'], ['#help-button', 'Help'], ['#certificate', 'Certificate'], ['#share', 'Share']]) {
            await page.click(open);
            await page.until(`document.querySelector('dialog[open]')`);
            checks.check(`${what}: its window fits`,
                await page.value(
                    `(() => { const box = document.querySelector('dialog').getBoundingClientRect(); return box.left >= 0 && box.right <= innerWidth && document.querySelector('dialog').scrollWidth <= document.querySelector('dialog').clientWidth; })()`));
            checks.check(`${what}: its name is seen`, await page.value(seen('dialog h2')));
            checks.equal(`${what}: nothing in it hangs over its side`,
                await page.value(
                    `(() => { const dialog = document.querySelector('dialog'), {right} = dialog.getBoundingClientRect(), edge = right - parseFloat(getComputedStyle(dialog).paddingRight);
                    return [...dialog.querySelectorAll('button:not(.close), input, textarea, select, p')].filter(node => node.getBoundingClientRect().right > edge + 1).map(node => node.outerHTML.slice(0, 60)); })()`),
                []);
            await page.key('Escape');
            await page.until(`!document.querySelector('dialog')`);
        }
        await page.choose('#gallery', 'two colouring 3');
        await page.until(`bench.cards.path()[0].title === 'two colouring 3' && ${drawn}`);
        // A long name breaks.
        const {id, title} = await page.value(`(({id, title}) => ({id, title}))(bench.cards.path()[0])`);
        await page.value(`bench.cards.amend(${id}, {title: 'x'.repeat(80)})`);
        await wait(300);
        checks.equal('a long name', await page.value(overSide), 0);
        checks.check('it is seen whole',
            await page.value(
                `(() => { const title = document.querySelector('.card .title'); return title.getBoundingClientRect().right <= title.closest('.card').getBoundingClientRect().right; })()`));
        await page.value(`bench.cards.amend(${id}, {title: ${JSON.stringify(title)}})`);
        // The menu opens also where its name stands right above the foot.
        const summary = `document.querySelector('.card.last .menu summary').getBoundingClientRect()`;
        await page.value(`scrollBy(0, ${summary}.bottom - document.querySelector('#claim').getBoundingClientRect().top + 12)`);
        await wait(300);
        const at = await page.value(`(({x, y, width, height}) => ({x: x + width / 2, y: y + height / 2}))(${summary})`);
        for (const type of ['mouseMoved', 'mousePressed', 'mouseReleased']) await page.mouse(type, at);
        await page.until(`document.querySelector('.card.last .menu').open`);
        await wait(400);
        checks.equal('a chain with a map', await page.value(overSide), 0);
        checks.check('the menu comes into view', await page.value(seen('.card.last .menu button:not([hidden])')));
        checks.check('and stands between no buttons',
            await page.value(
                `(() => { const box = document.querySelector('.card.last .menu').getBoundingClientRect(); return [...document.querySelectorAll('.card.last .actions button:not(.menu button)')].every(node => { const other = node.getBoundingClientRect(); return other.bottom <= box.top + 1 || other.top >= box.bottom - 1; }); })()`));
        await sized(page, 1366, 900);
    },

    async 'a zoom of 200 percent'(user, page, checks) {
        for (const [width, height] of [[640, 400], [683, 384]]) {
            await sized(page, width, height);
            await page.go();
            await user.openText(example('gallery/two-colouring-3.txt'));
            await page.until(`document.querySelector('#verdict-line') && ${drawn}`);
            if (explored.has('given')) {
                await page.choose('#given-kind', 'a colouring');
                await page.until(`document.querySelector('#given-line .line')`);
            }
            await page.value('document.activeElement.blur()');
            await page.value('scrollTo(0, 500)');
            await wait(400);
            const bars = await page.value(over);
            checks.check(`${width}x${height}: ${bars} px of bars`, bars <= height / 4);
            checks.check(`${width}x${height}: the verdict is seen`, await page.value(verdictSeen));
            checks.equal(`${width}x${height}: nothing over the side`, await page.value(overSide), 0);
            // With three jobs, too; and behind a field of the foot the verdict is seen again.
            await user.openProblem(...MIS);
            if (explored.has('given')) {
                await page.choose('#given-kind', 'a colouring');
                await page.until(`document.querySelector('#given-line .line')`);
            }
            for (const search of [['lower', 8, 2], ['lower', 9, 2], ['lower', 9, 3]]) await user.search(...search);
            await page.until(`document.querySelectorAll('#jobs .job').length === 3`);
            await page.value('scrollTo(0, 500)');
            await wait(400);
            const withJobs = await page.value(over);
            checks.check(`${width}x${height}: ${withJobs} px of bars with three jobs`, withJobs <= height / 4);
            checks.check(`${width}x${height}: Stop of each is seen`, await page.value(seen('#jobs button')));
            checks.check(`${width}x${height}: and their times`, await page.value(seen('#jobs .time')));
            await page.value(`document.querySelector('#given-kind')?.focus()`);
            await page.value(`document.querySelector('#claim').scrollTop = 99`);
            await page.value(`document.querySelector('.card').focus()`);
            checks.check(`${width}x${height}: the verdict is seen behind a field`, await page.value(verdictSeen));
            await user.stopAll();
        }
        await sized(page, 1366, 900);
    },

    async 'letters of twice the size'(user, page, checks) {
        await user.openProblem(...MIS);
        await user.verdict();
        const sizes = () => page.value(
            `['.card .title', '.hint', '#verdict-line', '.card.last .lines', '.chip', '#family', '#editor textarea', 'h2', 'button'].map(selector => parseFloat(getComputedStyle(document.querySelector(selector)).fontSize))`);
        const before = await sizes(), picture = `document.querySelector('svg.diagram').getBoundingClientRect().width`,
              wide = await page.value(picture);
        await page.value(`document.documentElement.style.fontSize = '200%'`);
        await wait(300);
        checks.equal('all letters', (await sizes()).map((size, i) => Math.round(10 * size / before[i]) / 10), before.map(() => 2));
        checks.check('and pictures', Math.abs(await page.value(picture) / wide - 2) < .1);
    },

    async 'messages cover nothing that is used'(user, page, checks) {
        const covered =
            `(() => { const box = document.querySelector('#message').getBoundingClientRect(); return [...document.querySelectorAll(document.querySelector('dialog') ? 'dialog button, dialog input, dialog textarea, dialog select' : 'button, input, select, textarea, summary')].filter(node => {
            const other = node.getBoundingClientRect(), top = document.elementFromPoint(other.left + other.width / 2, other.top + other.height / 2);
            return other.width && (node === top || node.contains(top)) && other.right > box.left && other.left < box.right && other.bottom > box.top && other.top < box.bottom; }).map(node => node.outerHTML.slice(0, 60)); })()`;
        const shown = `document.querySelector('#message').className.includes('shown')`;
        for (const [width, height] of [[1280, 800], [1366, 768], [390, 844]]) {
            await sized(page, width, height);
            await page.go();
            await stay(page);
            await user.openProblem(...MIS);
            await user.step(2);
            await wait(300);
            await user.watchCopies();
            for (const [open, act] of [[null, 'Copy'], ['#certificate', 'Copy']]) {
                if (open) await user.verdict();
                if (open) await page.click(open);
                await page.click(open ? 'dialog footer button' : '.card.last .actions button', act);
                await page.until(shown);
                checks.equal(`${width}x${height}, ${open || 'a card'}`, await page.value(covered), []);
                if (open) await page.key('Escape');
            }
            // A longer one, over a card that is full of buttons.
            await user.search('lower', '99', '99');
            await page.until(`document.querySelector('#message').className === 'shown fault'`);
            checks.equal(`${width}x${height}, a fault`, await page.value(covered), []);
            // Nor where other things come below it.
            for (let i = 0; i < 12; i++) {
                await page.value(`scrollTo(0, ${i * 60})`);
                await page.until(`(${covered}).length === 0`, 10000).catch(async () => {
                    checks.equal(`${width}x${height}, scrolled by ${i * 60}`, await page.value(covered), []);
                });
            }
            checks.check('it is shown', await page.value(shown));
        }
        await sized(page, 1366, 900);
        await teach(page, {});
    },
};
