// Names of controls, contrast, and the keyboard alone.
import {openBrowser, wait} from './browser.mjs';
import {checked} from './checks.mjs';
import {answer, example} from './place.mjs';
import {teach} from './teaching.mjs';
import {cardsAre, drawn, MIS, User} from './user.mjs';

// Runs in the page: what is at fault in what is shown now.
function faultsShown() {
    const numbers = text => (text.match(/[\d.]+/g) || []).map(Number);
    const over = (top, under) => {
        const a = top[3] ?? 1;
        return [0, 1, 2].map(i => top[i] * a + under[i] * (1 - a));
    };
    const light = c => {
        const [r, g, b] = c.map(v => {
            v /= 255;
            return v <= .03928 ? v / 12.92 : ((v + .055) / 1.055) ** 2.4;
        });
        return .2126 * r + .7152 * g + .0722 * b;
    };
    const contrast = (a, b) => {
        const [x, y] = [light(a), light(b)].sort((p, q) => q - p);
        return (x + .05) / (y + .05);
    };
    const ground = node => {
        const stack = [];
        for (let n = node; n; n = n.parentElement) {
            const c = numbers(getComputedStyle(n).backgroundColor);
            if ((c[3] ?? 1) > 0) {
                stack.push(c);
                if ((c[3] ?? 1) === 1) break;
            }
        }
        return stack.reverse().reduce((under, c) => over(c, under), [255, 255, 255]);
    };
    const isShown = node => node.getClientRects().length && getComputedStyle(node).visibility === 'visible';
    const faults = new Set(), say = (node, what) => faults.add(`${what}: ${node.outerHTML.slice(0, 90)}`);
    for (const node of document.querySelectorAll('button, a, input, select, textarea, summary, [tabindex="0"]')) {
        if (!isShown(node)) continue;
        const name = node.getAttribute('aria-label') || node.labels?.[0]?.textContent || node.textContent;
        if (!name.trim()) say(node, 'no name');
        else if (node.matches('button:not([data-label])') && !/[a-z]{2}/i.test(name)) say(node, 'a name without a word');
        if (node.tabIndex > 0) say(node, 'its own place in the order');
    }
    for (
        const node of document.querySelectorAll(
            'input:not([type=checkbox]):not([type=radio]):not([type=file]), select, button:not(.link):not(.quiet):not(.toggle):not(.primary)')) {
        if (!isShown(node) || node.disabled || node.closest('.area, .menu > div')) continue;
        const edge = numbers(getComputedStyle(node).borderTopColor), ratio = contrast(over(edge, ground(node)), ground(node.parentElement));
        if (ratio < 3) say(node, `edge ${ratio.toFixed(2)}`);
    }
    for (const node of document.querySelectorAll('body *')) {
        if (!isShown(node) || node.closest('svg, script, template, :disabled, .caret, [aria-hidden=true]')) continue;
        if (![...node.childNodes].some(child => child.nodeType === 3 && child.textContent.trim())) continue;
        const style = getComputedStyle(node), ratio = contrast(over(numbers(style.color), ground(node)), ground(node));
        if (style.opacity !== '0' && ratio < 4.5) say(node, `contrast ${ratio.toFixed(2)}`);
    }
    for (const node of document.querySelectorAll('svg text')) {
        const ratio = contrast(numbers(getComputedStyle(node).fill), ground(node.closest('figure, dialog, .card')));
        if (isShown(node) && !node.closest('.picked') && ratio < 4.5) say(node, `contrast ${ratio.toFixed(2)}`);
    }
    for (const node of document.querySelectorAll('figure, [role=status], [role=log], [role=alert], section, aside, nav'))
        if (isShown(node) && !node.getAttribute('aria-label') && !node.closest('.problem section') &&
            node.parentElement.tagName !== 'ASIDE')
            say(node, 'a region without a name');
    for (const node of document.querySelectorAll(':is(h1, h2, h3, h4) :is(button, input, select, a)')) say(node, 'a control in a heading');
    for (const node of document.querySelectorAll('input, select, textarea'))
        if (isShown(node) && (node.getAttribute('aria-label') || node.labels?.[0]?.textContent || '').trim().length < 3)
            say(node, 'a name that says nothing');
    const ids = [...document.querySelectorAll('[id]')].map(node => node.id);
    ids.filter((id, i) => ids.indexOf(id) !== i).forEach(id => faults.add(`twice: ${id}`));
    for (const image of document.querySelectorAll('svg[role=img]'))
        if (!image.querySelector('title')?.textContent) say(image, 'no title');
    if (!document.documentElement.lang || !document.title) faults.add('no language or title');
    return [...faults];
}

async function look(page, user, checks, theme) {
    const faults = async where => checks.equal(`${theme}, ${where}`, await page.value(`(${faultsShown})()`), []);
    await page.go();
    await faults('the empty page');
    await user.openProblem(...MIS);
    await user.search('lower', 8, 2);
    await user.running('lower 8 2');
    await faults('what runs');
    await user.stop('lower 8 2');
    // The best so far, where there is one by now, has cards of its own: what was tried stands on the first card.
    await page.until(`document.querySelector('.card .tried tr') && engine.tasks.size === 0`);
    await page.click('.card .written summary', 'Tried');
    await faults('what was tried');
    await user.openText(example('first/colouring-refused.txt'));
    await page.until(`document.querySelector('.card.failing .fault div div') && ${drawn}`);
    await user.select('A');
    await faults('a refused chain, a label selected');
    await page.hover('.card.last .chip', 'B');
    await faults('a tip');
    await user.act('Universal rows');
    await page.until(`document.querySelector('.card.last .note')`);
    await page.click('.card.last .menu summary');
    await faults('a note, a menu');
    await page.key('Escape');
    await page.choose('#given-kind', 'a colouring');
    await page.until(`document.querySelector('#given-line .line')`);
    await faults('what is given');
    await page.click('#report');
    await page.until(`document.querySelector('#report-box h3')`);
    await faults('the report');
    await page.click('#report-box .close');
    for (const [key, what] of [['e', 'edit'], ['r', 'rename'], ['t', 'merges'], ['x', 'certificate'], ['o', 'open'], ['?', 'help']]) {
        await page.value(`document.querySelector('.card.last').focus()`);
        await page.key(key);
        await page.until('document.querySelector("dialog")');
        await wait(300);
        await faults(what);
        await page.key('Escape');
        await page.until('!document.querySelector("dialog")');
    }
    await page.value(`document.querySelector('.card.last').focus()`);
    await page.key('b');
    await page.until('document.querySelectorAll("dialog svg.diagram, dialog .classes").length === 4');
    await faults('two cards side by side');
    await page.key('Escape');
    await page.click('#certificate');
    await page.click('dialog footer button', 'Picture');
    await page.until('document.querySelector("dialog svg.chain")');
    await faults('the chain as a picture');
    await page.key('Escape');
    await page.click('#browse');
    await page.until('document.querySelectorAll("dialog tr").length > 3');
    await faults('the catalogue');
    await page.key('Escape');
    await page.click('#survey');
    await page.fill('dialog textarea', 'A^3 / A^2\nX');
    await page.click('dialog footer button', 'Settle all');
    await page.until('[...document.querySelectorAll("dialog [role=status]")].some(node => node.textContent === "2 of 2 problems")');
    await faults('a list that is settled');
    await page.key('Escape');
    await teach(page, {judge: [1, 'part 2: no: not flexible\n']});
    await user.openText('A^2\n\nA A\n== graph\n1.1 1.2\n=====\nA^2\n\nA A\n== flexible\nA\n');
    await page.until('document.querySelector("dialog .parts")');
    await faults('evidence that is refused');
    await page.key('Escape');
    await page.choose('#gallery', 'orientation 3 upper');
    await page.until(`!document.querySelector('#algorithm').hidden`);
    await page.click('#algorithm');
    await page.until(`document.querySelector('dialog svg.run')`);
    await faults('an algorithm');
    await page.key('Escape');
    await page.fill('#editor textarea', 'A PO', 0);
    await page.until(`document.querySelector('#editor .state .faulty')`);
    await faults('a fault in the editor');
}

for (const theme of ['light', 'dark']) {
    const page = await openBrowser({dark: theme === 'dark'});
    await checked(theme, async checks => {
        await look(page, new User(page, checks), checks, theme);
        checks.equal('no fault in the console', page.faults(), []);
    });
    await page.close();
}

// The keyboard alone: Tab goes to what is asked for, and no mouse moves.
async function keyboard(page, checks) {
    const at = `(document.activeElement.getAttribute('aria-label') || document.activeElement.textContent).trim()`;
    const tabTo = async (name, within = 'body') => {
        for (let i = 0; i < 120; i++) {
            await page.key('Tab');
            if (await page.value(
                    `${at} === ${JSON.stringify(name)} && Boolean(document.activeElement.closest(${JSON.stringify(within)}))`)) {
                const seen = await page.value(
                    `(() => { const box = document.activeElement.getBoundingClientRect(); return document.activeElement.matches(':focus-visible') && box.top >= 0 && box.bottom <= innerHeight; })()`);
                if (!seen) checks.check(`${name} is seen when it has the focus`, seen);
                return;
            }
        }
        throw new Error(`Tab does not come to ${name}`);
    };
    await page.go();
    await page.key('Tab');
    checks.equal('Tab begins with a way past the editor', await page.value(at), 'To the cards');
    await tabTo('active constraint');
    await page.write('M^3\nP O^2');
    await page.key('Tab');
    checks.equal('the passive one is next', await page.value(at), 'passive constraint');
    await page.write('M [PO]\nO^2');
    await page.key('Enter', {modifiers: 2});
    await page.until(`${cardsAre(1)} && ${drawn}`);
    checks.check('the card has the focus', await page.value(`document.activeElement.matches('.card')`));
    // Past the bar and the editor.
    // On a slow machine what the page asks by itself stands in the bar, with a button of its own.
    const isStill = `document.querySelector('#jobs').hidden && engine.running.size === 0`;
    await page.until(`${isStill} && (document.querySelector('#undo').focus(), document.activeElement.id === 'undo')`);
    await wait(200);
    await page.key('Tab', {modifiers: 8});
    checks.equal('a way past the editor', await page.value(at), 'To the cards');
    checks.check('it is seen', await page.value(`document.activeElement.getBoundingClientRect().top >= 0`));
    await page.key('Enter');
    checks.check('it leads to the card', await page.value(`document.activeElement.matches('.card.last')`));
    await tabTo('Step', '.card.last');
    await page.key('Enter');
    await page.until(`${cardsAre(2)} && ${drawn}`);
    await tabTo('A', '.card.last');
    await page.key(' ');
    await tabTo('C', '.card.last');
    checks.check('a label with the focus is explained',
        (await page.until(`!document.querySelector('#tip').hidden && document.querySelector('#tip').textContent`)).includes('[MO]'));
    await page.key(' ');
    await tabTo('Merge into C', '.card.last');
    await page.key('Enter');
    await page.until(`${cardsAre(3)} && ${drawn}`);
    const line = await page.until(`document.querySelector('#verdict-line')?.textContent`);
    checks.equal('the merge is judged', answer(['check'], await page.value('bench.claim.verdict.certificate')).trim(), line);
    await page.key('z', {modifiers: 2});
    await page.until(cardsAre(2));
    await page.key('k');
    await page.key('k');
    checks.check('k goes up', await page.value(`document.activeElement === document.querySelector('.card')`));
    await page.key('j');
    await tabTo('More', '.card.last');
    await page.key('Enter');
    await page.key('Tab');
    checks.equal('into the menu', await page.value(at), 'Copy, one configuration a line');
    await page.key('Escape');
    checks.equal('and out of it', await page.value(at), 'More');
    await tabTo('Certificate');
    await page.key('Enter');
    await page.until('document.querySelector("dialog")');
    checks.equal('in the window', await page.value(at), 'Copy');
    for (let i = 0; i < 8; i++) await page.key('Tab');
    checks.check('the window keeps the focus',
        await page.value(`document.activeElement === document.body || Boolean(document.activeElement.closest('dialog'))`));
    await page.key('Escape');
    await page.until('!document.querySelector("dialog")');
    checks.equal('and gives it back', await page.value(at), 'Certificate');
    await page.value(`document.querySelector('.card.last').focus()`);
    await tabTo('lower: K, the number of steps', '.card.last');
    await page.write('8');
    await page.key('Tab');
    await page.write('2');
    await page.key('Tab', {modifiers: 8});
    await page.key('Tab', {modifiers: 8});
    checks.equal('its button stands before its numbers', await page.value(at), 'lower');
    await page.key('Enter');
    const stop = `document.querySelector('#jobs button[aria-label="stop lower 8 2 from problem 1"]')`;
    await page.until(`Boolean(${stop})`);
    await tabTo('stop lower 8 2 from problem 1');
    await page.key('Enter');
    await page.until(`!${stop}`);
}
const page = await openBrowser();
await checked('the keyboard alone', async checks => {
    await keyboard(page, checks);
    checks.equal('no fault in the console', page.faults(), []);
});
await page.close();
