// Problems at the limits: the page is never still for more than 0.2 s, beyond what the machine keeps an idle worker waiting in the same
// time. PAUSE=ms changes the bound.
import {openBrowser, wait} from './browser.mjs';
import {checked} from './checks.mjs';
import {answer} from './place.mjs';

const MOST = Number(process.env.PAUSE || 200), page = await openBrowser();
let longest = 0, longestBeyond = 0;

// The longest time in which nothing else of the page could run.
const WATCH = `(() => { window.longest = 0; let last = performance.now(); const {port1, port2} = new MessageChannel();
    port1.onmessage = () => { const now = performance.now(); longest = Math.max(longest, now - last); last = now; setTimeout(() => { last = Math.max(last, performance.now() - 1); port2.postMessage(0); }, 4); };
    port2.postMessage(0);
    const idle = new Worker(URL.createObjectURL(new Blob(['let last = performance.now(), longest = 0; setInterval(() => { const now = performance.now(); longest = Math.max(longest, now - last - 5); last = now; }, 5); onmessage = () => { postMessage(longest); longest = 0; };'])));
    window.noise = () => new Promise(resolve => { idle.onmessage = ({data}) => resolve(data); idle.postMessage(0); });
    new PerformanceObserver(list => { for (const {duration} of list.getEntries()) window.longest = Math.max(window.longest, duration); }).observe({type: 'longtask'}); })()`;

function timed(name, act, done, limit = 300000) {
    return checked(name, async (checks, context) => {
        await page.value('noise().then(() => { window.longest = 0; })');
        await act();
        await page.until(done, limit);
        await wait(1500);
        const pause = Math.round(await page.value('window.longest')), noise = Math.round(await page.value('noise()'));
        longest = Math.max(longest, pause);
        longestBeyond = Math.max(longestBeyond, pause - noise);
        context.diagnostic(`longest pause ${pause} ms, of an idle worker ${noise} ms`);
        checks.check(`longest pause ${pause} ms, of an idle worker ${noise} ms`, pause - noise <= MOST);
    });
}

// A text is made in the page, so that it need not come over the debugging pipe.
const open = make => () => page.value(`(async () => { const fault = await bench.sessions.openText(await (${
    make})(), 'large'); if (fault) throw new Error(fault.fault); })()`);
const openText = text => open(`() => ${JSON.stringify(text)}`);
const judged = `document.querySelector('#verdict-line') && document.querySelectorAll('.card.last .picture').length === 2`;
const click = (selector, says) => () => page.click(selector, says);

await page.go();
await page.value(WATCH);
await timed('colouring 6 6 16: 8,024 configurations', openText(answer(['family', 'colouring', '6', '6', '16'])), judged);
await timed('108,528 configurations', open(`() => { const side = '[ABCDEFGHIJKLMNOP]^6'; return side + '\\n\\n' + side + '\\n'; }`),
    `bench.facts.of(bench.cards.path()[0].problem).count === 108528 && ${judged}`);
await timed('a diagram of them', click('.card.last figure[data-side=passive] button', 'Ask for the diagram'),
    `document.querySelectorAll('.card.last svg.diagram').length === 1`);
await timed('128 labels, all pairs',
    open(
        `() => { const names = Array.from({length: 128}, (_, i) => '(L' + i + ')'); return names.map(x => '[' + names.join('') + '] ' + x).join('\\n') + '\\n\\n' + names.map(x => x + '^2').join('\\n') + '\\n'; }`),
    judged);
await timed('a step of 128 labels', click('.card.last .actions button', 'Step'),
    `bench.cards.path().length === 2 && ${judged} || document.querySelector('.card.last .remarks .faulty')`);
await timed('906,192 configurations', open(`() => '[ABCDEFGHIJKLMNOPQRSTUVWXYZa]^6\\n\\n[ABCDEFGHIJKLMNOPQRSTUVWXYZa]^2\\n'`),
    `bench.facts.of(bench.cards.path()[0].problem).problem.active.count === 906192 && ${judged}`);
await timed('all lines of them', async () => {
    await page.value(
        `(() => { const view = bench.view(bench.cards.path()[0]); view.lines.active.isWhole = false; view.lines.active.show(view.facts.plain().active, ''); })()`);
    await page.click('.card.last .lines button', 'more lines');
}, `document.querySelector('.card.last .window')`);
await timed('scrolling through them',
    () => page.value(
        `(async () => { const box = document.querySelector('.card.last .window'); for (let i = 0; i <= 40; i++) { box.scrollTop = box.scrollHeight * i / 40; await new Promise(requestAnimationFrame); } })()`),
    `document.querySelector('.card.last .window .line:last-child').textContent === 'a6' || document.querySelector('.card.last .window').textContent.includes('a^6')`);
await timed('a merge of two labels of them', async () => {
    for (const label of ['A', 'B']) await page.click(`.card.last .chip[data-label=${label}]`);
    await page.click('.card.last .selection button', 'Merge into A');
}, `bench.cards.path().length === 2 && ${judged} || document.querySelector('.card.last .remarks .faulty')`);
await checked('the merge of them', async checks => {
    checks.equal('cards', await page.value('bench.cards.path().length'), 2);
});
await timed('a step of them', click('.card.last .actions button', 'Step'),
    `bench.cards.path().length === 3 && ${judged} || document.querySelector('.card.last .remarks .faulty')`);
// A certificate of 6 MB: seven problems of 54,264 configurations, written out.
const MANY = `async () => {
    const side = (await engine.ask('re', ['read'], '[ABCDEFGHIJKLMNOP]^6\\n\\n[ABCDEFGHIJKLMNOP]^6\\n')).text, step = '== step\\n' + side + '== rows\\n[ABCDEFGHIJKLMNOP]^6\\n== map\\n[ABCDEFGHIJKLMNOP] A\\n';
    return '== certificate 1 lower\\n' + side + step.repeat(5) + '== end\\n';
}`;
await timed('a certificate of 6 MB', open(MANY),
    `bench.cards.path().length === 6 && document.querySelector('#verdict-line') && document.querySelector('#verdict-line').textContent.startsWith('refused')`);
await timed('it is shown', click('#certificate'), `document.querySelector('dialog textarea').value.length > 1000`);
await timed('it is opened again', async () => {
    await page.click('dialog footer button', 'Change it');
    await page.click('dialog footer button', 'Open');
}, `!document.querySelector('dialog') && bench.cards.roots().length > 4`);
await timed('MIS of degree 6, three steps', async () => {
    await openText(answer(['family', 'mis', '6', '2', '0']))();
    for (const n of [2, 3, 4]) {
        await page.click('.card.last .actions button', 'Step');
        await page.until(`bench.cards.path().length === ${n} && ${judged}`, 120000);
    }
}, judged);
await timed('undo and redo', async () => {
    for (const id of ['#undo', '#undo', '#redo', '#redo']) {
        await page.click(id);
        await wait(300);
    }
}, judged);
await timed('odd problems', async () => {
    for (const text of [answer(['family', 'colouring', '3', '5', '3']), '(IN_1)^3\n(OUT) [(IN_1)(OUT)]^2\n\n(IN_1) (OUT)\n', '%2\n\n%3\n',
             '[]\n\nA B\n'])
        await page.value(`bench.sessions.openText(${JSON.stringify(text)}, 'odd').catch(error => error.message)`);
}, `document.querySelector('#verdict-line')`);
await checked('no fault in the console', (checks, context) => {
    checks.equal('faults', page.faults(), []);
    context.diagnostic(`longest pause ${longest} ms, beyond that of an idle worker ${longestBeyond} ms`);
});
await page.close();
