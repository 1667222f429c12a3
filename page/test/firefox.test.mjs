// The page in Firefox, from the disk: steps, a search that is stopped, a worker that ends, a reload. Debian's firefox-esr is needed.
import {spawn} from 'child_process';
import {mkdtempSync} from 'fs';
import {rm} from 'fs/promises';
import {tmpdir} from 'os';
import {join} from 'path';
import {PATIENCE, wait} from './browser.mjs';
import {checked} from './checks.mjs';
import {answer, example, natively, pageFile} from './place.mjs';
import {answerSlowly} from './slow.mjs';

const PORT = 9339, profile = mkdtempSync(join(tmpdir(), 'page-firefox-'));
const child = spawn('firefox-esr', ['--headless', `--remote-debugging-port=${PORT}`, '--profile', profile, '--no-remote'],
    {stdio: 'ignore', env: {...process.env, HOME: profile}});

async function connect() {
    for (let i = 0; i < 200; i++) {
        await wait(300);
        const socket = await new Promise(resolve => {
            const tried = new WebSocket(`ws://127.0.0.1:${PORT}/session`);
            tried.onopen = () => resolve(tried);
            tried.onerror = () => resolve(null);
        });
        if (socket) return socket;
    }
    throw new Error('Firefox does not answer');
}

async function drive(socket) {
    let count = 0;
    const waiting = new Map();
    socket.onmessage = ({data}) => {
        const message = JSON.parse(data);
        waiting.get(message.id)?.(message);
        waiting.delete(message.id);
    };
    const send = (method, params) => new Promise((resolve, reject) => {
        waiting.set(++count, message => message.type === 'error' ? reject(new Error(message.message)) : resolve(message.result));
        socket.send(JSON.stringify({id: count, method, params}));
    });
    await send('session.new', {capabilities: {}});
    const {contexts: [{context}]} = await send('browsingContext.getTree', {});
    const value = async expression => {
        const found = await send('script.evaluate', {expression, target: {context}, awaitPromise: true});
        if (found.type === 'exception') throw new Error(found.exceptionDetails.text);
        return found.result.value;
    };
    const until = async expression => {
        for (const end = Date.now() + PATIENCE; Date.now() < end; await wait(100)) {
            const found = await value(expression).catch(() => null);
            if (found) return found;
        }
        throw new Error(`never: ${expression}`);
    };
    return {
        value,
        until,
        go: url => send('browsingContext.navigate', {context, url, wait: 'complete'}),
        reload: () => send('browsingContext.reload', {context, wait: 'complete'})
    };
}

const ready = `document.body.classList.contains('ready')`, cardsAre = n => `document.querySelectorAll('.card').length === ${n}`;
const click = selector => `document.querySelector('${selector}').click()`;
// A card has its buttons once it is near to what is seen.
const buttonOf = text => `[...document.querySelectorAll('.card.last .actions button')].find(node => node.textContent === '${text}')`,
      step = buttonOf('Step'), settle = buttonOf('Settle');

async function session(checks, {value, until, go, reload}) {
    await go(`file://${pageFile}`);
    await until(ready);
    await value(`bench.editor.set('M^3\\nP O^2', 'M [PO]\\nO^2')`);
    await until(`!document.querySelector('#editor > .group button').disabled`);
    await value(click('#editor > .group button'));
    checks.check('its line of the catalogue',
        (await until(`document.querySelector('.card.last .catalogue')?.textContent`)).startsWith(`The catalogue's line, number `));
    for (const n of [1, 2, 3]) {
        await until(`${cardsAre(n)} && Boolean(${step})`);
        await value(`${step}.click()`);
    }
    const line = 'accepted: not solvable in 3 or fewer rounds';
    await until(`document.querySelector('#verdict-line')?.textContent === '${
        line}' && document.querySelectorAll('.card.last svg.diagram').length === 2`);
    checks.equal('native check', answer(['check'], await value('bench.claim.verdict.certificate')).trim(), line);
    // A search that has no shorter ones beside it: nothing is kept of it.
    const search = () => value(
        `(() => { const ask = document.querySelector('.card.last .ask[data-search=fixed]'), numbers = ask.querySelectorAll('input'); [16, 8].forEach((number, i) => { numbers[i].value = number; numbers[i].dispatchEvent(new Event('input')); }); ask.querySelector('button').click(); })()`);
    const stop = `document.querySelector('#jobs button[aria-label^="stop fixed 16 8"]')`,
          notes = `document.querySelectorAll('.card.last .note')`;
    await search();
    await until(`Boolean(${stop})`);
    await value(`${stop}.click()`);
    checks.equal('stopped', await until(`${notes}[0]?.textContent`), 'fixed 16 8 from problem 3: stopped.×');
    await search();
    const job = `[...engine.running].find(job => job.title.startsWith('fixed 16 8'))`;
    await until(`Boolean(${job})`);
    await value(`${job}.worker.terminate()`);
    checks.check(
        'a worker that ends', (await until(`${notes}.length === 2 && ${notes}[0].textContent`)).includes('the browser ended its worker'));
    await until('location.hash.length > 100');
    await reload();
    checks.check('a reload', await until(`${ready} && ${cardsAre(4)}`));
    await inAndOut(checks, {value, until});
}

// A text that is pasted, a file that is dropped, what is given, and the report.
async function inAndOut(checks, {value, until}) {
    const fixed = example('first/sinkless-fixed.txt'), never = 'accepted: not solvable in any number of rounds';
    // Firefox makes no events that hold data, so it is given to plain ones.
    const put = (event, holder, fill) => value(`(() => { const data = new DataTransfer(); ${fill};
        const event = Object.defineProperty(new Event('${event}', {bubbles: true, cancelable: true}), '${holder}', {value: data});
        document.querySelector('#chain').dispatchEvent(event); })()`);
    await put('paste', 'clipboardData', `data.setData('text/plain', ${JSON.stringify(fixed)})`);
    await until(`document.querySelector('#verdict-line')?.textContent === '${never}'`);
    await put('drop', 'dataTransfer', `data.items.add(new File([${JSON.stringify(fixed)}], 'my bound.txt', {type: 'text/plain'}))`);
    await until(`document.title === 'my bound – re workbench' && document.querySelector('#verdict-line')?.textContent === '${never}'`);
    await value(
        `(() => { const list = document.querySelector('#given-kind'); list.value = 'colouring'; list.dispatchEvent(new Event('change')); })()`);
    const line = await until(`document.querySelector('#given-line .line')?.textContent`),
          input = answer(['family', 'colouring', '3', '2', '4']);
    checks.equal('what is given', line,
        natively('explore', ['given'], `${await value('bench.claim.verdict.certificate')}== given\n${input}`).text.split('\n', 1)[0]);
    // Settle alone: what is given belongs to what it asks.
    await value(
        `(() => { const list = document.querySelector('#given-kind'); list.value = 'nothing'; list.dispatchEvent(new Event('change')); })()`);
    await until(`!document.querySelector('#given-line .line')`);
    await until(`Boolean(${settle})`);
    await value(`${settle}.click()`);
    const problem = await value('bench.cards.path().at(-1).problem'),
          [settled] = natively('explore', ['settle'], problem).text.split('\n', 1);
    checks.check(`settle: ${settled}`,
        await until(`[...document.querySelectorAll('.card.last .note')].some(node => node.textContent.startsWith(${
            JSON.stringify(`settle: ${settled}`)}))`));
    await value(click('#report'));
    checks.equal('the report', await until(`document.querySelector('#report-box pre')?.textContent`), never);
    await begun(checks, {value, until});
}

// What a program writes comes while it runs.
async function begun(checks, {value, until}) {
    const line = 'not solvable in any number of rounds with port numbers alone',
          notes = `document.querySelector('.card.last .remarks').textContent`;
    await value(`bench.notes.set(bench.view(bench.cards.path().at(-1)), [])`);
    await answerSlowly({until}, 'settle', [{text: `${line}\nby: re fixed 4 0\nwith`, turns: 10 ** 15}]);
    await until(`Boolean(${settle})`);
    await value(`${settle}.click()`);
    checks.check('still searching', (await until(`${notes}.includes('still searching…') && ${notes}`)).includes(`settle: ${line}`));
    const stop = `document.querySelector('#jobs button[aria-label^="stop settle"]')`;
    await until(`Boolean(${stop})`);
    await value(`${stop}.click()`);
    checks.check('stopped, it stays',
        (await until(`${notes}.includes('stopped; what it wrote until then stays.') && ${notes}`)).includes(`settle: ${line}`));
}

let socket = null;
await checked('steps, a search that is stopped, a worker that ends, a reload', async checks => {
    socket = await connect();
    await session(checks, await drive(socket));
});
socket?.close();
const ended = new Promise(resolve => child.on('exit', resolve));
child.kill();
await ended;
await rm(profile, {recursive: true, force: true, maxRetries: 20, retryDelay: 100}).catch(() => {});
