// Drives a headless Chromium over its debugging pipe: clicks and keys as a user makes them.
import {spawn} from 'child_process';
import {mkdtempSync, writeFileSync} from 'fs';
import {rm} from 'fs/promises';
import {tmpdir} from 'os';
import {join} from 'path';
import {pageFile} from './place.mjs';

export const PATIENCE = Number(process.env.PATIENCE || 60000);
export const wait = ms => new Promise(resolve => setTimeout(resolve, ms));
const text = value => JSON.stringify(value);

// Messages over the pipe, each ended by a zero byte.
function connect(child) {
    let count = 0, rest = '';
    const waiting = new Map(), events = [];
    child.stdio[4].on('data', data => {
        rest += data.toString();
        for (let end; (end = rest.indexOf('\0')) >= 0; rest = rest.slice(end + 1)) {
            const message = JSON.parse(rest.slice(0, end));
            if (!message.id) {
                events.push(message);
                // A page that asks before it is left is left.
                if (message.method === 'Page.javascriptDialogOpening')
                    send('Page.handleJavaScriptDialog', {accept: true}, message.sessionId);
                continue;
            }
            const {resolve, reject} = waiting.get(message.id);
            waiting.delete(message.id);
            if (message.error) reject(new Error(message.error.message));
            else resolve(message.result);
        }
    });
    const send = (method, params = {}, sessionId) => new Promise((resolve, reject) => {
        waiting.set(++count, {resolve, reject});
        child.stdio[3].write(text({id: count, method, params, sessionId}) + '\0');
    });
    return {send, events};
}

export async function openBrowser({width = 1366, height = 768, dark = false} = {}) {
    const profile = mkdtempSync(join(tmpdir(), 'page-profile-'));
    const child = spawn('chromium',
        [
            '--headless=new', '--no-sandbox', '--disable-gpu', '--remote-debugging-pipe', `--user-data-dir=${profile}`,
            `--window-size=${width},${height}`, 'about:blank'
        ],
        {stdio: ['ignore', 'ignore', 'ignore', 'pipe', 'pipe']});
    const {send, events} = connect(child), {targetInfos} = await send('Target.getTargets');
    const {sessionId} =
        await send('Target.attachToTarget', {targetId: targetInfos.find(info => info.type === 'page').targetId, flatten: true});
    const ask = (method, params) => send(method, params, sessionId);
    for (const domain of ['Page', 'Runtime', 'Log', 'Network']) await ask(`${domain}.enable`);
    await ask('Emulation.setDeviceMetricsOverride', {width, height, deviceScaleFactor: 1, mobile: false});
    if (dark) await ask('Emulation.setEmulatedMedia', {features: [{name: 'prefers-color-scheme', value: 'dark'}]});
    const close = () => new Promise(resolve => {
        child.on('exit', () => rm(profile, {recursive: true, force: true, maxRetries: 20, retryDelay: 100}).catch(() => {}).then(resolve));
        child.kill();
    });
    return new Page(ask, events, close);
}

// Keys that write nothing.
const CODES = {
    Escape: 27,
    Enter: 13,
    Tab: 9,
    ' ': 32,
    ArrowDown: 40,
    ArrowUp: 38,
    ArrowLeft: 37,
    ArrowRight: 39
};

const codeOf = key => key === ' ' ? 'Space' : /^[a-z]$/i.test(key) ? `Key${key.toUpperCase()}` : key;

class Page {
    constructor(ask, events, close) { Object.assign(this, {ask, events, close}); }

    // The page opened by a user who never had it open: nothing is kept from before.
    async go(address = `file://${pageFile}`) {
        // What still runs is stopped, so that the browser doesn't ask before the page is left.
        await this.value(`(async () => { if (!globalThis.bench) return;
            engine.tasks.clear();
            [...engine.running, ...engine.waiting].forEach(job => job.stop());
            // A session that was about to be kept says by now that it wasn't.
            await new Promise(resolve => setTimeout(resolve, 20));
            bench.sessions.noteSaved(true);
            bench.sessions.noteBusy(false); })()`);
        const {identifier} = await this.ask(
            'Page.addScriptToEvaluateOnNewDocument', {source: 'try { localStorage.clear(); sessionStorage.clear(); } catch {}'});
        await this.ask('Page.navigate', {url: 'about:blank'});
        await this.open(address);
        await this.ask('Page.removeScriptToEvaluateOnNewDocument', {identifier});
    }

    // The page opened once more, with what it kept.
    async open(address = `file://${pageFile}`) {
        await this.ask('Page.navigate', {url: 'about:blank'});
        await this.ask('Page.navigate', {url: address});
        await this.until('document.body?.classList.contains("ready")');
    }

    async reload() {
        await this.value('document.body.classList.remove("ready")');
        await this.ask('Page.reload');
        await this.until('document.body?.classList.contains("ready")');
    }

    async value(expression) {
        const {result, exceptionDetails} = await this.ask('Runtime.evaluate', {expression, awaitPromise: true, returnByValue: true});
        if (exceptionDetails) throw new Error(exceptionDetails.exception?.description || exceptionDetails.text);
        return result.value;
    }

    // Waits until an expression holds, and answers its value.
    async until(expression, limit = PATIENCE) {
        for (const end = Date.now() + limit; Date.now() < end; await wait(40)) {
            try {
                const value = await this.value(expression);
                if (value) return value;
            } catch (error) {
                if (!/navigat|context/i.test(error.message)) throw error;
            }
        }
        throw new Error(`never: ${expression}`);
    }

    // The element that is seen and not disabled, as an expression of the page.
    found(selector, says) {
        return `[...document.querySelectorAll(${text(selector)})].find(node => node.textContent.includes(${
            text(says)}) && !node.disabled && node.getClientRects().length)`;
    }

    // The middle of an element, once it rests there and nothing covers it; `says` picks among several by what they say.
    async place(selector, says = '') {
        const find = `(() => {
            const node = ${this.found(selector, says)};
            if (!node) return null;
            node.scrollIntoView({block: 'center', inline: 'nearest', behavior: 'instant'});
            const box = node.getBoundingClientRect(), at = {x: box.x + box.width / 2, y: box.y + box.height / 2}, top = document.elementFromPoint(at.x, at.y);
            return top && (node.contains(top) || top.contains(node) || node.parentNode.contains(top)) ? at : null;
        })()`;
        for (let before = null, i = 0;; before = await this.until(find), await wait(60)) {
            const now = await this.until(find);
            if (before && now.x === before.x && now.y === before.y || ++i > 50) return now;
        }
    }

    async mouse(type, place) { await this.ask('Input.dispatchMouseEvent', {type, ...place, button: 'left', clickCount: 1}); }

    // Where the page moves between the look and the click, it is tried again.
    async click(selector, says = '') {
        for (let i = 0; i < 5; i++) {
            const place = await this.place(selector, says);
            await this.mouse('mouseMoved', place);
            await this.value(`(() => { const aimed = ${this.found(selector, says)}; window.reached = false;
                document.addEventListener('click', ({target}) => { reached ||= !aimed || aimed.contains(target) || !aimed.matches('button, input, summary') && aimed.parentNode?.contains(target); }, {capture: true, once: true}); })()`);
            for (const type of ['mousePressed', 'mouseReleased']) await this.mouse(type, place);
            if (await this.value('window.reached !== false')) return;
        }
        throw new Error(`no click reaches ${selector} ${says}`);
    }

    async hover(selector, says) { await this.mouse('mouseMoved', await this.place(selector, says)); }

    // Writes into the field that has the focus, in place of what stands there.
    async write(written) {
        await this.value('document.activeElement.select?.()');
        if (written) await this.ask('Input.insertText', {text: written});
        else await this.key('Delete', {code: 46});
    }

    // Once the field is there: a card gets its buttons when it is near to what is seen.
    async fill(selector, written, at = 0) {
        await this.until(`document.querySelectorAll(${text(selector)}).length > ${at}`);
        await this.value(`(() => { const node = document.querySelectorAll(${text(selector)})[${
            at}]; node.scrollIntoView({block: 'center', behavior: 'instant'}); node.focus(); })()`);
        await this.write(written);
    }

    async key(key, {modifiers = 0, code = CODES[key]} = {}) {
        const shown = key === 'Enter' ? '\r' : key.length === 1 ? key : undefined;
        for (const type of ['keyDown', 'keyUp']) {
            await this.ask('Input.dispatchKeyEvent', {
                type,
                key,
                modifiers,
                text: type === 'keyDown' && !modifiers ? shown : undefined,
                code: codeOf(key),
                windowsVirtualKeyCode: code ?? key.toUpperCase().charCodeAt(0)
            });
        }
    }

    // Chooses in a list by the text of an option.
    async choose(selector, option) {
        await this.value(`(() => { const list = document.querySelector(${
            text(selector)}); list.focus(); list.value = [...list.options].find(option => option.textContent === ${
            text(option)}).value; list.dispatchEvent(new Event('change', {bubbles: true})); })()`);
    }

    async picture(file, clip) {
        const {data} = await this.ask(
            'Page.captureScreenshot', {format: 'png', captureBeyondViewport: false, ...clip && { clip: {...clip, scale: 1} }});
        writeFileSync(file, Buffer.from(data, 'base64'));
    }

    // What the console and the network say of faults.
    faults() {
        const isFault = {
            'Runtime.exceptionThrown': () => true,
            'Log.entryAdded': ({entry}) => entry.level === 'error',
            'Runtime.consoleAPICalled': ({type}) => type === 'error',
        };
        return this.events.filter(({method, params}) => isFault[method]?.(params))
            .map(({params}) => params.exceptionDetails?.exception?.description || params.entry?.text || JSON.stringify(params.args));
    }

    // Addresses that were asked for, but for the page itself and what it makes.
    requests() {
        return this.events.filter(({method}) => method === 'Network.requestWillBeSent')
            .map(({params}) => params.request.url)
            .filter(url => !/^(file:|blob:|data:|about:)/.test(url));
    }
}
