// What a user does on the page, again and again.
import {answer} from './place.mjs';

export const MIS = ['M^3\nP O^2', 'M [PO]\nO^2'];
const quoted = value => JSON.stringify(value);

// Both diagrams of the last card are drawn or listed, so nothing moves any more.
export const drawn = `document.querySelectorAll('.card.last svg.diagram, .card.last .classes').length === 2`;
export const cardsAre = count => `document.querySelectorAll('.card').length === ${count}`;

// The button that stops a job.
const jobOf = name => `#jobs button[aria-label^="stop ${name}"]`;

export class User {
    // `checks` are those of the test that runs.
    constructor(page, checks) { Object.assign(this, {page, checks}); }

    // ---- Problems.

    // Writes a problem with the keyboard into the editor and opens it as a card.
    async openProblem(active, passive) {
        const {page} = this, before = await page.value('bench.cards.cards.length');
        await page.fill('#editor textarea', active, 0);
        await page.fill('#editor textarea', passive, 1);
        await page.until(`document.querySelector('#editor .state .good')`);
        await page.click('#editor button', 'Open as a card');
        await page.until(`bench.cards.cards.length > ${before} && bench.cards.path().length === 1 && ${drawn}`);
    }

    async openExample(name) {
        const {page} = this, before = await page.value('bench.cards.cards.length');
        await page.choose('#gallery', name);
        await page.until(`document.querySelector('#editor .state .good') && document.activeElement.textContent === 'Open as a card'`);
        await page.key('Enter');
        await page.until(`bench.cards.cards.length === ${before} + 1 && ${drawn}`);
    }

    // Opens a text in the window of Open.
    async openText(text) {
        await this.page.click('#open');
        await this.page.until('document.querySelector("dialog textarea")');
        await this.page.fill('dialog textarea', text);
        await this.page.click('dialog footer button', 'Open');
    }

    // ---- The last card.

    async step(count) {
        await this.page.click('.card.last .actions button', 'Step');
        await this.page.until(`${cardsAre(count)} && ${drawn}`);
    }

    async select(...labels) {
        for (const label of labels) await this.page.click(`.card.last .chip[data-label="${label}"]`);
    }
    async act(text) { await this.page.click('.card.last .actions button', text); }
    async actOnSelected(text) { await this.page.click('.card.last .selection button', text); }

    // A search by its name, with its numbers in order.
    async search(kind, ...numbers) {
        const box = `.card.last .ask[data-search=${kind}]`;
        for (const [at, number] of numbers.entries()) await this.page.fill(`${box} input`, String(number), at);
        await this.page.click(`${box} button`, kind);
    }

    // The same, asked again with more.
    async searchOn(kind, ...numbers) {
        const box = `.card.last .ask[data-search=${kind}]`;
        for (const [at, number] of numbers.entries()) await this.page.fill(`${box} input`, String(number), at);
        await this.page.click(`${box} button.more`);
    }

    // A search that runs, by its name, once it is shown in the bar, and until it is gone from there. Other jobs may stand beside it.
    async running(name) { return this.page.until(`document.querySelector('${jobOf(name)}')?.closest('.job').textContent`); }
    async stop(name) {
        await this.running(name);
        await this.page.click(jobOf(name));
        await this.page.until(`!document.querySelector('${jobOf(name)}')`);
    }
    async stopAll() {
        await this.page.value('[...engine.tasks].forEach(task => task.stop())');
        await this.page.until('engine.tasks.size === 0');
    }
    // What is known so far of a search that runs: its best is there to be kept.
    async best(name) {
        return this.page.until(`document.querySelector('${jobOf(name)}')?.closest('.job').textContent.includes('best so far: ')`);
    }

    note() { return this.page.until(`document.querySelector('.card.last .note')?.textContent`); }
    problem() { return this.page.value('bench.cards.path().at(-1).problem'); }

    // ---- The bar at the bottom.

    // The line of the verdict; the native program says the same of the certificate.
    async says(line, limit) {
        await this.page.until(`document.querySelector('#verdict-line')?.textContent === ${quoted(line)}`, limit);
        await this.agrees(line);
    }

    async agrees(line) { this.checks.equal(`native check: ${line}`, answer(['check'], await this.certificate()).trim(), line); }
    verdict() { return this.page.until(`document.querySelector('#verdict-line')?.textContent`); }
    certificate() { return this.page.until('bench.claim.verdict?.certificate'); }

    // What Copy gives, held by the page in place of the clipboard.
    async watchCopies() {
        await this.page.value(`navigator.clipboard.writeText = async text => { window.copied = text; }; window.copied = null`);
    }
    async copied() {
        const text = await this.page.until('window.copied');
        await this.page.value('window.copied = null');
        return text;
    }
}
