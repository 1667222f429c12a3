// What this browser keeps of the page, beside the address: the text in the editor, notes, what was tried, and what undo goes back to. The tab
// keeps it for a reload, and the browser the last sessions for the file opened anew. It is never part of a session that is sent, and where
// the browser keeps nothing the page works without.
import {$, button, element, hint, plural} from '../views/dom.js';
import {say} from '../views/messages.js';
import {isNote} from '../cards/notes.js';
import {keptText, withoutTexts} from './kept.js';
import {historyOf} from './sessions.js';
import {titleOf} from '../cards/chains.js';

const TAB = 're-workbench', LAST = 're-workbench-last', SOON = 400, MOST_LAST = 3, LARGEST_DATA = 6000000, LONGEST_NOTE = 200000;

// Of the storage of the browser, which may be shut.
const read = (place, key) => {
    try {
        return window[place].getItem(key);
    } catch { return null; }
};
const write = (place, key, text) => {
    try {
        window[place].setItem(key, text);
        return true;
    } catch { return false; }
};

// An address may be very long: of it the browser keeps how long it is, and a sum over its characters.
function markOf(address) {
    let sum = 0;
    for (let i = 0; i < address.length; i++) sum = Math.imul(sum, 31) + address.charCodeAt(i) | 0;
    return `${address.length} ${sum}`;
}
const isHere = address => [location.hash, markOf(location.hash)].includes(address);

// What is the same of a card that was kept, beside its problem.
const formOf = ({problem, ...others}) => JSON.stringify(others);

// Light or dark, as the user chose it; nothing else than these. The tab has it too: it is there behind a reload whatever becomes of the rest.
const THEME = `${TAB}-theme`, PLACES = ['sessionStorage', 'localStorage'];
export const keepTheme = theme => PLACES.forEach(place => write(place, THEME, theme));
export const keptTheme = () => PLACES.map(place => read(place, THEME)).find(theme => ['light', 'dark'].includes(theme));

export class Keeper {
    constructor(workbench) {
        Object.assign(this, {workbench, isReady: false, tab: `${Math.random()}`.slice(2)});
        addEventListener('pagehide', () => this.keepAtOnce());
    }

    get engine() { return this.workbench.engine; }

    // Which programs answered what is kept.
    get build() { return $('#help').content.querySelector('.build').textContent; }

    changed() {
        if (!this.isReady) return;
        clearTimeout(this.timer);
        this.timer = setTimeout(() => this.keep(), SOON);
    }

    get data() {
        const {cards, editor, names, notes, tries} = this.workbench;
        const kept = [...notes.known].map(
            ([id, {problem, list}]) => [id, {problem, list: list.filter(note => (note.text || '').length < LONGEST_NOTE)}]);
        return {
            build: this.build,
            tab: this.tab,
            address: markOf(location.hash),
            editor: editor.kept,
            notes: kept,
            tries: [...tries.known],
            inputs: names.kept,
            history: historyOf(cards)
        };
    }

    // All of it where that isn't too much, else without what undo goes back to.
    get kept() {
        const {data} = this, kept = withoutTexts(data), size = kept.texts.reduce((sum, text) => sum + text.length, kept.rest.length);
        return size <= LARGEST_DATA
            ? kept
            : withoutTexts({...data, notes: [], history: historyOf({...this.workbench.cards.state, done: [], undone: []})});
    }

    keepAtOnce() {
        if (!this.timer) return;
        clearTimeout(this.timer);
        this.timer = null;
        write('sessionStorage', TAB, keptText(this.kept));
    }

    // What a worker packs, so that the page doesn't stand still.
    async packed() {
        const {rest, texts} = this.kept;
        return this.engine.work('packKept', {rest, texts: await this.workbench.parcels.all(texts)});
    }

    async keep() {
        const {cards, editor} = this.workbench, {timer} = this, turn = this.turn = {}, [first] = cards.path();
        const packed = await this.packed().catch(() => '');
        if (turn !== this.turn || !packed) return;
        // What changed meanwhile still waits.
        if (this.timer === timer) this.timer = null;
        write('sessionStorage', TAB, packed);
        if (!cards.cards.length && !editor.text.trim()) return;
        const title = first ? titleOf(first) : 'a text in the editor', mine = {tab: this.tab, title, count: cards.cards.length, packed};
        for (let others = this.last.filter(({tab}) => tab !== this.tab).slice(0, MOST_LAST);; others = others.slice(0, -1))
            if (write('localStorage', LAST, JSON.stringify([mine, ...others])) || !others.length) return;
    }

    // The last sessions of this browser, the latest first: [{tab, title, count, packed}].
    get last() {
        try {
            return JSON.parse(read('localStorage', LAST)).filter(({tab,
                title,
                packed}) => [tab, title, packed].every(part => typeof part === 'string'));
        } catch { return []; }
    }

    // ---- What comes back.

    // Behind a reload all of it; in a page that is opened anew nothing, but `offers` has a button.
    async start() {
        const kept = read('sessionStorage', TAB), [navigation] = performance.getEntriesByType('navigation');
        try {
            const data = kept && await this.engine.work('readKept', kept),
                  isAgain = location.hash || ['reload', 'back_forward'].includes(navigation?.type);
            if (data && isAgain && isHere(data.address)) {
                this.tab = data.tab;
                await this.restore(data);
            }
        } catch { /* What is damaged is as good as none. */
        }
        this.isReady = true;
        this.changed();
    }

    async restore({build, editor, notes, tries, inputs, all, now, done, undone}) {
        const {workbench} = this, {cards} = workbench, {cards: before} = cards;
        await workbench.editor.restore(editor);
        for (const [problem, number] of inputs) workbench.names.numberOf(problem, number);
        if (build === this.build) {
            workbench.notes.known = new Map(notes.map(([id, {problem, list}]) => [id, {problem, list: list.filter(isNote)}]));
            workbench.tries.known = new Map(tries);
        }
        await workbench.sessions.examine(all);
        // The user was quicker.
        if (cards.cards !== before) return;
        // Cards that are shown stay the same ones.
        const shown = new Map(before.map(card => [formOf(card), card])), same = new Map(all.map(card => {
            const known = shown.get(formOf(card));
            return [card, known?.problem === card.problem ? known : card];
        }));
        const known = state => ({current: state.current, cards: state.cards.map(card => same.get(card))});
        Object.assign(cards, {...known(now), done: done.map(known), undone: undone.map(known)});
        for (const view of workbench.views.values()) {
            workbench.notes.show(view);
            workbench.tries.show(view);
        }
        workbench.show();
    }

    // On the empty page a button for each of the last sessions.
    offers() {
        const last = this.last.filter(({tab}) => tab !== this.tab);
        return last.length && !this.workbench.cards.done.length
            ? element('div.welcome.last', {},
                  element('p.group.start', {}, hint(last.length > 1 ? 'Your last sessions' : 'Your last session'),
                      last.map(({title, count, packed}) =>
                                   button(`${title}${count ? `, ${plural(count, 'card')}` : ''}`, () => this.open(packed)))))
                                                           : null;
    }

    async open(packed) {
        try {
            await this.restore(await this.engine.work('readKept', packed));
        } catch (error) { say(`That session can't be opened: ${error.message}.`, true); }
    }
}
