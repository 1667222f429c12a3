// Texts that come in (problems, certificates, graphs, sessions), and the session that goes out: in the address, or as a file.
import {$, button, download, element, faulty, plural, replace} from '../views/dom.js';
import {askDialog} from '../dialogs/dialogs.js';
import {openEvidenceDialog} from '../dialogs/evidence_dialog.js';
import {say} from '../views/messages.js';
import {faultLine} from '../texts/certificates.js';
import {isEvidence, partsOfEvidence, refusedPart} from '../texts/evidence.js';
import {titleOf} from '../cards/chains.js';
import {isGraphText, readGraph} from '../texts/graphs.js';
import {inputOfKind, isOfItsKind} from '../engine/input_kinds.js';
import {withoutInput} from '../texts/inputs.js';
import {isSession, sharedIn} from './sessions.js';
import {blockOf, problemText} from '../texts/problems.js';
import {blocksOf, fileNameOf} from '../texts/texts.js';

// An address holds so many characters of a packed session; what is larger isn't packed at all.
const MOST_PACKED = 1000000, MOST_TEXT = 8000000, MOST_WRITTEN = 300;

// The lines of a problem text, as its author wrote them, where they are no more than a person reads.
function writtenOf(text) {
    const [active = [], passive = []] = blocksOf(text), without = lines => lines.filter(line => !line.startsWith('%'));
    return active.length + passive.length < MOST_WRITTEN ? {active: without(active), passive: without(passive)} : undefined;
}

const askFirst = event => event.preventDefault();

export class Sessions {
    // `isSaved` says whether the address, or a file, holds what is shown, `isBusy` whether a search runs.
    constructor(workbench) { Object.assign(this, {workbench, isSaved: true, isBusy: false}); }

    get engine() { return this.workbench.engine; }

    // ---- Texts that come in. A fault is answered as {fault, line}, nothing where all went well.

    async openText(text, title) {
        try {
            const shared = sharedIn(text);
            if (shared) await this.openSession(await this.unpacked(shared));
            else if (isSession(text)) await this.openSession(text);
            else if (isEvidence(text) && this.workbench.words.has('judge')) return await this.openEvidence(text);
            else if (isGraphText(text) && this.workbench.words.has('solve')) return await this.openGraph(text, title);
            else return await this.openWithInput(text, title);
            return null;
        } catch (error) { return {fault: error.message}; }
    }

    // A certificate or a problem, and what is given behind it, if something is.
    async openWithInput(whole, title) {
        const {given} = this.workbench, {text, input} = given.isOffered ? withoutInput(whole) : {text: whole, input: null};
        const {status, text: said} = input === null ? {status: 0} : await this.engine.ask('re', ['read'], input);
        if (status !== 0)
            return {fault: `what is given: ${said.trim()}`, line: faultLine(said) && faultLine(said) + text.split('\n').length};
        const problem = input === null ? null : said;
        return /^==/m.test(text) ? this.openCertificate(text, title, problem) : this.openProblem(text, title, problem);
    }

    // `input` is the canonical text of what is given to the chain, or null.
    async openProblem(text, title, input = null) {
        const {status, text: answer} = await this.engine.ask('re', ['read'], text);
        if (status !== 0) return {fault: answer.trim(), line: faultLine(answer)};
        await this.workbench.append(
            null, {kind: 'first', problem: answer, written: writtenOf(text), title, ...await this.givenOf(answer, input)});
        return null;
    }

    // What a first card has of an input: one that `explore input` prints is of its kind.
    async givenOf(problem, input) {
        if (input === null) return {};
        const {engine, workbench: {facts, names, words}} = this, {problem: {active, passive}} = await facts.learn(problem);
        const known = await inputOfKind(engine, words, {active, passive}, input);
        return {given: names.numbered(known || {kind: 'problem', problem: input})};
    }

    async openCertificate(text, title, input = null) {
        const {engine, workbench} = this, alone = await engine.work('certificateAlone', text);
        const {status, text: answer} = await engine.ask('re', ['check'], alone);
        if (status > 1) return {fault: answer.trim(), line: faultLine(answer)};
        const {kind, first} = await engine.work('readCertificate', alone), problem = await engine.ask('re', ['read'], first, {quiet: true});
        await workbench.append(null, {
            kind: 'first',
            problem: problem.text,
            written: writtenOf(first),
            title,
            side: kind === 'upper' ? 'upper' : 'lower',
            ...await this.givenOf(problem.text, input)
        },
            ...await workbench.searches.cardsOf(alone, {written: writtenOf}));
        return null;
    }

    // Evidence adds no card: it is shown with what the program says of it, once the window where it was opened is closed.
    async openEvidence(text) {
        const judged = await this.engine.ask('explore', ['judge'], text);
        if (judged.status > 1) return {fault: judged.text.trim(), line: refusedPart(judged.text, partsOfEvidence(text))?.line};
        setTimeout(() => openEvidenceDialog(text, judged, (part, title) => this.openText(part, title)));
        return null;
    }

    // A problem and a graph, as `explore cover` prints them: the problem becomes a card, with what it is given, and the graph is drawn.
    async openGraph(text, title) {
        const {engine, workbench} = this, {status, text: answer} = await engine.ask('explore', ['solve'], text);
        if (status > 1) return {fault: answer.trim(), line: faultLine(answer)};
        const {problem, input} = readGraph(text), {given} = workbench,
                        said = input !== null && given.isOffered ? (await engine.ask('re', ['read'], input, {quiet: true})).text : null;
        await this.openProblem(problem, title, said);
        const card = workbench.cards.path().at(-1), view = workbench.view(card),
              what = said ? `solve given ${given.nameOf(card.given)}` : 'solve';
        workbench.settling.showGraph(view, what, text, said || undefined).catch(error => view.complain(`${what}: ${error.message}`));
        return null;
    }

    async openSession(text) {
        const state = await this.engine.work('readSession', text), {cards} = this.workbench;
        await this.examine(state.cards);
        if (!state.cards.length && cards.cards.length &&
            !await askDialog('A session without cards', `It takes the place of the ${plural(cards.cards.length, 'card')} that are here.`,
                'Open it', 'Keep the cards'))
            return;
        cards.replaceAll(state);
    }

    // A session is a foreign text: the problems of its cards are read anew, and what was written has to be the same problem.
    async examine(cards) {
        const {facts, names, words} = this.workbench, roots = new Map();
        const read = async text => (await this.engine.ask('re', ['read'], text, {quiet: true})).text;
        await Promise.all(cards.map(async (card, i) => {
            if (await read(card.problem) !== card.problem)
                throw new Error(`card ${i + 1} of the session: its problem is no canonical text`);
            const {problem} = await facts.learn(card.problem);
            for (const part of ['given', 'asked'])
                if (card[part] && await read(card[part].problem) !== card[part].problem)
                    throw new Error(`card ${i + 1} of the session: what is given is no canonical text`);
            const {written} = card;
            if (written && await read(problemText(problem, blockOf(written.active), blockOf(written.passive))) !== card.problem) {
                throw new Error(`card ${i + 1} of the session: what was written is another problem`);
            }
        }));
        // What is given has the name of a kind only where the program prints it for that: else it is a problem of the user's own.
        for (const card of cards) {
            roots.set(card.id, roots.get(card.parent) || card);
            const {problem} = await facts.learn(roots.get(card.id).problem);
            for (const part of ['given', 'asked'])
                if (card[part])
                    card[part] = names.numbered(await isOfItsKind(this.engine, words, problem, card[part])
                            ? card[part]
                            : {kind: 'problem', problem: card[part].problem, number: card[part].number});
        }
    }

    // ---- The session that goes out.

    // The session as a text, and packed.
    async text() { return this.engine.work('sessionText', await this.sent()); }
    async packed() { return this.engine.work('packSession', await this.sent()); }
    sent() { return this.workbench.parcels.state(this.workbench.cards.state); }

    // The address holds the session, packed, so that a bookmark or a reload brings it back.
    async save() {
        const turn = this.turn = {}, {cards} = this.workbench.cards;
        if (!cards.length) {
            this.noteSaved(true);
            if (location.hash && !this.isUnread) history.replaceState(null, '', location.pathname + location.search);
            return;
        }
        const size = cards.reduce((sum, card) => sum + card.problem.length, 0);
        let packed = '', fault = 'it is too large';
        if (size < MOST_TEXT)
            await this.packed().then(
                text => {
                    packed = text;
                },
                error => {
                    fault = error.message;
                });
        if (turn !== this.turn) return;
        this.noteSaved(packed.length > 0 && packed.length <= MOST_PACKED);
        if (!this.isSaved) {
            if (this.fault !== fault) say(`The address does not hold this session: ${fault}. Save keeps it.`);
            this.fault = fault;
            return;
        }
        this.fault = null;
        // An address that couldn't be read stays behind this one.
        if (this.isUnread) history.pushState(null, '', `#s=${packed}`);
        else history.replaceState(null, '', `#s=${packed}`);
        this.isUnread = false;
    }

    async saveFile() {
        const {turn} = this;
        const {cards} = this.workbench, [first] = cards.path();
        download(`${first ? fileNameOf(titleOf(first)) : 're-session'}.json`, await this.text(), 'application/json');
        if (turn === this.turn) this.noteSaved(true);
    }

    // Where neither the address nor a file holds what is shown, or a search runs, the browser asks before the page is left. It listens only
    // then: a page that always listens keeps browsers from leaving it at once.
    noteSaved(isSaved) {
        this.isSaved = isSaved;
        this.listen();
    }

    noteBusy(isBusy) {
        this.isBusy = isBusy;
        this.listen();
    }

    listen() {
        if (this.isSaved && !this.isBusy) window.removeEventListener('beforeunload', askFirst);
        else window.addEventListener('beforeunload', askFirst);
    }

    // Answers whether the address holds a session that was read.
    async load() {
        const found = /^#s=(.+)/.exec(location.hash);
        if (!found) return false;
        let text = found[1];
        try {
            text = await this.unpacked(found[1]);
            await this.openSession(text);
            return true;
        } catch (error) {
            this.isUnread = true;
            this.tellUnread(`The session in the address can't be read: ${error.message}.`, text);
            return false;
        }
    }

    async unpacked(packed) {
        return this.engine.work('unpackSession', packed).catch(() => {
            throw new Error('it is damaged: a part of it lacks, or was changed');
        });
    }

    // Nothing is lost: the address stays, and what it holds can be kept as a file.
    tellUnread(fault, text) {
        say(fault, true);
        replace($('#unread'), faulty(fault), ' ',
            button('Keep what it holds as a file', () => download('session-that-was-not-read.txt', text)), ' ', button('×', () => {
                $('#unread').hidden = true;
            }, {class: 'quiet close', 'aria-label': 'close'}), element('div.hint', {}, 'The address stays in the history of the browser.'));
        $('#unread').hidden = false;
    }
}
