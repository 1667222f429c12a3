// The workbench: the cards, the chain that is shown, and what leads from card to card.
import {$, copy, download, replace} from './views/dom.js';
import {say} from './views/messages.js';
import {Cards} from './cards/cards.js';
import {cardAt, numberOf, titleOf} from './cards/chains.js';
import {CardList} from './views/card_list.js';
import {Catalogue} from './views/catalogue_view.js';
import {CardView} from './views/card_view.js';
import {Changes} from './cards/changes.js';
import {Claim} from './views/claim.js';
import {Facts} from './engine/facts.js';
import {Given} from './views/given_view.js';
import {InputNames} from './cards/input_names.js';
import {Stopped} from './engine/engine.js';
import {openNameDialog, openNoteDialog} from './dialogs/dialogs.js';
import {openCertificateDialog} from './dialogs/certificate_dialog.js';
import {Keeper} from './keeping/keeper.js';
import {Notes} from './cards/notes.js';
import {Parcels} from './engine/parcels.js';
import {ReportView} from './views/report_view.js';
import {firstNumbers} from './views/search_actions.js';
import {Settling} from './cards/settling.js';
import {Survey} from './cards/survey.js';
import {Tries} from './cards/tries.js';
import {openTreeDialog} from './dialogs/tree_dialog.js';
import {Searches} from './cards/searches.js';
import {Sessions} from './keeping/session_keeper.js';
import {filledLines, latexOf} from './texts/texts.js';
import {givenInput} from './texts/inputs.js';
import {Tip} from './views/tip.js';
import {writtenText} from './engine/judge.js';

// What may change of a card without another view of it.
const AMENDED = ['back', 'note', 'title', 'given'];
// So far from what is seen, cards ask for what they show.
const NEAR_CARDS = '500px';

export class Workbench {
    // `words` are those of `explore` that the page may offer.
    constructor(engine, words) {
        const facts = new Facts(engine), cards = new Cards(() => this.show()), views = new Map(), names = new InputNames();
        Object.assign(this, {engine, words, facts, cards, views, names, numbers: firstNumbers(), tip: new Tip()});
        Object.assign(this, {parcels: new Parcels(engine), survey: new Survey(engine)});
        this.keeper = new Keeper(this);
        const onKept = () => this.keeper.changed(), otherInput = (view, input) => this.given.otherInput(view, input);
        this.tries = new Tries({views, otherInput}, onKept);
        this.notes = new Notes({
            cards,
            go: id => this.go(id),
            otherInput,
            settled: (view, note) => this.settling.lines(view, note),
            draw: text => this.settling.draw(text)
        },
            onKept);
        const openText = (text, title) => this.sessions.openText(text, title);
        this.given = new Given({
            engine,
            words,
            facts,
            cards,
            names,
            refresh: () => this.show(),
            forThis: job => this.claim.forThis(job),
            openText,
            onSaid: fault => this.showGiven(fault)
        });
        this.claim = new Claim(this);
        this.changes = new Changes(this);
        const {given, tries, notes} = this;
        this.searches = new Searches({
            engine,
            facts,
            cards,
            given,
            tries,
            words,
            append: (card, here, found) => this.found(card, here, found),
            cover: (card, view, m) => this.settling.cover(card, view, m)
        });
        this.settling = new Settling({
            engine,
            facts,
            cards,
            given,
            notes,
            tries,
            words,
            searches: this.searches,
            underNames: (card, view, pairs) => this.changes.underNames(card, view, pairs),
            openText
        });
        this.catalogue = new Catalogue(this);
        this.sessions = new Sessions(this);
        this.report = new ReportView(this);
        this.list = new CardList({cards, facts, nameOf: card => this.nameOf(card), go: id => this.go(id)});
        this.watcher = new IntersectionObserver(entries => this.comeNear(entries), {rootMargin: NEAR_CARDS});
    }

    comeNear(entries) {
        for (const {target, isIntersecting} of entries)
            if (isIntersecting) [...this.views.values()].find(({node}) => node === target)?.comeNear();
    }

    // ---- The chain.

    view(card) {
        let view = this.views.get(card.id);
        // After undo a card may be another one with the same number.
        const isSame = view && Object.keys({...view.card, ...card}).every(key => AMENDED.includes(key) || view.card[key] === card[key]);
        if (!isSame) {
            if (view) this.watcher.unobserve(view.node);
            this.views.set(card.id, view = new CardView(this, card));
        }
        view.card = card;
        return view;
    }

    // Watches a card anew: it is told once it is near to what is seen, also where it is so already.
    watch(view) {
        this.watcher.unobserve(view.node);
        this.watcher.observe(view.node);
    }

    show() {
        const path = this.cards.path(), chain = $('#chain'), views = path.map(card => this.view(card));
        this.tip.hide();
        views.forEach((view, i) => view.place(path, i === path.length - 1));
        const focused = document.activeElement, nodes = views.map(({node}) => node);
        if (nodes.length !== chain.children.length || nodes.some((node, i) => node !== chain.children[i])) replace(chain, nodes);
        if (focused !== document.activeElement && chain.contains(focused)) focused.focus({preventScroll: true});
        if (!path.length) replace(chain, $('#welcome').content.cloneNode(true), this.keeper.offers());
        document.title = path.length ? `${titleOf(path[0])} – re workbench` : 're workbench: round elimination with checked bounds';
        this.list.show(path);
        this.sessions.save().then(() => this.keeper.changed());
        this.given.show(path);
        this.claim.check(path);
    }

    // What `explore given` said of the chain that is shown; a refusal is told on the card that fails.
    showGiven(fault) {
        const path = this.cards.path();
        for (const card of path) this.view(card).refuseGiven(null);
        if (fault) this.view(cardAt(path, fault.step)).refuseGiven(fault);
        this.report.showGiven();
    }

    go(id, isQuiet = false) {
        this.cards.select(id);
        const node = this.views.get(id)?.node;
        if (node && !isQuiet) {
            node.scrollIntoView({block: 'start'});
            node.focus({preventScroll: true});
        }
    }

    nameOf(card) { return `${numberOf(this.cards.path(card.id), card)} ${titleOf(card)}`; }

    learn(cards) { return Promise.all(cards.map(card => this.facts.learn(card.problem))); }

    // Adds cards behind a card (or as a new chain) and goes to the last one.
    async append(parent, ...cards) {
        await this.learn(cards);
        return this.add(parent, cards);
    }

    // The same of cards whose problems are learned; what `give()` changes is undone with them.
    add(parent, cards, give = () => {}) {
        if (parent && !this.cards.get(parent.id)) {
            say('The card is gone.');
            return null;
        }
        if (parent) this.view(parent).select([]);
        let card;
        this.cards.change(() => {
            give();
            card = this.cards.add(parent?.id ?? null, ...cards);
        });
        this.go(card.id);
        return card;
    }

    // What a long search found, `input` being the text of the problem that was given at the card, if one was: shown at once where the user still
    // is where it was started, else offered.
    async found(card, here, {what, cards, input, give}) {
        // The user may go elsewhere meanwhile.
        await this.learn(cards);
        if (!this.cards.get(card.id)) {
            say(`${what}: the card is gone.`);
            return;
        }
        if (this.cards.current === here) {
            this.add(card, cards, give);
            return;
        }
        let last;
        this.cards.change(() => {
            const now = this.cards.current;
            give();
            last = this.cards.add(card.id, ...cards);
            this.cards.select(now);
        });
        this.view(this.cards.get(card.id)).note({kind: 'found', what, id: last.id, input});
        say(`${what}: found; the cards stand behind problem ${numberOf(this.cards.path(card.id), card)}.`);
    }

    // ---- Running commands for a card. Faults and stops become notes on it, and the answer is null.

    async ask(view, words, input, title = words.join(' ')) {
        return this.noted(view, title, this.engine.start('re', words, input, {title}));
    }

    async work(view, title, work, ...args) { return this.noted(view, title, this.engine.startWork(work, args, {title, quiet: false})); }

    async noted(view, title, job) {
        try {
            return await job.answer;
        } catch (error) {
            view.noteHint(error instanceof Stopped ? `${title}: stopped.` : `${title}: ${error.message}`);
            return null;
        }
    }

    // ---- What goes out.

    // The lines of a card's problem: as written, or in groups, or one configuration a line.
    async linesOf(card) {
        if (card.written) return card.written;
        const {active, passive} = await this.facts.of(card.problem).written();
        return {active: filledLines(active.text), passive: filledLines(passive.text)};
    }

    async copyProblem(card, from) { copy(await writtenText(this.facts, card), from); }
    async copyLatex(card, from) { copy(latexOf(await this.linesOf(card)), from); }
    // With what is given at the card, where something is and the program reports on that, and doesn't refuse it; else of the problem alone.
    async copyReport(card, from) {
        const alone = await writtenText(this.facts, card), withInput = this.words.has('describe given') && await this.givenText(card),
              ask = text => this.engine.ask('explore', ['describe', 'latex'], text, {title: 'describe'}),
              said = ({text}) => `explore describe latex: ${text.trim()}`;
        const first = await ask(withInput || alone), isRefused = withInput && first.status !== 0,
              answer = isRefused ? await ask(alone) : first;
        if (answer.status === 0) await copy(answer.text, from);
        if (isRefused) say(`${said(first)}. ${answer.status === 0 ? 'Copied without what is given.' : ''}`, true);
        else if (answer.status !== 0) say(said(answer), true);
    }
    // The problem, and behind it what is given at the card; null where nothing is.
    async givenText(card) {
        const input = this.given.at(this.cards.path(card.id), card);
        return input ? givenInput(await writtenText(this.facts, card), input) : null;
    }
    async copyGiven(card, from) { copy(await this.givenText(card), from); }
    async downloadProblem(card, name) { download(`${name}.txt`, await writtenText(this.facts, card)); }
    async toEditor(card) {
        await this.editor.setText(await writtenText(this.facts, card));
        this.editor.focus();
    }
    note(card) { openNoteDialog(card.note, note => this.cards.amend(card.id, {note: note || undefined}), card.id); }
    nameChain(card) {
        openNameDialog(card.title?.trim() || titleOf(card), title => this.cards.amend(card.id, {title: title || undefined}), card.id);
    }
    certificate() { openCertificateDialog(this, this.claim.verdict, this.given.said); }
    tree() { openTreeDialog(this); }
}
