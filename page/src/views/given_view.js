// What the nodes are given: a field of the chain, kept with its first card, and the line of `explore given` beside it.
import {claimNodes, scopeOf} from './claims.js';
import {$, button, code, element, faulty, hint, replace, stopButton} from './dom.js';
import {say} from './messages.js';
import {Editor} from '../dialogs/editor.js';
import {openDialog} from '../dialogs/dialogs.js';
import {DONE, keepDraft} from '../keeping/drafts.js';
import {Stopped} from '../engine/engine.js';
import {givenFault, givenInput, INPUT_KINDS, inputCommand, isOwnKind, readFit, readGiven} from '../texts/inputs.js';
import {NumberField} from '../dialogs/number_field.js';
import {describe, exchanged} from '../texts/problems.js';
import {labelsIn} from '../texts/texts.js';
import {placeIn, titleOf} from '../cards/chains.js';

const FIT_LIMIT = 20000, INPUT_LIMIT = 4000;

export class Given {
    // `names` are those of inputs, `refresh()` shows the chain anew, `forThis(job)` runs a job of the chain that is shown, `openText(text, title)`
    // opens a text, and `onSaid(view, fault)` is told of each line of `explore given`.
    constructor({engine, words, facts, cards, names, refresh, forThis, openText, onSaid}) {
        Object.assign(this, {engine, words, facts, cards, names, refresh, forThis, openText, onSaid});
        if (!this.isOffered) return;
        const offered =
            INPUT_KINDS.filter(({kind}) => ['nothing', 'problem'].includes(kind) || inputCommand(words, kind, {active: {}, passive: {}}));
        this.kind = element('select', {id: 'given-kind', 'aria-label': 'what is given', onchange: () => this.choose()},
            offered.map(({kind, says}) => element('option', {value: kind}, kind === 'problem' ? `${says}…` : says)));
        this.count = element('input', {type: 'number', value: '4'});
        this.countBox = element('label', {}, this.count, element('span', {}));
        this.number = new NumberField(this.count, {least: 2, most: 16, label: 'what is given', onChange: () => this.typed()});
        this.own = code();
        this.edit = button('Change…', () => this.openProblem(), {class: 'link'});
        this.product = button('Product', () => this.openProduct(), {
            class: 'link',
            title: 'explore product: opens the problem whose labels are pairs of a label of this problem and one of what is given'
        });
        this.line = element('span', {id: 'given-line', role: 'status', 'aria-label': 'the line of explore given'});
        replace($('#given'),
            element('label', {title: 'what nodes know besides port numbers: a solution of this problem'}, 'Given', this.kind),
            this.countBox, this.own, this.edit, this.product, this.line);
    }

    get isOffered() { return this.words.has('given'); }

    // Of a path the input problem of its first card, or null: while another number is written nothing is given.
    of(path) { return this.isOffered && !this.isPending && path[0]?.given || null; }

    show(path) {
        $('#given').hidden = !this.isOffered || !path.length;
        if (!this.isOffered || !path.length) return;
        const {first} = this, [{given}] = path, kind = given?.kind || 'nothing',
              counts = INPUT_KINDS.find(other => other.kind === kind)?.counts;
        this.first = path[0];
        // Another chain, or another input of it.
        const isOther = first?.id !== this.first.id || JSON.stringify(first.given) !== JSON.stringify(given);
        if (isOther) {
            clearTimeout(this.timer);
            this.isPending = false;
        }
        // A kind that this program doesn't offer is a problem as any other.
        this.kind.value = kind;
        if (this.kind.value !== kind) this.kind.value = 'problem';
        this.countBox.hidden = !counts;
        const isOwn = Boolean(given) && isOwnKind(kind);
        this.own.hidden = !isOwn;
        if (isOwn) this.own.textContent = this.names.of(given);
        this.edit.hidden = this.kind.value !== 'problem';
        this.product.hidden = !given || this.isPending || !this.words.has('product');
        if (counts) this.showCount(counts, given, isOther);
        if (!given) replace(this.line);
    }

    showCount(counts, {count}, isOther) {
        const {problem} = this.facts.of(this.first.problem);
        this.count.setAttribute('aria-label', counts.label);
        this.countBox.lastChild.textContent = counts.label;
        Object.assign(this.number, {label: `number of ${counts.label}`});
        this.number.bound(counts.least(problem), counts.most);
        if (isOther) this.number.value = count ?? this.number.least;
    }

    // ---- What the user chooses.

    // What stood here, and on the cards, was said of another number: until this one is judged nothing is.
    typed() {
        this.turn = this.choosing = {};
        clearTimeout(this.timer);
        if (!this.isPending) {
            this.isPending = true;
            this.refresh();
        }
        this.sayPending();
        if (this.number.value !== null) this.timer = setTimeout(() => this.choose(), 400);
    }

    sayPending() {
        replace(this.line,
            this.number.value === null
                ? faulty(`Nothing is judged: the ${this.number.label} has to be from ${this.number.least} to ${this.number.most}.`)
                : hint('asking…'));
    }

    async choose() {
        const {first} = this, kind = this.kind.value, counts = INPUT_KINDS.find(other => other.kind === kind).counts;
        const turn = this.choosing = {};
        if (kind === 'nothing') {
            this.keep(first, undefined);
            return;
        }
        if (kind === 'problem') {
            this.openProblem();
            return;
        }
        const {problem} = this.facts.of(first.problem);
        const count = !counts ? 0 : first.given?.kind === kind ? this.number.value : Math.max(counts.start, counts.least(problem));
        const command = inputCommand(this.words, kind, problem, count);
        const {status, text} =
            await this.engine.ask(command.program, command.words, '', {quiet: true}).catch(error => ({status: 1, text: error.message}));
        if (turn !== this.choosing) return;
        if (status !== 0) {
            say(`${command.program} ${command.words.join(' ')}: ${text.trim().split('\n', 1)[0]}`, true);
            Object.assign(this, {isPending: false, first: null});
            this.refresh();
            return;
        }
        this.keep(first, {kind, problem: text, ...(counts && {count})});
    }

    // Gives an input to the chain that begins with a card; nothing where there is none.
    keep(first, input) {
        this.isPending = false;
        const now = this.cards.get(first.id), given = input && this.names.numbered(input);
        if (now && JSON.stringify(now.given) !== JSON.stringify(given)) this.cards.amend(first.id, {given});
        else this.refresh();
    }

    // A problem of the user's own, of the degrees of the first one.
    async openProblem() {
        const {first, engine, facts} = this, {active, passive} = facts.of(first.problem).problem;
        const use = button('Use it', async () => {
            const problem = await editor.read(), fault = problem && await this.faultOf(first, problem);
            if (!problem || !dialog.open) return;
            if (fault) {
                editor.mark(fault);
                return;
            }
            dialog.close(DONE);
            this.keep(first, {kind: 'problem', problem});
        }, {class: 'primary', disabled: true});
        const editor = new Editor(engine, {
            onRead: problem => {
                use.disabled = !problem;
            }
        });
        const dialog = openDialog('What the nodes are given',
            element('p', {},
                hint(`A problem of degrees ${active.degree} and ${
                    passive.degree}, each of whose labels stands on both sides. Nodes know a solution of it.`)),
            editor.node, element('footer', {}, use));
        dialog.addEventListener('close', () => this.show(this.cards.path()));
        await editor.setText(first.given?.problem || facts.of(first.problem).text);
        keepDraft(dialog, `given ${first.id} ${first.problem}`);
        editor.focus();
    }

    // Where the program says that a problem is no input of the first one: {text, isFaulty(line, side)}, which lines are at fault.
    async faultOf(first, problem) {
        const certificate = `== certificate 1 lower\n${first.problem}== end\n`, wanted = this.facts.of(first.problem).problem;
        const {text} =
            await this.engine.ask('explore', ['given'], givenInput(certificate, problem), {quiet: true, limit: INPUT_LIMIT, title: 'given'})
                .catch(() => ({text: ''}));
        const [, what] = /^no: not an input: (\S+)/.exec(text) || [];
        if (!what) return null;
        const found = describe(problem);
        if (what !== 'degrees')
            return {
                text: `explore given: ${text.trim()}: each label has to stand on both sides.`,
                isFaulty: line => labelsIn(line).includes(what)
            };
        const degrees = ({active, passive}) => `${active.degree} and ${passive.degree}`;
        return {
            text: `explore given: ${text.trim()}: here they are ${degrees(found)}, and those of the problem ${degrees(wanted)}.`,
            isFaulty: (line, side) => line && found[side].degree !== wanted[side].degree
        };
    }

    // The product of the first problem and what is given, as a chain of its own.
    async openProduct() {
        const {first} = this, {given} = this.cards.get(first.id);
        const {status, text} = await this.engine.ask('explore', ['product'], givenInput(first.problem, given.problem), {title: 'product'})
                                   .catch(error => ({status: 1, text: error.message}));
        if (status !== 0) say(`explore product: ${text.trim().split('\n', 1)[0]}`, true);
        else await this.openText(text, `${titleOf(first)}, and ${this.nameOf(given)}`);
    }

    // ---- What the program says.

    // What was said of another chain goes at once, and what is on its way is not shown.
    forget(path) {
        Object.assign(this, {turn: {}, said: null});
        if (this.isOffered && !this.isPending) replace(this.line, this.of(path) ? hint('asking…') : null);
    }

    // The line of `explore given` on the certificate that was judged.
    async judge(path, verdict) {
        const turn = this.turn = {}, given = this.of(path);
        this.said = null;
        if (this.isPending) this.sayPending();
        if (!given) return;
        if (!verdict.certificate) {
            replace(this.line, hint('No bound to judge.'));
            return;
        }
        const text = givenInput(verdict.certificate, given.problem),
              job = this.engine.start('explore', ['given'], text, {quiet: true, title: 'given'});
        replace(this.line, hint('asking… '), stopButton(job));
        const answer = await this.forThis(job).catch(error => ({text: error instanceof Stopped ? 'stopped' : error.message}));
        if (turn !== this.turn) return;
        const {line, still, accepted, refused, step} = readGiven(answer.text), fault = refused ? givenFault(answer.text, verdict.kind) : '';
        this.said = {line, accepted, text, input: given};
        replace(this.line, claimNodes(line, accepted ? 'span.good.line' : 'span.faulty.line', scopeOf(line)), fault && hint(` · ${fault}`),
            still ? [' ', claimNodes(still, 'span.good.line', scopeOf(still))] : null);
        this.line.title = `explore given\n${answer.text.trim()}`;
        this.onSaid(refused && {line, fault, step});
    }

    nameOf(input) { return this.names.of(input); }

    // What a search reads behind the problem of a card: {name, input, problem}, `input` as it is given to the chain, and `problem` as it is
    // given at the card; null where nothing is given.
    asked(path, card) {
        const input = this.of(path);
        return input && {name: this.nameOf(input), input, problem: this.at(path, card)};
    }

    // Where something was asked on a card with an input, the text of a problem, that isn't the one that is given there now: what it says of that.
    otherInput({path, card}, input) {
        const now = input && path ? this.at(path, card) : null;
        if (!input || !path || input === now) return null;
        return now === null ? 'asked with that input; now nothing is given'
                            : `asked with that input; now given: ${this.nameOf(this.of(path))}`;
    }

    // What is given at a card, or null: behind an odd number of steps the input problem has its sides exchanged.
    at(path, card) {
        const given = this.of(path);
        return given && (placeIn(path, card).at % 2 ? exchanged(given.problem) : given.problem);
    }

    // Whether a card's problem is solvable in 0 rounds given that input: what `fit` answers, and null where nothing is given.
    async fit(path, card) {
        const input = this.at(path, card);
        if (!input || !this.words.has('fit')) return null;
        const {text} =
            await this.engine.ask('explore', ['fit'], givenInput(card.problem, input), {quiet: true, limit: FIT_LIMIT, title: 'fit'});
        return readFit(text);
    }
}

// The map of `fit`: what each input label becomes.
export const fitNode = map =>
    element('div.fit', {}, element('h4', {}, 'Solved in 0 rounds, given that input: what each input label becomes'),
        element('div.list', {}, map.map(([label, set]) => element('span.meaning', {}, code(label), ' → ', code(set)))));
