// One card: a problem with its constraints, diagrams, meanings and what can be done with it.
import {button, code, element, hint, intoView, plural, replace} from './dom.js';
import {say} from './messages.js';
import {isStep, numberOf, stagesOf, titleOf} from '../cards/chains.js';
import {clauseFault} from '../texts/certificates.js';
import {blockOf, SIDES} from '../texts/problems.js';
import {cardActions, selectionActions} from './card_actions.js';
import {DiagramView} from './diagram_view.js';
import {fitNode} from './given_view.js';
import {LabelsView} from './labels_view.js';
import {lineParts, LinesView} from './lines_view.js';
import {searchesGiven} from './search_actions.js';

const MOST_WRITTEN_LINES = 300;

const labelAt = event => event.target.closest?.('[data-label]')?.getAttribute('data-label');

export class CardView {
    constructor(workbench, card) {
        Object.assign(this, {workbench, card, selected: [], isOpen: true, running: new Set()});
        this.facts = workbench.facts.of(card.problem);
        this.build();
        this.listen();
    }

    build() {
        const {card, facts: {problem}} = this, {engine} = this.workbench, onDraw = () => this.showSelected();
        this.lines = Object.fromEntries(SIDES.map(side => [side, new LinesView(engine, `${side} constraint`, onDraw)]));
        this.diagrams =
            Object.fromEntries(SIDES.map(side => [side, new DiagramView(engine, this.facts, side, () => this.fileName, onDraw)]));
        this.labels = new LabelsView(problem.labels, label => this.selected.includes(label), onDraw);
        this.fault = element('div.fault', {role: 'alert', 'aria-label': 'what is refused', hidden: true});
        this.faultGiven = element('div.fault', {role: 'alert', 'aria-label': 'what is refused with what is given', hidden: true});
        this.asked = element('p.asked', {hidden: true});
        this.selection = element('div.selection', {hidden: true, role: 'group', 'aria-label': 'selected labels'});
        this.remarks = element('div.remarks', {role: 'log', 'aria-label': 'notes on this card'});
        this.tried = element('details.written', {hidden: true}, element('summary', {}),
            element('div.tried', {}, element('table', {}, element('tbody', {}))));
        this.actions = element('div.actions', {});
        this.searchesGiven = element('div.hint', {hidden: true});
        this.fit = element('div', {hidden: true});
        this.catalogue = element('div', {hidden: true});
        this.branches = element('div.branches', {});
        this.comment = element('p.comment', {hidden: true});
        this.back = element('p.back', {hidden: true});
        this.written = element('details.written', {hidden: true, ontoggle: () => this.fillWritten()},
            element('summary', {}, 'The step as the certificate has it'), element('div.parts', {}));
        const constraints = element('div.constraints', {}, SIDES.map(side => this.constraint(side)));
        const pictures = element('div.diagrams', {}, SIDES.map(side => this.diagrams[side].node));
        const body = element('div.body', {}, this.comment, this.asked, element('div.problem', {}, constraints, pictures), this.labels.node,
            this.catalogue, this.fit, this.written, this.back, this.selection, this.actions, this.remarks, this.tried);
        this.workbench.tries.show(this);
        this.workbench.notes.show(this);
        this.node =
            element('article.card', {tabIndex: -1, id: `card-${card.id}`}, this.head(), this.fault, this.faultGiven, body, this.branches);
    }

    head() {
        const {problem} = this.facts;
        this.number = element('span.number', {});
        this.title = element('h3.title', {});
        this.zero = element('span.badge.waiting', {}, '0 rounds: …');
        this.zeroGiven = element('span.badge.waiting', {hidden: true});
        this.toggle = button('', () => this.open(!this.isOpen), {class: 'toggle', 'aria-label': 'open or close the card'});
        return element('header', {}, this.toggle, this.number, this.title,
            element('span.badges', {},
                element('span.badge', {title: 'degrees: active, passive'}, `degrees ${problem.active.degree}, ${problem.passive.degree}`),
                element('span.badge', {}, plural(problem.labels.length, 'label')), this.zero, this.zeroGiven));
    }

    constraint(side) {
        const {degree, count} = this.facts.problem[side];
        return element('section', {'aria-label': `${side} constraint`},
            element('h4', {}, side === 'active' ? 'Active' : 'Passive',
                element('small', {}, ` degree ${degree}, ${plural(count, 'configuration')}`)),
            this.lines[side].node);
    }

    get fileName() { return `problem-${this.number.textContent.replace(/′/g, '-')}`; }

    listen() {
        this.node.addEventListener('click', event => {
            const edge = event.target.closest?.('.edge');
            if (edge) {
                this.select([edge.dataset.weak, edge.dataset.strong]);
                return;
            }
            const label = labelAt(event);
            if (label && !event.target.closest('.selection, .remarks') && getSelection().isCollapsed) this.pick(label);
        });
        this.node.addEventListener('pointerover', event => this.point(labelAt(event), event.target));
        this.node.addEventListener('pointerleave', () => this.point(null));
        this.node.addEventListener('focusin', event => {
            if (event.target.matches(':focus-visible')) this.point(labelAt(event), event.target);
        });
        this.node.addEventListener('focusout', () => this.point(null));
    }

    // Marks all places of a label on the card, and says what it stands for.
    point(label, target) {
        if (label) this.workbench.tip.show(this.labels.tip(label), target.closest('[data-label]'));
        else this.workbench.tip.hide();
        if (label === this.marked) return;
        this.marked = label;
        for (const node of this.node.querySelectorAll('.marked')) node.classList.remove('marked');
        if (label)
            for (const node of this.placesOf(label)) node.classList.add('marked');
    }

    placesOf(label) { return this.node.querySelectorAll(`[data-label="${CSS.escape(label)}"]`); }

    // ---- Selected labels.

    pick(label) { this.select(this.selected.includes(label) ? this.selected.filter(other => other !== label) : [...this.selected, label]); }

    select(labels) {
        this.selected = labels;
        this.showSelected();
        this.selection.hidden = !labels.length;
        if (labels.length) replace(this.selection, selectionActions(this.workbench, this.card, this));
    }

    showSelected() {
        const {selected} = this;
        for (const node of this.node.querySelectorAll('.picked')) node.classList.remove('picked');
        for (const label of selected)
            for (const node of this.placesOf(label)) node.classList.add('picked');
        for (const chip of this.labels.node.querySelectorAll('.chip'))
            chip.setAttribute('aria-pressed', String(selected.includes(chip.getAttribute('data-label'))));
    }

    isStronger(side, weak, strong) { return this.diagrams[side].isStronger(weak, strong); }

    // ---- What is shown: asked for once the card is open and near to what is seen.

    open(isOpen) {
        this.isOpen = isOpen;
        this.node.classList.toggle('closed', !isOpen);
        this.toggle.setAttribute('aria-expanded', String(isOpen));
        this.workbench.watch(this);
    }

    // Answers when all of it is there.
    comeNear() {
        this.isNear = true;
        const badges = [this.fillZero(), this.fillGiven()];
        if (!this.isOpen || this.isFilled) return this.filled;
        this.isFilled = true;
        this.node.classList.add('filled');
        this.labels.draw();
        replace(this.actions, cardActions(this.workbench, this.card, this), this.searchesGiven);
        this.filled = Promise.all([...badges, this.fillLines(), this.fillCatalogue(), ...SIDES.map(side => this.diagrams[side].fill())]);
        return this.filled;
    }

    async fillZero() {
        if (this.isZeroFilled) return;
        this.isZeroFilled = true;
        try {
            const {isSolvable, config} = await this.facts.zero();
            this.zero.className = `badge ${isSolvable ? 'yes' : 'no'}`;
            replace(this.zero, isSolvable ? ['0 rounds: yes, ', code(...lineParts(config))] : '0 rounds: no');
            this.zero.title = isSolvable ? 'solvable without communication: each active node outputs this'
                                         : 'not solvable without communication, with port numbers alone';
        } catch (error) { this.zero.textContent = `0 rounds: ${error.message}`; }
    }

    // Whether it is solvable in 0 rounds given the input of the chain, with the labels that each input label becomes.
    async fillGiven() {
        const {path, card, workbench: {given}} = this, input = given.of(path),
                                      key = input && `${path.slice(0, this.at + 1).filter(isStep).length % 2} ${input.problem}`;
        if (!this.isNear || key === this.fitKey) return;
        this.fitKey = key;
        this.zeroGiven.hidden = this.searchesGiven.hidden = !input;
        this.fit.hidden = true;
        if (!input) return;
        replace(this.searchesGiven, searchesGiven(this.workbench, given.nameOf(input)));
        this.zeroGiven.className = 'badge waiting';
        replace(this.zeroGiven, '0 rounds given: …');
        const {isSolvable, map, line} =
            await given.fit(path, card).catch(error => ({line: error.message, map: []})) || {line: 'not asked', map: []};
        if (key !== this.fitKey) return;
        this.zeroGiven.className = isSolvable ? 'badge yes' : 'badge no';
        replace(this.zeroGiven, `0 rounds given: ${isSolvable ? 'yes' : line}`);
        this.zeroGiven.title = 'explore fit: whether it is solvable without communication given the input of the chain';
        this.fit.hidden = !map.length;
        if (map.length) replace(this.fit, fitNode(map));
    }

    async fillCatalogue() {
        const node = await this.workbench.catalogue.node(this.card, this).catch(() => null);
        this.catalogue.hidden = !node;
        replace(this.catalogue, node);
    }

    async fillLines() {
        const {written} = this.card, show = blocks => {
            for (const side of SIDES) this.lines[side].show(blocks[side], `%${this.facts.problem[side].degree} (none)`);
        };
        if (written && SIDES.some(side => written[side].some(line => line.includes('[')))) {
            show({active: blockOf(written.active), passive: blockOf(written.passive)});
            return;
        }
        show(this.facts.plain());
        await this.facts.grouped().then(show, () => {});
    }

    // Rows and map of the step that leads to this card, out of the certificate that was judged.
    async fillWritten() {
        if (!this.written.open) return;
        const {engine, claim} = this.workbench, {verdict} = claim,
                       number = stagesOf(this.path).findIndex(stage => stage.includes(this.card));
        const step =
            verdict?.certificate ? await engine.work('stepLines', verdict.certificate, number, MOST_WRITTEN_LINES).catch(() => null) : null;
        if (verdict !== claim.verdict) return;
        const part = ({count, lines}, title) => count
            ? element('div', {}, element('h4', {}, title),
                  element('pre', {tabIndex: 0}, lines.join('\n') + (count > lines.length ? '\n…' : '')))
            : null;
        replace(this.written.lastChild,
            step ? [part(step.rows, plural(step.rows.count, 'row')), part(step.map, `${plural(step.map.count, 'line')} of the map`)]
                 : hint('Not judged yet.'));
    }

    // ---- Where the card stands: its path, and what comes behind it.

    place(path, isLast) {
        const {card} = this, at = path.indexOf(card);
        Object.assign(this, {path, at});
        this.labels.place(path, at);
        this.placeInput();
        this.number.textContent = numberOf(path, card);
        this.title.textContent = titleOf(card);
        this.node.setAttribute('aria-label', `problem ${this.number.textContent}, ${titleOf(card)}`);
        this.node.classList.toggle('last', isLast);
        this.written.hidden = path[at + 1]?.kind === 'change' || path.slice(0, at + 1).every(other => !isStep(other));
        this.fillWritten();
        if (this.wasLast !== isLast) {
            // Of a long chain the first card and the last ones stand open.
            const isNearEnd = path.length < 6 || at === 0 || at > path.length - 3;
            this.open(isLast || path[at + 1].kind !== 'change' && isNearEnd);
        }
        this.wasLast = isLast;
        this.back.hidden = !(isLast && card.back);
        if (isLast && card.back) {
            const {number, pairs} = card.back;
            replace(this.back, element('strong', {}, `Back to problem ${number}: `), code(pairs.map(pair => pair.join(' → ')).join(', ')));
        }
        this.comment.hidden = !card.note;
        this.comment.textContent = card.note || '';
        this.refuse(null);
        this.refuseGiven(null);
        this.showBranches(isLast);
        this.fillGiven();
    }

    // What is said of another input than the one that is given now says so.
    placeInput() {
        const {card, path, workbench: {given, notes, tries}} = this, now = given.at(path, card), {asked} = card;
        const isOther = asked && now !== null ? asked.problem !== path[0].given.problem : Boolean(asked);
        this.asked.hidden = !isOther;
        if (isOther)
            replace(this.asked,
                hint(`found given ${given.nameOf(asked)}; now ${
                    now === null ? 'nothing is given' : `given: ${given.nameOf(given.of(path))}`} `),
                button('Give that again', () => given.keep(path[0], asked), {class: 'link'}));
        if (now === this.inputShown) return;
        this.inputShown = now;
        notes.show(this);
        tries.show(this);
    }

    // The card that a refused verdict names; answers the place for more words on why.
    refuse(verdict) {
        this.fault.hidden = !verdict;
        this.node.classList.toggle('failing', Boolean(verdict));
        if (!verdict) return null;
        const more = element('div', {});
        replace(this.fault, element('strong', {}, verdict.line), ` · ${clauseFault(verdict)}.`, more);
        return more;
    }

    // The card that a refusal with what is given names.
    refuseGiven(said) {
        this.faultGiven.hidden = !said;
        if (said) replace(this.faultGiven, element('strong', {}, said.line), ` · ${said.fault}.`);
    }

    showBranches(isLast) {
        const {workbench, card} = this, next = this.path[this.at + 1];
        const others = workbench.cards.children(card.id).filter(child => child !== next);
        replace(this.branches, others.length ? [hint(isLast ? 'Goes on:' : 'Other branches:'),
            ...others.map(child => button(workbench.nameOf(child), () => workbench.go(child.id), {class: 'link'}))] : []);
    }

    // ---- Notes below the problem.

    // A note as notes.js has it; it comes into view.
    note(note) {
        const node = this.workbench.notes.add(this, note);
        if (this.node.isConnected && this.isOpen) intoView(node);
        return node;
    }

    noteHint(text) { this.note({kind: 'hint', text}); }

    complain(text) {
        this.note({kind: 'fault', text});
        say(text, true);
    }
}
