// Notes on cards: what came out of what the user asked for. They are plain data, kept for each card, so that they outlive its view and a
// reload. `what` was asked, and `input` is the text of the problem that was given there, where one was. Kinds:
//   'hint', 'fault' {text};
//   'answer' {what, line, more, input}: what a command answered;
//   'text' {what, text, input}: a text to copy;
//   'settled' {text, what, more, input, isBegun}: what `settle` printed, with a button for each thing that shows it, and its time; `isBegun`
//       where that is a beginning of what it prints;
//   'graph' {what, line, text, input}: a graph without a solution;
//   'found' {what, id, input}: cards that were found while the user was elsewhere.
import {button, copy, element, faulty, hint, replace} from '../views/dom.js';
import {claimNodes, inWords, lineText, modelOf} from '../views/claims.js';

const MOST_NOTES = 40;

export class Notes {
    // `cards` are those that notes lead to, by `go(id)`; `otherInput(view, input)` says where an input isn't the one that is given to a card now;
    // `settled(view, note)` makes what is seen of an answer of `settle`, and `draw(text)` draws a graph. `onChange()` is told when notes came
    // or went.
    constructor({cards, go, otherInput, settled, draw}, onChange = () => {}) {
        Object.assign(this, {cards, go, otherInput, settled, draw, onChange, known: new Map()});
    }

    // Those of a card: after undo there may be another card with its number.
    of({id, problem}) {
        const kept = this.known.get(id);
        return kept?.problem === problem ? kept.list : [];
    }

    add(view, note) {
        const {id, problem} = view.card;
        this.set(view, [note, ...this.of(view.card)].slice(0, MOST_NOTES), id, problem);
        return view.remarks.querySelector('.note');
    }

    // Without those that `isOld(note)` holds of.
    replace(view, isOld) { this.set(view, this.of(view.card).filter(note => !isOld(note))); }

    // A note in the place of the first one that `isOld(note)` holds of, and of them all.
    put(view, note, isOld) {
        const list = this.of(view.card), at = list.findIndex(isOld);
        this.set(view, list.flatMap((other, i) => i === at ? [note] : isOld(other) ? [] : [other]));
    }

    remove(view, note) {
        this.replace(view, other => other === note);
        view.node.focus({preventScroll: true});
    }

    set(view, list, id = view.card.id, problem = view.card.problem) {
        this.known.set(id, {problem, list});
        this.show(view);
        this.onChange();
    }

    // Where the focus was in a note, the card has it.
    show(view) {
        const list = this.of(view.card), isHere = view.remarks.contains(document.activeElement),
              all = list.length > 1 && button(`Clear all ${list.length} notes`, () => this.set(view, []), {class: 'link clear'});
        replace(view.remarks, list.map(note => this.node(view, note)), all);
        if (isHere) view.node.focus({preventScroll: true});
    }

    node(view, note) {
        const close = button('×', () => this.remove(view, note), {class: 'quiet close', 'aria-label': 'close the note'});
        const other = this.otherInput(view, note.input);
        return element('div.note', {}, NODES[note.kind](note, view, this), other && hint(` · ${other}`), close);
    }
}

const NODES = {
    hint: ({text}) => hint(text),
    fault: ({text}) => faulty(text),
    answer: ({what, line, more}) => [element('strong', {}, what), ' ', element('span', {title: line}, lineText(inWords(line))),
        hint(` ${modelOf(line)} ${more || ''}`)],
    text: ({what, text}) => [element('strong', {}, lineText(what)), hint(` ${modelOf(what)} `),
        button('Copy', event => copy(text, event.currentTarget), {class: 'link'}), element('pre', {tabIndex: 0}, text.trim() || '(none)')],
    settled: (note, view, {settled}) => settled(view, note),
    graph: ({what, line, text}, view,
        {draw}) => [element('strong', {}, what), ' ', claimNodes(line), ' ', button('Draw the graph', () => draw(text)), ' ',
        button('Copy', event => copy(text, event.currentTarget),
            {class: 'link', title: 'the problem and the graph: what explore solve judges'})],
    found: ({what, id}, view, {cards,
        go}) => [element('strong', {}, what), ' found. ', cards.get(id) ? button('Show', () => go(id)) : hint('The cards are gone.')],
};

// A note in its form, out of what was kept.
export const isNote = note => typeof note === 'object' && note !== null && Object.hasOwn(NODES, note.kind) &&
    ['what', 'line', 'text', 'more', 'input'].every(key => note[key] === undefined || typeof note[key] === 'string');
