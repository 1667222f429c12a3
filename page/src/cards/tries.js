// What was tried on a problem, with what came out: kept for each problem, and listed on its cards.
import {inWords, lineText, modelOf} from '../views/claims.js';
import {element, hint, plural, replace, seconds} from '../views/dom.js';

const MOST_KEPT_TRIES = 200;

export class Tries {
    // `views` are those of all cards, `otherInput(view, input)` says where an input isn't the one that is given to a card now, and `onChange()`
    // is told of each row that is added.
    constructor({views, otherInput}, onChange = () => {}) { Object.assign(this, {views, otherInput, onChange, known: new Map()}); }

    of(problem) { return this.known.get(problem) || []; }

    // `what` was asked on the card's problem, and `line` came out; `input` is the text of the problem that was given there, where one was.
    add(view, what, line, {time = null, input} = {}) {
        const {problem} = view.card, list = this.of(problem).filter(tried => tried.what !== what || tried.input !== input);
        this.known.set(problem, [...list, {what, line: line.split('\n', 1)[0], time, ...(input && {input})}].slice(-MOST_KEPT_TRIES));
        for (const other of this.views.values())
            if (other.card.problem === problem) this.show(other);
        this.onChange();
    }

    show(view) {
        const list = this.of(view.card.problem), box = view.tried;
        box.hidden = !list.length;
        replace(box.firstChild, `Tried on this problem: ${plural(list.length, 'command')}`);
        replace(box.querySelector('tbody'), list.map(row => this.row(view, row)));
    }

    row(view, {what, line, time, input}) {
        const other = this.otherInput(view, input);
        return element('tr', {}, element('td.code', {}, what),
            element('td', {title: line}, lineText(inWords(line)), hint(` ${modelOf(line)}`), other && hint(` · ${other}`)),
            element('td.soft', {}, time === null ? '' : seconds(time)));
    }
}
