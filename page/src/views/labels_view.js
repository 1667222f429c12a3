// The labels of a card, and what they stand for: one step back, or unrolled to the first problem.
import {button, code, cut, element, replace} from './dom.js';
import {meaningOf, unrolledMeaning} from '../cards/chains.js';

export class LabelsView {
    // `isPicked(label)` says whether a label is selected, `onDraw()` is told when labels were drawn.
    constructor(labels, isPicked, onDraw) {
        Object.assign(this, {labels, isPicked, onDraw, isUnrolled: false});
        this.node = element('section.meanings', {'aria-label': 'labels'});
    }

    // The card is number `at` on the path.
    place(path, at) { Object.assign(this, {path, at, unrolled: new Map()}); }

    get isFirst() { return this.path.slice(0, this.at + 1).every(card => card.kind === 'first'); }

    meaning(label) {
        return this.isUnrolled ? unrolledMeaning(this.path, this.at, label, this.unrolled) : meaningOf(this.path, this.at, label);
    }

    draw() {
        const {isFirst, isUnrolled} = this;
        const rows = this.labels.map(
            label => element('div.meaning', {},
                element('button.chip', {type: 'button', 'data-label': label, 'aria-pressed': String(this.isPicked(label))}, label),
                isFirst ? null : code(cut(this.meaning(label), 160))));
        const turn = () => {
            this.isUnrolled = !isUnrolled;
            this.draw();
            this.node.querySelector('.headed button').focus();
        };
        const turnButton = button(
            isUnrolled ? 'one step back' : 'unrolled to the first problem', turn, {class: 'link', 'aria-pressed': String(isUnrolled)});
        replace(this.node,
            element(
                'div.headed', {}, element('h4', {}, isFirst ? 'Labels' : 'Labels and what they stand for'), isFirst ? null : turnButton),
            element(isUnrolled ? 'div.list.long' : 'div.list', {}, rows));
        this.onDraw();
    }

    tip(label) {
        if (!this.path) return null;
        if (this.isFirst) return element('div', {}, element('b', {}, label), ' of the first problem');
        const one = meaningOf(this.path, this.at, label), all = unrolledMeaning(this.path, this.at, label, this.unrolled);
        return element(
            'div', {}, element('b', {}, label), ' = ', code(cut(one, 300)), all !== one ? element('div.code', {}, cut(all, 300)) : null);
    }
}
