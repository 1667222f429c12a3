// The list of all cards beside the chain: the tree that is shown, and one line for each other tree.
import {numberOf, shortTitleOf} from '../cards/chains.js';
import {$, button, element, plural, replace} from './dom.js';

export class CardList {
    constructor({cards, facts, nameOf, go}) {
        Object.assign(this, {cards, facts, nameOf, go});
        // Where the user was last in each tree, by its first card.
        this.lastOf = new Map();
    }

    show(path) {
        const {cards} = this, on = new Set(path.map(card => card.id));
        if (path.length) this.lastOf.set(path[0].id, path.at(-1).id);
        const rows = cards.roots().flatMap(root => on.has(root.id) ? this.rowsOf(root, 0, on) : [this.rowOfTree(root)]);
        replace($('#card-list'), rows);
        $('#card-box').hidden = !rows.length;
        $('#undo').disabled = !cards.done.length;
        $('#redo').disabled = !cards.undone.length;
    }

    rowsOf(card, depth, on) {
        const {cards, facts} = this, name = this.nameOf(card), shown = `${numberOf(cards.path(card.id), card)} ${shortTitleOf(card)}`,
                      children = cards.children(card.id);
        const row =
            this.row(on.has(card.id) ? 'li.on' : 'li', card.id, shown, plural(facts.of(card.problem).problem.labels.length, 'label'));
        row.style.paddingLeft = `${6 + depth * 14}px`;
        row.firstChild.title = name;
        if (card.id === cards.current) row.firstChild.setAttribute('aria-current', 'true');
        return [row, ...children.flatMap(child => this.rowsOf(child, depth + (children.length > 1 ? 1 : 0), on))];
    }

    rowOfTree(root) {
        const {cards} = this, count = cards.cards.filter(card => cards.path(card.id)[0] === root).length;
        const last = cards.get(this.lastOf.get(root.id)) || root;
        return this.row('li.other', last.id, this.nameOf(root), plural(count, 'card'));
    }

    row(kind, id, name, size) {
        return element(
            kind, {}, button(name, () => this.go(id), {class: 'link', 'aria-label': `problem ${name}`}), element('small', {}, size));
    }
}
