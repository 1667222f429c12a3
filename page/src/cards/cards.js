// The tree of cards: what the user has made, as plain data, with undo.
//
// A card is {id, parent, kind, problem, written, title, note}; `problem` is the canonical text, `written` the lines {active, passive}
// as their author wrote them, where there are some. Kinds:
//   'first'   the first problem of a chain; side 'lower' or 'upper' where it was read from a certificate;
//   'step'    the derived problem of the one before: meanings [[label, set]], rows;
//   'given'   a step that was found or read: side 'lower' or 'upper', rows, map (lines), isByRows, and `asked`, the input of the chain with
//             which it was found;
//   'change'  another problem of the same degrees: relax {label: image} for lower bounds and
//             restrict {label: set} for upper ones, either may be missing; or images (by rows).
// `back` {number, pairs} closes the chain that ends at the card as a fixed point.

const MOST_UNDONE = 100;

export class Cards {
    constructor(onChange = () => {}) {
        this.cards = [];
        this.current = null;
        this.undone = [];
        this.done = [];
        this.onChange = onChange;
    }

    get(id) {
        if (this.indexed !== this.cards) Object.assign(this, {indexed: this.cards, byId: new Map(this.cards.map(card => [card.id, card]))});
        return this.byId.get(id) || null;
    }

    children(id) { return this.cards.filter(card => card.parent === id); }
    roots() { return this.children(null); }

    // The cards from the first one to this one.
    path(id = this.current) {
        const path = [];
        for (let card = this.get(id); card; card = this.get(card.parent)) path.unshift(card);
        return path;
    }

    // Cards are never changed, only replaced, so a list of them is enough to come back.
    get state() { return {current: this.current, cards: [...this.cards]}; }

    // Each change of the tree goes through here, so that it can be undone; changes within one are undone with it.
    change(make) {
        if (this.isChanging) {
            make();
            return;
        }
        this.done.push(this.state);
        if (this.done.length > MOST_UNDONE) this.done.shift();
        this.undone = [];
        this.isChanging = true;
        try {
            make();
        } finally { this.isChanging = false; }
        this.onChange();
    }

    undo() { this.travel(this.done, this.undone); }
    redo() { this.travel(this.undone, this.done); }

    travel(from, to) {
        if (!from.length) return;
        to.push(this.state);
        Object.assign(this, from.pop());
        this.onChange();
    }

    // The cards of a session that was read, in place of all others.
    replaceAll({cards, current}) {
        const isFirst = !this.cards.length && !this.done.length;
        this.change(() => {
            if (isFirst) this.done = [];
            this.cards = cards;
            this.current = this.get(current) ? current : (cards.at(-1)?.id ?? null);
        });
    }

    // Adds cards, each behind the one before, and goes to the last one; answers it.
    add(parent, ...cards) {
        this.change(() => {
            let before = parent;
            for (const card of cards) {
                const id = 1 + this.cards.reduce((most, other) => Math.max(most, other.id), 0);
                this.cards = [...this.cards, {...card, id, parent: before}];
                before = id;
            }
            this.current = before;
        });
        return this.get(this.current);
    }

    select(id) {
        if (this.current === id) return;
        this.current = id;
        if (!this.isChanging) this.onChange();
    }

    // Removes a card and all behind it.
    remove(id) {
        this.change(() => {
            const {parent} = this.get(id), gone = new Set([id]);
            // Cards stand behind their parents in the list.
            for (const card of this.cards)
                if (gone.has(card.parent)) gone.add(card.id);
            this.cards = this.cards.filter(card => !gone.has(card.id));
            if (gone.has(this.current)) this.current = parent ?? this.cards.at(-1)?.id ?? null;
        });
    }

    amend(id, values) {
        this.change(() => {
            this.cards = this.cards.map(card => card.id === id ? {...card, ...values} : card);
        });
    }
}
