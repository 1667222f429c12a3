// A text area with line numbers, in which the line of a fault is marked.
import {element} from '../views/dom.js';

const MOST_NUMBERS = 20000;
// Longer texts would make the page stand still, and nobody edits them: they are held beside the area.
export const LONGEST_SHOWN = 100000;

export class NumberedArea {
    // `onLarge(text)` is told of a text that is pasted and too long to be shown.
    constructor({label, placeholder, fewest = 3, most = 12, onInput = () => {}, onLarge = null}) {
        Object.assign(this, {fewest, most, onInput});
        this.gutter = element('pre.gutter', {'aria-hidden': 'true'});
        this.text = element('textarea', {
            spellcheck: false,
            rows: fewest,
            placeholder,
            'aria-label': label,
            autocomplete: 'off',
            autocapitalize: 'off',
            oninput: () => this.changed()
        });
        this.text.addEventListener('scroll', () => {
            this.gutter.scrollTop = this.text.scrollTop;
        });
        if (onLarge)
            this.text.addEventListener('paste', event => {
                const pasted = event.clipboardData?.getData('text') || '';
                if (pasted.length <= LONGEST_SHOWN) return;
                event.preventDefault();
                onLarge(pasted);
            });
        this.node = element('div.area', {}, this.gutter, this.text);
        this.number();
    }

    get value() { return this.text.value; }
    set value(text) {
        this.text.value = text;
        this.number();
    }

    changed() {
        this.number();
        this.onInput(this);
    }

    get count() {
        let count = 1;
        for (let at = this.value.indexOf('\n'); at >= 0; at = this.value.indexOf('\n', at + 1)) count++;
        return count;
    }

    // Numbers the lines, and marks one that has a fault.
    number(fault = 0) {
        const count = Math.min(MOST_NUMBERS, this.count);
        this.text.rows = Math.max(this.fewest, Math.min(this.most, count));
        if (count !== this.numbered) this.gutter.textContent = Array.from({length: count}, (_, i) => i + 1).join('\n') + '\n';
        this.numbered = count;
        this.node.classList.toggle('faulty', fault > 0);
        this.node.style.setProperty('--fault', fault);
        if (fault > 0 && count > this.text.rows) this.show(fault - 3);
    }

    // Scrolls to a line: it is the first one that is seen, if so many stand behind it.
    show(line) {
        this.text.scrollTop = this.gutter.scrollTop = Math.max(0, (line - 1) * parseFloat(getComputedStyle(this.text).lineHeight));
    }
}
