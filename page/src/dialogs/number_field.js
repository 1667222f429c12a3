// A field for a whole number: what is out of its range is marked, with the range beside it, and has no value.
import {element} from '../views/dom.js';
import {say, unsay} from '../views/messages.js';

let count = 0;

export class NumberField {
    // `onChange()` is told of each change that the user makes.
    constructor(input, {least, most, label, onChange = () => {}}) {
        Object.assign(this, {input, label});
        this.range = element('span.range.faulty', {id: `range-${++count}`, hidden: true});
        input.setAttribute('aria-describedby', this.range.id);
        input.addEventListener('input', () => {
            // What was said of the number before.
            unsay(`${this.fault}.`);
            this.mark();
            onChange();
        });
        input.after(this.range);
        this.bound(least, most);
    }

    // The range from now on.
    bound(least, most) {
        Object.assign(this.input, {min: String(least), max: String(most)});
        Object.assign(this, {least, most});
        this.range.textContent = `${least} to ${most}`;
        this.mark();
    }

    // The number that stands there; null where it is none of the range.
    get value() {
        const number = this.input.valueAsNumber;
        return Number.isInteger(number) && number >= this.least && number <= this.most ? number : null;
    }

    set value(number) {
        if (this.input.value !== String(number)) this.input.value = String(number);
        this.mark();
    }

    get fault() { return `${this.label}: a number from ${this.least} to ${this.most}`; }

    mark() {
        const isOut = !this.input.disabled && this.value === null;
        this.range.hidden = !isOut;
        if (isOut) this.input.setAttribute('aria-invalid', 'true');
        else this.input.removeAttribute('aria-invalid');
    }
}

// The numbers of fields; null where one is out of its range: it gets the focus, and a message says what it takes.
export function numbersOf(fields) {
    const wrong = fields.find(field => field.value === null);
    if (!wrong) return fields.map(field => field.value);
    wrong.input.focus();
    say(`${wrong.fault}.`, true);
    return null;
}
