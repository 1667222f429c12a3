// What an input is called: its kind with its number, and a problem of the user's own by its first line and a number, which tells it from others.
import {INPUT_KINDS, isOwnKind} from '../texts/inputs.js';
import {cut} from '../views/dom.js';

const LONGEST_LINE = 24;

export class InputNames {
    // The problems of one's own that were met, each with its number.
    constructor() { this.numbers = new Map(); }

    get kept() { return [...this.numbers]; }

    // The number of a problem: the one that it has, or the wished one where no other problem has that, else the next one.
    numberOf(problem, wished) {
        if (!this.numbers.has(problem)) {
            const taken = new Set(this.numbers.values()), isFree = Number.isInteger(wished) && wished > 0 && !taken.has(wished);
            this.numbers.set(problem, isFree ? wished : 1 + Math.max(0, ...taken));
        }
        return this.numbers.get(problem);
    }

    // An input {kind, count, problem} with its number, where it is a problem of one's own.
    numbered(input) { return isOwnKind(input.kind) ? {...input, number: this.numberOf(input.problem, input.number)} : input; }

    of({kind, count, problem, number}) {
        if (isOwnKind(kind)) {
            const [line] = problem.split('\n', 1);
            return `your problem ${this.numberOf(problem, number)}, “${cut(line, LONGEST_LINE)}”`;
        }
        const {says, counts} = INPUT_KINDS.find(other => other.kind === kind);
        return `${says}${counts && count ? `, ${count} ${counts.label}` : ''}`;
    }
}
