// What the program says of a problem, asked once for each canonical text.
import {blockOf, SIDES, sideText} from '../texts/problems.js';
import {filledLines, labelsIn} from '../texts/texts.js';

// Past so many configurations diagrams are asked for by a button, and past so many a problem isn't written in groups.
const MANY = 20000, MOST_GROUPED = 200000, GROUPING_LIMIT = 10000;

export class Facts {
    constructor(engine) {
        this.engine = engine;
        this.known = new Map();
    }

    // What is known of a problem, once its labels and numbers are counted.
    async learn(text) {
        let facts = this.known.get(text);
        if (!facts) {
            facts = new ProblemFacts(this.engine, text, await this.engine.work('describe', text));
            this.known.set(text, facts);
        }
        return facts;
    }

    // The same of a problem that was learned, as that of each card.
    of(text) { return this.known.get(text); }
}

class ProblemFacts {
    // `problem` is {labels, active: {degree, count}, passive: {degree, count}}.
    constructor(engine, text, problem) {
        Object.assign(this, {engine, text, problem, asked: new Map()});
        this.count = problem.active.count + problem.passive.count;
        this.isLarge = this.count > MANY;
    }

    once(key, ask) {
        if (!this.asked.has(key)) {
            const answer = ask();
            this.asked.set(key, answer);
            answer.catch(() => this.asked.delete(key));
        }
        return this.asked.get(key);
    }

    ask(...words) { return this.once(words.join(' '), () => this.engine.ask('re', words, this.text, {quiet: true})); }

    // {isSolvable, config, text}: the zero-round verdict.
    zero() {
        return this.once('verdict of zero', async () => {
            const {status, text} = await this.ask('zero');
            if (status > 1) throw new Error(text.trim());
            return {isSolvable: status === 0, config: text.replace(/^yes: /, '').trim(), text: text.trim()};
        });
    }

    // {classes: [[label]], edges: [[weaker, stronger]]} by the least labels of the classes. `onJob(job)` is told of the run, and `isAsked` says
    // whether the user asked for it.
    diagram(side, onJob = () => {}, isAsked = false) {
        return this.once(`drawn ${side}`, async () => {
            const job = this.engine.start('re', ['diagram', side], this.text, {quiet: !isAsked, title: `diagram ${side}`}), classes = [],
                  edges = [];
            onJob(job);
            const {status, text} = await job.answer;
            if (status !== 0) throw new Error(text.trim());
            for (const line of filledLines(text))
                (line.startsWith('class ') ? classes : edges).push(labelsIn(line.slice(line.indexOf(' ') + 1)));
            return {classes, edges};
        });
    }

    // Both sides one configuration a line: {active, passive, text}, the sides as blocks of lines.
    plain() {
        const block = side => ({text: sideText(this.text, side), count: this.problem[side].count});
        return {active: block('active'), passive: block('passive'), text: this.text};
    }

    // The same in groups, as `explore condense` writes it.
    async grouped() {
        if (this.count > MOST_GROUPED || !this.engine.programs.explore) return this.plain();
        return this.once('grouped', async () => {
            const {status, text} =
                await this.engine.ask('explore', ['condense'], this.text, {quiet: true, limit: GROUPING_LIMIT, title: 'groups'});
            if (status !== 0) return this.plain();
            const [active, passive] = SIDES.map(side => blockOf(filledLines(sideText(text, side))));
            return {active, passive, text};
        });
    }

    // What certificates and copies hold: groups, unless they take long.
    written() { return this.grouped().catch(() => this.plain()); }
}
