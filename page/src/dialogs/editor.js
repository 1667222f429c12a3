// An editor of a problem: the active and the passive constraint, with line numbers and the fault at its line.
import {button, element, faulty, hint, plural, replace} from '../views/dom.js';
import {say} from '../views/messages.js';
import {bracketed, filledLines, sortedSet} from '../texts/texts.js';
import {describe, lostLabels} from '../texts/problems.js';
import {faultLine, isCertificate} from '../texts/certificates.js';
import {LONGEST_SHOWN, NumberedArea} from './numbered_area.js';

const DELAY = 150;

export class Editor {
    // `onRead(canonical, written)` is told of each problem that is read (null: none), `onOther(text)` of a pasted text that is no problem to
    // edit, and `onChange()` of what the user writes.
    constructor(engine, {onRead = () => {}, onOther = null, onChange = () => {}} = {}) {
        Object.assign(this, {engine, onRead, onOther, onChange, problem: null, isOwn: false, replaced: null});
        const area = (label, placeholder) =>
            new NumberedArea({label, placeholder, onInput: changed => this.changed(changed), onLarge: onOther});
        this.active = area('active constraint', 'M^3\nP O^2');
        this.passive = area('passive constraint', 'M [PO]\nO^2');
        this.state = element('div.state', {role: 'status', 'aria-label': 'what is written'});
        this.old = element('div.old', {hidden: true});
        this.node = element('div.editor', {}, element('label', {}, element('span', {}, 'Active constraint'), this.active.node),
            element('label', {}, element('span', {}, 'Passive constraint'), this.passive.node), this.state, this.old);
    }

    get sides() { return {active: this.active.value, passive: this.passive.value}; }
    get text() { return `${this.active.value}\n\n${this.passive.value}\n`; }
    focus() { this.active.text.focus(); }

    // `isOwn` says whether what stands here was written here, and nowhere else.
    set(active, passive) {
        this.keepOld({active, passive});
        this.isOwn = false;
        this.active.value = active;
        this.passive.value = passive;
        this.reading = null;
        return this.read();
    }

    // The same of a text that stands nowhere else.
    setOwn(active, passive) {
        const reading = this.set(active, passive);
        this.isOwn = true;
        return reading;
    }

    // What was written here and stands nowhere else can be brought back, also behind several texts that took its place.
    keepOld(next) {
        const isSame = sides => sides?.active === next.active && sides?.passive === next.passive;
        if (this.isOwn && this.text.trim() && !isSame(this.sides)) this.replaced = this.sides;
        else if (isSame(this.replaced)) this.replaced = null;
        this.showOld();
    }

    showOld() {
        const {replaced} = this, end = () => {
            this.replaced = null;
            this.showOld();
            this.onChange();
        };
        const bringBack = () => {
            this.setOwn(replaced.active, replaced.passive);
            this.onChange();
        };
        this.old.hidden = !replaced;
        replace(this.old, replaced && hint('What you wrote was replaced. '), replaced && button('Bring it back', bringBack),
            replaced && button('×', end, {class: 'quiet close', 'aria-label': 'let it go', title: 'let it go'}));
    }

    // What stood here, as `kept` has it: for a reload.
    get kept() { return {...this.sides, isOwn: this.isOwn, replaced: this.replaced}; }

    async restore({active, passive, isOwn, replaced}) {
        await this.set(active, passive);
        this.isOwn = Boolean(isOwn);
        this.replaced ||= replaced || null;
        this.showOld();
    }

    // A whole problem text: its blocks go to the two areas.
    setText(text) {
        if (text.length > LONGEST_SHOWN) {
            say('The problem is too large for the editor.', true);
            return null;
        }
        const lines = text.replace(/\r/g, '').split('\n'), begin = lines.findIndex(line => line.trim());
        let end = lines.findIndex((line, i) => i > begin && !line.trim());
        if (end < 0) end = lines.length;
        return this.set(lines.slice(Math.max(0, begin), end).join('\n'), lines.slice(end).join('\n').replace(/^\s*\n/, '').trimEnd());
    }

    changed(area) {
        const {value} = area;
        this.isOwn = true;
        this.onChange();
        this.reading = null;
        if (this.onOther && isCertificate(value)) {
            area.value = '';
            this.onOther(value);
            return;
        }
        // What is pasted with its empty line is cut there.
        if (area === this.active && !this.passive.value.trim() && /\S[^\n]*\n\s*\n\s*\S/.test(value)) {
            this.isOwn = false;
            this.setText(value);
            this.isOwn = true;
            return;
        }
        clearTimeout(this.timer);
        this.timer = setTimeout(() => this.read(), DELAY);
    }

    // Asks the program to read what stands there, once for each text; answers the canonical text, or null.
    read() {
        clearTimeout(this.timer);
        this.reading ||= this.readAnew(this.text);
        return this.reading;
    }

    async readAnew(text) {
        this.active.number();
        this.passive.number();
        this.problem = null;
        this.job?.stop();
        if (!text.trim()) {
            replace(this.state, hint('One configuration a line: labels, groups [AB], powers A^2.'));
            this.onRead(null);
            return null;
        }
        this.job = this.engine.start('re', ['read'], text, {quiet: true});
        const answer = await this.job.answer.catch(() => null);
        if (text !== this.text) return null;
        // Stopped, or its worker ended: it may be asked again.
        if (!answer) {
            this.reading = null;
            return null;
        }
        if (answer.status !== 0) {
            this.complain(answer.text.trim());
            this.onRead(null);
            return null;
        }
        return this.accept(text, answer.text);
    }

    async accept(text, canonical) {
        const isLong = canonical.length > LONGEST_SHOWN,
              found = isLong ? await this.engine.work('describe', canonical) : describe(canonical);
        if (text !== this.text) return null;
        const {labels, active, passive} = found, lost = isLong ? {rounds: []} : lostLabels(canonical);
        this.problem = canonical;
        replace(this.state, element('span.good', {}, 'Read: '),
            `${active.count} active and ${plural(passive.count, 'passive configuration')}, ${plural(labels.length, 'label')}.`,
            lostHint(found, lost));
        if (lost.isAll) this.askSolution(text, canonical);
        const lines = area => filledLines(area.value).filter(line => !line.startsWith('%'));
        this.written = {active: lines(this.active), passive: lines(this.passive)};
        this.onRead(canonical, this.written);
        return canonical;
    }

    // Where no label seems to be left, the program's line on it.
    async askSolution(text, canonical) {
        const said = await this.engine.ask('explore', ['flexible'], canonical, {quiet: true}).catch(() => null), line = said?.text.trim();
        if (line === 'no solution' && text === this.text) this.state.append(element('div.faulty', {}, `explore flexible: ${line}`));
    }

    complain(answer) {
        const line = faultLine(answer), first = this.active.count,
              inPassive = line && Math.max(1, Math.min(line - first - 1, this.passive.count));
        if (line && line <= first) this.active.number(line);
        else if (line) this.passive.number(inPassive);
        const where = !line ? '' : line <= first ? ` (active, line ${line})` : ` (passive, line ${inPassive})`;
        const area = line && line > first ? this.passive : this.active, row = area.value.split('\n')[(line > first ? inPassive : line) - 1];
        replace(this.state, faulty(answer), hint(where), advice(answer, line ? row : ''), this.bracketButton());
    }

    // A fault that is none of the text: {text, isFaulty(line, side)}, at the first line that is at fault.
    mark({text, isFaulty}) {
        for (const side of ['active', 'passive']) {
            const line = this[side].value.split('\n').findIndex(row => isFaulty(row.trim(), side)) + 1;
            if (!line) continue;
            this[side].number(line);
            this[side].text.focus();
            replace(this.state, faulty(text), hint(` (${side}, line ${line})`));
            return;
        }
        replace(this.state, faulty(text));
    }

    // One click brackets for Round Eliminator's `M PO`.
    bracketButton() {
        const old = [this.active.value, this.passive.value], fixed = old.map(bracketed);
        if (!fixed[0] && !fixed[1]) return null;
        const changed = fixed.flatMap((text, i) => text ? text.split('\n').filter((line, k) => line !== old[i].split('\n')[k]) : []);
        return element('div', {},
            button(`Bracket the choices: ${changed[0].trim()}`, () => this.setOwn(fixed[0] || old[0], fixed[1] || old[1]),
                {class: 'primary'}));
    }
}

// A bracket that is open on a line, or closed without being open.
function openBracket(line) {
    const pairs = [['[', ']'], ['(', ')']].map(pair => [...pair, ...pair.map(bracket => line.split(bracket).length)]);
    const [open, close, opened, closed] = pairs.find(([, , one, other]) => one !== other) || [];
    return !open          ? null
        : opened > closed ? `A bracket ${open} is open: its ${close} lacks.`
                          : `A bracket ${close} has no ${open} before it.`;
}

function advice(answer, row = '') {
    const found = Object
                      .entries({
                          'a block is missing': 'Write both constraints.',
                          degree: 'All lines of a constraint have one degree, from 2 to 6.',
                          'a third block': 'No empty line may stand within a constraint.',
                      })
                      .find(([fault]) => answer.includes(fault));
    const said = openBracket(row) || found?.[1];
    return said ? element('div.hint', {}, said) : null;
}

// The commonest slips of the pen: labels that stand on one side alone, those that do without them, and a problem of which nothing is left then.
function lostHint({active, passive}, {rounds, isAll}) {
    const said = [['active', active.alone], ['passive', passive.alone]]
                     .filter(([, labels]) => labels.length)
                     .map(([side, labels]) => `${labels.join(', ')} ${labels.length > 1 ? 'stand' : 'stands'} around ${
                              side} nodes alone: no solution has ${labels.length > 1 ? 'them' : 'it'}.`);
    const behind = sortedSet(rounds.slice(1).flat());
    const them = labels => labels.length > 1 ? 'them' : 'it';
    if (behind.length && !isAll)
        said.push(`Without ${them(rounds[0])}, ${behind.join(', ')} ${
            behind.length > 1 ? 'stand' : 'stands'} on one side alone: no solution has ${them(behind)} either.`);
    if (isAll) said.push('There is no solution at all.');
    return said.length ? element('div.hint', {}, said.join(' ')) : null;
}
