// The notation of problem texts: names, items, configurations. Nothing here decides anything; `re read` does.

const LABEL = String.raw`(?:[A-Za-z0-9]|\([A-Za-z0-9_]{1,16}\))`;
const LABELS = new RegExp(LABEL, 'g');
const ITEM = new RegExp(String.raw`^(?:(${LABEL})|\[((?:[ \t]*${LABEL})*)[ \t]*\])(?:\^([1-9][0-9]?))?$`);
const BARE_CHOICE = new RegExp(String.raw`^(${LABEL}{2,})((?:\^[1-9][0-9]?)?)$`);

// A label is kept as it is printed: bare where its name is one letter or digit, else in parentheses.
export const labelOf = written => written.startsWith('(') && written.length === 3 ? written[1] : written;
export const labelsIn = text => (text.match(LABELS) || []).map(labelOf);
export const labelNamed = name => /^[A-Za-z0-9]$/.test(name) ? name : `(${name})`;
export const nameOf = label => label.replace(/[()]/g, '');
export const isName = text => /^[A-Za-z0-9_]{1,16}$/.test(text);
export const isLabel = text => typeof text === 'string' && /^(?:[A-Za-z0-9]|\([A-Za-z0-9_]{1,16}\))$/.test(text);
export const byName = (a, b) => {
    const [x, y] = [nameOf(a), nameOf(b)];
    return x < y ? -1 : x > y ? 1 : 0;
};

// Sets of labels, in the order of the names.
export const sortedSet = labels => [...new Set(labels)].sort(byName);
export const setText = labels => `[${labels.join('')}]`;
export const setKey = labels => sortedSet(labels).join('');

// The words of a line: cut at blanks outside of brackets.
export function wordsOf(line) {
    const words = [];
    let word = '', inside = false;
    for (const c of line) {
        if (c === '[') inside = true;
        if (c === ']') inside = false;
        if (!inside && /[ \t\r]/.test(c)) {
            if (word) words.push(word);
            word = '';
        } else word += c;
    }
    if (word) words.push(word);
    return words;
}

// The items of a line, each with its labels and its power; null where some word is no item.
export function itemsOf(line) {
    const items = [];
    for (const word of wordsOf(line)) {
        const found = ITEM.exec(word);
        if (!found) return null;
        items.push({labels: found[1] ? [labelOf(found[1])] : labelsIn(found[2]), power: Number(found[3] || 1), isGroup: !found[1]});
    }
    return items;
}

// One set of labels for each place: items as often as their powers say. No places where a word is no item.
export const placesOf = line => (itemsOf(line) || []).flatMap(item => Array(item.power).fill(item.labels));

// Equal neighbours are written once, with a power.
export function withPowers(items) {
    const parts = [];
    for (let i = 0, n; i < items.length; i += n) {
        for (n = 1; items[i + n] === items[i]; n++)
            ;
        parts.push(n > 1 ? `${items[i]}^${n}` : items[i]);
    }
    return parts.join(' ');
}

// A configuration as the program prints it.
export const configText = labels => withPowers([...labels].sort(byName));

// A row of sets.
export const rowText = row => withPowers(row.map(set => set.length === 1 ? set[0] : setText(set)));

// The name of a file for something of this name: letters and digits, with a dash between.
export const fileNameOf = name => name.toLowerCase().replace(/[^a-z0-9]+/g, '-').replace(/^-+|-+$/g, '').slice(0, 60) || 'problem';

// Lines that aren't empty, trimmed.
export const filledLines = text => text.split('\n').map(line => line.trim()).filter(Boolean);

// The same with the number of each, from 1: [{text, line}].
export const filledRows = text => text.split('\n').map((row, i) => ({text: row.trim(), line: i + 1})).filter(row => row.text);

// Blocks of lines that aren't empty.
export function blocksOf(text) {
    const blocks = [[]];
    for (const line of text.split('\n')) {
        if (line.trim()) blocks.at(-1).push(line.trim());
        else if (blocks.at(-1).length) blocks.push([]);
    }
    return blocks.filter(block => block.length);
}

// Round Eliminator's choices without brackets, `M PO`, put into brackets; null where there are none.
export function bracketed(text) {
    let changed = false;
    const lines = text.split('\n').map(line => {
        if (line.trim().startsWith('%')) return line;
        let here = false;
        const words = wordsOf(line).map(word => {
            const found = BARE_CHOICE.exec(word);
            if (!found) return word;
            changed = here = true;
            return `[${found[1]}]${found[2]}`;
        });
        return here ? words.join(' ') : line;
    });
    return changed ? lines.join('\n') : null;
}

// The lines of a problem for a paper.
export function latexOf({active, passive}) {
    const label = text => `\\mathsf{${nameOf(text).replace(/_/g, '\\_')}}`;
    const item = ({labels, power, isGroup}) =>
        (isGroup ? `[${labels.map(label).join('')}]` : label(labels[0])) + (power > 1 ? `^{${power}}` : '');
    const side = lines => lines.length ? lines.map(line => itemsOf(line).map(item).join('\\,')).join(' \\\\\n') : '\\emptyset';
    return `\\begin{aligned}\n${side(active)}\n\\end{aligned}\n\\qquad\n\\begin{aligned}\n${side(passive)}\n\\end{aligned}\n`;
}
