// Certificate texts: cut into their sections, and written. Only `re check` judges them.
import {filledLines, itemsOf, labelsIn, placesOf, setKey, setText} from './texts.js';

export const isCertificate = text => /^\s*==\s+certificate\b/.test(text.slice(0, 2000));

// The sections of a text: {word, rest, lines}.
function sectionsOf(text) {
    const sections = [];
    for (const line of text.split('\n')) {
        if (line.startsWith('==')) {
            const [, word = '', ...rest] = line.trim().split(/\s+/);
            sections.push({word, rest, lines: []});
        } else if (sections.length) sections.at(-1).lines.push(line);
    }
    return sections;
}

const filled = section => section.lines.map(line => line.trim()).filter(Boolean);

// {version, kind, back, first, steps: [{problem, rows, map}], pairs}, of a text in which `re check` finds no fault.
export function readCertificate(text) {
    const sections = sectionsOf(text), [head] = sections;
    const bound = {
        version: Number(head.rest[0]),
        kind: head.rest[1],
        back: head.rest[2] === undefined ? null : Number(head.rest[2]),
        first: head.lines.join('\n'),
        steps: [],
        pairs: []
    };
    for (const section of sections.slice(1)) {
        if (section.word === 'step') bound.steps.push({problem: section.lines.join('\n'), rows: [], map: []});
        if (section.word === 'rows') bound.steps.at(-1).rows = filled(section);
        if (section.word === 'map') bound.steps.at(-1).map = filled(section);
        if (section.word === 'back') bound.pairs = filled(section).map(line => labelsIn(line));
    }
    return bound;
}

// The rows and the map of step `number`, from 1: of each the count of its lines, and the first ones; null where there is no such step.
export function stepLines(certificate, number, most) {
    const step = readCertificate(certificate).steps[number - 1], part = lines => ({count: lines.length, lines: lines.slice(0, most)});
    return step ? {rows: part(step.rows), map: part(step.map)} : null;
}

// Of an input of `run` the certificate alone, without the tree behind it.
export function certificateAlone(text) {
    const tree = /^==[ \t]+tree\b/m.exec(text);
    if (!tree) return text;
    const before = text.slice(0, tree.index);
    return /^==[ \t]+end[ \t\r]*\n\s*$/m.test(before.slice(-200)) ? before : text;
}

export function writeCertificate({kind, back, first, steps, pairs}) {
    const byRows = kind !== 'upper' && steps.some(step => step.images);
    const parts = [`== certificate ${byRows ? 2 : 1} ${kind}${kind === 'fixed' ? ` ${back}` : ''}`, first.trim()];
    for (const step of steps) {
        parts.push('== step', step.problem.trim());
        if (kind !== 'upper') parts.push('== rows', ...step.rows);
        parts.push('== map');
        if (kind === 'upper') parts.push(...step.entries.map(([label, set]) => `${label} ${setText(set)}`));
        else if (byRows) parts.push(...(step.images || imagesOf(step)).map(image => image.join(' ')));
        else parts.push(...step.entries.map(([set, label]) => `${setText(set)} ${label}`));
    }
    if (kind === 'fixed') parts.push('== back', ...pairs.map(pair => pair.join(' ')));
    return parts.join('\n') + '\n== end\n';
}

// A map by sets, written by rows: at each place of a row the label of its set.
export function imagesOf({rows, entries}) {
    const labelOfSet = new Map(entries.map(([set, label]) => [setKey(set), label]));
    return rows.map(row => placesOf(row).map(set => labelOfSet.get(setKey(set)) ?? '?'));
}

// The entries of the map of a lower step by sets: [set, label]; of an upper step: [label, set].
export const lowerEntries = lines => lines.map(line => {
    const [set, label] = itemsOf(line) || [];
    return [set?.labels || [], label?.labels[0] || '?'];
});
export const upperEntries = lines => lines.map(line => {
    const [label, set] = itemsOf(line) || [];
    return [label?.labels[0] || '?', set?.labels || []];
});
export const imageLines = lines => lines.map(line => labelsIn(line));

// What `re step 1` prints: the meanings of the labels, and the derived problem.
export function readStep(text) {
    // Without maximal rows there are no labels, and the text begins with the empty line.
    const end = text.startsWith('\n') ? -1 : text.indexOf('\n\n');
    const meanings = end < 0 ? [] : filledLines(text.slice(0, end)).map(line => {
        const [label, set] = line.split(' = ');
        return [labelsIn(label)[0], labelsIn(set)];
    });
    return {meanings, problem: text.slice(end < 0 ? 1 : end + 2)};
}

// The input of `relax`, `restrict` and `rename`.
export const mapInput = (from, to, lines) => `== from\n${from.trim()}\n== to\n${to.trim()}\n== map\n${lines.join('\n')}\n`;
export const pairLines = pairs => pairs.map(pair => pair.join(' '));

export const CLAUSES = {
    L1: 'the degrees of the next problem are those of the one before, exchanged',
    L2: 'the rows are the maximal rows of the passive constraint before, in order',
    L3: 'by sets: the entries have exactly the sets that occur in the rows, each once and ascending; by rows: there are as many images as rows',
    L4: 'the image of each row is an active configuration of the next problem',
    L5: 'for each multiset of the sets that occur from which some choice is active before, each choice of a label that each of them becomes is passive in the next problem',
    U1: 'the degrees of the next problem are those of the one before, exchanged',
    U2: 'the entries have exactly the labels of the next problem, each once and ascending, each with a nonempty set of labels of the problem before',
    U3: 'the sets of each active configuration of the next problem are a good row of the passive constraint before: every choice from them is passive',
    U4: 'from the sets of each passive configuration of the next problem some choice is active before',
    END: 'the last problem has no zero-round fit, or in an upper bound it has one',
    BACK:
        'the first labels of the renaming are exactly those of the last problem, each once and ascending; it is one to one, and makes the last problem the one to which it goes back',
};

// What a refusal says: at END what is wrong, else what the clause asks for.
export function clauseFault({clause, kind}) {
    if (clause !== 'END') return `${clause} asks: ${CLAUSES[clause]}`;
    return kind === 'upper' ? 'END: the last problem is not solvable in 0 rounds, with port numbers alone, so this is no upper bound'
                            : 'END: the last problem is solvable in 0 rounds, so this is no lower bound';
}

// The line of `check`: {line, accepted, refused, step, clause}.
export function readVerdict(text) {
    const refused = /^refused: (?:step (\d+), )?clause (\w+)/.exec(text);
    return {
        line: text.trim(),
        accepted: text.startsWith('accepted: '),
        refused: Boolean(refused),
        step: refused?.[1] ? Number(refused[1]) : null,
        clause: refused?.[2] || null
    };
}

// The number of the line that a fault `input: line l: ..` names, or null.
export const faultLine = text => {
    const found = /^(?:input|limit): line (\d+)/.exec(text);
    return found ? Number(found[1]) : null;
};
