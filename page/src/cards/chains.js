// A path of cards as a chain of problems: its numbers, its certificate, and what its labels stand for.
// The cards between two steps are one problem of the certificate, that of the last of them.
import {imageLines, imagesOf, lowerEntries, upperEntries, writeCertificate} from '../texts/certificates.js';
import {byName, placesOf, setKey, setText, sortedSet} from '../texts/texts.js';

export const isStep = card => card.kind === 'step' || card.kind === 'given';

// The path cut into the problems of a certificate: each a first card or a step, with the changes behind it.
export function stagesOf(path) {
    const stages = [];
    for (const card of path) {
        if (card.kind === 'change' && stages.length) stages.at(-1).push(card);
        else stages.push([card]);
    }
    return stages;
}

// Where a card stands in a path: the stage, and the place in it. A card that was amended meanwhile is the same one.
export function placeIn(path, card) {
    const isSame = other => other === card || other.id !== undefined && other.id === card.id, stages = stagesOf(path),
          at = stages.findIndex(stage => stage.some(isSame));
    return {at, place: stages[at].findIndex(isSame)};
}

// `1`, `1′`, `1″`: the number of the problem in the certificate, with a mark for each change.
export function numberOf(path, card) {
    const {at, place} = placeIn(path, card);
    return at + (place > 3 ? `′${place}` : '′'.repeat(place));
}

// The card that is problem `step` of the certificate of a path; the last one where there is none.
export const cardAt = (path, step) => step === null ? path.at(-1) : stagesOf(path)[step]?.at(-1) || path.at(-1);

const LONGEST_NAME = 48;

// The first line of a problem, as its author wrote it, cut where it is long.
function firstLineOf({written, problem}) {
    const line = written?.active[0] ?? problem.slice(0, problem.indexOf('\n'));
    return line.length > LONGEST_NAME ? `${line.slice(0, LONGEST_NAME)}…` : line;
}

// A name may come with a foreign session: one that reads like what the programs say stands in quotes, and a long one is cut.
const LONGEST_TITLE = 160,
      LIKE_A_LINE = /accepted|refused|holds:|solv|exactly|more than|at most|at least|^(yes|no)\s*(:|$)|^no solution|rounds?$/i;
function namedAs(title) {
    const [shown] = title.trim().split('\n'), short = shown.length > LONGEST_TITLE ? `${shown.slice(0, LONGEST_TITLE)}…` : shown;
    return LIKE_A_LINE.test(short.normalize('NFKC')) ? `“${short}”` : short;
}

// A first problem has the name that it was given, else its first line.
export function titleOf(card) {
    const title = card.title && namedAs(card.title);
    if (card.kind === 'first') return title || firstLineOf(card);
    if (card.kind === 'step') return 'derived problem';
    if (card.kind === 'given') return `${card.side} step${card.isByRows ? ' by rows' : ''}${title ? `, ${title}` : ''}`;
    return title || 'changed problem';
}

// The same in a list, where there is little room.
export const shortTitleOf = card => card.kind === 'given' && card.title ? namedAs(card.title) : titleOf(card);

// The kinds of bounds that a chain can be written as.
export function kindsOf(path) {
    const serves = kind => path.every(card => card.kind === 'first' && (!card.side || card.side === kind) || card.kind === 'step' ||
            card.kind === 'given' && card.side === kind ||
            card.kind === 'change' && (kind === 'lower' ? card.relax || card.images : card.restrict));
    return ['lower', 'upper'].filter(serves);
}

const keyOf = labels => [...labels].sort().join('');

// The image of an image under a change by rows: each label of a row goes to the label at its place.
function imageUnder(change, image) {
    const found = change.images.find(([config]) => keyOf(config) === keyOf(image));
    if (!found) return image;
    const free = found[0].map((label, i) => [label, found[1][i]]);
    return image.map(label => free.splice(free.findIndex(pair => pair[0] === label), 1)[0][1]);
}

// Rows and map of the step of a lower bound that leads to the last card of a stage: {rows, entries} or {rows, images}.
export function lowerStep([base, ...changes]) {
    let entries = null, images = null;
    if (base.kind === 'step') entries = base.meanings.map(([label, set]) => [set, label]);
    else if (base.isByRows) images = imageLines(base.map);
    else entries = lowerEntries(base.map);
    for (const change of changes) {
        if (change.relax) {
            const become = label => change.relax[label] ?? label;
            if (images) images = images.map(image => image.map(become));
            else entries = entries.map(([set, label]) => [set, become(label)]);
        } else {
            images = (images || imagesOf({rows: base.rows, entries})).map(image => imageUnder(change, image));
            entries = null;
        }
    }
    return {rows: base.rows, entries, images};
}

// The map of the step of an upper bound that leads to the last card of a stage.
export function upperStep([base, ...changes]) {
    let entries = base.kind === 'step' ? base.meanings : upperEntries(base.map);
    for (const change of changes) {
        const setOf = new Map(entries);
        entries = Object.entries(change.restrict).map(([label, from]) => [label, sortedSet(from.flatMap(old => setOf.get(old) || []))]);
    }
    return {entries: changes.length ? [...entries].sort((a, b) => byName(a[0], b[0])) : entries};
}

// The certificate of a path; `written(card)` is the text of its problem.
export function certificateOf(path, kind, written) {
    const stages = stagesOf(path), last = stages.map(stage => stage.at(-1)), {back} = path.at(-1);
    return writeCertificate({
        kind,
        back: back?.number,
        pairs: back?.pairs,
        first: written(last[0]),
        steps: stages.slice(1).map(
            (stage, i) => ({problem: written(last[i + 1]), ...(kind === 'upper' ? upperStep(stage) : lowerStep(stage))})),
    });
}

// Which labels or sets of the card before a change become one of these labels.
function beforeChange({relax, restrict, images}, labels) {
    if (relax) return sortedSet(Object.keys(relax).filter(from => labels.includes(relax[from])));
    if (restrict) return sortedSet(labels.flatMap(to => restrict[to] || []));
    return sortedSet(images.flatMap(([config, image]) => config.filter((_, i) => labels.includes(image[i]))));
}

function setsBefore(card, labels) {
    let pairs;
    if (card.kind === 'step') pairs = card.meanings;
    else if (card.side === 'upper') pairs = upperEntries(card.map);
    else if (card.isByRows)
        pairs = imageLines(card.map).flatMap((image, i) => image.map((to, place) => [to, placesOf(card.rows[i] || '')[place] || []]));
    else pairs = lowerEntries(card.map).map(([set, to]) => [to, set]);
    const sets = new Map();
    for (const [to, set] of pairs)
        if (labels.includes(to)) sets.set(setKey(set), set);
    return [...sets.values()];
}

// Where a label of a card comes from: sets of labels of the last card before the step, or labels of the first card.
export function originsOf(path, at, label) {
    let labels = [label];
    for (; at > 0 && path[at].kind === 'change'; at--) labels = beforeChange(path[at], labels);
    return at === 0 ? {labels, at, sets: null} : {labels, at: at - 1, sets: setsBefore(path[at], labels)};
}

// The meaning of a label, as sets of labels of the problem before.
export function meaningOf(path, at, label) {
    const {sets, labels} = originsOf(path, at, label);
    if (sets && !sets.length) return 'new: no set of the step becomes it';
    return (sets || [labels]).map(setText).join(' or ');
}

// The same, unrolled down to the labels of the first card; what is longer is cut. `known` serves all labels of one path.
export function unrolledMeaning(path, at, label, known = new Map(), most = 2000) {
    const key = `${at} ${label}`;
    if (known.has(key)) return known.get(key);
    const {sets, labels, at: before} = originsOf(path, at, label);
    let text = '';
    if (!sets) text = labels.join('|');
    else if (!sets.length) text = `‹${label}›`;
    for (const [i, set] of (sets || []).entries()) {
        if (text.length > most) break;
        text += `${i ? '|' : ''}[`;
        for (const [k, from] of set.entries()) {
            if (text.length > most) break;
            text += (k && before > 0 ? ' ' : '') + unrolledMeaning(path, before, from, known, most);
        }
        text += ']';
    }
    if (text.length > most) text = text.slice(0, most) + '…';
    known.set(key, text);
    return text;
}
