// Problems as the canonical texts that `re read` prints, which may have a million lines: these functions run in workers.
import {configText, placesOf, rowText, sortedSet} from './texts.js';

export const SIDES = ['active', 'passive'];

// Where the two blocks of a canonical text stand: [[start, end], [start, end]], without the line ends behind them.
function blocksAt(text) {
    const gap = text.indexOf('\n\n');
    return [[0, gap], [gap + 2, text.endsWith('\n') ? text.length - 1 : text.length]];
}

const degreeIn = line => line.split(' ').reduce((sum, word) => sum + (Number(word.split('^')[1]) || 1), 0);

// {labels, active: {degree, count, alone}, passive: {degree, count, alone}} of a canonical text; the labels that are alone stand on that side
// alone.
export function describe(text) {
    const known = [new Set(), new Set()];
    const sides = blocksAt(text).map(([start, end], i) => {
        const lineEnd = text.indexOf('\n', start), first = text.slice(start, lineEnd < 0 ? end : Math.min(lineEnd, end)),
              none = /^%(\d+)$/.exec(first);
        if (none) return {degree: Number(none[1]), count: 0};
        let count = 1, word = start;
        for (let at = start; at <= end; at++) {
            const c = at < end ? text.charCodeAt(at) : 10;
            if (c === 10 && at < end) count++;
            // A label ends at a blank, a power or a line end; what stands behind a power is none.
            if (c !== 32 && c !== 94 && c !== 10) continue;
            if (word >= 0) known[i].add(text.slice(word, at));
            word = c === 94 ? -1 : at + 1;
        }
        return {degree: degreeIn(first), count};
    });
    const [active, passive] =
        sides.map((side, i) => ({...side, alone: sortedSet([...known[i]].filter(label => !known[1 - i].has(label)))}));
    return {labels: sortedSet([...known[0], ...known[1]]), active, passive};
}

// The labels that fit no tree: those that stand on one side alone, those that do without them, and so on, as {rounds, isAll}, a list for each
// time. Where nothing is left on a side then, `isAll` says so: there is no solution.
export function lostLabels(text) {
    const rounds = [];
    for (let rest = text;; rest = without(rest, rounds.at(-1))) {
        const {active, passive} = describe(rest), alone = sortedSet([...active.alone, ...passive.alone]);
        if (alone.length) rounds.push(alone);
        if (!alone.length || !active.count || !passive.count) return {rounds, isAll: !active.count || !passive.count};
    }
}

// The text of one side, without the line end behind it; nothing where it has no configuration.
export function sideText(text, side) {
    const [start, end] = blocksAt(text)[SIDES.indexOf(side)];
    return text[start] === '%' ? '' : text.slice(start, end);
}

// The configurations of one side, as lists of labels.
export function configsOf(text, side) {
    const lines = sideText(text, side), known = new Map();
    if (!lines) return [];
    return lines.split('\n').map(line => {
        const config = [];
        for (const word of line.split(' ')) {
            let item = known.get(word);
            if (!item) {
                const [label, power = '1'] = word.split('^');
                known.set(word, item = {label, power: Number(power)});
            }
            for (let n = item.power; n > 0; n--) config.push(item.label);
        }
        return config;
    });
}

// A block of lines: {text, count}, without a line end behind it.
export const blockOf = lines => ({text: lines.join('\n'), count: lines.length});

// The text of a problem whose blocks are given.
export const problemText = ({active, passive}, activeBlock, passiveBlock) =>
    `${activeBlock.text || `%${active.degree}`}\n\n${passiveBlock.text || `%${passive.degree}`}\n`;

// The problem with active and passive exchanged, so that words about the passive side speak of the active one.
export const exchanged = text => {
    const [[a, b], [c, d]] = blocksAt(text);
    return `${text.slice(c, d)}\n\n${text.slice(a, b)}\n`;
};

const remade = (text, linesOf) => problemText(describe(text), ...SIDES.map(side => blockOf(linesOf(side))));

// The problem with each label replaced by its image; `re read` puts it in order.
export function mapped(text, pairs) {
    const image = new Map(pairs);
    return remade(
        text, side => [...new Set(configsOf(text, side).map(config => configText(config.map(label => image.get(label) ?? label))))]);
}

// The same of lines as they were written, groups and all.
export function mappedLines(written, pairs) {
    const image = new Map(pairs),
          mappedLine = line => rowText(placesOf(line).map(set => sortedSet(set.map(label => image.get(label) ?? label))));
    return Object.fromEntries(SIDES.map(side => [side, [...new Set(written[side].map(mappedLine))]]));
}

// The problem without some labels and the configurations that hold them.
export function without(text, labels) {
    const gone = new Set(labels);
    return remade(text, side => configsOf(text, side).filter(config => !config.some(label => gone.has(label))).map(configText));
}

// The problem with configurations added until `strong` may take the place of `weak` on one side.
export function withArrow(text, which, weak, strong) {
    return remade(text, side => {
        const configs = configsOf(text, side), known = new Set(configs.map(configText));
        const waiting = side === which ? configs : [];
        while (waiting.length) {
            const config = waiting.pop(), at = config.indexOf(weak);
            if (at < 0) continue;
            const next = config.map((label, i) => i === at ? strong : label);
            if (!known.has(configText(next))) {
                known.add(configText(next));
                waiting.push(next);
            }
        }
        return [...known];
    });
}

// Where each line of a text begins, and the end of the text.
export function lineStarts(text) {
    const starts = [0];
    for (let at = text.indexOf('\n'); at >= 0; at = text.indexOf('\n', at + 1)) starts.push(at + 1);
    return Uint32Array.from([...starts, text.length + 1]);
}
