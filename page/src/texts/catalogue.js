// The catalogue of all small problems: tables of lines `number, problem, answer, what shows it, class with identifiers, what shows that`,
// with tabs between; the last two may lack. A problem stands in it as `AAB ABB / AB BB`, under the names by which its text comes first.
import {configsOf, describe, SIDES} from './problems.js';
import {byName} from './texts.js';

const NAMES = 'ABCDE';

// The name of the table that would have a problem: its number of labels and its degrees.
export const tableName = ({labels, active, passive}) => `${labels.length}-${active.degree}-${passive.degree}`;

function* orders(list) {
    if (list.length < 2) {
        yield list;
        return;
    }
    for (const [i, first] of list.entries())
        for (const rest of orders([...list.slice(0, i), ...list.slice(i + 1)])) yield [first, ...rest];
}

// A problem as the catalogue writes it: {line, names}, the least line of all, and the labels in the order in which they are A, B, ..
// there: their own order, if that gives the least line. Null where it has too many labels.
export function namedForCatalogue(text) {
    const {labels} = describe(text), sides = SIDES.map(side => configsOf(text, side));
    if (labels.length > NAMES.length) return null;
    let least = null;
    for (const order of orders(labels)) {
        const names = new Map(order.map((label, i) => [label, NAMES[i]]));
        const line =
            sides.map(side => side.map(config => config.map(label => names.get(label)).sort().join('')).sort().join(' ')).join(' / ');
        if (least === null || line < least.line) least = {line, names: [...names]};
    }
    return least;
}

const commandsOf = column => column.split('; ').filter(Boolean);

// {number, problem, claims, count, names, isInOrder} of a problem, out of its table of `count` lines; null where it isn't in it. `claims`
// are [{line, shownBy}], as `explore settle` prints them, `names` are [[label, its name there]], and `isInOrder` says whether the labels
// stand there in the same order.
export function catalogueLine(table, text) {
    const found = namedForCatalogue(text), at = found === null ? -1 : table.indexOf(`\t${found.line}\t`);
    if (at < 0) return null;
    const start = table.lastIndexOf('\n', at) + 1, [line] = table.slice(start).split('\n', 1);
    const [number, problem, answer, by = '', identifiers = '', identifiersBy = ''] = line.split('\t'),
                                                                               names = [...found.names].sort(
                                                                                   ([one], [other]) => byName(one, other));
    return {
        number,
        problem,
        claims: [
            {line: answer, shownBy: commandsOf(by)},
            ...(identifiers ? [{line: `with identifiers: ${identifiers}`, shownBy: commandsOf(identifiersBy)}] : [])
        ],
        count: table.trimEnd().split('\n').length,
        names,
        isInOrder: String(names) === String(found.names)
    };
}

// All lines of a table: [{number, problem, answer, by, identifiers, identifiersBy}].
export const rowsOfTable = table => table.trimEnd().split('\n').map(line => {
    const [number, problem, answer, by = '', identifiers = '', identifiersBy = ''] = line.split('\t');
    return {number, problem, answer, by, identifiers, identifiersBy};
});

// Those that have a number or are written with these words, and have this answer and this class, where they are named.
export function rowsFound(rows, {words = '', answer = '', identifiers = ''}) {
    const asked = words.trim(), isNumber = /^\d+$/.test(asked);
    return rows.filter(row => (!answer || row.answer === answer) && (!identifiers || row.identifiers === identifiers) &&
            (!asked || (isNumber ? row.number === asked : asked.split(/\s+/).every(word => row.problem.includes(word)))));
}

// The different values of a column with how often each stands there, the commonest first: [[value, count]].
export function valuesIn(rows, column) {
    const counts = new Map();
    for (const row of rows)
        if (row[column]) counts.set(row[column], (counts.get(row[column]) || 0) + 1);
    return [...counts].sort(([, one], [, other]) => other - one);
}
