// Looks for maps of labels between two problems. What is found is judged by `re rename` or `re relax` before it is offered.
import {configsOf, describe, SIDES} from './problems.js';

const MOST_CONFIGURATIONS = 50000;

const read = text => {
    const {labels, active, passive} = describe(text);
    return {labels, active, passive, text};
};
const countOf = ({active, passive}) => active.count + passive.count;
const withConfigs = problem => ({...problem, configs: SIDES.map(side => configsOf(problem.text, side))});

// How often a label occurs on either side, by multiplicity.
function occurrences(configs, label) {
    return configs
        .map(side => {
            const counts = {};
            for (const config of side) {
                const n = config.filter(other => other === label).length;
                if (n) counts[n] = (counts[n] || 0) + 1;
            }
            return JSON.stringify(counts);
        })
        .join(' ');
}

const keyOf = numbers => numbers.sort((a, b) => a - b).join(' ');

// The labels in an order in which configurations are complete early.
function searchOrder(from, choicesOf) {
    const configs = from.configs.flat().map(config => new Set(config)), lacking = configs.map(({size}) => size);
    const holds = new Map(from.labels.map(label => [label, []]));
    configs.forEach((labels, i) => labels.forEach(label => holds.get(label).push(i)));
    const order = [], placed = new Set();
    while (order.length < from.labels.length) {
        let best = null, most = -1;
        for (const label of from.labels) {
            if (placed.has(label)) continue;
            const completed = holds.get(label).filter(i => lacking[i] === 1).length + 1 / (1 + choicesOf(label).length);
            if (completed > most) {
                best = label;
                most = completed;
            }
        }
        order.push(best);
        placed.add(best);
        for (const i of holds.get(best)) lacking[i]--;
    }
    return order;
}

// Gives each label an image, the first choice that keeps all configurations: pairs in order; null past so many tries.
function search(from, to, choicesOf, isOneToOne, most) {
    const numbers = new Map(to.labels.map((label, i) => [label, i]));
    const known = to.configs.map(side => new Set(side.map(config => keyOf(config.map(label => numbers.get(label))))));
    const order = searchOrder(from, choicesOf), place = new Map(order.map((label, i) => [label, i])), due = order.map(() => []);
    from.configs.forEach((side, i) => side.forEach(config => {
        const places = config.map(label => place.get(label));
        due[Math.max(...places)].push({places, known: known[i]});
    }));
    const image = [], used = new Set();
    let tries = 0;
    function assign(i) {
        if (i === order.length) return true;
        for (const choice of choicesOf(order[i])) {
            const number = numbers.get(choice);
            if (isOneToOne && used.has(number)) continue;
            if (++tries > most) return false;
            image[i] = number;
            used.add(number);
            if (due[i].every(({places, known: keys}) => keys.has(keyOf(places.map(at => image[at])))) && assign(i + 1)) return true;
            used.delete(number);
        }
        return false;
    }
    return assign(0) ? from.labels.map(label => [label, to.labels[image[place.get(label)]]]) : null;
}

const sameDegrees = (from, to) => SIDES.every(side => from[side].degree === to[side].degree);

// A one-to-one map that makes the one problem the other, as pairs in order.
export function findRenaming(fromText, toText, most = 200000) {
    let from = read(fromText), to = read(toText);
    if (!sameDegrees(from, to) || from.labels.length !== to.labels.length) return null;
    if (SIDES.some(side => from[side].count !== to[side].count) || countOf(from) > MOST_CONFIGURATIONS) return null;
    [from, to] = [withConfigs(from), withConfigs(to)];
    const choices = new Map();
    for (const label of to.labels) {
        const sign = occurrences(to.configs, label);
        choices.set(sign, [...(choices.get(sign) || []), label]);
    }
    const choicesOf = new Map(from.labels.map(label => [label, choices.get(occurrences(from.configs, label)) || []]));
    if ([...choicesOf.values()].some(list => !list.length)) return null;
    return search(from, to, label => choicesOf.get(label), true, most);
}

// A map that makes the second problem a relaxation of the first, as pairs in order.
export function findRelaxation(fromText, toText, most = 200000) {
    const from = read(fromText), to = read(toText);
    if (!sameDegrees(from, to) || countOf(from) > MOST_CONFIGURATIONS || countOf(to) > MOST_CONFIGURATIONS || !to.labels.length)
        return null;
    return search(withConfigs(from), withConfigs(to), () => to.labels, false, most);
}
