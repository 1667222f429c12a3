// The searches of a card: each has a button with its name and behind it its own numbers, kept from card to card.
import {button, element, hint} from './dom.js';
import {kindsOf} from '../cards/chains.js';
import {NumberField, numbersOf} from '../dialogs/number_field.js';

const STEPS = {
    name: 'k',
    most: 64,
    unit: 'steps',
    label: 'K, the most steps'
},
      MERGES = {
          name: 'm',
          most: 8,
          unit: 'merges',
          label: 'M, the most merges in each step'
      },
      SIZES = {
          name: 'l',
          least: 2,
          most: 128,
          unit: 'labels',
          label: 'L, the most labels of a problem'
      };

// `word` is that of `explore` which has to be there, `kind` that of the chains that it goes on from, and `more` the title of the button
// that asks again and again. `command(numbers)` is what the program is asked.
const SEARCHES = [
    {
        name: 'lower',
        command: ({k, m}) => `re lower ${k} ${m}`,
        title: 'a lower bound of K steps, at most M merges in each; Stop keeps the best of fewer steps',
        more: 'lower bounds of 1, 2 and more steps, until none is found or you stop; Stop keeps the best',
        numbers: [{...STEPS, start: 2, label: 'K, the number of steps'}, {...MERGES, start: 0}]
    },
    {
        name: 'upper',
        command: ({k, m}) => `re upper ${k} ${m}`,
        title: 'an upper bound of at most K steps, at most M labels left out in each',
        numbers: [{...STEPS, start: 3}, {...MERGES, start: 0, unit: 'left out', label: 'M, the most labels left out in each step'}]
    },
    {
        name: 'fixed',
        command: ({k, m}) => `re fixed ${k} ${m}`,
        title: 'a fixed point: at most K steps that come back, at most M merges in each',
        numbers: [{...STEPS, least: 1, start: 4}, {...MERGES, start: 1}]
    },
    {
        name: 'rounds',
        command: ({k}) => `re rounds ${k}`,
        title: 'the exact number of rounds, up to K; Stop keeps what is known',
        numbers: [{...STEPS, start: 8, unit: 'at most', label: 'K, the most rounds'}]
    },
    {
        name: 'longest',
        word: 'longest',
        kind: 'lower',
        command: ({k, l}) => `explore longest ${k} ${l}`,
        title:
            'a long lower bound, by a heuristic: up to K more steps, to problems of at most L labels; Stop keeps the best of fewer steps',
        more: 'asked again with twice as many steps or labels, until you stop; Stop keeps the best',
        numbers: [{...STEPS, start: 8, label: 'K, the most further steps'}, {...SIZES, start: 10}]
    },
    {
        name: 'shortest',
        word: 'shortest',
        kind: 'upper',
        command: ({k, l}) => `explore shortest ${k} ${l}`,
        title: 'a short upper bound, by a heuristic: at most K more steps, to problems of at most L labels',
        more: 'asked again with twice as many steps and labels, until one is found or you stop',
        numbers: [{...STEPS, start: 8, label: 'K, the most further steps'}, {...SIZES, start: 10}]
    },
    {
        name: 'cycle',
        word: 'cycle',
        kind: 'lower',
        command: ({k, m}) => `explore cycle ${k} ${m} 20000`,
        title: 'the fewest further steps that come back, up to K, at most M merges in each',
        more: 'asked again with more steps, merges or problems looked at, until one is found or you stop',
        numbers: [{...STEPS, start: 4, label: 'K, the most further steps'}, {...MERGES, start: 1}]
    },
    {
        name: 'relaxed',
        word: 'relaxed',
        kind: 'lower',
        command: ({n}) => `explore relaxed ${n}`,
        title: 'a fixed point behind a relaxation of this problem, or of one a few steps on; at most N relaxations are looked at',
        more: 'asked again with twice as many relaxations, until one is found, there are no more, or you stop',
        numbers: [{name: 'n', least: 1, most: 1000000, start: 1000, unit: 'tries', label: 'N, the most relaxations looked at'}]
    },
    {
        name: 'closure',
        word: 'closure',
        kind: 'lower',
        command: ({k}) => `explore closure${k ? ` ${k}` : ''}`,
        title: 'a fixed point by right-closed sets, of this problem or after up to K more steps',
        numbers: [{...STEPS, most: 8, start: 3, label: 'K, the most further steps'}]
    },
    {
        name: 'cover',
        word: 'cover',
        command: ({m}) => `explore cover ${m}`,
        title: 'a graph of at most M active nodes on which there is no solution, so that no number of rounds is enough',
        numbers: [{name: 'm', least: 1, most: 64, start: 3, unit: 'nodes', label: 'M, the most active nodes'}]
    },
];

// The numbers as they stand before the user changes any: {search: {number: value}}.
export const firstNumbers = () =>
    Object.fromEntries(SEARCHES.map(({name, numbers}) => [name, Object.fromEntries(numbers.map(number => [number.name, number.start]))]));

// Why a search does not go on from this chain: what its kind lacks.
const REASONS = {
    lower: 'a restriction (Leave out, or a step of an upper bound) stands in this chain, so no lower bound goes on from it',
    upper: 'a relaxation (a merge, an edit, or a step of a lower bound) stands in this chain, so no upper bound goes on from it'
};

// Which of the searches ask with what is given, where something is.
export function searchesGiven({words}, name) {
    const asking =
        SEARCHES.filter(search => (!search.word || words.has(search.word)) && words.has(`${search.name} given`)).map(search => search.name);
    const names = asking.length > 1 ? `${asking.slice(0, -1).join(', ')} and ${asking.at(-1)} ask` : `${asking[0]} asks`,
          settle = words.has('settle given') ? ', as Settle does' : '';
    return asking.length
        ? `Of these searches ${names} with what is given (${name})${settle}; the others ask for bounds that hold without it.`
        : `None of these searches asks with what is given (${name}): they ask for bounds that hold without it.`;
}

export function searchActions(bench, card, view) {
    const kinds = kindsOf(bench.cards.path(card.id)), offered = SEARCHES.filter(({word}) => !word || bench.words.has(word));
    const isOff = ({kind}) => kind && !kinds.includes(kind), off = offered.filter(isOff);
    const reasons = Object.entries(REASONS)
                        .map(([kind, reason]) => [off.filter(search => search.kind === kind).map(({name}) => name), reason])
                        .filter(([names]) => names.length);
    return element('div.group.search', {role: 'group', 'aria-label': 'searches'},
        offered.map(search => searchNode(bench, card, view, search, isOff(search))),
        reasons.map(([names, reason]) => hint(`Not here: ${names.join(', ')}: ${reason}.`)));
}

function searchNode(bench, card, view, {name, command, title, more, numbers, kind}, isOff) {
    const kept = bench.numbers[name], fields = [];
    const run = goesOn => () => {
        if (numbersOf(fields)) bench.searches.run(card, view, name, {...kept}, goesOn);
    };
    const bounds = numbers.map(({label}) => label).join('; ');
    const say = () => {
        start.title = `${command(kept)}\n${isOff ? REASONS[kind] : title}${bounds ? `\n${bounds}` : ''}`;
    };
    const start = button(name, run(false), {disabled: isOff});
    const node = element('span.ask', {'data-search': name, role: 'group', 'aria-label': name}, start,
        numbers.map(number => numberNode(kept, name, number, fields, isOff, say)),
        more ? button('+', run(true), {class: 'more', disabled: isOff, title: more, 'aria-label': `${name}, and more until stopped`})
             : null);
    say();
    return node;
}

// A number with what it counts beside it; what is out of the range isn't kept.
function numberNode(kept, search, {name, least = 0, most, unit, label}, fields, isOff, onKept) {
    const input = element('input', {
        type: 'number',
        class: ['short', '', 'long'][String(most).length - 1] ?? 'longest',
        value: String(kept[name]),
        title: label,
        disabled: isOff,
        'aria-label': `${search}: ${label}`,
    });
    const node = element('span.number-of', {}, input, element('span', {'aria-hidden': 'true'}, unit));
    const field = new NumberField(input, {
        least,
        most,
        label: `${search}: ${label}`,
        onChange: () => {
            if (field.value === null) return;
            kept[name] = field.value;
            onKept();
        }
    });
    fields.push(field);
    return node;
}
