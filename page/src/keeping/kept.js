// What the browser keeps of the page, as a text: each problem stands in it once, and of each line of it what differs from the line before.
import {packText, readHistory, unpackSession} from './sessions.js';

// How many characters a line has of the one before is one character: this one for none, and the next ones.
const NONE = '0'.charCodeAt(0), MOST_SAME = 64;

// Problems are long lists in order, so this is short, and is packed to very little.
export function shortened(text) {
    let before = '';
    return text.split('\n')
        .map(line => {
            const most = Math.min(line.length, before.length, MOST_SAME);
            let same = 0;
            while (same < most && line.charCodeAt(same) === before.charCodeAt(same)) same++;
            before = line;
            return String.fromCharCode(NONE + same) + line.slice(same);
        })
        .join('\n');
}

export function lengthened(text) {
    let before = '';
    return text.split('\n').map(line => before = before.slice(0, line.charCodeAt(0) - NONE) + line.slice(1)).join('\n');
}

// {rest, texts}: the problems, and all else as a text in which they stand as their places.
export function withoutTexts({notes, tries, inputs, history, ...others}) {
    const places = new Map(), placeOf = text => {
        if (!places.has(text)) places.set(text, places.size);
        return places.get(text);
    };
    const rest = JSON.stringify({
        ...others,
        notes: notes.map(([id, {problem, list}]) => [id, {problem: placeOf(problem), list}]),
        tries: tries.map(([problem, list]) => [placeOf(problem), list]),
        inputs: inputs.map(([problem, number]) => [placeOf(problem), number]),
        history: {...history, cards: history.cards.map(card => ({...card, problem: placeOf(card.problem)}))}
    });
    return {rest, texts: [...places.keys()]};
}

export const keptText = ({rest, texts}) => `${rest.slice(0, -1)},"texts":${JSON.stringify(texts.map(shortened))}}`;
export const packKept = kept => packText(keptText(kept));

// What was kept, packed or not, with the states of undo as sessions.js reads them. Problems may stand there themselves, as they did once.
export async function readKept(kept) {
    const {texts = [], notes, tries, inputs = [], history, ...others} = JSON.parse(kept.startsWith('{') ? kept : await unpackSession(kept)),
                                                           problems = texts.map(lengthened), problemAt = place => problems[place] ?? place;
    if (!others.editor || !history) throw new Error('it is damaged');
    return {
        ...others,
        notes: notes.map(([id, {problem, list}]) => [id, {problem: problemAt(problem), list}]),
        tries: tries.map(([problem, list]) => [problemAt(problem), list]),
        inputs: inputs.map(([problem, number]) => [problemAt(problem), number]),
        ...readHistory({...history, cards: history.cards.map(card => ({...card, problem: problemAt(card.problem)}))})
    };
}
