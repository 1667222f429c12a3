// A session as a text: all cards, written as JSON, and packed for the address. A text that is read is a foreign one.
import {isLabel} from '../texts/texts.js';

const FORMAT = 're-workbench-1';

export const sessionText = ({cards, current}) => JSON.stringify({format: FORMAT, current, cards});
// What Share gives: a packed session behind some words; null in any other text.
export const sharedIn = text => /^#s=([\w-]+)\s*$/.exec(text.slice(Math.max(0, text.lastIndexOf('#s='))))?.[1] || null;

export const isSession = text => /^\s*\{/.test(text.slice(0, 100));

const isText = value => typeof value === 'string';
const isList = (value, holds) => Array.isArray(value) && value.every(holds);
const isRecord = value => typeof value === 'object' && value !== null && !Array.isArray(value);
const isLabels = value => isList(value, isLabel);
const isPairs = value => isList(value, pair => isLabels(pair) && pair.length === 2);
const isMeanings = value => isList(value, pair => isList(pair, () => true) && pair.length === 2 && isLabel(pair[0]) && isLabels(pair[1]));
const isImages = value => isList(value, pair => isList(pair, isLabels) && pair.length === 2 && pair[0].length === pair[1].length);
const isMap = (value, holds) => isRecord(value) && Object.entries(value).every(([label, image]) => isLabel(label) && holds(image));
const maybe = (value, holds) => value === undefined || holds(value);

const isGiven = value => isRecord(value) && isText(value.kind) && isText(value.problem) && maybe(value.count, Number.isInteger) &&
    maybe(value.number, Number.isInteger);

const PARTS = {
    first: card => maybe(card.side, side => ['lower', 'upper'].includes(side)) && maybe(card.given, isGiven),
    step: card => isMeanings(card.meanings) && isList(card.rows, isText),
    given: card => ['lower', 'upper'].includes(card.side) && isList(card.rows, isText) && isList(card.map, isText) &&
        maybe(card.isByRows, value => typeof value === 'boolean') && maybe(card.asked, isGiven),
    change: card => maybe(card.relax, value => isMap(value, isLabel)) && maybe(card.restrict, value => isMap(value, isLabels)) &&
        maybe(card.images, isImages) && Boolean(card.relax || card.restrict || card.images),
};

const isWritten = value => isRecord(value) && isList(value.active, isText) && isList(value.passive, isText);
const isBack = value => isRecord(value) && Number.isInteger(value.number) && isPairs(value.pairs);

function isCard(card) {
    return isRecord(card) && Number.isInteger(card.id) && card.id > 0 && Object.hasOwn(PARTS, card.kind) && isText(card.problem) &&
        maybe(card.title, isText) && maybe(card.note, isText) && maybe(card.written, isWritten) && maybe(card.back, isBack) &&
        PARTS[card.kind](card);
}

// {cards, current}, each card in its form and behind its parent; throws where the text is no session of this page.
// What the cards say of their problems isn't judged here.
export function readSession(text) {
    let state;
    try {
        state = JSON.parse(text);
    } catch { throw new Error('not a saved session: its text is damaged'); }
    if (!isRecord(state) || !isText(state.format) || !state.format.startsWith('re-workbench-')) throw new Error('not a saved session');
    if (state.format !== FORMAT) throw new Error(`a session of another version of this page (${state.format}; this one reads ${FORMAT})`);
    if (!Array.isArray(state.cards)) throw new Error('not a saved session: it has no cards');
    return {cards: placed(state.cards), current: state.current};
}

// Cards in their form, each behind its parent; else it throws.
function placed(cards) {
    const known = new Set();
    for (const [i, card] of cards.entries()) {
        if (!isCard(card)) throw new Error(`card ${i + 1} of the session has another form`);
        const isPlaced = card.kind === 'first' ? card.parent === null : known.has(card.parent);
        if (known.has(card.id) || !isPlaced) throw new Error(`card ${i + 1} of the session is out of place`);
        known.add(card.id);
    }
    return cards;
}

// The cards with what undo and redo go back to, each card once: {cards, now, done, undone}, the states as [current, places of cards].
export function historyOf({cards, current, done, undone}) {
    const places = new Map(), placeOf = card => {
        if (!places.has(card)) places.set(card, places.size);
        return places.get(card);
    };
    const row = state => [state.current, state.cards.map(placeOf)], now = row({cards, current}),
          rows = [done, undone].map(states => states.map(row));
    return {now, done: rows[0], undone: rows[1], cards: [...places.keys()]};
}

// {now, done, undone, all}: the states with their cards, and all cards; throws where it has another form.
export function readHistory({now, done, undone, cards}) {
    const state = ([current, places]) => ({current, cards: placed(places.map(place => cards[place]))});
    return {now: state(now), done: done.map(state), undone: undone.map(state), all: cards};
}

// Packing for the address of the page.
const through = async (bytes, stream) => new Uint8Array(await new Response(new Blob([bytes]).stream().pipeThrough(stream)).arrayBuffer());
const toBase64 = bytes => {
    let text = '';
    for (let i = 0; i < bytes.length; i += 32768) text += String.fromCharCode(...bytes.subarray(i, i + 32768));
    return btoa(text).replace(/\+/g, '-').replace(/\//g, '_').replace(/=+$/, '');
};
const fromBase64 = text => Uint8Array.from(atob(text.replace(/-/g, '+').replace(/_/g, '/')), c => c.charCodeAt(0));

export const packText = async text => toBase64(await through(new TextEncoder().encode(text), new CompressionStream('deflate-raw')));
export const packSession = state => packText(sessionText(state));
export const unpackSession = async packed =>
    new TextDecoder().decode(await through(fromBase64(packed), new DecompressionStream('deflate-raw')));
