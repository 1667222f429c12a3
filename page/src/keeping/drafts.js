// What was typed in a window that was closed without doing it: the same window opened again has it.
import {say} from '../views/messages.js';

// The value with which a window closes once it did what it is for.
export const DONE = 'done';
const FIELDS = 'textarea:not([readonly]), input[type=text], input[type=radio]';
const drafts = new Map();

const stateOf = field => field.type === 'radio' ? field.checked : field.value;

function put(field, state) {
    if (stateOf(field) === state) return;
    if (field.type === 'radio') {
        if (!state) return;
        field.checked = true;
        field.dispatchEvent(new Event('change', {bubbles: true}));
        return;
    }
    field.value = state;
    field.dispatchEvent(new Event('input', {bubbles: true}));
}

// `key` names the window, and what it is for.
export function keepDraft(dialog, key) {
    const fields = [...dialog.querySelectorAll(FIELDS)], first = fields.map(stateOf), draft = drafts.get(key);
    // What is chosen may write the texts anew, so it comes first.
    if (draft?.length === fields.length)
        for (const isChoice of [true, false]) fields.forEach((field, i) => (field.type === 'radio') === isChoice && put(field, draft[i]));
    dialog.addEventListener('close', () => {
        const now = fields.map(stateOf), isSame = now.every((state, i) => state === first[i]);
        if (dialog.returnValue === DONE || isSame) drafts.delete(key);
        else {
            drafts.set(key, now);
            say('What was typed is kept: open the window again.');
        }
    });
}
