// The windows over the page: the frame of all of them, and the plain ones.
import {$, button, element, faulty, hint, plural, replace} from '../views/dom.js';
import {DONE, keepDraft} from '../keeping/drafts.js';
import {LONGEST_SHOWN, NumberedArea} from './numbered_area.js';

// Larger files are no texts of this page.
const LARGEST_FILE = 64000000;
// After so many ms a window that waits closes: faults come at once.
const UNTIL_CLOSED = 1500;

const FIRST_FIELD = 'textarea:not([readonly]), input:not([type=file]):not([type=checkbox]), select';

export function openDialog(title, ...content) {
    const dialog = element('dialog', {'aria-label': title},
        element('header', {}, element('h2', {}, title), button('×', () => dialog.close(), {class: 'quiet close', 'aria-label': 'close'})),
        ...content);
    // Messages are seen above the dialog that is open.
    dialog.addEventListener('close', () => {
        document.body.append($('#message'));
        dialog.remove();
    });
    document.body.append(dialog);
    dialog.showModal();
    dialog.append($('#message'));
    // The focus is where the user goes on, not on the button that closes.
    (dialog.querySelector('[autofocus]') || dialog.querySelector(FIRST_FIELD) || dialog.querySelector('footer button, [tabindex]'))
        ?.focus();
    return dialog;
}

export function openWideDialog(title, ...content) {
    const dialog = openDialog(title, ...content);
    dialog.classList.add('wide');
    return dialog;
}

// Answers whether the user says so; a window that is closed says no.
export function askDialog(title, text, yes, no) {
    return new Promise(resolve => {
        let isSo = false;
        const dialog = openDialog(title, element('p', {}, text),
            element('footer', {}, button(no, () => dialog.close(), {class: 'primary', autofocus: true}), button(yes, () => {
                isSo = true;
                dialog.close();
            })));
        dialog.addEventListener('close', () => resolve(isSo));
    });
}

export function openHelpDialog() {
    const help = element('div', {tabIndex: -1, autofocus: true, role: 'group', 'aria-label': 'help'}, $('#help').content.cloneNode(true));
    // It begins at its beginning.
    openWideDialog('Help', help).scrollTop = 0;
}

// `key` is what the window is opened for: what was typed in it is kept for it.
export function openNoteDialog(note, onKeep, key) {
    const area = element('textarea', {rows: 5, 'aria-label': 'note'});
    area.value = note || '';
    const keep = () => {
        dialog.close(DONE);
        onKeep(area.value.trim());
    };
    const dialog = openDialog('Note on the card', area, element('footer', {}, button('Keep', keep, {class: 'primary'})));
    keepDraft(dialog, `note ${key}`);
}

// The name of a problem; none: its first line.
export function openNameDialog(name, onKeep, key) {
    const field = element('input', {type: 'text', value: name, maxLength: 80, 'aria-label': 'name'});
    const keep = event => {
        event.preventDefault();
        dialog.close(DONE);
        onKeep(field.value.trim());
    };
    const dialog = openDialog('Name of the problem',
        element('form', {onsubmit: keep}, field, element('footer', {}, element('button.primary', {type: 'submit'}, 'Keep'))));
    keepDraft(dialog, `name ${key}`);
    field.select();
}

// The edges of a diagram of labels. `find(edges)` looks for the closure, of edges {text, line}; it answers a fault {line, text} at a line
// that stands here, or nothing. The window stays open until there can be none.
export function openDiagramDialog(labels, find, key, {text = '', fault = null} = {}) {
    const area = new NumberedArea({label: 'diagram', placeholder: 'A B\nC D', fewest: 3, most: 8, onInput: () => replace(state)});
    const state = element('div.state', {role: 'status', 'aria-label': 'what is at fault'});
    const complain = ({line, text: said}) => {
        area.number(line);
        replace(state, faulty(`line ${line}: ${said}. `), hint(`An edge is two labels of this problem: ${labels.join(', ')}.`));
        area.text.focus();
    };
    const start = async event => {
        event.preventDefault();
        const edges = area.value.split('\n')
                          .flatMap((row, i) => row.split(',').map(edge => ({text: edge.trim(), line: i + 1})))
                          .filter(edge => edge.text);
        replace(state, hint('asking…'));
        const running = find(edges), wrong = await Promise.race([running, new Promise(resolve => setTimeout(resolve, UNTIL_CLOSED))]);
        if (wrong) {
            complain(wrong);
            return;
        }
        const written = area.value;
        dialog.close(DONE);
        running.then(late => late && openDiagramDialog(labels, find, key, {text: written, fault: late}));
    };
    const dialog = openDialog('Closure with a diagram',
        element('form', {onsubmit: start},
            hint('One edge a line: after A B around passive nodes B may stand for A. The problem, so raised, has the closure.'), area.node,
            state, element('footer', {}, element('button.primary', {type: 'submit'}, 'Find'))));
    area.text.addEventListener('keydown', event => {
        if (event.key === 'Enter' && (event.ctrlKey || event.metaKey)) start(event);
    });
    area.value = text;
    keepDraft(dialog, `diagram ${key}`);
    if (fault) complain(fault);
}

// A certificate, a problem or a session, pasted or from a file: {dialog, open}.
export function openTextDialog(bench, text = '') {
    // A text that is too long to be shown is held beside the area.
    let held = null, name;
    const state = element('div.state', {role: 'status', 'aria-label': 'what is at fault'});
    const hold = large => {
        held = large;
        area.value = '';
        const letGo = () => {
            held = null;
            replace(state);
            area.text.focus();
        };
        replace(state, hint(`${plural(large.length, 'character')} are held, too many to be shown. `),
            button('Let them go', letGo, {class: 'link'}));
    };
    const placeholder = '== certificate 1 lower\n…\n\nA certificate, a problem, or a saved session.';
    const area = new NumberedArea({label: 'text to open', placeholder, fewest: 18, most: 18, onLarge: hold});
    const set = given => {
        if (given.length > LONGEST_SHOWN) hold(given);
        else {
            held = null;
            area.value = given;
        }
    };
    const open = async () => {
        const isHeld = held !== null, fault = await bench.sessions.openText(isHeld ? held : area.value, name);
        if (!fault) {
            dialog.close(DONE);
            return;
        }
        if (!isHeld) area.number(fault.line || 0);
        replace(state, faulty(fault.fault));
    };
    const take = async file => {
        if (!file) return;
        if (file.size > LARGEST_FILE) {
            replace(state, faulty(`${file.name} is larger than any text of this page.`));
            return;
        }
        set(await file.text());
        name = file.name.replace(/\.[A-Za-z0-9]+$/, '');
        await open();
        name = undefined;
    };
    const file = element('input', {type: 'file', 'aria-label': 'file', onchange: () => take(file.files[0])});
    const dialog = openWideDialog('Open', element('div.tall', {}, area.node), state,
        element(
            'footer', {}, button('Open', open, {class: 'primary'}), file, hint('Certificates are checked and shown as a chain of cards.')));
    set(text);
    if (!text) keepDraft(dialog, 'open');
    area.text.focus();
    return {dialog, open, take};
}
