// Other names for the labels of a card.
import {button, code, cut, element, faulty, replace} from '../views/dom.js';
import {openDialog} from './dialogs.js';
import {DONE, keepDraft} from '../keeping/drafts.js';
import {isName, labelNamed, nameOf} from '../texts/texts.js';
import {meaningOf, originsOf} from '../cards/chains.js';

const LETTERS = 'ABCDEFGHIJKLMNOPQRSTUVWXYZabcdefghijklmnopqrstuvwxyz';

// A label gets the name of its set where that is short: [MO] is (MO).
function namesBySets(labels, path) {
    const used = new Set();
    return labels.map(label => {
        const {sets, labels: from} = originsOf(path, path.length - 1, label);
        const base = ((sets || [from]).at(-1) || []).map(nameOf).join('').slice(0, 13) || nameOf(label).slice(0, 13);
        let name = base;
        for (let i = 2; used.has(name); i++) name = `${base}_${i}`;
        used.add(name);
        return name;
    });
}

const lettersFor = labels => labels.map((_, i) => labels.length <= LETTERS.length ? LETTERS[i] : `L${String(i).padStart(3, '0')}`);

function faultOf(names) {
    const bad = names.find(name => !isName(name)), twice = names.find((name, i) => names.indexOf(name) !== i);
    return bad !== undefined ? `“${bad}”: a name has 1 to 16 letters, digits or _` : twice !== undefined ? `${twice} stands twice` : null;
}

export function openRenameDialog(bench, card, view) {
    const {labels} = view.facts.problem, path = bench.cards.path(card.id),
          state = element('div.state', {role: 'status', 'aria-label': 'state'});
    const inputs = labels.map(label => element('input', {
        type: 'text',
        value: nameOf(label),
        maxLength: 16,
        spellcheck: false,
        'aria-label': `new name of ${label}`,
        oninput: () => judge()
    }));
    const meaning = label => path[0] === card ? '' : cut(meaningOf(path, path.length - 1, label), 60);
    const rows =
        labels.map((label, i) => element('label.rename', {}, code(label), inputs[i], element('span.code.hint', {}, meaning(label))));
    const names = () => inputs.map(input => input.value.trim());
    const fill = given => {
        inputs.forEach((input, i) => {
            input.value = given[i];
        });
        judge();
    };
    const judge = () => {
        const fault = faultOf(names());
        replace(state, fault ? faulty(fault) : '');
        apply.disabled = Boolean(fault);
    };
    const rename = () => {
        dialog.close(DONE);
        bench.changes.renamed(card, view, names().map((name, i) => [labels[i], labelNamed(name)]));
    };
    const apply = button('Rename', rename, {class: 'primary'});
    const submit = event => {
        event.preventDefault();
        if (!apply.disabled) rename();
    };
    const dialog = openDialog('Rename labels',
        element('div.group', {},
            button('Name by sets', () => fill(namesBySets(labels, path)), {title: 'each label is named by what it stands for'}),
            button('By letters A, B, C…', () => fill(lettersFor(labels)))),
        element('form.renames', {onsubmit: submit}, rows, element('button', {type: 'submit', hidden: true})), state,
        element('footer', {}, apply));
    keepDraft(dialog, `rename ${card.id} ${card.problem}`);
    inputs[0]?.select();
}
