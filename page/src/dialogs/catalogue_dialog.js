// The catalogue to browse: one of its tables, its lines by number, by words, by answer and by class, each to be opened as a card.
import {button, code, element, hint, plural, replace} from '../views/dom.js';
import {claimNodes} from '../views/claims.js';
import {openWideDialog} from './dialogs.js';
import {problemsIn} from '../texts/lists.js';
import {rowsFound, rowsOfTable, tableName, valuesIn} from '../texts/catalogue.js';

// So many lines are shown, and as many more behind a button.
const MOST_ROWS = 100;

// `table` is the name of a table, as `3-3-2`, and `answer` and `identifiers` are those of a line like which others are looked for.
export function openCatalogueDialog(bench, {table, answer = '', identifiers = ''} = {}) {
    const names = bench.catalogue.names, chosen = {answer, identifiers}, onChange = () => draw();
    const tables = element(
        'select', {'aria-label': 'table', onchange: () => read()}, names.map(name => element('option', {value: name}, tableTitle(name))));
    const words =
        element('input', {type: 'search', placeholder: 'a number, or words as AAB BB', 'aria-label': 'number or words', oninput: onChange});
    const list = (says, column) => element('select', {
        'aria-label': says,
        onchange: event => {
            chosen[column] = event.target.value;
            draw();
        }
    });
    const answers = list('answer', 'answer'), classes = list('class with identifiers', 'identifiers');
    const state = element('p', {role: 'status', 'aria-label': 'how many there are'}), body = element('tbody', {}),
          more = button('More', () => draw(shown + MOST_ROWS), {class: 'link'});
    let rows = [], shown = 0;
    const fillList = (select, column, all) => {
        replace(select, element('option', {value: ''}, all),
            valuesIn(rows, column).map(([value, count]) => element('option', {value}, `${value} (${count.toLocaleString('en')})`)));
        select.value = chosen[column];
        if (select.value !== chosen[column]) select.value = chosen[column] = '';
        select.hidden = select.options.length < 2;
    };
    const open = async row => {
        dialog.close();
        await bench.sessions.openText(problemsIn(row.problem)[0].text, `catalogue ${tables.value}, number ${row.number}`);
    };
    const rowNode = row => element('tr', {}, element('td.soft', {}, row.number), element('td', {}, code(row.problem)),
        element(
            'td.said-of', {}, element('div', {}, claimNodes(row.answer)), row.identifiers && hint(`with identifiers: ${row.identifiers}`)),
        element('td', {}, button('Open', () => open(row), {class: 'link', 'aria-label': `open number ${row.number} as a card`})));
    const draw = (most = MOST_ROWS) => {
        const found = rowsFound(rows, {words: words.value, ...chosen});
        shown = Math.min(most, found.length);
        replace(state, hint(`${plural(found.length, 'problem')} of ${rows.length.toLocaleString('en')}`));
        replace(body, found.slice(0, shown).map(rowNode));
        more.hidden = shown === found.length;
    };
    const read = async () => {
        replace(state, hint('unpacking…'));
        rows = rowsOfTable(await bench.catalogue.table(tables.value));
        fillList(answers, 'answer', 'any answer');
        fillList(classes, 'identifiers', 'any class');
        draw();
    };
    const dialog = openWideDialog('The catalogue of all small problems', element('div.group.filters', {}, tables, words, answers, classes),
        state,
        element('div.tried.found', {tabIndex: 0, role: 'group', 'aria-label': 'lines of the catalogue'}, element('table', {}, body), more));
    tables.value = [table, ofLastCard(bench)].find(name => names.includes(name)) || names[0];
    words.focus();
    return read();
}

// The table that would have the last card of the chain.
function ofLastCard({cards, facts}) {
    const last = cards.path().at(-1);
    return last && tableName(facts.of(last.problem).problem);
}

function tableTitle(name) {
    const [labels, active, passive] = name.split('-');
    return `${labels} labels, degrees ${active} and ${passive}`;
}
