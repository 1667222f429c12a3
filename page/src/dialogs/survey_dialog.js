// A list of problems in, and a table of what is known of each out: its rows stand there as they come.
import {claimNodes} from '../views/claims.js';
import {button, code, copy, cut, download, element, faulty, hint, plural, replace, seconds} from '../views/dom.js';
import {keepDraft} from '../keeping/drafts.js';
import {openWideDialog} from './dialogs.js';
import {inOneLine, problemsIn, tableOf} from '../texts/lists.js';
import {NumberedArea} from './numbered_area.js';
import {NumberField, numbersOf} from './number_field.js';

const MOST_LISTED = 2000, MOST_EFFORT = 64, LONGEST_PROBLEM = 60;

export const openSurveyDialog = bench => new SurveyDialog(bench);

class SurveyDialog {
    constructor(bench) {
        const {survey} = bench, effort = element('input', {type: 'number', value: '1', 'aria-label': 'effort'});
        Object.assign(this, {bench, survey, nodes: []});
        this.area =
            new NumberedArea({label: 'list of problems', placeholder: 'M^3, P O^2 / M [PO], O^2\nAAB ABB / AB BB', fewest: 5, most: 8});
        this.bar = element('progress', {'aria-label': 'how many are settled'});
        this.state = element('span', {role: 'status', 'aria-label': 'how far it is'});
        this.body = element('tbody', {});
        this.table = element(
            'div.tried.found', {tabIndex: 0, role: 'group', 'aria-label': 'table of what is known'}, element('table', {}, this.body));
        this.go = button('Settle all', () => this.start(), {class: 'primary'});
        this.end = button('Stop', () => survey.stop());
        this.out = element('span.group', {}, button('Copy as TSV', event => copy(tableOf(survey.rows), event.currentTarget)),
            button('Download TSV', () => download('settled.tsv', tableOf(survey.rows), 'text/tab-separated-values')));
        const file =
            element('input', {type: 'file', multiple: true, 'aria-label': 'files of problems', onchange: () => this.take([...file.files])});
        this.dialog = openWideDialog('Settle a list of problems',
            hint(
                'One problem a line, its sides with a / between, its configurations with commas, or as in the catalogue; or whole texts with a line --- between, each behind a line # name if it has one.'),
            this.area.node,
            element('footer', {}, this.go, element('label', {title: 'each try with so many times the work'}, 'effort ', effort), file),
            element('div.group.progress', {}, this.bar, this.state, this.end), this.table, element('footer', {}, this.out));
        this.effort = new NumberField(effort, {least: 1, most: bench.words.has('settle N') ? MOST_EFFORT : 1, label: 'effort'});
        keepDraft(this.dialog, 'survey');
        survey.onChange = row => this.dialog.open && this.changed(row);
        this.show();
        this.area.text.focus();
    }

    // Each file is a problem, or a list of them.
    async take(files) {
        const texts =
            await Promise.all(files.map(async file => ({name: file.name.replace(/\.[A-Za-z0-9]+$/, ''), text: await file.text()})));
        this.area.value = texts.length === 1 && texts[0].text.includes('/')
            ? texts[0].text
            : texts.map(({name, text}) => `# ${name}\n${text.trim()}\n`).join('---\n');
    }

    async start() {
        const problems = problemsIn(this.area.value), numbers = numbersOf([this.effort]);
        if (!numbers) return;
        if (!problems.length || problems.length > MOST_LISTED) {
            replace(this.state,
                faulty(problems.length ? `A list has at most ${plural(MOST_LISTED, 'problem')}; these are ${problems.length}.`
                                       : 'Write a problem, or a list of them.'));
            return;
        }
        this.survey.stop();
        const running = this.survey.start(problems, numbers[0]);
        this.show();
        this.end.focus();
        await running.catch(error => replace(this.state, faulty(error.message)));
    }

    show() {
        this.nodes = this.survey.rows.map(() => element('tr', {}));
        replace(this.body, this.nodes);
        this.survey.rows.forEach(row => this.fill(row));
        this.changed(null);
    }

    changed(row) {
        const {survey, survey: {rows, count, isRunning}} = this, isStopped = !isRunning && count < rows.length;
        if (row) this.fill(row);
        else if (isStopped) rows.filter(({begun}) => begun).forEach(other => this.fill(other));
        Object.assign(this.bar, {max: Math.max(1, rows.length), value: count});
        this.bar.hidden = !rows.length;
        this.out.hidden = !count && !rows.some(({begun}) => begun);
        // The focus stays in the window.
        if (!isRunning && document.activeElement === this.end) (count ? this.out.firstChild : this.go).focus();
        this.end.hidden = !isRunning;
        replace(this.state, rows.length ? `${count} of ${plural(survey.rows.length, 'problem')}${isStopped ? ', stopped' : ''}` : '');
    }

    fill(row) {
        const {at, name, text, claims, begun = [], fault, time, problem} = row, line = inOneLine(text), {bench, survey} = this;
        const claimNode = ({line: claim, shownBy}) =>
            element('div', {}, claimNodes(claim), shownBy.length ? hint(` · by ${shownBy.join('; ')}`) : null);
        const state = !begun.length ? '…'
            : survey.isRunning      ? 'still searching…'
                                    : 'stopped here',
              said = claims ? claims.map(claimNode)
            : fault         ? faulty(fault)
                            : [begun.map(claimNode), hint(state)];
        const open = () => {
            this.dialog.close();
            bench.sessions.openText(text, name || undefined);
        };
        replace(this.nodes[at], element('td.soft', {}, name || String(at + 1)),
            element('td', {title: line}, code(cut(line, LONGEST_PROBLEM))), element('td.said-of', {}, said),
            element('td.soft', {}, time === undefined ? '' : seconds(time)),
            element('td', {}, problem && button('Open', open, {class: 'link', 'aria-label': `open problem ${name || at + 1} as a card`})));
    }
}
