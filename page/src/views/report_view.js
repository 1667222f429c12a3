// The report of `explore describe` on the chain that is shown, beside the cards; and all of it on paper.
import {lineText} from './claims.js';
import {$, button, code, copy, download, element, faulty, hint, intoView, replace} from './dom.js';
import {blocksOfReport, partsOfText} from '../texts/reports.js';
import {givenInput} from '../texts/inputs.js';
import {fileNameOf} from '../texts/texts.js';
import {titleOf} from '../cards/chains.js';

// A longer report is cut on the page; Copy and Download give all.
const MOST_BLOCKS = 1500;

export class ReportView {
    constructor(workbench) {
        Object.assign(this, {workbench, isOpen: false, text: '', latex: '', isWithInput: false});
        this.content = element('div.paper', {tabIndex: 0, role: 'group', 'aria-label': 'the report'});
        const give = run => event => {
            if (this.text) run(event.currentTarget);
        };
        this.latexButton = button('Copy LaTeX', give(from => copy(this.latex + this.givenLatex, from)), {disabled: true});
        replace($('#report-box'),
            element('header.group', {}, element('h2', {}, 'Report'), button('Copy Markdown', give(from => copy(this.whole, from))),
                this.latexButton,
                button('Download', give(() => download(`${fileNameOf(titleOf(this.path[0]))}.md`, this.whole, 'text/markdown'))),
                button('Print', () => this.print(), {title: 'the chain, its diagrams, the claim and this report on paper (Ctrl+P)'}),
                button('×', () => this.open(false), {class: 'quiet close', 'aria-label': 'close the report'})),
            this.content);
    }

    get isOffered() { return this.workbench.words.has('describe'); }

    open(isOpen) {
        this.isOpen = isOpen;
        $('#report-box').hidden = !isOpen;
        $('#report').setAttribute('aria-expanded', String(isOpen));
        document.body.classList.toggle('reading', isOpen);
        if (isOpen) {
            this.comeIntoView();
            this.fill(this.path, this.verdict).then(() => this.comeIntoView());
        } else $('#report').focus();
    }

    // Where it stands below the cards it begins at the top of what is seen.
    comeIntoView() {
        const isBelow = getComputedStyle($('#report-box')).position === 'static';
        if (this.isOpen) intoView($('#report-box > header'), isBelow ? 'start' : 'nearest');
    }

    // The chain with its verdict; where there is no bound, the first problem alone.
    async fill(path, verdict) {
        Object.assign(this, {path, verdict});
        if (!path?.length && this.isOpen) this.open(false);
        if (!this.isOpen || !path?.length) return;
        const turn = this.turn = {}, {claim, engine} = this.workbench;
        Object.assign(this, {text: '', latex: '', isWithInput: false});
        this.latexButton.disabled = true;
        replace(this.content, hint(verdict ? 'asking…' : 'The chain is not judged yet.'));
        if (!verdict) return;
        const ask = (words, text) =>
            claim.forThis(engine.start('explore', words, text, {title: 'describe'})).catch(error => ({status: 1, text: error.message}));
        // Of the bound with its input, where the program reads that and doesn't refuse it; else of the bound alone.
        const alone = verdict.certificate || path[0].problem, withInput = this.textWithInput(path, verdict);
        let text = withInput || alone, answer = await ask(['describe'], text);
        if (withInput && answer.status !== 0 && turn === this.turn) answer = await ask(['describe'], text = alone);
        if (turn !== this.turn) return;
        if (answer.status !== 0) {
            replace(this.content, faulty(answer.text.trim()));
            return;
        }
        Object.assign(this, {text: answer.text, isWithInput: text === withInput});
        this.draw();
        const latex = await ask(['describe', 'latex'], text);
        if (turn !== this.turn || latex.status !== 0) return;
        this.latex = latex.text;
        this.latexButton.disabled = false;
    }

    // The bound with what is given behind it, where something is, and the program reports on that.
    textWithInput(path, {certificate}) {
        const {given, words} = this.workbench, input = given.of(path);
        return certificate && input && words.has('describe given') ? givenInput(certificate, input.problem) : null;
    }

    // What is given, and the line of `explore given`, as the last part of a report that says nothing of it.
    get givenPart() {
        const {given} = this.workbench, input = this.path && given.of(this.path);
        if (!input || this.isWithInput) return '';
        const code = text => text.trim().split('\n').map(row => `    ${row}`).join('\n');
        const said = given.said ? `\n\nWhat \`explore given\` says of the bound with that input:\n\n${code(given.said.line)}` : '';
        return `\n## What is given\n\nThe nodes know a solution of this problem (${given.nameOf(input)}):\n\n${code(input.problem)}${
            said}\n`;
    }

    // The same for a paper.
    get givenLatex() {
        const {given} = this.workbench, input = this.path && given.of(this.path);
        if (!input || this.isWithInput) return '';
        const code = text => `\\begin{verbatim}\n${text.trim()}\n\\end{verbatim}\n`;
        const said = given.said ? `\nWhat \\texttt{explore given} says of the bound with that input:\n\n${code(given.said.line)}` : '';
        return `\n\\subsection*{What is given}\n\nThe nodes know a solution of this problem (${given.nameOf(input)}):\n\n${
            code(input.problem)}${said}`;
    }

    get whole() { return this.text + this.givenPart; }

    showGiven() {
        if (this.isOpen && this.text) this.draw();
    }

    draw() {
        replace(this.content,
            this.verdict.certificate ? null : hint('This chain is neither a lower nor an upper bound: the report is of its first problem.'),
            reportNodes(this.whole));
    }

    // Everything that the paper shows is drawn first.
    async print() {
        const path = this.workbench.cards.path();
        if (!path.length || this.isPrinting) return;
        this.isPrinting = true;
        const views = path.map(card => this.workbench.view(card)), open = views.map(view => view.isOpen);
        try {
            await Promise.all(views.map(view => {
                view.open(true);
                return view.comeNear();
            }));
            window.print();
        } finally {
            this.isPrinting = false;
            views.forEach((view, i) => view.open(open[i]));
        }
    }
}

// What is seen of a report, up to so many blocks.
export function reportNodes(markdown) {
    const blocks = blocksOfReport(markdown);
    return [
        blocks.slice(0, MOST_BLOCKS).map(blockNode), blocks.length > MOST_BLOCKS ? hint('Cut here: Copy and Download give all.') : null
    ];
}

const PART_NODES = {
    code: text => code(text),
    bold: text => element('strong', {}, text),
    plain: text => lineText(text)
};
const textNodes = text => partsOfText(text).map(part => PART_NODES[part.kind](part.text));

function blockNode({kind, level, text, items}) {
    if (kind === 'heading') return element(level === 1 ? 'h3' : 'h4', {}, ...textNodes(text));
    if (kind === 'code') return element('pre', {tabIndex: 0}, lineText(text));
    if (kind === 'list') return element('ul', {}, items.map(item => element('li', {}, ...textNodes(item))));
    return element('p', {}, ...textNodes(text));
}
