// The certificate of the chain: the text that was judged, with what is given where something is, its line, and the command that judges it.
import {claimNodes, scopeOf} from '../views/claims.js';
import {button, code, copy, cut, download, element, faulty, hint, plural, replace, shellLine} from '../views/dom.js';
import {say} from '../views/messages.js';
import {identifiersIn, partsOfText} from '../texts/reports.js';
import {openDialog, openTextDialog} from './dialogs.js';
import {openChainPicture} from './picture_dialog.js';

// So many characters of a certificate are shown; Copy and Download give all. Of larger ones no report is asked for.
const MOST_SHOWN_OF_CERTIFICATE = 20000, LARGEST_WITH_REPORT = 1000000;

export function openCertificateDialog(bench, verdict, said) {
    if (!verdict?.certificate) {
        say(verdict ? 'This chain is neither a lower nor an upper bound.' : 'There is no certificate yet.');
        return;
    }
    new CertificateDialog(bench, verdict, said);
}

class CertificateDialog {
    // `said` is what `explore given` said of it, as given_view.js has it, or null.
    constructor(bench, verdict, said) {
        const {kind, certificate, line} = verdict, name = kind === 'fixed' ? 'fixed-point' : `${kind}-bound`;
        Object.assign(this, {bench, verdict});
        // What stands in the window, the last one first seen: each a text, with the line that a command printed of it.
        this.judged = {text: certificate, line, command: 're check', file: `${name}.txt`};
        this.judgedGiven = said && {text: said.text, line: said.line, command: 'explore given', file: `${name}-given.txt`};
        this.area = element('textarea.code', {readOnly: true, rows: 16, 'aria-label': 'certificate'});
        this.lines = element('div', {role: 'status', 'aria-label': 'its lines'});
        this.length = element('p', {});
        this.identifiers = element('p', {hidden: true});
        this.state = element('div.state', {role: 'status', 'aria-label': 'state'});
        this.buttons = element('footer', {});
        this.dialog = openDialog('Certificate', this.lines, this.identifiers, this.area, this.length, this.state, this.buttons);
        this.show();
        this.buttons.querySelector('button').focus();
        this.fillIdentifiers();
    }

    get shown() { return this.judgedGiven || this.judged; }

    show() {
        const {shown, judged, judgedGiven} = this, {text, file} = shown, isLong = text.length > MOST_SHOWN_OF_CERTIFICATE;
        this.area.value = cut(text, MOST_SHOWN_OF_CERTIFICATE);
        replace(this.lines, [judged, judgedGiven].filter(Boolean).map(part => this.lineNode(part)));
        replace(this.length,
            isLong ? hint(`The first ${MOST_SHOWN_OF_CERTIFICATE.toLocaleString('en')} of ${
                         plural(text.length, 'character')}; Copy and Download give all.`)
                   : null);
        replace(this.buttons, button('Copy', event => copy(text, event.currentTarget), {class: 'primary'}),
            judgedGiven && button('Copy without what is given', event => copy(judged.text, event.currentTarget)),
            button('Download', () => download(file, text)),
            this.bench.words.has('condense') &&
                button('Condense', () => this.condense(), {title: 'explore condense: the same text with its configurations in groups'}),
            button('Picture…', () => {
                this.dialog.close();
                openChainPicture(this.bench, [judged, judgedGiven].filter(Boolean).map(({line}) => line));
            }, {title: 'the whole chain as one picture: SVG, PNG or TikZ'}), button('Change it', () => {
                this.dialog.close();
                openTextDialog(this.bench, text);
            }, {title: 'edit the text and open it as a new chain'}));
    }

    // A line, with the command that prints it of the text.
    lineNode({line, command, file}) {
        const isGood = line.startsWith('accepted'), without = this.judgedGiven && command === 're check' ? 'without what is given: ' : '';
        return element('p', {}, claimNodes(line, isGood ? 'span.good.line' : 'span.faulty.line', scopeOf(line)),
            shellLine(`${without}here and on the command line: `, `${command} < ${file}`));
    }

    // What the report says of unique identifiers.
    async fillIdentifiers() {
        const {bench: {engine, words}, judged: {text}} = this;
        if (!words.has('describe') || text.length > LARGEST_WITH_REPORT) return;
        const {text: report} = await engine.ask('explore', ['describe'], text, {quiet: true, title: 'describe'}).catch(() => ({text: ''})),
                     said = identifiersIn(report);
        this.identifiers.hidden = !said;
        if (said) replace(this.identifiers, hint(...partsOfText(said).map(part => part.kind === 'code' ? code(part.text) : part.text)));
    }

    // The text in groups, once the program says the same of it.
    async condense() {
        const {engine} = this.bench, {shown} = this, [program, word] = shown.command.split(' ');
        replace(this.state, hint('asking…'));
        const ask = (name, words, input) => engine.ask(name, words, input).catch(error => ({status: 1, text: error.message}));
        const {status, text} = await ask('explore', ['condense'], shown.text),
                       {text: said} = status === 0 ? await ask(program, [word], text) : {text: ''};
        const line = said.trim().split('\n', 1)[0];
        if (status !== 0 || line !== shown.line) {
            replace(this.state, faulty(status !== 0 ? `explore condense: ${text.trim()}` : `${shown.command}: ${line}`));
            return;
        }
        replace(this.state,
            hint(text === shown.text ? 'It is in groups already.'
                                     : `${plural(shown.text.length, 'character')} became ${plural(text.length, 'character')}.`));
        this[this.judgedGiven ? 'judgedGiven' : 'judged'] = {...shown, text};
        this.show();
    }
}
