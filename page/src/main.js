// Starts the page.
import {$, button, element} from './views/dom.js';
import {say} from './views/messages.js';
import {Engine, Stopped} from './engine/engine.js';
import {Editor} from './dialogs/editor.js';
import {keepTheme, keptTheme} from './keeping/keeper.js';
import {listenToKeys} from './views/keys.js';
import {NumberField, numbersOf} from './dialogs/number_field.js';
import {openHelpDialog, openTextDialog} from './dialogs/dialogs.js';
import {openCatalogueDialog} from './dialogs/catalogue_dialog.js';
import {openShareDialog} from './dialogs/share_dialog.js';
import {openSurveyDialog} from './dialogs/survey_dialog.js';
import {watchJobs} from './views/jobs_view.js';
import {unpacked} from './engine/packed.js';
import {listenToDrops, listenToPastes} from './views/paste.js';
import {wordsOfExplore} from './engine/words.js';
import {Workbench} from './workbench.js';

// The programs that the page holds, packed: {name: {module, bytes}}.
async function readPrograms() {
    const read = async ([name, packed]) => {
        const bytes = await unpacked(packed).arrayBuffer();
        return [name, {module: await WebAssembly.compile(bytes), bytes}];
    };
    return Object.fromEntries(await Promise.all(Object.entries(JSON.parse($('#programs').textContent)).map(read)));
}

// The editor of first problems; answers how a text with a title is put into it.
function startEditor(bench) {
    let title = '', titled = '';
    const openCard = async () => {
        if (!await editor.read()) return;
        editor.isOwn = false;
        await bench.append(
            null, {kind: 'first', problem: editor.problem, written: editor.written, title: editor.text === titled ? title : undefined});
    };
    const open = button('Open as a card', openCard, {class: 'primary', disabled: true, title: 'Ctrl+Enter'});
    const editor = bench.editor = new Editor(bench.engine, {
        onRead: problem => {
            open.disabled = !problem;
        },
        onOther: text => openTextDialog(bench, text).open(),
        onChange: () => bench.keeper.changed(),
    });
    $('#editor').append(editor.node, element('div.group', {}, open));
    editor.node.addEventListener('keydown', event => {
        if (event.key === 'Enter' && (event.ctrlKey || event.metaKey)) openCard();
    });
    return async (text, newTitle) => {
        await editor.setText(text);
        [title, titled] = [newTitle, editor.text];
        open.focus();
    };
}

const FAMILY_FIELDS = [
    ['#family-a', {least: 2, most: 6, label: 'degree of active nodes'}],
    ['#family-p', {least: 2, most: 6, label: 'degree of passive nodes'}], ['#family-n', {least: 1, most: 16, label: 'number of colours'}]
];

function startFamilies(bench, setText) {
    const family = $('#family'), fields = FAMILY_FIELDS.map(([id, values]) => new NumberField($(id), values)),
          [, passive, colours] = fields;
    const show = () => {
        colours.input.disabled = colours.input.parentNode.hidden = family.value !== 'colouring';
        passive.input.disabled = family.value === 'mis';
        if (passive.input.disabled) passive.value = 2;
        fields.forEach(field => field.mark());
    };
    family.addEventListener('change', show);
    $('#family-write').addEventListener('click', async () => {
        const numbers = numbersOf(fields.filter(({input}) => !input.parentNode.hidden));
        if (!numbers) return;
        const words = ['family', family.value, ...[...numbers, 0].slice(0, 3).map(String)];
        const {status, text} = await bench.engine.ask('re', words, '', {quiet: true});
        if (status === 0) await setText(text, words.slice(1).join(' '));
        else say(`re ${words.join(' ')}: ${text.trim()}`, true);
    });
    show();
}

async function startExamples(bench, setText) {
    const examples = await unpacked($('#examples').textContent).json(), list = $('#gallery');
    for (const [group, texts] of Object.entries(examples)) {
        list.append(
            element('optgroup', {label: group}, Object.keys(texts).map(name => element('option', {value: `${group}\n${name}`}, name))));
    }
    const openAsCards = async (text, name) => {
        const fault = await bench.sessions.openText(text, name);
        if (fault) say(fault.fault, true);
    };
    list.addEventListener('change', async () => {
        const [group, name] = list.value.split('\n'), text = examples[group]?.[name];
        list.value = '';
        if (text === undefined) return;
        if (/^==/m.test(text)) await openAsCards(text, name);
        else await setText(text, name);
    });
    // The buttons of the empty page.
    $('#chain').addEventListener('click', event => {
        const name = event.target.closest('[data-start]')?.dataset.start;
        if (name) openAsCards(Object.assign({}, ...Object.values(examples))[name], name);
    });
}

function startBars(bench) {
    const openAll = isOpen => bench.cards.path().forEach(card => bench.view(card).open(isOpen));
    const act = {
        '#undo': () => bench.cards.undo(),
        '#redo': () => bench.cards.redo(),
        '#open': () => openTextDialog(bench),
        '#save': () => bench.sessions.saveFile(),
        '#share': () => openShareDialog(bench),
        '#skip': () => skipToCards(bench),
        '#help-button': openHelpDialog,
        '#theme': changeTheme,
        '#report': () => bench.report.open(!bench.report.isOpen),
        '#certificate': () => bench.certificate(),
        '#algorithm': () => bench.tree(),
        '#open-all': () => openAll(true),
        '#close-all': () => openAll(false),
        '#survey': () => openSurveyDialog(bench),
        '#browse': () => openCatalogueDialog(bench),
    };
    $('#survey').hidden = !bench.words.has('settle');
    for (const [id, run] of Object.entries(act)) $(id).addEventListener('click', () => run());
}

function changeTheme() {
    const {dataset} = document.documentElement,
          isDark = dataset.theme ? dataset.theme === 'dark' : matchMedia('(prefers-color-scheme: dark)').matches;
    dataset.theme = isDark ? 'light' : 'dark';
    keepTheme(dataset.theme);
}

// Past the bar and the editor, for the keyboard.
function skipToCards(bench) {
    const last = bench.cards.path().at(-1);
    if (last) bench.go(last.id);
    else $('#chain button')?.focus();
}

// How tall the line at the bottom is: what stands above it keeps clear of it. How tall what runs is, and how much of the bar stands above it:
// in a low window this part of the bar may go out of sight, and the line at the bottom makes room.
function watchBars() {
    const foot = $('#claim'), bar = $('.bar'), jobs = $('#jobs'), aboveFoot = ['html', '.layout', 'aside', '#report-box'].map($);
    // Each is set where it is used, and is not inherited: else the style of all elements would be made anew.
    const set = (name, length, nodes) => nodes.forEach(node => node.style.setProperty(name, `${length}px`));
    const measure = () => {
        const above = jobs.hidden ? bar.offsetHeight : Math.max(0, jobs.offsetTop - 4);
        set('--foot', foot.offsetHeight, aboveFoot);
        set('--above', above, [bar]);
        set('--jobs', bar.offsetHeight - above, [foot]);
    };
    const watcher = new ResizeObserver(measure);
    [foot, bar, jobs].forEach(node => watcher.observe(node));
    // Who leaves a field there sees the verdict again.
    foot.addEventListener('focusout', ({relatedTarget}) => {
        if (!foot.contains(relatedTarget)) foot.scrollTop = 0;
    });
}

function tellNoWords(error) {
    say(`explore help: ${error.message}: nothing of explore is offered.`, true);
    return new Set();
}

async function start() {
    const theme = keptTheme();
    if (theme) document.documentElement.dataset.theme = theme;
    const engine = new Engine(await readPrograms(), await unpacked($('#worker').textContent).text()),
          words = await wordsOfExplore(engine).catch(tellNoWords), bench = new Workbench(engine, words);
    // For the tests, and whoever looks into the page.
    Object.assign(window, {bench, engine});
    const setText = startEditor(bench);
    startFamilies(bench, setText);
    await startExamples(bench, setText);
    startBars(bench);
    watchJobs(engine, isBusy => bench.sessions.noteBusy(isBusy));
    listenToKeys(bench);
    listenToPastes(bench);
    listenToDrops(bench);
    watchBars();
    window.addEventListener('hashchange', () => bench.sessions.load());
    if (!await bench.sessions.load()) bench.show();
    await bench.keeper.start();
    document.body.classList.add('ready');
}

// That a run was stopped is no fault, also where nobody waits for it any more.
window.addEventListener('unhandledrejection', event => event.reason instanceof Stopped && event.preventDefault());

start().catch(error => {
    document.body.append(element('p', {class: 'faulty', role: 'alert'}, `The page can't start: ${error.message}`));
    throw error;
});
