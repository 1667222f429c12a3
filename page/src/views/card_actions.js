// The buttons of a card, and those for the labels that are selected on it.
import {kindsOf} from '../cards/chains.js';
import {openBesideDialog} from '../dialogs/beside_dialog.js';
import {openDiagramDialog} from '../dialogs/dialogs.js';
import {button, copy, element, hint, intoView} from './dom.js';
import {SIDES} from '../texts/problems.js';
import {searchActions} from './search_actions.js';

const act = (text, run, title, key) => button(text, run, {title: key ? `${title} (key ${key})` : title});

export function cardActions(bench, card, view) {
    const {changes, settling, words} = bench;
    return [
        element('div.group.first', {},
            words.has('settle') &&
                button('Settle', () => settling.settle(card, view),
                    {class: 'primary', title: 'what is known of this problem, and what shows it'}),
            button('Step', () => changes.step(card, view), {class: 'primary', title: 'the derived problem as a new card (key s)'}),
            act('Universal rows', () => changes.universal(card, view), 'the maximal rows of the passive side', 'u'),
            act('Try merges…', () => changes.tryMerges(card, view),
                'try all merges of two labels: which of them keep the problem unsolvable', 't'),
            act('Merge equal', () => changes.mergeEqual(card, view),
                'labels that are equally strong on both sides become one: as hard as before'),
            act('Trim', () => changes.trim(card, view), 'leave out labels that another one covers: as hard as before'),
            words.has('reduce') &&
                act('Reduce', () => changes.reduce(card, view),
                    'leave only the labels that a map of the problem into itself needs: as hard as before'),
            act('Rename…', () => changes.rename(card, view), 'give the labels other names', 'r'),
            act('Edit…', () => changes.edit(card, view), 'relax or restrict: edit the text and give the map', 'e'),
            element('div.group.right', {}, act('Copy', event => bench.copyProblem(card, event.currentTarget), 'copy the problem', 'c'),
                moreMenu(bench, card, view))),
        searchActions(bench, card, view)
    ];
}

function closureWithDiagram(bench, card, view) {
    openDiagramDialog(view.facts.problem.labels, edges => bench.searches.closure(card, view, bench.numbers.closure.k, edges),
        `${card.id} ${card.problem}`);
}

function moreMenu(bench, card, view) {
    const copyGiven = button('Copy with what is given', event => bench.copyGiven(card, event.currentTarget),
        {hidden: true, title: 'the problem, and behind it what is given at this card: what explore fit, rounds and settle read'});
    const menu = element('details.menu', {}, element('summary', {}, 'More'),
        element('div', {}, button('Copy, one configuration a line', event => copy(card.problem, event.currentTarget)),
            act('Copy for LaTeX', event => bench.copyLatex(card, event.currentTarget), 'the constraints of this card for a paper', 'l'),
            bench.words.has('describe') &&
                button('Copy its report for LaTeX', event => bench.copyReport(card, event.currentTarget),
                    {title: 'explore describe latex, of the problem of this card, with what is given at it'}),
            copyGiven, button('Download', () => bench.downloadProblem(card, view.fileName)),
            card.kind === 'first' &&
                button('Name…', () => bench.nameChain(view.card), {title: 'the name of the problem, in the list, the title and the files'}),
            bench.words.has('closure') && kindsOf(bench.cards.path(card.id)).includes('lower') &&
                button('Closure with a diagram…', () => closureWithDiagram(bench, card, view),
                    {title: 'a fixed point by right-closed sets, of this problem raised by a diagram'}),
            act('Beside another card…', () => openBesideDialog(bench, card), 'two cards side by side, and what stands in one of them alone',
                'b'),
            button('Note…', () => bench.note(view.card)),
            button('To the editor', () => bench.toEditor(card), {title: 'as the first problem of another chain'}),
            button('Remove the card and all behind it', () => bench.cards.remove(card.id))));
    const close = () => {
        menu.open = false;
    };
    // In a narrow window it stands below its name.
    menu.addEventListener('toggle', () => {
        copyGiven.hidden = !bench.given.at(view.path, card);
        if (menu.open) intoView(menu);
    });
    menu.addEventListener('click', event => {
        if (event.target.closest('button')) close();
    });
    menu.addEventListener('focusout', event => {
        if (!menu.contains(event.relatedTarget)) close();
    });
    menu.addEventListener('keydown', event => {
        if (event.key === 'Escape') {
            close();
            menu.firstChild.focus();
            event.stopPropagation();
        }
    });
    return menu;
}

export function selectionActions({changes}, card, view) {
    const labels = view.selected, names = labels.join(', '), isPair = labels.length === 2;
    const merge = to => act(
        `Merge into ${to}`, () => changes.merge(card, view, labels, to), `each of ${names} becomes ${to}: a relaxation, for lower bounds`);
    const leaveOut = () => act('Leave out', () => changes.leaveOut(card, view, labels),
        `leave out ${names} and the configurations with them: a restriction, for upper bounds`);
    const arrows = isPair ? SIDES.flatMap(side => arrowActions(changes, card, view, side)) : [];
    return [
        element('strong', {}, labels.length === 1 ? `Label ${names}` : `Labels ${names}`),
        ...(labels.length > 1 ? labels.map(merge) : []),
        isPair && card.kind === 'first' && mergesAndStep(changes, card, view, labels),
        labels.length < view.facts.problem.labels.length && leaveOut(),
        arrows.length > 0 && hint('let replace'),
        ...arrows,
        button('Clear', () => view.select([]), {class: 'quiet'}),
        labels.length === 1 && hint('Select another label to merge the two.'),
    ];
}

// Of two labels, each that may not take the place of the other yet.
function arrowActions(changes, card, view, side) {
    const [one, other] = view.selected,
                pairs = [[one, other], [other, one]].filter(([weak, strong]) => !view.isStronger(side, weak, strong));
    return pairs.map(([weak, strong]) => act(`${side}: ${weak} → ${strong}`, () => changes.addArrow(card, view, side, weak, strong),
                         `add ${side} configurations so that ${strong} may take the place of ${weak}: a relaxation, for lower bounds`));
}

// Where `explore` merges in a first problem: the chain of one step that speaks of this problem itself, not of the merged one.
function mergesAndStep(changes, card, view, [one, other]) {
    const group = element('span.group', {hidden: true},
        [[one, other], [other, one]].map(
            ([from, to]) => act(`${from} into ${to}, and step`, () => changes.mergeFirst(card, view, from, to),
                `the step that merges ${from} into ${to} first: what follows is a bound of this problem itself`)));
    changes.canMergeFirst().then(can => {
        group.hidden = !can;
    }, () => {});
    return group;
}
