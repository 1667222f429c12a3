// Keys: on the card that has the focus, or the last one.
import {openBesideDialog} from '../dialogs/beside_dialog.js';
import {openHelpDialog, openTextDialog} from '../dialogs/dialogs.js';

export function listenToKeys(bench) {
    document.addEventListener('keydown', event => {
        if ((event.ctrlKey || event.metaKey) && event.key.toLowerCase() === 'p' && !event.shiftKey && bench.cards.path().length) {
            event.preventDefault();
            bench.report.print();
            return;
        }
        if (event.target.closest('input, textarea, select, dialog') || event.altKey) return;
        if (event.ctrlKey || event.metaKey) {
            if (event.key.toLowerCase() !== 'z') return;
            event.preventDefault();
            if (event.shiftKey) bench.cards.redo();
            else bench.cards.undo();
            return;
        }
        const act = pageKeys(bench)[event.key] || cardKeys(bench)?.[event.key];
        if (!act) return;
        event.preventDefault();
        act();
    });
}

const pageKeys = bench => ({'?': () => openHelpDialog(), o: () => openTextDialog(bench), x: () => bench.certificate()});

function cardKeys(bench) {
    const path = bench.cards.path();
    if (!path.length) return null;
    const focused = document.activeElement.closest?.('.card'), at = path.findIndex(({id}) => `card-${id}` === focused?.id);
    const card = path[at < 0 ? path.length - 1 : at], view = bench.view(card), {changes} = bench;
    const move = by => {
        const {node} = bench.view(path[Math.max(0, Math.min(path.length - 1, (at < 0 ? path.length : at) + by))]);
        node.focus({preventScroll: true});
        node.scrollIntoView({block: 'start'});
    };
    return {
        j: () => move(1),
        k: () => move(-1),
        s: () => changes.step(card, view),
        u: () => changes.universal(card, view),
        t: () => changes.tryMerges(card, view),
        r: () => changes.rename(card, view),
        e: () => changes.edit(card, view),
        c: () => bench.copyProblem(card, view.node),
        l: () => bench.copyLatex(card, view.node),
        b: () => openBesideDialog(bench, card),
        m: () => {
            if (view.selected.length > 1) changes.merge(card, view, view.selected, view.selected.at(-1));
        },
        Escape: () => view.select([]),
    };
}
