// A step to a problem that is given: the word `bridge` of `explore`.
import {kindsOf, stagesOf} from './chains.js';
import {writtenChain} from '../engine/judge.js';

// The problem before the step that leads to a card, as the chain down to it; null where no lower bound leads there.
export function chainBefore(workbench, card) {
    const path = workbench.cards.path(card.id), stages = stagesOf(path).slice(0, -1);
    return stages.length && kindsOf(path).includes('lower') ? stages.flat() : null;
}

// A run of `bridge`: the chain with one more step, to this problem.
export async function startBridge(workbench, path, problem) {
    const chain = await writtenChain(workbench.facts, path, 'lower');
    return workbench.engine.start('explore', ['bridge'], `${chain}== to\n${problem}`, {title: 'bridge'});
}
