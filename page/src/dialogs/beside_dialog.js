// Two cards side by side: their constraints and diagrams, and what stands in one of them alone.
import {button, code, cut, element, hint, plural, replace} from '../views/dom.js';
import {DiagramView} from '../views/diagram_view.js';
import {LinesView} from '../views/lines_view.js';
import {openWideDialog} from './dialogs.js';
import {SIDES, sideText} from '../texts/problems.js';

const MOST_ALONE = 12, LONGEST_NAMED = 70;

// Of two lists the lines that the other one lacks.
export const aloneIn = (lines, others) => lines.filter(line => !others.includes(line));

export async function openBesideDialog(bench, card) {
    const {cards} = bench, path = cards.path(), at = path.findIndex(({id}) => id === card.id),
          other = path[at > 0 ? at - 1 : at + 1] || cards.cards.find(({id}) => id !== card.id) || card;
    // The earlier one stands on the left.
    const pair = path.indexOf(other) < at ? [other, card] : [card, other],
          columns = pair.map(first => column(bench, first, () => compare()));
    const compare = () => columns.forEach((one, i) => one.tellAlone(columns[1 - i].card));
    openWideDialog('Two cards side by side', element('div.columns', {}, columns.map(({node}) => node)),
        element('footer', {}, button('Exchange', () => {
            const [left, right] = columns.map(one => one.card);
            columns[0].show(right);
            columns[1].show(left);
            compare();
        })));
    columns.forEach((one, i) => one.show(pair[i]));
    compare();
}

// One of the two: a list of all cards, and what is shown of the one that is chosen.
function column(bench, first, onChoose) {
    const {cards, engine, facts} = bench, content = element('div.beside', {}),
                          alone = element('div', {role: 'status', 'aria-label': 'what stands here alone'});
    const list = element('select', {
        'aria-label': 'card',
        onchange: () => {
            one.show(cards.get(Number(list.value)));
            onChoose();
        }
    },
        cards.cards.map(card => element('option', {value: String(card.id)}, cut(bench.nameOf(card), LONGEST_NAMED))));
    const one = {
        card: first,
        node: element('section', {'aria-label': 'a card'}, list, content, alone),
        show(card) {
            const known = facts.of(card.problem), {problem} = known;
            one.card = card;
            list.value = String(card.id);
            replace(content, SIDES.map(side => constraintOf(bench, card, side)), SIDES.map(side => {
                const view = new DiagramView(engine, known, side, () => `problem-${card.id}`, () => {});
                view.fill();
                return view.node;
            }),
                hint(`${plural(problem.labels.length, 'label')}, degrees ${problem.active.degree} and ${problem.passive.degree}`));
        },
        tellAlone(other) {
            const [here, there] = [one.card, other].map(({problem}) => facts.of(problem).problem);
            if (SIDES.some(side => here[side].degree !== there[side].degree)) {
                replace(alone, hint('Problems of other degrees have no configuration in common.'));
                return;
            }
            const said = SIDES.map(side => {
                const lines = [one.card, other].map(({problem}) => problem.length > 100000 ? [] : sideText(problem, side).split('\n')),
                      rest = aloneIn(...lines);
                return rest.length ? element('p', {}, hint(`${side}, here alone: `), code(rest.slice(0, MOST_ALONE).join(', ')),
                                         rest.length > MOST_ALONE ? hint(` and ${rest.length - MOST_ALONE} more`) : null)
                                   : null;
            });
            replace(alone,
                said.some(Boolean) ? said : hint(one.card.problem === other.problem ? 'The same problem.' : 'Nothing stands here alone.'));
        }
    };
    return one;
}

function constraintOf(bench, card, side) {
    const {degree, count} = bench.facts.of(card.problem).problem[side], view = new LinesView(bench.engine, `${side} constraint`, () => {});
    bench.linesOf(card).then(lines => view.show({text: lines[side].join('\n'), count: lines[side].length}, `%${degree} (none)`), () => {});
    return element('section', {'aria-label': `${side} constraint`},
        element('h4', {}, side === 'active' ? 'Active' : 'Passive',
            element('small', {}, ` degree ${degree}, ${plural(count, 'configuration')}`)),
        view.node);
}
