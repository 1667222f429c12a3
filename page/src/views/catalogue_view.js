// For a card whose problem is in the catalogue its line, with buttons for what shows it. The tables are unpacked when one is asked for.
import {claimNodes} from './claims.js';
import {$, button, element, plural} from './dom.js';
import {openCatalogueDialog} from '../dialogs/catalogue_dialog.js';
import {unpacked} from '../engine/packed.js';
import {tableName} from '../texts/catalogue.js';
import {wholeTable} from '../texts/tables.js';

const IDENTIFIERS = 'with identifiers: ';

export class Catalogue {
    constructor(workbench) { Object.assign(this, {workbench, packed: JSON.parse($('#catalogue').textContent), tables: {}}); }

    get names() { return Object.keys(this.packed); }

    async table(name) {
        if (!Object.hasOwn(this.packed, name)) return null;
        this.tables[name] ||= unpacked(this.packed[name]).text().then(wholeTable);
        return this.tables[name];
    }

    // What a card shows, or null.
    async node(card, view) {
        const {problem} = view.facts, table = await this.table(tableName(problem)), {engine, settling} = this.workbench;
        const found = table && await engine.work('catalogueLine', table, card.problem);
        if (!found) return null;
        const {number, claims, count} = found, {labels, active, passive} = problem,
                               title = `of the ${plural(count, 'problem')} of ${plural(labels.length, 'label')} in degrees ${
                                   active.degree} and ${passive.degree} that stand there; under these names: ${found.problem}`;
        const like = {table: tableName(problem), answer: claims[0].line, identifiers: claims[1]?.line.slice(IDENTIFIERS.length)};
        const others = button('Others like it…', () => openCatalogueDialog(this.workbench, like),
            {class: 'link', title: 'the problems of the catalogue with the same answer and class'});
        return element('div.group.catalogue', {}, element('span.hint', {title}, `The catalogue's line, number ${number}:`),
            claims.map(({line, shownBy}, i) => [element(i ? 'span.group.grow' : 'span.group', {}, claimNodes(line),
                                                    settling.buttons(card, view, shownBy, found)),
                           i ? null : others]));
    }
}
