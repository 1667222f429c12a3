// A strength diagram on a card: a picture, or for many classes a list with a button that draws it.
import {button, element, hint, plural, replace, stopButton} from './dom.js';
import {pictureButtons} from './picture_files.js';
import {drawDiagram, sizedNodes} from './pictures.js';

// Pictures of more classes are drawn where they are asked for.
const MOST_DRAWN = 20;

export class DiagramView {
    // `name()` is that of a file, `onDraw()` is told when labels were drawn.
    constructor(engine, facts, side, name, onDraw) {
        Object.assign(this, {engine, facts, side, name, onDraw, above: new Map()});
        this.caption = element('figcaption', {}, `${side} diagram`);
        this.content = element('div.picture', {});
        this.node = element('figure', {'data-side': side, 'aria-label': `${side} diagram`}, this.caption, this.content);
    }

    // Whether `strong` may take the place of `weak`, as far as the program was asked.
    isStronger(weak, strong) { return Boolean(this.above.get(weak)?.has(strong)); }

    async fill() {
        if (!this.facts.isLarge) await this.ask();
        else
            replace(this.content,
                button('Ask for the diagram', () => this.ask(true), {title: 'the problem has many configurations, so this takes a while'}));
    }

    // `isAsked` says whether the user asked for it.
    async ask(isAsked = false) {
        try {
            const diagram = await this.learn(job => replace(this.content, hint('asking… '), stopButton(job)), isAsked);
            if (diagram.classes.length > MOST_DRAWN) this.list(diagram);
            else await this.draw(diagram);
        } catch (error) { replace(this.content, hint(error.message), ' ', button('Ask again', () => this.ask(true), {class: 'link'})); }
    }

    // For each label the labels at least as strong, by the diagram.
    async learn(onJob = () => {}, isAsked = false) {
        const diagram = await this.facts.diagram(this.side, onJob, isAsked), {classes, edges} = diagram;
        const next = new Map(classes.map(labels => [labels[0], []])), classOf = new Map(classes.map(labels => [labels[0], labels]));
        for (const [weak, strong] of edges) next.get(weak).push(strong);
        for (const labels of classes) {
            const reached = new Set([labels[0]]);
            for (const at of reached)
                for (const up of next.get(at)) reached.add(up);
            const all = new Set([...reached].flatMap(at => classOf.get(at)));
            for (const label of labels) this.above.set(label, all);
        }
        return diagram;
    }

    list(diagram) {
        const {classes, edges} = diagram, chip = label => element('span.label', {'data-label': label}, label);
        const words = labels => labels.flatMap((label, i) => i ? [' ', chip(label)] : [chip(label)]);
        const row = labels => {
            const stronger = edges.filter(([weak]) => weak === labels[0]).map(([, strong]) => strong);
            return element('div.line', {}, ...words(labels), ...(stronger.length ? [' → ', ...words(stronger)] : []));
        };
        replace(this.content,
            element('p', {}, hint(`${plural(classes.length, 'class', 'classes')}, ${plural(edges.length, 'arrow')}. `),
                button('Draw it', () => this.draw(diagram), {title: 'a large picture'})),
            element('div.classes', {tabIndex: 0, role: 'group', 'aria-label': `${this.side} diagram as a list`}, classes.map(row)));
        this.onDraw();
    }

    async draw({classes, edges}) {
        const {tied, free} = sizedNodes(classes, edges);
        const placed = await this.engine.work('layout', tied, edges);
        const title = `${this.side} diagram: ${classes.map(labels => labels.join(' ')).join('; ')}; ${
            edges.map(edge => edge.join(' to ')).join('; ') || 'no arrows'}`;
        const picture = drawDiagram(placed, free, title);
        replace(this.content, picture);
        this.content.tabIndex = 0;
        this.content.setAttribute('role', 'group');
        this.content.setAttribute('aria-label', `${this.side} diagram, a picture`);
        replace(this.caption, `${this.side} diagram`,
            pictureButtons(`the ${this.side} diagram`, () => `${this.name()}-${this.side}`, () => picture, {class: 'link'}));
        this.onDraw();
    }
}
