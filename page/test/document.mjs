// As much of a document as pictures are made of, for tests without a browser.
class Node {
    constructor(tag) { Object.assign(this, {tag, attributes: new Map(), children: [], style: {}}); }
    setAttribute(name, value) { this.attributes.set(name, String(value)); }
    getAttribute(name) { return this.attributes.get(name) ?? null; }
    append(...children) { this.children.push(...children); }
    prepend(...children) { this.children.unshift(...children); }
    get textContent() { return this.children.map(child => typeof child === 'string' ? child : child.textContent).join(''); }
    get tagName() { return this.tag; }
    get childNodes() { return this.children.map(child => typeof child === 'string' ? {textContent: child} : child); }
    get classes() { return (this.getAttribute('class') || '').split(' '); }
}

globalThis.document = {
    createElementNS: (_, tag) => new Node(tag),
    createElement: tag => new Node(tag)
};

// All elements of a class, in order.
export const allOf = (node, name) => node.children.filter(child => child instanceof Node)
                                         .flatMap(child => [...(child.classes.includes(name) ? [child] : []), ...allOf(child, name)]);
// The own words of an element, without those of a title in it.
export const wordsOf = node => node.children.filter(child => typeof child === 'string').join('');
export const numbersOf = (node, ...names) => names.map(name => Number(node.getAttribute(name)));
