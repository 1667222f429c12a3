// Problems on their way to a worker. Each one that is large becomes a Blob once, which a worker makes, and which isn't copied again when it
// is sent: the page would stand still meanwhile.
const LARGE = 100000;

// Of a worker: the Blob of a text, and the text of what was sent.
export const blobOf = text => new Blob([text]);
const wholeText = sent => sent instanceof Blob ? sent.text() : sent;
export const wholeTexts = sent => Promise.all(sent.map(wholeText));
export const wholeState = async ({cards, current}) =>
    ({current, cards: await Promise.all(cards.map(async card => ({...card, problem: await wholeText(card.problem)})))});

export class Parcels {
    constructor(engine) { Object.assign(this, {engine, blobs: new Map()}); }

    // What is sent of a text: itself, or its Blob.
    async one(text) {
        if (text.length < LARGE) return text;
        if (!this.blobs.has(text)) this.blobs.set(text, this.engine.work('blobOf', text));
        return this.blobs.get(text).catch(() => {
            this.blobs.delete(text);
            return text;
        });
    }

    all(texts) { return Promise.all(texts.map(text => this.one(text))); }

    // The same of cards.
    async state({cards, current}) {
        const problems = await this.all(cards.map(card => card.problem));
        return {current, cards: cards.map((card, i) => ({...card, problem: problems[i]}))};
    }
}
