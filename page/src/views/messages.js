// A short message over the page, which screen readers read too. It covers nothing that is used, also where what stands below it moves.

// So long, in ms, a fault is shown, and another message; and so often it is seen to that nothing came below it.
const FAULT_SHOWN = 8000, MESSAGE_SHOWN = 3000, LOOK_EACH = 250;
// Places for it are so many pixels apart.
const BETWEEN = 7;
// A look at all points of a place takes a while, so it goes on in pieces of so many ms.
const PIECE = 8;
const USED = 'button, input, select, textarea, summary, a, [data-label], .edge';
const messageBox = () => document.querySelector('#message');
const footHeight = () => document.querySelector('#claim').offsetHeight;
const pause = (ms = 0) => new Promise(resolve => setTimeout(resolve, ms));
// The message that is there, {until}: when the piece of its look ends. Nothing more is looked for once it is another one.
let shownMessage = null, hiding = 0;

export async function say(text, isFault = false) {
    const box = messageBox(), mine = shownMessage = {until: 0};
    clearTimeout(hiding);
    box.textContent = text;
    box.className = '';
    // It is seen once it has its place.
    await putAside(mine, box);
    if (mine !== shownMessage) return;
    box.className = isFault ? 'shown fault' : 'shown';
    hiding = setTimeout(unsay, isFault ? FAULT_SHOWN : MESSAGE_SHOWN);
    for (;;) {
        await pause(LOOK_EACH);
        if (mine !== shownMessage) return;
        await keepAside(mine, box);
    }
}

// Takes the message away; of a given text only where it says this.
export function unsay(text = messageBox().textContent) {
    const box = messageBox();
    if (box.textContent !== text) return;
    clearTimeout(hiding);
    shownMessage = null;
    box.className = '';
}

// Above the foot, or below the bar, in the middle or at a side, or wherever between them there is room, or over the words of the foot.
function messagePlaces(box) {
    const {width, height} = box.getBoundingClientRect(), foot = innerHeight - footHeight(), low = foot - height - 10,
                  high = Math.max(0, document.querySelector('.bar').getBoundingClientRect().bottom) + 6;
    const lefts = [(innerWidth - width) / 2, 8, innerWidth - width - 24],
          between = Array.from({length: Math.max(0, Math.floor((low - high) / BETWEEN))}, (_, i) => low - i * BETWEEN);
    // Below the edge of the foot, behind which half of a button may stand.
    return [low, high, 2, ...between, foot + 16].flatMap(top => lefts.map(left => [left, top].map(length => Math.max(0, length))));
}

// Whether a box covers nothing that is used where its corner stands there: seen at points that stand closer than what is used is wide.
async function coversNothing(mine, box, [left, top]) {
    const {width, height} = box.getBoundingClientRect(), down = pointsOf(height, 9);
    for (const x of pointsOf(width, 12))
        for (const y of down) {
            if (performance.now() > mine.until) {
                await pause();
                mine.until = performance.now() + PIECE;
            }
            if (mine !== shownMessage || document.elementFromPoint(left + x, top + y)?.closest(USED)) return false;
        }
    return true;
}

// Points of a length, its ends too, no more than so much apart.
function pointsOf(length, apart) {
    const count = Math.ceil(length / apart);
    return Array.from({length: count + 1}, (_, i) => length * i / count);
}

async function putAside(mine, box) {
    let place;
    for (place of messagePlaces(box))
        if (mine !== shownMessage || await coversNothing(mine, box, place)) break;
    if (mine !== shownMessage) return;
    const [left, top] = place;
    Object.assign(box.style, {left: `${left}px`, top: `${top}px`});
}

// It stays where it is as long as it covers nothing.
async function keepAside(mine, box) {
    const {left, top} = box.getBoundingClientRect();
    if (!await coversNothing(mine, box, [left, top])) await putAside(mine, box);
}
