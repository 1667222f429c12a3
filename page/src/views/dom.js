// Small helpers to build the page. Texts become text nodes and attributes alone, never markup.
import {say} from './messages.js';

export const $ = selector => document.querySelector(selector);

const present = children => children.flat(9).filter(child => child !== null && child !== undefined && child !== false);

function setValues(node, values) {
    for (const [key, value] of Object.entries(values)) {
        if (value === undefined || value === null || value === false) continue;
        if (key.startsWith('on')) node.addEventListener(key.slice(2), value);
        else if (key in node && key !== 'list' && typeof value !== 'string') node[key] = value;
        else node.setAttribute(key, value === true ? '' : value);
    }
    return node;
}

// element('button.primary', {onclick, title}, children..)
export function element(kind, values = {}, ...children) {
    const [tag, ...classes] = kind.split('.');
    const node = document.createElement(tag);
    if (classes.length) node.className = classes.join(' ');
    setValues(node, values).append(...present(children));
    return node;
}

export const button = (text, onclick, values = {}) => element('button', {type: 'button', onclick, ...values}, text);
// A button that stops a job, in the place where its answer comes: it is seen where that takes long.
export const stopButton = job => button('Stop', () => job.stop(), {class: 'link late', 'aria-label': `stop ${job.title}`});
export const hint = (...children) => element('span.hint', {}, ...children);
export const code = (...children) => element('span.code', {}, ...children);
export const faulty = (...children) => element('span.faulty', {}, ...children);

// A command as a shell takes it, to copy.
export const shellLine = (said, command) => element('div', {}, hint(said), code(command), ' ',
    button('Copy the command', event => copy(command, event.currentTarget), {class: 'link', 'aria-label': `copy the command ${command}`}));

export function replace(node, ...children) {
    node.replaceChildren(...present(children));
    return node;
}

export function download(name, text, type = 'text/plain') {
    const url = URL.createObjectURL(new Blob([text], {type}));
    const link = element('a', {href: url, download: name});
    document.body.append(link);
    link.click();
    link.remove();
    setTimeout(() => URL.revokeObjectURL(url), 10000);
}

export async function copy(text, from) {
    try {
        await navigator.clipboard.writeText(text);
    } catch {
        // Pages from a disk may have no clipboard of their own.
        const area = element('textarea', {class: 'offscreen'});
        (document.querySelector('dialog[open]') || document.body).append(area);
        area.value = text;
        area.select();
        document.execCommand('copy');
        area.remove();
    }
    say('Copied.');
    from?.focus();
}

// Scrolls until an element that was opened is seen, clear of what stands over the page; its beginning at the top with `block` as 'start'.
export const intoView = (node, block = 'nearest') =>
    requestAnimationFrame(() => node?.isConnected && node.scrollIntoView({block, behavior: 'instant'}));

const withCommas = new Intl.NumberFormat('en');
export const plural = (n, one, many = one + 's') => `${withCommas.format(n)} ${n === 1 ? one : many}`;
export const seconds = ms => ms < 10000 ? `${(ms / 1000).toFixed(1)} s`
    : ms < 60000 ? `${Math.round(ms / 1000)} s`
                 : `${Math.floor(ms / 60000)} min ${Math.round(ms / 1000) % 60} s`;
export const cut = (text, most) => text.length > most ? text.slice(0, most) + '…' : text;
