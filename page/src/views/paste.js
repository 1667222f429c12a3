// Texts from the clipboard, by a button or pasted anywhere, and files and texts that are dropped on the page.
import {$} from './dom.js';
import {say} from './messages.js';
import {openTextDialog} from '../dialogs/dialogs.js';

// Opens a text at once; one with a fault is shown in the window of Open, with its fault.
async function openAtOnce(bench, text, name) {
    if (!text.trim()) {
        say('The clipboard holds no text.', true);
        return;
    }
    const fault = await bench.sessions.openText(text, name);
    if (fault) openTextDialog(bench, text).open();
}

const takeFile = (bench, file) => {
    document.querySelector('dialog[open]')?.close();
    openTextDialog(bench).take(file);
};

export function listenToPastes(bench) {
    $('#paste').addEventListener('click', async () => {
        const text = await navigator.clipboard?.readText?.().catch(() => null);
        if (typeof text === 'string') {
            await openAtOnce(bench, text);
            return;
        }
        // The browser gives no text by itself: the user pastes it.
        openTextDialog(bench);
        say('The browser keeps the clipboard to itself: press Ctrl+V here.');
    });
    document.addEventListener('paste', event => {
        if (event.target.closest?.('input, textarea, dialog')) return;
        const [file] = event.clipboardData.files, text = event.clipboardData.getData('text');
        if (!file && !text) return;
        event.preventDefault();
        if (file) takeFile(bench, file);
        else openAtOnce(bench, text);
    });
}

export function listenToDrops(bench) {
    const show = isOver => document.body.classList.toggle('dropping', isOver);
    // What is dragged out of the page itself is nothing to open.
    let isOwn = false;
    const isTaken = ({types}) => !isOwn && (types.includes('Files') || types.includes('text/plain'));
    document.addEventListener('dragstart', () => {
        isOwn = true;
    });
    document.addEventListener('dragend', () => {
        isOwn = false;
    });
    document.addEventListener('dragover', event => {
        if (!isTaken(event.dataTransfer)) return;
        event.preventDefault();
        show(true);
    });
    document.addEventListener('dragleave', event => {
        if (!event.relatedTarget) show(false);
    });
    document.addEventListener('drop', event => {
        show(false);
        if (!isTaken(event.dataTransfer)) return;
        const [file] = event.dataTransfer.files, text = event.dataTransfer.getData('text/plain');
        event.preventDefault();
        if (file) takeFile(bench, file);
        else if (text) openAtOnce(bench, text);
    });
}
