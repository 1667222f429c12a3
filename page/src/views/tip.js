// The small box that follows labels and says what they stand for.
import {$, replace} from './dom.js';

export class Tip {
    constructor() { this.box = $('#tip'); }

    show(content, at) {
        if (!content) return;
        replace(this.box, content);
        this.box.hidden = false;
        const place = at.getBoundingClientRect(), size = this.box.getBoundingClientRect(), above = place.top - size.height - 6;
        this.box.style.left = `${Math.max(4, Math.min(place.left, innerWidth - size.width - 8))}px`;
        this.box.style.top = `${above > 4 ? above : place.bottom + 6}px`;
    }

    hide() { this.box.hidden = true; }
}
