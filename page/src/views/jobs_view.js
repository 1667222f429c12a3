// What runs that the user asked for, in the bar above: each with its time, what was found so far, and a button that stops it. What the page asks
// by itself isn't shown here: where it takes long, its place has a button that stops it.
import {lineText} from './claims.js';
import {$, button, element, hint, replace, seconds} from './dom.js';
import {nameOfJob} from '../engine/job_names.js';

const EACH = 100, UNSEEN = 400;

// `onBusy(isBusy)` is told whether something runs that the user asked for.
export function watchJobs(engine, onBusy) {
    const box = $('#jobs'), rows = new Map();
    setInterval(() => {
        const now = performance.now();
        for (const job of [...engine.tasks, ...engine.running, ...engine.waiting]) {
            // What ends soon isn't shown, nor what waits for a worker that is free.
            if (job.isPart || job.quiet || !rows.has(job) && (job.started ? now - job.started < UNSEEN : engine.running.size < engine.most))
                continue;
            if (!rows.has(job)) box.append(rowOf(job, rows));
            rows.get(job).time.textContent = job.started ? seconds(now - job.started) : 'waiting';
            rows.get(job).say(job.state || '');
        }
        for (const [job, {node}] of rows)
            if (job.isOver) {
                node.remove();
                rows.delete(job);
            }
        box.hidden = !rows.size;
        onBusy(engine.isBusy);
    }, EACH);
}

function rowOf(job, rows) {
    const time = element('span.time', {}), state = hint();
    const name = nameOfJob(job.title);
    const node = element('div.job', {title: name}, element('span.spinner', {'aria-hidden': 'true'}), element('span.name', {}, name), time,
        state, button('Stop', () => job.stop(), {'aria-label': `stop ${name}`}));
    const say = text => {
        if (state.textContent !== text) replace(state, lineText(text));
    };
    rows.set(job, {node, time, say});
    return node;
}
