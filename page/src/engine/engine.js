// Runs the programs and the page's own work on texts in Web Workers: several at once, each can be stopped.

export class Stopped extends Error {}

const NO_MEMORY = 7;
const MOST_KEPT = 20000000, LARGEST_KEPT = 500000;

export class Engine {
    // `programs` has for each name its {module, bytes}; `workerText` is the script of a worker.
    constructor(programs, workerText, most = Math.max(3, Math.min(8, (navigator.hardwareConcurrency || 4) - 1))) {
        this.programs = programs;
        this.workerUrl = URL.createObjectURL(new Blob([workerText], {type: 'text/javascript'}));
        this.most = most;
        this.idle = [];
        this.running = new Set();
        this.waiting = [];
        // Tasks of several jobs: they show themselves, and their jobs don't.
        this.tasks = new Set();
        this.answers = new Map();
        this.kept = 0;
    }

    // Whether something runs, or waits, that the user asked for.
    get isBusy() { return this.tasks.size > 0 || [...this.running, ...this.waiting].some(job => !job.quiet); }

    // A run of a program: a job {title, started, isOver, answer, stop()}, its answer a promise of {status, text}.
    // Quiet jobs are those that the page starts by itself; `limit` stops a job after so many milliseconds;
    // `isPart` says that a task shows it; `onText(text)` is told what was written so far, each time that more is while it runs.
    start(program, words, input = '', {title = words.join(' '), quiet = false, limit = 0, isPart = false, onText = null} = {}) {
        const key = input.length > LARGEST_KEPT ? null : `${program} ${words.join(' ')}\n${input}`;
        const known = key && this.answers.get(key);
        if (known) return {title, started: 0, isOver: true, answer: Promise.resolve(known), stop() {}};
        return this.enqueue(
            {request: {program, words, input, isTold: Boolean(onText)}, key, title, quiet, limit, isPart, onText, written: ''});
    }

    ask(program, words, input, options) { return this.start(program, words, input, options).answer; }

    // Work of the page's own by its name in worker.js, its answer a promise of what the function answers.
    startWork(work, args, {title = work, quiet = true, limit = 0, isPart = false} = {}) {
        return this.enqueue({request: {work, args}, key: null, title, quiet, limit, isPart});
    }

    work(work, ...args) { return this.startWork(work, args).answer; }

    enqueue(job) {
        Object.assign(job, {started: 0, worker: null, isOver: false, stop: () => this.stop(job)});
        job.answer = new Promise((resolve, reject) => Object.assign(job, {resolve, reject}));
        job.answer.catch(() => {});
        this.waiting.push(job);
        this.next();
        return job;
    }

    // What the user asked for comes before what the page asks for by itself, which leaves one worker free. Of the latter one may always run,
    // or long searches would keep what another one found from being shown.
    get nextAt() {
        const {running, waiting, most} = this, asked = waiting.findIndex(job => !job.quiet);
        if (asked >= 0 && running.size < most) return asked;
        return running.size < most - 1 || ![...running].some(job => job.quiet) ? waiting.findIndex(job => job.quiet) : -1;
    }

    next() {
        for (let at; (at = this.nextAt) >= 0;) {
            const [job] = this.waiting.splice(at, 1);
            job.worker = this.idle.pop() || this.newWorker();
            job.started = performance.now();
            this.running.add(job);
            job.worker.onmessage = ({data}) => this.take(job, data);
            job.worker.onerror = event => {
                event.preventDefault?.();
                this.lose(job.worker, event.message);
            };
            job.worker.postMessage(job.request);
            if (job.limit) job.timer = setTimeout(() => this.stop(job), job.limit);
        }
    }

    newWorker() {
        const worker = new Worker(this.workerUrl), lifeline = `worker ${Math.random()}`;
        const sent = part => Object.fromEntries(Object.entries(this.programs).map(([name, program]) => [name, program[part]]));
        // A browser that can't hand over a module gets the bytes again.
        try {
            worker.postMessage({programs: sent('module'), lifeline});
        } catch { worker.postMessage({programs: sent('bytes'), lifeline}); }
        // The worker holds a lock as long as it lives; who waits for it is told when the worker is gone.
        worker.addEventListener('message', ({data}) => {
            if (data.holds) navigator.locks.request(lifeline, () => this.lose(worker)).catch(() => {});
        });
        return worker;
    }

    take(job, {holds, part, failure, value, ...answer}) {
        if (holds) return;
        if (part !== undefined) {
            job.written += part;
            job.onText(job.written);
            return;
        }
        if (failure)
            this.end(job, () => job.reject(new Error(job.request.program ? `the program broke off (${failure})` : failure)), false);
        // Where memory ends, nothing is written, or a beginning.
        else if (answer.status === NO_MEMORY) this.end(job, () => job.reject(new Error('exit code 7: there is not enough memory')));
        else if (job.request.work) this.end(job, () => job.resolve(value));
        else
            this.end(job, () => {
                this.keep(job.key, answer);
                job.resolve(answer);
            });
    }

    // A worker that the browser ended: its job is told, and the next one gets a new worker.
    lose(worker, fault = '') {
        this.idle = this.idle.filter(other => other !== worker);
        const job = [...this.running].find(other => other.worker === worker);
        const what = fault ? `its worker failed (${fault})` : 'the browser ended its worker';
        if (job) this.end(job, () => job.reject(new Error(`${what}. Nothing else is lost: ask again.`)), false);
    }

    end(job, settle, keepsWorker = true) {
        if (job.isOver) return;
        job.isOver = true;
        clearTimeout(job.timer);
        this.running.delete(job);
        if (job.worker) {
            job.worker.onmessage = job.worker.onerror = null;
            if (keepsWorker) this.idle.push(job.worker);
            else job.worker.terminate();
        }
        settle();
        this.next();
    }

    stop(job) {
        this.waiting = this.waiting.filter(other => other !== job);
        this.end(job, () => job.reject(new Stopped('stopped')), false);
    }

    // Answers to short questions, the oldest forgotten first.
    keep(key, answer) {
        const size = (asked, {text}) => asked.length + text.length;
        if (!key || size(key, answer) > LARGEST_KEPT) return;
        this.answers.set(key, answer);
        this.kept += size(key, answer);
        for (const [old, given] of this.answers) {
            if (this.kept < MOST_KEPT) break;
            this.answers.delete(old);
            this.kept -= size(old, given);
        }
    }
}
