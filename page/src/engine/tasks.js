// What the user asked for and takes several runs: one line with its time, what was found so far, and one button that stops it.
import {Stopped} from './engine.js';

export class Task {
    // `state` says what was found so far.
    constructor(engine, title) {
        Object.assign(this, {engine, title, state: '', isStopped: false, isOver: false, started: performance.now(), jobs: new Set()});
    }

    stop() {
        this.isStopped = true;
        this.jobs.forEach(job => job.stop());
    }

    // A run of a program, or work of the page by its name, which ends with the task.
    ask(program, words, input = '', options = {}) {
        return this.answer(() => this.engine.start(program, words, input, {quiet: false, isPart: true, ...options}));
    }

    // A run that may also be stopped by itself.
    start(program, words, input) {
        if (this.isStopped) throw new Stopped('stopped');
        const job = this.engine.start(program, words, input, {quiet: false, isPart: true}), forget = () => this.jobs.delete(job);
        this.jobs.add(job);
        job.answer.then(forget, forget);
        return job;
    }

    work(work, ...args) { return this.answer(() => this.engine.startWork(work, args, {isPart: true})); }

    async answer(start) {
        if (this.isStopped) throw new Stopped('stopped');
        const job = start();
        this.jobs.add(job);
        try {
            return await job.answer;
        } finally { this.jobs.delete(job); }
    }
}

// Runs a task by `run(task)`, and shows it meanwhile. Who runs it handles that it is stopped.
export async function runTask(engine, title, run) {
    const task = new Task(engine, title);
    engine.tasks.add(task);
    try {
        return await run(task);
    } finally {
        task.isOver = true;
        engine.tasks.delete(task);
    }
}
