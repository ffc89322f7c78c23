// The program in a worker, for the page: a call's answer comes later, and may be given up.

export class Program {
    // `module` is compiled, and `worker` is the text of worker.mjs with what it needs
    constructor(module, worker) {
        this.module = module;
        this.address = URL.createObjectURL(new Blob([worker], { type: "text/javascript" }));
        this.waiting = new Map();
        this.calls = 0;
        this.worker = undefined;
    }
    // a worker, which has the module as it was compiled
    begun() {
        const worker = new Worker(this.address);
        worker.onmessage = ({ data }) => {
            this.waiting.get(data.id)?.(data);
            this.waiting.delete(data.id);
        };
        // (one that can't begin, or whose memory ends, answers nothing any more)
        worker.onerror = ({ message }) => this.end({ status: 70, output: "", errors: `the module stopped: ${message}\n`, time: 0 });
        worker.postMessage(this.module);
        return worker;
    }
    // What a call ends with, by words and by files of these names: {status, output, errors, time}, or nothing if it was stopped.
    call(words, files) {
        const id = (this.calls += 1);
        this.worker ??= this.begun();
        return new Promise((done) => {
            this.waiting.set(id, done);
            this.worker.postMessage({ id, words, files: new Map(Object.entries(files)) });
        });
    }
    // ends all calls
    stop() {
        if (this.waiting.size) this.end(undefined);
    }
    // ends all calls with this answer, and the worker
    end(answer) {
        this.worker.terminate();
        this.worker = undefined;
        const given = [...this.waiting.values()];
        this.waiting.clear();
        for (const done of given) done(answer);
    }
}
