// The Worker as the page sees it: it is asked by name, answers later, and can be stopped. A stopped one knows nothing, and the next
// question starts another.

// What the library refused.
export class Refusal extends Error {
    constructor({ name, number, value, settings }, message) {
        super(message);
        Object.assign(this, { name, number, value, settings });
    }
}

// What was stopped before it was answered.
export class Stopped extends Error {}

export class Asked {
    #script;
    #wasm;
    #first;
    #told;
    #worker = null;
    #open = new Map(); // by number: who waits for an answer
    #last = 0;

    // The script of the Worker, the library that it is to load, what it is asked first, if anything, and who is told how many questions
    // are open.
    constructor(script, wasm, { first, told }) {
        this.#script = script;
        this.#wasm = wasm;
        this.#first = first;
        this.#told = told;
    }

    // A Worker of the page's own script: a page on a disk may load none from a file.
    #start() {
        const address = URL.createObjectURL(new Blob([this.#script], { type: 'text/javascript' }));
        const worker = new Worker(address);
        worker.onmessage = ({ data }) => {
            URL.revokeObjectURL(address);
            this.#answer(data);
        };
        worker.onerror = (event) => {
            event.preventDefault();
            this.#end(new Error(`the library could not be started${event.message ? `: ${event.message}` : ''}`));
        };
        this.#worker = worker;
        const first = this.#first();
        for (const message of [{ wasm: this.#wasm }, ...(first === null ? [] : [first])]) {
            this.#send(message).catch(() => {}); // what goes wrong there goes wrong again at the question that comes next
        }
    }

    // An answer, a Refusal, or an error of another class where something went wrong.
    ask(call, parts) {
        if (this.#worker === null) {
            this.#start();
        }
        return this.#send({ call, parts });
    }

    #send(message) {
        const id = ++this.#last;
        return new Promise((resolve, reject) => {
            this.#open.set(id, { resolve, reject });
            this.#told(this.#open.size);
            this.#worker.postMessage({ id, ...message });
        });
    }

    #answer({ id, answer, refusal, message }) {
        const { resolve, reject } = this.#open.get(id);
        this.#open.delete(id);
        if (message === undefined) {
            resolve(answer);
        } else {
            reject(refusal === undefined ? new Error(message) : new Refusal(refusal, message));
        }
        // whoever waits for this answer goes on first
        setTimeout(() => this.#told(this.#open.size));
    }

    stop() {
        this.#end(new Stopped('stopped'));
    }

    #end(error) {
        this.#worker?.terminate();
        this.#worker = null;
        const left = [...this.#open.values()];
        this.#open.clear();
        left.forEach(({ reject }) => reject(error));
        setTimeout(() => this.#told(this.#open.size));
    }
}
