// Asks the worker, which has the solver.

export class Client {
    #worker;
    #asked = new Map();
    #count = 0;

    constructor(source) {
        this.#worker = new Worker(URL.createObjectURL(new Blob([source], { type: "text/javascript" })));
        this.#worker.onmessage = ({ data }) => this.#hear(data);
        this.#worker.onerror = (error) => {
            for (const { reject } of this.#asked.values()) reject(new Error(`the solver's worker failed: ${error.message}`));
            this.#asked.clear();
        };
    }

    #hear({ id, progress, result, refused }) {
        const { resolve, reject, tell } = this.#asked.get(id) ?? {};
        if (progress !== undefined) tell?.(progress);
        else {
            this.#asked.delete(id);
            if (refused === undefined) resolve?.(result);
            else reject?.(new Error(refused));
        }
    }

    /** The answer to a call of the worker; `tell` is told how far it is. */
    ask(call, given = {}, tell = null) {
        const id = ++this.#count;
        return new Promise((resolve, reject) => {
            this.#asked.set(id, { resolve, reject, tell });
            this.#worker.postMessage({ id, call, given });
        });
    }

    /** Ends work after the lines that are being worked on. */
    stop() {
        this.#worker.postMessage({ call: "stop" });
    }
}
