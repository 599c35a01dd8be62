// The workers of the page.

/** @typedef {import("./types.js").Ask} Ask */
/** @typedef {import("./types.js").Reply} Reply */

/**
 * What makes policies where the browser has trusted types.
 * @typedef {{ createPolicy: (name: string, rules: object) => { createScriptURL: (address: string) => any } }} Policies
 */

/** A worker said why it made nothing. */
export class Stopped extends Error {
    /** @param {Reply} reply */
    constructor(reply) {
        super(reply.stage);
        this.reply = reply;
    }
}

/**
 * The address of the script of workers. Only this one may be given to a worker, where the browser has trusted types.
 * @param {Uint8Array} script
 * @returns {string}
 */
export function addressOf(script) {
    const address = URL.createObjectURL(new Blob([script], { type: "text/javascript" }));
    /** @type {Policies | undefined} */
    const types = /** @type {any} */ (globalThis).trustedTypes;
    if (!types) return address;
    const policy = types.createPolicy("mmdepend", {
        createScriptURL: (/** @type {string} */ wanted) => {
            if (wanted !== address) throw new TypeError("another script");
            return wanted;
        },
    });
    return policy.createScriptURL(address);
}

/** A worker, which does one task after the other until it is ended. */
export class Helper {
    /**
     * @param {string} address
     * @param {(reply: Reply) => void} tell is told how far the worker is
     */
    constructor(address, tell) {
        this.worker = new Worker(address);
        this.tell = tell;
        /** @type {{ resolve: (reply: any) => void, reject: (error: Error) => void, last: string }[]} */
        this.waiting = [];
        this.worker.onmessage = ({ data }) => this.hear(data);
        this.worker.onerror = (event) => {
            event.preventDefault();
            this.hear({ stage: "failed", message: event.message || "the worker ended" });
        };
    }

    /** @param {Reply} reply */
    hear(reply) {
        if (reply.stage === "reading" || reply.stage === "checking") {
            this.tell(reply);
            return;
        }
        const task = this.waiting.shift();
        if (!task) return;
        if (reply.stage === task.last) task.resolve(reply);
        else task.reject(new Stopped(reply));
    }

    /**
     * Gives it a task. The answer is what it tells last, of the stage that is wanted; else Stopped.
     * @template {Reply["stage"]} S
     * @param {Ask} ask
     * @param {S} last
     * @param {Transferable[]} transfer
     * @returns {Promise<Extract<Reply, { stage: S }>>}
     */
    ask(ask, last, transfer = []) {
        const answer = new Promise((resolve, reject) => this.waiting.push({ resolve, reject, last }));
        answer.catch(() => {}); // it may be heard of before somebody waits for it
        this.worker.postMessage(ask, transfer);
        return answer;
    }

    /** Ends it, whatever it does; its memory is free then. */
    end() {
        this.worker.terminate();
    }
}

/**
 * Whether workers can read what the browser holds for the page. Those of WebKit can't where the page was opened from a
 * disk.
 * @param {string} address of the workers' script
 */
export async function canShare(address) {
    const helper = new Helper(address, () => {});
    try {
        await helper.ask({ task: "look", blob: new Blob(["a"]) }, "seen");
        return true;
    } catch (error) {
        return false;
    } finally {
        helper.end();
    }
}
