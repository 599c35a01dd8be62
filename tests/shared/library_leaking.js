// Stands for a web/library.js that would load and send: it tells which ways are closed. `bytes` are an address.

/** @param {BufferSource} bytes */
export async function compile(bytes) {
    const address = new TextDecoder().decode(bytes);
    const closed = [];
    await fetch(`${address}/fetch`, { mode: "no-cors" }).catch(() => closed.push("fetch"));
    await import(`${address}/import`).catch(() => closed.push("import"));
    try {
        /** @type {any} */ (self).importScripts(`${address}/script`);
    } catch (error) {
        closed.push("script");
    }
    try {
        const request = new XMLHttpRequest();
        request.open("GET", `${address}/request`, false);
        request.send();
    } catch (error) {
        closed.push("request");
    }
    try {
        const socket = new WebSocket(`ws${address.slice(4)}/socket`);
        await new Promise((open, fail) => Object.assign(socket, { onopen: open, onerror: fail }));
    } catch (error) {
        closed.push("socket");
    }
    throw new Error(`closed: ${closed.join(" ")}`);
}

/** Is never reached. */
export async function report() {
    return null;
}
