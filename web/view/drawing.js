// What the drawings of the overview share: a canvas that takes keys, and is drawn anew at the next frame.

import { element } from "./elements.js";

/** @typedef {import("./elements.js").Colours} Colours */
/** @typedef {import("./model.js").Model} Model */
/** @typedef {import("./picture.js").Counts} Counts */

/** Each kind of drawing has its own `draw`, and on the page a text `NAME-keys` that tells its keys. */
export class Drawing {
    /**
     * @param {Model} model
     * @param {Counts} counts
     * @param {Colours} colours
     * @param {string} name
     * @param {string} kind what it is, for who doesn't see it
     * @param {string} label what it shows
     */
    constructor(model, counts, colours, name, kind, label) {
        this.model = model;
        this.counts = counts;
        this.colours = colours;
        this.rows = model.theorems.length;
        this.waiting = false;
        this.ratio = 1;
        this.wide = 1;
        this.canvas = element("canvas", {
            class: name,
            tabindex: 0,
            role: "application",
            "aria-roledescription": kind,
            "aria-label": label,
            "aria-describedby": `${name}-keys`,
        });
        this.pen = /** @type {CanvasRenderingContext2D} */ (this.canvas.getContext("2d"));
        new ResizeObserver(() => this.refresh()).observe(this.canvas);
    }

    /** Draws at the next frame. */
    refresh() {
        if (this.waiting) return;
        this.waiting = true;
        requestAnimationFrame(() => {
            this.waiting = false;
            if (this.canvas.isConnected) this.draw();
        });
    }

    /** @returns {void} */
    draw() {
        throw new Error("a drawing has its own draw");
    }
}
