// How many axioms each theorem rests on, over the file: for each stretch of theorems the mean, by groups, and the most.

import { Drawing } from "./drawing.js";
import { Group } from "./model.js";

/** @typedef {import("./elements.js").Colours} Colours */
/** @typedef {import("./model.js").Model} Model */
/** @typedef {import("./picture.js").Counts} Counts */

export class Plot extends Drawing {
    /**
     * @param {Model} model
     * @param {Counts} counts
     * @param {Colours} colours
     * @param {(row: number) => void} onPoint
     * @param {(row: number) => void} onOpen
     */
    constructor(model, counts, colours, onPoint, onOpen) {
        super(model, counts, colours, "plot", "plot", "Number of axioms of each theorem, over the file");
        this.onPoint = onPoint;
        this.onOpen = onOpen;
        this.most = 1;
        for (const total of counts.totals) this.most = Math.max(this.most, total);
        this.pointed = -1;
        this.at = 0;
        this.left = 0;
        this.canvas.addEventListener("pointermove", (event) => this.pointAt(event));
        this.canvas.addEventListener("pointerdown", (event) => this.pointAt(event));
        this.canvas.addEventListener("dblclick", () => this.pointed >= 0 && this.onOpen(this.pointed));
        this.canvas.addEventListener("keydown", (event) => this.onKey(event));
    }

    /**
     * The rows of a dot.
     * @param {number} x
     * @returns {[number, number]}
     */
    rowsAt(x) {
        const firstRow = Math.floor((x * this.rows) / this.wide);
        return [firstRow, Math.max(firstRow + 1, Math.floor(((x + 1) * this.rows) / this.wide))];
    }

    draw() {
        this.ratio = Math.min(2, window.devicePixelRatio || 1);
        this.left = Math.round(40 * this.ratio);
        this.canvas.width = Math.round(this.canvas.clientWidth * this.ratio);
        this.canvas.height = Math.round(this.canvas.clientHeight * this.ratio);
        this.wide = Math.max(1, this.canvas.width - this.left);
        if (this.rows === 0) return;
        this.drawBands();
        this.drawScale();
        for (let x = 0; x < this.wide; x++) this.drawDot(x);
        this.drawPointed();
    }

    drawBands() {
        this.model.stretches(this.model.chapters.bandLevel).forEach((band, index) => {
            if (index % 2 === 0) return;
            const from = this.left + (band.firstRow / this.rows) * this.wide;
            const to = this.left + (band.endRow / this.rows) * this.wide;
            this.pen.fillStyle = this.colours.of("--band-even");
            this.pen.fillRect(from, 0, to - from, this.canvas.height);
        });
    }

    /** @param {number} number */
    yOf(number) {
        return this.canvas.height - 1 - (number / this.most) * (this.canvas.height - 10 * this.ratio);
    }

    /** Lines at round numbers of axioms, five at the most above that of none, each with its number. */
    drawScale() {
        const sizes = [1, 2, 5, 10, 20, 50, 100, 200, 500, 1000, 2000, 5000, 10000];
        const step = sizes.find((size) => this.most / size <= 5) ?? this.most;
        this.pen.font = `${Math.round(11 * this.ratio)}px system-ui, sans-serif`;
        this.pen.textAlign = "right";
        this.pen.textBaseline = "middle";
        for (let number = 0; number <= this.most; number += step) {
            const y = Math.round(this.yOf(number));
            this.pen.fillStyle = this.colours.of("--band-line");
            this.pen.fillRect(this.left, y, this.wide, 1);
            this.pen.fillStyle = this.colours.of("--muted");
            const middle = Math.min(y, this.canvas.height - 7 * this.ratio);
            this.pen.fillText(String(number), this.left - 6 * this.ratio, middle);
        }
    }

    /** @param {number} x */
    drawDot(x) {
        const [firstRow, endRow] = this.rowsAt(x);
        let below = 0;
        for (const group of [Group.axiom, Group.logic, Group.definition, Group.open, Group.syntax]) {
            let sum = 0;
            for (let row = firstRow; row < endRow; row++) sum += this.counts.byGroup[group][row];
            if (sum === 0) continue;
            const mean = sum / (endRow - firstRow);
            const from = this.yOf(below + mean);
            this.pen.fillStyle = this.colours.ofGroup(group);
            this.pen.fillRect(this.left + x, from, 1, Math.max(1, this.yOf(below) - from));
            below += mean;
        }
        this.pen.fillStyle = this.colours.of("--muted");
        const most = this.counts.totals[this.counts.heaviest(firstRow, endRow)];
        this.pen.fillRect(this.left + x, this.yOf(most), 1, Math.ceil(this.ratio));
    }

    drawPointed() {
        if (this.pointed < 0) return;
        const x = this.left + (this.pointed / this.rows) * this.wide;
        this.pen.fillStyle = this.colours.of("--cross");
        this.pen.fillRect(x, 0, this.ratio, this.canvas.height);
    }

    /** @param {number} x */
    point(x) {
        this.pointed = this.counts.heaviest(...this.rowsAt(Math.min(this.wide - 1, Math.max(0, Math.floor(x)))));
        this.onPoint(this.pointed);
        this.refresh();
    }

    /** @param {MouseEvent} event */
    pointAt(event) {
        if (this.rows === 0) return;
        const box = this.canvas.getBoundingClientRect();
        this.point((event.clientX - box.left) * this.ratio - this.left);
    }

    /** @param {KeyboardEvent} event */
    onKey(event) {
        const step = new Map([
            ["ArrowLeft", -1],
            ["ArrowRight", 1],
            ["PageUp", -40],
            ["PageDown", 40],
        ]).get(event.key);
        if (this.rows === 0 || event.altKey || event.metaKey || event.ctrlKey) return;
        if (step) {
            const far = Math.max(1, Math.round(2 * this.ratio)) * step * (event.shiftKey ? 10 : 1);
            this.at = Math.min(this.wide - 1, Math.max(0, this.at + far));
            this.point(this.at);
        } else if (event.key === "Enter" && this.pointed >= 0) this.onOpen(this.pointed);
        else return;
        event.preventDefault();
    }
}
