// The matrix as a picture: theorems down, axioms across, chapters as bands at the left. It can be zoomed, and pointed
// at.

import { lowestOf } from "../packer/bits.js";
import { Drawing } from "./drawing.js";
import { GROUPS } from "./model.js";

/** @typedef {import("./elements.js").Colours} Colours */
/** @typedef {import("./model.js").Model} Model */
/** @typedef {import("./types.js").Stretch} Stretch */

/** Counts of marks are kept for blocks of this many rows, so that the whole is drawn without each mark. */
const BLOCK = 16;
/** So many shades a dot can have, from the background to the colour of its group. */
const SHADES = 64;
/** The part of the colour in the first of them, so that a single mark is seen. */
const FAINTEST = 0.22;
const NARROW_PICTURE = 520; // below this width chapters have no names in the picture
const HEADER = 10; // the height of the band that shows the groups of the columns
// Of the bands at the left: how large their titles are, how high a line of them is beside that, the space before and behind
// a title and behind a band, and below which width there are no titles.
const TITLE_SIZE = 12;
const LINE_HEIGHT = 1.2;
const TITLE_SPACE = 5;
const BAND_GAP = 3;
const NARROW_GUTTER = 100;
const FAR = 20; // how many cells an arrow key goes with Shift
const KEY_ZOOM = 1.5; // how many times as large the picture gets by a key

/** What is counted once of the matrix. */
export class Counts {
    /** @param {Model} model */
    constructor(model) {
        const rows = model.theorems.length;
        const columns = model.axioms.length;
        this.columns = columns;
        this.blocks = Math.ceil(rows / BLOCK);
        // above[b * columns + c]: how many marks column c has above block b.
        this.above = new Uint32Array((this.blocks + 1) * columns);
        // Of each theorem the number of its axioms in each group.
        this.byGroup = GROUPS.map(() => new Uint16Array(rows));
        this.totals = new Uint16Array(rows);
        for (let block = 0; block < this.blocks; block++) {
            const here = (block + 1) * columns;
            this.above.copyWithin(here, here - columns, here);
            const end = Math.min(rows, (block + 1) * BLOCK);
            for (let row = block * BLOCK; row < end; row++) this.addRow(model, row, here);
        }
    }

    /**
     * @param {Model} model
     * @param {number} row
     * @param {number} here
     */
    addRow(model, row, here) {
        const { bits, rowWords, groupOf } = model;
        for (let word = 0; word < rowWords; word++) {
            let left = bits[row * rowWords + word];
            while (left !== 0) {
                const column = word * 32 + lowestOf(left);
                left &= left - 1;
                this.above[here + column]++;
                this.byGroup[groupOf[column]][row]++;
                this.totals[row]++;
            }
        }
    }

    /**
     * The row of the theorem that rests on most axioms, the first one of several.
     * @param {number} firstRow
     * @param {number} endRow
     */
    heaviest(firstRow, endRow) {
        let best = firstRow;
        for (let row = firstRow; row < endRow; row++) if (this.totals[row] > this.totals[best]) best = row;
        return best;
    }
}

/** Cuts a stretch of cells into bins: one for each dot, or one for each cell where a cell is larger than a dot. */
class Bins {
    /**
     * @param {number} from
     * @param {number} to
     * @param {number} cells
     * @param {number} dots
     */
    constructor(from, to, cells, dots) {
        this.low = Math.max(0, Math.floor(from));
        this.high = Math.min(cells, Math.ceil(to));
        this.scale = dots / (to - from);
        this.areCells = this.scale >= 1;
        this.number = this.areCells ? this.high - this.low : dots;
        this.ofDot = new Int32Array(dots);
        for (let dot = 0; dot < dots; dot++) {
            const cell = Math.floor(from + (dot + 0.5) / this.scale);
            this.ofDot[dot] = this.areCells ? Math.min(this.number - 1, Math.max(0, cell - this.low)) : dot;
        }
        this.from = from;
        this.dots = dots;
    }

    /** @param {number} cell */
    of(cell) {
        if (this.areCells) return cell - this.low;
        return Math.min(this.dots - 1, Math.max(0, Math.floor((cell - this.from) * this.scale)));
    }
}

export class Picture extends Drawing {
    /**
     * @param {Model} model
     * @param {Counts} counts
     * @param {Colours} colours
     * @param {(row: number, column: number) => void} onPoint
     * @param {(row: number, column: number, isAxiom: boolean) => void} onOpen
     */
    constructor(model, counts, colours, onPoint, onOpen) {
        const label = "Marks of theorems, downwards, by axioms, across";
        super(model, counts, colours, "picture", "zoomable picture", label);
        this.onPoint = onPoint;
        this.onOpen = onOpen;
        /** @type {Map<number, Stretch[]>} */
        this.bandsByLevel = new Map();
        /** @type {Map<string, string>} */
        this.fittedTitles = new Map();
        /** @type {number[]} */
        this.order = [];
        this.view = { top: 0, bottom: 0, left: 0, right: 0 };
        this.gutter = 0;
        this.high = 1;
        /** @type {Map<number, PointerEvent>} */
        this.fingers = new Map();
        /** @type {{ row: number, index: number } | null} */
        this.pointed = null;
        this.listen();
    }

    /**
     * Shows these columns, in this order.
     * @param {number[]} columns
     */
    setColumns(columns) {
        this.order = columns;
        this.pointed = null;
        this.showAll();
    }

    showAll() {
        this.view = { top: 0, bottom: this.rows, left: 0, right: this.order.length };
        this.refresh();
    }

    get isWhole() {
        const { top, bottom, left, right } = this.view;
        return bottom - top >= this.rows && right - left >= this.order.length;
    }

    /** Fits the picture into its place on the page. */
    measure() {
        const width = this.canvas.clientWidth;
        const height = this.canvas.clientHeight;
        this.ratio = Math.min(2, window.devicePixelRatio || 1);
        this.gutter = width < NARROW_PICTURE ? 12 : 190;
        const dotsAcross = Math.round(width * this.ratio);
        const dotsDown = Math.round(height * this.ratio);
        if (this.canvas.width !== dotsAcross || this.canvas.height !== dotsDown) {
            this.canvas.width = dotsAcross;
            this.canvas.height = dotsDown;
            this.fittedTitles.clear();
        }
        this.wide = Math.max(1, this.canvas.width - Math.round(this.gutter * this.ratio));
        this.high = Math.max(1, this.canvas.height - Math.round(HEADER * this.ratio));
    }

    draw() {
        const began = performance.now();
        this.measure();
        this.pen.clearRect(0, 0, this.canvas.width, this.canvas.height);
        if (this.rows > 0 && this.order.length > 0) {
            const { top, bottom, left, right } = this.view;
            const down = new Bins(top, bottom, this.rows, this.high);
            const across = new Bins(left, right, this.order.length, this.wide);
            const image = this.paint(down, across, this.countMarks(down, across));
            this.pen.putImageData(image, this.canvas.width - this.wide, this.canvas.height - this.high);
            this.drawGroups(across);
            this.drawBands();
            this.drawCross();
        }
        this.canvas.style.touchAction = this.isWhole ? "pan-y" : "none";
        // Read by the test of the page.
        this.canvas.dataset.drawn = (performance.now() - began).toFixed(1);
    }

    /**
     * How many marks each bin of the picture has, how many rows each bin downwards has, and how many columns each bin
     * across.
     * @param {Bins} down
     * @param {Bins} across
     */
    countMarks(down, across) {
        const marks = new Uint32Array(down.number * across.number);
        const rowsIn = new Uint32Array(down.number);
        const columnsIn = new Uint32Array(across.number);
        for (let index = across.low; index < across.high; index++) columnsIn[across.of(index)]++;
        if (down.scale <= 1 / BLOCK) this.countBlocks(down, across, marks, rowsIn);
        else this.countRows(down, across, marks, rowsIn);
        return { marks, rowsIn, columnsIn };
    }

    /**
     * Counts the marks of each bin by blocks of BLOCK rows, from what each column has above them; `rowsIn` gets how
     * many rows each bin downwards has.
     * @param {Bins} down
     * @param {Bins} across
     * @param {Uint32Array} marks of each bin downwards those of the bins across
     * @param {Uint32Array} rowsIn
     */
    countBlocks(down, across, marks, rowsIn) {
        const { above, columns, blocks } = this.counts;
        const bins = new Int32Array(across.high - across.low);
        for (let index = across.low; index < across.high; index++) bins[index - across.low] = across.of(index);
        for (let downBin = 0; downBin < down.number; downBin++) {
            const first = Math.min(blocks, Math.round((down.from + downBin / down.scale) / BLOCK));
            const end = Math.min(blocks, Math.round((down.from + (downBin + 1) / down.scale) / BLOCK));
            rowsIn[downBin] = Math.min(this.rows, end * BLOCK) - first * BLOCK;
            for (let index = 0; index < bins.length; index++) {
                const column = this.order[across.low + index];
                const number = above[end * columns + column] - above[first * columns + column];
                marks[downBin * across.number + bins[index]] += number;
            }
        }
    }

    /**
     * Counts the marks of each bin row by row; `rowsIn` gets how many rows each bin downwards has.
     * @param {Bins} down
     * @param {Bins} across
     * @param {Uint32Array} marks of each bin downwards those of the bins across
     * @param {Uint32Array} rowsIn
     */
    countRows(down, across, marks, rowsIn) {
        const { bits, rowWords } = this.model;
        const bins = new Int32Array(this.model.axioms.length).fill(-1);
        for (let index = across.low; index < across.high; index++) bins[this.order[index]] = across.of(index);
        for (let row = down.low; row < down.high; row++) {
            const downBin = down.of(row);
            rowsIn[downBin]++;
            for (let word = 0; word < rowWords; word++) {
                let left = bits[row * rowWords + word];
                while (left !== 0) {
                    const bin = bins[word * 32 + lowestOf(left)];
                    left &= left - 1;
                    if (bin >= 0) marks[downBin * across.number + bin]++;
                }
            }
        }
    }

    /**
     * The dots: the more of its cells are marked, the stronger is a bin. One mark is enough to be seen.
     * @param {Bins} down
     * @param {Bins} across
     * @param {{ marks: Uint32Array, rowsIn: Uint32Array, columnsIn: Uint32Array }} counted
     */
    paint(down, across, { marks, rowsIn, columnsIn }) {
        const image = this.pen.createImageData(this.wide, this.high);
        const dots = new Uint32Array(image.data.buffer);
        const ramps = this.ramps();
        /** @type {Uint32Array[]} */
        const rampOf = [];
        for (let index = across.low; index < across.high; index++) {
            rampOf[across.of(index)] ??= ramps[this.model.groupOf[this.order[index]]];
        }
        const line = new Uint32Array(across.number);
        let lineOf = -1;
        for (let y = 0; y < this.high; y++) {
            const bin = down.ofDot[y];
            if (bin !== lineOf) {
                for (let index = 0; index < across.number; index++) {
                    const number = marks[bin * across.number + index];
                    const share = number / (rowsIn[bin] * columnsIn[index]);
                    const shade = number === 0 ? 0 : Math.min(SHADES - 1, Math.ceil(Math.sqrt(share) * (SHADES - 1)));
                    line[index] = (rampOf[index] ?? ramps[0])[shade];
                }
                lineOf = bin;
            }
            for (let x = 0; x < this.wide; x++) dots[y * this.wide + x] = line[across.ofDot[x]];
        }
        return image;
    }

    /** For each group the shades from the background to its colour, as numbers for the image. */
    ramps() {
        const ground = this.colours.parts("--picture-ground");
        return GROUPS.map((group) => {
            const full = this.colours.parts(`--group-${group.key}`);
            return Uint32Array.from({ length: SHADES }, (_, shade) => {
                const weight = shade === 0 ? 0 : FAINTEST + ((1 - FAINTEST) * shade) / (SHADES - 1);
                const mixed = full.map((value, index) => Math.round(ground[index] + (value - ground[index]) * weight));
                const [red, green, blue] = mixed;
                return ((255 << 24) | (blue << 16) | (green << 8) | red) >>> 0;
            });
        });
    }

    /** @param {Bins} across */
    drawGroups(across) {
        const left = this.canvas.width - this.wide;
        for (let x = 0; x < this.wide; x++) {
            const index = Math.min(this.order.length - 1, Math.floor(across.from + (x + 0.5) / across.scale));
            this.pen.fillStyle = this.colours.ofGroup(this.model.groupOf[this.order[index]]);
            this.pen.fillRect(left + x, 0, 1, Math.round((HEADER - 3) * this.ratio));
        }
    }

    /** The bands of the chapters: of the finest level of which not too many are in view. */
    bands() {
        const levels = [...new Set(this.model.chapters.list.map((chapter) => chapter.level))].sort();
        let bands = this.bandsAt(this.model.chapters.bandLevel);
        for (const level of levels) {
            if (level <= this.model.chapters.bandLevel) continue;
            const finer = this.bandsAt(level);
            if (finer.length > Math.max(8, this.high / this.ratio / 22)) break;
            bands = finer;
        }
        return bands;
    }

    /** @param {number} level */
    bandsAt(level) {
        const known = this.bandsByLevel.get(level) ?? this.model.stretches(level);
        this.bandsByLevel.set(level, known);
        const { top, bottom } = this.view;
        return known.filter((band) => band.endRow > top && band.firstRow < bottom);
    }

    drawBands() {
        const pen = this.pen;
        const gutter = this.canvas.width - this.wide;
        const head = this.canvas.height - this.high;
        const size = Math.round(TITLE_SIZE * this.ratio);
        pen.font = `${size}px system-ui, sans-serif`;
        pen.textBaseline = "middle";
        this.bands().forEach((band, index) => {
            const from = Math.max(head, this.yOf(band.firstRow));
            const to = Math.min(this.canvas.height, this.yOf(band.endRow));
            pen.fillStyle = this.colours.of(index % 2 ? "--band-odd" : "--band-even");
            pen.fillRect(0, from, gutter - BAND_GAP * this.ratio, to - from);
            pen.fillStyle = this.colours.of("--band-line");
            pen.fillRect(0, Math.round(from), this.canvas.width, 1);
            if (to - from < size * LINE_HEIGHT || this.gutter < NARROW_GUTTER) return;
            pen.fillStyle = this.colours.of("--text");
            const width = gutter - (BAND_GAP + 2 * TITLE_SPACE) * this.ratio;
            pen.fillText(this.fitted(band.title, width), TITLE_SPACE * this.ratio, (from + to) / 2);
        });
    }

    /**
     * A text, cut to the width of the gutter.
     * @param {string} text
     * @param {number} width
     */
    fitted(text, width) {
        const known = this.fittedTitles.get(text);
        if (known !== undefined) return known;
        let length = text.length;
        const cut = () => (length === text.length ? text : `${text.slice(0, length).trimEnd()}…`);
        while (length > 1 && this.pen.measureText(cut()).width > width) length--;
        this.fittedTitles.set(text, cut());
        return cut();
    }

    /** A cross at the cell that is pointed at. */
    drawCross() {
        if (!this.pointed) return;
        const { row, index } = this.pointed;
        const left = this.canvas.width - this.wide;
        const head = this.canvas.height - this.high;
        const x = (this.xOf(index) + this.xOf(index + 1)) / 2;
        const y = (this.yOf(row) + this.yOf(row + 1)) / 2;
        this.pen.strokeStyle = this.colours.of("--cross");
        this.pen.lineWidth = this.ratio;
        this.pen.beginPath();
        if (x >= left && x <= this.canvas.width) {
            this.pen.moveTo(x, head);
            this.pen.lineTo(x, this.canvas.height);
        }
        if (y >= head && y <= this.canvas.height) {
            this.pen.moveTo(left, y);
            this.pen.lineTo(this.canvas.width, y);
        }
        this.pen.stroke();
    }

    /** @param {number} row */
    yOf(row) {
        const { top, bottom } = this.view;
        return this.canvas.height - this.high + ((row - top) / (bottom - top)) * this.high;
    }

    /** @param {number} index */
    xOf(index) {
        const { left, right } = this.view;
        return this.canvas.width - this.wide + ((index - left) / (right - left)) * this.wide;
    }

    /**
     * Zooms so that one point of the picture, by its shares of height and width, stays where it is.
     * @param {number} factor
     */
    zoom(factor, down = 0.5, across = 0.5) {
        const { top, bottom, left, right } = this.view;
        /** @type {(low: number, high: number, share: number, cells: number) => [number, number]} */
        const stretch = (low, high, share, cells) => {
            const length = Math.min(cells, Math.max(Math.min(cells, 6), (high - low) / factor));
            return shifted(low + (high - low) * share - length * share, length, cells);
        };
        [this.view.top, this.view.bottom] = stretch(top, bottom, down, this.rows);
        [this.view.left, this.view.right] = stretch(left, right, across, this.order.length);
        this.refresh();
    }

    /**
     * Moves by shares of height and width.
     * @param {number} down
     * @param {number} across
     */
    move(down, across) {
        const { top, bottom, left, right } = this.view;
        const height = bottom - top;
        const width = right - left;
        [this.view.top, this.view.bottom] = shifted(top + down * height, height, this.rows);
        [this.view.left, this.view.right] = shifted(left + across * width, width, this.order.length);
        this.refresh();
    }

    /**
     * Points at a cell and says which it is; the view follows.
     * @param {number} row
     * @param {number} index
     */
    point(row, index) {
        this.pointed = {
            row: Math.min(this.rows - 1, Math.max(0, Math.floor(row))),
            index: Math.min(this.order.length - 1, Math.max(0, Math.floor(index))),
        };
        const { top, bottom, left, right } = this.view;
        const { row: at, index: over } = this.pointed;
        if (at < top || at >= bottom) this.move((at + 0.5 - (top + bottom) / 2) / (bottom - top), 0);
        if (over < left || over >= right) this.move(0, (over + 0.5 - (left + right) / 2) / (right - left));
        this.onPoint(at, this.order[over]);
        this.refresh();
    }

    /**
     * The shares of height and width at which an event is.
     * @param {MouseEvent} event
     */
    shares(event) {
        const box = this.canvas.getBoundingClientRect();
        return {
            down: Math.min(0.9999, Math.max(0, (event.clientY - box.top - HEADER) / (box.height - HEADER))),
            across: Math.min(0.9999, Math.max(0, (event.clientX - box.left - this.gutter) / (box.width - this.gutter))),
        };
    }

    /** @param {MouseEvent} event */
    pointAt(event) {
        const { down, across } = this.shares(event);
        const { top, bottom, left, right } = this.view;
        this.point(top + down * (bottom - top), left + across * (right - left));
    }

    listen() {
        const canvas = this.canvas;
        canvas.addEventListener("keydown", (event) => this.onKey(event));
        canvas.addEventListener("focus", () => {
            if (!this.pointed && this.isUsable) this.point(this.view.top, this.view.left);
        });
        canvas.addEventListener(
            "wheel",
            (event) => {
                // The wheel scrolls the page until the picture is taken up, or a key says that the picture is meant.
                if (document.activeElement !== canvas && !event.ctrlKey) return;
                event.preventDefault();
                const { down, across } = this.shares(event);
                this.zoom(Math.exp(-event.deltaY / 400), down, across);
            },
            { passive: false },
        );
        canvas.addEventListener("dblclick", (event) => {
            const { down, across } = this.shares(event);
            this.zoom(event.shiftKey ? 1 / 3 : 3, down, across);
        });
        canvas.addEventListener("pointerdown", (event) => {
            canvas.setPointerCapture(event.pointerId);
            this.fingers.set(event.pointerId, event);
            if (this.isUsable) this.pointAt(event);
        });
        canvas.addEventListener("pointermove", (event) => this.onMove(event));
        canvas.addEventListener("pointerup", (event) => this.fingers.delete(event.pointerId));
        canvas.addEventListener("pointercancel", (event) => this.fingers.delete(event.pointerId));
    }

    get isUsable() {
        return this.rows > 0 && this.order.length > 0;
    }

    /**
     * One finger or the mouse moves the picture, two fingers zoom it, the mouse alone points.
     * @param {PointerEvent} event
     */
    onMove(event) {
        if (!this.isUsable) return;
        const before = this.fingers.get(event.pointerId);
        if (!before) {
            this.pointAt(event);
            return;
        }
        const old = this.shares(before);
        const now = this.shares(event);
        if (this.fingers.size === 1) this.move(old.down - now.down, old.across - now.across);
        if (this.fingers.size === 2) {
            const [other] = [...this.fingers.values()].filter((finger) => finger.pointerId !== event.pointerId);
            const far = (/** @type {PointerEvent} */ { clientX, clientY }) => {
                return Math.max(20, Math.hypot(clientX - other.clientX, clientY - other.clientY));
            };
            const middle = this.shares(other);
            this.zoom(far(event) / far(before), (now.down + middle.down) / 2, (now.across + middle.across) / 2);
        }
        this.fingers.set(event.pointerId, event);
    }

    /** @param {KeyboardEvent} event */
    onKey(event) {
        if (!this.isUsable || event.altKey || event.metaKey || event.ctrlKey) return;
        /** @type {Record<string, number[]>} */
        const steps = { ArrowUp: [-1, 0], ArrowDown: [1, 0], ArrowLeft: [0, -1], ArrowRight: [0, 1] };
        /** @type {Record<string, number>} */
        const pages = { PageUp: -0.5, PageDown: 0.5 };
        const { top, bottom, left, right } = this.view;
        const at = this.pointed ?? { row: top, index: left };
        const down = (at.row + 0.5 - top) / (bottom - top);
        const across = (at.index + 0.5 - left) / (right - left);
        if (event.key in steps) {
            const [dy, dx] = steps[event.key];
            const far = event.shiftKey ? FAR : 1;
            // A cell, or as many as two pixels of the page have.
            const rows = Math.max(1, Math.ceil((bottom - top) / (this.high / this.ratio / 2))) * far;
            const columns = Math.max(1, Math.ceil((right - left) / (this.wide / this.ratio / 2))) * far;
            this.point(at.row + dy * rows, at.index + dx * columns);
        } else if (event.key in pages) {
            this.move(pages[event.key], 0);
            this.point(at.row + pages[event.key] * (bottom - top), at.index);
        } else if (event.key === "+" || event.key === "=") this.zoom(KEY_ZOOM, down, across);
        else if (event.key === "-") this.zoom(1 / KEY_ZOOM, down, across);
        else if (event.key === "0") this.showAll();
        else if (event.key === "Enter") this.onOpen(at.row, this.order[at.index], event.shiftKey);
        else return;
        event.preventDefault();
    }
}

/**
 * A stretch of this length among the cells, as near to its place as it fits.
 * @param {number} low
 * @param {number} length
 * @param {number} cells
 * @returns {[number, number]}
 */
function shifted(low, length, cells) {
    const start = Math.min(cells - length, Math.max(0, low));
    return [start, start + length];
}
