// The headings of the file, and the stretches between them.

/** @typedef {import("./types.js").Chapter} Chapter */

/** How many chapters make the bands of a picture at least, and into how many lists of theorems are cut, where there are as many. */
const LEAST_BANDS = 3;
const LEAST_IN_LISTS = 40;

/** The headings of the file, in file order. */
export class Chapters {
    /**
     * @param {[number, string, string, number, number][]} headings
     * @param {number} size how many assertions there are
     */
    constructor(headings, size) {
        /** @type {Chapter[]} */
        this.list = headings.map(([level, number, title, first, end], index) => {
            return { index, level, number, title, first, end, parent: -1, children: [] };
        });
        /** @type {Chapter[]} */
        this.roots = [];
        /** @type {Chapter[]} */
        let open = [];
        for (const chapter of this.list) {
            open = open.filter((other) => other.level < chapter.level);
            const above = open[open.length - 1];
            if (above) {
                chapter.parent = above.index;
                above.children.push(chapter.index);
            } else this.roots.push(chapter);
            open.push(chapter);
        }
        this.size = size;
        /** The level whose chapters are bands beside the picture, and that by whose chapters lists of theorems are cut. */
        this.bandLevel = this.levelWith(LEAST_BANDS);
        this.listLevel = this.levelWith(LEAST_IN_LISTS);
    }

    /**
     * The least level at which there are this many headings with assertions, or else the last one.
     * @param {number} number
     */
    levelWith(number) {
        const filled = this.list.filter((chapter) => chapter.end > chapter.first);
        const levels = [...new Set(filled.map((chapter) => chapter.level))].sort();
        const enough = levels.find((level) => filled.filter((chapter) => chapter.level <= level).length >= number);
        return enough ?? levels[levels.length - 1] ?? 0;
    }

    /**
     * The chapter of a number such as 2.6.1, or undefined.
     * @param {string} number
     */
    find(number) {
        return this.list.find((chapter) => chapter.number === number);
    }

    /**
     * The last heading before an assertion, or undefined.
     * @param {number} number
     * @returns {Chapter | undefined}
     */
    at(number) {
        let low = 0;
        let high = this.list.length;
        while (low < high) {
            const middle = (low + high) >>> 1;
            if (this.list[middle].first <= number) low = middle + 1;
            else high = middle;
        }
        return this.list[low - 1];
    }

    /**
     * A chapter and those above it, the highest first.
     * @param {Chapter | undefined} chapter
     */
    path(chapter) {
        /** @type {Chapter[]} */
        const path = [];
        for (let at = chapter; at; at = this.list[at.parent]) path.unshift(at);
        return path;
    }

    /**
     * The chapters above an assertion down to a level, the highest first.
     * @param {number} number
     */
    pathAt(number, deepest = Infinity) {
        return this.path(this.at(number)).filter((chapter) => chapter.level <= deepest);
    }

    /**
     * The stretches of the file between headings down to a level.
     * @param {number} level
     */
    stretches(level) {
        const stretches = [];
        /** @type {string[]} */
        const nowhere = [];
        let last = { title: "Before the first heading", path: nowhere, chapter: -1, first: 0, end: 0 };
        for (const chapter of this.list) {
            if (chapter.level > level) continue;
            last.end = chapter.first;
            if (last.end > last.first) stretches.push(last);
            const path = this.path(chapter).map((other) => other.title);
            last = { title: chapter.title, path, chapter: chapter.index, first: chapter.first, end: 0 };
        }
        last.end = this.size;
        if (last.path.length === 0) last.title = "The whole file";
        if (last.end > last.first) stretches.push(last);
        return stretches;
    }
}
