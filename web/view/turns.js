// Long work in short turns, between which the page answers.

/** How many steps are done before the clock is looked at, and milliseconds of work at a time. */
const STEPS = 64;
export const SLICE = 8;

/** Who does the work is no longer wanted. */
export class Abandoned extends Error {}

export class Turns {
    /** @param {() => boolean} isWanted whether the work is still wanted */
    constructor(isWanted) {
        this.isWanted = isWanted;
        this.began = performance.now();
    }

    /**
     * Whether a turn is over, where a step of this number was done.
     * @param {number} step
     */
    isOver(step) {
        return step % STEPS === STEPS - 1 && performance.now() - this.began > SLICE;
    }

    /** Waits for the next turn. Abandoned where the work is no longer wanted. */
    async next() {
        await new Promise((resume) => setTimeout(resume));
        if (!this.isWanted()) throw new Abandoned();
        this.began = performance.now();
    }
}
