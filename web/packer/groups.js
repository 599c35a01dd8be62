// Covers pairs by groups: each pair is in one, and each two members of a group are a pair.

import { Numbers } from "./bytes.js";

const byNumber = (/** @type {number} */ one, /** @type {number} */ other) => one - other;

/** Finds groups, of one list of pairs after the other. Members are numbers from 0. */
export class Groups {
    constructor() {
        /** The neighbours of a member are those with which it is a pair, rising: `neighbours` from its start to the next. */
        this.starts = new Uint32Array(1);
        this.neighbours = new Uint32Array(0);
        /** For each place of `neighbours` whether that pair is in a group. */
        this.isCovered = new Uint8Array(0);
        /** Of each member with how many of the group that is being made it is a pair, and whether it is in that. */
        this.met = new Uint32Array(0);
        this.isIn = new Uint8Array(0);
        /** Where the next neighbour of each member comes. */
        this.free = new Uint32Array(0);
        this.unordered = new Uint32Array(0);
    }

    /**
     * Gives each group, its members rising.
     * @param {number} size how many members there are
     * @param {Numbers} pairs the members of each pair, one behind the other
     * @param {(group: number[]) => void} give
     */
    cover(size, pairs, give) {
        this.makeRoom(size, pairs.size);
        this.readNeighbours(size, pairs);
        const { starts, neighbours, isCovered } = this;
        for (let one = 0; one < size; one++) {
            for (let at = starts[one]; at < starts[one + 1]; at++) {
                if (neighbours[at] > one && isCovered[at] === 0) give(this.groupOf(one, neighbours[at]));
            }
        }
    }

    /**
     * @param {number} members
     * @param {number} places
     */
    makeRoom(members, places) {
        if (members >= this.starts.length) {
            this.starts = new Uint32Array(2 * members + 1);
            this.free = new Uint32Array(2 * members);
            this.met = new Uint32Array(2 * members);
            this.isIn = new Uint8Array(2 * members);
        }
        if (places > this.neighbours.length) {
            this.neighbours = new Uint32Array(2 * places);
            this.unordered = new Uint32Array(2 * places);
            this.isCovered = new Uint8Array(2 * places);
        }
        this.isCovered.fill(0, 0, places);
    }

    /**
     * @param {number} size
     * @param {Numbers} pairs
     */
    readNeighbours(size, { items, size: places }) {
        const { starts, free, unordered, neighbours } = this;
        starts.fill(0, 0, size + 1);
        for (let at = 0; at < places; at++) starts[items[at] + 1]++;
        for (let one = 0; one < size; one++) starts[one + 1] += starts[one];
        free.set(starts.subarray(0, size));
        for (let at = 0; at < places; at += 2) {
            unordered[free[items[at]]++] = items[at + 1];
            unordered[free[items[at + 1]]++] = items[at];
        }
        // Each member in turn is put behind the others that its neighbours have.
        free.set(starts.subarray(0, size));
        for (let one = 0; one < size; one++) {
            for (let at = starts[one]; at < starts[one + 1]; at++) neighbours[free[unordered[at]]++] = one;
        }
    }

    /**
     * The group that a pair begins: with each member, rising, that is a pair with all that are in it.
     * @param {number} one
     * @param {number} other
     */
    groupOf(one, other) {
        const { starts, neighbours, met } = this;
        /** @type {number[]} */
        const group = [];
        this.add(one, group);
        this.add(other, group);
        for (let at = starts[one]; at < starts[one + 1]; at++) {
            if (met[neighbours[at]] === group.length) this.add(neighbours[at], group);
        }
        this.end(group);
        return group.sort(byNumber);
    }

    /**
     * Adds a member to the group that is being made.
     * @param {number} member
     * @param {number[]} group
     */
    add(member, group) {
        const { starts, neighbours, met } = this;
        group.push(member);
        this.isIn[member] = 1;
        for (let at = starts[member]; at < starts[member + 1]; at++) met[neighbours[at]]++;
    }

    /**
     * Notes which pairs are in a group, and makes ready for the next one.
     * @param {number[]} group
     */
    end(group) {
        const { starts, neighbours, met, isIn, isCovered } = this;
        for (const member of group) {
            for (let at = starts[member]; at < starts[member + 1]; at++) {
                met[neighbours[at]] = 0;
                if (isIn[neighbours[at]] === 1) isCovered[at] = 1;
            }
        }
        for (const member of group) isIn[member] = 0;
    }
}
