// The positions of a table as tools/report packs them, and the answers that a worker with the solver would give about them.

import { unpacked } from "./unpacked.mjs";

/** The bytes of a column as numbers: seven bits in each byte, the lowest first, and the highest bit where more follow. */
function numbersOf(bytes) {
    const found = [];
    let number = 0;
    let scale = 1;
    for (const byte of bytes) {
        number += (byte & 127) * scale;
        scale *= 128;
        if (byte < 128) {
            found.push(number);
            number = 0;
            scale = 1;
        }
    }
    return found;
}

/** Numbers that are told by how much greater each is than the one before. */
function summed(steps) {
    let last = 0;
    return steps.map((step) => (last += step));
}

export class Packed {
    #game;
    #places;
    #statistics;
    #lines;
    #numbers;
    #columns;
    #begins;

    /**
     * @param data what tools/report writes: players, pieces and vertices by name, `places` as `white 1 a1`, columns in base64, and more
     * @param game what `readGame` found in the table's text
     */
    static async open(data, game) {
        const bytes = await unpacked(data.columns);
        const columns = [];
        for (let at = 0; at < bytes.length; ) {
            const length = new DataView(bytes.buffer, bytes.byteOffset + at, 4).getUint32(0);
            columns.push(bytes.subarray(at + 4, at + 4 + length));
            at += 4 + length;
        }
        return new Packed(data, game, columns);
    }

    constructor(data, game, [numbers, places, pieces, amounts, values, counts, moves]) {
        this.#game = game;
        this.#places = data.places;
        this.#statistics = data.statistics;
        this.#lines = new Set([...data.longest, ...data.main]);
        this.#numbers = summed(numbersOf(numbers));
        this.#columns = {
            places: numbersOf(places),
            pieces,
            amounts: numbersOf(amounts),
            values: numbersOf(values),
            // one more than the moves that a position has; 0 where they are left out
            counts: numbersOf(counts),
            moves: numbersOf(moves),
        };
        this.#begins = [0];
        for (const count of this.#columns.counts) this.#begins.push(this.#begins.at(-1) + Math.max(0, count - 1));
    }

    get size() {
        return this.#numbers.length;
    }

    /** Where a position stands among those that are kept; -1 where it does not. */
    #place(number) {
        let [low, high] = [0, this.size];
        while (low < high) {
            const middle = (low + high) >> 1;
            if (this.#numbers[middle] < number) low = middle + 1;
            else high = middle;
        }
        return this.#numbers[low] === number ? low : -1;
    }

    #text(at) {
        const vertices = this.#game.vertices.length;
        const amounts = this.#columns.amounts.length / this.size;
        const pieces = Array.from({ length: vertices }, (_, vertex) => this.#game.pieces[this.#columns.pieces[vertex * this.size + at]]);
        const values = Array.from({ length: amounts }, (_, value) => this.#columns.amounts[value * this.size + at]);
        return `${this.#places[this.#columns.places[at]]} ${pieces.join(",")} ${values.join(",")}`;
    }

    /** 0 for drawn, 1 for open, else the winner from 0 and twice the distance, and two more. */
    #value(at) {
        const value = this.#columns.values[at];
        if (value < 2) return value === 0 ? "drawn" : "open";
        return `${this.#game.players[value % 2]} in ${Math.floor(value / 2) - 1}`;
    }

    /** The moves of a position, each the place of the one that it leads to, best first for who has the turn. */
    #moves(at) {
        const turn = this.#game.players.indexOf(this.#places[this.#columns.places[at]].split(" ")[0]);
        const behind = summed(this.#columns.moves.slice(this.#begins[at], this.#begins[at + 1]));
        const rank = (to) => {
            const value = this.#columns.values[to];
            if (value < 2) return value;
            const distance = Math.floor(value / 2) - 1;
            return value % 2 === turn ? distance - 1e10 : 1e10 - distance;
        };
        // among equals first those that can be gone on from
        const last = (to) => (this.#lines.has(this.#numbers[to]) ? 0 : this.#columns.counts[to] > 0 ? 1 : 2);
        return behind.sort((one, other) => rank(one) - rank(other) || last(one) - last(other) || one - other);
    }

    #answer(line) {
        const [word, given] = line.split(" ");
        const at = this.#place(Number(given));
        if (at < 0) return "refused: it is not in this page";
        if (word === "value") return this.#value(at);
        if (word === "show") return this.#text(at);
        if (word !== "moves") return "usage";
        if (this.#columns.counts[at] === 0) return "left out";
        const moves = this.#moves(at).map((to) => `${this.#numbers[to]} ${this.#value(to)} - => ${this.#text(to)}`);
        return moves.length > 0 ? moves.join("\n") : "ended";
    }

    /** As `Client.ask` answers: the replies to lines of `look`, or the statistics. */
    async ask(call, { lines } = {}) {
        return call === "look" ? lines.trim().split("\n").map((line) => `${this.#answer(line)}\n`).join("") : this.#statistics;
    }
}
