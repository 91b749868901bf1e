// The part of the page that walks through a table and plays against it.

import { drawBoard } from "./board.mjs";
import { readPosition } from "./game_text.mjs";
import { blunder, changes, chosenMove, nameMoves, readMove, readValue, standing, valueText } from "./moves.mjs";

const KEEPER = ">>";
const CLASSES = new Map([[1, "win"], [0, "draw"], [-1, "loss"]]);

export class Player {
    #client;
    #at;
    #game = null;
    #path = [];
    #chosen = new Set();
    #shown = null;
    #longest = null;

    constructor(client, at) {
        this.#client = client;
        this.#at = at;
        at("start").onclick = () => this.begin();
        at("back").onclick = () => this.back();
        at("best").onclick = () => this.#play(this.#shown.moves[0]);
        at("longest").onclick = () => this.go(this.#longest);
        at("number").onchange = () => this.go(Number(at("number").value));
        at("computer").onchange = () => this.#answer();
    }

    /** Begins with a game that has a table, at its start. */
    async open(game) {
        this.#game = game;
        const players = ["nobody", ...game.players, "both"];
        this.#at("computer").replaceChildren(...players.map((name, at) => new Option(name, at === 0 ? "" : name)));
        this.#at("player").hidden = false;
        await this.begin();
    }

    /** The first position that has a player's turn: the keeper only hands the turn over. */
    async begin() {
        this.#path = [];
        await this.go(0);
        for (let steps = 0; steps < 8 && this.#shown.position.turn === KEEPER && this.#shown.moves.length === 1; steps++) {
            await this.#show(this.#shown.moves[0].number);
        }
        this.#path = [this.#shown.number];
    }

    async go(number) {
        if (!Number.isInteger(number) || number < 0) return;
        this.#path.push(number);
        await this.#show(number);
    }

    async back() {
        if (this.#path.length > 1) this.#path.pop();
        await this.#show(this.#path.at(-1));
    }

    async #show(number, before = null) {
        let lines;
        try {
            lines = (await this.#client.ask("look", { lines: `value ${number}\nshow ${number}\nmoves ${number}\n` })).trim().split("\n");
        } catch (error) {
            lines = [error.message];
        }
        if (lines[0].startsWith("refused")) {
            this.#path.pop();
            this.#at("said").textContent = `position ${number}: ${lines[0]}`;
            return;
        }
        const position = readPosition(lines[1]);
        const rows = lines.slice(2).filter((line) => line.includes(" => "));
        const isLeftOut = lines[2] === "left out";
        const moves = nameMoves(this.#game, position, rows.map(readMove));
        this.#shown = { number, position, value: readValue(lines[0]), moves, isLeftOut, changed: before ? changes(this.#game, before, position) : [] };
        this.#chosen = new Set();
        this.#draw();
        this.#answer();
    }

    #draw() {
        const { number, position, value, moves, changed, isLeftOut } = this.#shown;
        const marks = { changed: new Set(changed.map((change) => change.vertex)), chosen: this.#chosen };
        this.#at("board").replaceChildren(drawBoard(this.#game, position, { marks, choose: (vertex) => this.#choose(vertex) }));
        const names = [...this.#game.players, ...this.#game.variables];
        const amounts = position.values.map((amount, at) => `${names[at]} ${amount}`).join(", ");
        const who = position.turn === KEEPER ? "the keeper moves" : `${position.turn} to move`;
        const turn = isLeftOut ? `${who}, and how it goes on is not in this page` : moves.length || value.isOpen ? who : "the play has ended";
        this.#at("said").textContent = `position ${number}: ${turn}; ${valueText(value)}; ${amounts}`;
        this.#at("number").value = number;
        this.#at("best").disabled = moves.length === 0;
        this.#at("moves").replaceChildren(...this.#fitting().map((move) => this.#row(move)));
    }

    #row(move) {
        const { position, value } = this.#shown;
        const row = document.createElement("li");
        const small = document.createElement("small");
        row.className = CLASSES.get(standing(move.value, position.turn)) ?? "";
        row.textContent = `${move.name}: ${valueText(move.value)}`;
        small.textContent = blunder(value, move.value, position.turn) ?? "";
        row.append(small);
        row.onclick = () => this.#play(move);
        return row;
    }

    /** The moves that change every vertex that is chosen. */
    #fitting() {
        return this.#shown.moves.filter((move) => [...this.#chosen].every((name) => move.changed.some((change) => change.vertex === name)));
    }

    /** A click on a vertex: makes the move, where one alone is left, else shows those that are left. */
    #choose(vertex) {
        if (this.#chosen.has(vertex)) this.#chosen.delete(vertex);
        else this.#chosen.add(vertex);
        const fitting = this.#fitting();
        if (fitting.length === 1) this.#play(fitting[0]);
        else {
            if (fitting.length === 0) this.#chosen = this.#chosen.has(vertex) ? new Set([vertex]) : new Set();
            this.#draw();
        }
    }

    async #play(move) {
        if (move.number === null) {
            this.#at("said").textContent = "that position is not known yet: solve on";
            return;
        }
        const { position, value } = this.#shown;
        const lost = blunder(value, move.value, position.turn);
        this.#at("blunder").hidden = lost === null;
        this.#at("blunder").textContent = lost ? `${position.turn}: ${move.name} ${lost}` : "";
        this.#path.push(move.number);
        await this.#show(move.number, position);
    }

    /** The computer's move, where it has the turn; the keeper's, where it has no choice. */
    #answer() {
        const { position, moves, number } = this.#shown;
        const computer = this.#at("computer").value;
        const isKeepers = position.turn === KEEPER && moves.length === 1 && this.#path.length > 1;
        if (moves.length === 0 || !(isKeepers || (computer !== "" && (computer === "both" || computer === position.turn)))) return;
        setTimeout(() => {
            if (this.#shown.number === number) this.#play(isKeepers ? moves[0] : chosenMove(moves, this.#at("level").value));
        }, 350);
    }

    /** Who wins how often, as the worker counted. */
    showStatistics(found) {
        this.#longest = found.longest?.number ?? null;
        this.#at("longest").disabled = this.#longest === null;
        const [first, second] = this.#game.players;
        const sums = [first, second].map((name) => (found.wins[name] ?? []).reduce((sum, count) => sum + (count ?? 0), 0));
        const rows = [[`${first} wins`, sums[0]], [`${second} wins`, sums[1]], ["drawn", found.drawn], ["open", found.open]];
        const parts = [tableOf(rows.map(([name, count]) => [name, count.toLocaleString("en"), `${((100 * count) / found.known).toFixed(1)} %`]))];
        if (found.longest) {
            const said = document.createElement("p");
            said.textContent = `The longest win: ${found.longest.winner} in ${found.longest.distance}, from position ${found.longest.number}.`;
            parts.push(said, bars(found, first, second));
        }
        this.#at("statistics").replaceChildren(...parts);
    }
}

function tableOf(rows) {
    const table = document.createElement("table");
    for (const cells of rows) {
        const row = table.insertRow();
        for (const cell of cells) row.insertCell().textContent = cell;
    }
    return table;
}

/** Positions by distance, one row for each. */
function bars(found, first, second) {
    const [one, other] = [found.wins[first] ?? [], found.wins[second] ?? []];
    const far = Math.max(one.length, other.length);
    const rows = Array.from({ length: far }, (_, at) => ({ at, pair: [one[at] ?? 0, other[at] ?? 0] })).filter(({ pair: [a, b] }) => a + b > 0);
    const most = rows.reduce((found, { pair: [a, b] }) => Math.max(found, a + b), 0);
    const table = tableOf(rows.map(({ at, pair: [a, b] }) => [String(at), a.toLocaleString("en"), b.toLocaleString("en"), ""]));
    table.className = "bars";
    rows.forEach(({ pair }, row) => {
        const cell = table.rows[row].cells[3];
        pair.forEach((count, who) => {
            const bar = document.createElement("i");
            bar.className = who === 0 ? "first" : "second";
            bar.style.width = `${(16 * count) / most}rem`;
            cell.append(bar);
        });
        cell.style.textAlign = "left";
    });
    const scroll = document.createElement("div");
    scroll.className = "scroll";
    scroll.append(table);
    return scroll;
}
