// Moves: their lines as `moves N` prints them, short names for them, and what each does to the value of the position.

import { isEmpty, readPosition } from "./game_text.mjs";

/** A value as it is printed: `white in 3`, `drawn` or `open`. */
export function readValue(text) {
    const won = /^(.*) in ([0-9]+)$/.exec(text);
    return won ? { winner: won[1], distance: Number(won[2]) } : { winner: null, distance: 0, isOpen: text === "open" };
}

export function valueText(value) {
    return value.winner ? `${value.winner} in ${value.distance}` : value.isOpen ? "open" : "drawn";
}

/** A line of `moves N`: `NUMBER VALUE MOVE => POSITION`, NUMBER being `?` where the position is not known yet. */
export function readMove(line) {
    const [left, text] = line.split(" => ");
    const found = /^(\S+) (.*? in [0-9]+|drawn|open) (.*)$/.exec(left);
    return {
        number: found[1] === "?" ? null : Number(found[1]),
        value: readValue(found[2]),
        word: found[3],
        text,
        position: readPosition(text),
    };
}

/** The vertices that differ, each with the piece before and behind. */
export function changes(game, before, after) {
    return game.vertices
        .map((vertex, at) => ({ vertex: vertex.name, from: before.pieces[at], to: after.pieces[at] }))
        .filter((change) => change.from !== change.to);
}

/** The values that differ, as `heap 3 to 1`; those that are no scores first. */
function amounts(game, before, after) {
    const names = [...game.players, ...game.variables];
    const changed = names.map((name, at) => ({ name, at, from: before.values[at], to: after.values[at] })).filter(({ from, to }) => from !== to);
    const others = changed.filter(({ at }) => at >= game.players.length);
    return (others.length ? others : changed).map(({ name, from, to }) => `${name} ${from} to ${to}`);
}

/** `R b3-a3`, `R b3xc3`, `x b2`, `w a2-b3 x@c2 b off d4`: what changes on the board. A piece goes where one of its kind leaves, and one comes. */
function boardName(changed) {
    const left = changed.filter((change) => isEmpty(change.to));
    const came = changed.filter((change) => !isEmpty(change.to));
    const gone = new Set(left);
    const goes = [];
    const puts = [];
    for (const change of came) {
        const begins = left.filter((begin) => begin.from === change.to);
        if (begins.length === 1 && came.filter(({ to }) => to === change.to).length === 1) {
            goes.push(`${change.to} ${begins[0].vertex}${isEmpty(change.from) ? "-" : "x"}${change.vertex}`);
            gone.delete(begins[0]);
        } else puts.push(change);
    }
    if (puts.length === 1 && goes.length === 0 && gone.size === 0) return `${puts[0].to} ${puts[0].vertex}`;
    const away = new Map();
    for (const { from, vertex } of gone) away.set(from, [...(away.get(from) ?? []), vertex]);
    const taken = [...away].map(([piece, vertices]) => `${piece} off ${vertices.join(" ")}`);
    return [...goes, ...puts.map((change) => `${change.to}@${change.vertex}`), ...taken].join(" ");
}

/** A name from the two positions, the same for two moves that change the board alike: tools/rbgtable.py (`Naming`) makes the same. */
function plainName(game, before, move) {
    if (move.changed.length > 0) return boardName(move.changed);
    return amounts(game, before, move.position).join(", ") || `to ${move.position.vertex}`;
}

/** Names of moves, each once: where two have one name, the later ones by the order of the positions' texts get #2, #3. */
export function nameMoves(game, before, moves) {
    const used = new Map();
    for (const move of [...moves].sort((one, other) => (one.text < other.text ? -1 : 1))) {
        move.changed = changes(game, before, move.position);
        const name = plainName(game, before, move);
        const count = (used.get(name) ?? 0) + 1;
        used.set(name, count);
        move.name = count === 1 ? name : `${name} #${count}`;
    }
    return moves;
}

/** How good a value is for a player: 1 won, -1 lost, 0 drawn, null open. */
export function standing(value, player) {
    if (value.isOpen) return null;
    return value.winner === null ? 0 : value.winner === player ? 1 : -1;
}

/** What a move does to what its player had: null where nothing is lost. */
export function blunder(before, after, player) {
    const [had, has] = [standing(before, player), standing(after, player)];
    if (had === null || has === null || has >= had) return null;
    if (had === 1) return has === 0 ? "throws the win away" : "turns the win into a loss";
    return "loses a drawn position";
}

/** The move that a computer makes: the best one, or by chance as its level says. */
export function chosenMove(moves, level, chance = Math.random) {
    const isRandom = level === "random" || (level === "slips" && chance() < 0.1);
    return moves[isRandom ? Math.floor(chance() * moves.length) : 0];
}
