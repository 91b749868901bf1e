// A board as a picture: a grid where the names of its vertices are a letter and a number, else points with lines between them.

import { isEmpty } from "./game_text.mjs";

const SVG = "http://www.w3.org/2000/svg";
const STEP = 48;
// names of colours that a piece may have; a piece of another name gets one of the discs below
const NAMED = ["red", "yellow", "green", "blue", "orange", "purple", "brown", "white", "black", "gold", "silver", "pink", "gray", "grey"];
// colours that are drawn as another shade, so that letters and edges are seen on them
const SHADES = { white: "#f7f5ee", black: "#2b2b2b" };
const DISCS = ["#f7f5ee", "#2b2b2b", "#b5793a", "#3d8a94", "#a8464f", "#7c8a3d", "#8d6fb0", "#ffe2a0", "#1f3f7a", "#cfe4f7"];

function make(parent, name, attributes, text) {
    const made = document.createElementNS(SVG, name);
    for (const [key, value] of Object.entries(attributes)) made.setAttribute(key, value);
    if (text !== undefined) made.textContent = text;
    parent.append(made);
    return made;
}

/** The column and row of each vertex, from the top left; null where the names make no grid. */
export function gridOf(vertices) {
    const found = vertices.map((vertex) => /^([A-Za-z])([0-9]{1,3})$/.exec(vertex.name));
    if (found.some((match) => !match)) return null;
    const columns = [...new Set(found.map((match) => match[1]))].sort();
    const rows = [...new Set(found.map((match) => Number(match[2])))].sort((a, b) => b - a);
    const spots = found.map((match) => [columns.indexOf(match[1]), rows.indexOf(Number(match[2]))]);
    return new Set(spots.map(String)).size === spots.length ? { spots, columns, rows } : null;
}

/** Points on a circle, the first at the top. */
function circle(count) {
    const radius = count < 2 ? 0 : Math.max(1.2, count / 5);
    return Array.from({ length: count }, (_, at) => {
        const angle = (2 * Math.PI * at) / count - Math.PI / 2;
        return [radius * (1 + Math.cos(angle)), radius * (1 + Math.sin(angle))];
    });
}

/** The colour of a piece's disc: the one that the game tells; else that of its name, or of the player whose name begins so, if that is a
 * colour; else one by its place among the pieces. */
export function colourOf(piece, game) {
    if (game.colours?.[piece]) return game.colours[piece];
    const name = piece.toLowerCase();
    const named = [name, ...game.players.filter((player) => player.toLowerCase().startsWith(name))].find((one) => NAMED.includes(one.toLowerCase()));
    if (named) return SHADES[named.toLowerCase()] ?? named.toLowerCase();
    const others = game.pieces.filter((one) => !isEmpty(one));
    return DISCS[others.indexOf(piece) % DISCS.length] ?? "#9a9a9a";
}

const DARK = ["red", "green", "blue", "purple", "brown"];

function inkOn(colour) {
    if (!colour.startsWith("#")) return DARK.includes(colour) ? "#fff" : "#111";
    const [red, green, blue] = [1, 3, 5].map((at) => parseInt(colour.slice(at, at + 2), 16));
    return 3 * red + 6 * green + blue > 1280 ? "#111" : "#fff";
}

function putDisc(parent, [x, y], piece, game) {
    const colour = colourOf(piece, game);
    make(parent, "circle", { cx: x, cy: y, r: 17, fill: colour, stroke: "#222" });
    const size = piece.length < 2 ? 19 : piece.length < 4 ? 13 : 9;
    make(parent, "text", { x, y, dy: ".36em", "font-size": size, fill: inkOn(colour) }, piece);
}

/** The lines of the edges between neighbours: from a vertex to another one that is reached by one of its labels. */
function putLines(parent, vertices, middles) {
    const at = new Map(vertices.map((vertex, index) => [vertex.name, index]));
    const drawn = new Set();
    for (const [from, vertex] of vertices.entries()) {
        for (const { label, to } of vertex.edges) {
            const other = at.get(to);
            const pair = [from, other].sort((a, b) => a - b).join();
            // labels that only go through the vertices are no lines of the board
            if (other === undefined || other === from || drawn.has(pair) || /^(next|home|first|any)$/.test(label)) continue;
            drawn.add(pair);
            const [[x1, y1], [x2, y2]] = [middles[from], middles[other]];
            make(parent, "line", { x1, y1, x2, y2, class: "edge" });
        }
    }
}

/**
 * The picture of a position.
 * @param game what `readGame` found
 * @param position what `readPosition` found
 * @param marks names of vertices by the class that marks them, as { changed: Set, chosen: Set }
 * @param choose what is called with the name of a vertex that is clicked, if anything
 */
export function drawBoard(game, position, { marks = {}, choose = null, size = 360 } = {}) {
    const grid = gridOf(game.vertices);
    const spots = grid ? grid.spots : circle(game.vertices.length);
    const middles = spots.map(([x, y]) => [(x + 0.5) * STEP, (y + 0.5) * STEP]);
    const across = (Math.max(...spots.map((spot) => spot[0])) + 1) * STEP;
    const down = (Math.max(...spots.map((spot) => spot[1])) + 1) * STEP;
    const svg = document.createElementNS(SVG, "svg");
    const [left, below] = grid ? [22, 22] : [6, 6];
    const [wide, high] = [across + left + 6, down + below + 6];
    const scale = Math.min(size / wide, size / high, 1.6);
    svg.setAttribute("viewBox", `${-left} -6 ${wide} ${high}`);
    svg.setAttribute("width", wide * scale);
    svg.setAttribute("height", high * scale);
    svg.setAttribute("role", "img");
    svg.setAttribute("aria-label", game.vertices.map((vertex, at) => `${vertex.name} ${position.pieces[at]}`).join(", "));
    if (!grid) putLines(svg, game.vertices, middles);
    for (const [at, vertex] of game.vertices.entries()) {
        const [x, y] = middles[at];
        const group = make(svg, "g", { class: choose ? "vertex can-be-chosen" : "vertex", "data-vertex": vertex.name });
        const kinds = Object.entries(marks).filter(([, names]) => names.has(vertex.name)).map(([kind]) => kind);
        const shade = grid && (spots[at][0] + spots[at][1]) % 2 ? "dark" : "light";
        if (grid) make(group, "rect", { x: x - STEP / 2, y: y - STEP / 2, width: STEP, height: STEP, class: `field ${shade}` });
        else make(group, "circle", { cx: x, cy: y, r: 21, class: "field light" });
        if (!isEmpty(position.pieces[at])) putDisc(group, [x, y], position.pieces[at], game);
        if (!grid) make(group, "text", { x, y: y + 32, "font-size": 10, class: "name" }, vertex.name);
        for (const kind of kinds) make(group, "rect", { x: x - 22, y: y - 22, width: 44, height: 44, rx: 5, class: `mark ${kind}` });
        if (choose) group.addEventListener("click", () => choose(vertex.name));
    }
    if (grid) {
        grid.rows.forEach((row, y) => make(svg, "text", { x: -12, y: (y + 0.5) * STEP + 5, "font-size": 13, class: "name" }, String(row)));
        grid.columns.forEach((column, x) => make(svg, "text", { x: (x + 0.5) * STEP, y: down + 15, "font-size": 13, class: "name" }, column));
    }
    return svg;
}
