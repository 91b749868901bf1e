// What a page needs of a game's text to draw its positions: the names, and the board with its lines. The proved solver reads the text
// for itself; what is read here is only drawn.

const NAME = "[A-Za-z][A-Za-z0-9_]*|[A-Za-z0-9_]+";

/** The text without its comments. */
function bare(text) {
    return text.replace(/\/\/[^\n]*/g, "");
}

/** The text of each section by its name. */
function sections(text) {
    const found = new Map();
    for (const [, name, body] of bare(text).matchAll(/#\s*([a-z]+)\s*=([^#]*)/g)) found.set(name, body);
    return found;
}

function names(body, pattern) {
    return [...(body ?? "").matchAll(pattern)].map((match) => match[1]);
}

/** The vertices of a board: name, and the edges that lead from it, each a label and a name. */
function vertices(body) {
    const vertex = new RegExp(`(${NAME})\\s*\\[[^\\]]*\\]\\s*\\{([^}]*)\\}`, "g");
    const edge = new RegExp(`(${NAME})\\s*:\\s*(${NAME})`, "g");
    return [...(body ?? "").matchAll(vertex)].map(([, name, edges]) => ({
        name,
        edges: [...edges.matchAll(edge)].map(([, label, to]) => ({ label, to })),
    }));
}

/** Players, variables, pieces and vertices of a text; null if it has no players or no board. */
export function readGame(text) {
    const found = sections(text);
    const game = {
        players: names(found.get("players"), new RegExp(`(${NAME})\\s*\\(`, "g")),
        variables: names(found.get("variables"), new RegExp(`(${NAME})\\s*\\(`, "g")),
        pieces: names(found.get("pieces"), new RegExp(`(${NAME})`, "g")),
        vertices: vertices(found.get("board")),
    };
    return game.players.length === 2 && game.vertices.length > 0 ? game : null;
}

/** A position of its text, as `white 1 a stone,empty,empty 0,0`. */
export function readPosition(text) {
    const [turn, place, vertex, pieces, values] = text.split(" ");
    return { turn, place, vertex, pieces: pieces.split(","), values: values.split(",") };
}

const EMPTY = new Set(["e", "empty"]);

export function isEmpty(piece) {
    return EMPTY.has(piece);
}
