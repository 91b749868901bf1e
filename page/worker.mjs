// Runs beside the page: it has the solver's module and the table, answers one request after the other, and tells how far it is.

import { Refused, load } from "../library/rbgsolve.mjs";

// a table is worked on by so many lines at a time; between two of them a stop is heard
const LINES = 16;
const FIRST_PAGES = 64;
const MOST_PAGES = 1 << 18;

let solver = null;
let table = null;
let stops = false;

const pause = () => new Promise((go) => setTimeout(go));

/** Takes this table in the place of the one that was open. */
function take(opened) {
    table?.close();
    table = opened;
}

/** The counts of a reply to `work`: `units U known K expanded E settled S processed P WORD`. */
function counts(line) {
    const words = line.split(" ");
    const found = { state: words.at(-1) };
    for (let at = 0; at + 1 < words.length; at += 2) found[words[at]] = Number(words[at + 1]);
    return found;
}

/** Twice as many pages for the table, or a refusal where it has as many as a page can hold. */
function grow() {
    const bytes = table.bytes();
    const pages = bytes.length / 4096;
    if (2 * pages > MOST_PAGES) throw new Refused(`refused E7: the table has ${pages} pages, and a page of a browser holds no more`, 1);
    take(solver.open(solver.grow(bytes, 2 * pages)));
}

async function work(tell) {
    stops = false;
    const began = performance.now();
    for (let units = 0; !stops; await pause()) {
        const lines = table.lines("work 256\n".repeat(LINES)).trim().split("\n");
        for (const line of lines) if (line.startsWith("units ")) units += counts(line).units;
        const last = lines.at(-1);
        if (last === "refused E7") grow();
        else if (!last.startsWith("units ")) throw new Refused(last, 1);
        else {
            const found = counts(last);
            tell({ ...found, units, seconds: (performance.now() - began) / 1000 });
            if (found.state === "finished") return { state: "finished" };
        }
    }
    return { state: "stopped" };
}

/** How many positions each player wins at each distance, how many nobody does, and the first of the longest wins. */
async function statistics(tell) {
    const known = counts(table.look("status\n").trim()).known;
    const wins = {};
    const found = { known, drawn: 0, open: 0, wins, longest: null };
    for (let at = 0; at < known; at += 256 * LINES) {
        const lines = Array.from({ length: LINES }, (_, k) => at + 256 * k).filter((from) => from < known);
        const text = table.look(lines.map((from) => `list ${from} ${Math.min(256, known - from)}\n`).join(""));
        for (const row of text.trim().split("\n")) {
            const [number, ...value] = row.split(" ");
            if (value.length < 3) found[value[0]] += 1;
            else {
                const [winner, distance] = [value[0], Number(value[2])];
                (wins[winner] ??= [])[distance] = (wins[winner][distance] ?? 0) + 1;
                if (found.longest === null || distance > found.longest.distance) found.longest = { number: Number(number), winner, distance };
            }
        }
        tell({ share: at / known });
        await pause();
    }
    return found;
}

const calls = {
    load: async ({ wasm }) => {
        solver = await load(wasm);
        return {};
    },
    fault: ({ game }) => solver.fault(game),
    create: ({ game, goal }) => {
        take(solver.table(game, FIRST_PAGES, goal));
        return {};
    },
    work: (_, tell) => work(tell),
    look: ({ lines }) => table.look(lines),
    audit: () => solver.audit(table.bytes()),
    certificate: ({ bytes }) => solver.check(bytes),
    statistics: (_, tell) => statistics(tell),
    save: () => table.bytes(),
    open: ({ bytes }) => {
        take(solver.open(bytes));
        return { game: table.look("game\n"), status: table.look("status\n").trim() };
    },
};

async function answer({ id, call, given }) {
    const tell = (progress) => postMessage({ id, progress });
    try {
        postMessage({ id, result: await calls[call](given ?? {}, tell) });
    } catch (error) {
        postMessage({ id, refused: error instanceof Refused || error instanceof RangeError ? error.message : `the solver's module failed: ${error.message}` });
    }
}

// one request after the other, but for a stop, which is heard at once
let last = Promise.resolve();
onmessage = ({ data }) => {
    if (data.call === "stop") stops = true;
    else last = last.then(() => answer(data));
};
