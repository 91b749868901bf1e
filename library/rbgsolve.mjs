// The proved solver in a page of the browser, or in node: rbgsolve.wasm, which tools/wasm makes.
//
//     const solver = await load(await (await fetch("rbgsolve.wasm")).arrayBuffer());
//     const table = solver.table(game, 1024);      // a new table of so many pages, with the game loaded
//     table.solve();                               // known 5479 expanded 5479 .. finished
//     table.value(0);                              // drawn
//
// What is refused throws `Refused`, with the program's code. docs/COMMANDS.md has the lines, rbgsolve.h what each call does.

const NO_TEXT = 4, NO_MEMORY = 5, PAGE = 4096;

export class Refused extends Error {
    constructor(text, status) {
        super(text);
        this.code = text.startsWith("refused ") ? text.split(" ")[1].trim() : "";
        this.status = status;
    }
}

export async function load(bytes) {
    const { instance } = await WebAssembly.instantiate(bytes, {});
    const solver = instance.exports, encode = new TextEncoder(), decode = new TextDecoder();
    const view = (at, length) => new Uint8Array(solver.memory.buffer, Number(at), Number(length));
    const taken = (length) => {
        const at = solver.room(BigInt(Math.max(length, 1)));
        if (!at) throw new RangeError("the solver found no memory");
        return at;
    };
    const put = (what) => {
        const given = typeof what === "string" ? encode.encode(what) : what;
        const at = taken(given.length);
        view(at, given.length).set(given);
        return { at, length: given.length, words: [at, BigInt(given.length)] };
    };
    const number = (at) => new DataView(solver.memory.buffer).getBigUint64(Number(at), true);

    // the status and the bytes that a call gives; it is made again where they are more than there was room for
    const asked = (name, words, most = 1 << 16) => {
        for (;;) {
            const out = taken(most), count = taken(8);
            const status = solver[`rbg_${name}`](...words, out, BigInt(most), count), length = Number(number(count));
            const told = length <= most ? view(out, length).slice() : null;
            solver.give_back(out);
            solver.give_back(count);
            if (told) return { status, told };
            most = length;
        }
    };
    const done = ({ status, told }) => {
        const text = decode.decode(told);
        if (status === NO_MEMORY || status === NO_TEXT) throw new RangeError("the solver found no memory");
        if (status && !text.startsWith("wrong")) throw new Refused(text.trim(), status);
        return text;
    };
    // a call on these byte strings
    const over = (name, ...parts) => {
        const given = parts.map(put);
        try {
            return done(asked(name, given.flatMap((part) => part.words)));
        } finally {
            for (const part of given) solver.give_back(part.at);
        }
    };
    // a call on the bytes of a table, which are changed in their place
    const onTable = (name, table, words, ...parts) => {
        const bytes = put(table), given = parts.map(put);
        try {
            const text = done(asked(name, [...bytes.words, ...given.flatMap((part) => part.words), ...words]));
            table.set(view(bytes.at, bytes.length));
            return text;
        } finally {
            for (const part of [bytes, ...given]) solver.give_back(part.at);
        }
    };

    class Table {
        constructor(bytes) {
            this.room = taken(8);
            if (solver.rbg_room_new(this.room)) throw new RangeError("the solver found no memory");
            const given = put(bytes), opened = taken(8);
            try {
                done(asked("open", [this.room, ...given.words, opened]));
                this.number = number(opened);
            } finally {
                solver.give_back(given.at);
                solver.give_back(opened);
            }
        }

        close() {
            solver.rbg_room_free(number(this.room));
            solver.give_back(this.room);
        }

        #lines(looks, lines) {
            const given = put(lines), count = taken(8);
            const status = solver.rbg_lines(this.room, this.number, looks, ...given.words, count);
            const most = Number(number(count));
            solver.give_back(given.at);
            solver.give_back(count);
            const { told } = asked("answers", [this.room, this.number], Math.max(most, 1));
            if (status === NO_MEMORY) throw new RangeError("the solver found no memory");
            return decode.decode(told);
        }

        lines(lines) {
            return this.#lines(0, lines);
        }

        look(lines) {
            return this.#lines(1, lines);
        }

        #answer(line) {
            const answer = this.look(`${line}\n`).trimEnd();
            if (answer.startsWith("refused")) throw new Refused(answer, 1);
            return answer;
        }

        value(position) {
            return this.#answer(`value ${position}`);
        }

        moves(position) {
            const answer = this.#answer(`moves ${position}`);
            return answer === "ended" ? [] : answer.split("\n");
        }

        solve(atOnce = 64) {
            for (;;) {
                const last = this.lines("work 256\n".repeat(atOnce)).trimEnd().split("\n").at(-1);
                if (last.startsWith("refused")) throw new Refused(last, 1);
                if (last.endsWith("finished")) return last.slice(last.indexOf("known"));
            }
        }

        bytes() {
            const { status, told } = asked("bytes", [this.room, this.number]);
            if (status) throw new RangeError("the solver found no memory");
            return told;
        }
    }

    return {
        moves: (game) => over("moves", game),
        movesAt: (game, position) => over("moves_at", game, position),
        actions: (game) => over("actions", game),
        // where and why a text is no game, as { line, column, code, message }; null where it is one
        fault: (game) => {
            const given = put(game);
            try {
                const { status, told } = asked("fault", given.words);
                if (status === 0) return null;
                if (status !== 1) throw new RangeError("the solver found no memory");
                const [, line, column, code, message] = /^(\d+) (\d+) (\S+) (.*)$/s.exec(decode.decode(told));
                return { line: Number(line), column: Number(column), code, message };
            } finally {
                solver.give_back(given.at);
            }
        },
        // the bytes of the table with so many pages
        grow: (table, pages) => {
            const grown = new Uint8Array(PAGE * pages);
            grown.set(table);
            onTable("grow", grown, [BigInt(table.length)]);
            return grown;
        },
        // the bytes of the table, brought into today's layout
        migrate: (table) => {
            const moved = table.slice();
            onTable("migrate", moved, []);
            return moved;
        },
        // what a certificate shows, `certified VALUE` with the position; of this game, if one is given
        check: (certificate, game = null) => {
            const given = [certificate, game ?? ""].map(put);
            try {
                return done(asked("check", [...given.flatMap((part) => part.words), game === null ? 0 : 1])).trim();
            } finally {
                for (const part of given) solver.give_back(part.at);
            }
        },
        audit: (table) => onTable("audit", table.slice(), []).trim(),
        open: (bytes) => new Table(bytes),
        table: (game, pages = 64, goal = 0) => {
            const bytes = new Uint8Array(PAGE * pages);
            onTable("create", bytes, []);
            onTable("load", bytes, [goal], game);
            return new Table(bytes);
        },
        memory: () => solver.memory.buffer.byteLength,
    };
}
