// The page of tools/report: the player beside a table that is packed into the page, and the lines of its longest win and of best play.

import { drawBoard } from "./board.mjs";
import { readGame, readPosition } from "./game_text.mjs";
import { changes, standing, readValue } from "./moves.mjs";
import { Packed } from "./packed.mjs";
import { Player } from "./player.mjs";

// what tools/report writes in
const DATA = RBG_DATA;

const at = (id) => document.getElementById(id);
const game = { ...readGame(DATA.game), colours: DATA.colours };

/** A small board for each position of a line; a click leads there. */
async function strip(client, player, numbers) {
    const cards = [];
    let before = null;
    for (const number of numbers) {
        const [value, text] = (await client.ask("look", { lines: `value ${number}\nshow ${number}\n` })).trim().split("\n");
        const position = readPosition(text);
        const card = document.createElement("a");
        const said = document.createElement("span");
        const changed = before ? changes(game, before, position).map((change) => change.vertex) : [];
        const better = standing(readValue(value), position.turn);
        card.className = `card ${better === 1 ? "win" : better === -1 ? "loss" : better === 0 ? "draw" : ""}`;
        card.href = `#${number}`;
        said.textContent = `${number}: ${position.turn === ">>" ? "the keeper" : position.turn}`;
        card.append(drawBoard(game, position, { marks: { changed: new Set(changed) }, size: 130 }), said);
        card.onclick = (event) => {
            event.preventDefault();
            player.go(number);
        };
        cards.push(card);
        before = position;
    }
    return cards;
}

function numberOfAddress() {
    const found = /^#([0-9]{1,10})$/.exec(location.hash);
    return found ? Number(found[1]) : null;
}

const client = await Packed.open(DATA, game);
const player = new Player(client, at);
await player.open(game);
player.showStatistics(DATA.statistics);
at("main-line").replaceChildren(...(await strip(client, player, DATA.main)));
at("longest-line").replaceChildren(...(await strip(client, player, DATA.longest)));
at("longest-title").hidden = DATA.longest.length === 0;
window.onhashchange = () => numberOfAddress() !== null && player.go(numberOfAddress());
if (numberOfAddress() !== null) await player.go(numberOfAddress());
document.body.dataset.ready = "yes";
