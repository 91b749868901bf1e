// The page: a text that is edited, its faults, work on its table, and the player beside it.

import { Client } from "./client.mjs";
import { readGame } from "./game_text.mjs";
import { Player } from "./player.mjs";
import { unpacked } from "./unpacked.mjs";

// what tools/page writes in: the games to begin with, the worker's text, and the solver's module, packed
const GAMES = RBG_GAMES;
const WORKER = RBG_WORKER;
const WASM = RBG_WASM;

const at = (id) => document.getElementById(id);
const client = new Client(WORKER);
const player = new Player(client, at);
let solved = null;

function tell(text) {
    at("told").textContent = text;
}

function enable(isWorking) {
    at("solve").disabled = isWorking;
    at("stop").disabled = !isWorking;
    for (const id of ["audit", "save"]) at(id).disabled = isWorking || solved === null;
}

/** Shows where a text is no game; a click leads there. */
function showFault(fault) {
    at("fault").hidden = fault === null;
    if (fault === null) return;
    at("fault").textContent = fault.line ? `line ${fault.line}, column ${fault.column}: ${fault.code}: ${fault.message}` : fault.message;
    at("fault").onclick = () => {
        const lines = at("text").value.split("\n");
        const before = lines.slice(0, fault.line - 1).join("\n").length + (fault.line > 1 ? 1 : 0) + fault.column - 1;
        at("text").focus();
        at("text").setSelectionRange(before, before + 1);
    };
}

let checking = null;
async function check() {
    const game = at("text").value;
    const fault = await client.ask("fault", { game }).catch(() => null);
    if (game === at("text").value) showFault(fault);
}

at("text").oninput = () => {
    clearTimeout(checking);
    checking = setTimeout(check, 250);
};

/** How far the work is, in a line. */
function progressText({ known, expanded, settled, processed, state, units, seconds }) {
    const speed = seconds > 0 ? Math.round(units / seconds).toLocaleString("en") : "0";
    return `known ${known} expanded ${expanded} settled ${settled} processed ${processed} ${state}\n${seconds.toFixed(1)} s, ${speed} units a second`;
}

async function statistics() {
    const said = at("told").textContent;
    player.showStatistics(await client.ask("statistics", {}, ({ share }) => tell(`${said}\ncounting: ${Math.round(100 * share)} %`)));
    tell(said);
}

async function solve() {
    const text = at("text").value;
    const goal = at("goal").value.trim() === "" ? 0 : Number(at("goal").value);
    const game = readGame(text);
    enable(true);
    try {
        if (solved !== `${goal} ${text}`) {
            solved = null;
            await client.ask("create", { game: text, goal });
            solved = `${goal} ${text}`;
        }
        const { state } = await client.ask("work", {}, (progress) => tell(progressText(progress)));
        await player.open(game);
        await statistics();
        document.title = `${state}: ${at("told").textContent.split("\n")[0]}`;
    } catch (error) {
        tell(error.message);
        await check();
        document.title = error.message;
    }
    enable(false);
}

async function audit() {
    enable(true);
    const began = performance.now();
    const verdict = await client.ask("audit").catch((error) => error.message);
    tell(`${at("told").textContent}\n${verdict} (${((performance.now() - began) / 1000).toFixed(1)} s)`);
    enable(false);
}

async function save() {
    const bytes = await client.ask("save");
    const link = document.createElement("a");
    link.href = URL.createObjectURL(new Blob([bytes], { type: "application/octet-stream" }));
    link.download = `${at("games").value || "game"}.table`;
    link.click();
    setTimeout(() => URL.revokeObjectURL(link.href), 60_000);
}

async function open(file) {
    try {
        const { game, status } = await client.ask("open", { bytes: new Uint8Array(await file.arrayBuffer()) });
        at("text").value = game;
        solved = `0 ${game}`;
        tell(status);
        await player.open(readGame(game));
        await statistics();
    } catch (error) {
        tell(error.message);
    }
    enable(false);
}

/** The text of the game that stands in a certificate, behind the line `text BYTES`. */
function gameOf(certificate) {
    const letters = new TextDecoder("latin1").decode(certificate.subarray(0, 1 << 17));
    const line = /^text ([0-9]+)\n/m.exec(letters);
    if (line === null) return "";
    const begins = line.index + line[0].length;
    return new TextDecoder().decode(certificate.subarray(begins, begins + Number(line[1])));
}

/** Tells what a certificate shows; the game that it is about takes the place of the text. */
async function checkCertificate(bytes) {
    tell("checking the certificate");
    const began = performance.now();
    const shown = await client.ask("certificate", { bytes }).catch((error) => error.message);
    if (shown.startsWith("certified")) {
        at("text").value = gameOf(bytes);
        at("text").oninput();
    }
    tell(`${shown}\n(${((performance.now() - began) / 1000).toFixed(1)} s)`);
}

/** Takes a file that was dropped on the page: a certificate is checked, and anything else is opened as a table. */
async function take(file) {
    const begins = await file.slice(0, 20).text();
    if (begins === "rbgsolve certificate") await checkCertificate(new Uint8Array(await file.arrayBuffer()));
    else await open(file);
}

at("solve").onclick = solve;
at("stop").onclick = () => client.stop();
at("audit").onclick = audit;
at("save").onclick = save;
at("open").onchange = () => at("open").files[0] && open(at("open").files[0]);
at("certificate").onchange = async () => {
    const [file] = at("certificate").files;
    if (file) await checkCertificate(new Uint8Array(await file.arrayBuffer()));
};
document.ondragover = (event) => event.preventDefault();
document.ondrop = (event) => {
    event.preventDefault();
    const [file] = event.dataTransfer.files;
    if (file) take(file);
};
at("games").replaceChildren(...Object.keys(GAMES).map((name) => new Option(name, name)));
at("games").onchange = () => {
    at("text").value = GAMES[at("games").value];
    check();
};

const wasm = await unpacked(WASM);
at("size").textContent = `${wasm.length.toLocaleString("en")} bytes`;
await client.ask("load", { wasm });
at("games").value = "tictactoe";
at("games").onchange();
enable(false);
document.title = "rbgsolve: ready";
