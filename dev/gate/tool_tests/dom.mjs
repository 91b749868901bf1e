// As much of a browser's document as the pages need, for tests by node: the elements with an id, and those that a script makes.
import fs from "node:fs";

class Element {
    constructor(name) {
        Object.assign(this, { name, children: [], attributes: {}, listeners: {}, style: {}, dataset: {}, hidden: false, disabled: false, className: "" });
        this.value = "";
        this.said = "";
    }
    get textContent() {
        return this.said + this.children.map((child) => child.textContent).join("");
    }
    set textContent(text) {
        this.said = String(text);
        this.children = [];
    }
    append(...children) {
        this.children.push(...children);
    }
    replaceChildren(...children) {
        this.said = "";
        this.children = children;
    }
    setAttribute(name, value) {
        this.attributes[name] = String(value);
    }
    addEventListener(kind, call) {
        this.listeners[kind] = call;
    }
    insertRow() {
        return this.#inserted("tr");
    }
    insertCell() {
        return this.#inserted("td");
    }
    #inserted(name) {
        this.children.push(new Element(name));
        return this.children.at(-1);
    }
    get rows() {
        return this.children;
    }
    get cells() {
        return this.children;
    }
    /** All elements in it of one name. */
    all(name) {
        return this.children.flatMap((child) => [...(child.name === name ? [child] : []), ...child.all(name)]);
    }
}

/** Runs the script of a page, and gives its elements by their ids. */
export async function opened(file, hash = "") {
    const text = fs.readFileSync(file, "utf8");
    const body = text.slice(0, text.indexOf('<script type="module">'));
    const ids = new Map([...body.matchAll(/<([a-z0-9]+)[^>]* id="([^"]+)"/g)].map(([, name, id]) => [id, new Element(name)]));
    globalThis.document = {
        getElementById: (id) => ids.get(id) ?? null,
        createElement: (name) => new Element(name),
        createElementNS: (_, name) => new Element(name),
        body: new Element("body"),
    };
    globalThis.Option = function (label, value) {
        return Object.assign(new Element("option"), { said: label, value });
    };
    globalThis.location = { hash };
    globalThis.window = globalThis;
    const script = /<script type="module">([^]*?)<\/script>/.exec(text)[1];
    await import(`data:text/javascript;base64,${Buffer.from(script).toString("base64")}`);
    return (id) => ids.get(id);
}
