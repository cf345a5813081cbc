"use strict";
// Runs a page's script over a document that has no layout, and prints what expressions are there then:
//
//     node document.js PAGE.html EXPRESSION ..
//
// Each is printed as a line of JSON. An error of the script ends it with status 1.

const fs = require("fs"), vm = require("vm");

// A window, of this page or of a frame: what was posted to it, and who listens.
class Window {
  constructor() {
    Object.assign(this, { posted: [], listeners: {}, hash: "" });
    this.history = { replaceState: (_, __, hash) => { this.hash = hash; } };
  }

  postMessage(message) { this.posted.push(message); }

  addEventListener(kind, listener) { this.listeners[kind] = listener; }
}

class Element {
  constructor(id) {
    Object.assign(this, { id, innerHTML: "", textContent: "", value: "", hidden: false, checked: false, dataset: {},
      scrollTop: 0, offsetTop: 0, clientHeight: 600, clientWidth: 1366, listeners: {}, attributes: {}, tagName: "DIV" });
    this.contentWindow = new Window();
    this.style = { setProperty() {} };
    this.classList = { toggle() {} };
  }

  addEventListener(kind, listener) { this.listeners[kind] = listener; }

  setAttribute(name, value) { this.attributes[name] = value; }

  focus() {}

  closest(what) { return what === "button" || what === ".row" ? this : null; }

  tell(kind, event) { if (this.listeners[kind]) this.listeners[kind](event); }
}

// The parts of a page that the script asks for: its own text has each id.
function documentOf(html) {
  const found = new Element("document");
  found.elements = {};
  for (const [, id] of html.matchAll(/ id="([a-z]+)"/g)) found.elements[id] = new Element(id);
  found.elements.data.textContent = html.match(/id="data">([^]*?)<\/script>/)[1];
  found.getElementById = (id) => found.elements[id] || null;
  found.documentElement = new Element("html");
  found.body = new Element("body");
  return found;
}

function main(page, expressions) {
  const html = fs.readFileSync(page, "utf8"), document = documentOf(html);
  const window = Object.assign(new Window(), { parent: new Window() });
  const press = (key) => document.tell("keydown", { key, target: document.body, preventDefault() {} });
  const click = (id, dataset) => document.elements[id].tell("click", { target: Object.assign(new Element(""), { dataset }) });
  const set = (id, values) => {
    Object.assign(document.elements[id], values);
    document.elements[id].tell("change", { target: document.elements[id] });
  };
  const shown = (id) => document.elements[id].innerHTML.replace(/<[^>]*>/g, " ").replace(/\s+/g, " ").trim();
  const context = vm.createContext({ document, window, location: { hash: "" }, press, click, set, shownIn: shown,
    requestAnimationFrame: (call) => call() });
  vm.runInContext(html.match(/<script>\n([^]*?)<\/script>/)[1], context, page);
  for (const expression of expressions) {
    process.stdout.write(JSON.stringify(vm.runInContext(expression, context, "asked") ?? null) + "\n");
  }
}

main(process.argv[2], process.argv.slice(3));
