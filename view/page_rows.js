"use strict";
// Draws the histories that the page has as data. It decides nothing: what each event changed, and what
// is wrong, was worked out when the page was made. Rows are drawn as they come into sight.

const data = JSON.parse(document.getElementById("data").textContent);
const byId = (id) => document.getElementById(id);
const escapeText = (text) => text.replace(/[&<>"]/g, (sign) => "&#" + sign.charCodeAt(0) + ";");
const NOTHING = 0, READ = 1, WRITE = 2;
const RIGHT_NAMES = ["nothing", "read", "write"];
const HIGH = 30, LANE = 13, PRINTED = 1500, DETAILS = 540;
const nodes = data.nodes, kinds = data.kinds;
const columnOf = nodes.map((_, node) => data.columns.indexOf(node));

const ALL = -1;
const now = { file: data.file, page: data.page, client: "", only: false, chosen: 0, printing: false, told: false };
let file, shown, wide, wrong;

// ---- Rows, as the page has them: place, kind, line, node, page, cells, and more by kind.

const kindOf = (row) => kinds[row[1]];
const isMessage = (row) => row[1] < data.messages;
const isAccess = (row) => data.accesses.includes(kindOf(row));
const isSync = (row) => data.syncs.includes(kindOf(row));
const caller = (row) => data.texts[row[6]];
const placeName = (row) => (row[0] < 0 ? "?" : String(row[0]));
const nodeName = (node) => (node < 0 ? "?" : nodes[node].name);

function access(row) {
  return { life: row[8], off: row[9], length: row[10], bytes: data.texts[row[11]], words: data.texts[row[12]],
    effective: row[13] === 1 };
}

function head(text) {
  const field = (from, to) => parseInt(text.slice(from, to), 16);
  return { subcontract: field(0, 4), operation: field(4, 8), tag: field(8, 16), offset: field(16, 32),
    size: field(32, 40), access: field(40, 42), flags: field(42, 44), zeros: field(44, 48) };
}

const headsOf = (row) => [head(data.texts[row[6]]), head(data.texts[row[7]])];

// ---- One file, and one page of it along the history.

function indexPages(rows) {
  const found = new Map();
  rows.forEach((row, index) => {
    if (row[4] >= 0) {
      if (!found.has(row[4])) found.set(row[4], []);
      found.get(row[4]).push(index);
    }
  });
  return found;
}

// What is known of a page along the history, worked out once.
function trackOf(page) {
  if (!file.tracks.has(page)) file.tracks.set(page, follow(page));
  return file.tracks.get(page);
}

// The page whose rights a row shows: the chosen one, or its own if all are shown; -1 if it has none.
const pageOf = (row) => (now.page !== ALL ? now.page : row[4] < file.pages ? row[4] : -1);

// Whose call a row is, or was sent for.
function clientOf(row) {
  if (kindOf(row) === "unreadable") return "";
  if (!isMessage(row)) return caller(row);
  return file.rows[row[9]] ? caller(file.rows[row[9]]) : "";
}

// Whether a row is one of those that the reader asked for.
function isAskedFor(row, index) {
  const isOfPage = !now.only || now.page === ALL || row[4] < 0 || row[4] === now.page;
  return wrong.has(index) || index === file.differs || isOfPage && (!now.client || clientOf(row) === now.client);
}

// The rights and places of all nodes on a page, after none of its events, after the first, and so on.
function follow(page) {
  const events = file.index.get(page) || [], count = nodes.length;
  const rights = new Uint8Array((events.length + 1) * count), at = new Int32Array((events.length + 1) * count);
  const newest = new Int32Array(events.length + 1);
  rights[0] = WRITE;
  events.forEach((index, step) => {
    const row = file.rows[index], from = step * count, to = from + count;
    rights.copyWithin(to, from, to);
    at.copyWithin(to, from, to);
    for (let cell = 0; cell < row[5].length; cell += 3) {
      rights[to + row[5][cell]] = row[5][cell + 1];
      at[to + row[5][cell]] = row[5][cell + 2];
    }
    newest[step + 1] = writes(row) ? row[0] + 1 : newest[step];
  });
  return { page, events, rights, at, newest };
}

const writes = (row) => ["write", "clear"].includes(kindOf(row)) && access(row).effective;

function countBelow(list, value) {
  let low = 0, high = list.length;
  while (low < high) {
    const middle = (low + high) >> 1;
    if (list[middle] < value) low = middle + 1; else high = middle;
  }
  return low;
}

// A node's cell before or after the events of a page so far.
function cell(of, step, node) {
  const at = step * nodes.length, parent = nodes[node].parent, right = of.rights[at + node];
  return { right, at: of.at[at + node],
    changed: node > 0 && right !== NOTHING && of.at[at + node] !== of.at[at + parent] };
}

// A page's bytes at a place, as two hex digits each, or dots where the history does not tell them.
function bytesAt(page, place) {
  const known = file.openings[page] || "..".repeat(data.pageSize), bytes = known.match(/../g);
  for (const index of file.index.get(page) || []) {
    const row = file.rows[index];
    if (row[0] >= place) break;
    if (!writes(row)) continue;
    if (kindOf(row) === "clear") bytes.fill("00");
    else access(row).bytes.match(/../g).forEach((byte, i) => { bytes[access(row).off + i] = byte; });
  }
  return bytes;
}

// ---- What a row says.

const shorten = (hex) => (hex.length > 24 ? hex.slice(0, 16) + "…(" + hex.length / 2 + " bytes)" : hex);

function callWords(row) {
  if (kindOf(row) === "unreadable") return escapeText(data.texts[row[6]]);
  if (isMessage(row)) return "<i>" + (row[4] === now.page ? "" : "page " + row[4]) + "</i>";
  const who = "<b>" + escapeText(caller(row)) + "</b> ";
  if (isSync(row)) return who + kindOf(row) + " from " + row[8] + " <i>&rarr; done</i>";
  if (!isAccess(row)) return who + kindOf(row) + " <i>&rarr; done</i>";
  const said = access(row), answer = said.words || shorten(said.bytes);
  const words = { open: [], clear: [row[4]], read: [row[4], said.off, said.length],
    write: [row[4], said.off, shorten(said.bytes)] }[kindOf(row)];
  return who + [kindOf(row)].concat(words).join(" ") + " <i>&rarr; " + answer + "</i>";
}

function sentence(row) {
  const node = nodeName(row[3]), kind = kindOf(row), page = "page " + row[4];
  if (kind === "unreadable") return "The line is none of a history.";
  if (isMessage(row)) return data.texts[row[8]];
  if (isSync(row)) return caller(row) + " began a sync at " + node + " at place " + row[8] +
    ", and it is done: the ground shows each page that was written before." +
    (kind === "cleaned" ? " No layer may write it on without asking." : "");
  if (kind === "destroy_cache") {
    return caller(row) + " ended the caches of " + node + " and of all above it: new lives begin.";
  }
  if (kind === "done_with_pager_object") return caller(row) + " ended the channels of " + node + ".";
  const said = access(row);
  if (kind === "open") return caller(row) + " opens the file at " + node + ".";
  if (!said.effective) {
    return caller(row) + " calls at " + node + " with life " + said.life + ", which is over: nothing happens.";
  }
  return caller(row) + " " + { read: "reads", write: "writes", clear: "clears" }[kind] + " " + page + " at " + node +
    (kind === "clear" ? "." : ", " + said.length + " bytes from " + said.off + " on.");
}
