// What the reader chooses: a row, a file, a page; and the top of the page.

// ---- Choosing.

function positionOf(index) {
  return shown ? Math.max(0, Math.min(countBelow(shown, index), shown.length - 1)) : index;
}

function choose(index, reveal) {
  now.chosen = Math.max(0, Math.min(index, file.rows.length - 1));
  if (reveal) {
    const scroller = byId("scroller"), head = 26;
    const top = byId("rows").offsetTop + positionOf(now.chosen) * HIGH, lowest = top + HIGH - scroller.clientHeight;
    if (top < scroller.scrollTop + head) scroller.scrollTop = now.chosen === 0 ? 0 : top - head;
    else if (lowest > scroller.scrollTop) scroller.scrollTop = lowest;
  }
  drawRows();
  drawDetails();
  const row = file.rows[now.chosen];
  if (data.pair) tellOther();
  else if (row) window.history.replaceState(null, "", `#${file.name}/${pageName()}/${placeName(row)}`);
}

// Beside another page: tells it which row the reader chose. It is not told what it told itself.
function tellOther() {
  if (!now.told) window.parent.postMessage({ file: file.name, row: now.chosen }, "*");
}

function onTold(event) {
  if (!data.pair || event.source !== window.parent) return;
  const at = data.files.findIndex((one) => one.name === event.data.file);
  if (at < 0) return;
  now.told = true;
  jump(at, event.data.row);
  now.told = false;
}

const pageName = () => (now.page === ALL ? "all" : now.page);

function move(by) {
  if (!count()) return;
  const position = Math.max(0, Math.min(positionOf(now.chosen) + by, count() - 1));
  choose(shown ? shown[position] : position, true);
}

function nextMarked() {
  const marked = [...wrong.keys()].concat(file.differs >= 0 ? file.differs : []).sort((a, b) => a - b);
  if (marked.length) choose(marked.find((index) => index > now.chosen) ?? marked[0], true);
}

function onKey(event) {
  if (["INPUT", "SELECT"].includes(event.target.tagName) || event.ctrlKey || event.metaKey || event.altKey) return;
  const span = Math.max(1, Math.floor(byId("scroller").clientHeight / HIGH) - 3);
  const moves = { ArrowDown: 1, j: 1, ArrowUp: -1, k: -1, PageDown: span, PageUp: -span,
    Home: -count(), End: count() };
  if (event.key === "n") nextMarked();
  else if (event.key in moves) move(moves[event.key]);
  else return;
  event.preventDefault();
}

// ---- The file and the page.

function tellLeft(text) {
  byId("left").hidden = !text;
  byId("left").textContent = text;
}

function openFile(at) {
  now.file = at;
  file = data.files[at];
  file.index = file.index || indexPages(file.rows);
  file.destroyed = file.destroyed || rowsThat((row) => kindOf(row) === "destroy_cache");
  file.lanes = file.lanes || lanesOf(file.spans);
  file.sent = file.sent || callsOf(file.rows);
  wrong = new Map();
  for (const [of, index, , text] of data.findings) {
    if (of === at && index >= 0) wrong.set(index, (wrong.get(index) || []).concat(text));
  }
  file.tracks = file.tracks || new Map();
  byId("page").innerHTML = Array.from({ length: file.pages }, (_, page) =>
    `<option value="${page}">${page}${pageWords(page)}</option>`).join("") +
    `<option value="${ALL}">all: each row's own</option>`;
  offerClients();
  tellLeft(leftWords());
}

// The callers of the file's calls, from which one may be chosen.
function offerClients() {
  const callers = [...new Set(file.rows.map(clientOf).filter(Boolean))].sort();
  if (!callers.includes(now.client)) now.client = "";
  byId("client").innerHTML = `<option value="">all</option>` +
    callers.map((name) => `<option value="${escapeText(name)}">${escapeText(name)}</option>`).join("");
  byId("client").value = now.client;
}

const pageWords = (page) => (file.index.has(page) ? ": " + file.index.get(page).length + " events" : "");
const rowsThat = (are) => file.rows.map((row, index) => index).filter((index) => are(file.rows[index], index));
const leftWords = () => (file.left ? `The page leaves out the last ${file.left} events of file ${file.name}: ` +
  `it has the first ${file.rows.length}. What was checked is the whole history.` : "");

function lanesOf(spans) {
  const lanes = [];
  for (const [begin, end, lane] of spans) {
    lanes[lane] = lanes[lane] || { begins: [], ends: [] };
    lanes[lane].begins.push(begin);
    lanes[lane].ends.push(end);
  }
  return lanes;
}

// The messages' rows by the row of the call that they were sent for.
function callsOf(rows) {
  const found = new Map();
  rows.forEach((row, index) => {
    if (!isMessage(row) || row[9] < 0) return;
    if (!found.has(row[9])) found.set(row[9], []);
    found.get(row[9]).push(index);
  });
  return found;
}

function openPage(page) {
  now.page = page;
  byId("page").value = page;
  shown = now.only || now.client ? rowsThat(isAskedFor) : null;
  document.title = `History of file ${file.name}, ` + (page === ALL ? "all pages" : `page ${page}`);
}

function changePage(page) {
  openPage(page);
  redraw();
  choose(now.chosen, true);
}

// Takes up what the reader asks for, and goes to the next of these rows.
function filter() {
  openPage(now.page);
  redraw();
  choose(shown && shown.length ? shown[positionOf(now.chosen)] : now.chosen, true);
}

function redraw() {
  measure();
  drawTree();
  drawHeads();
  if (now.printing) drawAllRows(); else drawRows();
}

function jump(fileAt, index) {
  if (fileAt !== now.file) {
    openFile(fileAt);
    byId("file").value = fileAt;
  }
  const page = file.rows[index] ? file.rows[index][4] : -1;
  openPage(now.page !== ALL && page >= 0 && page < file.pages ? page : Math.min(now.page, file.pages - 1));
  redraw();
  choose(index, true);
}

// ---- The top of the page.

function drawVerdict() {
  byId("verdict").innerHTML = (data.found ? brokenWords() : data.traced
    ? `<span class="good">✓ The history agrees with itself.</span> ` + filesWords()
    : `<span class="note">Not traced: page messages, rights and copies are not known.</span> ` + filesWords()) +
    noticeWords();
}

// What became of the disks in mirrors, which no history tells.
const noticeWords = () => data.notices.map((words) => `<p class="notice">${escapeText(words)}</p>`).join("");

const filesWords = () => `<span class="note">${escapeText(data.files.map((one) => one.said).join("; "))}</span>`;

function brokenWords() {
  const lines = data.findings.map(([at, index, words]) => {
    const button = `<button type="button" data-file="${at}" data-row="${index}">${escapeText(words)}</button>`;
    return "<li>" + (index >= 0 && data.files[at].rows[index] ? button : escapeText(words)) + "</li>";
  });
  const count = data.found > lines.length ? ` The first ${lines.length} of ${data.found}:` : "";
  return `<div class="bad"><b>✗ The history breaks a rule.</b> The first counts: what is behind it may follow ` +
    `from it.${count}<ol>${lines.join("")}</ol></div>`;
}

function drawLegend() {
  const small = (inside, width = 18) => `<svg width="${width}" height="18" aria-hidden="true">${inside}</svg>`;
  const state = (right, changed) => small(bar(9, 0, 18, { right, changed }, false));
  const diamond = (style) => small(`<path class="mark ${style}" d="M9 2.5l6.5 6.5l-6.5 6.5l-6.5 -6.5z"/>`);
  byId("legend").innerHTML = [
    state(NOTHING, false) + "nothing", state(READ, false) + "may read", state(WRITE, false) + "may write",
    state(WRITE, true) + "changed: not what its pager has", small(bar(9, 0, 18, {}, true)) + "the ground",
    small(arrow(-6, 40, 9, false), 34) + "a frame", small(arrow(-6, 40, 9, true), 34) + "with the page",
    small(`<circle class="mark" cx="9" cy="9" r="5"/>`) + "read", diamond("solid") + "write", diamond("") + "clear",
    small(`<rect class="mark" x="5" y="5" width="8" height="8"/>`) + "open",
    small(`<path class="mark" d="M3 5h12l-6 9z"/>`) + "sync done",
    small(`<path class="mark" d="M4 4l10 10m0 -10l-10 10"/>`) + "refused, or caches ended",
    small(`<path class="span" d="M5 3h8M9 3V18"/>`) + "a sync from its start",
  ].map((one) => `<span>${one}</span>`).join("");
}

function listen() {
  const scroller = byId("scroller");
  let waiting = false;
  scroller.addEventListener("scroll", () => {
    if (!waiting) requestAnimationFrame(() => { waiting = false; drawRows(); });
    waiting = true;
  });
  byId("rows").addEventListener("click", (event) => {
    const row = event.target.closest(".row");
    if (row) choose(Number(row.dataset.index), false);
  });
  byId("details").addEventListener("click", (event) => {
    if (event.target.dataset.page) changePage(Number(event.target.dataset.page));
    if (event.target.dataset.row) choose(Number(event.target.dataset.row), true);
  });
  byId("verdict").addEventListener("click", (event) => {
    const button = event.target.closest("button");
    if (button) jump(Number(button.dataset.file), Number(button.dataset.row));
  });
  document.addEventListener("keydown", onKey);
  byId("file").addEventListener("change", (event) => { openFile(Number(event.target.value)); jump(now.file, 0); });
  byId("page").addEventListener("change", (event) => changePage(Number(event.target.value)));
  byId("only").addEventListener("change", (event) => { now.only = event.target.checked; filter(); });
  byId("client").addEventListener("change", (event) => { now.client = event.target.value; filter(); });
  byId("goto").addEventListener("change", (event) => {
    const index = file.rows.findIndex((row) => row[0] >= Number(event.target.value));
    choose(index < 0 ? file.rows.length - 1 : index, true);
    scroller.focus();
  });
  window.addEventListener("resize", redraw);
  window.addEventListener("message", onTold);
  window.addEventListener("beforeprint", () => { now.printing = true; redraw(); });
  window.addEventListener("afterprint", () => { now.printing = false; tellLeft(leftWords()); redraw(); });
}

// The row to begin with: that of the address, as #FILE/PAGE/PLACE, else the first difference, if there is
// another page beside this one, else the first row that is marked.
function startingPoint() {
  const [name, page, place] = location.hash.slice(1).split("/");
  const at = data.files.findIndex((one) => one.name === name);
  if (at < 0) return { at: data.file, page: data.page, place: -1 };
  return { at, page: page === "all" ? ALL : Number(page) || 0, place: Number(place) || 0 };
}

function start() {
  const asked = startingPoint();
  byId("file").innerHTML = data.files.map((one, at) => `<option value="${at}">${one.name}</option>`).join("");
  openFile(asked.at);
  byId("file").value = asked.at;
  openPage(Math.max(ALL, Math.min(asked.page, file.pages - 1)));
  drawVerdict();
  drawLegend();
  redraw();
  const row = asked.place < 0 ? (file.differs >= 0 ? file.differs : Math.min(...wrong.keys(), file.rows.length))
    : file.rows.findIndex((one) => one[0] >= asked.place);
  now.told = true;
  choose(row < file.rows.length ? row : file.differs >= 0 ? file.rows.length - 1 : 0, true);
  now.told = false;
  listen();
  byId("scroller").focus({ preventScroll: true });
  document.documentElement.dataset.ready = file.rows.length;
}

start();
