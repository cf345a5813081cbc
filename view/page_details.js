// Tells all about the chosen row.

// ---- The chosen row.

function headTable(row) {
  const heads = headsOf(row), names = { 0: "none", 1: "read", 2: "write" };
  const flags = (value) => value + ([[1, "data"], [2, "answer"], [4, "to the cache"]].filter(([bit]) => value & bit)
    .map(([, word]) => word).join(", ").replace(/^(.)/, ": $1") || ": none");
  const asked = kindOf(row) === "zero_fill" ? ["page_in", "zero_fill"] : [kindOf(row), kindOf(row)];
  const lines = [
    ["subcontract", (one) => one.subcontract], ["operation", (one, at) => one.operation + " " + asked[at]],
    ["tag, the file", (one) => one.tag], ["offset", (one) => one.offset + ": page " + one.offset / data.pageSize],
    ["size", (one) => one.size], ["access", (one) => one.access + " " + (names[one.access] || "?")],
    ["flags", (one) => flags(one.flags)], ["zeros", (one) => one.zeros]];
  const rows = lines.map(([name, read]) => {
    const [first, second] = heads.map(read), style = first === second ? "" : ` class="differs"`;
    return `<tr><th>${name}</th><td${style}>${first}</td><td${style}>${second}</td></tr>`;
  });
  return "<div><h2>The heads of its two frames</h2><table><tr><th></th><th>first</th><th>second</th></tr>" +
    rows.join("") + `</table><p class="text">${data.texts[row[6]]}<br>${data.texts[row[7]]}</p></div>`;
}

function dump(bytes, marked) {
  let text = "", last = "", skipped = false;
  for (let off = 0; off < bytes.length; off += 16) {
    const part = bytes.slice(off, off + 16), key = part.join(""), touched = part.some((_, i) => marked(off + i));
    if (key === last && !touched) { if (!skipped) text += "*\n"; skipped = true; continue; }
    last = touched ? "" : key;
    skipped = false;
    const cells = part.map((byte, i) => (marked(off + i) ? `<mark>${byte}</mark>` : byte)).join(" ");
    const letters = part.map((byte) => (byte === ".." ? " " : /^[2-6][0-9a-f]$|^7[0-9a-d]$/.test(byte)
      ? escapeText(String.fromCharCode(parseInt(byte, 16))) : "·")).join("");
    text += off.toString(16).padStart(3, "0") + "  " + cells + "  " + letters + "\n";
  }
  return "<pre>" + text + bytes.length.toString(16).padStart(3, "0") + "</pre>";
}

function movedBytes(row, of, step) {
  if (isMessage(row) && row[3] > 0) {
    const [first, second] = headsOf(row), up = kindOf(row) === "page_in";
    const from = up ? nodes[row[3]].parent : row[3], to = up ? row[3] : nodes[row[3]].parent;
    if (!((first.flags | second.flags) & 1)) return "<h2>The bytes that moved</h2><p class='none'>none</p>";
    const place = cell(of, step, from).at;
    return `<h2>The bytes that moved</h2><p class="at">page ${row[4]}, from ${nodeName(from)} to ${nodeName(to)}, ` +
      `${writeWords(place)}</p>` + dump(bytesAt(row[4], place), () => false);
  }
  if (!isAccess(row) || !access(row).bytes) return "";
  const bytes = access(row).bytes.match(/../g);
  return `<h2>The bytes that were ${kindOf(row) === "read" ? "read" : "written"}</h2>` + dump(bytes, () => false);
}

function cellTable(row, of, before, after) {
  const lines = nodes.map((node, number) => {
    const old = cell(of, before, number), next = cell(of, after, number);
    const right = (old.right === next.right ? "" : RIGHT_NAMES[old.right] + " → ") + RIGHT_NAMES[next.right];
    const at = next.right === NOTHING ? "" : old.at === next.at || old.right === NOTHING ? writeName(next.at)
      : writeName(old.at) + " → " + writeName(next.at);
    return `<tr><th>${node.name}</th><td class="${old.right === next.right ? "" : "differs"}">${right}</td>` +
      `<td>${at}</td><td>${next.changed ? "changed" : ""}</td></tr>`;
  });
  return `<div><h2>Page ${of.page} at each node</h2><table>` +
    "<tr><th>node</th><th>right</th><th>as of</th><th></th></tr>" + lines.join("") +
    `</table><p class="at">the newest write: ${of.newest[after] ? of.newest[after] - 1 : "none"}</p></div>`;
}

// A place of bytes, as the place of the write that left them.
const writeName = (at) => (at ? String(at - 1) : "start");
const writeWords = (at) => (at ? "with the write of place " + (at - 1) : "as at the start");

function copies(row, of, after) {
  const groups = new Map();
  nodes.forEach((node, number) => {
    const state = cell(of, after, number);
    if (state.right === NOTHING) return;
    if (!groups.has(state.at)) groups.set(state.at, []);
    groups.get(state.at).push(node.name);
  });
  const newest = bytesAt(of.page, of.newest[after]);
  return "<h2>Its bytes, after the event</h2>" + [...groups].sort((a, b) => b[0] - a[0]).map(([place, names]) => {
    const bytes = bytesAt(of.page, place);
    const old = place < of.newest[after] ? ", which is not the newest" : "";
    return `<p class="at">${names.join(", ")}: ${writeWords(place)}${old}</p>` +
      dump(bytes, (at) => bytes[at] !== newest[at]);
  }).join("");
}

function livesNow(index) {
  const lives = nodes.map(() => 0);
  for (const at of file.destroyed) {
    if (at > index) break;
    const list = file.rows[at][8];
    for (let cell = 0; cell < list.length; cell += 2) lives[list[cell]] = list[cell + 1];
  }
  const said = nodes.map((node, number) => (lives[number] ? node.name + " " + lives[number] : "")).filter(Boolean);
  return said.length ? `<p class="at">lives: ${said.join(", ")}; else 0</p>` : "";
}

function drawDetails() {
  const index = now.chosen, row = file.rows[index];
  if (!row) { byId("details").innerHTML = "<p>The history has no events.</p>"; return; }
  const page = row[4] >= 0 && row[4] < file.pages ? row[4] : now.page, of = trackOf(page);
  const { before, after } = stepsOf(of, index);
  byId("details").innerHTML = whatHappened(row, index, page) + (isMessage(row) ? headTable(row) : "") +
    (page === ALL ? "" : (file.whole ? cellTable(row, of, before, after) : "") + "<div>" + movedBytes(row, of, before) +
      (file.whole ? copies(row, of, after) : plainNow(of, after)) + "</div>");
}

function whatHappened(row, index, page) {
  const faults = (wrong.get(index) || []).map((text) => `<p class="wrong">✗ ${escapeText(text)}</p>`).join("");
  const line = kindOf(row) === "unreadable" ? `<p class="text">${escapeText(data.texts[row[6]])}</p>`
    : isMessage(row) ? "" : `<p class="said">${callWords(row)}</p>`;
  const other = page === now.page || now.page === ALL ? ""
    : `<p><button type="button" data-page="${page}">show page ${page}</button></p>`;
  const untraced = file.whole ? "" : `<p class="none">The report is not traced: rights and copies are not known.</p>`;
  return `<div class="what"><h2>Place ${placeName(row)}, line ${row[2]} of the report</h2>` + faults +
    `<p>${escapeText(sentence(row))}</p>` + line + other + livesNow(index) + untraced + "</div>" +
    (isMessage(row) ? whySent(row) : whatFor(index));
}

// For which call a message was sent, and by which rule of the plan.
function whySent(row) {
  const asked = file.rows[row[9]];
  const words = row[9] < 0 ? "<p class='none'>Behind it no call was found whose plan names this message. A call that " +
      "failed has no event.</p>"
    : (asked ? `<p>${rowButton(row[9])} ${escapeText(sentence(asked))}</p>` : "<p>Its call is left out of this page.</p>") +
      `<p>By the plan of that call: ${escapeText(data.texts[row[10]])}.</p>`;
  return `<div class="why"><h2>Why it was sent</h2>${words}</div>`;
}

// The messages that were sent for a call.
function whatFor(index) {
  const sent = file.sent.get(index);
  return sent ? `<div class="why"><h2>What was sent for it</h2><p>${sent.map(rowButton).join(" ")}</p></div>` : "";
}

const rowButton = (index) =>
  `<button type="button" data-row="${index}">place ${placeName(file.rows[index])}</button>`;

function plainNow(of, after) {
  return `<h2>The newest bytes of page ${of.page}</h2>` + dump(bytesAt(of.page, of.newest[after]), () => false);
}
