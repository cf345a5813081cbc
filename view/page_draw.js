// Draws rows, the tree over their columns, and the rows that are in sight.

// ---- Drawing one row.

const centre = (node) => (columnOf[node] + 0.5) * wide.column;

function bar(x, top, bottom, state, isGround) {
  const high = bottom - top;
  if (isGround) return `<path class="ground" d="M${x - 3} ${top}V${bottom}M${x + 3} ${top}V${bottom}"/>`;
  if (state.right === NOTHING) return `<line class="nothing" x1="${x}" x2="${x}" y1="${top}" y2="${bottom}"/>`;
  const core = state.changed ? `<rect class="core" x="${x - 1.5}" y="${top}" width="3" height="${high}"/>` : "";
  if (state.right === READ) {
    return `<rect class="read" x="${x - 5}" y="${top}" width="10" height="${high}"/>` +
      `<path class="edge" d="M${x - 5} ${top}V${bottom}M${x + 5} ${top}V${bottom}"/>` + core;
  }
  return `<rect class="full" x="${x - 5.5}" y="${top}" width="11" height="${high}"/>` + core;
}

function bars(of, before, after) {
  let drawn = "";
  for (let node = 0; node < nodes.length; node++) {
    if ((!file.whole || of.page < 0) && node > 0) {
      drawn += bar(centre(node), 0, HIGH, { right: NOTHING }, false);
      continue;
    }
    const old = cell(of, before, node), next = cell(of, after, node);
    const same = old.right === next.right && old.changed === next.changed;
    drawn += same ? bar(centre(node), 0, HIGH, next, node === 0)
      : bar(centre(node), 0, 18, old, false) + bar(centre(node), 18, HIGH, next, false);
  }
  return drawn;
}

function arrow(from, to, y, thick, far) {
  const way = to > from ? 1 : -1, begin = from + way * 8, end = to - way * 8;
  const size = thick ? 9 : 6, half = thick ? 5 : 3;
  return `<path class="${thick ? "thick" : "thin"}${far ? " far" : ""}" d="M${begin} ${y}H${end - way * size}"/>` +
    `<path class="tip" d="M${end} ${y}l${-way * size} ${-half}v${2 * half}z"/>`;
}

function messageArrows(row) {
  if (row[3] <= 0) return "";
  const [first, second] = headsOf(row), node = centre(row[3]), pager = centre(nodes[row[3]].parent);
  const [from, to] = data.orders.includes(kindOf(row)) ? [pager, node] : [node, pager];
  const far = nodes[row[3]].machine !== nodes[nodes[row[3]].parent].machine;
  return arrow(from, to, 15, first.flags & 1, far) + arrow(to, from, 23, second.flags & 1, far) +
    `<text class="name" x="${(from + to) / 2}" y="10">${kindOf(row)}</text>`;
}

function accessMark(row) {
  if (row[3] < 0) return "";
  const x = centre(row[3]), lead = `<line class="lead" x1="0" x2="${x - 9}" y1="15" y2="15"/>`, kind = kindOf(row);
  if (kind === "read" && access(row).effective) return lead + `<circle class="mark" cx="${x}" cy="15" r="5"/>`;
  if (["write", "clear"].includes(kind) && access(row).effective) {
    return lead + `<path class="mark ${kind === "write" ? "solid" : ""}" d="M${x} 8.5l6.5 6.5l-6.5 6.5l-6.5 -6.5z"/>`;
  }
  if (isSync(row)) return lead + `<path class="mark" d="M${x - 6} 10.5h12l-6 9z"/>`;
  if (kind === "open") return lead + `<rect class="mark" x="${x - 4}" y="11" width="8" height="8"/>`;
  return lead + `<path class="mark" d="M${x - 5} 10l10 10m0 -10l-10 10"/>`;
}

function spanLines(index) {
  let drawn = "";
  file.lanes.forEach((lane, at) => {
    const next = countBelow(lane.begins, index + 1) - 1, x = 8 + at * LANE;
    if (next < 0 || lane.ends[next] < index) return;
    const begins = lane.begins[next] === index, ends = lane.ends[next] === index;
    const top = begins ? 4 : 0, bottom = ends ? 15 : HIGH;
    if (bottom > top) drawn += `<path class="span" d="M${x} ${top}V${bottom}"/>`;
    if (begins) drawn += `<path class="span" d="M${x - 4} 4h8"/>`;
    if (ends) drawn += `<circle class="spanend" cx="${x}" cy="15" r="4"/>`;
  });
  return `<svg class="syncs" width="${wide.syncs}" height="${HIGH}" aria-hidden="true">${drawn}</svg>`;
}

// The steps of a page's events before and after a row: the same if the row is not about the page.
function stepsOf(of, index) {
  const before = countBelow(of.events, index), own = of.events[before] === index;
  return { before, after: own ? before + 1 : before, own };
}

function rowStyle(row, index, own) {
  const before = file.rows[index - 1], gap = !file.whole && row[0] > (before ? before[0] : -1) + 1;
  return ["row", row[4] >= 0 && !own ? "other" : "", wrong.has(index) ? "bad" : "",
    index === file.differs ? "first" : "", index === now.chosen ? "chosen" : "", gap ? "gap" : "",
    now.page === ALL && before && before[4] !== row[4] ? "turn" : ""].filter(Boolean).join(" ");
}

function drawRow(position) {
  const index = shown ? shown[position] : position, row = file.rows[index];
  const of = trackOf(pageOf(row)), { before, after, own } = stepsOf(of, index), newest = of.newest[after];
  const act = isMessage(row) ? messageArrows(row) : kindOf(row) === "unreadable" ? "" : accessMark(row);
  const title = wrong.has(index) ? ` title="${escapeText(wrong.get(index).join("; "))}"` : "";
  const sign = wrong.has(index) ? "✗ " : index === file.differs ? "≠ " : "";
  return `<div class="${rowStyle(row, index, own)}" id="row${index}" data-index="${index}" role="row"` +
    ` aria-rowindex="${position + 1}" aria-selected="${index === now.chosen}"` +
    ` aria-label="${escapeText(rowLabel(row, index))}"${title}` +
    (now.printing ? ">" : ` style="top:${position * HIGH}px">`) +
    `<div class="place">${sign}${placeName(row)}</div><div class="call">${callWords(row)}</div>` +
    `<svg class="nodes" width="${wide.nodes}" height="${HIGH}" aria-hidden="true">${bars(of, before, after)}` +
    `<g class="act">${act}</g></svg>` +
    `<div class="newest${newest === of.newest[before] ? "" : " moved"}">${newest ? newest - 1 : "·"}</div>` +
    spanLines(index) + "</div>";
}

function rowLabel(row, index) {
  const marked = wrong.has(index) ? " Marked: " + wrong.get(index)[0] : "";
  return "place " + placeName(row) + ", " + sentence(row) + marked +
    (index === file.differs ? " The first difference." : "");
}

// ---- The tree over the columns.

function drawTree() {
  const deepest = Math.max(...nodes.map((node) => node.depth)), small = deepest > 5;
  const pitch = small ? 30 : 44, box = small ? 18 : 30;
  const level = (node) => 22 + (deepest - nodes[node].depth) * pitch, foot = level(0) + box + 10;
  let drawn = machineBands(foot);
  nodes.forEach((node, number) => {
    if (number === 0) return;
    const bus = level(node.parent) - 4 - 3 * (busOf(node.parent) % 3), top = level(number) + box;
    drawn += `<path class="link" d="M${centre(number)} ${top}V${bus}H${centre(node.parent)}V${level(node.parent)}"/>`;
  });
  nodes.forEach((node, number) => { drawn += drawBox(node, number, level(number), box); });
  byId("tree").innerHTML = `<svg width="${wide.nodes}" height="${foot}" role="img" aria-label="${treeLabel()}">` +
    drawn + "</svg>";
}

function machineBands(foot) {
  let drawn = "", begin = 0;
  for (let at = 1; at <= data.columns.length; at++) {
    const machine = nodes[data.columns[begin]].machine;
    if (at < data.columns.length && nodes[data.columns[at]].machine === machine) continue;
    const left = begin * wide.column + 3, width = (at - begin) * wide.column - 6;
    drawn += `<rect class="band" x="${left}" y="0" width="${width}" height="${foot}" rx="6"/>` +
      `<text class="machine" x="${left + width / 2}" y="14">machine ${machine}</text>`;
    begin = at;
  }
  return drawn;
}

// Which one a node is, of those of its depth on which something stands: each has a line of its own.
const busOf = (number) => nodes.slice(0, number).filter((other, at) => other.depth === nodes[number].depth &&
  nodes.some((above) => above.parent === at)).length;

function drawBox(node, number, top, box) {
  const width = Math.min(wide.column - 10, 104), x = centre(number), small = box < 30, room = Math.floor(width / 7.4);
  const title = node.name.length > room ? node.name.slice(0, room - 1) + "…" : node.name;
  const kind = node.kind + (node.frames ? ", " + node.frames + (node.frames === 1 ? " frame" : " frames") : "");
  return `<g><title>${node.name}: ${kind}, machine ${node.machine}</title>` +
    `<rect class="box" x="${x - width / 2}" y="${top}" width="${width}" height="${box}" rx="4"/>` +
    `<text class="title" x="${x}" y="${top + 13}">${title}</text>` +
    (small ? "" : `<text class="kind" x="${x}" y="${top + 25}">${width < 76 ? node.kind : kind}</text>`) + "</g>";
}

function treeLabel() {
  return nodes.map((node) => node.name + ", " + node.kind + " on machine " + node.machine +
    (node.parent < 0 ? ", the ground" : ", served by " + nodes[node.parent].name)).join("; ");
}

function drawHeads() {
  byId("heads").innerHTML = `<div class="place">place</div><div class="call">the call, and its answer</div>` +
    `<div class="nodes">` + data.columns.map((node) => `<div class="node">${nodes[node].name}</div>`).join("") +
    `</div><div class="newest">newest</div><div class="syncs">syncs</div>`;
}

// ---- The rows in sight.

const count = () => (shown ? shown.length : file.rows.length);

function drawRows() {
  const scroller = byId("scroller"), rows = byId("rows"), total = count();
  rows.style.height = total * HIGH + "px";
  const above = rows.offsetTop, from = Math.max(0, Math.floor((scroller.scrollTop - above) / HIGH) - 10);
  const to = Math.min(total, from + Math.ceil(scroller.clientHeight / HIGH) + 30);
  let drawn = "";
  for (let position = from; position < to; position++) drawn += drawRow(position);
  rows.innerHTML = drawn;
  scroller.setAttribute("aria-rowcount", total);
  scroller.setAttribute("aria-activedescendant", "row" + now.chosen);
}

function drawAllRows() {
  const total = count(), middle = positionOf(now.chosen);
  const from = Math.max(0, Math.min(middle - 20, total - PRINTED)), to = Math.min(total, from + PRINTED);
  let drawn = "";
  for (let position = from; position < to; position++) drawn += drawRow(position);
  byId("rows").innerHTML = drawn;
  if (to - from < total) tellLeft(`${to - from} of ${total} rows are printed, from row ${from + 1} on.`);
}

// The details stand beside the rows if there is room, else below them.
function measure() {
  const place = 70, newest = 70, syncs = Math.max(48, file.lanes.length * LANE + 8), count = nodes.length;
  const rest = place + newest + syncs, window = now.printing ? 1036 : document.documentElement.clientWidth - 2;
  const beside = !now.printing && window - rest - 236 - count * 96 >= DETAILS;
  const full = beside ? window - DETAILS - 2 : window, least = now.printing ? 44 : 70;
  const call = Math.max(236, Math.min(330, full - rest - count * 96));
  const column = Math.max(least, Math.min(180, Math.floor((full - rest - call) / count)));
  document.body.classList.toggle("beside", beside);
  wide = { place, call, column, nodes: column * count, newest, syncs };
  const set = (name, value) => document.documentElement.style.setProperty("--" + name, value + "px");
  for (const name of Object.keys(wide)) set(name, wide[name]);
  set("before", place + call);
  set("wide", place + call + wide.nodes + newest + syncs);
  set("high", HIGH);
  const all = rest + call + column * count;
  document.documentElement.style.setProperty("--zoom", now.printing && all > window ? window / all : 1);
}
