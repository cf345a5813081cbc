"use strict";
// Two pages side by side. Each tells which row was chosen, and is told which one to choose.

const data = JSON.parse(document.getElementById("data").textContent);
const byId = (id) => document.getElementById(id);
const escapeText = (text) => text.replace(/[&<>"]/g, (sign) => "&#" + sign.charCodeAt(0) + ";");
const frames = [byId("left"), byId("right")];

function tell(frame, choice) {
  frame.contentWindow.postMessage(choice, "*");
}

function drawDifferences() {
  byId("differences").innerHTML = data.differences.map(([file, row, words]) => "<li>" + (row < 0 ? escapeText(words)
    : `<button type="button" data-file="${escapeText(file)}" data-row="${row}">${escapeText(words)}</button>`) +
    "</li>").join("");
}

function listen() {
  byId("differences").addEventListener("click", (event) => {
    const { file, row } = event.target.dataset;
    if (row) frames.forEach((frame) => tell(frame, { file, row: Number(row) }));
  });
  window.addEventListener("message", (event) => {
    const from = frames.findIndex((frame) => frame.contentWindow === event.source);
    if (from >= 0 && byId("together").checked) tell(frames[1 - from], event.data);
  });
}

function start() {
  byId("leftname").textContent = data.names[0];
  byId("rightname").textContent = data.names[1];
  drawDifferences();
  listen();
  frames.forEach((frame, at) => { frame.srcdoc = data.pages[at]; });
  document.documentElement.dataset.ready = data.differences.length;
}

start();
