"use strict";
// The page of a picture: rows of events from top to bottom, a column for each centre, arrows for messages. Only the rows in sight are drawn.
const D = JSON.parse(document.getElementById("data").textContent);
const E = D.events, M = D.messages, T = D.transactions, K = D.kinds, N = D.centres;
const isLogs = D.mode === "logs";
const ROWS = E.reduce((most, e) => Math.max(most, e.row + 1), 1);
const TOP = 10, RIGHT = 170, BLOCK = 64, MANY = 1500, MOST = 6000;
const LEFT = isLogs ? 60 : 200;
const state = { height: ROWS > 400 ? 18 : isLogs ? 25 : 26, cursor: ROWS - 1, chosen: null, hidden: new Set(), timer: null };
const element = id => document.getElementById(id);
const view = element("view"), tall = element("tall");
const escape = text => String(text).replace(/[&<>"]/g, c => ({ "&": "&amp;", "<": "&lt;", ">": "&gt;", '"': "&quot;" }[c]));

// ---- what is where

let lane = 120;
const width = () => LEFT + RIGHT + lane * N;
const x = centre => LEFT + lane * (centre - 0.5);
const y = row => TOP + state.height * (row + 0.5);
const eventsAt = Array.from({ length: ROWS }, () => []);
E.forEach((e, i) => eventsAt[e.row].push(i));

// the ways of messages by blocks of rows: each delivery is one, and a message that is not delivered one of a row
const blocks = Array.from({ length: Math.ceil((ROWS + 2) / BLOCK) + 1 }, () => []);
M.forEach((m, i) => (m.came.length ? m.came : [null]).forEach((came, again) => {
  const from = E[m.sent].row, way = { i, from, to: came === null ? from + 1 : E[came].row, came, again };
  const low = Math.min(way.from, way.to), high = Math.max(way.from, way.to);
  for (let b = Math.floor(low / BLOCK); b <= Math.floor(high / BLOCK); b++) blocks[b].push(way);
}));

// from which rows to which each centre is down
const downs = Array.from({ length: N + 1 }, () => []);
const isEnd = e => e.type === "crash" || (e.note || "").startsWith("stopped");
E.forEach(e => {
  if (isEnd(e)) downs[e.at].push([e.row, ROWS]);
  else if (e.type === "restart" && downs[e.at].length) downs[e.at][downs[e.at].length - 1][1] = e.row;
});
const isDown = (centre, row) => downs[centre].some(d => d[0] <= row && row < d[1]);

// ---- what is followed

// how near each message is to the one that is followed: 3 itself, 2 its causes and what it caused, 1 its transactions, 0 others
let near = null, nearOf = new Set();
function follow() {
  const c = state.chosen;
  near = null;
  nearOf = new Set();
  if (!c) return;
  near = new Map();
  if (c.kind === "tx") nearOf.add(c.i);
  if (c.kind === "event") followEvent(c.i);
  if (c.kind === "message") {
    M[c.i].of.forEach(t => nearOf.add(t));
    causesOf(c.i).forEach(i => near.set(i, 2));
    M[c.i].came.forEach(e => sentBy(e).forEach(i => near.set(i, 2)));
    near.set(c.i, 3);
  }
}

function followEvent(i) {
  (E[i].of || []).forEach(t => nearOf.add(t));
  sentBy(i).forEach(m => near.set(m, 2));
  if (E[i].message) {
    causesOf(E[i].message - 1).forEach(m => near.set(m, 2));
    near.set(E[i].message - 1, 3);
  }
}

function causesOf(i) {
  const found = [];
  for (let cause = E[M[i].sent].message; cause; cause = E[M[cause - 1].sent].message) found.push(cause - 1);
  return found;
}

function sentBy(e) {
  return Array.from({ length: E[e].count || 0 }, (_, k) => E[e].first - 1 + k);
}

function nearness(i) {
  if (!near) return 1.5;
  if (near.has(i)) return near.get(i);
  return M[i].of.some(t => nearOf.has(t)) ? 1 : 0;
}

// whether an event has nothing to do with what is followed
const isFar = e => near !== null && !(e.of || []).some(t => nearOf.has(t)) && !(e.message && near.has(e.message - 1));

// ---- marks

const GREEN = "#1b8a4b", RED = "#c8501e", DARK = "#a01515";
const square = (a, b, rest) => `<rect x="${a - 5}" y="${b - 5}" width="10" height="10" ${rest}/>`;
const disc = (a, b, r, rest) => `<circle cx="${a}" cy="${b}" r="${r}" ${rest}/>`;
const shape = (a, b, way, rest) => `<path d="M${a} ${b}${way}" ${rest}/>`;
const cross = (a, b, r, rest) => shape(a - r, b - r, `l${2 * r} ${2 * r}m0-${2 * r}l-${2 * r} ${2 * r}`, rest);
const MARKS = {
  accept: ["a vote that accepts", (a, b) => square(a, b, `fill="${GREEN}" stroke="#fff"`)],
  reject: ["a vote that rejects", (a, b) => square(a, b, `fill="#fff" stroke="${RED}" stroke-width="1.6"`) +
    cross(a, b, 5, `stroke="${RED}" stroke-width="1.6"`)],
  both: ["accepts and rejects", (a, b) => square(a, b, `fill="${GREEN}" stroke="${RED}" stroke-width="2"`)],
  promised: ["a promise", (a, b) => shape(a, b - 6, "l6 6l-6 6l-6-6z", `fill="#b5479c" stroke="#fff"`)],
  commit: ["heard: commit", (a, b) => disc(a, b, 6, `fill="${GREEN}" stroke="#fff"`) +
    shape(a - 3, b, "l2 2.5l4-5", `fill="none" stroke="#fff" stroke-width="1.7"`)],
  abort: ["heard: abort", (a, b) => disc(a, b, 6, `fill="${DARK}" stroke="#fff"`) + cross(a, b, 2.5, `stroke="#fff" stroke-width="1.7"`)],
  adopted: ["data taken over", (a, b) => shape(a - 6, b - 5, "h12l-6 10z", `fill="#0b8a8f" stroke="#fff"`)],
  booted: ["a start", (a, b) => shape(a - 6, b + 5, "h12l-6-10z", `fill="#37507a" stroke="#fff"`)],
  begin: ["a client begins", (a, b) => disc(a, b, 5.5, `fill="#0072b2" stroke="#fff"`)],
  read: ["a read", (a, b) => disc(a, b, 4.5, `fill="#fff" stroke="#444" stroke-width="1.5"`)],
  tick: ["a tick", (a, b) => shape(a - 6, b, "h12", `stroke="#444" stroke-width="3"`)],
  stop: ["a stop is armed", (a, b) => shape(a - 6, b + 5, "h12l-6-11z", `fill="#fff" stroke="#c77800" stroke-width="1.8"`)],
  crash: ["a crash, or an append that stops", (a, b) => cross(a, b, 6, `stroke="#d00000" stroke-width="3"`)],
  dropped: ["a step without room", (a, b) => cross(a, b, 5, `stroke="#777" stroke-width="2.5"`)],
  deliver: ["a delivery that adds no fact", (a, b) => disc(a, b, 2.6, `fill="#555"`)],
};

function markOf(e) {
  if (isEnd(e)) return "crash";
  if ((e.note || "").startsWith("dropped")) return "dropped";
  return e.mark || (e.type === "settled" ? "deliver" : e.type === "settle" ? "" : e.type);
}

function eventSvg(i, isPlain) {
  const e = E[i], mark = markOf(e);
  if (!mark || !e.at) return "";
  const faint = e.row > state.cursor || isFar(e);
  const shown = state.height < 8 && mark === "deliver" ? "" : MARKS[mark][1](x(e.at), y(e.row));
  let label = "";
  if (!isPlain && (mark === "commit" || mark === "abort") && !isLogs)
    label = heardSvg(e, mark === "commit" ? GREEN : DARK);
  if (!isPlain && isLogs) label = text(x(e.at) + 8, y(e.row) - 3, e.label.slice(0, Math.floor((lane - 14) / 5.6)), "#333", 9.5);
  const title = `<title>${escape(e.fact || e.note || e.label)}</title>`;
  return `<g data-e="${i}" opacity="${faint ? 0.15 : 1}" style="cursor:pointer">${title}${shown}${label}</g>`;
}

// the transaction of an outcome that is heard, on the side from which no arrow comes
function heardSvg(e, colour) {
  const isLeft = e.message && M[e.message - 1].from >= e.at;
  return text(x(e.at) + (isLeft ? -9 : 9), y(e.row) + (isLeft ? 3.5 : -1.5), T[e.of[0]].name, colour, 10, isLeft ? "end" : "start");
}

function text(a, b, words, colour, size, anchor) {
  return `<text x="${a}" y="${b}" font-size="${size}" fill="${colour}" text-anchor="${anchor || "start"}" stroke="#fff" stroke-width="3" ` +
    `paint-order="stroke">${escape(words)}</text>`;
}

// ---- arrows

// where the short way of a message ends that is not delivered
const stub = (m, way) => [x(m.from) + (x(m.to) - x(m.from)) * 0.3 + (m.from === m.to ? 22 : 0), y(way.from) + state.height * 0.7];

function pathOf(m, way, share) {
  const a = x(m.from), b = y(way.from), c = x(m.to), d = y(way.to);
  if (way.came === null) return `M${a} ${b}L${stub(m, way).map(n => n.toFixed(1)).join(" ")}`;
  if (m.from === m.to) {
    const bow = Math.min(40, 14 + (d - b) * 0.25), end = b + (d - b) * share;
    return `M${a} ${b}C${a + bow} ${b},${a + bow} ${end},${a + (share < 1 ? bow * 0.6 : 5)} ${end.toFixed(1)}`;
  }
  const long = Math.hypot(c - a, d - b) || 1, cut = share < 1 ? share : 1 - 6 / long;
  return `M${a} ${b}L${(a + (c - a) * cut).toFixed(1)} ${(b + (d - b) * cut).toFixed(1)}`;
}

// how much of its way a message has come at the step that is shown
const shareOf = way => way.came === null || way.to <= state.cursor ? 1 : Math.max(0.05, (state.cursor + 0.5 - way.from) / (way.to - way.from));

function waySvg(way, isPlain) {
  const m = M[way.i], kind = K[m.kind], close = nearness(way.i), share = shareOf(way);
  const opacity = [0.08, isLogs && close === 1 ? 1 : 0.45, 1, 1][Math.floor(close)] * (close === 1.5 ? 1.7 : 1);
  const thick = [0.8, 1.2, 2.2, 3.6][Math.floor(close)] * (state.height < 8 ? 0.6 : 1);
  const dash = way.came === null ? "2 3" : way.again ? "1 3" : kind.dash;
  const head = isLogs ? "" : `marker-end="url(#${way.came === null || share < 1 ? "open" : "head" + m.kind})"`;
  const path = pathOf(m, way, share);
  let svg = `<path d="${path}" fill="none" stroke="${kind.colour}" stroke-width="${thick}" opacity="${opacity.toFixed(2)}"` +
    (dash ? ` stroke-dasharray="${dash}"` : "") + ` ${head}/>`;
  const isNumbered = !isPlain && !isLogs && state.height >= 15 && opacity >= 0.3;
  if (!isPlain) svg = `<path d="${path}" fill="none" stroke="#000" stroke-opacity="0" stroke-width="9"/>` + svg;
  return `<g data-m="${way.i}" style="cursor:pointer"><title>${escape(nameOf(way.i))}</title>${svg}` +
    (isNumbered ? numberSvg(way, m, kind.colour) : "") + "</g>";
}

function numberSvg(way, m, colour) {
  const number = way.i + 1, a = x(m.to), b = y(way.to);
  if (way.came === null) {
    const [c, d] = stub(m, way);
    return text(c + (m.to >= m.from ? 7 : -7), d + 3, number, colour, 9, m.to >= m.from ? "start" : "end");
  }
  if (way.to > state.cursor) return "";
  if (m.from === m.to) return text(a + 12, b + 3, number, colour, 9);
  const side = m.from < m.to ? -1 : 1, slope = (b - y(way.from)) / Math.abs(a - x(m.from));
  return text(a + side * 17, b - 17 * slope + 3, number, colour, 9, "middle");
}

const nameOf = i => `${i + 1} ${K[M[i].kind].name} ${M[i].from} \u2192 ${M[i].to}: ${M[i].of.map(t => T[t].name).join(" ")} ${M[i].text}`;

// ---- a picture of some rows

const marker = (id, at, rest) => `<marker id="${id}" viewBox="0 0 8 8" refX="${at}" refY="4" markerWidth="8" markerHeight="8" ` +
  `markerUnits="userSpaceOnUse" orient="auto">${rest}</marker>`;

function defs() {
  const heads = K.map((kind, k) => marker(`head${k}`, 6, `<path d="M0 0.5L8 4L0 7.5z" fill="${kind.colour}"/>`));
  return `<defs>${heads.join("")}${marker("open", 4, `<circle cx="4" cy="4" r="2.7" fill="#fff" stroke="#444"/>`)}</defs>`;
}

function lanesSvg(r0, r1) {
  let svg = "";
  for (let c = 1; c <= N; c++) {
    svg += `<path d="M${x(c)} ${y(r0 - 0.5)}V${y(r1 + 0.5)}" stroke="#9a9a9a" stroke-width="1.6"/>`;
    for (const [from, to] of downs[c]) {
      if (to < r0 || from > r1) continue;
      const path = `M${x(c)} ${y(Math.max(from, r0 - 1))}V${y(Math.min(to, r1 + 1) - (to >= ROWS ? 0.5 : 0))}`;
      svg += `<path d="${path}" stroke="#fff" stroke-width="3"/><path d="${path}" stroke="#d00000" stroke-width="1.4" stroke-dasharray="2 5"/>`;
    }
  }
  return svg;
}

// what stands beside a row: the line of the schedule and the event, and what is now chosen
function rowSvg(row, isPlain) {
  if (isLogs) return "";
  const i = eventsAt[row][0], e = E[i], faint = row > state.cursor || isFar(e) ? 0.3 : 1;
  const chosen = chosenSvg(e, isPlain);
  if (isPlain) return `<g opacity="${faint}">${chosen}</g>`;
  const isHeavy = e.type !== "deliver" && e.type !== "settled", b = y(row) + 3.5;
  const isHere = state.chosen && state.chosen.kind === "event" && state.chosen.i === i;
  const title = escape((D.schedule[e.line - 1] || "") + (e.note ? " \u2014 " + e.note : ""));
  return `<g data-e="${i}" opacity="${faint}" style="cursor:pointer"><title>${title}</title>` +
    `<rect x="0" y="${y(row - 0.5)}" width="${LEFT - 10}" height="${state.height}" fill="#dcecff" fill-opacity="${isHere ? 1 : 0}"/>${chosen}` +
    `<text x="30" y="${b}" font-size="10" fill="#999" text-anchor="end">${e.line}</text>` +
    `<text x="38" y="${b}" font-size="11" fill="${isHeavy ? "#111" : "#666"}" font-weight="${isHeavy ? 600 : 400}">` +
    `${escape(e.label.slice(0, 30))}</text></g>`;
}

function chosenSvg(e, isPlain) {
  if (!e.chosen) return "";
  const words = e.chosen.map(([t, outcome]) => `<tspan fill="${outcome === "abort" ? DARK : GREEN}"> ${T[t].name} ${outcome}</tspan>`);
  return `<path d="M${x(1) - 14} ${y(e.row)}H${x(N) + 42}" stroke="#444" stroke-width="1" stroke-dasharray="1 3"/>` +
    (isPlain ? "" : `<text x="${x(N) + 46}" y="${y(e.row) + 3.5}" font-size="10.5">chosen${words.join(",")}</text>`);
}

function waysIn(r0, r1) {
  const found = new Set();
  for (let b = Math.floor(Math.max(0, r0) / BLOCK); b <= Math.floor(r1 / BLOCK) && b < blocks.length; b++)
    for (const way of blocks[b])
      if (way.from <= Math.min(r1, state.cursor) && way.to >= r0 && !state.hidden.has(M[way.i].kind)) found.add(way);
  return [...found];
}

// the rows from one to another, and how many ways of how many are drawn
function rowsSvg(r0, r1) {
  let ways = waysIn(r0, r1);
  const all = ways.length, isPlain = state.height < 13 || all > MOST;
  const isHere = way => way.from >= r0 || way.to <= r1 || (near && nearness(way.i) >= 1);
  if (all > MANY) ways = ways.filter(isHere).slice(0, MOST);
  ways.sort((a, b) => nearness(a.i) - nearness(b.i));
  let svg = lanesSvg(r0, r1);
  for (let r = r0; r <= r1; r++) svg += rowSvg(r, isPlain);
  svg += ways.map(w => waySvg(w, isPlain)).join("");
  for (let r = r0; r <= r1; r++) svg += eventsAt[r].map(i => eventSvg(i, isPlain)).join("");
  if (state.cursor < ROWS - 1 && state.cursor >= r0 - 1 && state.cursor <= r1)
    svg += `<path d="M${LEFT - 8} ${y(state.cursor + 0.5)}H${width() - RIGHT + 8}" stroke="#0072b2" stroke-width="1.5" opacity="0.6"/>`;
  return { svg, drawn: ways.length, all };
}

const FONT = `font-family="'DejaVu Sans', 'Helvetica', sans-serif"`;

function headSvg() {
  let svg = "";
  for (let c = 1; c <= N; c++) svg += text(x(c), 19, `centre ${c}`, isDown(c, state.cursor) ? "#d00000" : "#111", 12, "middle");
  if (!isLogs) svg += text(38, 19, "line, event", "#777", 11);
  return svg;
}

function draw() {
  lane = Math.max(isLogs ? 150 : 70, Math.min(230, (view.clientWidth - LEFT - RIGHT) / N));
  tall.style.height = `${TOP * 2 + ROWS * state.height}px`;
  tall.style.width = `${width()}px`;
  const r0 = Math.min(ROWS - 1, Math.max(0, Math.floor((view.scrollTop - TOP) / state.height) - 3));
  const r1 = Math.min(ROWS - 1, Math.ceil((view.scrollTop + view.clientHeight) / state.height) + 3);
  const top = Math.max(0, y(r0 - 0.5) - TOP), high = y(r1 + 0.5) - top + 2 * TOP;
  const { svg, drawn, all } = rowsSvg(r0, r1);
  tall.innerHTML = `<svg style="top:${top}px" width="${width()}" height="${high}" viewBox="0 ${top} ${width()} ${high}" ${FONT}>` +
    `${defs()}${svg}</svg>`;
  element("head").innerHTML = `<svg width="${width()}" height="30" ${FONT} style="margin-left:${-view.scrollLeft}px">${headSvg()}</svg>`;
  element("step").textContent = `${isLogs ? "row " : ""}${state.cursor + 1} of ${ROWS}`;
  element("drawn").textContent = drawn < all ? `${drawn} of ${all} messages in sight drawn` : "";
}

let isAsked = false;
function redraw() {
  if (isAsked) return;
  isAsked = true;
  requestAnimationFrame(() => { isAsked = false; draw(); });
}
