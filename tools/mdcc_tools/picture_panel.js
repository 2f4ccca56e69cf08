// ---- what is said of what is chosen

const link = (kind, i, words) => `<a href="#" data-${kind}="${i}">${escape(words)}</a>`;
const linkMessage = i => link("m", i, `${i + 1} ${K[M[i].kind].name}`);
const linkRow = i => link("e", i, `${E[i].label} at ${E[i].at}`);
const linkTx = t => `<span class="${T[t].outcome}">${link("t", t, T[t].name)} ${T[t].outcome}</span>`;

function aboutMessage(i) {
  const m = M[i], sent = E[m.sent];
  const lines = [`<b>${escape(isLogs ? "joined" : `message ${i + 1}, ${K[m.kind].name}`)}</b>, centre ${m.from} \u2192 ${m.to}`];
  if (isLogs) return lines.concat([linkTx(m.of[0])]);
  lines.push(`<i>${escape(K[m.kind].about)}</i>`);
  if (m.text) lines.push(escape(m.text));
  if (m.of && m.of.length) lines.push("of " + m.of.slice(0, 8).map(linkTx).join(", "));
  const cause = sent.message ? linkMessage(sent.message - 1) : `<code>${escape(D.schedule[sent.line - 1])}</code>`;
  lines.push(`sent in row ${sent.row + 1}, caused by ${cause}`);
  m.came.forEach((e, k) => {
    const fact = E[e].fact ? `: fact <code>${escape(E[e].fact)}</code>` : ", no fact";
    lines.push(`${k ? "came again" : "came"} in row ${E[e].row + 1}${fact}` + (E[e].note ? `; ${escape(E[e].note)}` : ""));
    if (E[e].count) lines.push("then sent: " + sentBy(e).slice(0, 20).map(linkMessage).join(", "));
  });
  const waits = isDown(m.to, ROWS - 1) ? `waits: centre ${m.to} is down` : "not delivered in this schedule: it waits, or is lost";
  if (!m.came.length) lines.push(`<b>${waits}</b>`);
  return lines;
}

function aboutEvent(i) {
  const e = E[i], lines = [`<b>row ${e.row + 1}</b>` + (e.at ? `, centre ${e.at}` : "")];
  if (e.line) lines.push(`line ${e.line}: <code>${escape(D.schedule[e.line - 1])}</code>`);
  if (e.message) lines.push("delivers " + linkMessage(e.message - 1));
  if (e.fact) lines.push(`fact: <code>${escape(e.fact)}</code>`);
  if (e.note) lines.push(escape(e.note));
  if (e.chosen) lines.push("now chosen: " + e.chosen.map(c => linkTx(c[0])).join(", "));
  if (e.count) lines.push("sends " + sentBy(i).slice(0, 30).map(linkMessage).join(", "));
  if (e.of && e.of.length) lines.push("of " + e.of.slice(0, 8).map(linkTx).join(", "));
  return lines;
}

function aboutTx(t) {
  const lines = [`<b>transaction ${T[t].name}</b> <span class="${T[t].outcome}">${T[t].outcome}</span>`, escape(T[t].about)];
  const own = E.map((e, i) => i).filter(i => (E[i].of || []).includes(t));
  const begun = own.find(i => E[i].type === "begin"), chosen = E.findIndex(e => (e.chosen || []).some(c => c[0] === t));
  if (begun !== undefined) lines.push("begun: " + linkRow(begun));
  if (chosen >= 0) lines.push(`chosen in row ${E[chosen].row + 1}: ${linkRow(chosen)}`);
  const heard = own.filter(i => (E[i].fact || "").startsWith(`heard ${T[t].name} `));
  if (heard.length) lines.push("heard at " + heard.map(i => link("e", i, `${E[i].at} (row ${E[i].row + 1})`)).join(", "));
  if (!isLogs) lines.push(`${M.filter(m => (m.of || []).includes(t)).length} messages`);
  return lines;
}

function about() {
  const c = state.chosen;
  const say = { message: aboutMessage, event: aboutEvent, tx: aboutTx };
  const lines = c ? say[c.kind](c.i) : ["nothing; click a message, a mark, a row or a transaction"];
  element("about").innerHTML = lines.map(line => `<p>${line}</p>`).join("");
}

function choose(chosen, isShown) {
  state.chosen = chosen;
  follow();
  about();
  if (chosen && isShown) show(rowOf(chosen));
  redraw();
}

function rowOf(chosen) {
  const e = chosen.kind === "message" ? E[M[chosen.i].sent] : chosen.kind === "event" ? E[chosen.i] : E.find(e => (e.of || []).includes(chosen.i));
  return e ? e.row : 0;
}

function show(row) {
  const at = y(row);
  if (at < view.scrollTop + 40 || at > view.scrollTop + view.clientHeight - 60) view.scrollTop = at - view.clientHeight / 2;
}

// ---- steps

function step(to) {
  state.cursor = Math.max(0, Math.min(ROWS - 1, to));
  show(state.cursor);
  const i = eventsAt[state.cursor][0];
  if (state.cursor < ROWS - 1 && !isLogs) choose({ kind: "event", i }, false);
  redraw();
}

function play() {
  if (state.timer) {
    clearInterval(state.timer);
    state.timer = null;
    return;
  }
  if (state.cursor >= ROWS - 1) state.cursor = -1;
  state.timer = setInterval(() => state.cursor >= ROWS - 1 ? play() : step(state.cursor + 1), 500);
}

function resize(height) {
  const middle = (view.scrollTop + view.clientHeight / 2) / state.height;
  state.height = Math.max(3, Math.min(48, height));
  element("height").value = state.height;
  draw();
  view.scrollTop = middle * state.height - view.clientHeight / 2;
  redraw();
}

function toCause() {
  const c = state.chosen;
  if (!c || c.kind === "tx") return;
  const cause = E[c.kind === "message" ? M[c.i].sent : c.i].message;
  if (cause) choose({ kind: "message", i: cause - 1 }, true);
}

const KEYS = {
  ArrowRight: () => step(state.cursor + 1), ArrowLeft: () => step(state.cursor - 1), Home: () => step(0), End: () => step(ROWS - 1), " ": play,
  Escape: () => choose(null), c: toCause, "+": () => resize(state.height + 3), "-": () => resize(state.height - 3),
};

// ---- the whole picture as one SVG

const SHORT = { crash: "a crash or a stop", deliver: "no new fact" };

function legendSvg(top) {
  const used = K.map((kind, k) => k).filter(k => M.some(m => m.kind === k)), marks = marksUsed();
  const wide = Math.max(150, (width() - 20) / 6), per = Math.floor((width() - 20) / wide);
  const ways = used.map(k => [K[k].name, a => `<path d="M${a} 0h24" stroke="${K[k].colour}" stroke-width="2" ` +
    `${K[k].dash ? `stroke-dasharray="${K[k].dash}"` : ""} marker-end="url(#head${k})"/>`]);
  const waits = a => `<path d="M${a} 0h20" stroke="#444" stroke-dasharray="2 3" marker-end="url(#open)"/>`;
  if (M.some(m => !m.came.length)) ways.push(["waits or is lost", waits]);
  const first = Math.ceil(ways.length / per) * per;
  const placed = marks.map((mark, n) => [first + n, SHORT[mark] || MARKS[mark][0], a => MARKS[mark][1](a + 12, 0)]);
  const all = ways.map((way, n) => [n, ...way]).concat(placed);
  const svg = all.map(([n, words, draw]) => `<g transform="translate(${(12 + (n % per) * wide).toFixed(1)} ${top + 18 * Math.floor(n / per)})">` +
    draw(0) + text(31, 3.5, words, "#222", 10.5) + "</g>").join("");
  return { svg, high: 18 * Math.ceil((first + marks.length) / per) + 8 };
}

const marksUsed = () => Object.keys(MARKS).filter(mark => E.some(e => markOf(e) === mark));

// without what a page alone needs: what is clicked, and the halo of each word
const plain = svg => svg.replace(/<g data-[em]="\d+"( opacity="[\d.]+")? style="cursor:pointer">/g, "<g$1>")
  .replace(/<path [^>]*stroke-opacity="0"[^>]*\/>|<rect [^>]*fill-opacity="0"\/>/g, "")
  .replace(/ stroke="#fff" stroke-width="3" paint-order="stroke"/g, ' class="t"');

function wholeSvg() {
  const r1 = Math.min(ROWS - 1, 1500), body = rowsSvg(0, r1).svg, bottom = y(r1 + 0.5) + 8, legend = legendSvg(bottom + 46);
  const wide = width(), high = bottom + 46 + legend.high;
  return `<svg xmlns="http://www.w3.org/2000/svg" width="${wide}" height="${high}" viewBox="0 0 ${wide} ${high}" ${FONT}>` +
    `<style>.t{stroke:#fff;stroke-width:3px;paint-order:stroke}</style><rect width="100%" height="100%" fill="#fff"/>${defs()}` +
    plain(`<g>${headSvg()}</g><g transform="translate(0 26)">${body}</g>${legend.svg}`) + "</svg>";
}

function save() {
  const away = document.createElement("a");
  away.href = URL.createObjectURL(new Blob([wholeSvg()], { type: "image/svg+xml" }));
  away.download = "picture.svg";
  away.click();
  setTimeout(() => URL.revokeObjectURL(away.href), 1000);
}

// ---- the panel and what comes from the reader

function kindRow(kind, k) {
  const count = M.filter(m => m.kind === k).length, dash = kind.dash ? `stroke-dasharray="${kind.dash}"` : "";
  const line = `<path d="M2 5h30" stroke="${kind.colour}" stroke-width="2.5" ${dash}/>`;
  const head = isLogs ? "" : `<path d="M30 1l8 4l-8 4z" fill="${kind.colour}"/>`;
  return count ? `<div class="row" data-k="${k}" title="${escape(kind.about)}"><svg width="40" height="10">${line}${head}</svg>` +
    `${escape(kind.name)} <span class="open">${count}</span></div>` : "";
}

const txRow = (tx, t) => `<div class="row" data-t="${t}">${tx.name} <span class="${tx.outcome}">${tx.outcome}</span> ` +
  `<span class="open">${escape(tx.about.slice(0, 60))}</span></div>`;

function fillPanel() {
  element("title").textContent = D.title;
  element("note").textContent = `${D.header}. ${D.note}`;
  if (D.note.includes("DIFFERS")) element("note").classList.add("bad");
  element("kinds").innerHTML = K.map(kindRow).join("") +
    (isLogs ? "" : `<p class="open">dotted with a ring: on its way, waiting or lost; click a kind to hide it</p>`);
  element("marks").innerHTML = marksUsed().map(mark =>
    `<div class="row"><svg width="20" height="16">${MARKS[mark][1](10, 8)}</svg>${MARKS[mark][0]}</div>`).join("");
  element("list").innerHTML = T.slice(0, 500).map(txRow).join("") +
    (T.length > 500 ? `<p class="open">and ${T.length - 500} more: use the field above</p>` : "");
  element("names").innerHTML = T.slice(0, 2000).map(tx => `<option value="${tx.name}">`).join("");
  element("height").value = state.height;
}

function chosenBy(target) {
  const found = target.closest("[data-m], [data-e], [data-t]");
  if (!found) return null;
  const d = found.dataset;
  return d.m !== undefined ? { kind: "message", i: +d.m } : d.e !== undefined ? { kind: "event", i: +d.e } : { kind: "tx", i: +d.t };
}

// what is pointed at is shown with its causes, without a click
function point(event) {
  document.querySelectorAll("#tall g.near").forEach(g => g.classList.remove("near"));
  const found = event.target.closest("[data-m]");
  if (!found) return;
  const i = +found.dataset.m;
  for (const cause of causesOf(i).concat(i)) document.querySelectorAll(`#tall g[data-m="${cause}"]`).forEach(g => g.classList.add("near"));
}

function listen() {
  view.addEventListener("scroll", redraw);
  view.addEventListener("mouseover", point);
  window.addEventListener("resize", redraw);
  view.addEventListener("click", event => choose(chosenBy(event.target), false));
  document.querySelector("aside").addEventListener("click", event => {
    const row = event.target.closest("[data-k]");
    if (row) {
      const k = +row.dataset.k;
      state.hidden.delete(k) || state.hidden.add(k);
      row.classList.toggle("off", state.hidden.has(k));
      return redraw();
    }
    const chosen = chosenBy(event.target);
    if (chosen) { event.preventDefault(); choose(chosen, true); }
  });
  const press = { first: KEYS.Home, back: KEYS.ArrowLeft, play, next: KEYS.ArrowRight, last: KEYS.End, save };
  for (const id in press) element(id).addEventListener("click", press[id]);
  element("height").addEventListener("input", event => resize(+event.target.value));
  element("search").addEventListener("change", event => {
    const t = T.findIndex(tx => tx.name === event.target.value.trim());
    choose(t < 0 ? null : { kind: "tx", i: t }, true);
  });
  document.addEventListener("keydown", event => {
    if (event.target.tagName === "INPUT" || event.ctrlKey || event.altKey || event.metaKey || !KEYS[event.key]) return;
    event.preventDefault();
    KEYS[event.key]();
  });
}

// `#step=9&message=12&transaction=1.1.1&height=30&svg` opens the page so; with `svg` the picture alone is shown
function openAs(words) {
  const asked = new URLSearchParams(words);
  if (asked.has("height")) element("height").value = state.height = +asked.get("height");
  if (asked.has("step")) state.cursor = Math.max(0, Math.min(ROWS, +asked.get("step")) - 1);
  draw();
  if (asked.has("message")) choose({ kind: "message", i: +asked.get("message") - 1 }, true);
  const t = T.findIndex(tx => tx.name === asked.get("transaction"));
  if (t >= 0) choose({ kind: "tx", i: t }, true);
  if (!asked.has("svg")) return;
  if (asked.has("lane")) lane = +asked.get("lane");
  document.body.style.display = "block";
  document.body.innerHTML = wholeSvg();
}

fillPanel();
listen();
about();
openAs(location.hash.slice(1));
