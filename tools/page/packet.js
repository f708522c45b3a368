// The packet that is chosen: its tree and its bytes.

const WORDS = /^(.+?) ?\(((?:0x[0-9a-f]+|\d+) [^(),]+(?:, ?(?:0x[0-9a-f]+|\d+) [^(),]+)*)\)$/;

// its long name, and what that says of a number: `Operation (1 request, 2 reply)`, `Lifetime in seconds`
function called(node) {
  const long = node.long || node.name, words = WORDS.exec(long);
  const number = node.kind === FIELD && node.size > 0 && node.size <= 4 ? parseInt(node.value, 16) : NaN;
  if (words) {
    const said = words[2].split(",").map((it) => /^ ?(\w+) (.*)$/.exec(it)).find((it) => Number(it[1]) === number);
    return [words[1], said ? said[2] : ""];
  }
  return [long, / in seconds$/.test(long) && number >= 60 ? duration(number) : ""];
}

function line(node) {
  const [title, word] = called(node);
  if (node.kind === NOTE) return make("div", `\u26a0 decoding ended at byte ${node.place}: ${node.name}`, "note");
  const box = node.kind === FIELD ? make("div", undefined, "field") : make("details"), head = node.kind === FIELD ? box : make("summary");
  head.append(make("span", title));
  head.firstChild.title = node.name;
  if (node.kind === FIELD) {
    head.append(": ", make("span", node.show, "shown"));
    if (word) head.append(make("span", ` (${word})`, "word"));
  } else {
    head.append(make("span", `  ${node.size} byte${node.size === 1 ? "" : "s"} at ${node.place}`, "place"));
    box.open = true;
    box.append(head);
  }
  head.dataset.place = node.place;
  head.dataset.size = node.size;
  return box;
}

function tree(all) {
  const open = [$("tree")];
  $("tree").replaceChildren();
  for (const node of all) {
    const made = line(node);
    open[node.depth].append(made);
    open[node.depth + 1] = made;
  }
}

// the bytes as the fields tell them: those that several fields share, as bit fields do, stay open
function told(all, length) {
  const found = new Array(length).fill(null);
  for (const node of all) {
    for (let at = 0; node.kind === FIELD && at < node.size && node.place + at < length; at += 1) {
      const byte = node.value.slice(2 * at, 2 * at + 2), place = node.place + at;
      found[place] = found[place] === null ? byte : "\u00b7\u00b7";
    }
  }
  return found.map((it) => it || "\u00b7\u00b7");
}

function dump(bytes, most) {
  const box = make("pre"), shown = Math.min(bytes.length, most);
  box.id = "dump";
  for (let at = 0; at < shown; at += 16) {
    const line = bytes.slice(at, Math.min(at + 16, shown)), hex = [], text = [];
    line.forEach((it, place) => {
      const code = parseInt(it, 16);
      hex.push(place === 8 ? "  " : " ", make("span", it), );
      text.push(make("span", code >= 32 && code < 127 ? String.fromCharCode(code) : "."));
      for (const each of [hex[hex.length - 1], text[text.length - 1]]) each.dataset.byte = at + place;
    });
    const filled = 3 * line.length + (line.length > 8 ? 1 : 0);
    box.append(make("i", at.toString(16).padStart(5, "0")), " ", ...hex, " ".repeat(51 - filled), ...text, "\n");
  }
  $("bytes").replaceChildren(box);
  if (shown < bytes.length) {
    const all = make("button", `Show all ${bytes.length.toLocaleString("en")} bytes`);
    all.onclick = () => dump(bytes, bytes.length);
    $("bytes").append(all);
  }
  if (!page.about.cap) $("bytes").append(make("p", "These bytes are put together from the values of the fields; those that bit fields share stay open. pdml2page --cap has all.", "hint"));
}

function mark(place, size) {
  for (const it of document.querySelectorAll("#panes .mark")) it.classList.remove("mark");
  if (place === undefined) return;
  for (const it of document.querySelectorAll("#dump [data-byte]")) {
    if (it.dataset.byte >= place && it.dataset.byte < place + size) it.classList.add("mark");
  }
}

// the line of the field that has a byte, else of the innermost node around it
function lineOf(byte) {
  let best = null;
  for (const it of document.querySelectorAll("#tree [data-place]")) {
    const place = Number(it.dataset.place), size = Number(it.dataset.size);
    if (place <= byte && byte < place + size && (!best || size <= Number(best.dataset.size))) best = it;
  }
  return best;
}

function follow(event) {
  const over = event.target.closest("[data-place], [data-byte]");
  const line = over && over.dataset.byte ? lineOf(Number(over.dataset.byte)) : over;
  if (!line) return mark();
  mark(Number(line.dataset.place), Number(line.dataset.size));
  line.classList.add("mark");
  if (over !== line) line.scrollIntoView({ block: "nearest" });
}

async function choose(index) {
  page.chosen = index;
  draw();
  const from = await part(Math.floor(index / page.about.part));
  if (page.chosen !== index) return;
  const inside = index % page.about.part, all = nodes(from, inside);
  tree(all);
  dump(page.about.cap ? from.bytes[inside].match(/../g) || [] : told(all, Number(cells(index)[2])), BYTES);
  document.body.dataset.chosen = index;
}

function step(event) {
  const far = Math.max(1, Math.floor($("list").clientHeight / HEIGHT) - 1), last = page.shown.length - 1;
  const steps = { ArrowDown: 1, ArrowUp: -1, PageDown: far, PageUp: -far, Home: -Infinity, End: Infinity };
  if (!(event.key in steps) || last < 0) return;
  event.preventDefault();
  const now = page.shown.indexOf(page.chosen), place = Math.min(last, Math.max(0, (now < 0 ? -1 : now) + steps[event.key]));
  const list = $("list"), top = place * HEIGHT;
  if (top < list.scrollTop) list.scrollTop = top;
  if (top + HEIGHT > list.scrollTop + list.clientHeight) list.scrollTop = top + HEIGHT - list.clientHeight;
  choose(page.shown[place]);
}

// ---- the start of the page

function offers() {
  const counts = new Map();
  let notes = 0;
  for (const row of page.rows) {
    const [, , , , protos, noted] = row.split("\t", 6);
    for (const it of new Set(protos.split(" "))) if (it) counts.set(it, (counts.get(it) || 0) + 1);
    if (noted) notes += 1;
  }
  const offer = (value, text) => $("proto").append(Object.assign(make("option", text), { value }));
  offer("", "All protocols");
  for (const it of [...counts.keys()].sort()) offer(it, `${it} (${counts.get(it).toLocaleString("en")})`);
  if (notes) offer("\u26a0", `with a note (${notes.toLocaleString("en")})`);
  $("fields").append(...page.about.fields.map((it) => Object.assign(make("option"), { value: it })));
}

function listen() {
  let timer = 0;
  const later = () => { clearTimeout(timer); timer = setTimeout(refresh, 150); };
  $("search").oninput = $("filter").oninput = later;
  $("proto").onchange = refresh;
  $("clock").onchange = () => { measure(); draw(); };
  $("list").onscroll = () => requestAnimationFrame(draw);
  $("list").onkeydown = step;
  $("list").onclick = (event) => {
    const row = event.target.closest(".row");
    if (row) choose(Number(row.dataset.index));
  };
  $("panes").onmouseover = follow;
  $("panes").onmouseleave = () => mark();
  window.onresize = draw;
  document.onkeydown = (event) => {
    if (event.key === "/" && !/INPUT|SELECT/.test(document.activeElement.tagName)) {
      event.preventDefault();
      $("search").focus();
    }
  };
}

async function start() {
  page.about = JSON.parse(await unpack(document.querySelector("script.about")));
  page.parts = [...document.querySelectorAll("script.part")];
  const lists = await Promise.all([...document.querySelectorAll("script.rows")].map(unpack));
  page.rows = lists.flatMap((it) => it.split("\n"));
  page.shown = page.rows.map((_, index) => index);
  offers();
  measure();
  listen();
  say();
  draw();
  $("list").focus();
  if (page.rows.length) await choose(0);
  requestAnimationFrame(() => { document.body.dataset.ready = Math.round(performance.now()); });
}

start().catch((err) => { $("count").textContent = `This browser can't show the page: ${err.message}`; });
