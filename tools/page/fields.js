// What stands in a part, and which packets have a field.

async function part(number) {
  if (!page.opened.has(number)) {
    if (page.opened.size >= 8) page.opened.delete(page.opened.keys().next().value);
    page.opened.set(number, JSON.parse(await unpack(page.parts[number])));
  }
  return page.opened.get(number);
}

// a field's value as the part keeps it: [@place ][=size or hex][|what is shown]
function field(text, at, data) {
  let place = at, rest = text, show;
  if (rest[0] === "@") {
    const end = rest.indexOf(" ");
    place = Number(rest.slice(1, end));
    rest = rest.slice(end + 1);
  }
  const bar = rest.indexOf("|");
  if (bar >= 0) [rest, show] = [rest.slice(0, bar), rest.slice(bar + 1)];
  const value = rest[0] === "=" ? data.slice(2 * place, 2 * (place + Number(rest.slice(1)))) : rest;
  return { place, size: value.length / 2, value, show: show === undefined ? value : show };
}

// the nodes of a packet, in order
function nodes(from, index) {
  const [shape, ...values] = from.packets[index], codes = from.shapes[shape], data = from.bytes[index];
  let at = 0;
  return values.map((text, place) => {
    const code = codes[3 * place], kind = code % 4;
    const node = { kind, depth: (code - kind) / 4, name: from.names[codes[3 * place + 1]], long: from.names[codes[3 * place + 2]] };
    if (kind === FIELD) {
      Object.assign(node, field(text, at, data));
      at = node.place + node.size;
    } else {
      [node.place, node.size] = text.split("+").map(Number);
    }
    return node;
  });
}

// ---- filters

// `a.b`, `a.b == 5 and c.d ~ text`: the terms, or null where it is none
function terms(text) {
  const found = [];
  for (const it of text.split(/\s+and\s+/i)) {
    const term = /^\s*([A-Za-z_]\w*)\.([A-Za-z_]\w*)\s*(?:(==|!=|<=|>=|<|>|~)\s*(.+?))?\s*$/.exec(it);
    if (!term) return null;
    found.push({ proto: term[1], name: term[2], sign: term[3], value: (term[4] || "").replace(/^(["'])(.*)\1$/, "$2") });
  }
  return found;
}

function holds(shown, term) {
  if (term.sign === "~") return shown.toLowerCase().includes(term.value.toLowerCase());
  const [a, b] = [shown, term.value].map((it) => (/^\s*\d+\s*$/.test(it) ? Number(it) : it));
  const [left, right] = typeof a === typeof b ? [a, b] : [shown, term.value];
  switch (term.sign) {
    case "==": return left === right;
    case "!=": return left !== right;
    case "<": return left < right;
    case "<=": return left <= right;
    case ">": return left > right;
    case ">=": return left >= right;
    default: return true;
  }
}

// of each shape of a part the places where a term's field stands
function placesOf(from, term) {
  return from.shapes.map((codes) => {
    const places = [];
    for (let at = 0, proto = ""; at < codes.length; at += 3) {
      const kind = codes[at] % 4, name = from.names[codes[at + 1]];
      if (kind === PROTO) proto = name;
      else if (kind === FIELD && name === term.name && proto === term.proto) places.push(at / 3);
    }
    return places;
  });
}

function matches(from, index, term, places) {
  const found = places[from.packets[index][0]];
  if (!found.length || !term.sign) return found.length > 0;
  if (!from.bytes.length || found.every((it) => from.packets[index][it + 1].includes("|"))) {
    return found.some((it) => holds(field(from.packets[index][it + 1], 0, "").show, term));
  }
  const all = nodes(from, index);
  return found.some((it) => holds(all[it].show, term));
}

async function byFields(asked, indexes, turn) {
  const kept = [];
  for (let at = 0; at < indexes.length && turn === page.turn; ) {
    const number = Math.floor(indexes[at] / page.about.part), from = await part(number);
    const places = asked.map((it) => placesOf(from, it));
    for (; at < indexes.length && Math.floor(indexes[at] / page.about.part) === number; at += 1) {
      const index = indexes[at] % page.about.part;
      if (asked.every((it, place) => matches(from, index, it, places[place]))) kept.push(indexes[at]);
    }
    say(`${Math.round((100 * at) / indexes.length)} % looked through ..`);
  }
  return kept;
}

async function refresh() {
  const turn = (page.turn += 1), wanted = $("search").value.toLowerCase(), proto = $("proto").value;
  const asked = $("filter").value.trim() ? terms($("filter").value) : [];
  $("filter").classList.toggle("wrong", asked === null);
  if (asked === null) return;
  let indexes = [];
  page.rows.forEach((row, index) => {
    if (wanted && !row.toLowerCase().includes(wanted)) return;
    if (proto) {
      const [, , , , protos, notes] = row.split("\t", 6);
      if (proto === "\u26a0" ? !notes : !` ${protos} `.includes(` ${proto} `)) return;
    }
    indexes.push(index);
  });
  if (asked.length) indexes = await byFields(asked, indexes, turn);
  if (turn !== page.turn) return;
  page.shown = indexes;
  say();
  const place = indexes.indexOf(page.chosen);
  $("list").scrollTop = place >= 0 ? Math.max(0, place * HEIGHT - $("list").clientHeight / 2) : 0;
  draw();
  document.body.dataset.turn = turn;
}
