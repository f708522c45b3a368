"use strict";
// The page of a capture: the list is kept as lines of text, and a line is taken apart when it is drawn. The trees stay
// packed, in parts of some packets each; a part is unpacked when one of its packets is chosen or a field is asked for.

const $ = (id) => document.getElementById(id);
const HEIGHT = 20, AHEAD = 10, BYTES = 8192;
const PROTO = 0, BLOCK = 1, FIELD = 2, NOTE = 3;
const HUES = { arp: 45, dns: 210, mdns: 210, dhcp: 205, ntp: 195, http: 120, ftp: 130, smtp: 140, tftp: 110, sip: 150, tls: 270,
  ssh: 285, icmp: 320, icmp6: 320, igmp: 330, udp: 225, tcp: 245, stp: 20, lldp: 25, cdp: 28, ospf: 60, bgp: 65, rtp: 160 };
const page = { rows: [], shown: [], parts: [], opened: new Map(), chosen: -1, about: null, turn: 0, sizes: [] };

async function unpack(element) {
  const packed = Uint8Array.from(atob(element.textContent), (it) => it.charCodeAt(0));
  const plain = new Blob([packed]).stream().pipeThrough(new DecompressionStream("deflate"));
  return new Response(plain).text();
}

function make(name, text, kind) {
  const made = document.createElement(name);
  if (text !== undefined) made.textContent = text;
  if (kind) made.className = kind;
  return made;
}

// ---- moments

function apart(later, before) {
  const number = (moment) => BigInt(moment.replace(".", ""));
  const passed = number(later) - number(before), size = passed < 0n ? -passed : passed;
  return `${passed < 0n ? "-" : ""}${size / 1000000000n}.${String(size % 1000000000n).padStart(9, "0")}`;
}

function moment(stamp, index) {
  const form = $("clock").value, [whole, rest] = stamp.split(".");
  if (form === "seconds") return stamp;
  if (form === "first") return apart(stamp, cells(0)[1]);
  if (form === "before") return index === 0 ? "0.000000000" : apart(stamp, cells(index - 1)[1]);
  const date = new Date(Number(whole) * 1000), two = (it) => String(it).padStart(2, "0");
  if (form === "utc") return `${date.toISOString().slice(0, 19).replace("T", " ")}.${rest}`;
  const day = [date.getFullYear(), two(date.getMonth() + 1), two(date.getDate())].join("-");
  return `${day} ${[date.getHours(), date.getMinutes(), date.getSeconds()].map(two).join(":")}.${rest}`;
}

function duration(seconds) {
  const units = [["day", 86400], ["hour", 3600], ["minute", 60]].filter(([, size]) => seconds >= size);
  if (!units.length) return "";
  let left = seconds;
  const parts = [...units, ["second", 1]].map(([name, size]) => {
    const count = Math.floor(left / size);
    left -= count * size;
    return count ? `${count} ${name}${count === 1 ? "" : "s"}` : "";
  });
  return parts.filter(Boolean).slice(0, 2).join(", ");
}

// ---- the list

const cells = (index) => page.rows[index].split("\t");
const lastOf = (protos) => protos.split(" ").filter((it) => it !== "payload" && it !== "padding" && it !== "data").pop() || "";

function hue(name) {
  if (name in HUES) return HUES[name];
  let sum = 0;
  for (const it of name) sum = (sum * 31 + it.charCodeAt(0)) % 360;
  return sum;
}

// what a line of the list shows: number, time, the columns of the summary, protocols where it has none, size, notes
function texts(index) {
  const [number, stamp, caplen, length, protos, notes, ...own] = cells(index);
  const size = caplen === length ? length : `${caplen} of ${length}`;
  return [number, moment(stamp, index), ...(hasProtos() ? [] : [protos]), size, ...own.slice(0, -1),
    (own.length ? own[own.length - 1] : "") + (notes ? `${own.length ? " " : ""}\u26a0 ${notes}` : "")];
}
const hasProtos = () => page.about.columns.some((it) => /^protocols?$/i.test(it));
const titles = () => ["No.", "Time", ...(hasProtos() ? [] : ["Protocols"]), "Bytes", ...page.about.columns.slice(0, -1),
  page.about.columns.length ? page.about.columns[page.about.columns.length - 1] : "Notes"];

function measure() {
  const widths = titles().map((it) => it.length), step = Math.max(1, Math.floor(page.rows.length / 1000));
  for (let index = 0; index < page.rows.length; index += step) {
    texts(index).forEach((it, place) => { widths[place] = Math.max(widths[place], Math.min(it.length, 40)); });
  }
  page.sizes = widths.map((it, place) => (place === widths.length - 1 ? "minmax(10ch, 1fr)" : `${it}ch`)).join(" ");
  $("head").style.gridTemplateColumns = page.sizes;
  $("head").replaceChildren(...titles().map((it, place) => make("span", it, isRight(place) ? "right" : "")));
}
const isRight = (place) => titles()[place] === "No." || titles()[place] === "Bytes";

function drawn(place) {
  const index = page.shown[place], row = make("div", undefined, index === page.chosen ? "row chosen" : "row");
  const notes = cells(index)[5], parts = texts(index);
  row.style.cssText = `top:${place * HEIGHT}px;grid-template-columns:${page.sizes};--hue:${hue(lastOf(cells(index)[4]))}`;
  row.append(...parts.map((it, at) => make("span", it, isRight(at) ? "right" : notes && at === parts.length - 1 ? "noted" : "")));
  row.setAttribute("role", "option");
  row.setAttribute("aria-selected", String(index === page.chosen));
  row.dataset.index = index;
  return row;
}

function draw() {
  const list = $("list"), from = Math.max(0, Math.floor(list.scrollTop / HEIGHT) - AHEAD);
  const to = Math.min(page.shown.length, Math.ceil((list.scrollTop + list.clientHeight) / HEIGHT) + AHEAD);
  $("space").style.height = `${page.shown.length * HEIGHT}px`;
  $("space").replaceChildren(...Array.from({ length: Math.max(0, to - from) }, (_, it) => drawn(from + it)));
}

function say(text) {
  const all = page.rows.length.toLocaleString("en"), some = page.shown.length.toLocaleString("en");
  $("count").textContent = text || (page.shown.length === page.rows.length ? `${all} packets` : `${some} of ${all} packets`);
}
