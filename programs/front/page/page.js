// A look at the office. It asks the reading routes, and shows what they say. docs/FORMATS.md has each answer's form.
// What the office says comes into the page as text, never as HTML.
"use strict";

const EVERY = 60, WAIT = 30; // seconds between two readings, and for an answer
const STATES = ["waiting", "signed", "revoked", "expired"];
const TWO = "2-digit";
const LOCAL = new Intl.DateTimeFormat("sv-SE", {year: "numeric", month: TWO, day: TWO, hour: TWO, minute: TWO,
  second: TWO, timeZoneName: "shortOffset"}); // dates in the order of ISO 8601, in the reader's time zone
const byId = (id) => document.getElementById(id);

// ---- answers: of each route its bytes as a value. Bytes of another form are a fault.

const asText = (bytes) => new TextDecoder("utf-8", {fatal: true}).decode(bytes);
const ROW = new RegExp("^ *([1-9]\\d*)  (user|host)  (revoked|signed |pending)  +(\\d{1,12})  +(\\d{1,12})  "
  + "(([a-z0-9-]{1,32})/[!-~]{1,64})$");

// What the expression finds in each line.
function partsOf(text, form) {
  const lines = text.split("\n"), parts = lines.slice(0, -1).map((line) => form.exec(line));
  if (lines.at(-1) !== "" || parts.includes(null)) throw new Error("the answer is cut off, or has another form");
  return parts;
}

function readTable(bytes) {
  const text = asText(bytes), end = text.lastIndexOf("\n", text.length - 2) + 1;
  const [[, count, version] = [null, "nothing"]] = partsOf(text.slice(end), /^total (\d+) version (\d+)$/);
  const rows = partsOf(text.slice(0, end), ROW).map(([, serial, kind, state, after, before, keyId, department]) =>
    ({serial, kind, state: state.trim(), after: Number(after), before: Number(before), keyId, department}));
  if (rows.length !== Number(count)) throw new Error(`the table has ${rows.length} lines, and its end says ${count}`);
  return {rows, version};
}

function readList(bytes) {
  const view = new DataView(bytes);
  const isList = bytes.byteLength >= 44 && view.getBigUint64(0) === 0x5353484b524c0a00n && view.getUint32(8) === 1;
  const date = isList ? Number(view.getBigUint64(20)) : Infinity;
  if (date >= 1e12) throw new Error("the answer isn't a revocation list");
  return {version: String(view.getBigUint64(12)), date, length: bytes.byteLength};
}

const readPending = (bytes) => partsOf(asText(bytes), /^([1-9]\d*) ([0-9a-f]{64})$/);

const readCas = (bytes) => partsOf(asText(bytes), /^(\d) ([1-9]\d*) (SHA256:\S{43})$/)
  .map(([, number, since, fingerprint]) => ({number, since: BigInt(since), fingerprint}));

async function readSigners(bytes) {
  const form = /^(\S+) cert-authority,namespaces="([^"]*)" ssh-ed25519 ([A-Za-z0-9+/]{68})$/;
  return Promise.all(partsOf(asText(bytes), form).map(async ([, principals, namespaces, key]) => {
    const blob = Uint8Array.from(atob(key), (letter) => letter.charCodeAt(0));
    const digest = new Uint8Array(await crypto.subtle.digest("SHA-256", blob));
    return {principals, namespaces, fingerprint: `SHA256:${btoa(String.fromCharCode(...digest)).replace(/=+$/, "")}`};
  }));
}

const routes = {
  pending: {what: "The pending certificates", read: readPending}, table: {what: "The table of certificates", read: readTable},
  krl: {what: "The revocation list", read: readList}, cas: {what: "The CAs", read: readCas},
  signers: {what: "The allowed signers", read: readSigners},
};

// Asks one route, which keeps what was read last and when, and since when it can't be read.
async function ask(name) {
  const route = routes[name], now = Date.now() / 1000;
  try {
    const how = {cache: "no-store", signal: AbortSignal.timeout(1000 * WAIT)};
    const answer = await fetch(`/v1/${name}`, how).catch(() => { throw new Error("no answer"); });
    const bytes = await answer.arrayBuffer();
    if (!answer.ok) throw new Error(`${answer.status} ${new TextDecoder().decode(bytes).split("\n")[0].slice(0, 200)}`);
    Object.assign(route, {value: await route.read(bytes), bytes: bytes.byteLength, at: now, since: null, fault: null});
  } catch (fault) {
    Object.assign(route, {since: route.since ?? now, fault: fault.message});
  }
  showSoon();
}

async function readAll() {
  if (byId("main").ariaBusy === "true") return;
  byId("main").ariaBusy = "true";
  await Promise.all(Object.keys(routes).map(ask));
  byId("main").ariaBusy = "false";
  show();
}

// ---- elements

function element(name, content, properties = {}) {
  const made = document.createElement(name);
  made.append(...[content].flat());
  return Object.assign(made, properties);
}
const code = (text) => element("code", text);
const utc = (seconds) => new Date(1000 * seconds).toISOString().replace(/\.\d+Z/, "Z");
const local = (seconds) => LOCAL.format(new Date(1000 * seconds));

function moment(seconds) {
  const small = element("small", utc(seconds).replace("T", " ").replace("Z", " UTC"));
  return element("time", [local(seconds), small], {dateTime: utc(seconds)});
}

function span(seconds) {
  const [size, name] = [[86400, "days"], [3600, "h"], [60, "min"], [0, "s"]].find(([one]) => seconds >= 2 * one);
  return `${Math.floor(seconds / (size || 1))} ${name}`;
}

const nextAfter = (limit) => Math.min(10 * limit, limit + 1000);

// Puts a row for each item into a table, the first cell as its heading. Rows that are there already stay.
function fill(id, route, items, cellsOf) {
  const table = byId(id), body = table.tBodies[0], before = [...body.rows], limit = Number(table.dataset.rows);
  const rows = items.slice(0, limit).map((item, place) => element("tr", cellsOf(item, items[place + 1])
    .map((cell, column) => column === 0 ? element("th", cell, {scope: "row"}) : element("td", cell))));
  const none = element("td", route.value ? "none" : "not read", {colSpan: table.tHead.rows[0].cells.length});
  if (!rows.length) rows.push(element("tr", none));
  rows.forEach((row, place) => {
    if (place >= before.length) body.append(row);
    else if (!before[place].isEqualNode(row)) before[place].replaceWith(row);
  });
  before.slice(rows.length).forEach((row) => row.remove());
  const more = byId(`${id}-more`);
  more.hidden = items.length <= limit;
  more.textContent = `${limit} of ${items.length} are shown: show ${Math.min(items.length, nextAfter(limit))}`;
}

// ---- what is shown

function stateOf(row, now) {
  if (row.state === "revoked") return "revoked";
  if (row.state === "pending") return "waiting";
  return row.before <= now ? "expired" : "signed";
}

let due = null;
const showSoon = () => { due ??= setTimeout(show, 50); };

function show() {
  clearTimeout(due);
  due = null;
  const {pending, table, krl, cas, signers} = routes, now = Date.now() / 1000;
  const rows = table.value?.rows ?? [], authorities = cas.value ?? [];
  for (const row of rows) row.shown = stateOf(row, now);
  const counts = {"": rows.length};
  for (const state of STATES) counts[state] = rows.filter((row) => row.shown === state).length;
  for (const it of document.querySelectorAll("b")) it.textContent = table.value ? counts[it.dataset.count] : "";
  showFaults();

  const bySerial = new Map(rows.map((row) => [row.serial, row]));
  fill("waiting", pending, pending.value ?? [], ([, serial, digest]) => {
    const row = bySerial.get(serial);
    return [serial, ...(row ? [code(row.keyId), [moment(row.after), element("small", begun(row.after, now))],
      [moment(row.before), element("small", row.before <= now ? "expired" : "")]] : ["", "", ""]), code(digest)];
  });
  fill("cas", cas, authorities, ({number, since, fingerprint}, next) => [
    `${number}${next ? "" : " (active)"}`, next ? `${since} to ${next.since - 1n}` : `${since} and up`,
    String(rows.filter((row) => authorityOf(row, authorities) === number).length), code(fingerprint)]);
  showDepartments(table, rows);
  showCertificates(table, rows, authorities);
  fill("signers", signers, signers.value ?? [], ({principals, namespaces, fingerprint}) => [
    code(principals), code(namespaces),
    authorities.find((ca) => ca.fingerprint === fingerprint)?.number ?? code(fingerprint)]);
  showList(krl.value, table, counts.revoked);
  fill("routes", {value: true}, Object.entries(routes), ([name, route]) => [code(`/v1/${name}`),
    route.at ? moment(route.at) : "never", String(route.bytes ?? "")]);
}

const begun = (after, now) => after > now ? `in ${span(after - now)}` : `${span(now - after)} ago`;
const authorityOf = (row, authorities) => authorities.findLast((ca) => ca.since <= BigInt(row.serial))?.number ?? "";

function showFaults() {
  const all = Object.values(routes), faulty = all.filter((route) => route.fault);
  const texts = faulty.map(({what, fault, since, at}) => `${what} can't be read since ${local(since)}: ${fault}. `
    + (at ? `The data shown is old: it was read at ${local(at)}.` : "It was never read."));
  if (texts.join("") !== byId("faults").textContent) { // A change alone is put in, since it is read aloud.
    byId("faults").replaceChildren(...texts.map((text) => element("p", text)));
  }
  if (!faulty.length && all.every((route) => route.at)) {
    byId("read").replaceChildren("Read at ", moment(Math.min(...all.map((route) => route.at))));
  } else byId("read").textContent = faulty.length ? "Some data can't be read." : "Reading.";
  for (const section of document.querySelectorAll("[data-route]")) {
    const {fault, at} = routes[section.dataset.route];
    section.classList.toggle("old", Boolean(fault && at));
    section.classList.toggle("never", Boolean(fault && !at));
  }
}

function showDepartments(table, rows) {
  const departments = new Map();
  for (const {department, kind, shown} of rows) {
    const it = departments.get(department) ?? {department, kind, waiting: 0, signed: 0, revoked: 0, expired: 0};
    it[shown] += 1;
    departments.set(department, it);
  }
  const sorted = [...departments.values()].sort((one, other) => one.department < other.department ? -1 : 1);
  fill("departments", table, sorted, (it) => [
    element("button", it.department, {type: "button", title: `Show the certificates of ${it.department}`}),
    it.kind, ...STATES.map((state) => String(it[state]))]);
}

function showCertificates(table, rows, authorities) {
  const words = byId("text").value.toLowerCase().split(/\s+/);
  const state = document.querySelector("input[name=state]:checked").value;
  const found = rows.filter((row) => {
    const text = `${row.serial} ${row.keyId} ${row.kind}`.toLowerCase();
    return (!state || row.shown === state) && words.every((word) => text.includes(word));
  });
  const order = byId("order").value;
  if (order === "new") found.reverse();
  if (order === "end") found.sort((one, other) => one.before - other.before);
  if (order === "name") found.sort((one, other) => one.keyId < other.keyId ? -1 : Number(one.keyId > other.keyId));
  byId("found").textContent = table.value ? `${found.length} of ${rows.length} certificates` : "";
  fill("certificates", table, found, (row) => [
    row.state === "signed" ? element("a", row.serial, {href: `/v1/certs/${row.serial}`}) : row.serial,
    code(row.keyId), row.kind, element("span", row.shown, {className: `state ${row.shown}`}),
    moment(row.after), moment(row.before), authorityOf(row, authorities)]);
}

function showList(list, table, revoked) {
  const lines = !list ? [["Version", "not read"]] : [["Version", list.version], ["Length", `${list.length} bytes`],
    ["Changed", list.version === "0" ? "never: nothing was revoked" : moment(list.date)]];
  if (table.value) lines.push(["Revoked", `${revoked} certificates, at version ${table.value.version}`]);
  byId("list").replaceChildren(...lines.flatMap(([name, value]) => [element("dt", name), element("dd", value)]));
}

// ---- what the reader does

for (const table of document.querySelectorAll("table")) {
  const frame = element("div", "", {className: "scroll", tabIndex: 0, role: "region"});
  frame.setAttribute("aria-labelledby", table.getAttribute("aria-labelledby"));
  table.replaceWith(frame);
  frame.append(table);
  const more = element("button", "", {type: "button", id: `${table.id}-more`, hidden: true});
  more.addEventListener("click", () => { table.dataset.rows = nextAfter(Number(table.dataset.rows)); show(); });
  frame.after(more);
}
byId("place").textContent = `${location.host} · times in ${LOCAL.resolvedOptions().timeZone} and in UTC`;
byId("again").addEventListener("click", readAll);
byId("filter").addEventListener("input", show);
byId("filter").addEventListener("submit", (event) => event.preventDefault());
byId("departments").addEventListener("click", ({target}) => {
  if (target.localName !== "button") return;
  byId("text").value = `${target.textContent}/`;
  show();
  byId("text").focus();
});
const readIfSeen = () => document.hidden || readAll();
document.addEventListener("visibilitychange", readIfSeen);
setInterval(readIfSeen, 1000 * EVERY);
readAll();
