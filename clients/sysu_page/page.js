"use strict";
// The page: editors, replies, explanations. What it shows of texts it puts in as text, never as markup.

const WORDS = new Set(("attribute relation object from fd maximal int text insert delete where load print schema closure " +
  "retrieve explain and or not compare with window").split(" "));
const TOKEN = /(--[^\n]*)|('[^']*(?:'|$))|([A-Za-z_][A-Za-z0-9_]*)|(-?[0-9]+)/g;
const EDITORS = ["schema", "data", "question"];
const $ = (id) => document.getElementById(id);

let session = null;      // its name; null before one is open
let token = "";
let file = null;         // the file's name where all tabs share it
let built = null;        // schema and data that the database was made of
let busy = false;
let material = { examples: [], exercises: [] };
const faults = { schema: null, data: null, question: null };
const replaced = [];     // what was typed and then replaced, the last one last
let loaded = null;       // the editors as they were filled, where that was not by typing

function make(name, words = {}, ...inner) {
  const it = document.createElement(name);
  for (const [key, value] of Object.entries(words)) {
    if (key === "class") it.className = value;
    else it.setAttribute(key, value);
  }
  it.append(...inner);
  return it;
}

function tell(text, good = false) {
  $("notice").textContent = text;
  $("notice").className = good ? "good" : "";
}

// What is stored of this tab and of this server; a browser may forbid it.
function kept(store, name, value) {
  try {
    if (value === undefined) return window[store].getItem(name);
    if (value === null) window[store].removeItem(name);
    else window[store].setItem(name, value);
  } catch (fault) { /* then it isn't kept */ }
  return null;
}

// The server

async function call(name, body) {
  let reply;
  try {
    reply = await fetch("/api/" + name, { method: "POST", body: JSON.stringify(body), headers: { "Content-Type": "application/json", "X-Sysu-Token": token } });
  } catch (fault) {
    throw new Error("the server isn't there any more: start ./page again");
  }
  if (reply.status === 410) { const gone = new Error("gone"); gone.gone = true; throw gone; }
  if (reply.status === 403) throw new Error("this address is not that of the server's start: open the one that ./page told");
  if (!reply.ok) throw new Error((await reply.text()).trim());
  return reply.json();
}

async function open() {
  const it = await call("open", {});
  session = it.session;
  file = it.file;
  built = null;
  kept("sessionStorage", "session", session);
  $("where").textContent = file ? `${file}, shared by all tabs` : "a database of this tab, kept until the page ends";
  if (file) share(it);
  return it;
}

// A file keeps its own schema; what is in the editors is carried out on it.
function share(it) {
  $("data_label").textContent = "Statements";
  $("data_hint").textContent = "carried out on the file, once";
  $("set_up").textContent = "Carry out";
  $("set_up").title = "Carries out these statements on the file";
  take(it);
}

function take(it) {
  chips(it.attributes);
  if (!file) return;
  const defined = it.defined.trim() !== "";
  if (defined) set("schema", it.defined);
  $("schema").readOnly = defined;
  for (const id of ["examples", "exercises"]) $(id).disabled = defined;
}

// A call on the session; where that was closed for a later one, on a new one.
async function on_session(name, body) {
  if (session === null) await open();
  try {
    return await call(name, { session, ...body });
  } catch (fault) {
    if (!fault.gone) throw fault;
    tell("this tab's database had been closed, since many tabs are open; it was made anew", true);
    await open();
    if (!file && name !== "set_up") await set_up();
    return call(name, { session, ...body });
  }
}

async function busily(work) {
  if (busy) return;
  busy = true;
  tell("");
  const slow = setTimeout(() => document.body.classList.add("busy"), 300);
  for (const it of document.querySelectorAll("button")) it.disabled = true;
  try {
    await work();
  } catch (fault) {
    tell(fault.message);
  } finally {
    clearTimeout(slow);
    busy = false;
    document.body.classList.remove("busy");
    for (const it of document.querySelectorAll("button")) it.disabled = false;
  }
}

// Editors

function paint(id) {
  const area = $(id), text = area.value, pre = area.previousElementSibling, fault = faults[id];
  const parts = [];
  const put = (from, to, sort) => {
    if (from >= to) return;
    const cuts = fault === null ? [] : [fault.from, fault.to].filter((at) => from < at && at < to);
    const ends = [...cuts, to];
    let begin = from;
    for (const end of ends) {
      const bad = fault !== null && begin >= fault.from && end <= fault.to;
      const piece = text.slice(begin, end);
      const names = [sort, bad ? "fault" : ""].join(" ").trim();
      parts.push(names ? make("span", { class: names }, piece) : piece);
      begin = end;
    }
  };
  let at = 0;
  if (text.length < 200000) {
    for (const found of text.matchAll(TOKEN)) {
      put(at, found.index, "");
      at = found.index + found[0].length;
      put(found.index, at, found[1] ? "comment" : found[2] ? "text" : found[3] ? (WORDS.has(found[3]) ? "word" : "") : "number");
    }
  }
  put(at, text.length, "");
  // a place behind the end of a line is shown as a blank
  if (fault !== null && fault.from >= text.length) parts.push(make("span", { class: "fault" }, " "));
  pre.replaceChildren(...parts, "\n ");
  scroll(id);
}

function scroll(id) {
  const area = $(id), pre = area.previousElementSibling;
  pre.scrollTop = area.scrollTop;
  pre.scrollLeft = area.scrollLeft;
}

function set(id, text) {
  $(id).value = text;
  clear(id);
}

function clear(id) {
  faults[id] = null;
  const told = $(id + "_faults");
  if (told) told.replaceChildren();
  paint(id);
  kept("sessionStorage", id, $(id).value);
}

function texts() {
  return Object.fromEntries(EDITORS.map((id) => [id, $(id).value]));
}

// Keeps what was typed, before it is replaced.
function keep() {
  const now = texts();
  if (JSON.stringify(now) === loaded || !EDITORS.some((id) => now[id].trim())) return;
  replaced.push(now);
  if (replaced.length > 20) replaced.shift();
}

// Fills editors with these texts.
function fill(it) {
  for (const id of EDITORS) if (it[id] !== undefined && !$(id).readOnly) set(id, it[id]);
  loaded = JSON.stringify(texts());
  $("back").hidden = replaced.length === 0;
}

function put_back() {
  const it = replaced.pop(), count = replaced.length;
  keep();
  // what is replaced now comes back last
  if (replaced.length > count) replaced.unshift(replaced.pop());
  for (const id of ["examples", "exercises"]) $(id).value = "";
  $("exercise").hidden = true;
  fill(it);
  loaded = null;
  tell("the editors hold what was typed before", true);
}

// Marks the token at a place, and has the editor show it.
function mark(id, at) {
  const text = $(id).value;
  const token = /^(?:[A-Za-z_][A-Za-z0-9_]*|-?[0-9]+|'[^'\n]*'?|[<>!]=|->|[^\n])/.exec(text.slice(at));
  faults[id] = { from: at, to: at + (token ? token[0].length : 1) };
  if (!token && at < text.length) faults[id] = { from: Math.max(0, at - 1), to: at };
  paint(id);
}

function go(id, at) {
  const area = $(id);
  area.focus();
  area.setSelectionRange(at, at);
  const line = area.value.slice(0, at).split("\n").length;
  area.scrollTop = Math.max(0, (line - 4) * parseFloat(getComputedStyle(area).lineHeight));
}

// Replies

function table(answer, shown) {
  const head = make("tr"), body = make("tbody");
  answer.columns.forEach((name, i) => head.append(make("th", { class: answer.kinds[i], scope: "col" }, name)));
  for (const row of answer.rows) {
    const line = make("tr");
    row.forEach((value, i) => line.append(make("td", { class: answer.kinds[i], title: value.length > 40 ? value : "" }, visible(value))));
    if (shown) line.className = "shown";
    body.append(line);
  }
  return make("div", { class: "scroll" }, make("table", {}, make("thead", {}, head), body));
}

// What would not show at its place in its written form.
function visible(text) {
  return text.replace(/[\u0000-\u001f\u007f-\u009f\u00ad\u200b-\u200f\u2028-\u202e\u2060-\u206f\ufeff\ufff9-\ufffb]/g, (it) =>
    it === "\n" ? "\\n" : it === "\r" ? "\\r" : it === "\t" ? "\\t" : "\\u" + it.charCodeAt(0).toString(16).padStart(4, "0"));
}

function counted(answer) {
  const count = `${answer.count} row${answer.count === 1 ? "" : "s"}`;
  return make("p", { class: "count" }, answer.count > answer.rows.length ? `${count}, the first ${answer.rows.length} are shown` : count);
}

function refusal(fault, id) {
  const it = make("pre", { class: "refused" }, make("div", { class: "why" }, fault.lines[0]));
  // a line of the statement and the caret below it stay as they are; what is said of them is wrapped
  let code = null;
  for (const line of fault.lines.slice(1)) {
    if (!line.startsWith("    ")) it.append(make("div", {}, line));
    else if (code) code.append("\n" + line);
    else it.append(code = make("div", { class: "code" }, line));
  }
  if (fault.at !== null) {
    const there = make("button", { type: "button" }, "Go there");
    there.addEventListener("click", () => go(id, fault.at));
    it.append(there);
  }
  return it;
}

function comparison(within) {
  const both = make("div");
  within.forEach((it, i) => {
    const names = i === 0 ? ["first", "second"] : ["second", "first"];
    const part = make("div", { class: "within" }, `each row of the ${names[0]} is one of the ${names[1]}: `,
      make("span", { class: it.holds ? "yes" : "no" }, it.holds ? "yes" : "no"), make("div", { class: "count" }, it.lines.map((line) => line.trim()).join("; ")));
    if (it.relation) {
      part.append(make("div", { class: "tables" },
        make("figure", {}, make("figcaption", {}, "over this relation"), table(it.relation)),
        make("figure", {}, make("figcaption", {}, `the ${names[0]} has this row, the ${names[1]} hasn't`), table(it.row, true))));
    }
    both.append(part);
  });
  return both;
}

function reply(it) {
  const line = it.statement.replace(/\s+/g, " ");
  const box = make("article", { class: "reply" });
  const head = make(it.query ? "button" : "div", { class: "asked", title: it.query ? "Shows how it is answered" : line }, make("code", {}, line));
  if (it.query) {
    head.type = "button";
    head.addEventListener("click", () => busily(() => explain(it.statement, box)));
  }
  box.append(head);
  if (it.kind === "rows") box.append(table(it.answer), counted(it.answer));
  else if (it.kind === "refused") box.append(refusal(it.fault, "question"));
  else if (it.kind === "stopped") box.append(make("pre", { class: "refused" }, make("span", { class: "why" }, it.text)));
  else if (it.kind === "comparison") box.append(comparison(it.within));
  else box.append(make("pre", {}, it.text.replace(/\n$/, "")));
  if (it.cut) box.append(make("p", { class: "count" }, "the reply is longer; its front is shown"));
  return box;
}

async function show(replies) {
  const boxes = replies.map(reply);
  $("replies").replaceChildren(...(boxes.length ? boxes : [make("p", { class: "empty" }, "There was no statement.")]));
  faults.question = null;
  const bad = replies.find((it) => it.kind === "refused" && it.fault.at !== null);
  if (bad) mark("question", bad.fault.at);
  else paint("question");
  const last = replies.map((it) => !!it.query || it.kind === "explanation").lastIndexOf(true);
  if (last < 0) { $("explanation").hidden = true; return; }
  const it = replies[last];
  await explain(it.kind === "explanation" ? it.statement.replace(/^explain/, "") : it.statement, boxes[last]);
}

// Explanations

function terms_of(text) {
  const terms = [];
  let term = null;
  for (const line of text.split("\n")) {
    const begun = /^term (\d+) /.exec(line), row = /^ {2}row (\d+) /.exec(line), numbers = /^ {2}(kept|fold) ?(.*)$/.exec(line);
    const source = /^ {2}sources (\d+) (.*)$/.exec(line), cover = /^ {2}covered by (.*)$/.exec(line);
    if (begun) terms.push(term = { rows: [], kept: [], fold: [], sources: {}, cover: null });
    else if (term && row) term.rows.push(+row[1]);
    else if (term && numbers) term[numbers[1]] = numbers[2].split(" ").filter(Boolean).map(Number);
    else if (term && source) term.sources[source[1]] = source[2];
    else if (term && cover) term.cover = cover[1];
  }
  return terms;
}

function says(term, row) {
  if (!term.kept.includes(row)) return `row ${row} folds to row ${term.fold[row]}`;
  if (term.sources[row]) return `row ${row} is kept, and read from ${term.sources[row].split(" ").join(", ")}`;
  return `row ${row} is kept; the term is covered by ${term.cover}`;
}

function light(key, on) {
  for (const it of document.querySelectorAll(`[data-row="${key}"]`)) it.classList.toggle("lit", on);
}

function lit(it, key) {
  it.dataset.row = key;
  for (const [name, on] of [["mouseenter", true], ["mouseleave", false], ["focus", true], ["blur", false]]) it.addEventListener(name, () => light(key, on));
}

// The lines of the text: kept rows are dark, and each row says its source.
function lines(text, terms) {
  let t = -1;
  return text.replace(/\n$/, "").split("\n").map((line) => {
    if (/^term \d/.test(line)) t += 1;
    const row = /^ {2}row (\d+) /.exec(line);
    if (!row) return make("div", {}, line || " ");
    const kept = terms[t].kept.includes(+row[1]);
    const it = make("div", { class: kept ? "row kept" : "row", title: says(terms[t], +row[1]), tabindex: "0" }, line);
    lit(it, `${t}.${row[1]}`);
    return it;
  });
}

// The picture, with the same said on its rows: the texts of a row stand at one height, its number first.
function picture(svg, terms) {
  // the page's own sheet says how it is shown, by its classes
  const bare = svg.replace(/ style="[^"]*"/, "").replace(/<style>[^<]*<\/style>/, "");
  const parsed = new DOMParser().parseFromString(bare, "image/svg+xml").documentElement;
  if (parsed.nodeName !== "svg" || parsed.querySelector("script, style, foreignObject, a, image, use")) return "no picture was made";
  parsed.setAttribute("role", "img");
  parsed.setAttribute("aria-label", "the terms as tables of their rows; the text below says the same");
  // it is made narrower where there is no room, as far as it can still be read
  parsed.style.minWidth = `${Math.round(0.7 * parsed.getAttribute("width"))}px`;
  const heights = new Map();
  for (const it of parsed.querySelectorAll("text")) {
    const y = +it.getAttribute("y");
    heights.set(y, [...(heights.get(y) || []), it]);
  }
  let t = -1, left = [];
  for (const y of [...heights.keys()].sort((a, b) => a - b)) {
    const texts = heights.get(y).sort((a, b) => a.getAttribute("x") - b.getAttribute("x"));
    if (texts[0].textContent === "term" && /^\d+$/.test(texts[1] ? texts[1].textContent : "")) {
      t += 1;
      left = terms[t] ? [...terms[t].rows] : [];
    } else if (left.length && texts[0].textContent === String(left[0])) {
      const row = left.shift();
      for (const it of texts) {
        const title = document.createElementNS("http://www.w3.org/2000/svg", "title");
        title.textContent = says(terms[t], row);
        it.append(title);
        lit(it, `${t}.${row}`);
      }
    }
  }
  return document.adoptNode(parsed);
}

async function explain(query, box) {
  for (const it of document.querySelectorAll(".reply")) it.classList.toggle("chosen", it === box);
  const it = await on_session("explain", { query });
  $("explanation").hidden = false;
  if (it.error) {
    $("explained").textContent = it.error;
    for (const id of ["picture", "lines", "sql"]) $(id).replaceChildren();
    return;
  }
  const terms = terms_of(it.text), kept = terms.filter((term) => term.cover === null);
  const rows = kept.reduce((sum, term) => sum + term.kept.length, 0);
  $("explained").textContent = terms.length === 0 ? "There is no term, and so no row."
    : `${kept.length} of ${terms.length} term${terms.length === 1 ? "" : "s"} kept, with ${rows} row${rows === 1 ? "" : "s"} in all. A row's source shows on hover.`;
  $("lines").replaceChildren(...lines(it.text, terms));
  $("picture").replaceChildren(it.svg ? picture(it.svg, terms) : it.svg_error || "no picture");
  $("sql").textContent = it.sql || it.sql_error || "";
}

// Work

function told(id, replies) {
  faults[id] = null;
  const bad = replies.filter((it) => it.kind === "refused" || it.kind === "stopped");
  $(id + "_faults").replaceChildren(...bad.map((it) => (it.fault ? refusal(it.fault, id) : make("pre", { class: "refused" }, it.text))));
  const first = bad.find((it) => it.fault && it.fault.at !== null && it.fault.at <= $(id).value.length);
  if (first) mark(id, first.fault.at);
  else paint(id);
  return bad.length;
}

async function set_up() {
  const schema = $("schema").value, data = $("data").value;
  const it = await on_session("set_up", { schema: file && $("schema").readOnly ? "" : schema, data });
  built = JSON.stringify([schema, data]);
  take(it);
  const bad = told("schema", it.schema) + told("data", it.data);
  return { bad, it };
}

async function ready() {
  if (file) return;
  if (built !== JSON.stringify([$("schema").value, $("data").value])) await set_up();
}

async function ask(name = "ask") {
  if (session === null) await open();
  await ready();
  const it = await on_session(name, { question: $("question").value });
  if (it.error) { tell(it.error); return; }
  take(it);
  await show(it.replies);
}

function chips(names) {
  const before = new Set([...document.querySelectorAll("#chips input:checked")].map((it) => it.value));
  $("attributes").hidden = names.length === 0;
  $("chips").replaceChildren(...names.map((name) => {
    const box = make("input", { type: "checkbox", value: name });
    box.checked = before.has(name);
    return make("label", { class: "chip" }, box, make("code", {}, name));
  }));
}

// A statement over the attributes that are chosen, as the question, and asked.
async function form(word) {
  const names = [...document.querySelectorAll("#chips input:checked")].map((it) => it.value);
  if (names.length === 0) { tell("choose attributes first"); return; }
  keep();
  fill({ question: `${word} (${names.join(", ")});\n` });
  await ask();
}

function load(it) {
  keep();
  fill(it);
  if (!file) chips([]);
  $("replies").replaceChildren(make("p", { class: "empty" }, "Nothing was run yet: Ctrl+Enter asks."));
  $("explanation").hidden = true;
}

function shown_text(text) {
  return text.split(/(`[^`\n]+`)/).map((it) => (it.startsWith("`") && it.length > 2 ? make("code", {}, it.slice(1, -1)) : it));
}

function exercise(it, name) {
  $("exercise").hidden = false;
  $("exercise_name").textContent = name;
  $("exercise_text").replaceChildren(...shown_text(it.about));
  $("show").hidden = it.solution === undefined;
  $("show").setAttribute("aria-expanded", "false");
  $("show").textContent = "Show the solution";
  $("solution").hidden = true;
  $("solution").replaceChildren(...shown_text((it.solution || "").trim()));
}

// Links

function encode(it) {
  const bytes = new TextEncoder().encode(JSON.stringify(it));
  let text = "";
  for (const byte of bytes) text += String.fromCharCode(byte);
  return btoa(text).replace(/\+/g, "-").replace(/\//g, "_").replace(/=+$/, "");
}

function decode(text) {
  const bytes = Uint8Array.from(atob(text.replace(/-/g, "+").replace(/_/g, "/")), (it) => it.charCodeAt(0));
  const it = JSON.parse(new TextDecoder("utf-8", { fatal: true }).decode(bytes));
  if (!EDITORS.every((id) => typeof it[id] === "string")) throw new Error("no texts");
  return it;
}

async function copy_link() {
  const it = Object.fromEntries(EDITORS.map((id) => [id, $(id).value]));
  const link = `${location.origin}/#text=${encode(it)}`;
  try {
    await navigator.clipboard.writeText(link);
    tell(`the link is copied (${link.length} letters); it holds schema, data and question, and not the token`, true);
  } catch (fault) {
    history.replaceState(null, "", link);
    tell("the link stands in the address line now; it holds schema, data and question, and not the token", true);
  }
}

// What the fragment says: the token of the start, or texts for the editors, which run nothing.
function fragment() {
  const words = new URLSearchParams(location.hash.slice(1));
  if (words.has("token")) {
    token = words.get("token");
    kept("localStorage", "token", token);
  } else {
    token = token || kept("localStorage", "token") || "";
  }
  let filled = false;
  if (words.has("text")) {
    try {
      load(decode(words.get("text")));
      $("exercise").hidden = true;
      tell("the editors hold what the link has; nothing was run: Ctrl+Enter asks", true);
      filled = true;
    } catch (fault) {
      tell("the link is broken: its text can't be read");
    }
  }
  if (location.hash) history.replaceState(null, "", location.pathname);
  return filled;
}

function theme(it) {
  const root = document.documentElement;
  if (it === "system") root.removeAttribute("data-theme");
  else root.setAttribute("data-theme", it);
  $("theme").textContent = `Theme: ${it}`;
  kept("localStorage", "theme", it);
}

function offer() {
  material.examples.forEach((it, i) => $("examples").append(make("option", { value: i }, it.name)));
  material.exercises.forEach((it, i) => $("exercises").append(make("option", { value: i }, it.name)));
  const choose = (id, list) => $(id).addEventListener("change", () => {
    const it = list[$(id).value];
    if (!it) return;
    $(id === "examples" ? "exercises" : "examples").value = "";
    load(it);
    exercise(it, it.name);
  });
  choose("examples", material.examples);
  choose("exercises", material.exercises);
}

async function begin() {
  theme(kept("localStorage", "theme") || "system");
  const filled = fragment();
  for (const id of EDITORS) {
    const area = $(id), before = kept("sessionStorage", id);
    if (!filled && before) area.value = before;
    paint(id);
    area.addEventListener("input", () => clear(id));
    area.addEventListener("scroll", () => scroll(id));
    area.addEventListener("keydown", (event) => {
      if (event.key === "Enter" && (event.ctrlKey || event.metaKey)) {
        event.preventDefault();
        busily(() => ask());
      }
    });
  }
  $("ask").addEventListener("click", () => busily(() => ask()));
  $("compare").addEventListener("click", () => busily(() => ask("compare")));
  $("set_up").addEventListener("click", () => busily(async () => {
    const { bad } = await set_up();
    tell(bad ? "" : file ? "carried out" : "a new database, of schema and data", true);
  }));
  for (const it of document.querySelectorAll(".of")) it.addEventListener("click", () => busily(() => form(it.dataset.form)));
  $("link").addEventListener("click", copy_link);
  $("back").addEventListener("click", put_back);
  $("theme").addEventListener("click", () => {
    const order = ["system", "light", "dark"];
    theme(order[(order.indexOf(kept("localStorage", "theme") || "system") + 1) % 3]);
  });
  $("show").addEventListener("click", () => {
    const hidden = !$("solution").hidden;
    $("solution").hidden = hidden;
    $("show").textContent = hidden ? "Show the solution" : "Hide the solution";
    $("show").setAttribute("aria-expanded", String(!hidden));
  });
  window.addEventListener("hashchange", fragment);
  await busily(async () => {
    if (!token) throw new Error("open the address that ./page told: it has the token of its start");
    material = await call("material", {});
    offer();
    await open();
    if (!filled && EDITORS.every((id) => !$(id).value) && material.examples.length) {
      load(material.examples[0]);
      $("examples").value = "0";
    }
  });
  $("question").focus({ preventScroll: true });
  document.body.dataset.ready = "yes";
}

begin();
