// The page: listens to the events of its server and shows what they tell.

import { drawPlan } from "./plan.js";
import { Plot, SERIES, swatch } from "./plot.js";
import { count, element, instant, number, span } from "./words.js";

const KEPT = 4000, ROWS = 200;
const ROWS_VALUE = "rows", NO_KEY = "none";
const RESERVED = "Select Distinct Istream Dstream Rstream From As Where Group By And Or Not "
  + "Range Rows Partition Now Unbounded Slide Having Every";
const WORDS = new RegExp(`\\b(${RESERVED.replaceAll(" ", "|")})\\b`, "gi");
const SPANS = [["0", "all"], ["60", "60"], ["300", "300"], ["1000", "1,000"]];
const at = (id) => document.getElementById(id);

/** Shows one query and the state of all, as they come. */
class Page {
  constructor() {
    this.plot = new Plot(at("plot"));
    this.source = null;
    this.name = null; // of the chosen query
    this.state = null;
    this.clear();
    for (const id of ["value", "key", "span"]) {
      at(id).addEventListener("change", () => { this.picked.add(id); this.drawAnswers(true); });
    }
    at("span").replaceChildren(...SPANS.map(([value, words]) => option(value, words)));
    window.addEventListener("hashchange", () => this.choose(fromHash()));
    window.addEventListener("resize", () => this.drawPlan());
    this.choose(fromHash());
  }

  clear() {
    this.rows = [];
    this.columns = [];
    this.missed = 0;
    this.clock = null;
    this.operators = [];
    this.picked = new Set();
    this.newest = -1;
  }

  choose(name) {
    if (this.source && name === this.name) return;
    this.name = name;
    this.clear();
    if (this.source) this.source.close();
    const source = new EventSource(name ? `events?query=${encodeURIComponent(name)}` : "events");
    this.source = source;
    source.addEventListener("open", () => this.link(true));
    source.addEventListener("error", () => {
      this.link(false);
      if (source.readyState === EventSource.CLOSED) setTimeout(() => this.again(source), 2000);
    });
    source.addEventListener("state", (event) => this.tellState(JSON.parse(event.data)));
    source.addEventListener("plan", (event) => {
      this.operators = JSON.parse(event.data).operators;
      this.drawPlan();
    });
    source.addEventListener("answers", (event) => this.tellAnswers(JSON.parse(event.data)));
    if (this.state) this.drawState();
    this.drawAnswers(true);
    this.drawPlan();
  }

  /** Connects anew after a source that does not try again by itself. */
  again(source) {
    if (this.source !== source) return;
    this.source = null;
    this.choose(this.name);
  }

  link(open) {
    this.open = open;
    if (open) this.newest = -1; // the page's server tells all again
    this.drawLink();
  }

  tellState(state) {
    this.state = state;
    this.open = true;
    if (!this.name && state.queries.length) {
      const first = state.queries.find((query) => query.shown) || state.queries[0];
      history.replaceState(null, "", `#${encodeURIComponent(first.name)}`);
      this.choose(first.name);
    }
    this.drawState();
  }

  tellAnswers(told) {
    if (told.fresh) this.rows = [];
    if (told.rows.length || told.fresh) this.columns = told.columns;
    this.newest = told.fresh ? -1 : this.rows.length ? this.rows[this.rows.length - 1][0] : -1;
    this.rows = this.rows.concat(told.rows).slice(-KEPT);
    this.missed = told.missed;
    if (told.rows.length) this.clock = told.clock;
    this.drawAnswers(told.fresh);
  }

  drawLink() {
    const pill = at("link"), notice = at("notice"), state = this.state;
    if (!this.open) {
      pill.className = "pill bad";
      pill.textContent = "page away";
      notice.textContent = "The page's own server is away. The page goes on when it is back.";
      notice.hidden = false;
    } else if (state && !state.connected) {
      pill.className = "pill bad";
      pill.textContent = "server away";
      notice.textContent = `The server ${state.server} is away`
        + `${state.trouble ? ` (${state.trouble})` : ""}. The page tries again.`;
      notice.hidden = false;
    } else {
      pill.className = state ? "pill good" : "pill";
      pill.textContent = state ? "live" : "connecting";
      notice.hidden = true;
    }
    document.body.dataset.link = pill.textContent;
  }

  drawState() {
    const state = this.state;
    this.drawLink();
    at("server").textContent = state.server;
    at("mode").textContent = state.looks ? "looks only" : "takes answers";
    at("mode").className = state.looks ? "pill" : "pill warn";
    at("mode").title = state.looks ? "Nothing that this page shows is taken from the server."
      : "This server cannot be asked without taking. The page takes from the queries it was given.";
    at("queries-count").textContent = state.queries.length || "";
    at("streams-count").textContent = state.streams.length || "";
    tellNone("no-queries", state.queries, state.status ? "No query is registered."
      : "This server lists no queries. Name yours by --query or --session.");
    tellNone("no-streams", state.streams, state.status ? "No stream is declared."
      : "This server lists no streams. Name yours by --session.");
    matchItems(at("queries"), state.queries, makeQuery, (item, query) => {
      fillQuery(item, query, query.name === this.name);
    });
    matchItems(at("streams"), state.streams, makeStream, fillStream);
    const query = this.query();
    if (query && query.taken !== this.taken) this.drawAnswers(false);
    this.drawHead();
  }

  /** Returns the chosen query's state, if there is one. */
  query() {
    return this.state ? this.state.queries.find(({ name }) => name === this.name) : undefined;
  }

  drawHead() {
    const query = this.query();
    at("chosen").hidden = !this.name;
    at("nothing").hidden = Boolean(this.name);
    if (!this.name) return;
    at("name").textContent = this.name;
    document.title = `${this.name} · cqld`;
    const gone = this.state && !query;
    at("trouble").hidden = !(gone || (query && query.trouble));
    write(at("trouble"), gone ? "not registered" : (query && query.trouble) || "");
    at("text").hidden = !(query && query.text);
    if (query && query.text && at("text").textContent !== query.text) {
      at("text").replaceChildren(...marked(query.text));
    }
    at("figures").replaceChildren(...(query ? figures(query) : []));
    this.drawNote();
    const hint = at("taking");
    hint.hidden = !this.state || this.state.looks || !query;
    if (!hint.hidden) {
      hint.textContent = query.shown
        ? "Showing these answers takes them, so no one else gets them. "
          + "Give the page a query of its own."
        : "The page was not given this query, so it takes none of its answers. Name it by --query.";
    }
  }

  drawAnswers(jump) {
    this.drawChoices();
    this.plot.show(this.series(), jump);
    this.drawLegend();
    const { columns, rows } = this;
    const query = this.query();
    const looks = Boolean(this.state && this.state.looks);
    const taken = query && query.taken !== null ? query.taken : -1;
    this.taken = query ? query.taken : null; // as the table shows it
    const head = element("tr");
    if (looks) head.append(element("th", "state", ""));
    head.append(element("th", "", this.clock ? "time" : "instant"));
    for (const { name, numeric } of columns) {
      head.append(element("th", numeric ? "number" : "", name));
    }
    at("head").replaceChildren(head);
    at("rows").replaceChildren(...rows.slice(-ROWS).reverse().map((row) => {
      const line = element("tr", this.newest >= 0 && row[0] > this.newest ? "new" : "");
      if (looks) {
        const waits = row[0] >= taken, cell = element("td", "state");
        if (waits) cell.append(titled(element("span", "waits"), "waits to be taken"));
        else line.classList.add("gone");
        line.append(cell);
      }
      line.append(element("td", "", instant(row[1], this.clock)));
      columns.forEach(({ numeric }, i) => line.append(cellOf(row[i + 2], numeric)));
      return line;
    }));
    at("no-answers").hidden = rows.length > 0;
    this.drawNote();
    document.body.dataset.rows = String(rows.length);
  }

  /** Says how many answers there are, and which of them are not shown. */
  drawNote() {
    const { rows, missed } = this, query = this.query(), notes = [];
    if (rows.length > ROWS) notes.push(`the newest ${ROWS} of ${number(rows.length)} seen`);
    else if (rows.length) notes.push(count(rows.length, "answer"));
    if (rows.length && query && query.waiting !== null) {
      const unseen = query.taken + query.waiting - query.seen;
      if (unseen > 0) notes.push(`${number(unseen)} more wait`);
    }
    if (missed) notes.push(`${number(missed)} taken before they were seen`);
    write(at("answers-note"), notes.join(", "));
  }

  /** Offers the columns to plot and to part by, and picks what fits until the user has picked. */
  drawChoices() {
    const { columns } = this;
    const numeric = columns.map((_, i) => i).filter((i) => columns[i].numeric);
    const names = (i) => columns[i].name;
    const values = numeric.map((i) => [String(i), names(i)]);
    values.push([ROWS_VALUE, "answers per instant"]);
    const keys = [[NO_KEY, "nothing"], ...columns.map((_, i) => [String(i), names(i)])];
    offer(at("value"), values);
    offer(at("key"), keys);
    if (!this.picked.has("key")) at("key").value = this.likelyKey();
    if (!this.picked.has("value")) {
      const free = numeric.filter((i) => String(i) !== at("key").value);
      at("value").value = free.length ? String(likelyValue(free, columns)) : ROWS_VALUE;
    }
    at("key").disabled = at("value").value === ROWS_VALUE;
  }

  likelyKey() {
    const { columns, rows } = this;
    if (columns.length < 2) return NO_KEY;
    const text = columns.findIndex(({ numeric }) => !numeric);
    if (text >= 0) return String(text);
    const some = rows.slice(-500);
    const distinct = new Set(some.map((row) => row[2])).size;
    const twice = some.some((row, i) => i && row[1] === some[i - 1][1]);
    return twice && distinct <= SERIES ? "0" : NO_KEY;
  }

  series() {
    const value = at("value").value, key = at("key").value;
    const asked = Number(at("span").value) || 0;
    const common = { clock: this.clock, span: asked, bars: value === ROWS_VALUE };
    if (value === ROWS_VALUE || value === "") {
      const counts = new Map();
      for (const row of this.rows) counts.set(row[1], (counts.get(row[1]) || 0) + 1);
      return { ...common, bars: true, series: [{ name: "answers", points: [...counts] }] };
    }
    const lines = new Map();
    for (const row of this.rows) {
      const name = key === NO_KEY ? this.columns[value].name : row[Number(key) + 2] ?? "null";
      if (!lines.has(name)) lines.set(name, []);
      const cell = row[Number(value) + 2];
      lines.get(name).push([row[1], cell === null ? null : Number(cell)]);
    }
    let series = [...lines].map(([name, points]) => ({ name: String(name), points }));
    this.others = Math.max(0, series.length - SERIES);
    if (this.others) {
      series = series.sort((a, b) => b.points.length - a.points.length).slice(0, SERIES);
    }
    series.sort((a, b) => a.name.localeCompare(b.name, "en", { numeric: true }));
    return { ...common, series };
  }

  drawLegend() {
    const { series, bars } = this.plot.data;
    const parts = bars ? [] : series.map(({ name, points }, i) => {
      const part = element("span"), last = points[points.length - 1];
      part.append(swatch(i), document.createTextNode(name));
      if (last && last[1] !== null) part.append(element("b", "", number(last[1])));
      return part;
    });
    if (!bars && this.others) parts.push(element("span", "quiet", `and ${this.others} more`));
    at("legend").replaceChildren(...parts);
  }

  drawPlan() {
    drawPlan(at("plan"), this.operators);
    if (!this.operators.length) at("plan").append(element("p", "empty", "No plan is known."));
  }
}

/** Returns the first column that is no count; the last one where columns have no names. */
function likelyValue(free, columns) {
  if (columns.every(({ name }) => /^\d+$/.test(name))) return free[free.length - 1];
  return free.find((i) => !/^count\b|^n$/i.test(columns[i].name)) ?? free[0];
}

function fromHash() {
  try {
    return decodeURIComponent(location.hash.slice(1)) || null;
  } catch {
    return null;
  }
}

function option(value, words) {
  const made = element("option", "", words);
  made.value = value;
  return made;
}

function offer(select, options) {
  const shown = [...select.options].map((one) => [one.value, one.text]);
  if (JSON.stringify(shown) === JSON.stringify(options)) return;
  const before = select.value;
  select.replaceChildren(...options.map(([value, words]) => option(value, words)));
  if (options.some(([value]) => value === before)) select.value = before;
}

function titled(made, title) {
  made.title = title;
  return made;
}

function cellOf(value, numeric) {
  if (value === null || value === undefined) {
    return element("td", numeric ? "number null" : "null", "null");
  }
  const whole = numeric && /^-?\d{1,15}$/.test(value);
  return element("td", numeric ? "number" : "", whole ? number(Number(value)) : value);
}

function queryNote(query) {
  if (query.trouble) return query.trouble;
  if (query.taken !== null) {
    return `${number(query.taken)} taken, complete to ${instant(query.upto, query.clock)}`;
  }
  return query.shown ? `seen to ${instant(query.upto, query.clock)}` : "not given to the page";
}

function makeStream() {
  const item = element("li", "item");
  const classes = ["item-name", "item-figure", "item-note wraps"];
  item.append(...classes.map((name) => element("span", name)));
  return item;
}

function fillStream(item, stream) {
  const [name, figure, note] = item.children;
  write(name, stream.name);
  const [words, late, title] = lagOf(stream);
  write(figure, words);
  figure.classList.toggle("late", late);
  figure.title = title;
  const facts = [];
  if (stream.closed !== null) facts.push(`closed ${instant(stream.closed, stream.clock)}`);
  if (stream.still !== null && stream.still >= 2) facts.push(`still for ${span(stream.still)}`);
  if (stream.rows !== null) facts.push(count(stream.rows, "row"));
  facts.push(stream.columns.join(", "));
  write(note, facts.filter(Boolean).join(" · "));
}

/** Returns a stream's lag in words, whether it is late, and what the words mean. */
function lagOf(stream) {
  if (stream.closed === null) return ["lag unknown", false, "This server answers no status."];
  const { lag, behind } = stream;
  if (lag !== null) return [`${span(lag)} behind`, lag > 60, "behind the clock"];
  if (behind) return [`${number(behind)} behind`, true, "instants behind another stream"];
  return ["in front", false, "No stream is closed further."];
}

function makeQuery(query) {
  const item = element("li"), button = element("button", "item");
  button.type = "button";
  button.dataset.name = query.name;
  const classes = ["item-name", "item-figure", "item-note"];
  button.append(...classes.map((name) => element("span", name)));
  button.addEventListener("click", () => { location.hash = `#${encodeURIComponent(query.name)}`; });
  item.append(button);
  return item;
}

function fillQuery(item, query, chosen) {
  const button = item.firstElementChild, [name, figure, note] = button.children;
  if (chosen) button.setAttribute("aria-current", "true");
  else button.removeAttribute("aria-current");
  write(name, query.name);
  const { waiting, seen } = query;
  write(figure, waiting === null ? count(seen, "answer") : `${number(waiting)} waiting`);
  write(note, queryNote(query));
}

/** Makes a list's items those of things with names; an item that stays is only filled anew. */
function matchItems(list, things, make, fill) {
  const left = new Map([...list.children].map((item) => [item.dataset.key, item]));
  things.forEach((thing, place) => {
    const item = left.get(thing.name) || make(thing);
    item.dataset.key = thing.name;
    left.delete(thing.name);
    fill(item, thing);
    if (list.children[place] !== item) list.insertBefore(item, list.children[place] || null);
  });
  for (const item of left.values()) item.remove();
}

function write(place, words) {
  if (place.textContent !== words) place.textContent = words;
}

function tellNone(id, things, words) {
  at(id).hidden = things.length > 0;
  write(at(id), words);
}

function figures(query) {
  const told = [];
  if (query.upto !== null) {
    told.push([query.taken === null ? "seen to" : "complete to", instant(query.upto, query.clock)]);
  }
  if (query.waiting !== null) told.push(["waiting", number(query.waiting)]);
  if (query.taken !== null) told.push(["taken", number(query.taken)]);
  if (query.taken === null) told.push(["answers seen", number(query.seen)]);
  if (query.base !== null) told.push(["base", instant(query.base, query.clock)]);
  return told.map(([term, value]) => {
    const part = element("div");
    part.append(element("dt", "", term), element("dd", "", value));
    return part;
  });
}

/** Parts a query's text so that reserved words can be told from names. */
function marked(text) {
  const parts = [];
  let from = 0;
  for (const match of text.matchAll(WORDS)) {
    parts.push(document.createTextNode(text.slice(from, match.index)), element("b", "", match[0]));
    from = match.index + match[0].length;
  }
  parts.push(document.createTextNode(text.slice(from)));
  return parts;
}

window.page = new Page();
