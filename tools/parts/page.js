"use strict";
// The lists and the matrix of the page, from the data that stands in it.

const MARKS = { raw: "\u25cf", waw: "\u25a0", war: "\u25b2" };
const KINDS = Object.keys(MARKS);
const MOST = 300; // rows of the matrix at a time
const STEP = 100; // rows of the list of conflicts at a time
const by = (id) => document.getElementById(id);

// An element with properties and what stands in it.
function made(tag, properties = {}, ...inside) {
  const element = Object.assign(document.createElement(tag), properties);
  element.append(...inside);
  return element;
}

// The data: plain JSON, or JSON that was packed by gzip and written in base64.
async function unpacked() {
  const holder = by("data");
  if (holder.type === "application/json") return JSON.parse(holder.textContent);
  const bytes = Uint8Array.from(atob(holder.textContent), (it) => it.charCodeAt(0));
  const stream = new Blob([bytes]).stream().pipeThrough(new DecompressionStream("gzip"));
  return JSON.parse(await new Response(stream).text());
}

// The conflicts; columns of numbers hold each one's difference to the one before.
function conflictsOf(data) {
  const columns = {};
  for (const name of ["first", "later", "place"]) {
    let sum = 0;
    columns[name] = data[name].map((step) => (sum += step));
  }
  return data.kind.map((kind, at) => ({
    kind: KINDS[kind],
    first: columns.first[at],
    later: columns.later[at],
    count: data.count[at],
    effect: data.effects[data.effect[at]],
    places: [columns.place[at], ...(data.more[at] || [])].filter((it) => it >= 0).map((it) => data.places[it]),
  }));
}

// What a location is, in words: `numbers` gives the tests of a report their names.
function inWords([at, walk], numbers) {
  const [word, second, ...rest] = at.split(" ");
  const [test, object] = (second || "").split(":");
  const made = `object ${object} of test ${test}${numbers[test] ? " (" + numbers[test] + ")" : ""}`;
  const said = {
    static: () => `the static field ${second}`,
    init: () => `whether class ${second} is initialised`,
    head: () => `the class, and of an array the length, of ${made}`,
    field: () => `the field ${rest.join(" ")} of ${made}`,
    elem: () => `element ${rest.join(" ")}, counted from 0, of the array that is ${made}`,
    text: () => `the characters of the String that is ${made}`,
    file: () => `the file ${at.slice(5)}`,
    prop: () => `the property ${at.slice(5)}`,
  };
  return (word in said ? said[word]() : at) + (walk ? `; found by ${walk}` : "");
}

// A number with a comma before each three digits.
function counted(number) {
  return number.toLocaleString("en-US");
}

function kindMark(kind) {
  return made("span", { className: `kind ${kind}` }, `${MARKS[kind]} ${kind}`);
}

function cell(label, ...inside) {
  const element = made("td", {}, ...inside);
  element.dataset.label = label;
  return element;
}

// The list of conflicts with its filter.
class List {
  constructor(conflicts, data) {
    Object.assign(this, { conflicts, data, shown: STEP, between: null });
    this.form = by("filter");
    this.form.addEventListener("input", () => this.show());
    this.form.addEventListener("submit", (event) => event.preventDefault());
    this.form.addEventListener("reset", () => {
      this.between = null;
      setTimeout(() => this.show());
    });
    by("more").addEventListener("click", () => this.show(this.shown + STEP));
    document.addEventListener("click", (event) => {
      const test = event.target.closest("[data-test]");
      if (test) this.only({ test: test.dataset.test });
    });
    this.show();
  }

  // Shows what is between two sets of tests, or of one test.
  only({ test = "", between = null }) {
    this.form.reset();
    this.form.test.value = test;
    setTimeout(() => {
      this.between = between;
      this.show();
      by("conflicts").scrollIntoView();
      by("found").focus({ preventScroll: true });
    });
  }

  fits(it) {
    const { test, class: inside, location, effect } = this.form;
    const names = [this.data.names[it.first], this.data.names[it.later]];
    return (
      this.form.elements[it.kind].checked &&
      (!this.between || (this.between[0].has(it.first) && this.between[1].has(it.later))) &&
      (!effect || !effect.value || it.effect === effect.value) &&
      (!inside.value || names.some((name) => name.startsWith(inside.value + ".") && !name.includes(".", inside.value.length + 1))) &&
      (!test.value || names.some((name) => name.includes(test.value))) &&
      (!location.value || it.places.some((place) => place.some((text) => text.includes(location.value))))
    );
  }

  show(most = STEP) {
    this.shown = most;
    const fitting = this.conflicts.filter((it) => this.fits(it));
    by("rows").replaceChildren(...fitting.slice(0, most).map((it) => this.row(it)));
    by("more").hidden = fitting.length <= most;
    const told = this.between ? " between the chosen tests" : "";
    by("found").textContent = `${counted(fitting.length)} of ${counted(this.conflicts.length)} conflicts${told}`;
  }

  row(it) {
    const name = (test) => {
      const parts = this.data.names[test].split(".").flatMap((part) => [".", made("wbr"), part]);
      return made("span", { className: "name" }, ...parts.slice(2));
    };
    const mark = kindMark(it.kind);
    return made(
      "tr",
      {},
      cell("kind", made("span", {}, mark, it.effect ? ` ${it.effect}` : "")),
      cell("earlier", name(it.first)),
      cell("later", name(it.later)),
      cell("where", this.places(it)),
    );
  }

  // The first location, and behind it, folded, what each says in words.
  places(it) {
    if (!it.places.length) return made("span", { className: "muted" }, `${counted(it.count)} locations`);
    const more = it.count - it.places.length;
    const first = made("code", {}, it.places[0][0]);
    const summary = made("summary", {}, first, it.count > 1 ? ` and ${counted(it.count - 1)} more` : "");
    const words = it.places.map((place) => made("li", {}, made("code", {}, place[0]), ": ", inWords(place, this.data.numbers)));
    if (more > 0) words.push(made("li", { className: "muted" }, `${counted(more)} more, which aren't listed`));
    return made("details", {}, summary, made("ul", {}, ...words));
  }
}

// The matrix: a row is a later test or a block of tests, a column an earlier one.
class Matrix {
  constructor(conflicts, data, list) {
    Object.assign(this, { data, list, open: [] });
    this.holder = by("cells");
    this.blocks = data.blocks.map(([from, to, name], at) => ({ from, to, at, name }));
    this.at = new Map();
    for (const it of conflicts) {
      const key = it.later * data.names.length + it.first;
      this.at.set(key, (this.at.get(key) || 0) | (1 << KINDS.indexOf(it.kind)));
    }
    if (data.joined.length <= 60) this.open = this.blocks.map((it) => it.at);
    this.holder.addEventListener("keydown", (event) => this.move(event));
    this.draw();
  }

  toggle(block) {
    if (this.open.includes(block)) this.open = this.open.filter((it) => it !== block);
    else this.open.push(block);
    while (this.rows().length > MOST && this.open.length > 1) this.open.shift();
    this.draw();
    this.holder.querySelector(`[data-block="${block}"]`).focus();
  }

  // Each row: its tests, its name, its block, and whether it stands for the whole block.
  rows() {
    const { joined, names } = this.data;
    return this.blocks.flatMap((block) => {
      const tests = joined.slice(block.from, block.to);
      const head = { tests, name: block.name, block, whole: true };
      if (!this.open.includes(block.at)) return [head];
      return [{ ...head, tests: [] }, ...tests.map((it) => ({ tests: [it], name: names[it], block, whole: false }))];
    });
  }

  // How many cells of tests conflict in a cell of the table, and of which kinds.
  tied(row, column) {
    let count = 0;
    let kinds = 0;
    for (const later of row.tests) {
      for (const first of column.tests) {
        const found = this.at.get(later * this.data.names.length + first);
        if (found) {
          count += 1;
          kinds |= found;
        }
      }
    }
    return { count, kinds: KINDS.filter((_, bit) => kinds & (1 << bit)) };
  }

  draw() {
    const rows = this.rows();
    const columns = rows.filter((it) => it.tests.length);
    const head = made("tr", {}, made("th", { scope: "col" }, "later \u2193  earlier \u2192"));
    for (const it of columns) {
      const label = made("span", {}, shortName(it.name));
      head.append(made("th", { scope: "col", title: it.name }, label));
    }
    const body = rows.map((row) => this.line(row, columns));
    this.holder.replaceChildren(made("table", {}, made("thead", {}, head), made("tbody", {}, ...body)));
    const first = this.holder.querySelector("td button");
    if (first) first.tabIndex = 0;
  }

  line(row, columns) {
    const line = made("tr");
    const head = made("th", { scope: "row", title: row.name });
    if (row.whole) {
      const open = row.tests.length === 0;
      const fold = made("button", { type: "button" }, `${open ? "\u25be" : "\u25b8"} ${shortName(row.name)} (${row.block.to - row.block.from})`);
      fold.dataset.block = row.block.at;
      fold.setAttribute("aria-expanded", open);
      fold.addEventListener("click", () => this.toggle(row.block.at));
      head.append(fold);
    } else {
      head.append(made("span", {}, "\u2003" + shortName(row.name)));
    }
    line.append(head);
    for (const column of columns) line.append(this.cell(row, column));
    return line;
  }

  cell(row, column) {
    const { count, kinds } = this.tied(row, column);
    if (!count) return made("td", { className: row.tests[0] === column.tests[0] ? "same" : "" });
    const marks = kinds.map((kind) => made("span", { className: kind }, MARKS[kind]));
    const many = row.whole || column.whole ? ` ${counted(count)}` : "";
    const button = made("button", { type: "button", tabIndex: -1 }, ...marks, many);
    const told = `${row.name} after ${column.name}: ${kinds.join(", ")}${many}`;
    button.title = told;
    button.setAttribute("aria-label", told);
    button.addEventListener("click", () => this.list.only({ between: [new Set(column.tests), new Set(row.tests)] }));
    return made("td", {}, button);
  }

  // Arrow keys go to the next cell with a conflict in their direction.
  move(event) {
    const step = { ArrowLeft: [0, -1], ArrowRight: [0, 1], ArrowUp: [-1, 0], ArrowDown: [1, 0] }[event.key];
    const from = event.target.closest("td");
    if (!step || !from) return;
    event.preventDefault();
    const lines = [...this.holder.querySelectorAll("tbody tr")];
    let [y, x] = [lines.indexOf(from.parentElement), from.cellIndex];
    for (;;) {
      y += step[0];
      x += step[1];
      const at = lines[y] && x > 0 && lines[y].cells[x];
      if (!at) return;
      const button = at.querySelector("button");
      if (button) {
        event.target.tabIndex = -1;
        button.tabIndex = 0;
        button.focus();
        return;
      }
    }
  }
}

// What stands behind the last dot: of a test the method, of a block the class without its package.
function shortName(name) {
  return name.slice(name.lastIndexOf(".") + 1);
}

unpacked().then((data) => {
  const conflicts = conflictsOf(data);
  const list = new List(conflicts, data);
  if (by("cells")) new Matrix(conflicts, data, list);
  document.documentElement.dataset.ready = "yes";
});
