"use strict";
// The access matrix after an event: what each thread may do in each region of memory, and which permission it has on
// each object. One model of it is shown as a table and saved as a picture.

const NAMING_SIGNS = { "": "", permission: "●", public: "○", supervisor: "□" };
const HELD_SIGN = "◆";
const DONE_SIGN = "✓";

// What stands in the matrix after event k: a column for each thread, and sections of rows with a cell for each thread.
function matrixModel(run, k) {
  const before = run.stateAfter(Math.max(0, k - 1));
  const state = run.stateAfter(k);
  const threads = sorted(run.used.threads);
  const columns = threads.map((thread) => changedWhere(k, (of) => threadNote(of, thread), before, state, {
    thread, name: run.description.nameOfThread(thread), mode: modeWord(state, thread),
  }));
  const regions = run.rights.regions.map((region) => regionRow(k, threads, region, before, state));
  const objects = sorted(run.used.rows).map((row) => objectRow(k, threads, row, before, state));
  return { k, columns, sections: [{ title: "Memory", rows: regions }, { title: "Objects", rows: objects }] };
}

// An entry with its text after the event, and whether the event changed it.
function changedWhere(k, textOf, before, state, entry = {}) {
  const text = textOf(state);
  return { ...entry, text, changed: k > 0 && textOf(before) !== text };
}

function modeWord(state, thread) {
  if (state.life[thread] === LIFE.unborn) return "";
  return state.supervisor[thread] ? "supervisor" : "user";
}

function threadNote(state, thread) {
  const domain = state.description.domains[state.domain[thread]];
  const status = state.status(thread);
  if (status === "unborn") return status;
  const isWaiting = status.startsWith("waits:");
  const told = isWaiting ? `waits for ${awaited(state, thread)}${deadlineText(state, thread, " until tick ")}` : status;
  const stopped = state.stopped(thread);
  return `${modeWord(state, thread)} in ${domain}, ${told}${stopped && `, ${stopped}`}`;
}

function regionRow(k, threads, region, before, state) {
  const note = changedWhere(k, (of) => regionNote(of, region), before, state);
  return {
    ...note, name: region.name, region, kind: region.what, isAbsent: false,
    cells: threads.map((thread) => {
      const cell = changedWhere(k, (of) => accessText(of, thread, region), before, state, { thread });
      return { ...cell, label: accessLabel(state, thread, region) };
    }),
  };
}

// Where a region stands, and who waits on a futex.
function regionNote(state, region) {
  const range = `${addressText(region.start)} to ${addressText(region.start + region.size - 1)}`;
  if (region.what === "futex") return range + waitersText(state, state.waitersAt(region.start), "waited on by");
  return `${range}${region.attr ? `, ${region.attr}` : ""}`;
}

function waitersText(state, threads, word) {
  return threads.length ? `, ${word} ${threads.map((thread) => state.description.nameOfThread(thread)).join(", ")}` : "";
}

// What stands in a cell of memory. Rights in a part of the region alone stand in brackets.
function accessText(state, thread, region) {
  const rights = state.access(thread, region);
  return rights || state.pieces(thread, region).map((piece) => `(${piece.rights})`).join("");
}

function accessLabel(state, thread, region) {
  const rights = state.access(thread, region);
  if (rights) return rightsText(rights);
  const pieces = state.pieces(thread, region).map((piece) => {
    const end = addressText(piece.start + piece.size - 1);
    return `${rightsText(piece.rights)} from ${addressText(piece.start)} to ${end}`;
  });
  if (pieces.length) return `in part: ${pieces.join(", ")}`;
  return { [LIFE.unborn]: "nothing, it isn't started", [LIFE.ended]: "nothing, it has ended" }[state.life[thread]] ?? "nothing";
}

function rightsText(rights) {
  const words = { r: "read", w: "write", x: "execute" };
  return [...rights].filter((right) => right !== "-").map((right) => words[right]).join(", ");
}

function objectRow(k, threads, row, before, state) {
  const note = changedWhere(k, (of) => objectNote(of, row), before, state);
  const { description } = state;
  return {
    ...note, name: description.nameOfRow(row), row, kind: description.kindOfRow(row), isAbsent: !state.isThere(row),
    cells: threads.map((thread) => {
      const cell = changedWhere(k, (of) => pairSigns(of, thread, row), before, state, { thread });
      return { ...cell, label: pairLabel(state, thread, row) };
    }),
  };
}

function objectNote(state, row) {
  if (state.stage[row] === STAGE.free) return "free";
  if (state.stage[row] === STAGE.reserved) return "reserved";
  const words = [{ init: "initialised", uninit: "uninitialised", gone: "gone" }[stageText(state, row)]];
  if (state.isPublic[row]) words.push("public");
  const kind = state.description.kindOfRow(row);
  if (kind === "timer") words.push(`status ${state.count[row]}`, timerText(state, row));
  else if (state.content(row) !== "-") words.push(state.content(row));
  return words.join(", ") + (kind === "thread" ? waitersText(state, state.waitersOn(row), "joined by") : "");
}

function timerText(state, row) {
  return state.expires[row] < 0 ? "stopped" : `runs until tick ${state.expires[row]}`;
}

function pairSigns(state, thread, row) {
  return NAMING_SIGNS[state.naming(thread, row)] + (state.holds(thread, row) ? HELD_SIGN : "");
}

function pairLabel(state, thread, row) {
  const words = [];
  const isLive = state.stage[row] === STAGE.live;
  if (state.hasPair(thread, row)) words.push("permission");
  if (state.isPublic[row] && isLive) words.push("public");
  if (isLive && state.life[thread] === LIFE.started && state.supervisor[thread]) words.push("a supervisor needs no permission");
  if (state.holds(thread, row)) words.push("held");
  if (words.length) return words.join(", ");
  return isLive ? "no permission" : "no live object is there";
}

// What stands in the matrix over the whole run: what each thread could do at some time, and what it did.
function wholeModel(run) {
  const { rights, description } = run;
  const state = run.stateAfter(run.count);
  const threads = sorted(run.used.threads);
  const columns = threads.map((thread) => ({
    thread, name: description.nameOfThread(thread), text: threadNote(state, thread), changed: false,
  }));
  const regions = rights.regions.map((region, number) => wholeRow(regionRow(0, [], region, state, state), threads, (thread) => {
    const key = number * THREADS + thread;
    return wholeCell(run, rights.couldReach.get(key), rights.didReach.get(key), REACH_WORDS);
  }));
  const objects = sorted(run.used.rows).map((row) => wholeRow(objectRow(0, [], row, state, state), threads, (thread) => {
    const key = row * THREADS + thread;
    return wholeCell(run, rights.couldName.get(key), rights.didName.get(key), NAME_WORDS);
  }));
  return { k: run.count, columns, sections: [{ title: "Memory", rows: regions }, { title: "Objects", rows: objects }] };
}

function wholeRow(row, threads, cellOf) {
  const cells = threads.map((thread) => ({ thread, changed: false, ...cellOf(thread) }));
  return { ...row, changed: false, isAbsent: false, cells };
}

// How a cell over the whole run shows and says what could be done and what was done.
const REACH_WORDS = {
  could: (what) => unionOfRights(what), couldSaid: (what) => rightsText(unionOfRights(what)),
  did: ({ what }) => [..."rwx"].filter((right) => what.has(right)).join(""),
  didSaid: ({ what }) => rightsText([..."rwx"].filter((right) => what.has(right)).join("")), never: "could reach nothing",
};
const NAME_WORDS = {
  could: (what) => Object.entries(NAMING_SIGNS).map(([naming, sign]) => (what.has(naming) ? sign : "")).join(""),
  couldSaid: (what) => [...what].map((naming) => NAMING_WORDS[naming]).join(", "),
  did: ({ count }) => String(count), didSaid: ({ count }) => `passed ${count} ${count === 1 ? "check" : "checks"}`,
  never: "might never name it",
};
const NAMING_WORDS = {
  permission: "name it by a permission", public: "name it as a public one", supervisor: "name it as a supervisor",
};

// The rights that a thread had in all of a region or in parts of it.
function unionOfRights(what) {
  const letters = [...what].join("");
  return [..."rwx"].map((right) => (letters.includes(right) ? right : "-")).join("");
}

function wholeCell(run, could, did, words) {
  if (!could && !did) return { text: "", label: words.never };
  const last = could && Math.min(could.last, run.count);
  const canText = could ? words.could(could.what) : "";
  const canSaid = could
    ? `could ${words.couldSaid(could.what)}, first after event ${could.first}, last after event ${last}` : words.never;
  if (!did) return { text: canText, label: `${canSaid}; never did` };
  const said = `did: ${words.didSaid(did)}, first by event ${did.first}, last by event ${did.last}`;
  return { text: `${canText} ${DONE_SIGN}${words.did(did)}`, label: `${canSaid}; ${said}`, did };
}

// The matrix as a table. A cell, a thread's heading and a row's heading can be chosen by a click or by keys.
class MatrixTable {
  constructor(holder, choose) {
    this.holder = holder;
    this.choose = choose;
    this.isWhole = false;
    holder.addEventListener("click", (event) => this.activate(event.target.closest("[data-place]")));
    holder.addEventListener("keydown", (event) => this.onKey(event));
  }

  setRun(run) {
    this.run = run;
    this.whole = wholeModel(run);
    this.places = [];
    this.table = document.createElement("table");
    this.table.classList.toggle("narrow", run.used.threads.size > 6);
    const model = matrixModel(run, 0);
    const head = this.table.createTHead();
    this.addLine(head, -1, "th", { name: "" }, model.columns.map((column) => ({ ...column, label: column.name })));
    for (const section of model.sections) this.addSection(section);
    this.holder.replaceChildren(this.table);
    this.focusPlace = null;
    this.moveFocus(1, 1, false);
    this.show(0);
  }

  addSection({ title, rows }) {
    if (rows.length === 0) return;
    const body = this.table.createTBody();
    const heading = body.insertRow().appendChild(document.createElement("th"));
    heading.className = "section";
    heading.scope = "rowgroup";
    heading.colSpan = 99;
    heading.textContent = title;
    for (const row of rows) this.addLine(body, this.places.length, "td", row, row.cells);
  }

  // One line of the table: its heading, and a cell for each thread.
  addLine(part, number, element, entry, cells) {
    const line = part.insertRow();
    const heading = line.appendChild(document.createElement("th"));
    heading.scope = "row";
    heading.dataset.name = entry.name;
    const places = [heading];
    for (const { thread } of cells) {
      const cell = line.appendChild(document.createElement(element));
      if (element === "th") cell.scope = "col";
      cell.dataset.thread = this.run.description.nameOfThread(thread);
      cell.dataset.row = entry.name;
      places.push(cell);
    }
    places.forEach((place, column) => {
      place.dataset.place = `${this.places.length} ${column}`;
      place.tabIndex = -1;
    });
    this.places.push(places);
  }

  // Shows the whole run, or again what holds after an event.
  showWhole(isWhole, k) {
    this.isWhole = isWhole;
    this.show(k);
  }

  show(k) {
    const model = this.isWhole ? this.whole : matrixModel(this.run, k);
    const lines = [
      { name: "", kind: "", text: "", cells: model.columns.map((column) => ({ ...column, label: column.text })) },
      ...model.sections.flatMap((section) => section.rows),
    ];
    this.lines = lines;
    lines.forEach((line, number) => {
      const [heading, ...cells] = this.places[number];
      if (number > 0) this.fillHeading(heading, line.name, [line.kind, line.text], line.changed);
      heading.parentElement.classList.toggle("absent", line.isAbsent ?? false);
      cells.forEach((cell, column) => {
        const { name, text, label, changed } = line.cells[column];
        if (number === 0) this.fillHeading(cell, name, [text], changed);
        else fillCell(cell, text, `${cell.dataset.thread} on ${line.name}: ${label}`, changed);
      });
    });
  }

  fillHeading(cell, name, notes, changed) {
    const text = [name, ...notes].join("\n");
    if (cell.dataset.shown !== text) {
      cell.dataset.shown = text;
      const note = document.createElement("small");
      note.textContent = notes.filter((word) => word).join(" · ");
      cell.replaceChildren(name, note);
    }
    cell.classList.toggle("changed", changed);
  }

  activate(cell) {
    if (!cell) return;
    const [line, column] = cell.dataset.place.split(" ").map(Number);
    this.moveFocus(line, column);
    const { row, region } = this.lines[line];
    const { thread, label, did } = column > 0 ? this.lines[line].cells[column - 1] : {};
    this.choose({ thread, row, region, label, did });
  }

  moveFocus(line, column, focus = true) {
    const place = this.places[line]?.[column];
    if (!place) return;
    if (this.focusPlace) this.focusPlace.tabIndex = -1;
    this.focusPlace = place;
    place.tabIndex = 0;
    if (focus) place.focus();
  }

  onKey(event) {
    const cell = event.target.closest("[data-place]");
    const way = { ArrowLeft: [0, -1], ArrowRight: [0, 1], ArrowUp: [-1, 0], ArrowDown: [1, 0] }[event.key];
    if (!cell || !(way || event.key === "Enter" || event.key === " ")) return;
    event.preventDefault();
    event.stopPropagation();
    if (!way) return this.activate(cell);
    const [line, column] = cell.dataset.place.split(" ").map(Number);
    this.moveFocus(line + way[0], column + way[1]);
  }
}

function fillCell(cell, text, label, changed) {
  if (cell.textContent !== text) cell.textContent = text;
  if (cell.title !== label) {
    cell.title = label;
    cell.setAttribute("aria-label", label);
  }
  cell.classList.toggle("changed", changed);
}

const SVG_SIGNS = "● permission · ○ public · □ a supervisor needs none · ◆ held · r w x: read, write, execute · "
  + "framed: changed by this event";
const WHOLE_SVG_SIGNS = "● permission · ○ public · □ a supervisor needs none · r w x: read, write, execute · "
  + "✓ what it did: the rights that it used, how many checks it passed";

// The matrix as the text of an SVG file, in colours for light paper.
function matrixSvg(run, k, isWhole = false) {
  const model = isWhole ? wholeModel(run) : matrixModel(run, k);
  const lines = model.sections.flatMap(({ rows }) => rows);
  const longest = Math.max(0, ...lines.map(({ name, text }) => name.length * 8.4 + text.length * 6.2));
  const [left, top, width, height] = [longest + 50, 76, Math.max(110, 700 / model.columns.length), 24];
  const moment = isWhole ? "Over the whole run" : k === 0 ? "Before the first event" : `After event ${k}: ${run.trace.line(k)}`;
  const parts = [svgText(12, 22, moment, "16", "600")];
  model.columns.forEach(({ name, text, changed }, column) => {
    const x = left + (column + 0.5) * width;
    if (changed) parts.push(svgBox(left + column * width + 1, top - 34, width - 2, 32));
    parts.push(svgText(x, top - 20, name, "13", "600", "middle"), svgText(x, top - 7, text, "9", "400", "middle"));
  });
  let y = top;
  for (const { title, rows } of model.sections.filter((section) => section.rows.length)) {
    parts.push(svgText(12, y + 17, title, "13", "600"));
    y += height;
    for (const line of rows) {
      parts.push(...svgRow(line, left, y, width, height));
      y += height;
    }
  }
  parts.push(svgText(12, y + 22, isWhole ? WHOLE_SVG_SIGNS : SVG_SIGNS, "11"));
  const [right, bottom] = [left + width * model.columns.length + 12, y + 36].map(Math.ceil);
  return `<svg xmlns="http://www.w3.org/2000/svg" width="${right}" height="${bottom}" viewBox="0 0 ${right} ${bottom}" `
    + 'font-family="system-ui, sans-serif"><rect width="100%" height="100%" fill="#ffffff"/>\n'
    + `${parts.join("\n")}\n</svg>\n`;
}

function svgRow(line, left, y, width, height) {
  const parts = [`<path d="M12 ${y}H${left + width * line.cells.length}" stroke="#d5d9e0"/>`];
  if (line.changed) parts.push(svgBox(8, y + 2, left - 12, height - 4));
  parts.push(svgText(20, y + 16, line.name, "12", "600"), svgText(left - 10, y + 16, line.text, "10", "400", "end"));
  line.cells.forEach(({ text, changed }, column) => {
    if (changed) parts.push(svgBox(left + column * width + 1, y + 2, width - 2, height - 4));
    parts.push(svgText(left + (column + 0.5) * width, y + 17, text, "13", "400", "middle"));
  });
  return parts;
}

function svgBox(x, y, width, height) {
  return `<rect x="${x}" y="${y}" width="${width}" height="${height}" rx="3" fill="#fff1c2" stroke="#b07a00"/>`;
}

function svgText(x, y, text, size, weight = "400", anchor = "start") {
  const safe = text.replace(/[&<>"]/g, (sign) => ({ "&": "&amp;", "<": "&lt;", ">": "&gt;", '"': "&quot;" })[sign]);
  const style = `font-size="${size}" font-weight="${weight}" text-anchor="${anchor}" fill="#1b2330"`;
  return `<text x="${x}" y="${y}" ${style}>${safe}</text>`;
}
