"use strict";
// Ties the page together: files in, one chosen event for all parts, and the keys.

const byId = (id) => document.getElementById(id);

class Page {
  constructor() {
    this.run = null;
    this.k = 0;
    this.sources = new Sources();
    // What is on the screen: its sources, and the name of the built-in example, if it is one.
    this.shown = null;
    this.example = "";
    this.loading = 0;
    this.wanted = addressWords();
    const choose = (k) => this.choose(k);
    this.timeline = new Timeline(byId("timeline"), choose);
    this.matrix = new MatrixTable(byId("matrix"), (cell) => this.showCell(cell));
    this.story = new Story({ subject: byId("subject"), list: byId("story"), summary: byId("story-summary") }, choose);
    this.search = new Search({
      thread: byId("find-thread"), object: byId("find-object"), kind: byId("find-kind"), verdict: byId("find-verdict"),
      memory: byId("find-memory"), words: byId("find-words"), summary: byId("found"), list: byId("matches"),
    }, choose, (found) => this.markMatches(found));
    this.scripts = new ScriptPane(byId("scripts"), choose);
    this.listenToFiles();
    this.listenToButtons();
    document.addEventListener("keydown", (event) => this.onKey(event));
    window.addEventListener("hashchange", () => this.followAddress());
    if (Object.hasOwn(EXAMPLES, this.wanted.example ?? "")) this.openExample(this.wanted.example);
  }

  // ---- The address: #event=K, behind #example=NAME& where a built-in example is shown ----

  followAddress() {
    const { example, event } = addressWords();
    if (event !== undefined && (example ?? "") === this.example) this.choose(Number(event));
  }

  noteAddress() {
    clearTimeout(this.addressTimer);
    this.addressTimer = setTimeout(() => {
      const words = [this.example && `example=${this.example}`, `event=${this.k}`].filter((word) => word);
      history.replaceState(null, "", `#${words.join("&")}`);
    }, 150);
  }

  // ---- Files ----

  listenToFiles() {
    const files = byId("files");
    for (const id of ["open", "open-large"]) byId(id).addEventListener("click", () => files.click());
    this.listenToExamples();
    files.addEventListener("change", async () => {
      await this.openFiles([...files.files]);
      files.value = "";
    });
    document.addEventListener("dragover", (event) => {
      event.preventDefault();
      document.body.classList.add("dragging");
    });
    document.addEventListener("dragleave", (event) => {
      if (!event.relatedTarget) document.body.classList.remove("dragging");
    });
    document.addEventListener("drop", (event) => {
      event.preventDefault();
      document.body.classList.remove("dragging");
      this.openFiles([...event.dataTransfer.files]);
    });
  }

  listenToExamples() {
    const choice = byId("example");
    choice.append(...Object.keys(EXAMPLES).map((name) => new Option(name)));
    choice.addEventListener("change", () => {
      if (choice.value) this.openExample(choice.value);
      choice.value = "";
    });
    for (const name of Object.keys(EXAMPLES)) {
      const button = textElement("button", name);
      button.type = "button";
      button.addEventListener("click", () => this.openExample(name));
      byId("example-buttons").append(button);
    }
  }

  openExample(name) {
    this.sources = new Sources();
    this.opening = name;
    this.sources.take(name, EXAMPLES[name]);
    this.load();
  }

  async openFiles(files) {
    if (files.length === 0) return;
    this.opening = "";
    this.sources.renew();
    for (const file of files) {
      try {
        this.sources.take(file.name, await readText(file));
      } catch (fault) {
        this.tell(`Can't read ${file.name}: ${fault.message}`);
        return;
      }
    }
    await this.load();
  }

  async load() {
    const { sources } = this;
    if (!sources.isWhole) return this.tell(sources.wanted(), "wanted");
    const turn = ++this.loading;
    const progress = (share) => {
      if (turn !== this.loading) throw new Superseded();
      byId("source").textContent = `Reading ${sources.output.name}: ${Math.round(share * 100)} %`;
    };
    try {
      const run = await Run.load(sources.description.text, sources.output.text, progress);
      const { broken } = run.trace;
      this.tell(broken ? `${sources.told(atFile("output", broken))}. What stands before that line is shown.` : "");
      this.setRun(run);
    } catch (fault) {
      if (fault instanceof Superseded) return;
      const isUnreadable = fault instanceof Unreadable;
      this.tell(isUnreadable ? sources.told(fault) : `The page failed over ${sources.output.name}: ${fault.message}`);
      this.fallBack(fault);
    }
  }

  // Behind files that can't be read: what was on the screen stays there, and further files are taken as if these hadn't come.
  fallBack(fault) {
    if (this.run) {
      this.sources = this.shown.copy();
      return this.nameSources();
    }
    byId("source").textContent = "";
    if (fault.file === "output") this.sources.renew();
    else this.sources = new Sources();
  }

  tell(text, className = "") {
    const message = byId("message");
    message.hidden = text === "";
    message.className = className;
    message.textContent = text;
  }

  // ---- One run ----

  nameSources() {
    const { run } = this;
    const { description, output } = this.shown;
    const names = description.name === output.name ? description.name : `${description.name} and ${output.name}`;
    byId("source").textContent = `${names}: ${run.count} ${run.count === 1 ? "event" : "events"}`;
    document.title = `${names} - a run of zumode`;
  }

  setRun(run) {
    this.run = run;
    this.k = 0;
    this.shown = this.sources.copy();
    this.example = this.opening;
    byId("empty").hidden = true;
    byId("picture").hidden = false;
    this.nameSources();
    byId("of").textContent = `of ${run.count}`;
    byId("event").max = run.count;
    byId("cell").hidden = true;
    this.showDifferences();
    this.timeline.setRun(run);
    this.matrix.setRun(run);
    this.story.setRun(run);
    this.search.setRun(run);
    this.scripts.setRun(run);
    this.showLegend();
    this.showCounts();
    const { event } = this.wanted;
    this.wanted = {};
    this.choose(Number(event ?? 0));
  }

  showDifferences() {
    const { differences } = this.run;
    const warning = byId("warning");
    warning.hidden = this.run.trace.broken !== null || (differences !== null && differences.length === 0);
    if (differences === null) {
      const why = "The output has no dump: the end of the replay is compared with nothing.";
      warning.replaceChildren(textElement("p", why));
    }
    if (!differences?.length) return;
    const items = differences.map(({ line, told, expected }) => {
      const place = `Line ${line + this.sources.output.firstLine - 1}: the output says `;
      return wrapped("li", place, textElement("code", told), ", the replay has ", textElement("code", expected));
    });
    const most = differences.length >= DIFFERENCES_KEPT ? " These are the first differences." : "";
    const why = "Either the output isn't one of this description, or it was changed.";
    warning.replaceChildren(
      textElement("p", `The replay and the dump differ. ${why}${most}`), wrapped("ul", ...items));
  }

  choose(k) {
    if (!this.run) return;
    this.k = Math.max(0, Math.min(this.run.count, Math.round(k) || 0));
    byId("event").value = this.k;
    this.timeline.show(this.k);
    this.matrix.show(this.k);
    this.story.show(this.k);
    this.search.show(this.k);
    this.scripts.show(this.k);
    this.showEvent();
    if (!byId("cell").hidden && this.cell) this.showCell(this.cell);
    this.showMatrixTitle();
    this.noteAddress();
  }

  showMatrixTitle() {
    const moment = this.k === 0 ? "at the opening" : `after event ${this.k}`;
    const title = this.matrix.isWhole ? "Who could touch what, and did, over the whole run" : `Who may touch what, ${moment}`;
    byId("matrix-title").textContent = title;
  }

  // The matrix over the whole run, or again after the chosen event.
  toggleWhole() {
    const isWhole = !this.matrix.isWhole;
    this.matrix.showWhole(isWhole, this.k);
    byId("whole-matrix").setAttribute("aria-pressed", String(isWhole));
    byId("cell").hidden = true;
    this.showMatrixTitle();
  }

  showEvent() {
    const { run, k } = this;
    byId("event-title").textContent = k === 0 ? "Opening" : `Event ${k}`;
    const [first, ...rest] = explain(run, k);
    const paragraphs = [textElement("p", first, "first"), ...rest.map((sentence) => textElement("p", sentence))];
    if (k > 0) {
      paragraphs.unshift(wrapped("p", groupIcon(run.groups[k], pageColours()), textElement("code", run.trace.line(k))));
    }
    byId("event-text").replaceChildren(...paragraphs);
    byId("event-panel").classList.toggle("failing", k > 0 && isFailure(run.groups[k]));
    byId("clock").hidden = run.kindCounts[KIND_NUMBER.get("arm")] === 0;
    byId("clock").textContent = clockText(run.stateAfter(k));
  }

  // Tells of a cell of the matrix which events gave and took the right; of a heading the story.
  showCell(cell) {
    const { thread, row, region } = cell;
    if (thread === undefined || (row === undefined && !region)) {
      if (thread !== undefined) this.tellStory("thread", thread);
      else if (row !== undefined) this.tellStory("object", row);
      else if (region) this.tellStory("memory", this.run.rights.regions.indexOf(region));
      return;
    }
    this.cell = cell;
    const { rights, description } = this.run;
    const state = this.run.stateAfter(this.k);
    const name = region ? region.name : description.nameOfRow(row);
    const label = region ? accessLabel(state, thread, region) : pairLabel(state, thread, row);
    const events = region ? rights.regionEvents(thread, region, this.k) : rights.pairEvents(thread, row, this.k);
    const heading = textElement("strong", `${description.nameOfThread(thread)} on ${name}: `);
    if (this.matrix.isWhole) return this.showWholeCell(cell, heading);
    const last = this.eventLink("Last changed by", events.last, "It has been so from the opening. ");
    const next = this.eventLink("Next changed by", events.next, "It stays so to the end. ");
    byId("cell").replaceChildren(wrapped("p", heading, `${label}. `, ...last, ...next));
    byId("cell").hidden = false;
  }

  // The same over the whole run, with what the thread did there first and last.
  showWholeCell({ label, did }, heading) {
    const links = did ? [this.eventLink("First by", did.first, ""), this.eventLink("Last by", did.last, "")].flat() : [];
    byId("cell").replaceChildren(wrapped("p", heading, `${label}. `, ...links));
    byId("cell").hidden = false;
  }

  eventLink(text, k, otherwise) {
    if (k === 0) return [otherwise];
    const button = wrapped("button", `event ${k}: `, textElement("code", this.run.trace.line(k)));
    button.type = "button";
    button.className = "link";
    button.addEventListener("click", () => this.choose(k));
    return [`${text} `, button, ". "];
  }

  tellStory(what, number) {
    this.openTab("story");
    this.story.about(what, number);
  }

  markMatches(found) {
    this.timeline.matches = found;
    this.timeline.draw();
  }

  showLegend() {
    const counts = new Array(GROUPS.length).fill(0);
    for (let k = 1; k <= this.run.count; k += 1) counts[this.run.groups[k]] += 1;
    const colours = pageColours();
    byId("legend").replaceChildren(...GROUPS.map(({ label, title }, group) => {
      const count = textElement("span", String(counts[group]), "count");
      const button = wrapped("button", groupIcon(group, colours), label, count);
      button.title = title;
      button.type = "button";
      button.disabled = counts[group] === 0;
      button.setAttribute("aria-pressed", String(!this.timeline.hidden.has(group)));
      button.addEventListener("click", () => this.toggleGroup(group, button));
      const entry = wrapped("li", button);
      entry.hidden = GROUPS[group].isOptional === true && counts[group] === 0;
      return entry;
    }));
  }

  toggleGroup(group, button) {
    const { hidden } = this.timeline;
    if (!hidden.delete(group)) hidden.add(group);
    button.setAttribute("aria-pressed", String(!hidden.has(group)));
    this.timeline.draw();
  }

  showCounts() {
    const counts = this.run.kindCounts.map((count, kind) => ({ kind: EVENT_KINDS[kind], count }));
    const rows = counts.filter(({ count }) => count > 0)
      .map(({ kind, count }) => wrapped("tr", textElement("th", kind), textElement("td", String(count))));
    byId("counts").replaceChildren(...rows);
  }

  saveMatrix() {
    const link = document.createElement("a");
    link.href = URL.createObjectURL(new Blob([matrixSvg(this.run, this.k, this.matrix.isWhole)], { type: "image/svg+xml" }));
    link.download = this.matrix.isWhole ? "matrix-whole.svg" : `matrix-${this.k}.svg`;
    link.click();
    setTimeout(() => URL.revokeObjectURL(link.href), 1000);
  }

  // ---- Buttons and keys ----

  listenToButtons() {
    const actions = {
      first: () => this.choose(0), back: () => this.choose(this.k - 1), forward: () => this.choose(this.k + 1),
      last: () => this.choose(this.run.count), failure: () => this.stepFailure(1),
      out: () => this.timeline.zoom(1 / 1.6), in: () => this.timeline.zoom(1.6), whole: () => this.timeline.showWhole(),
      save: () => this.saveMatrix(), "whole-matrix": () => this.toggleWhole(), "help-button": () => byId("help").showModal(),
    };
    for (const [id, act] of Object.entries(actions)) byId(id).addEventListener("click", act);
    byId("event").addEventListener("change", () => this.choose(Number(byId("event").value)));
    for (const tab of document.querySelectorAll("[role=tab]")) {
      tab.addEventListener("click", () => this.openTab(tab.id.replace("-tab", "")));
      tab.addEventListener("keydown", (event) => this.onTabKey(event, tab));
    }
    matchMedia("(prefers-color-scheme: dark)").addEventListener("change", () => this.repaint());
  }

  repaint() {
    if (!this.run) return;
    this.showLegend();
    this.showEvent();
    this.story.list.render();
    this.search.list.render();
  }

  openTab(name, focus = false) {
    for (const tab of document.querySelectorAll("[role=tab]")) {
      const isOpen = tab.id === `${name}-tab`;
      tab.setAttribute("aria-selected", String(isOpen));
      tab.tabIndex = isOpen ? 0 : -1;
      byId(tab.getAttribute("aria-controls")).hidden = !isOpen;
      if (isOpen && focus) tab.focus();
    }
  }

  onTabKey(event, tab) {
    const way = { ArrowRight: 1, ArrowLeft: -1 }[event.key];
    if (!way) return;
    event.preventDefault();
    event.stopPropagation();
    const tabs = [...document.querySelectorAll("[role=tab]")];
    this.openTab(tabs.at((tabs.indexOf(tab) + way) % tabs.length).id.replace("-tab", ""), true);
  }

  // The next event behind k, or before it, that a question holds of; round and round.
  stepWhere(isWanted, way) {
    const { count } = this.run;
    for (let step = 1; step <= count; step += 1) {
      const k = ((this.k - 1 + way * step) % count + count) % count + 1;
      if (isWanted(k)) return this.choose(k);
    }
  }

  stepFailure(way) {
    this.stepWhere((k) => isFailure(this.run.groups[k]), way);
  }

  stepThread(way) {
    const thread = this.run.trace.who[this.k];
    for (let k = this.k + way; k >= 1 && k <= this.run.count; k += way) {
      if (this.k === 0 || this.run.trace.who[k] === thread) return this.choose(k);
    }
  }

  onKey(event) {
    if (event.ctrlKey || event.altKey || event.metaKey || byId("help").open) return;
    if (event.key === "Escape" && event.target.matches("input, select")) event.target.blur();
    if (event.target.matches("input, select, textarea")) return;
    const always = { "?": () => byId("help").showModal(), o: () => byId("files").click() };
    const act = always[event.key] ?? (this.run && this.pictureKey(event));
    if (!act) return;
    event.preventDefault();
    act();
  }

  pictureKey(event) {
    const pan = this.timeline.span() * 0.8;
    const way = event.shiftKey ? -1 : 1;
    const keys = {
      ArrowRight: () => (event.shiftKey ? this.stepThread(1) : this.choose(this.k + 1)),
      ArrowLeft: () => (event.shiftKey ? this.stepThread(-1) : this.choose(this.k - 1)),
      Home: () => this.choose(0), End: () => this.choose(this.run.count),
      PageDown: () => this.timeline.pan(pan), PageUp: () => this.timeline.pan(-pan),
      "+": () => this.timeline.zoom(1.6), "=": () => this.timeline.zoom(1.6),
      "-": () => this.timeline.zoom(1 / 1.6), "−": () => this.timeline.zoom(1 / 1.6),
      0: () => this.timeline.showWhole(),
      f: () => this.stepFailure(way), n: () => this.search.step(this.k, way),
      "/": () => { this.openTab("search"); byId("find-words").focus(); },
      s: () => { this.openTab("story"); byId("subject").focus(); },
      w: () => this.toggleWhole(), m: () => this.matrix.focusPlace?.focus(), t: () => byId("timeline").focus(),
    };
    return keys[event.key] ?? keys[event.key.toLowerCase()];
  }
}

// The words behind the # of the address, as event=14.
function addressWords() {
  return Object.fromEntries(new URLSearchParams(location.hash.slice(1)));
}

// A load that was overtaken by a later one.
class Superseded extends Error {}

const page = new Page();
