"use strict";
// Lists of events: the story of one object or thread, and what a search finds. Each line of a list leads to its event.

const LIST_WINDOW = 120;

// A list of events in their order, of which a window is shown.
class EventList {
  constructor(holder, choose) {
    this.holder = holder;
    this.choose = choose;
    this.events = [];
    this.chosen = 0;
  }

  setEvents(run, events) {
    this.run = run;
    this.events = events;
    this.centre(this.chosen);
  }

  // Marks event k, and shows the part of the list round it.
  show(k) {
    this.chosen = k;
    const place = firstEventAtLeast(this.events, k);
    const isSeen = place >= this.from && place < this.from + LIST_WINDOW;
    if (!isSeen && this.events[place] === k) this.centre(k);
    for (const button of this.holder.querySelectorAll("button[data-event]")) {
      const isChosen = Number(button.dataset.event) === k;
      button.ariaCurrent = isChosen ? "true" : null;
      if (isChosen) scrollInside(this.holder, button);
    }
  }

  centre(k) {
    const place = firstEventAtLeast(this.events, k);
    this.from = Math.max(0, Math.min(place - LIST_WINDOW / 2, this.events.length - LIST_WINDOW));
    this.render();
  }

  move(by) {
    this.from = Math.max(0, Math.min(this.from + by, this.events.length - LIST_WINDOW));
    this.render();
  }

  render() {
    const { events, from } = this;
    const colours = pageColours();
    const shown = events.slice(from, from + LIST_WINDOW).map((k) => this.entry(k, colours));
    if (from > 0) shown.unshift(this.mover(`${from} earlier ones`, -LIST_WINDOW));
    const left = events.length - from - LIST_WINDOW;
    if (left > 0) shown.push(this.mover(`${left} later ones`, LIST_WINDOW));
    this.holder.replaceChildren(...shown);
  }

  entry(k, colours) {
    const button = textElement("button", "");
    button.type = "button";
    button.dataset.event = k;
    const icon = groupIcon(this.run.groups[k], colours);
    button.append(textElement("span", String(k), "number"), icon, textElement("code", this.run.trace.line(k)));
    button.addEventListener("click", () => this.choose(k));
    button.ariaCurrent = k === this.chosen ? "true" : null;
    return wrapped("li", button);
  }

  mover(text, by) {
    const button = textElement("button", text, "mover");
    button.type = "button";
    button.addEventListener("click", () => this.move(by));
    return wrapped("li", button);
  }
}

function scrollInside(holder, element) {
  const [outer, inner] = [holder.getBoundingClientRect(), element.getBoundingClientRect()];
  const isSeen = inner.top >= outer.top && inner.bottom <= outer.bottom;
  if (!isSeen) holder.scrollTop += inner.top - outer.top - outer.height / 3;
}

function textElement(name, text, className = "") {
  const element = document.createElement(name);
  element.textContent = text;
  if (className) element.className = className;
  return element;
}

function wrapped(name, ...children) {
  const element = document.createElement(name);
  element.append(...children);
  return element;
}

// The mark of a group, as it stands in the timeline.
function groupIcon(group, colours) {
  const icon = document.createElement("canvas");
  const ratio = devicePixelRatio || 1;
  icon.width = icon.height = Math.round(18 * ratio);
  icon.className = "mark";
  const context = icon.getContext("2d");
  context.scale(ratio, ratio);
  drawGroup(context, colours, group, 9, 9, 6);
  return icon;
}

// The story of one object, thread or region of memory.
class Story {
  constructor({ subject, list, summary }, choose) {
    this.subject = subject;
    this.summary = summary;
    this.list = new EventList(list, choose);
    subject.addEventListener("change", () => this.tell());
  }

  setRun(run) {
    this.run = run;
    const { description } = run;
    const threads = sorted(run.used.threads).map((thread) => [`thread ${thread}`, description.nameOfThread(thread)]);
    const rows = sorted(run.used.rows)
      .map((row) => [`object ${row}`, `${description.nameOfRow(row)} (${description.kindOfRow(row)})`]);
    const regions = run.rights.regions.map(({ name }, number) => [`memory ${number}`, name]);
    this.subject.replaceChildren(optionGroup("Threads", threads), optionGroup("Objects", rows), optionGroup("Memory", regions));
    this.tell();
  }

  // Tells of a thread, an object or a region of memory, by its index, its row or its number.
  about(what, number) {
    this.subject.value = `${what} ${number}`;
    this.tell();
  }

  tell() {
    const [what, number] = this.subject.value.split(" ");
    const { run } = this;
    const isTold = {
      thread: (k) => isOfThread(run, k, Number(number)), object: (k) => run.trace.objectRow(k) === Number(number),
      memory: isOfMemory(run, run.rights.regions[number]),
    }[what];
    const events = [];
    for (let k = 1; k <= run.count; k += 1) if (isTold(k)) events.push(k);
    this.summary.textContent = `${events.length} ${events.length === 1 ? "event" : "events"}`;
    this.list.setEvents(run, events);
  }

  show(k) {
    this.list.show(k);
  }
}

// Whether event k is made by a thread, names it, or wakes it.
function isOfThread({ trace, description }, k, thread) {
  return trace.who[k] === thread || trace.peer[k] === thread || trace.objectRow(k) === description.rowOfThread(thread)
    || (trace.woken.get(k)?.some((woken) => woken.thread === thread) ?? false);
}

// Which events touch a region of memory, or change what a thread may do there.
function isOfMemory(run, region) {
  const changes = new Set(region ? run.rights.changesOf(region) : []);
  return (k) => changes.has(k) || touches(run.trace, k, region);
}

const MEMORY_KINDS = new Set(["load", "store", "exec", "fault", "probe", "copyin", "copyout", "copystr", "futex"]);

// How many bytes events touch that don't say it.
const SIZES = { exec: 4, futex: FUTEX_SIZE };

// Whether event k reads, writes or fetches in a range of memory, or is refused to.
function touches(trace, k, { start, size, row }) {
  const kind = trace.kindWord(k);
  if (kind === "erase") return row !== undefined && trace.row[k] === row;
  const bytes = Math.max(1, SIZES[kind] ?? trace.size[k]);
  return MEMORY_KINDS.has(kind) && trace.addr[k] < start + size && start < trace.addr[k] + bytes;
}

// The regions and the variables of a run, each with its name and its range.
function namedRanges({ rights, description }) {
  const variables = description.partitions.flatMap(({ start, offsets, vars }) => (offsets ? vars : []).map(({ name, size }) => ({
    name, start: start + offsets.get(name), size,
  })));
  return [...rights.regions, ...variables];
}

function sorted(numbers) {
  return [...numbers].sort((one, other) => one - other);
}

// Fills a choice with numbers, each shown by its name, and with any.
function offer(choice, numbers, nameOf) {
  choice.replaceChildren(new Option("any", ""), ...numbers.map((number) => new Option(nameOf(number), number)));
}

function optionGroup(label, options) {
  const group = document.createElement("optgroup");
  group.label = label;
  group.append(...options.map(([value, text]) => new Option(text, value)));
  return group;
}

// The search: by thread, object, memory, kind of event, verdict, and a part of the line.
class Search {
  constructor(parts, choose, onFound) {
    Object.assign(this, parts);
    this.choose = choose;
    this.onFound = onFound;
    this.list = new EventList(parts.list, choose);
    this.found = [];
    this.choices = [parts.thread, parts.object, parts.kind, parts.verdict, parts.memory];
    for (const choice of this.choices) choice.addEventListener("change", () => this.search());
    this.words.addEventListener("input", () => this.search());
  }

  setRun(run) {
    this.run = run;
    const { description, trace } = run;
    offer(this.thread, sorted(run.used.threads), (thread) => description.nameOfThread(thread));
    offer(this.object, sorted(run.used.rows), (row) => description.nameOfRow(row));
    this.ranges = namedRanges(run);
    offer(this.memory, [...this.ranges.keys()], (range) => this.ranges[range].name);
    const kinds = [...EVENT_KINDS.keys()].filter((kind) => run.kindCounts[kind] > 0);
    offer(this.kind, kinds, (kind) => `${EVENT_KINDS[kind]} (${run.kindCounts[kind]})`);
    const verdicts = sorted(new Set(trace.verdict.subarray(1, run.count + 1))).filter((verdict) => verdict > 0);
    offer(this.verdict, verdicts, (verdict) => VERDICTS[verdict]);
    this.words.value = "";
    this.search();
  }

  search() {
    const { run } = this;
    const asked = this.choices.map(({ value }) => (value === "" ? -1 : Number(value)));
    const [thread, object, kind, verdict, memory] = asked;
    const words = this.words.value.trim();
    const isAsked = words !== "" || Math.max(...asked) >= 0;
    this.found = [];
    for (let k = 1; isAsked && k <= run.count; k += 1) {
      const fits = (kind < 0 || run.trace.kind[k] === kind) && (verdict < 0 || run.trace.verdict[k] === verdict)
        && (thread < 0 || run.trace.who[k] === thread) && (object < 0 || run.trace.objectRow(k) === object)
        && (memory < 0 || touches(run.trace, k, this.ranges[memory])) && (words === "" || run.trace.line(k).includes(words));
      if (fits) this.found.push(k);
    }
    const told = `${this.found.length} found; n and Shift+n go through them`;
    this.summary.textContent = isAsked ? told : "Nothing is asked for yet.";
    this.list.setEvents(run, this.found);
    this.onFound(this.found);
  }

  // The next one found behind event k, or before it; round and round.
  step(k, way) {
    if (this.found.length === 0) return;
    const place = firstEventAtLeast(this.found, way > 0 ? k + 1 : k) - (way > 0 ? 0 : 1);
    this.choose(this.found.at(place % this.found.length));
  }

  show(k) {
    this.list.show(k);
  }
}
