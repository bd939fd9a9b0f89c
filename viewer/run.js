"use strict";
// A run to look at: its description, its trace, the state after each event, and where the replay and the dump differ.

const CHECKPOINT_EVERY = 1024;
const DIFFERENCES_KEPT = 20;

class Run {
  constructor(description, trace) {
    this.description = description;
    this.trace = trace;
    this.count = trace.count;
    this.checkpoints = [];
    this.nearby = null;
    this.rights = new Rights(description);
    this.waits = Array.from({ length: THREADS }, () => []);
    // The arrows from what wakes or stops another thread to that thread.
    this.arrows = [];
    // The events by which virtual time goes on, and how each thread is stopped by others.
    this.ticks = [];
    this.stops = Array.from({ length: THREADS }, () => []);
    this.goneEvents = [];
    this.failures = [];
    this.lives = Array.from({ length: THREADS }, () => []);
    this.kindCounts = new Array(EVENT_KINDS.length).fill(0);
    this.used = { rows: new Set(description.objects.map((object) => object.row)), threads: new Set() };
    this.differences = null;
  }

  // Reads and replays both texts. `progress` is called with a share from 0 to 1, and may throw to stop.
  static async load(descriptionText, outputText, progress) {
    const description = inFile("description", () => new Description(descriptionText));
    const opening = inFile("description", () => State.opening(description));
    const trace = new Trace(description, outputText);
    const pause = async (share) => {
      progress(share);
      await new Promise((resolve) => { setTimeout(resolve, 0); });
    };
    try {
      await trace.read((share) => pause(share / 2));
    } catch (fault) {
      throw atFile("output", fault);
    }
    const run = new Run(description, trace);
    await run.replay(opening, (share) => pause(0.5 + share / 2));
    return run;
  }

  async replay(state, pause) {
    const memory = new Memory(this.description);
    for (const row of this.description.threadRows) this.used.threads.add(this.description.threadOfRow(row));
    this.rights.open(state);
    this.lives.forEach((lives, thread) => {
      if (state.life[thread] === LIFE.started) lives.push({ start: 0, end: -1, failed: false });
    });
    this.groups = new Uint8Array(this.count + 1);
    this.checkpoints.push(state.clone());
    for (let k = 1; k <= this.count; k += 1) {
      memory.apply(state, this.trace, k);
      state.apply(this.trace, k);
      this.note(state, k);
      if (k % CHECKPOINT_EVERY === 0) this.checkpoints.push(state.clone());
      if (k % 8192 === 0) await pause(k / this.count);
    }
    if (this.trace.dumpAt >= 0 && !this.trace.broken) this.compare(dumpText(state, memory));
  }

  // Keeps what the picture looks up later: waits, wakes, changes of rights, and who and what takes part.
  note(state, k) {
    const { trace } = this;
    const who = trace.who[k];
    const kind = trace.kindWord(k);
    this.kindCounts[trace.kind[k]] += 1;
    this.groups[k] = groupOf(trace, k);
    if (isFailure(this.groups[k])) this.failures.push(k);
    this.used.threads.add(who);
    this.noteLife(kind, k);
    const row = trace.objectRow(k);
    if (row >= 0) this.used.rows.add(row);
    if (kind === "tick") this.ticks.push({ event: k, time: trace.time[k] });
    this.noteWaits(state, kind, k);
    this.noteStops(state, kind, k);
    if (kind === "drop" && trace.verdictWord(k) === "gone") this.goneEvents.push({ event: k, row });
    this.rights.note(state, trace, k);
  }

  // A wait goes on to the resume, or to where it is cut.
  noteWaits(state, kind, k) {
    const { trace } = this;
    const [who, peer] = [trace.who[k], trace.peer[k]];
    if (WAITING_KINDS.has(kind) && trace.verdictWord(k) === "wait") {
      const [row, deadline] = [state.waitsOn[who], state.deadline[who]];
      this.waits[who].push({ start: k, end: -1, row, deadline, woken: -1, timeout: 0, isCut: false });
    }
    if (kind === "resume" && this.waits[who].length) this.waits[who].at(-1).end = k;
    for (const { thread } of trace.woken.get(k) ?? []) {
      this.arrows.push({ event: k, from: who, to: thread, group: "wait" });
      if (this.waits[thread].length) this.waits[thread].at(-1).woken = k;
    }
    if (kind === "timeout") this.arrows.push({ event: k, from: who, to: peer, group: "timeout" });
    if (kind === "timeout" && this.waits[peer].length) this.waits[peer].at(-1).timeout = k;
    if (kind === "cut" && this.waits[peer].length) Object.assign(this.waits[peer].at(-1), { end: k, isCut: true });
  }

  // From when to when a thread is suspended, or aborted, or stays killed: one such time behind the other.
  noteStops(state, kind, k) {
    if (!STOPPING_KINDS.has(kind)) return;
    const [who, peer] = [this.trace.who[k], this.trace.peer[k]];
    const isDone = this.groups[k] === GROUP_NUMBER.get("stopped") && this.trace.verdictWord(k) !== "none";
    if (isDone && peer >= 0) this.arrows.push({ event: k, from: who, to: peer, group: "stopped" });
    const thread = peer < 0 ? who : peer;
    const last = this.stops[thread].at(-1);
    const word = state.stopped(thread);
    if (word === (last?.end < 0 ? last.word : "")) return;
    if (last?.end < 0) last.end = k;
    if (word !== "") this.stops[thread].push({ start: k, end: -1, word });
  }

  // The words of event k.
  words(k) {
    return this.trace.line(k).split(" ");
  }

  noteLife(kind, k) {
    const lives = this.lives[kind === "start" ? this.trace.peer[k] : this.trace.who[k]];
    if (kind === "start") lives.push({ start: k, end: -1, failed: false });
    if (["exit", "fatal", "killed"].includes(kind) && lives.length) {
      lives.at(-1).end = k;
      lives.at(-1).failed = kind === "fatal";
    }
  }

  compare(expected) {
    const told = this.trace.dumpLines();
    this.differences = [];
    for (let place = 0; place < Math.max(told.length, expected.length); place += 1) {
      if (told[place] === expected[place]) continue;
      if (this.differences.length === DIFFERENCES_KEPT) return;
      this.differences.push({
        line: this.trace.dumpAt + place, told: told[place] ?? "nothing", expected: expected[place] ?? "nothing",
      });
    }
    if (!this.trace.text.endsWith("\n")) {
      this.differences.push({ line: this.trace.lineCount, told: "no end of the line", expected: "an end of the line" });
    }
  }

  // The state after event k; after event 0 it is the opening. It must not be changed.
  stateAfter(k) {
    if (this.nearby?.k === k) return this.nearby.state;
    const place = Math.min(Math.floor(k / CHECKPOINT_EVERY), this.checkpoints.length - 1);
    const isNear = this.nearby && this.nearby.k < k && this.nearby.k >= place * CHECKPOINT_EVERY;
    let at = isNear ? this.nearby.k : place * CHECKPOINT_EVERY;
    const state = (isNear ? this.nearby.state : this.checkpoints[place]).clone();
    while (at < k) state.apply(this.trace, ++at);
    this.nearby = { k, state };
    return state;
  }
}

const STOPPING_KINDS = new Set(["abort", "suspend", "continue", "cut", "killed", "fatal", "exit", "start"]);

// Makes a fault say which of the two texts it was found in.
function atFile(file, fault) {
  if (fault instanceof Unreadable) fault.file = file;
  return fault;
}

function inFile(file, read) {
  try {
    return read();
  } catch (fault) {
    throw atFile(file, fault);
  }
}

// The dump that the replay expects, line by line.
function dumpText(state, memory) {
  const { description } = state;
  const rows = Array.from({ length: ROWS }, (_, row) => row).filter((row) => state.isThere(row));
  const threads = Array.from({ length: THREADS }, (_, thread) => thread)
    .filter((thread) => state.isThere(description.rowOfThread(thread) ?? -1));
  return [
    "dump",
    ...threads.map((thread) => `thread ${description.nameOfThread(thread)} ${threadText(state, thread)}`),
    ...rows.map((row) => `object ${description.nameOfRow(row)} ${objectText(state, memory, row)}`),
    ...description.domains.map((name, number) => `domain ${name} ${partsText(state.parts[number])}`),
    ...description.pools.map(({ name, size }, number) => `pool ${name} ${state.poolLeft[number]}/${size}`),
    ...memory.memoryLines(),
  ];
}

function threadText(state, thread) {
  const status = state.status(thread);
  if (status === "unborn") return status;
  const mode = state.supervisor[thread] ? "supervisor" : "user";
  return `${status} ${mode} ${state.priority[thread]} ${state.description.domains[state.domain[thread]]}`;
}

function objectText(state, memory, row) {
  const kind = state.description.kindOfRow(row);
  const isGone = state.stage[row] === STAGE.gone;
  const content = kind === "thread" && !isGone ? memory.nameOf(row) : state.content(row);
  const flag = state.isPublic[row] ? "public" : "private";
  return `${kind} ${stageText(state, row)} ${flag} ${holdersText(state, row)} ${content}`;
}

function stageText(state, row) {
  if (state.stage[row] === STAGE.gone) return "gone";
  return state.initialised[row] ? "init" : "uninit";
}

function holdersText(state, row) {
  const holders = [];
  for (let thread = 0; thread < THREADS; thread += 1) {
    if (state.hasPair(thread, row)) holders.push(state.description.nameOfThread(thread));
  }
  return holders.join(",") || "-";
}

function partsText(parts) {
  if (!parts) return "uninit";
  return parts.map(({ start, size, attr }) => `${addressText(start)}/${size}/${attr}`).join(",") || "-";
}
