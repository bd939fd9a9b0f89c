"use strict";
// Which events gave or took a right: the right to name an object, and what threads may do in regions of memory; and what
// threads could do and did over the whole run. All of it is noted once, while a run is replayed.

class Rights {
  constructor(description) {
    this.description = description;
    // The rows of the memory part of the matrix. Partitions that a script names by numbers come behind the others.
    this.regions = [...description.regions];
    this.futexes = this.regions.filter(({ what }) => what === "futex");
    // By row and thread, and by region and thread: the events that changed the right, in their order.
    this.ofPairs = new Map();
    this.ofRegions = new Map();
    this.naming = new Map();
    this.access = new Map();
    // The same keys: what could be done and was done, with the first and the last event of each.
    this.couldName = new Map();
    this.didName = new Map();
    this.couldReach = new Map();
    this.didReach = new Map();
  }

  open(state) {
    this.noteRegions(state);
    for (let thread = 0; thread < THREADS; thread += 1) this.compareThread(state, thread, 0);
  }

  // Takes event k in, after which `state` holds.
  note(state, trace, k) {
    const kind = trace.kindWord(k);
    if (trace.changesPair(k)) {
      const { thread, row } = trace.pairOf(k);
      this.compareNaming(state, thread, row, k);
    }
    this.noteUse(trace, k, kind);
    switch (kind) {
      case "start": return this.compareThread(state, trace.peer[k], k);
      case "user": case "exit": case "fatal": case "killed": return this.compareThread(state, trace.who[k], k);
      case "domain": return this.noteDomain(state, trace.row[k], trace.peer[k], k);
      case "born": case "recycle": case "public": return this.compareObject(state, trace.objectRow(k), k);
      case "drop": return trace.verdictWord(k) === "gone" ? this.compareObject(state, trace.objectRow(k), k) : undefined;
      default: return undefined;
    }
  }

  // What the thread of event k did: a check that it passed, or memory that it reached.
  noteUse(trace, k, kind) {
    const [who, verdict] = [trace.who[k], trace.verdictWord(k)];
    if (kind === "check" && verdict === "ok" && trace.row[k] >= 0) {
      noteDone(this.didName, trace.row[k] * THREADS + who, "", k);
    }
    const right = RIGHT_OF_KIND[kind];
    if (!right || !DONE_VERDICTS.has(verdict)) return;
    const reached = this.futexes.filter((futex) => touches(trace, k, futex));
    const region = this.regionAt(trace.addr[k]);
    if (region) reached.push(region);
    for (const one of reached) noteDone(this.didReach, this.regions.indexOf(one) * THREADS + who, right, k);
  }

  noteDomain(state, domain, moved, k) {
    this.noteRegions(state);
    for (let thread = 0; thread < THREADS; thread += 1) {
      if (thread === moved || state.domain[thread] === domain) this.compareAccess(state, thread, k);
    }
  }

  noteRegions(state) {
    for (const { start, size, attr } of state.parts.flatMap((parts) => parts ?? [])) {
      const partitions = this.regions.filter((region) => region.what === "partition");
      const isKnown = partitions.some((region) => region.start === start && region.size === size);
      if (!isKnown) this.regions.push({ what: "partition", name: addressText(start), start, size, attr });
    }
  }

  compareThread(state, thread, k) {
    this.compareAccess(state, thread, k);
    for (let row = 0; row < ROWS; row += 1) this.compareNaming(state, thread, row, k);
  }

  compareObject(state, row, k) {
    for (let thread = 0; row >= 0 && thread < THREADS; thread += 1) this.compareNaming(state, thread, row, k);
  }

  compareNaming(state, thread, row, k) {
    const key = row * THREADS + thread;
    noteChange(this.naming, this.ofPairs, this.couldName, key, state.naming(thread, row), k);
  }

  compareAccess(state, thread, k) {
    this.regions.forEach((region, number) => {
      const pieces = state.pieces(thread, region).map(({ start, size, rights }) => `${rights} ${start} ${size}`);
      const now = [state.access(thread, region), ...pieces].filter((part) => part).join(",");
      noteChange(this.access, this.ofRegions, this.couldReach, number * THREADS + thread, now, k);
    });
  }

  // The events around k that gave or took the right to name an object: the last one up to k, and the next one; 0 for none.
  pairEvents(thread, row, k) {
    return around(this.ofPairs.get(row * THREADS + thread) ?? [], k);
  }

  // The same of what a thread may do in a region.
  regionEvents(thread, region, k) {
    return around(this.ofRegions.get(this.regions.indexOf(region) * THREADS + thread) ?? [], k);
  }

  // The events that changed what any thread may do in a region.
  changesOf(region) {
    const number = this.regions.indexOf(region);
    const found = Array.from({ length: THREADS }, (_, thread) => this.ofRegions.get(number * THREADS + thread) ?? []).flat();
    return sorted(new Set(found));
  }

  // The region that has an address, if any.
  regionAt(address) {
    return this.regions.find(({ start, size }) => address >= start && address < start + size);
  }
}

// The right that an event uses where it isn't refused, and what it says then.
const RIGHT_OF_KIND = { load: "r", store: "w", exec: "x", copyin: "r", copystr: "r", copyout: "w", futex: "r" };
const DONE_VERDICTS = new Set(["", "ok", "number", "wait", "EAGAIN", "ETIMEDOUT"]);

// Notes what holds from event k on, and, where it is another than before, event k as one that changed it. `could` gets what
// held at some time, from the first event behind which it did to the last one.
function noteChange(held, changes, could, key, now, k) {
  const before = held.get(key) ?? "";
  if (k > 0 && now !== before) addTo(changes, key, k);
  if (now !== before) held.set(key, now);
  if (now !== "") {
    const entry = could.get(key) ?? { what: new Set(), first: k };
    entry.what.add(now);
    entry.last = Infinity;
    could.set(key, entry);
  } else if (before !== "") {
    could.get(key).last = k - 1;
  }
}

function noteDone(done, key, what, k) {
  const entry = done.get(key) ?? { what: new Set(), first: k, count: 0 };
  entry.what.add(what);
  entry.last = k;
  entry.count += 1;
  done.set(key, entry);
}

function addTo(map, key, k) {
  if (!map.has(key)) map.set(key, []);
  if (map.get(key).at(-1) !== k) map.get(key).push(k);
}

function around(events, k) {
  const before = firstEventAtLeast(events, k + 1);
  return { last: before > 0 ? events[before - 1] : 0, next: events[before] ?? 0 };
}

// The place of the first of a list of events in their order that is at least k.
function firstEventAtLeast(events, k) {
  let [low, high] = [0, events.length];
  while (low < high) {
    const middle = (low + high) >> 1;
    if (events[middle] < k) low = middle + 1;
    else high = middle;
  }
  return low;
}
