"use strict";
// What holds between two events of a run: permissions, objects, threads, domains, pools, what objects contain, and virtual
// time. `apply` takes one event further. It believes the trace, and checks nothing: it draws, and judges nothing.

const STAGE = { free: 0, live: 1, gone: 2, reserved: 3 };
const LIFE = { unborn: 0, started: 1, ended: 2 };
const OBJECT_COST = 64;

class State {
  // The state before the first event.
  static opening(description) {
    const state = new State();
    state.description = description;
    state.allot();
    for (const object of description.objects) state.openObject(object);
    description.pools.forEach((pool, number) => { state.poolLeft[number] = pool.size; });
    for (const domain of entries(description.table, "domain")) state.parts.push(openParts(description, domain));
    for (const boot of entries(description.table, "boot")) state.openThread(boot);
    return state;
  }

  allot() {
    // By row. A bit of `pairs` and of `held` stands for a thread index.
    this.pairs = new Uint32Array(ROWS);
    this.held = new Uint32Array(ROWS);
    this.stage = new Uint8Array(ROWS);
    this.initialised = new Uint8Array(ROWS);
    this.isPublic = new Uint8Array(ROWS);
    this.count = new Uint32Array(ROWS);
    this.limit = new Uint32Array(ROWS);
    this.owner = new Int8Array(ROWS).fill(-1);
    this.closed = new Uint8Array(ROWS);
    this.costPool = new Int8Array(ROWS).fill(-1);
    this.bufferPool = new Int8Array(ROWS).fill(-1);
    this.bufferSize = new Uint32Array(ROWS);
    // The tick at which a running timer runs out, or -1.
    this.expires = new Float64Array(ROWS).fill(-1);
    // By thread index.
    this.life = new Uint8Array(THREADS);
    this.holdsItself = new Uint8Array(THREADS);
    this.doomed = new Uint8Array(THREADS);
    this.supervisor = new Uint8Array(THREADS);
    this.priority = new Int8Array(THREADS);
    this.domain = new Int8Array(THREADS);
    this.pool = new Int8Array(THREADS).fill(-1);
    this.stackRow = new Int16Array(THREADS).fill(-1);
    this.erased = new Int16Array(THREADS).fill(-1);
    // What a thread waits on: an object or, for its end, a thread, by its row; or a futex, by its address. -1 and 0 for none.
    this.waitsOn = new Int16Array(THREADS).fill(-1);
    this.waitsAt = new Uint32Array(THREADS);
    // The deadline that a thread's line has armed, or -1.
    this.deadline = new Float64Array(THREADS).fill(-1);
    this.aborted = new Uint8Array(THREADS);
    this.suspended = new Uint8Array(THREADS);
    this.killed = new Uint8Array(THREADS);
    this.script = new Int16Array(THREADS).fill(-1);
    this.line = new Uint16Array(THREADS);
    this.paid = new Uint32Array(THREADS);
    this.registers = new Uint32Array(THREADS * 8);
    this.poolLeft = new Int32Array(4);
    // By domain: a list of partitions, or null where it isn't initialised. Lists are replaced, never changed.
    this.parts = [];
    // Virtual time, and the armed deadlines ahead of it, the least one first.
    this.now = 0;
    this.armed = [];
  }

  clone() {
    const copy = new State();
    for (const [key, value] of Object.entries(this)) {
      copy[key] = key === "description" || key === "now" ? value : value.slice();
    }
    return copy;
  }

  openObject(object) {
    const { row, kind } = object;
    this.stage[row] = STAGE.live;
    this.isPublic[row] = object.public ? 1 : 0;
    this.count[row] = kind === "sem" ? object.count ?? 0 : 0;
    const limits = { sem: object.limit, msgq: object.max_msgs, stack: object.entries, pipe: object.size };
    this.limit[row] = limits[kind] ?? 0;
    const isOpen = { mutex: object.init ?? false, timer: true }[kind] ?? limits[kind] !== undefined;
    this.initialised[row] = Number(isOpen);
  }

  openThread(boot) {
    const { description } = this;
    const row = description.row(boot.thread);
    const thread = description.threadOfRow(row);
    const stackRow = description.row(boot.stack);
    const domain = description.domains.indexOf(boot.domain);
    if (thread < 0 || stackRow < 0 || domain < 0) {
      throw new Unreadable(0, `the boot entry of "${boot.thread}" names a thread, stack or domain that isn't there`);
    }
    this.stackRow[thread] = stackRow;
    this.initialised[row] = 1;
    this.initialised[stackRow] = 1;
    this.beginLife(thread, {
      supervisor: boot.mode === "supervisor", priority: boot.priority, domain,
      pool: description.pools.findIndex((pool) => pool.name === boot.pool),
      script: description.scripts.findIndex((script) => script.name === boot.script),
    });
    for (const name of [boot.thread, ...(boot.grants ?? [])]) this.give(thread, description.row(name));
  }

  beginLife(thread, { supervisor, priority, domain, pool, script }) {
    this.life[thread] = LIFE.started;
    this.holdsItself[thread] = 1;
    this.supervisor[thread] = supervisor ? 1 : 0;
    this.priority[thread] = priority;
    this.domain[thread] = domain;
    this.pool[thread] = pool;
    this.script[thread] = script;
    this.line[thread] = 0;
    for (const column of [this.aborted, this.suspended, this.killed]) column[thread] = 0;
    this.endWait(thread);
    this.registers.fill(0, thread * 8, thread * 8 + 8);
  }

  endWait(thread) {
    this.waitsOn[thread] = -1;
    this.waitsAt[thread] = 0;
  }

  waits(thread) {
    return this.waitsOn[thread] >= 0 || this.waitsAt[thread] > 0;
  }

  // The threads that wait on an object or for the end of a thread, by its row.
  waitersOn(row) {
    return threadsWhere((thread) => this.waitsOn[thread] === row);
  }

  // The threads that wait on a futex, by its address.
  waitersAt(address) {
    return threadsWhere((thread) => this.waitsAt[thread] === address);
  }

  give(thread, row) {
    if (row >= 0) this.pairs[row] |= 1 << thread;
  }

  take(thread, row) {
    if (row >= 0) this.pairs[row] &= ~(1 << thread);
  }

  hasPair(thread, row) {
    return (this.pairs[row] & (1 << thread)) !== 0;
  }

  // Whether a call of the thread, or the thread's own life, keeps the object from being recycled.
  holds(thread, row) {
    const isOwn = this.holdsItself[thread] && this.description.rowOfThread(thread) === row;
    return isOwn || (this.held[row] & (1 << thread)) !== 0;
  }

  isThere(row) {
    return this.stage[row] === STAGE.live || this.stage[row] === STAGE.gone;
  }

  // The words of the script line that the thread makes.
  words(thread) {
    return this.description.lineWords(this.script[thread], this.line[thread]);
  }

  // The value of a number, a register or a place in a thread's script line.
  term(thread, word = "0") {
    if (/^r[0-7]$/.test(word)) return this.registers[thread * 8 + Number(word[1])];
    if (!word.startsWith("@")) return Number(word) >>> 0;
    const [name, offset] = word.slice(1).split("+");
    return (this.description.addressOfName(name) + Number(offset ?? 0)) >>> 0;
  }

  setRegister(thread, word, value) {
    if (/^r[0-7]$/.test(word ?? "")) this.registers[thread * 8 + Number(word[1])] = value;
  }

  status(thread) {
    if (this.life[thread] === LIFE.unborn) return "unborn";
    if (this.doomed[thread]) return "doomed";
    if (this.life[thread] === LIFE.ended) return "ended";
    if (this.waitsAt[thread] > 0) return `waits:${addressText(this.waitsAt[thread])}`;
    const row = this.waitsOn[thread];
    return row < 0 ? "ready" : `waits:${this.description.nameOfRow(row)}`;
  }

  // How a thread is stopped: "killed", "aborted" before its end, "suspended" or "".
  stopped(thread) {
    if (this.killed[thread]) return "killed";
    if (this.life[thread] !== LIFE.started) return "";
    if (this.aborted[thread]) return "aborted";
    return this.suspended[thread] ? "suspended" : "";
  }

  // What an object contains, as a dump shows it. The name of a thread isn't kept here.
  content(row) {
    if (this.stage[row] !== STAGE.live || !this.initialised[row]) return "-";
    const [count, limit] = [this.count[row], this.limit[row]];
    switch (this.description.kindOfRow(row)) {
      case "mutex": return this.owner[row] < 0 ? "free" : `${this.description.nameOfThread(this.owner[row])}*${count}`;
      case "pipe": return this.closed[row] ? "closed" : `${count}/${limit}`;
      case "timer": return `${count}/${this.expires[row] < 0 ? "stopped" : "running"}`;
      case "sem": case "msgq": case "stack": return `${count}/${limit}`;
      default: return "-";
    }
  }

  // What a thread may do in each byte of a region, such as "rw-", or "" where it isn't so of all of them. A partition of its
  // domain may be wider than the region.
  access(thread, region) {
    if (this.life[thread] !== LIFE.started) return "";
    const supervisor = this.supervisor[thread] === 1;
    if (region.what === "rodata") return "r--";
    if (region.what === "stack") return supervisor || this.stackRow[thread] === region.row ? "rw-" : "";
    const part = this.partsAt(thread, region).find((one) => contains(one, region));
    return part ? attributeRights(part.attr, supervisor) : "";
  }

  // The partitions of a thread's domain that share bytes with a region.
  partsAt(thread, region) {
    if (this.life[thread] !== LIFE.started || !["partition", "futex"].includes(region.what)) return [];
    const parts = this.parts[this.domain[thread]] ?? [];
    return parts.filter(({ start, size }) => start < region.start + region.size && region.start < start + size);
  }

  // The parts of a region that a thread reaches, where it doesn't reach all of it in one.
  pieces(thread, region) {
    return this.partsAt(thread, region)
      .map((part) => ({ ...part, rights: attributeRights(part.attr, this.supervisor[thread] === 1) }))
      .filter((part) => part.rights !== "" && !contains(part, region));
  }

  // Why a thread may name an object: by a permission, since it is public, or since a supervisor needs no permission; else "".
  naming(thread, row) {
    if (this.stage[row] !== STAGE.live) return "";
    if (this.hasPair(thread, row)) return "permission";
    if (this.isPublic[row]) return "public";
    return this.life[thread] === LIFE.started && this.supervisor[thread] ? "supervisor" : "";
  }

  apply(trace, k) {
    const change = CHANGES[trace.kindWord(k)];
    if (change) change(this, trace, k, trace.who[k]);
  }
}

function threadsWhere(holds) {
  return Array.from({ length: THREADS }, (_, thread) => thread).filter(holds);
}

// Whether a range has each byte of another one.
function contains(outer, inner) {
  return outer.start <= inner.start && inner.start + inner.size <= outer.start + outer.size;
}

// The supervisor's or the user's part of an attribute such as P_RW_U_RO.
function attributeRights(attr, supervisor) {
  const word = attr.split("_")[supervisor ? 1 : 3];
  if (word === "NA") return "";
  return ["R", "W", "X"].map((right) => (word.includes(right) ? right.toLowerCase() : "-")).join("");
}

function openParts(description, domain) {
  return domain.partitions?.map((name) => namedPart(description, name)) ?? null;
}

function namedPart(description, name) {
  const partition = description.partitionNamed(name);
  return { start: partition.start, size: partition.range, attr: partition.attr };
}

// A partition as a script line names it: by its name, or ADDR/SIZE/ATTR.
function partOfWord(description, word) {
  const [start, size, attr] = word.split("/");
  return attr ? { start: Number(start), size: Number(size), attr } : namedPart(description, word);
}

// What each kind of event changes. Kinds that aren't here change nothing that is drawn.
const CHANGES = {
  begin(state, trace, k, who) {
    state.script[who] = trace.row[k];
    state.line[who] = trace.size[k];
    state.deadline[who] = -1;
    const [name, to, term] = state.words(who);
    if (name === "set") state.setRegister(who, to, state.term(who, term));
    if (name === "add") state.setRegister(who, to, state.registers[who * 8 + Number(to[1])] + state.term(who, term));
  },
  load: (state, trace, k, who) => state.setRegister(who, state.words(who)[1], trace.value[k]),
  check(state, trace, k, who) {
    if (trace.verdictWord(k) === "ok" && trace.row[k] >= 0) state.held[trace.row[k]] |= 1 << who;
  },
  reply: (state, trace, k, who) => endCall(state, who),
  fatal(state, trace, k, who) {
    endCall(state, who);
    if (trace.size[k] !== 4 && !state.description.halts) state.life[who] = LIFE.ended;
  },
  exit: (state, trace, k, who) => { state.life[who] = LIFE.ended; },
  killed(state, trace, k, who) {
    endCall(state, who);
    state.life[who] = LIFE.ended;
    state.killed[who] = 1;
  },
  abort: markWhereOk("aborted", 1),
  suspend: markWhereOk("suspended", 1),
  continue: markWhereOk("suspended", 0),
  cut: (state, trace, k) => state.endWait(trace.peer[k]),
  timeout: (state, trace, k) => state.endWait(trace.peer[k]),
  join(state, trace, k, who) {
    if (trace.verdictWord(k) === "wait") state.waitsOn[who] = state.description.rowOfThread(trace.peer[k]);
  },
  left: endWaitsOfWoken,
  futex(state, trace, k, who) {
    if (trace.verdictWord(k) === "wait") state.waitsAt[who] = trace.addr[k];
    endWaitsOfWoken(state, trace, k);
  },
  arm(state, trace, k, who) {
    const deadline = trace.time[k];
    state.deadline[who] = deadline;
    if (deadline > state.now && !state.armed.includes(deadline)) state.armed = sorted([...state.armed, deadline]);
  },
  tick(state, trace, k) {
    state.now = trace.time[k];
    state.armed = state.armed.filter((deadline) => deadline > state.now);
  },
  expire: expireTimer,
  doom: (state, trace, k) => { state.doomed[trace.size[k]] = 1; },
  user: (state, trace, k, who) => { state.supervisor[who] = 0; },
  grant: giveWhere("ok"),
  inherit: giveWhere(""),
  own(state, trace, k) {
    if (trace.verdictWord(k) === "ok") state.give(trace.peer[k], state.description.rowOfThread(trace.peer[k]));
  },
  drop(state, trace, k) {
    state.take(trace.peer[k], trace.row[k]);
    if (trace.verdictWord(k) === "gone") state.stage[trace.row[k]] = STAGE.gone;
  },
  public: (state, trace, k) => setWhereOk(state.isPublic, trace, k),
  setinit: (state, trace, k) => setWhereOk(state.initialised, trace, k),
  uninit(state, trace, k, who) {
    const row = trace.row[k];
    state.initialised[row] = 0;
    if (state.description.rowOfThread(who) === row) state.holdsItself[who] = 0;
  },
  reserve(state, trace, k, who) {
    const row = trace.row[k];
    state.setRegister(who, state.words(who)[2], row < 0 ? 0 : DYNAMIC_OBJECTS_START + 64 * (row - FIRST_DYNAMIC_ROW));
    if (row < 0) return;
    state.stage[row] = STAGE.reserved;
    state.costPool[row] = state.pool[who];
    pay(state, state.pool[who], OBJECT_COST);
  },
  born(state, trace, k, who) {
    state.stage[trace.row[k]] = STAGE.live;
    state.give(who, trace.row[k]);
  },
  buffer(state, trace, k, who) {
    if (trace.verdictWord(k) !== "ok") return;
    state.paid[who] = trace.size[k];
    pay(state, state.pool[who], trace.size[k]);
  },
  unbuffer(state, trace, k, who) {
    state.paid[who] = 0;
    pay(state, state.pool[who], -trace.size[k]);
  },
  recycle: (state, trace, k) => clearRow(state, trace.row[k]),
  erase: (state, trace, k, who) => { state.erased[who] = trace.row[k]; },
  start(state, trace, k, who) {
    const [, , , , script, priority, options = ""] = state.words(who);
    const thread = trace.peer[k];
    state.stackRow[thread] = state.erased[who];
    state.beginLife(thread, {
      supervisor: !options.split("+").includes("K_USER"), priority: Number(priority), domain: state.domain[who],
      pool: state.pool[who], script: state.description.scripts.findIndex((one) => one.name === script),
    });
  },
  domain: changeDomain,
  act: changeContent,
};

function endCall(state, who) {
  for (let row = 0; row < ROWS; row += 1) state.held[row] &= ~(1 << who);
}

function giveWhere(verdict) {
  return (state, trace, k) => {
    if (trace.verdictWord(k) === verdict) state.give(trace.peer[k], trace.row[k]);
  };
}

function setWhereOk(column, trace, k) {
  if (trace.verdictWord(k) === "ok" && trace.row[k] >= 0) column[trace.row[k]] = 1;
}

function markWhereOk(column, mark) {
  return (state, trace, k) => {
    if (trace.verdictWord(k) === "ok") state[column][trace.peer[k]] = mark;
  };
}

function endWaitsOfWoken(state, trace, k) {
  for (const { thread } of trace.woken.get(k) ?? []) state.endWait(thread);
}

function pay(state, pool, bytes) {
  if (pool >= 0) state.poolLeft[pool] -= bytes;
}

const CLEARED_TO_ZERO = [
  "pairs", "held", "stage", "initialised", "isPublic", "count", "limit", "closed", "bufferSize",
];

function clearRow(state, row) {
  pay(state, state.costPool[row], -OBJECT_COST);
  pay(state, state.bufferPool[row], -state.bufferSize[row]);
  for (const column of CLEARED_TO_ZERO) state[column][row] = 0;
  for (const column of ["owner", "costPool", "bufferPool"]) state[column][row] = -1;
  const thread = state.description.threadOfRow(row);
  if (thread >= 0) state.life[thread] = LIFE.unborn;
}

function changeDomain(state, trace, k, who) {
  if (trace.verdictWord(k) !== "number" || trace.value[k] !== 0) return;
  const number = trace.row[k];
  const [, , what, , word] = trace.line(k).split(" ");
  if (what === "move") {
    state.domain[trace.peer[k]] = number;
  } else if (what === "init") {
    state.parts[number] = state.words(who).slice(2).map((part) => partOfWord(state.description, part));
  } else if (what === "add") {
    state.parts[number] = [...(state.parts[number] ?? []), partOfWord(state.description, word)];
  } else {
    const { start, size } = partOfWord(state.description, word);
    state.parts[number] = (state.parts[number] ?? []).filter((part) => part.start !== start || part.size !== size);
  }
}
