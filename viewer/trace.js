"use strict";
// Reads an output of the program: the lines of its events into columns of numbers, and the dump behind them as text.

const EVENT_KINDS = [
  "begin", "check", "load", "store", "exec", "fault", "probe", "copyin", "copyout", "copystr", "erase", "act", "resume",
  "reply", "grant", "own", "inherit", "drop", "public", "setinit", "uninit", "name", "reserve", "born", "buffer",
  "unbuffer", "recycle", "domain", "start", "user", "fatal", "doom", "exit", "arm", "tick", "timeout", "expire", "abort",
  "suspend", "continue", "killed", "cut", "join", "left", "futex",
];
const KIND_NUMBER = new Map(EVENT_KINDS.map((kind, number) => [kind, number]));

// What an event says of itself. A reply that is a number is `number`, one that is an object's address is `address`.
const VERDICTS = [
  "", "ok", "gone", "kept", "none", "wait", "void", "NULL", "number", "address", "unreadable", "toolong",
  "EPERM", "EBADF", "EINVAL", "EADDRINUSE", "EFAULT", "EBUSY", "EAGAIN", "ENOMEM", "ENOMSG", "ENOSPC", "ENOENT",
  "EPIPE", "ECANCELED", "EDEADLK", "EACCES", "ETIMEDOUT",
];
const VERDICT_NUMBER = new Map(VERDICTS.map((verdict, number) => [verdict, number]));
const FIRST_ERROR = VERDICT_NUMBER.get("EPERM");
const ERRORS = VERDICTS.slice(FIRST_ERROR);

const CAUSES = [
  ...ERRORS, "size", "no_user", "essential", "priority", "priority_higher", "access", "privileged", "k_oops", "k_panic",
];

// The words that follow the kind of an event, each named by how it is read (the functions of `FIELDS`).
const FORMS = {
  begin: "script line", check: "object kind want checked", load: "memory size value", store: "memory size value",
  exec: "memory", fault: "access memory size", probe: "memory size fits", copyin: "memory size fits",
  copyout: "memory size fits", copystr: "memory length", erase: "object", act: "object answer", resume: "",
  reply: "reply", grant: "thread object given", own: "thread given", inherit: "thread object",
  drop: "thread object left", public: "object given", setinit: "object set", uninit: "object", name: "thread",
  reserve: "kind reserved", born: "object", buffer: "size paid", unbuffer: "size", recycle: "object", start: "thread",
  user: "", fatal: "reason cause", doom: "index", exit: "", arm: "time", tick: "time", timeout: "thread", expire: "object",
  abort: "thread marked", suspend: "thread marked", continue: "thread marked", killed: "", cut: "thread",
  join: "thread answer", left: "thread",
};
for (const kind in FORMS) FORMS[kind] = FORMS[kind].split(" ").filter((field) => field !== "");
const DOMAIN_FORMS = { init: ["reply"], add: ["part", "reply"], remove: ["part", "reply"], move: ["thread", "reply"] };
const FUTEX_FORMS = { wait: ["memory", "value", "compared"], wake: ["memory", "reply"] };
// The kinds of events behind whose words the threads stand that they wake.
const WAKING_KINDS = new Set(["act", "expire", "left", "futex wake"]);

const MEMORY_WORD = /^0x[0-9a-f]{8}$/;
const COUNT_WORD = /^\d{1,10}$/;
const TIME_WORD = /^\d{1,15}$/;
const PART_WORD = /^(0x[0-9a-f]{8})\/(\d{1,10})\/(P_\w+)$/;

class Trace {
  constructor(description, text) {
    this.description = description;
    this.text = text;
    this.count = 0;
    this.woken = new Map();
    this.dumpAt = -1;
    // What is wrong in the first line that can't be read; what stands before it is shown.
    this.broken = null;
    this.lineCount = 0;
    this.allot(Math.max(16, text.split("\n").length));
  }

  // The columns. Event k, from 1 on, stands at k; the column entry 0 is the opening.
  allot(most) {
    this.starts = new Uint32Array(most + 2);
    this.who = new Uint8Array(most + 2);
    this.kind = new Uint8Array(most + 2);
    this.row = new Int16Array(most + 2).fill(-1);
    this.peer = new Int8Array(most + 2).fill(-1);
    this.verdict = new Uint8Array(most + 2);
    this.addr = new Uint32Array(most + 2);
    this.size = new Uint32Array(most + 2);
    this.value = new Uint32Array(most + 2);
    // Ticks of virtual time, which may take more than 32 bits.
    this.time = new Float64Array(most + 2);
  }

  // Reads all lines up to the first one that can't be read; now and then `pause` is awaited, with the part that is read. Throws
  // `Unreadable` where no event stands before that line.
  async read(pause) {
    let at = 0;
    while (at < this.text.length && !this.broken) {
      const end = this.text.indexOf("\n", at);
      this.readLine(this.text.slice(at, end < 0 ? this.text.length : end), at);
      if (!this.broken) at = end < 0 ? this.text.length : end + 1;
      if (this.lineCount % 8192 === 0) await pause(at / this.text.length);
    }
    this.starts[this.count + 1] = at;
    if (this.lineCount === 0) throw new Unreadable(1, "the output is empty");
    if (this.broken && this.count === 0) throw this.broken;
  }

  readLine(line, at) {
    this.lineCount += 1;
    try {
      if (this.dumpAt < 0 && line !== "dump") return this.readEvent(line, at);
      if (this.dumpAt < 0) this.dumpAt = this.lineCount;
      return this.checkDumpLine(line);
    } catch (fault) {
      if (!(fault instanceof Unreadable)) throw fault;
      this.broken = fault;
    }
  }

  readEvent(line, at) {
    const words = line.split(" ");
    const k = this.count + 1;
    const row = this.description.row(words[0]);
    const thread = row < 0 ? -1 : this.description.threadOfRow(row);
    const kind = KIND_NUMBER.get(words[1]);
    if (kind === undefined) this.refuse(line, "it is no line of a run");
    if (thread < 0) this.refuse(line, `the description has no thread "${words[0]}"`);
    this.starts[k] = at;
    this.who[k] = thread;
    this.kind[k] = kind;
    this.readFields(k, words, line);
    this.count = k;
  }

  readFields(k, words, line) {
    const isDomain = words[1] === "domain";
    const form = { domain: DOMAIN_FORMS, futex: FUTEX_FORMS }[words[1]]?.[words[2]] ?? FORMS[words[1]];
    if (!form) this.refuse(line, "it is no line of a run");
    const first = { domain: 4, futex: 3 }[words[1]] ?? 2;
    if (isDomain) this.row[k] = this.description.domains.indexOf(words[3]);
    if (isDomain && this.row[k] < 0) this.refuse(line, `the description has no domain "${words[3]}"`);
    for (let place = 0; place < form.length; place += 1) {
      const word = words[first + place];
      if (word === undefined || !FIELDS[form[place]](this, k, word)) {
        this.refuse(line, word === undefined ? "it is cut" : `"${word}" doesn't belong there`);
      }
    }
    const last = first + form.length;
    const kind = words[1] === "futex" ? `futex ${words[2]}` : words[1];
    if (WAKING_KINDS.has(kind)) this.readWoken(k, words, last, line);
    else if (words.length > last) this.refuse(line, "it goes on too long");
  }

  // The threads that an event wakes, each with its reply.
  readWoken(k, words, at, line) {
    const woken = [];
    for (; at < words.length; at += 3) {
      const thread = this.threadNamed(words[at + 1] ?? "");
      const reply = words[at + 2];
      if (words[at] !== "wake" || thread < 0 || !(COUNT_WORD.test(reply) || VERDICT_NUMBER.has(reply))) {
        this.refuse(line, "whom it wakes can't be read");
      }
      woken.push({ thread, reply: COUNT_WORD.test(reply) ? Number(reply) : reply });
    }
    if (woken.length) this.woken.set(k, woken);
  }

  // An address of an object: a name, #j, or any other in digits, which is row -1.
  readAddress(k, word) {
    this.row[k] = this.description.row(word);
    if (this.row[k] < 0) this.addr[k] = Number(word);
    return this.row[k] >= 0 || MEMORY_WORD.test(word);
  }

  threadNamed(word) {
    const row = this.description.row(word);
    return row < 0 ? -1 : this.description.threadOfRow(row);
  }

  checkDumpLine(line) {
    const isFine = DUMP_LINES.some((pattern) => pattern.test(line));
    if (!isFine) this.refuse(line, "it is no line of a dump");
  }

  refuse(line, why) {
    const shown = line.length > 80 ? `${line.slice(0, 80)}…` : line;
    throw new Unreadable(this.lineCount, `${why}: ${shown === "" ? "an empty line" : shown}`);
  }

  // The text of event k; the opening has none.
  line(k) {
    return k === 0 ? "" : this.text.slice(this.starts[k], this.starts[k + 1]).split("\n", 1)[0];
  }

  kindWord(k) {
    return EVENT_KINDS[this.kind[k]];
  }

  verdictWord(k) {
    return VERDICTS[this.verdict[k]];
  }

  // The row of the object that event k is about, or -1. Lines of scripts and calls on domains are about none.
  objectRow(k) {
    const kind = EVENT_KINDS[this.kind[k]];
    if (kind === "begin" || kind === "domain") return -1;
    return kind === "own" ? this.description.rowOfThread(this.peer[k]) : this.row[k];
  }

  // Whether event k gives or takes a permission.
  changesPair(k) {
    const verdict = VERDICTS[this.verdict[k]];
    switch (EVENT_KINDS[this.kind[k]]) {
      case "born": case "inherit": return true;
      case "grant": case "own": return verdict === "ok" && this.objectRow(k) >= 0;
      case "drop": return verdict !== "none";
      default: return false;
    }
  }

  // The thread and the object of a permission that event k gives or takes.
  pairOf(k) {
    return { thread: this.kindWord(k) === "born" ? this.who[k] : this.peer[k], row: this.objectRow(k) };
  }

  dumpLines() {
    return this.dumpAt < 0 ? [] : this.text.replace(/\n$/, "").split("\n").slice(this.dumpAt - 1);
  }
}

const DUMP_LINES = [
  /^dump$/,
  /^thread \S+ (unborn|(doomed|ended|ready|waits:\S+) (user|supervisor) -?\d+ \S+)$/,
  /^object \S+ (thread|thread_stack|sem|mutex|msgq|stack|pipe|timer) (init|uninit|gone) (public|private) \S+ \S+$/,
  /^domain \S+ \S+$/,
  /^pool \S+ \d+\/\d+$/,
  /^memory 0x[0-9a-f]{8} [0-9a-f]{64}$/,
];

function verdictField(...allowed) {
  return (trace, k, word) => {
    trace.verdict[k] = VERDICT_NUMBER.get(word) ?? 0;
    return allowed.includes(word);
  };
}

function countField(column) {
  return (trace, k, word) => {
    trace[column][k] = Number(word);
    return COUNT_WORD.test(word);
  };
}

function readReply(trace, k, word) {
  const said = VERDICT_NUMBER.get(word);
  if (word === "void" || word === "NULL" || said >= FIRST_ERROR) {
    trace.verdict[k] = said;
    return true;
  }
  trace.value[k] = Number(word) || 0;
  trace.verdict[k] = VERDICT_NUMBER.get(COUNT_WORD.test(word) ? "number" : "address");
  return COUNT_WORD.test(word) || trace.description.row(word) >= 0;
}

// How each word of an event is read into its columns. Each says whether the word belongs there.
const FIELDS = {
  script(trace, k, word) {
    trace.row[k] = trace.description.scripts.findIndex((script) => script.name === word);
    return trace.row[k] >= 0;
  },
  line: countField("size"),
  size: countField("size"),
  index: countField("size"),
  object: (trace, k, word) => trace.readAddress(k, word),
  kind: (trace, k, word) => word === "any" || KINDS.includes(word),
  want: (trace, k, word) => ["init", "uninit", "any"].includes(word),
  access: (trace, k, word) => ["read", "write", "exec"].includes(word),
  checked: verdictField("ok", "EBADF", "EPERM", "EINVAL", "EADDRINUSE"),
  fits: verdictField("ok", "EFAULT"),
  paid: verdictField("ok", "ENOMEM"),
  given: verdictField("ok", "gone"),
  left: verdictField("kept", "gone", "none"),
  marked: verdictField("ok", "none"),
  compared: verdictField("wait", ...ERRORS),
  set: verdictField("ok", "gone", "EADDRINUSE", "EBADF"),
  cause: verdictField(...CAUSES),
  memory(trace, k, word) {
    trace.addr[k] = Number(word);
    return MEMORY_WORD.test(word);
  },
  value(trace, k, word) {
    trace.value[k] = Number(word);
    return /^0x(0|[1-9a-f][0-9a-f]{0,7})$/.test(word);
  },
  time(trace, k, word) {
    trace.time[k] = Number(word);
    return TIME_WORD.test(word);
  },
  length(trace, k, word) {
    if (COUNT_WORD.test(word)) trace.size[k] = Number(word);
    trace.verdict[k] = VERDICT_NUMBER.get(COUNT_WORD.test(word) ? "number" : word) ?? 0;
    return COUNT_WORD.test(word) || word === "unreadable" || word === "toolong";
  },
  answer(trace, k, word) {
    if (word !== "wait") return readReply(trace, k, word);
    trace.verdict[k] = VERDICT_NUMBER.get(word);
    return true;
  },
  reply: readReply,
  reserved(trace, k, word) {
    trace.verdict[k] = VERDICT_NUMBER.get(word === "NULL" ? "NULL" : "address");
    return word === "NULL" || trace.readAddress(k, word);
  },
  thread(trace, k, word) {
    trace.peer[k] = trace.threadNamed(word);
    return trace.peer[k] >= 0;
  },
  reason(trace, k, word) {
    trace.size[k] = Number(word);
    return ["0", "3", "4"].includes(word);
  },
  part: (trace, k, word) => PART_WORD.test(word),
};
