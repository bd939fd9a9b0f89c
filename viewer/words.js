"use strict";
// What an event says, in sentences for a person who doesn't know the trace's words.

// The sentences for event k.
function explain(run, k) {
  if (k === 0) return ["The opening: what the description says, before anything is done."];
  const told = new Telling(run, k);
  const sentences = [EXPLAINED[told.kind](told)].flat();
  if (told.kind === "begin" || !told.isOfLine()) return sentences;
  const line = told.before.words(told.thread).join(" ");
  const script = run.description.scripts[told.before.script[told.thread]]?.name;
  if (line) sentences.push(`It stands in line ${told.before.line[told.thread]} of the script ${script}: ${line}`);
  return sentences;
}

// An event with what a sentence about it needs.
class Telling {
  constructor(run, k) {
    const { trace, description } = run;
    this.run = run;
    this.k = k;
    this.kind = trace.kindWord(k);
    this.verdict = trace.verdictWord(k);
    this.thread = trace.who[k];
    this.words = trace.line(k).split(" ");
    this.who = this.words[0];
    this.peer = trace.peer[k] < 0 ? "" : description.nameOfThread(trace.peer[k]);
    this.row = trace.objectRow(k);
    const address = this.words.find((word) => MEMORY_WORD.test(word)) ?? "";
    this.object = this.row < 0 ? address : description.nameOfRow(this.row);
    this.size = this.words[2] === "exec" ? 4 : SIZES[this.kind] ?? trace.size[k];
    this.start = trace.addr[k];
    this.place = [description.placeName(this.start), addressText(this.start)].filter((part) => part).join(", ");
    this.before = run.stateAfter(k - 1);
    this.woken = trace.woken.get(k) ?? [];
  }

  get bytes() {
    return `${this.size} ${this.size === 1 ? "byte" : "bytes"}`;
  }

  // Whether the event belongs to the script line that its thread makes: not to its end, to a doom or to an object's cleaning.
  isOfLine() {
    const { before, run, k } = this;
    const ofThread = this.kind === "drop" ? run.description.rowOfThread(run.trace.peer[k]) : -1;
    const isCleaning = ofThread >= 0 && before.stage[ofThread] === STAGE.gone;
    return before.life[this.thread] === LIFE.started && !isCleaning && !OF_NO_LINE.includes(this.kind);
  }

  // The longest that a thread waits, behind what it waits for.
  get waitEnd() {
    return deadlineText(this.before, this.thread, ", until tick ", " at the most");
  }

  // Whom the event wakes, each in a sentence.
  wakes() {
    const { description } = this.run;
    return this.woken.map(({ thread, reply }) => `It wakes ${description.nameOfThread(thread)}, which is answered ${reply}.`);
  }

  // The event that aborted a thread last, for one that is cut or killed.
  abortOf(thread) {
    const { trace } = this.run;
    let at = this.k - 1;
    while (at >= 1 && !(trace.kindWord(at) === "abort" && trace.peer[at] === thread && trace.verdictWord(at) === "ok")) at -= 1;
    return at >= 1 ? [`It was aborted by event ${at}: ${trace.line(at)}`] : [];
  }

  // What the thread may reach, for one that reached too far.
  reach() {
    const { before, thread, run } = this;
    const isReached = (region) => region.what !== "futex" && before.access(thread, region) !== "";
    const regions = run.rights.regions.filter(isReached).map((region) => {
      const end = addressText(region.start + region.size - 1);
      return `${region.name} (${addressText(region.start)} to ${end}, ${accessLabel(before, thread, region)})`;
    });
    return regions.length ? `It may reach ${regions.join("; ")}.` : "It has no memory any more.";
  }

  // Which right was missing where, for a thread that wrote, read or fetched, or for which the kernel had to.
  lack(right, did) {
    const { before, thread, run, who, start, size } = this;
    const place = run.description.placeName(start) || addressText(start);
    const lastByte = run.description.placeName(start + size - 1) || addressText(start + size - 1);
    const bytes = `${did} ${place}${size > 1 ? `, ${size} bytes, to ${lastByte}` : ""}`;
    const region = this.regionWith(right);
    if (!region) return [`No region of memory is at ${addressText(start)}; ${bytes}.`];
    const rights = before.access(thread, region);
    if (rights.includes(right)) {
      const end = addressText(region.start + region.size - 1);
      return [`${region.name} ends at ${end}; ${bytes}: no single region has all of them.`];
    }
    const { last } = run.rights.regionEvents(thread, region, this.k);
    const since = last ? [`What it may do in ${region.name} was last changed by event ${last}: ${run.trace.line(last)}`] : [];
    return [`${whyClosed(before, thread, region, rights, who)}; ${bytes}.`, ...since];
  }

  // The region with the first byte, or else with the first byte that the thread may not touch so.
  regionWith(right) {
    const { before, thread, run, start, size } = this;
    const here = run.rights.regions.filter((region) => start < region.start + region.size && region.start < start + size);
    const isOpen = (region) => before.access(thread, region).includes(right);
    return here.find((region) => !isOpen(region)) ?? here.find((region) => start >= region.start);
  }

  // Since when a thread may not name the object, where it might once.
  loss() {
    const { last } = this.run.rights.pairEvents(this.thread, this.row, this.k);
    return last ? ` It might name it until event ${last}: ${this.run.trace.line(last)}` : " It never had one.";
  }

  // What the check missed where no live object was found.
  absence() {
    const { row, object, before, run } = this;
    if (row < 0) return `No object has the address ${object}.`;
    if (before.stage[row] === STAGE.live) return `${object} is a ${run.description.kindOfRow(row)}, and no ${this.words[3]}.`;
    const went = run.goneEvents.filter(({ event, row: gone }) => gone === row && event < this.k).at(-1)?.event;
    if (!went) return `No object was ever at ${object}.`;
    return `${object} went with event ${went}, by ${run.trace.line(went).split(" ")[0]}: ${run.trace.line(went)}`;
  }
}

// What a thread makes for others or for its own end, and no line asks for.
const OF_NO_LINE = ["exit", "recycle", "doom", "tick", "timeout", "expire", "killed", "cut", "left"];

// The deadline of a thread's call between two words, where it has one; else nothing.
function deadlineText(state, thread, front, back = "") {
  return state.deadline[thread] < 0 ? "" : `${front}${state.deadline[thread]}${back}`;
}

// Virtual time, and which deadlines have come or are ahead, with the threads and timers whose they are.
function clockText(state) {
  const { description, now } = state;
  const whose = (deadline) => [
    ...threadsWhere((thread) => state.waits(thread) && state.deadline[thread] === deadline),
    ...description.objects.filter(({ row }) => state.expires[row] === deadline),
  ].map((one) => one.name ?? description.nameOfThread(one));
  const told = (deadline) => `${deadline}${whose(deadline).length ? ` (${whose(deadline).join(", ")})` : ""}`;
  const isOpen = (deadline) => deadline >= 0 && deadline <= now && whose(deadline).length > 0;
  const come = sorted(new Set([...state.deadline, ...state.expires])).filter(isOpen);
  const ahead = state.armed.slice(0, MOST_DEADLINES).map(told).join(", ");
  const more = state.armed.length > MOST_DEADLINES ? ` and ${state.armed.length - MOST_DEADLINES} more` : "";
  return [
    `Virtual time is tick ${now}.`,
    ...(come.length ? [`Deadlines that have come: ${come.map(told).join(", ")}.`] : []),
    ahead ? `Deadlines ahead: ${ahead}${more}.` : "No deadline is ahead.",
  ].join(" ");
}

const MOST_DEADLINES = 12;

// What a thread waits for.
function awaited(state, thread) {
  if (state.waitsAt[thread] > 0) return `the futex ${state.description.nameOfFutex(state.waitsAt[thread])}`;
  const row = state.waitsOn[thread];
  const name = state.description.nameOfRow(row);
  return state.description.kindOfRow(row) === "thread" ? `the end of ${name}` : name;
}

// Why a thread lacks a right in a region, in the words of its user.
function whyClosed(state, thread, region, rights, who) {
  const { description } = state;
  const domain = description.domains[state.domain[thread]];
  if (rights !== "") return `${region.name} is ${CLOSED_WORDS[rights] ?? `closed (${rights})`} for ${who}`;
  if (region.what === "stack") return `${region.name} isn't the stack of ${who}`;
  if (state.pieces(thread, region).length) return `${who} reaches only a part of ${region.name}`;
  if (state.partsAt(thread, region).length) return `${region.name} is closed to ${modeWord(state, thread)}s (${region.attr})`;
  return `${region.name} isn't in the domain of ${who}, ${domain}`;
}

const CLOSED_WORDS = { "r--": "read-only", "rw-": "not executable", "r-x": "read-only" };

const REFUSALS = {
  EBADF: (told) => told.absence(),
  EPERM: (told) => `${told.who} is a user thread, and has no permission on ${told.object}, which isn't public.`
    + told.loss(),
  EINVAL: (told) => `${told.object} should be initialised, and isn't.`,
  EADDRINUSE: (told) => `${told.object} should not be initialised, and is.`,
};

const NOTHING_LEFT = {
  k_thread_join: "So there is no end left to wait for, and the join answers 0.",
  k_thread_abort: "So there is nothing left to stop, and the abort answers void.",
};

// The two calls for which a thread that isn't initialised is no error.
function nothingLeft(told) {
  const call = told.before.words(told.thread)[0];
  return told.verdict === "EINVAL" && call in NOTHING_LEFT ? [NOTHING_LEFT[call]] : [];
}

const CAUSES_TOLD = {
  access: "it reached memory that it may not reach", privileged: "it made a call that is for supervisors alone",
  k_oops: "it called k_oops", k_panic: "it called k_panic", size: "the stack was given too large a size",
  no_user: "a user thread may only create user threads", essential: "a user thread may not create an essential thread",
  priority: "the priority isn't a valid one", priority_higher: "the new thread's priority would be higher than its own",
  EBADF: "what it named isn't a live object of that kind", EPERM: "it has no permission on what it named",
  EINVAL: "what it named isn't initialised", EADDRINUSE: "what it named is in use already",
  EFAULT: "the kernel may not copy there for it", EBUSY: "threads wait on what it named",
};

const REASONS = { 0: "CPU exception", 3: "kernel oops", 4: "kernel panic" };

function copied(way, right, did) {
  return (told) => (told.verdict === "ok"
    ? `${way} ${told.bytes} at ${told.place}, as ${told.who} may.`
    : [`The copy of ${told.bytes} at ${told.place} is refused.`, ...told.lack(right, did), told.reach()]);
}

function served(told) {
  const sentence = told.verdict === "wait"
    ? `${told.who} begins to wait on ${told.object}${told.waitEnd}.`
    : `A service acts on ${told.object}, and answers ${told.words[3]}.`;
  return [sentence, ...told.wakes()];
}

function ticks(count) {
  return `${count} ${count === 1 ? "tick" : "ticks"}`;
}

function armed(told) {
  const { before, thread, run, k } = told;
  const [call, word] = before.words(thread);
  const whose = call === "k_timer_start" ? `the timer ${run.description.nameAt(before.term(thread, word))}` : "its call";
  const deadline = run.trace.time[k];
  return `${told.who} arms a deadline for ${whose}: tick ${deadline}, ${ticks(deadline - before.now)} from now.`;
}

function timedOut(told) {
  const peer = told.run.trace.peer[told.k];
  const { before } = told;
  const error = before.waitsAt[peer] > 0 ? "ETIMEDOUT" : "EAGAIN";
  const sentence = `The deadline${deadlineText(before, peer, ", tick ", ",")} of ${told.peer} has come.`;
  if (!before.waits(peer)) return sentence;
  return [sentence, `It waits for ${awaited(before, peer)} no longer, and its call answers ${error}.`];
}

function expired(told) {
  const sentence = `The timer ${told.object} runs out at tick ${told.before.now}, and stops.`;
  if (told.woken.length) return [sentence, ...told.wakes()];
  const status = told.before.count[told.row] + 1;
  return [sentence, `Nobody waits for it, so its status is ${status} until somebody asks.`];
}

function aborted(told) {
  if (told.verdict === "none") return `${told.peer} doesn't live, so there is nothing to stop.`;
  if (told.peer === told.who) return `${told.who} aborts itself: it is killed in place of a reply.`;
  const [peer, { before }] = [told.run.trace.peer[told.k], told];
  const waits = before.waits(peer) ? ` It waits for ${awaited(before, peer)}, and will be cut.` : "";
  return `${told.who} aborts ${told.peer}, which begins no line any more, and ends at its next rest.${waits}`;
}

function joined(told) {
  const answers = {
    wait: `${told.who} begins to wait for the end of ${told.peer}${told.waitEnd}.`,
    EBUSY: `${told.peer} hasn't ended yet, and ${told.who} doesn't wait: the answer is EBUSY.`,
    EDEADLK: told.peer === told.who
      ? `${told.who} would wait for its own end: the answer is EDEADLK.`
      : `${told.peer} itself waits for the end of ${told.who}: the answer is EDEADLK.`,
  };
  return answers[told.verdict] ?? `${told.peer} doesn't live, or its end has begun: ${told.who} is answered ${told.words[3]}.`;
}

function futexed(told) {
  const { who, verdict, words, place, run, start } = told;
  const isWait = words[2] === "wait";
  const isNamed = run.description.futexes.some((one) => one.start === start);
  const futex = isNamed ? `the futex ${run.description.nameOfFutex(start)} (${place})` : place;
  const value = `${futex.replace(/^t/, "T")} has the value ${words[4]}`;
  if (verdict === "EACCES") {
    const did = isWait ? "wait" : "wake threads";
    return [`${who} may not ${did} on ${futex}: EACCES.`, ...told.lack("r", `it would ${did} at`), told.reach()];
  }
  if (verdict === "EINVAL") return `No futex is at ${place}: the answer is EINVAL.`;
  if (!isWait) return [`${who} wakes who waits on ${futex}: ${woken(told.woken.length)}.`, ...told.wakes()];
  return {
    wait: `${value}, so ${who} begins to wait there${told.waitEnd}.`,
    EAGAIN: `${value.replace(" has ", " hasn't ")}, so ${who} doesn't wait: the answer is EAGAIN.`,
    ETIMEDOUT: `${value}, but ${who} doesn't wait: the answer is ETIMEDOUT.`,
  }[verdict] ?? `${who} asks to wait on ${futex}, and is answered ${words[5]}.`;
}

function woken(count) {
  if (count === 0) return "nobody does";
  return count === 1 ? "one thread" : `${count} threads`;
}

// A woken thread goes on, or one whose wait ended at its deadline.
function resumed(told) {
  const wait = told.run.waits[told.thread].find(({ end }) => end === told.k);
  if (wait?.timeout) return `${told.who} waits no longer, since its deadline has come, and goes on.`;
  return `${told.who} was woken, and goes on.`;
}

// The event that a fatal error comes from: the last one of its own thread's line that was refused with its cause, or 0.
function causeOf(run, k) {
  const { trace } = run;
  const [who, cause] = [trace.who[k], trace.verdictWord(k)];
  for (let at = k - 1; at >= 1; at -= 1) {
    if (trace.who[at] !== who) continue;
    const kind = trace.kindWord(at);
    const isRefused = run.groups[at] === GROUP_NUMBER.get("refused") || kind === "fault" || kind === "act";
    if (isRefused && (kind === "fault" || trace.verdictWord(at) === cause || run.words(k)[3] === "access")) return at;
    if (kind === "begin") return 0;
  }
  return 0;
}

function fatal(told) {
  const why = CAUSES_TOLD[told.verdict] ?? CAUSES_TOLD[told.words[3]] ?? told.words[3];
  const dooms = told.size === 4 || told.run.description.halts;
  const sentences = [`Fatal error of ${told.who}: reason ${told.size}, ${REASONS[told.size]}, since ${why}.`];
  const cause = causeOf(told.run, told.k);
  if (cause) {
    const from = new Telling(told.run, cause);
    const refusal = from.kind === "check" ? [REFUSALS[from.verdict](from)] : LACKS[from.kind]?.(from) ?? [];
    sentences.push(`It comes from event ${cause}: ${told.run.trace.line(cause)}`, ...refusal);
  }
  sentences.push(dooms ? "All threads are doomed by it." : "The thread ends by it.");
  return sentences;
}

const DONE_WORDS = { read: ["r", "read"], write: ["w", "wrote"], exec: ["x", "fetched an instruction at"] };

// Which right was missing for an event that was refused, by its kind.
const LACKS = {
  fault(told) {
    const [right, did] = DONE_WORDS[told.words[2]];
    return told.lack(right, `it ${did}`);
  },
  probe: (told) => told.lack("w", "the kernel would write"),
  copyin: (told) => told.lack("r", "the kernel had to read"),
  copyout: (told) => told.lack("w", "the kernel had to write"),
};

const EXPLAINED = {
  begin: (told) => `${told.who} begins line ${told.size} of the script ${told.words[2]}: `
    + told.run.description.lineWords(told.run.trace.row[told.k], told.size).join(" "),
  check: (told) => (told.verdict === "ok"
    ? `${told.who} names ${told.object}, and may: the check is passed. The object is held until the call ends.`
    : [`The check of ${told.object} is refused with ${told.verdict}.`, REFUSALS[told.verdict](told), ...nothingLeft(told)]),
  load: (told) => `${told.who} loads ${told.bytes} at ${told.place}: ${told.words[4]}.`,
  store: (told) => `${told.who} stores ${told.bytes} at ${told.place}: ${told.words[4]}.`,
  exec: (told) => `${told.who} fetches an instruction at ${told.place}.`,
  fault: (told) => [...LACKS.fault(told), told.reach()],
  probe: (told) => (told.verdict === "ok"
    ? `${told.who} may have ${told.bytes} written at ${told.place}.`
    : [`${told.who} may not have ${told.bytes} written at ${told.place}.`, ...LACKS.probe(told), told.reach()]),
  copyin: copied("The kernel copies in", "r", "the kernel had to read"),
  copyout: copied("The kernel copies out", "w", "the kernel had to write"),
  copystr: (told) => ({
    unreadable: [`The string at ${told.place} can't be read.`, told.reach()],
    toolong: `The string at ${told.place} is too long.`,
  })[told.verdict] ?? `The kernel reads a string of ${told.bytes} at ${told.place}.`,
  erase: (told) => `The thread stack ${told.object} is filled with zeros.`,
  act: served,
  resume: resumed,
  reply: (told) => `The call of ${told.who} answers ${told.words[2]}, and holds nothing any more.`,
  grant: (told) => (told.verdict === "ok"
    ? `${told.peer} has a permission on ${told.object} from now on.`
    : `${told.object} is gone by now, so ${told.peer} gets nothing.`),
  own: (told) => (told.verdict === "ok"
    ? `${told.peer} gets the permission on its own thread object.`
    : `The thread object ${told.peer} is gone by now, so ${told.peer} gets nothing.`),
  inherit: (told) => `${told.peer} gets its parent's permission on ${told.object}.`,
  drop: (told) => ({
    kept: `${told.peer} has no permission on ${told.object} any more.`,
    none: `${told.peer} had no permission on ${told.object} anyway.`,
    gone: `${told.peer} had the last permission on ${told.object}: it is gone, and is recycled once no call holds it.`,
  })[told.verdict],
  public: (told) => (told.verdict === "ok"
    ? `${told.object} is public from now on: every thread may name it.`
    : `${told.object} is gone by now, and doesn't become public.`),
  setinit: (told) => (told.verdict === "ok"
    ? `${told.object} is initialised from now on.`
    : `${told.object} can't be marked as initialised: ${told.verdict}.`),
  uninit: (told) => `${told.object} isn't initialised any more.`,
  name: (told) => `The thread ${told.peer} has a new name.`,
  reserve: (told) => (told.verdict === "NULL"
    ? `The heap gives no address for a ${told.words[2]}.`
    : `The heap gives the address ${told.object} for a ${told.words[2]}.`),
  born: (told) => `${told.object} is there from now on, and ${told.who} has a permission on it.`,
  buffer: (told) => `${told.verdict === "ok" ? "The pool gives" : "The pool hasn't got"} ${told.bytes} for a buffer.`,
  unbuffer: (told) => `The pool gets ${told.bytes} back.`,
  recycle: (told) => `The address of ${told.object} is free again.`,
  domain(told) {
    const part = told.words.find((word) => PART_WORD.test(word));
    const named = part && told.run.description.placeName(Number(part.split("/")[0])).replace(/\+0$/, "");
    const about = named ? `, ${told.words[2]} ${named}` : ` (${told.words[2]}${told.peer && ` ${told.peer}`})`;
    return `A call on the domain ${told.words[3]}${about}, answers ${told.words.at(-1)}.`;
  },
  start: (told) => `${told.peer} starts, created by ${told.who}.`,
  user: (told) => `${told.who} is in user mode from now on, for good.`,
  fatal,
  doom: (told) => `The thread index ${told.size} is doomed: its thread begins no line any more.`,
  exit: (told) => `${told.who} has made its last line, and ends.`,
  arm: armed,
  tick: (told) => `Virtual time goes on from tick ${told.before.now} to ${told.words[2]}, the next deadline that was armed.`,
  timeout: timedOut,
  expire: expired,
  abort: aborted,
  suspend: (told) => (told.verdict === "ok"
    ? `${told.peer} is suspended: it begins no line until it is resumed. A call in progress goes on.`
    : `${told.peer} doesn't live, so there is nothing to suspend.`),
  continue: (told) => (told.verdict === "ok"
    ? `${told.peer} isn't suspended any more, and may begin lines.`
    : `${told.peer} doesn't live, so there is nothing to go on.`),
  killed: (told) => [`${told.who} is killed: it drops what its call holds, and ends.`, ...told.abortOf(told.thread)],
  cut: (told) => {
    const peer = told.run.trace.peer[told.k];
    const what = told.before.waits(peer) ? `for ${awaited(told.before, peer)} no longer` : "no longer";
    return [`${told.peer} is cut: it waits ${what}, and its call doesn't answer.`, ...told.abortOf(peer)];
  },
  join: joined,
  left: (told) => [`${told.peer} has ended but for its thread object, so who waits for its end goes on.`, ...told.wakes()],
  futex: futexed,
};
