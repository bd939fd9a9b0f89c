"use strict";
// The groups that events are drawn in, each with a colour and a shape of its own, so that neither is needed alone.
// Their order is that of their weight: where there is no room for all, the last one is drawn. The legend has an optional one
// only where a run has events of it.

const GROUPS = [
  { name: "line", label: "line", title: "A line of a script begins", shape: tick },
  { name: "reply", label: "answer", title: "A call answers", shape: smallDot },
  { name: "memory", label: "memory", title: "Memory is read, written, fetched or copied", shape: square },
  { name: "check", label: "check passed", title: "A check that is passed", shape: ring },
  { name: "object", label: "object", title: "An object changes, or a buffer", shape: hexagon },
  { name: "act", label: "service", title: "A service acts on an object", shape: diamond },
  { name: "resume", label: "goes on", title: "A woken thread goes on", shape: pointer },
  { name: "given", label: "permission given", title: "A permission is given", shape: plus },
  { name: "taken", label: "permission taken", title: "A permission is taken", shape: minus },
  { name: "domain", label: "domain", title: "A call on a domain", shape: house },
  { name: "thread", label: "start, user, exit", title: "A thread starts, becomes a user or exits", shape: flag },
  { name: "time", label: "time", title: "A deadline is armed, virtual time goes on, or a timer runs out", shape: clock, isOptional: true },
  { name: "wait", label: "wait", title: "A thread begins to wait", shape: hourglass },
  { name: "timeout", label: "timed out", title: "A wait ends at its deadline", shape: hollowHourglass, isOptional: true },
  { name: "recycle", label: "gone, recycled", title: "An object is gone, or recycled", shape: crossedRing },
  {
    name: "stopped", label: "stopped", title: "A thread is suspended, resumed, aborted, cut or killed", shape: barredDisc,
    isOptional: true,
  },
  { name: "refused", label: "refused", title: "A check, a copy or a look at a futex that is refused", shape: downTriangle },
  { name: "doom", label: "doom", title: "A thread index is doomed", shape: hollowOctagon },
  { name: "fault", label: "fault", title: "A fault", shape: cross },
  { name: "fatal", label: "fatal error", title: "A fatal error", shape: octagon },
];
const GROUP_NUMBER = new Map(GROUPS.map(({ name }, number) => [name, number]));
const FIRST_STANDING_OUT = GROUP_NUMBER.get("recycle");

const GROUP_OF_KIND = {
  begin: "line", reply: "reply", load: "memory", store: "memory", exec: "memory", probe: "memory", copyin: "memory",
  copyout: "memory", copystr: "memory", erase: "memory", check: "check", public: "object", setinit: "object",
  uninit: "object", name: "object", reserve: "object", born: "given", buffer: "object", unbuffer: "object", act: "act",
  resume: "resume", grant: "given", own: "given", inherit: "given", drop: "taken", domain: "domain", start: "thread",
  user: "thread", exit: "thread", recycle: "recycle", doom: "doom", fault: "fault", fatal: "fatal", arm: "time",
  tick: "time", expire: "time", timeout: "timeout", abort: "stopped", suspend: "stopped", continue: "stopped",
  killed: "stopped", cut: "stopped", join: "act", left: "act", futex: "act",
};
const WAITING_KINDS = new Set(["act", "join", "futex"]);

// The number of the group in which event k is drawn.
function groupOf(trace, k) {
  const kind = trace.kindWord(k);
  const verdict = trace.verdictWord(k);
  let group = GROUP_OF_KIND[kind];
  if (WAITING_KINDS.has(kind) && verdict === "wait") group = "wait";
  if (kind === "drop" && verdict === "gone") group = "recycle";
  const isError = trace.verdict[k] >= FIRST_ERROR || verdict === "unreadable" || verdict === "toolong";
  const mayRefuse = group === "check" || group === "memory" || kind === "setinit" || kind === "buffer";
  const isNoFutex = kind === "futex" && (verdict === "EACCES" || verdict === "EINVAL");
  if ((isError && mayRefuse) || isNoFutex) group = "refused";
  return GROUP_NUMBER.get(group);
}

// Whether events of a group say that something isn't allowed.
function isFailure(group) {
  return ["refused", "fault", "fatal"].includes(GROUPS[group].name);
}

// Each shape is drawn round (x, y) within a radius r, in the context's own colour.
function path(context, points) {
  context.beginPath();
  points.forEach(([x, y], place) => (place ? context.lineTo(x, y) : context.moveTo(x, y)));
}

function filled(context, points) {
  path(context, points);
  context.closePath();
  context.fill();
}

function stroked(context, ...lines) {
  context.lineWidth = 2;
  for (const points of lines) {
    path(context, points);
    context.stroke();
  }
}

function polygon(x, y, r, corners, turn) {
  return Array.from({ length: corners }, (_, corner) => {
    const angle = turn + (corner * 2 * Math.PI) / corners;
    return [x + r * Math.cos(angle), y + r * Math.sin(angle)];
  });
}

function circle(context, x, y, r) {
  context.beginPath();
  context.arc(x, y, r, 0, 2 * Math.PI);
}

function tick(context, x, y, r) {
  stroked(context, [[x, y - r], [x, y + r]]);
}

function smallDot(context, x, y, r) {
  circle(context, x, y, r * 0.45);
  context.fill();
}

function square(context, x, y, r) {
  context.fillRect(x - r * 0.75, y - r * 0.75, r * 1.5, r * 1.5);
}

function ring(context, x, y, r) {
  circle(context, x, y, r * 0.75);
  context.lineWidth = 2;
  context.stroke();
}

function hexagon(context, x, y, r) {
  filled(context, polygon(x, y, r * 0.9, 6, 0));
}

function diamond(context, x, y, r) {
  filled(context, polygon(x, y, r, 4, 0));
}

function pointer(context, x, y, r) {
  filled(context, polygon(x, y, r, 3, 0));
}

function plus(context, x, y, r) {
  stroked(context, [[x - r, y], [x + r, y]], [[x, y - r], [x, y + r]]);
}

function minus(context, x, y, r) {
  context.lineWidth = 3;
  path(context, [[x - r, y], [x + r, y]]);
  context.stroke();
}

function house(context, x, y, r) {
  const [left, right, eaves] = [x - r * 0.8, x + r * 0.8, y - r * 0.1];
  filled(context, [[left, y + r], [left, eaves], [x, y - r], [right, eaves], [right, y + r]]);
}

function flag(context, x, y, r) {
  stroked(context, [[x - r * 0.7, y - r], [x - r * 0.7, y + r]]);
  filled(context, [[x - r * 0.7, y - r], [x + r, y - r * 0.4], [x - r * 0.7, y + r * 0.3]]);
}

function hourglass(context, x, y, r) {
  filled(context, [[x - r * 0.8, y - r], [x + r * 0.8, y - r], [x - r * 0.8, y + r], [x + r * 0.8, y + r]]);
}

function hollowHourglass(context, x, y, r) {
  path(context, [[x - r * 0.8, y - r], [x + r * 0.8, y - r], [x - r * 0.8, y + r], [x + r * 0.8, y + r]]);
  context.closePath();
  context.lineWidth = 2;
  context.stroke();
}

function clock(context, x, y, r) {
  ring(context, x, y, r * 1.3);
  stroked(context, [[x, y - r * 0.6], [x, y], [x + r * 0.5, y]]);
}

function barredDisc(context, x, y, r) {
  circle(context, x, y, r);
  context.fill();
  context.fillStyle = context.backdrop ?? "#fff";
  context.fillRect(x - r * 0.65, y - r * 0.2, r * 1.3, r * 0.4);
}

function crossedRing(context, x, y, r) {
  ring(context, x, y, r * 1.2);
  stroked(context, [[x - r, y + r], [x + r, y - r]]);
}

function downTriangle(context, x, y, r) {
  filled(context, polygon(x, y, r * 1.15, 3, Math.PI / 2));
}

function cross(context, x, y, r) {
  context.lineWidth = 3;
  for (const way of [1, -1]) {
    path(context, [[x - r * 0.8, y - way * r * 0.8], [x + r * 0.8, y + way * r * 0.8]]);
    context.stroke();
  }
}

function hollowOctagon(context, x, y, r) {
  path(context, polygon(x, y, r, 8, Math.PI / 8));
  context.closePath();
  context.lineWidth = 2;
  context.stroke();
}

// With an exclamation mark in the colour behind it.
function octagon(context, x, y, r) {
  const mark = context.fillStyle;
  filled(context, polygon(x, y, r * 1.3, 8, Math.PI / 8));
  context.fillStyle = context.backdrop ?? "#fff";
  context.fillRect(x - 1, y - r * 0.8, 2, r);
  context.fillRect(x - 1, y + r * 0.5, 2, 2);
  context.fillStyle = mark;
}

// The colours of the page as it is shown now, light or dark. They are looked up once for each appearance.
const coloursFound = new Map();

function pageColours() {
  const isDark = matchMedia("(prefers-color-scheme: dark)").matches;
  if (!coloursFound.has(isDark)) coloursFound.set(isDark, new PageColours());
  return coloursFound.get(isDark);
}

const COLOUR_NAMES = [
  "panel", "stripe", "text", "line", "faint", "life", "failed", "stopped", "waiting", "mark-wake", "match", "chosen",
  ...GROUPS.map(({ name }) => `mark-${name}`),
];

class PageColours {
  constructor() {
    const style = getComputedStyle(document.documentElement);
    this.found = new Map(COLOUR_NAMES.map((name) => [name, style.getPropertyValue(`--${name}`).trim()]));
    this.groups = GROUPS.map(({ name }) => this.colour(`mark-${name}`));
  }

  // The value of a variable of the style sheet, as it was for this appearance.
  colour(name) {
    return this.found.get(name);
  }
}

function drawGroup(context, colours, group, x, y, r) {
  context.fillStyle = colours.groups[group];
  context.strokeStyle = colours.groups[group];
  context.backdrop = colours.colour("panel");
  GROUPS[group].shape(context, x, y, r);
}
