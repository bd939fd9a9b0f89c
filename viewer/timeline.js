"use strict";
// The timeline: a lane for each thread, and a mark for each event in the order of the run. Only what is seen is drawn,
// and where many events share a few pixels the one that weighs most.

const LABEL_WIDTH = 116;
const AXIS_HEIGHT = 26;
const TIME_HEIGHT = 20;
const LEAST_LANE_WITH_WORDS = 30;
const LEAST_WORD = 20;
const HATCH = 9;
const MOST_SCALE = 48;
const SEPARATE_MARKS = 7;
const CELL = 4;
const LANES_HEIGHT = 336;
const OVERVIEW_HEIGHT = 14;
const FADED_ABOVE = 3000;
const FADED = 0.35;
const MOST_ARROWS = 600;
const FEW_ARROWS = 60;

class Timeline {
  constructor(canvas, choose) {
    this.canvas = canvas;
    this.choose = choose;
    this.context = canvas.getContext("2d");
    this.layer = document.createElement("canvas");
    this.run = null;
    this.chosen = 0;
    this.matches = [];
    this.hidden = new Set();
    this.drawn = nothingDrawn();
    new ResizeObserver(() => this.resize()).observe(canvas.parentElement);
    matchMedia("(prefers-color-scheme: dark)").addEventListener("change", () => this.draw());
    this.listen();
  }

  setRun(run) {
    this.run = run;
    this.paintedView = "";
    this.threads = sorted(run.used.threads);
    this.laneOf = new Int8Array(THREADS).fill(-1);
    this.threads.forEach((thread, lane) => { this.laneOf[thread] = lane; });
    this.chosen = 0;
    this.matches = [];
    this.isWhole = true;
    this.resize();
  }

  // Fits the picture into the window. Where the whole run is seen, it stays so.
  resize() {
    if (!this.run) return;
    this.laneHeight = Math.max(12, Math.min(34, Math.floor(LANES_HEIGHT / this.threads.length)));
    this.width = this.canvas.parentElement.clientWidth;
    this.lanesTop = AXIS_HEIGHT + (this.run.ticks.length ? TIME_HEIGHT : 0);
    this.overviewTop = this.lanesTop + this.laneHeight * this.threads.length + 6;
    this.height = this.overviewTop + OVERVIEW_HEIGHT + 4;
    if (this.isWhole) [this.start, this.scale] = [0, 0];
    const ratio = devicePixelRatio || 1;
    this.canvas.width = Math.round(this.width * ratio);
    this.canvas.height = Math.round(this.height * ratio);
    this.canvas.style.height = `${this.height}px`;
    this.context.setTransform(ratio, 0, 0, ratio, 0, 0);
    this.clampView();
    this.drawNow();
  }

  // The view: the place in the run at the left edge, and how many pixels an event takes.
  showWhole() {
    [this.start, this.scale] = [0, 0];
    this.clampView();
    this.draw();
  }

  span() {
    return Math.max(50, this.width - LABEL_WIDTH - 8);
  }

  clampView() {
    const least = this.span() / (this.run.count + 1);
    this.scale = Math.max(Math.min(least, MOST_SCALE), Math.min(MOST_SCALE, this.scale || least));
    const most = Math.max(0, this.run.count + 1 - this.span() / this.scale);
    this.start = Math.max(0, Math.min(most, this.start || 0));
    this.isWhole = most < 1e-6;
  }

  zoom(factor, x = this.x(this.chosen)) {
    const inside = x >= LABEL_WIDTH && x <= this.width ? x : LABEL_WIDTH + this.span() / 2;
    const event = this.eventAt(inside);
    this.scale *= factor;
    this.clampView();
    this.start = event - (inside - LABEL_WIDTH) / this.scale;
    this.clampView();
    this.draw();
  }

  pan(pixels) {
    this.start += pixels / this.scale;
    this.clampView();
    this.draw();
  }

  // Chooses event k, and moves the view where it isn't seen.
  show(k) {
    this.chosen = k;
    const x = this.x(k);
    if (x < LABEL_WIDTH + 8 || x > this.width - 16) this.start = k - this.span() / this.scale / 2;
    this.clampView();
    this.draw();
  }

  // The middle of event k's place, and the place at x.
  x(k) {
    return LABEL_WIDTH + (k + 0.5 - this.start) * this.scale;
  }

  eventAt(x) {
    return this.start + (x - LABEL_WIDTH) / this.scale;
  }

  laneY(thread) {
    return this.lanesTop + (this.laneOf[thread] + 0.5) * this.laneHeight;
  }

  draw() {
    if (this.frame) return;
    this.frame = requestAnimationFrame(() => this.drawNow());
  }

  drawNow() {
    cancelAnimationFrame(this.frame);
    this.frame = 0;
    if (!this.run) return;
    this.colours = pageColours();
    const view = [this.start, this.scale, this.width, this.height, ...this.hidden, this.colours.colour("panel")].join(" ");
    if (view !== this.paintedView) this.paint();
    this.paintedView = view;
    const { context } = this;
    context.clearRect(0, 0, this.width, this.height);
    context.drawImage(this.layer, 0, 0, this.width, this.height);
    this.clipped(context, () => {
      this.drawMatches();
      this.drawChosen();
      this.drawOverview();
    });
  }

  // Paints what stays while another event is chosen into a layer of its own.
  paint() {
    const front = this.context;
    this.layer.width = this.canvas.width;
    this.layer.height = this.canvas.height;
    const context = this.layer.getContext("2d");
    context.setTransform(front.getTransform());
    context.font = `${this.laneHeight < 16 ? 11 : 13}px system-ui, sans-serif`;
    context.textBaseline = "middle";
    this.context = context;
    this.drawn = nothingDrawn();
    this.first = Math.max(1, Math.floor(this.eventAt(LABEL_WIDTH)));
    this.last = Math.min(this.run.count, Math.ceil(this.eventAt(this.width)));
    this.drawLanes();
    this.clipped(context, () => {
      this.drawAxis();
      this.drawTime();
      this.drawLives();
      this.drawStops();
      this.drawWaits();
      this.drawArrows();
      if (this.scale >= SEPARATE_MARKS) this.drawMarks();
      else this.drawCells();
    });
    this.context = front;
  }

  // Draws to the right of the labels alone.
  clipped(context, draw) {
    context.save();
    context.beginPath();
    context.rect(LABEL_WIDTH, 0, this.width - LABEL_WIDTH, this.height);
    context.clip();
    draw();
    context.restore();
  }

  drawLanes() {
    const { context, colours } = this;
    for (const thread of this.threads) {
      const y = this.laneY(thread);
      context.fillStyle = colours.colour(this.laneOf[thread] % 2 ? "panel" : "stripe");
      context.fillRect(0, y - this.laneHeight / 2, this.width, this.laneHeight);
      context.fillStyle = colours.colour("text");
      context.fillText(this.shortened(this.run.description.nameOfThread(thread)), 10, y);
    }
    if (this.run.ticks.length) {
      context.fillStyle = colours.colour("faint");
      context.fillText("virtual time", 10, AXIS_HEIGHT + TIME_HEIGHT / 2);
    }
  }

  shortened(name) {
    let shown = name;
    for (let length = name.length - 1; this.context.measureText(shown).width > LABEL_WIDTH - 18; length -= 1) {
      shown = `${name.slice(0, length)}…`;
    }
    return shown;
  }

  drawAxis() {
    const { context, colours } = this;
    const wanted = 90 / this.scale;
    const power = 10 ** Math.floor(Math.log10(Math.max(1, wanted)));
    const step = Math.max(1, [1, 2, 5, 10].find((times) => times * power >= wanted) * power);
    context.textAlign = "center";
    for (let k = Math.ceil(this.first / step) * step || step; k <= this.last; k += step) {
      context.fillStyle = colours.colour("line");
      context.fillRect(this.x(k), AXIS_HEIGHT - 5, 1, this.height);
      context.fillStyle = colours.colour("faint");
      const half = context.measureText(String(k)).width / 2 + 2;
      const middle = Math.max(LABEL_WIDTH + half, Math.min(this.width - half, this.x(k)));
      context.fillText(String(k), middle, AXIS_HEIGHT / 2);
      this.drawn.labels.push({ k, from: middle - half, to: middle + half });
    }
    context.textAlign = "left";
  }

  // A dashed line where virtual time goes on, with the tick that it goes on to. Where many share the pixels, some have it.
  drawTime() {
    const { ticks } = this.run;
    if (ticks.length === 0 || this.isHidden("time")) return;
    const { context, colours } = this;
    const y = AXIS_HEIGHT + TIME_HEIGHT / 2;
    context.fillStyle = context.strokeStyle = colours.colour("mark-time");
    context.lineWidth = 1;
    context.setLineDash([4, 3]);
    let [lastX, free] = [-10, LABEL_WIDTH];
    const isDense = this.scale < SEPARATE_MARKS;
    const top = isDense ? this.lanesTop : AXIS_HEIGHT;
    const from = firstAtLeast(ticks, this.first);
    const seen = [ticks[from - 1] ?? { event: 0, time: 0 }, ...ticks.slice(from, firstAtLeast(ticks, this.last + 1))];
    seen.forEach(({ event, time }, place) => {
      const x = this.x(event);
      if (x - lastX < 3) return;
      lastX = x;
      if (event > 0 && x >= LABEL_WIDTH) {
        path(context, [[x, top], [x, this.overviewTop - 6]]);
        context.globalAlpha = isDense ? FADED : 1;
        context.stroke();
        context.globalAlpha = 1;
      }
      const right = Math.max(LABEL_WIDTH, x) + 3;
      const next = place + 1 < seen.length && !isDense ? this.x(seen[place + 1].event) + 1 : Infinity;
      const label = [`tick ${time}`, String(time)].find((text) => context.measureText(text).width <= next - right) ?? "";
      const { width } = context.measureText(label);
      const left = right + width > this.width ? x - 3 - width : right;
      const isLabelled = label !== "" && left >= free;
      if (isLabelled) context.fillText(label, left, y);
      if (isLabelled) free = left + width + 6;
      this.drawn.ticks.push({ event, time, x, label: isLabelled ? label : "" });
    });
    context.setLineDash([]);
  }

  isHidden(group) {
    return this.hidden.has(GROUP_NUMBER.get(group));
  }

  // A band from a thread's start to its end.
  drawLives() {
    const { context, colours } = this;
    for (const thread of this.threads) {
      const y = this.laneY(thread);
      for (const { start, end, failed } of this.run.lives[thread]) {
        const from = Math.max(LABEL_WIDTH, this.x(start));
        const to = Math.min(this.width, this.x(end < 0 ? this.run.count : end));
        context.fillStyle = colours.colour("life");
        if (to > from) context.fillRect(from, y - 2, to - from, 4);
        if (failed) this.drawFailed(end, y);
      }
    }
  }

  // The lane of a thread behind its fatal error.
  drawFailed(end, y) {
    const from = Math.max(LABEL_WIDTH, this.x(end));
    const to = Math.min(this.width, this.x(this.run.count + 0.5));
    this.context.fillStyle = this.colours.colour("failed");
    if (to > from) this.context.fillRect(from, y - this.laneHeight / 2, to - from, this.laneHeight);
  }

  // The lane of a thread that was killed is hatched up to its next start. That of one that is suspended, or aborted and not yet
  // killed, is framed. Each says so, where there is room.
  drawStops() {
    if (this.isHidden("stopped")) return;
    for (const thread of this.threads) {
      for (const { start, end, word } of seenSpans(this.run.stops[thread], this.first, this.last)) {
        const from = Math.max(LABEL_WIDTH, this.x(start));
        const to = Math.min(this.width, this.x(end < 0 ? this.run.count + 0.5 : end));
        if (to <= from) continue;
        this.drawStop(from, to, this.laneY(thread), word);
        this.drawn.stops.push({ thread, start, end, word });
      }
    }
  }

  drawStop(from, to, y, word) {
    const { context, colours, laneHeight } = this;
    const [top, bottom] = [y - laneHeight / 2 + 1, y + laneHeight / 2 - 1];
    if (to - from < HATCH) {
      context.fillStyle = colours.colour("stopped");
      context.fillRect(from, top, to - from, bottom - top);
      return;
    }
    context.save();
    context.beginPath();
    context.rect(from, top, to - from, bottom - top);
    context.clip();
    context.fillStyle = colours.colour("stopped");
    context.fillRect(from, top, to - from, bottom - top);
    context.strokeStyle = context.fillStyle = colours.colour("mark-stopped");
    context.lineWidth = 1;
    context.globalAlpha = 0.5;
    if (word === "killed") {
      for (let x = from - laneHeight; x < to; x += HATCH) {
        path(context, [[x, bottom], [x + laneHeight, top]]);
        context.stroke();
      }
    } else {
      context.setLineDash([3, 3]);
      context.strokeRect(from + 0.5, top + 0.5, to - from - 1, bottom - top - 1);
    }
    context.restore();
    this.drawWord(word, from + 3, to, y + laneHeight / 2 - 7, { ink: "mark-stopped", paper: "stopped" });
  }

  // A small word in a lane, where it fits between two places.
  drawWord(word, from, to, y, { ink, paper }) {
    if (this.laneHeight < LEAST_LANE_WITH_WORDS || to - from < LEAST_WORD) return;
    const { context, colours } = this;
    const { font } = context;
    context.font = "10px system-ui, sans-serif";
    const { width } = context.measureText(word);
    if (width <= to - from) {
      context.fillStyle = colours.colour(paper);
      context.fillRect(from - 1, y - 5, width + 2, 10);
      context.fillStyle = colours.colour(ink);
      context.fillText(word, from, y);
      this.drawn.words.push(word);
    }
    context.font = font;
  }

  // A bar from the wait to the resume, to where it is cut, or to the end of the run; with its deadline.
  drawWaits() {
    const { context, colours } = this;
    if (this.isHidden("wait")) return;
    const height = Math.min(14, this.laneHeight - 8);
    for (const thread of this.threads) {
      for (const wait of seenSpans(this.run.waits[thread], this.first, this.last)) {
        const from = Math.max(LABEL_WIDTH - 4, this.x(wait.start));
        const to = Math.min(this.width + 4, wait.end < 0 ? this.x(this.run.count + 0.5) : this.x(wait.end));
        const y = this.laneY(thread) - height / 2;
        context.fillStyle = colours.colour("waiting");
        context.fillRect(from, y, Math.max(1, to - from), height);
        context.lineWidth = 1;
        context.strokeStyle = colours.groups[GROUP_NUMBER.get("wait")];
        if (to - from > 3) context.strokeRect(from + 0.5, y + 0.5, to - from - 1, height - 1);
        if (wait.isCut) this.drawCut(to, y, height);
        if (wait.deadline >= 0) this.drawDeadline(wait, from, to, this.laneY(thread));
        if (this.drawn.waits.length < MOST_ARROWS) this.drawn.waits.push({ thread, ...wait });
      }
    }
  }

  drawDeadline({ deadline }, from, to, y) {
    this.drawWord(`until tick ${deadline}`, from, to, y - this.laneHeight / 2 + 6, { ink: "mark-wait", paper: "waiting" });
  }

  // A stroke across the end of a bar says that the wait was cut.
  drawCut(x, y, height) {
    const { context, colours } = this;
    context.save();
    context.strokeStyle = colours.colour("mark-stopped");
    stroked(context, [[x - 4, y + height + 3], [x + 4, y - 3]]);
    context.restore();
  }

  drawArrows() {
    const { arrows } = this.run;
    const from = firstAtLeast(arrows, this.first);
    const to = firstAtLeast(arrows, this.last + 1);
    if (to - from > (this.scale < SEPARATE_MARKS ? FEW_ARROWS : MOST_ARROWS)) return;
    for (const arrow of arrows.slice(from, to)) {
      if (!this.isHidden(arrow.group) && arrow.from !== arrow.to) this.drawArrow(arrow);
    }
  }

  // From the mark of what wakes or stops a thread to that thread's lane.
  drawArrow({ event, from, to, group }) {
    const { context, colours } = this;
    const [x, y, end] = [this.x(event), this.laneY(from), this.laneY(to)];
    const way = end > y ? 1 : -1;
    const bow = x + 10;
    context.strokeStyle = colours.colour(group === "wait" ? "mark-wake" : `mark-${group}`);
    context.fillStyle = context.strokeStyle;
    context.lineWidth = this.scale < SEPARATE_MARKS ? 1 : 2;
    context.beginPath();
    context.moveTo(x, y);
    context.bezierCurveTo(bow, y + way * 10, bow, end - way * 16, x + 3, end - way * 8);
    context.stroke();
    filled(context, [[x, end - way], [x - 2.5, end - way * 10], [x + 7.5, end - way * 8]]);
    this.drawn.arrows.push({ event, from, to, group, x, y, end });
  }

  drawMarks() {
    const { trace } = this.run;
    const r = Math.min(6.5, this.scale * 0.42, this.laneHeight * 0.3);
    for (let k = this.first; k <= this.last; k += 1) {
      const group = this.run.groups[k];
      if (this.hidden.has(group)) continue;
      this.mark(group, k, this.x(k), this.laneY(trace.who[k]), r);
    }
  }

  // In a long run lines and answers, which are most of it, are faint.
  strength(group) {
    const isFaded = this.run.count > FADED_ABOVE && ["line", "reply"].includes(GROUPS[group].name);
    return isFaded ? FADED : 1;
  }

  mark(group, k, x, y, r) {
    this.context.globalAlpha = this.strength(group);
    drawGroup(this.context, this.colours, group, x, y, r);
    this.context.globalAlpha = 1;
    this.drawn.marks += 1;
    const isFatal = GROUPS[group].name === "fatal";
    if (isFatal && this.drawn.fatals.length < MOST_ARROWS) this.drawn.fatals.push({ event: k, x, y });
  }

  // Where events share pixels: a bar for each cell of a few pixels, as high as the events are many, with a part for each
  // group; and on it the mark of an event that is to stand out.
  drawCells() {
    const { cells, counts, heaviest } = this.countCells();
    this.drawBars(cells, counts);
    heaviest.forEach((k, place) => {
      if (k === 0) return;
      const x = LABEL_WIDTH + (place % cells) * CELL + CELL / 2;
      this.mark(this.run.groups[k], k, x, this.laneY(this.run.trace.who[k]), Math.min(5, this.laneHeight * 0.4));
    });
  }

  // How many events of each group each cell of each lane has, and the heaviest event there that is to stand out.
  countCells() {
    const cells = Math.ceil(this.span() / CELL) + 4;
    const counts = new Uint32Array(cells * this.threads.length * GROUPS.length);
    const heaviest = new Uint32Array(cells * this.threads.length);
    const { groups, trace: { who } } = this.run;
    const isHidden = GROUPS.map((_, group) => this.hidden.has(group));
    const { laneOf, start, last } = this;
    const perCell = this.scale / CELL;
    for (let k = this.first; k <= last; k += 1) {
      const group = groups[k];
      if (isHidden[group]) continue;
      const place = laneOf[who[k]] * cells + Math.max(0, Math.floor((k - start) * perCell));
      counts[place * GROUPS.length + group] += 1;
      if (group >= FIRST_STANDING_OUT && group > (groups[heaviest[place]] || 0)) heaviest[place] = k;
    }
    return { cells, counts, heaviest };
  }

  drawBars(cells, counts) {
    const places = cells * this.threads.length;
    const totals = new Uint32Array(places);
    for (let at = 0; at < FIRST_STANDING_OUT; at += 1) {
      for (let place = 0; place < places; place += 1) totals[place] += counts[place * GROUPS.length + at];
    }
    const heights = Float32Array.from(totals, (total) => Math.min(this.laneHeight - 6, 4 + 3 * Math.log2(1 + total)));
    const drawn = new Float32Array(places);
    for (let group = 0; group < FIRST_STANDING_OUT; group += 1) {
      this.context.fillStyle = this.colours.groups[group];
      this.context.globalAlpha = this.strength(group);
      for (let place = 0; place < places; place += 1) {
        const count = counts[place * GROUPS.length + group];
        if (count === 0) continue;
        const height = (heights[place] * count) / totals[place];
        const top = this.lanesTop + (Math.floor(place / cells) + 0.5) * this.laneHeight - heights[place] / 2;
        this.context.fillRect(LABEL_WIDTH + (place % cells) * CELL, top + drawn[place], CELL - 1, height);
        drawn[place] += height;
        this.drawn.marks += 1;
      }
    }
    this.context.globalAlpha = 1;
  }

  drawMatches() {
    const { context } = this;
    context.fillStyle = this.colours.colour("match");
    let lastX = -10;
    for (const k of this.matches) {
      const x = this.x(k);
      if (x < LABEL_WIDTH || x - lastX < 2 || x > this.width) continue;
      filled(context, [[x - 4, 1], [x + 4, 1], [x, 7]]);
      lastX = x;
    }
  }

  drawChosen() {
    if (this.chosen === 0) return;
    const { context, colours } = this;
    const x = this.x(this.chosen);
    context.strokeStyle = colours.colour("chosen");
    context.lineWidth = 1.5;
    path(context, [[x, AXIS_HEIGHT - 2], [x, this.height]]);
    context.stroke();
    circle(context, x, this.laneY(this.run.trace.who[this.chosen]), 10);
    context.lineWidth = 2;
    context.stroke();
  }

  // The whole run in one strip, with what failed and the part that is seen, where that isn't all.
  drawOverview() {
    if (this.isWhole) return;
    const { context, colours, run, overviewTop: top } = this;
    const xOf = (k) => LABEL_WIDTH + (k / (run.count + 1)) * this.span();
    context.fillStyle = colours.colour("stripe");
    context.fillRect(LABEL_WIDTH, top, this.span(), OVERVIEW_HEIGHT);
    context.fillStyle = colours.colour("mark-fatal");
    let lastX = -1;
    for (const k of run.failures) {
      const x = Math.floor(xOf(k));
      if (x !== lastX) context.fillRect(x, top + 2, 1, OVERVIEW_HEIGHT - 4);
      lastX = x;
    }
    context.strokeStyle = colours.colour("chosen");
    context.lineWidth = 1.5;
    const [from, to] = [xOf(this.start), xOf(this.start + this.span() / this.scale)];
    context.strokeRect(from, top, Math.max(3, to - from), OVERVIEW_HEIGHT);
    path(context, [[xOf(this.chosen), top], [xOf(this.chosen), top + OVERVIEW_HEIGHT]]);
    context.stroke();
  }

  // Moves the view to a place of the overview.
  lookAt(x) {
    const event = ((x - LABEL_WIDTH) / this.span()) * (this.run.count + 1);
    this.start = event - this.span() / this.scale / 2;
    this.clampView();
    this.draw();
  }

  // Says what a mark means, where the pointer is on one; else how a thread is stopped there, and until when it waits at the most.
  hover(x, y) {
    const k = x > LABEL_WIDTH && y < this.overviewTop ? this.eventAtPoint(x, y) : 0;
    const isOn = k > 0 && Math.abs(this.laneY(this.run.trace.who[k]) - y) <= this.laneHeight / 2;
    const told = isOn ? k : this.spansAt(x, y);
    if (told === this.hovered) return;
    this.hovered = told;
    this.canvas.title = isOn ? `${told}: ${this.run.trace.line(told)}\n${explain(this.run, told)[0]}` : told;
  }

  spansAt(x, y) {
    const thread = this.threads[Math.floor((y - this.lanesTop) / this.laneHeight)];
    if (thread === undefined || x <= LABEL_WIDTH) return "";
    const k = Math.floor(this.eventAt(x));
    const name = this.run.description.nameOfThread(thread);
    const stop = seenSpans(this.run.stops[thread], k, k).at(-1);
    const wait = seenSpans(this.run.waits[thread], k, k).find(({ deadline }) => deadline >= 0);
    const told = [stop && `${name} is ${stop.word}.`, wait && `${name} waits until tick ${wait.deadline} at the most.`];
    return told.filter((sentence) => sentence).join("\n");
  }

  // The event that a click at a point means: that of the place, or the one that weighs most where many share it.
  eventAtPoint(x, y) {
    const lane = Math.floor((y - this.lanesTop) / this.laneHeight);
    const near = Math.max(CELL, 6) / this.scale;
    const middle = this.eventAt(x);
    if (this.scale >= SEPARATE_MARKS) return Math.max(0, Math.min(this.run.count, Math.floor(middle)));
    const { groups, trace, count } = this.run;
    let found = Math.max(0, Math.min(count, Math.round(middle)));
    let weight = -1;
    for (let k = Math.max(1, Math.floor(middle - near)); k <= Math.min(count, Math.ceil(middle + near)); k += 1) {
      if (this.laneOf[trace.who[k]] !== lane || groups[k] <= weight || this.hidden.has(groups[k])) continue;
      [found, weight] = [k, groups[k]];
    }
    return found;
  }

  listen() {
    const { canvas } = this;
    let drag = null;
    canvas.addEventListener("pointerdown", (event) => {
      const isOverview = this.run && !this.isWhole && event.offsetY >= this.overviewTop;
      drag = { x: event.offsetX, moved: 0, isOverview };
      if (isOverview) this.lookAt(event.offsetX);
      canvas.setPointerCapture(event.pointerId);
    });
    canvas.addEventListener("pointermove", (event) => {
      if (!this.run) return;
      if (!drag) return this.hover(event.offsetX, event.offsetY);
      if (drag.isOverview) return this.lookAt(event.offsetX);
      drag.moved += Math.abs(event.offsetX - drag.x);
      if (drag.moved > 4) this.pan(drag.x - event.offsetX);
      drag.x = event.offsetX;
    });
    canvas.addEventListener("pointerup", (event) => {
      const isClick = drag && !drag.isOverview && drag.moved <= 4 && this.run && event.offsetX > LABEL_WIDTH;
      drag = null;
      if (isClick) this.choose(this.eventAtPoint(event.offsetX, event.offsetY));
    });
    canvas.addEventListener("pointercancel", () => { drag = null; });
    canvas.addEventListener("wheel", (event) => this.onWheel(event), { passive: false });
  }

  onWheel(event) {
    if (!this.run) return;
    event.preventDefault();
    const isPan = event.shiftKey || Math.abs(event.deltaX) > Math.abs(event.deltaY);
    if (isPan) this.pan(event.deltaX || event.deltaY);
    else this.zoom(Math.exp(-event.deltaY / 400), event.offsetX);
  }
}

// The place of the first entry of a list in the order of its events whose event is at least k.
function firstAtLeast(list, k, key = "event") {
  let [low, high] = [0, list.length];
  while (low < high) {
    const middle = (low + high) >> 1;
    if (list[middle][key] < k) low = middle + 1;
    else high = middle;
  }
  return low;
}

// The waits or stops of a thread that reach into the events from first to last. Those of one thread follow one another.
function seenSpans(spans, first, last) {
  const from = Math.max(0, firstAtLeast(spans, first, "start") - 1);
  return spans.slice(from, firstAtLeast(spans, last + 1, "start")).filter(({ end }) => end < 0 || end >= first);
}

// What was painted last, for those who ask.
function nothingDrawn() {
  return { marks: 0, arrows: [], waits: [], fatals: [], labels: [], ticks: [], stops: [], words: [] };
}
