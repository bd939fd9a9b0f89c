"use strict";
// The scripts, with the line that each thread is at.

class ScriptPane {
  constructor(holder, choose) {
    this.holder = holder;
    this.choose = choose;
  }

  setRun(run) {
    this.run = run;
    this.marked = [];
    this.holder.replaceChildren(...run.description.scripts.map((script, number) => this.scriptPart(script, number)));
  }

  // A script's lines are made when it is opened first.
  scriptPart({ name, lines }, number) {
    const part = wrapped("details", textElement("summary", name));
    const list = wrapped("ol");
    part.append(list);
    part.addEventListener("toggle", () => this.fill(list, number, lines));
    return part;
  }

  fill(list, number, lines) {
    if (list.childElementCount) return;
    list.append(...lines.map((line, at) => {
      const button = wrapped("button", textElement("span", String(at + 1), "number"), textElement("code", line));
      button.type = "button";
      button.addEventListener("click", () => this.goTo(number, at + 1));
      return wrapped("li", button);
    }));
    this.mark();
  }

  // The next event that begins a line, or else the first one.
  goTo(script, line) {
    const { trace, count } = this.run;
    for (let step = 1; step <= count; step += 1) {
      const k = ((this.k - 1 + step) % count) + 1;
      if (trace.kindWord(k) === "begin" && trace.row[k] === script && trace.size[k] === line) return this.choose(k);
    }
  }

  show(k) {
    this.k = k;
    const state = this.run.stateAfter(k);
    const isAtLine = (thread) => state.life[thread] === LIFE.started && state.script[thread] >= 0;
    const threads = sorted(this.run.used.threads).filter(isAtLine);
    this.present = threads.map((thread) => ({
      thread, script: state.script[thread], line: state.line[thread], isActing: k > 0 && this.run.trace.who[k] === thread,
    }));
    for (const { script, isActing } of this.present) {
      if (isActing || k === 0) this.holder.children[script].open = true;
    }
    this.mark();
  }

  // Marks the present lines of the scripts that are open.
  mark() {
    for (const element of this.marked) element.remove();
    for (const button of this.holder.querySelectorAll("[aria-current]")) button.ariaCurrent = null;
    this.marked = this.present.flatMap(({ thread, script, line, isActing }) => {
      const part = this.holder.children[script];
      const place = line === 0 ? part.querySelector("summary") : part.querySelectorAll("button")[line - 1];
      if (!place) return [];
      if (isActing) {
        place.ariaCurrent = "true";
        scrollInside(this.holder, place);
      }
      const sign = textElement("span", this.run.description.nameOfThread(thread), "at-line");
      place.append(sign);
      return [sign];
    });
  }
}
