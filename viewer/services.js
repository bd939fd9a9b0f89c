"use strict";
// What an act of a service does to an object: how many a semaphore counts, who owns a mutex, how much a queue, a stack
// or a pipe holds, how often a timer ran out. The trace says who is answered what; from that, and from the script line,
// the rest follows.

// The effect of an act, by the instruction that makes it. `done` says that the answer is 0.
const ACTS = {
  k_sem_init: (act) => act.open(act.term(3), act.term(2)),
  k_sem_take: (act) => { if (act.done) act.grow(-1); },
  k_sem_give: (act) => { if (!act.woken.length && act.count < act.limit) act.grow(1); },
  k_sem_reset: (act) => act.setCount(0),
  k_sem_count_get: (act) => act.toRegister(2),
  k_mutex_init: (act) => act.open(0, 0),
  k_mutex_lock(act) {
    if (!act.done) return;
    act.grow(1);
    act.state.owner[act.row] = act.who;
  },
  k_mutex_unlock(act) {
    if (!act.done) return;
    act.grow(-1);
    if (act.count > 0) return;
    act.state.owner[act.row] = act.woken.length ? act.woken[0].thread : -1;
    act.setCount(act.woken.length);
  },
  k_msgq_alloc_init: (act) => act.open(act.term(3), 0),
  k_msgq_put: (act) => { if (act.done && !act.woken.length) act.grow(1); },
  k_msgq_get: (act) => { if (act.done && !act.woken.length) act.grow(-1); },
  k_msgq_purge: (act) => act.setCount(0),
  k_msgq_num_used_get: (act) => act.toRegister(2),
  k_stack_alloc_init: (act) => act.open(act.term(2), 0),
  k_stack_push: (act) => { if (act.done && !act.woken.length) act.grow(1); },
  k_stack_pop: (act) => { if (act.done) act.grow(-1); },
  k_pipe_init: (act) => act.open(act.term(2), 0),
  k_pipe_write: (act) => act.grow(act.answered - act.wokenBytes()),
  k_pipe_read: (act) => act.grow(act.wokenBytes() - act.answered),
  k_pipe_reset: (act) => act.setCount(0),
  k_pipe_close: (act) => { act.state.closed[act.row] = 1; },
  k_timer_start(act) {
    act.setCount(0);
    act.state.expires[act.row] = act.state.deadline[act.who];
  },
  k_timer_stop(act) {
    act.state.expires[act.row] = -1;
    act.tellWoken();
  },
  k_timer_status_get: (act) => act.tellStatus(),
  k_timer_status_sync: (act) => act.tellStatus(),
};

class Act {
  constructor(state, trace, k) {
    this.state = state;
    this.row = trace.row[k];
    this.who = trace.who[k];
    this.words = state.words(this.who);
    this.woken = trace.woken.get(k) ?? [];
    this.waits = trace.verdictWord(k) === "wait";
    this.isNumber = trace.verdictWord(k) === "number";
    this.answered = this.isNumber ? trace.value[k] : 0;
    this.done = this.isNumber && this.answered === 0;
  }

  get count() {
    return this.state.count[this.row];
  }

  get limit() {
    return this.state.limit[this.row];
  }

  term(place) {
    return this.state.term(this.who, this.words[place]);
  }

  setCount(count) {
    this.state.count[this.row] = count;
  }

  grow(by) {
    this.state.count[this.row] += by;
  }

  // A fresh content, and the buffer that was paid for it.
  open(limit, count) {
    if (!this.done) return;
    const { state, row, who } = this;
    state.limit[row] = limit;
    state.count[row] = count;
    state.owner[row] = -1;
    state.closed[row] = 0;
    if (state.paid[who]) {
      state.bufferPool[row] = state.pool[who];
      state.bufferSize[row] = state.paid[who];
      state.paid[who] = 0;
    }
  }

  toRegister(place) {
    if (this.isNumber) this.state.setRegister(this.who, this.words[place], this.answered);
  }

  // A timer's status goes to the one who asks, and is 0 from then on.
  tellStatus() {
    this.toRegister(2);
    this.setCount(0);
  }

  // The threads that a timer wakes have its status in their registers.
  tellWoken() {
    for (const { thread, reply } of this.woken) this.state.setRegister(thread, this.state.words(thread)[2], reply);
  }

  wokenBytes() {
    return this.woken.reduce((sum, { reply }) => sum + (typeof reply === "number" ? reply : 0), 0);
  }
}

function changeContent(state, trace, k, who) {
  const act = new Act(state, trace, k);
  endWaitsOfWoken(state, trace, k);
  if (act.waits) state.waitsOn[who] = trace.row[k];
  else if (act.row >= 0) ACTS[act.words[0]]?.(act);
}

// A timer runs out: its status is one more, or goes to the thread that is told.
function expireTimer(state, trace, k) {
  const act = new Act(state, trace, k);
  endWaitsOfWoken(state, trace, k);
  state.expires[act.row] = -1;
  act.tellWoken();
  if (act.woken.length) act.setCount(0);
  else act.grow(1);
}
