"use strict";
// The bytes of a run: memory, the messages in queues, stacks and pipes, and the names of threads. They are followed
// once from front to back, while a trace is read, to compare the end with the dump.

class Memory {
  constructor(description) {
    this.description = description;
    this.rodata = new Uint8Array(description.rodataSize);
    this.rodata.set(description.rodata);
    this.partitions = new Uint8Array(AREA_SIZE);
    this.stacks = new Uint8Array(AREA_SIZE);
    for (const { start, bytes } of description.partitions) this.partitions.set(bytes, start - PARTITIONS_START);
    // By row: the messages of a queue, the values of a stack, or the bytes of a pipe, the first ones first.
    this.stored = Array.from({ length: ROWS }, () => []);
    // By thread: the bytes that its call has copied in or was given, the putters' until they are taken.
    this.carried = Array.from({ length: THREADS }, () => []);
    this.names = new Map();
  }

  // The area in which an address stands, and its place there; outside of all areas one without bytes.
  spot(address) {
    const areas = [[STACKS_START, this.stacks], [PARTITIONS_START, this.partitions], [RODATA_START, this.rodata]];
    const found = areas.find(([start, area]) => address >= start && address < start + area.length);
    return found ? [found[1], address - found[0]] : [new Uint8Array(0), 0];
  }

  bytes(address, size) {
    const [area, at] = this.spot(address);
    return Array.from(area.subarray(at, at + size));
  }

  write(address, bytes) {
    const [area, at] = this.spot(address);
    area.set(bytes.slice(0, area.length - at), at);
  }

  // Follows event k. `state` is that before the event.
  apply(state, trace, k) {
    const follow = MEMORY_CHANGES[trace.kindWord(k)];
    if (follow) follow(this, trace, k, state);
  }

  // The bytes of a stack's values and of a queue's messages stand as lists of their own; a pipe has single bytes.
  takeBytes(row, most) {
    return this.stored[row].splice(0, most);
  }

  memoryLines() {
    return [[PARTITIONS_START, this.partitions], [STACKS_START, this.stacks]].flatMap(([start, area]) => {
      const lines = [];
      for (let at = 0; at < area.length; at += 32) {
        const bytes = area.subarray(at, at + 32);
        if (bytes.some((byte) => byte !== 0)) lines.push(`memory ${addressText(start + at)} ${hexText(bytes)}`);
      }
      return lines;
    });
  }

  nameOf(row) {
    return this.names.get(row)?.length ? hexText(this.names.get(row)) : "-";
  }
}

function addressText(address) {
  return `0x${address.toString(16).padStart(8, "0")}`;
}

function hexText(bytes) {
  return Array.from(bytes, (byte) => byte.toString(16).padStart(2, "0")).join("");
}

function littleEndian(value, size) {
  return [0, 8, 16, 24].slice(0, size).map((shift) => (value >>> shift) & 0xff);
}

const MEMORY_CHANGES = {
  store: (memory, trace, k) => memory.write(trace.addr[k], littleEndian(trace.value[k], trace.size[k])),
  erase(memory, trace, k) {
    const stack = memory.description.objects[trace.row[k]];
    memory.write(stack.start, new Uint8Array(stack.range));
  },
  copyin(memory, trace, k) {
    if (trace.verdictWord(k) !== "ok") return;
    memory.carried[trace.who[k]] = memory.bytes(trace.addr[k], Math.min(trace.size[k], 256));
  },
  copyout(memory, trace, k) {
    const bytes = memory.carried[trace.who[k]].slice(0, trace.size[k]);
    if (trace.verdictWord(k) === "ok") memory.write(trace.addr[k], bytes);
  },
  copystr(memory, trace, k) {
    memory.carried[trace.who[k]] = memory.bytes(trace.addr[k], trace.size[k]);
  },
  name(memory, trace, k) {
    memory.names.set(memory.description.rowOfThread(trace.peer[k]), memory.carried[trace.who[k]]);
  },
  recycle(memory, trace, k) {
    memory.stored[trace.row[k]] = [];
    memory.names.delete(trace.row[k]);
  },
  act: (memory, trace, k, state) => moveMessages(memory, new Act(state, trace, k)),
};

// How an act moves messages, values or bytes between its thread, the object and those that it wakes.
const MOVES = {
  k_msgq_put(memory, act) {
    const message = memory.carried[act.who];
    if (act.done && act.woken.length) memory.carried[act.woken[0].thread] = message;
    else if (act.done) memory.stored[act.row].push(message);
  },
  k_msgq_get(memory, act) {
    if (!act.done) return;
    memory.carried[act.who] = memory.stored[act.row].shift() ?? [];
    if (act.woken.length) memory.stored[act.row].push(memory.carried[act.woken[0].thread]);
  },
  k_msgq_peek(memory, act) {
    if (act.done) memory.carried[act.who] = memory.stored[act.row][0] ?? [];
  },
  k_stack_push(memory, act) {
    const value = littleEndian(act.term(2), 4);
    if (act.done && act.woken.length) memory.carried[act.woken[0].thread] = value;
    else if (act.done) memory.stored[act.row].push(value);
  },
  k_stack_pop(memory, act) {
    if (act.done) memory.carried[act.who] = memory.stored[act.row].pop() ?? [];
  },
  k_pipe_write(memory, act) {
    memory.stored[act.row].push(...memory.carried[act.who].slice(0, act.answered));
    for (const { thread, reply } of act.woken) memory.carried[thread] = memory.takeBytes(act.row, reply);
  },
  k_pipe_read(memory, act) {
    memory.carried[act.who] = memory.takeBytes(act.row, act.answered);
    for (const { thread, reply } of act.woken) memory.stored[act.row].push(...memory.carried[thread].slice(0, reply));
  },
};
for (const emptied of ["k_msgq_alloc_init", "k_stack_alloc_init", "k_pipe_init", "k_msgq_purge", "k_pipe_reset"]) {
  MOVES[emptied] = (memory, act) => {
    if (act.done || !emptied.includes("init")) memory.stored[act.row] = [];
  };
}

function moveMessages(memory, act) {
  if (!act.waits && act.row >= 0) MOVES[act.words[0]]?.(memory, act);
}
