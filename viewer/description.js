"use strict";
// The system that a description describes: its objects by row, its threads by index, where its memory stands, and the
// words of its scripts. Only what the picture needs is looked at: whether a description is lawful, the program says.

const THREADS = 32;
const ROWS = 128;
const FIRST_DYNAMIC_ROW = 96;
const FIRST_DYNAMIC_THREAD = 28;
const DYNAMIC_ADDRESSES = 32;

const RODATA_START = 0x08000000;
const PARTITIONS_START = 0x20000000;
const STACKS_START = 0x20080000;
const AREA_SIZE = 0x80000;
const STATIC_OBJECTS_START = 0x40000000;
const DYNAMIC_OBJECTS_START = 0x48000000;

const FUTEX_SIZE = 4;

const KINDS = ["thread", "thread_stack", "sem", "mutex", "msgq", "stack", "pipe", "timer"];

// The kind of each dynamic address: the first address number of a kind, and the kind.
const DYNAMIC_KINDS = [[0, "thread"], [4, "sem"], [12, "mutex"], [16, "msgq"], [24, "stack"], [28, "pipe"]];

class Description {
  // Throws `Unreadable`, with line 0 where no single line is at fault.
  constructor(text) {
    this.text = text;
    const table = readToml(text);
    this.table = table;
    this.sectionsAreTables(table);
    this.profile = table.mpu;
    this.halts = table.oops === "halt";
    this.objects = entries(table, "object").map((entry, row) => ({ ...entry, row }));
    if (this.objects.length > FIRST_DYNAMIC_ROW) throw new Unreadable(0, "it has more than 96 objects");
    this.domains = entries(table, "domain").map((entry) => entry.name);
    this.pools = entries(table, "pool");
    this.scripts = entries(table, "script");
    this.rowOf = new Map(this.objects.map((object) => [object.name, object.row]));
    this.threadRows = this.objects.filter((object) => object.kind === "thread").map((object) => object.row);
    if (this.threadRows.length > FIRST_DYNAMIC_THREAD) throw new Unreadable(0, "it has more than 28 thread objects");
    this.placeMemory(table);
    this.regions = this.regionList();
  }

  sectionsAreTables(table) {
    for (const section of ["pool", "partition", "domain", "object", "boot", "script", "futex"]) {
      const list = table[section] ?? [];
      const isFine = Array.isArray(list) && list.every((entry) => typeof entry === "object" && !Array.isArray(entry));
      if (!isFine) throw new Unreadable(0, `its section "${section}" is no array of tables`);
    }
    if (!("version" in table)) throw new Unreadable(0, "it has no key \"version\", so it is no description");
  }

  // Rounds each size to one that the protection unit guards, and places one range behind the other.
  placeMemory(table) {
    this.rodata = bytesOf(table.rodata);
    this.partitions = entries(table, "partition").map((entry) => (Array.isArray(entry.vars) ? packed(entry) : { ...entry, bytes: bytesOf(entry.data) }));
    this.stacks = this.objects.filter((object) => object.kind === "thread_stack");
    this.place(this.partitions, PARTITIONS_START);
    this.place(this.stacks, STACKS_START);
    this.futexes = entries(table, "futex").map((entry) => {
      const { start } = this.partitionNamed(entry.partition);
      return { ...entry, start: start + entry.offset };
    });
    this.rodataSize = this.rodata.length ? this.rounded(this.rodata.length) : 0;
  }

  place(list, start) {
    for (const entry of list) entry.range = this.rounded(entry.size);
    const order = [...list];
    if (this.profile === "pmsav7") order.sort((one, other) => other.range - one.range);
    let next = start;
    for (const entry of order) {
      entry.start = next;
      next += entry.range;
    }
    if (!(next <= start + AREA_SIZE)) throw new Unreadable(0, "its memory doesn't fit, or a size isn't a number");
  }

  rounded(size) {
    if (this.profile === "pmsav8") return Math.ceil(size / 32) * 32;
    let range = 32;
    while (range < size) range *= 2;
    return range;
  }

  // What a thread's memory consists of: the rows of the second matrix.
  regionList() {
    const regions = [];
    if (this.rodataSize) regions.push({ what: "rodata", name: "rodata", start: RODATA_START, size: this.rodataSize });
    for (const { name, start, range, attr } of this.partitions) {
      regions.push({ what: "partition", name, start, size: range, attr });
    }
    for (const { name, start, range, row } of this.stacks) {
      regions.push({ what: "stack", name, start, size: range, row });
    }
    for (const { name, start } of this.futexes) regions.push({ what: "futex", name, start, size: FUTEX_SIZE });
    return regions;
  }

  // The row of an object as a trace shows it, or -1.
  row(shown) {
    if (shown.startsWith("#")) {
      const number = Number(shown.slice(1));
      return /^#\d+$/.test(shown) && number < DYNAMIC_ADDRESSES ? FIRST_DYNAMIC_ROW + number : -1;
    }
    return this.rowOf.get(shown) ?? -1;
  }

  // The thread index of a thread object's row, or -1.
  threadOfRow(row) {
    if (row < FIRST_DYNAMIC_ROW) return this.threadRows.indexOf(row);
    return row < FIRST_DYNAMIC_ROW + 4 ? FIRST_DYNAMIC_THREAD + row - FIRST_DYNAMIC_ROW : -1;
  }

  rowOfThread(thread) {
    return thread >= FIRST_DYNAMIC_THREAD ? FIRST_DYNAMIC_ROW + thread - FIRST_DYNAMIC_THREAD : this.threadRows[thread];
  }

  nameOfRow(row) {
    return row >= FIRST_DYNAMIC_ROW ? `#${row - FIRST_DYNAMIC_ROW}` : this.objects[row].name;
  }

  nameOfThread(thread) {
    return this.nameOfRow(this.rowOfThread(thread));
  }

  kindOfRow(row) {
    if (row < FIRST_DYNAMIC_ROW) return this.objects[row].kind;
    return DYNAMIC_KINDS.findLast(([first]) => first <= row - FIRST_DYNAMIC_ROW)[1];
  }

  partitionNamed(name) {
    const partition = this.partitions.find((entry) => entry.name === name);
    if (!partition) throw new Unreadable(0, `there is no partition "${name}"`);
    return partition;
  }

  // The address that a place such as @name+N stands for begins at this one.
  addressOfName(name) {
    if (name === "rodata") return RODATA_START;
    const partition = this.partitions.find((entry) => entry.name === name);
    if (partition) return partition.start;
    const variable = this.variableNamed(name);
    if (variable !== null) return variable;
    const futex = this.futexes.find((entry) => entry.name === name);
    if (futex) return futex.start;
    const row = this.rowOf.get(name);
    if (row === undefined) return 0;
    return this.objects[row].start ?? STATIC_OBJECTS_START + 64 * row;
  }

  // The address of the variable with this name, or null.
  variableNamed(name) {
    for (const { start, offsets } of this.partitions) {
      if (offsets?.has(name)) return start + offsets.get(name);
    }
    return null;
  }

  // How a place in memory is named: by the variable or the region that has it, and how many bytes behind its start; else "".
  placeName(address) {
    const region = this.regions.find(({ start, size }) => address >= start && address < start + size);
    if (!region) return "";
    const { start, offsets, vars } = this.partitions.find((entry) => entry.start === region.start) ?? region;
    const variable = vars?.find(({ name, size }) => {
      const from = start + offsets.get(name);
      return address >= from && address < from + size;
    });
    const [name, from] = variable ? [variable.name, start + offsets.get(variable.name)] : [region.name, region.start];
    return `${name}+${address - from}`;
  }

  // How the address of an object is named: by the object, or by itself.
  nameAt(address) {
    const object = this.objects.find(({ start, row }) => (start ?? STATIC_OBJECTS_START + 64 * row) === address);
    return object?.name ?? addressText(address);
  }

  // How an address on which threads wait is named: by its futex, or by itself.
  nameOfFutex(address) {
    return this.futexes.find(({ start }) => start === address)?.name ?? addressText(address);
  }

  // The words of a script line, whose number counts from 1.
  lineWords(script, line) {
    return (this.scripts[script]?.lines?.[line - 1] ?? "").split(" ").filter((word) => word !== "");
  }
}

function entries(table, section) {
  return table[section] ?? [];
}

// A partition that is written as the variables that lie in it: each stands at the least multiple of its alignment behind the one before.
function packed(entry) {
  const offsets = new Map();
  const bytes = [];
  let end = 0;
  for (const { name, size, align = 1, data } of entry.vars) {
    const offset = Math.ceil(end / align) * align;
    offsets.set(name, offset);
    bytesOf(data).forEach((byte, k) => (bytes[offset + k] = byte));
    end = offset + size;
  }
  return { ...entry, size: end, offsets, bytes: Uint8Array.from(bytes, (byte) => byte ?? 0) };
}

function bytesOf(digits) {
  const pairs = typeof digits === "string" ? digits.match(/../g) ?? [] : [];
  return Uint8Array.from(pairs, (pair) => parseInt(pair, 16));
}
