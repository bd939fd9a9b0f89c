"use strict";
// Reads the TOML that descriptions are written in: tables, arrays of tables, inline tables, arrays, strings, whole
// numbers and truth values. Other values (dates, fractions) have no place in a description and are refused.

// Something in a file that can't be read. `line` counts from 1.
class Unreadable extends Error {
  constructor(line, why) {
    super(why);
    this.line = line;
  }
}

// The table of a TOML text, as an object without a prototype. Throws `Unreadable`.
function readToml(text) {
  return new TomlReader(text).document();
}

const TOML_ESCAPES = { b: "\b", t: "\t", n: "\n", f: "\f", r: "\r", '"': '"', "\\": "\\" };

class TomlReader {
  constructor(text) {
    this.text = text;
    this.at = 0;
  }

  document() {
    const top = Object.create(null);
    let table = top;
    for (;;) {
      this.skipToContent();
      if (this.at >= this.text.length) return top;
      if (this.peek() === "[") {
        table = this.header(top);
      } else {
        this.pair(table);
      }
      this.endOfLine();
    }
  }

  // `[a.b]` opens a table, `[[a]]` a further entry of an array of tables.
  header(top) {
    this.at += 1;
    const isEntry = this.peek() === "[";
    if (isEntry) this.at += 1;
    this.skipBlanks();
    const keys = this.keys();
    this.expect("]");
    if (isEntry) this.expect("]");
    const last = keys.pop();
    const parent = this.descend(top, keys);
    if (!isEntry) return this.descend(parent, [last]);
    parent[last] ??= [];
    if (!Array.isArray(parent[last])) this.fail(`"${last}" is no array of tables`);
    parent[last].push(Object.create(null));
    return parent[last].at(-1);
  }

  // The table under a path of keys, made where it isn't there; of an array of tables its last entry.
  descend(table, keys) {
    for (const key of keys) {
      table[key] ??= Object.create(null);
      table = Array.isArray(table[key]) ? table[key].at(-1) : table[key];
      if (typeof table !== "object") this.fail(`"${key}" is no table`);
    }
    return table;
  }

  pair(table) {
    const keys = this.keys();
    this.expect("=");
    this.skipBlanks();
    const value = this.value();
    const last = keys.pop();
    const parent = this.descend(table, keys);
    if (last in parent) this.fail(`the key "${last}" stands twice`);
    parent[last] = value;
  }

  keys() {
    const keys = [];
    do {
      this.skipBlanks();
      const next = this.peek();
      keys.push(next === '"' || next === "'" ? this.string() : this.match(/[A-Za-z0-9_-]+/y, "a key"));
      this.skipBlanks();
    } while (this.take("."));
    return keys;
  }

  value() {
    const next = this.peek();
    if (next === '"' || next === "'") return this.string();
    if (next === "[") return this.array();
    if (next === "{") return this.inlineTable();
    const word = this.match(/[^\s,\]}#]+/y, "a value");
    if (word === "true" || word === "false") return word === "true";
    const digits = word.replace(/(?<=[0-9A-Fa-f])_(?=[0-9A-Fa-f])/g, "");
    if (/^[+-]?(0|[1-9][0-9]*)$|^0x[0-9A-Fa-f]+$|^0o[0-7]+$|^0b[01]+$/.test(digits)) return Number(digits);
    return this.fail(`"${word}" is no string, whole number or truth value`);
  }

  array() {
    this.at += 1;
    const items = [];
    for (;;) {
      this.skipToContent();
      if (this.take("]")) return items;
      items.push(this.value());
      this.skipToContent();
      if (!this.take(",") && this.peek() !== "]") this.fail("a , or ] is missing in an array");
    }
  }

  inlineTable() {
    this.at += 1;
    const table = Object.create(null);
    this.skipBlanks();
    if (this.take("}")) return table;
    do {
      this.pair(table);
      this.skipBlanks();
    } while (this.take(","));
    this.expect("}");
    return table;
  }

  string() {
    const quote = this.peek();
    if (this.text.startsWith(quote.repeat(3), this.at)) return this.longString(quote.repeat(3));
    this.at += 1;
    let read = "";
    while (this.peek() !== quote) {
      if (this.at >= this.text.length || this.peek() === "\n") this.fail("a string isn't closed");
      read += this.character(quote === '"');
    }
    this.at += 1;
    return read;
  }

  longString(quotes) {
    this.at += 3;
    this.take("\r");
    this.take("\n");
    let read = "";
    while (!this.text.startsWith(quotes, this.at)) {
      if (this.at >= this.text.length) this.fail("a string isn't closed");
      const joined = quotes === '"""' && /\\[ \t]*\r?\n\s*/y;
      if (joined) joined.lastIndex = this.at;
      if (joined && joined.test(this.text)) this.at = joined.lastIndex;
      else read += this.character(quotes === '"""');
    }
    this.at += 3;
    while (this.take(quotes[0])) read += quotes[0];
    return read;
  }

  character(escapes) {
    const next = this.text[this.at++];
    if (next !== "\\" || !escapes) return next;
    const escape = this.text[this.at++];
    if (escape in TOML_ESCAPES) return TOML_ESCAPES[escape];
    const digits = { u: 4, U: 8 }[escape];
    const code = digits && this.text.slice(this.at, this.at + digits);
    if (!code || !/^[0-9A-Fa-f]+$/.test(code) || code.length < digits || parseInt(code, 16) > 0x10ffff) {
      this.fail("an escape in a string is wrong");
    }
    this.at += digits;
    return String.fromCodePoint(parseInt(code, 16));
  }

  peek() {
    return this.text[this.at];
  }

  take(character) {
    if (this.peek() !== character) return false;
    this.at += 1;
    return true;
  }

  expect(character) {
    this.skipBlanks();
    if (!this.take(character)) this.fail(`a ${character} is missing`);
  }

  match(pattern, what) {
    pattern.lastIndex = this.at;
    const found = pattern.exec(this.text);
    if (!found) this.fail(`${what} is missing`);
    this.at = pattern.lastIndex;
    return found[0];
  }

  skip(pattern) {
    pattern.lastIndex = this.at;
    if (pattern.test(this.text)) this.at = pattern.lastIndex;
  }

  skipBlanks() {
    this.skip(/[ \t]+/y);
  }

  skipToContent() {
    this.skip(/(?:\s|#[^\n]*)+/y);
  }

  endOfLine() {
    this.skip(/[ \t]*(?:#[^\n]*)?/y);
    if (this.at < this.text.length && !/[\r\n]/.test(this.peek())) this.fail("something stands behind a value");
  }

  fail(why) {
    throw new Unreadable(this.text.slice(0, this.at).split("\n").length, why);
  }
}
