"use strict";
// What is opened or dropped: which file is a description, which is an output, and which holds both.

const BETWEEN = "=====";
const MOST_BYTES = 80 * 1024 * 1024;

// A description and an output, each with the name that it came under, as far as they are there.
class Sources {
  constructor() {
    this.description = null;
    this.output = null;
  }

  // Makes room for further files: another output may be one of the same description.
  renew() {
    if (this.isWhole) this.output = null;
  }

  copy() {
    return Object.assign(new Sources(), this);
  }

  // Takes a text in.
  take(name, text) {
    const at = `\n${text}`.indexOf(`\n${BETWEEN}\n`);
    if (at >= 0) {
      const front = text.slice(0, at);
      this.description = { name, text: front, firstLine: 1 };
      this.output = { name, text: text.slice(at + BETWEEN.length + 1), firstLine: front.split("\n").length + 1 };
    } else if (looksLikeDescription(name, text)) {
      this.description = { name, text, firstLine: 1 };
    } else {
      this.output = { name, text, firstLine: 1 };
    }
  }

  get isWhole() {
    return this.description !== null && this.output !== null;
  }

  // What is still wanted, for one who has given only one of the two.
  wanted() {
    if (this.output === null) {
      return `${this.description.name} is a description. Now its output: the text that zumode sim writes.`;
    }
    return `${this.output.name} is taken for an output. Now its description: the file that zumode sim read.`;
  }

  // Says where a text can't be read: the name of its file, and the line in that file.
  told(fault) {
    const source = this[fault.file] ?? this.output;
    const line = fault.line > 0 ? `line ${fault.line + source.firstLine - 1} of ` : "";
    return `Can't read ${line}${source.name}: ${fault.message}`;
  }
}

function looksLikeDescription(name, text) {
  return /\.toml$/i.test(name) || /^\s*(version|mpu|regions|oops)\s*=/m.test(text);
}

// Reads a file as UTF-8 text. What is far larger than any output is refused.
async function readText(file) {
  if (file.size > MOST_BYTES) throw new Unreadable(0, `it has more than ${MOST_BYTES / 1024 / 1024} MiB`);
  return (await file.text()).replace(/\r\n/g, "\n");
}
