// Asks `describe --batch`, one process for many requests, by the text protocol (docs/PROTOCOL.md). There is no native module.
//
//     const scl = new Scl();                        // the program `describe` on PATH, or new Scl("/path/to/describe")
//     const answer = await scl.ask({compiler: "gcc", words: ["-c", "a.c"]});
//     scl.close();
//
// Words and paths are strings or Buffers; the fields of an answer are Buffers, as words may be any bytes. Nothing is proved of this file.
import {spawn} from "node:child_process";

const PROTOCOL = "1";
const OUTCOMES = ["ok", "cannot-cache", "not-compilation", "too-many-words"];
// The rows that decide what is kept, and how many fields each has at most. A row with more may say: keep nothing.
const MOST_FIELDS = {arg: 1, hazard: 1, cacheable: 1, output: 3, environment: 2, language: 1, color: 1, dependency: 1, preprocessor: 1, common: 1, arch: 1,
  unhashed: 1, dist: 1, hash: 1, input: 1, "compilation-flag": 1, depfile: 1, "too-hard": 1, "double-dash-input": 0, "external-assembler": 0,
  "show-includes": 0, "explicit-language": 0, "profile-generate": 0, "no-rewrite-includes-only": 0};
// The rows of a key, and how many fields may follow the name.
const KEYS = {is: [1, Infinity], output: [2, 3], directory: [0, 0], compiler: [0, 0], plan: [0, Infinity], env: [1, 1], unset: [1, 1], file: [1, 1],
  maybe: [1, 1], regular: [1, 1], run: [0, Infinity], "run-else": [0, Infinity], pch: [0, Infinity], sources: [0, 0], "sources-if-shown": [1, 1],
  times: [0, 0], "refuse-if-shown": [1, 1], bases: [0, 0], "bases-if-beside": [0, 0], "bases-if-shown": [1, 1], "bases-if-planned": [1, 1],
  shown: [1, 1]};

// The rows `keep`, and how many fields each has.
const KEPT = {yes: 1, no: 3, unknown: 2};

// Each byte that does not stand for itself is written as two digits; in a setting blanks and backslashes stand for themselves.
const escaped = (it, others) => Buffer.from(it).toString("latin1").replace(others, (byte) => "\\x" + byte.charCodeAt(0).toString(16).padStart(2, "0"));
const field = (it) => escaped(it, /[^!-[\]-~]/g), setting = (it) => escaped(it, /[^ -~]/g);
const bytes = (it) => Buffer.from(it.replace(/\\x(..)/g, (_, digits) => String.fromCharCode(parseInt(digits, 16))), "latin1");

/** A line of a request: a keyword, and fields. */
export const line = (...fields) => fields.map(field).join(" ");

/** The text of a request. */
export function request({compiler, words = [], directory = "", environment = [], files = [], directories = [], existing = [], settings = [],
  bases = []}) {
  const pairs = (name, them) => them.map(([key, value]) => `${name} ${field(key)}\t${field(value)}`);
  const lines = [`compiler ${field(compiler)}`, `cwd ${field(directory)}`, ...words.map((it) => `word ${field(it)}`), ...pairs("env", environment),
    ...pairs("file", files), ...directories.map((it) => `dir ${field(it)}`), ...existing.map((it) => `exists ${field(it)}`),
    ...bases.map((it) => `setting base ${field(it)}`), ...settings.map((it) => `setting ${setting(it)}`)];
  return lines.map((it) => it + "\n").join("");
}

function isKnown({name, fields}) {
  if (name === "keep") return KEPT[String(fields[0])] === fields.length;
  if (name !== "key") return !Object.hasOwn(MOST_FIELDS, name) || fields.length <= MOST_FIELDS[name];
  const key = String(fields[0]), [least, most] = Object.hasOwn(KEYS, key) ? KEYS[key] : [1, 0];
  return fields.length > least && fields.length - 1 <= most;
}

/** An answer: its outcome, and its rows, each with a name and fields. */
export class Answer {
  constructor(text) {
    const [outcome, ...lines] = text.split("\n");
    this.outcome = outcome.split(" ")[0];
    this.rows = lines.map((line) => line.split(" ")).map(([name, ...fields]) => ({name, fields: fields.map(bytes)}));
    if (!OUTCOMES.includes(this.outcome) || String(this.word("version")) !== PROTOCOL) throw new Error(`not known here: ${outcome}`);
    const cacheable = String(this.word("cacheable")) === "yes";
    this.isCacheable = cacheable && this.rows.every(isKnown) && this.words("keep").every((it) => String(it) === "yes");
  }

  /** The fields of each row of this name. */
  fields(name) {
    return this.rows.filter((row) => row.name === name).map((row) => row.fields);
  }

  /** The first field of each row of this name. */
  words(name) {
    return this.fields(name).map((fields) => fields[0]);
  }

  /** The first field of the first row of this name. */
  word(name) {
    return this.words(name)[0];
  }
}

function answerOf(lines) {
  const bad = /^bad-line (\d+)$/.exec(lines[0]);
  if (bad) throw new Error(bad[1] === "1" ? "no such compiler" : "not known to this library");
  return new Answer(lines.join("\n"));
}

function makerOf(lines) {
  const {"made-by": release, rules, version} = Object.fromEntries(lines.map((line) => line.split(" ")));
  if (!release || !rules || version !== PROTOCOL) throw new Error("not known to this library");
  return {release: String(bytes(release)), rules: String(bytes(rules)), protocol: version};
}

function rowsOf(lines) {
  if (!lines.includes(`version ${PROTOCOL}`)) throw new Error(`not known here: ${lines[0]}`);
  return lines.map((it) => it.split(" ").map(bytes));
}

// What a status of the program means (docs/PROTOCOL.md, Statuses).
const STATUSES = {3: "out of memory", 65: "a bad catalogue"};

// A running program, and what was asked of it.
class Running {
  #process;
  #waiting = [];
  #lines = [];
  #pieces = []; // of the line that has no end yet
  isOver = false;

  constructor(program, words) {
    this.#process = spawn(program, [...words, "--batch"], {stdio: ["pipe", "pipe", "inherit"]});
    this.#process.stdout.setEncoding("latin1").on("data", (more) => this.#take(more));
    this.#process.stdin.on("error", () => {});
    this.#process.on("error", (error) => this.#end(error)).on("exit", () => (this.isOver = true))
      .on("close", (status) => this.#end(new Error(STATUSES[status] ?? `${program} ended, status ${status}`)));
  }

  ask(text, read) {
    return new Promise((resolve, reject) => {
      this.#waiting.push({read, resolve, reject});
      this.#process.stdin.write(text + "end\n");
    });
  }

  close() {
    this.#process.stdin.end();
  }

  #end(error) {
    this.isOver = true;
    for (const {reject} of this.#waiting.splice(0)) reject(error);
  }

  #take(more) {
    const [rest, ...begun] = more.split("\n");
    this.#pieces.push(rest);
    for (const piece of begun) {
      this.#takeLine(this.#pieces.join(""));
      this.#pieces = [piece];
    }
  }

  // (each description ends in a line `end`, and no row has that name)
  #takeLine(line) {
    if (line === "end") this.#settle(this.#lines.splice(0), this.#waiting.shift());
    else this.#lines.push(line);
  }

  #settle(lines, {read, resolve, reject}) {
    try {
      resolve(read(lines));
    } catch (error) {
      reject(error);
    }
  }
}

/** `describe --batch`, started at the first request, and again at the next one if it ended; its other words may name a catalogue. */
export class Scl {
  #program;
  #words;
  #running;
  #isClosed = false;

  constructor(program = "describe", words = []) {
    this.#program = program;
    this.#words = words;
  }

  /** The answer to a request. It throws where a line of the request is bad, the answer is not known here, or the program ends. */
  async ask(given) {
    return this.#respond(request(given), answerOf);
  }

  /** Which release answers, as `1.0.0`, by the rules of which sccache, as `0.19.0`, and the protocol: what a cache has to tell apart. */
  async madeBy() {
    return this.#respond("made-by\n", makerOf);
  }

  /** The rows of the answer to a request of any kind, which has these lines (docs/PROTOCOL.md, A request); each is an array of Buffers. */
  async rows(lines) {
    return this.#respond(lines.map((it) => it + "\n").join(""), rowsOf);
  }

  #respond(text, read) {
    if (this.#isClosed) throw new Error("closed");
    if (!this.#running || this.#running.isOver) this.#running = new Running(this.#program, this.#words);
    return this.#running.ask(text, read);
  }

  close() {
    this.#isClosed = true;
    this.#running?.close();
  }
}
