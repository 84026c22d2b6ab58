#!/usr/bin/env node
const HELP = `lookup.mjs COMPILER WORD ..: a compiler cache that answers the questions of DESCRIBE,
a program (docs/PROTOCOL.md, A lookup). CACHE is a folder that only its owner may enter, made if
there is none; clear it after an update of DESCRIBE. CACHE_LOG may name a file, for a line a call:
hit, miss, unkept or given, and why. Status: the compiler's; 64: a wrong call; 127: no compiler.`;
// A text has a character a byte here, below 256, since names and words may be no UTF-8.
import {createHash} from "node:crypto";
import fs from "node:fs";
import {posix} from "node:path";
import {isatty} from "node:tty";
import {given, run} from "../processes.mjs";
import {Scl, line as lineOf} from "../scl.mjs";

const {O_NOFOLLOW, O_NONBLOCK, S_IFREG} = fs.constants, {dirname, basename} = posix;
const COMPILER = /(?:^|[-/])(gcc|g\+\+|clang|clang\+\+)(?:-[0-9.]+)?$/;
const WHY_NOT = ["cannot-cache", "not-compilation", "too-many-words", "keep", "given", "refused"];
const HELD = ["file", "names", "real", "times", "run"]; // asked once more after a compilation
const WANTED = {"=": ["file", "exists"], "/": ["dir", "exists"], "-": []}; // of what is there
// What fails gives up what is done: then the given words are run, and nothing is kept.
function need(it, why) { if (it || it === "") return it; throw new Error(why); }
function orNothing(look) { try { return look(); } catch { return undefined; } }
const stop = (message, status) => process.exit(console.error(message) ?? status);
const bytes = (text) => Buffer.from(text, "latin1"), text = (data) => data.toString("latin1");
const digest = (text) => createHash("sha256").update(text, "latin1").digest("hex");
const line = (...fields) => lineOf(...fields.map(bytes));
const alike = (them) => line(...them.map((it) => it.replace(/\0\/[^\s"']*/g, ""))); // (temporary)
const remembered = (map, key, make) => map.get(key) ?? map.set(key, make()).get(key);
const isOlder = (was, time) => BigInt(was.split(" ").at(-1)) < time;
const content = (path) => fs.readFileSync(bytes(path));
const state = (path, look = fs.statSync) => orNothing(() => look(bytes(path), {bigint: true}));
const stateOfName = (path) => state(path, fs.lstatSync); // not of what a link leads to
function stamp(path) { // undefined: there is nothing
  const it = state(path);
  return it && [it.size, it.mtimeNs, it.dev, it.ino, it.ctimeNs].join(" ");
}
function realPath(path) { // also of what is not there
  const real = orNothing(() => text(fs.realpathSync.native(bytes(path), "buffer")));
  return real ?? `${realPath(dirname(path))}/${basename(path)}`;
}
function way(path, most = 40) { // a name, and each one that its links lead to
  const here = `${realPath(dirname(path))}/${basename(path)}`.replace("//", "/");
  if (!most || !stateOfName(here)?.isSymbolicLink()) return [here];
  const target = text(fs.readlinkSync(bytes(here), "buffer"));
  return [here, ...way(target[0] === "/" ? target : `${dirname(here)}/${target}`, most - 1)];
}
const isOwn = (it) => Number(it.uid) === process.geteuid();
function isUsual(path) { // compilers write through links, and some leave a file its mode
  const mask = process.umask(0o077), it = stateOfName(path);
  process.umask(mask);
  return !it || (Number(it.mode) === (S_IFREG | (0o666 & ~mask)) && it.nlink === 1n && isOwn(it));
}
function inFolder(at, use) { // a new one, which goes
  const folder = text(fs.mkdtempSync(bytes(at), "buffer"));
  try { return use(folder); } finally { fs.rmSync(bytes(folder), {recursive: true}); }
}
const write = (path, data) => inFolder(`${dirname(path)}/part-`, (folder) => {
  fs.writeFileSync(bytes(`${folder}/part`), data); // elsewhere first, so that nobody sees a part
  fs.renameSync(bytes(`${folder}/part`), bytes(path));
});
class Store { // a folder of one's own, with entries that begin with their sum
  constructor(at) {
    this.at = at;
    if (!stateOfName(at)) fs.mkdirSync(bytes(at), {recursive: true, mode: 0o700});
    const it = stateOfName(at), isPrivate = it.isDirectory() && !(it.mode & 0o077n);
    if (!isPrivate || !isOwn(it)) stop(`lookup.mjs: ${at}: not yours alone`, 64);
  }
  get(name) { // undefined: there is none, or a broken one
    const path = `${this.at}/${name}`, it = stateOfName(path);
    if (!it) return undefined;
    need(it.isFile() && isOwn(it), `no own file: ${path}`);
    const all = text(fs.readFileSync(bytes(path), {flag: O_NOFOLLOW | O_NONBLOCK}));
    return digest(all.slice(64)) === all.slice(0, 64) ? all.slice(64) : undefined;
  }
  put(name, data) {
    return write(`${this.at}/${name}`, bytes(digest(data) + data)) ?? data;
  }
}
class Machine { // answers questions, and remembers the answers, and how each file was that it read
  constructor(words, variables, cwd) {
    Object.assign(this, {words, variables, cwd, answers: new Map(), stamps: new Map()});
    this.start = BigInt(Date.now() - 10) * 1000000n; // (clocks of file systems are coarse)
    this.store = new Store(posix.resolve(cwd, variables.get("CACHE")));
  }
  answer(...question) {
    const make = () => ({question, fields: this.look(question)});
    return remembered(this.answers, line(...question), make).fields;
  }
  look([kind, it, ...words]) { // the fields of an answer
    switch (kind) {
      case "env": return this.variables.has(it) ? [this.variables.get(it)] : [];
      case "program": return this.program(it || this.words[0]);
      case "file": return [this.standing(it)];
      case "bytes": return state(it)?.isFile() && this.note(it) ? [text(content(it))] : [];
      case "names": return fs.readdirSync(bytes(it), "buffer").map(text).sort();
      case "real": return [realPath(it)];
      case "times": return [this.note(it).split(" ").slice(0, 2).join(" ")];
      case "run": return this.run(it, words);
      default: throw new Error("a question that is not known");
    }
  }
  standing(path) {
    const it = state(path), isDevice = (name) => /^\/(proc|dev(?!\/shm\/))\//.test(name);
    if (it?.isDirectory()) return "/";
    if (way(path).some(isDevice) || (it && !it.isFile())) return "!";
    return it ? `=${this.sum(path)}` : "-";
  }
  note(path) { // how it was when it was first looked at
    return remembered(this.stamps, path, () => need(stamp(path), `no file: ${path}`));
  }
  sum(path) { // of a large file that is older than 2 seconds it is remembered
    const was = this.note(path), name = `sum-${digest(line(path, was))}`;
    const isRemembered = parseInt(was) >= 2 ** 20 && isOlder(was, this.start - 2000000000n);
    if (!isRemembered) return digest(content(path));
    return this.store.get(name) ?? this.store.put(name, digest(content(path)));
  }
  output(command, more = []) { // of a program that reads nothing
    return run(command, new Map([...this.variables, ...more]), ["ignore", "pipe", "pipe"]);
  }
  program(name) { // with its libraries, as the shell finds it
    const found = text(this.output(["/bin/sh", "-c", 'command -v "$1"', "sh", name]).stdout);
    const path = found.replace(/\n$/, "");
    if (!path.includes("/")) return [];
    const told = text(this.output(["ldd", path]).stdout).matchAll(/(?:=> |^\t)(\/.*) \(0x/gm);
    const sums = [path, ...Array.from(told, (it) => it[1])].map((it) => this.sum(it));
    return [digest(sums.join("")), name, ...way(path)];
  }
  run(language, words) {
    return inFolder(`${this.store.at}/run-`, (folder) => {
      const own = `${folder}/own`, command = words.map((it) => (it === "\0" ? own : it));
      const more = [["TMPDIR", folder], ...(language ? [["LC_ALL", language]] : [])];
      const ran = this.output([this.words[0], ...command], more);
      const texts = [ran.stdout, ran.stderr, state(own) ? content(own) : bytes("")].map(text);
      return [String(ran.status), ...texts.map((it) => it.replaceAll(folder, "\0"))];
    });
  }
  fact(kind, path) { // a line that says what stands there, if that is wanted
    const kinds = need(WANTED[this.answer("file", path)[0][0]], `no regular file: ${path}`);
    if (!kinds.includes(kind)) return undefined;
    return line(kind, path) + (kind === "file" ? `\t${line(...this.answer("bytes", path))}` : "");
  }
  isAsBefore(outputs) { // but for what was made
    const absolute = (path) => posix.resolve(this.cwd, path), made = outputs.map(absolute);
    const isLeft = ([kind, it]) => kind === "run" ? it : made.includes(absolute(it)); // (or a plan)
    const isAsked = ({question: it}) => HELD.includes(it[0]) && !isLeft(it);
    const asked = [...this.answers.values()].filter(isAsked);
    const isOld = ([path, was]) => stamp(path) === was && isOlder(was, this.start);
    const isSame = (it) => alike(this.look(it.question)) === alike(it.fields);
    return asked.every(isSame) && [...this.stamps].every(isOld);
  }
}
async function lookedUp(machine, scl) { // the rows behind the last answer
  const names = machine.answer("program", "").slice(1).map((it) => COMPILER.exec(it)?.[1]);
  const compiler = line("compiler", need(names.find((it) => it), "no known name"));
  const words = machine.words.slice(1).map((it) => line("word", it));
  const head = ["lookup", "setting wants wants", compiler, line("cwd", machine.cwd), ...words];
  for (let facts = [], answers = [];;) {
    const rows = (await scl.rows([...head, ...facts, ...answers])).map((row) => row.map(text));
    const [wanted, asked] = ["wants", "ask"].map((it) => rows.filter((row) => row[0] === it));
    const found = wanted.map((row) => machine.fact(row[1], row[2]));
    const more = found.filter((it) => it && !facts.includes(it));
    if (more.length) [facts, answers] = [[...facts, ...more], []];
    else if (!asked.length) return rows;
    else answers.push(...asked.map(([, ...it]) => line("answer", it[0], ...machine.answer(...it))));
  }
}
function show(output, messages, rows) { // built commands force colours
  const isPlain = !isatty(2) && rows.some((row) => row.join(" ") === "color auto");
  const shown = isPlain ? messages.replace(/\x1b\[[\d;]*[mK]/g, "") : messages;
  if (output.length) fs.writeFileSync(1, output);
  if (shown.length) fs.writeFileSync(2, bytes(shown));
}
function call(machine, rows) { // what is done, why, and the status
  const reasons = rows.filter((row) => WHY_NOT.includes(row[0])).map((row) => row.join(" "));
  const whyNot = reasons.filter((it) => it !== "keep yes").join(", ");
  const name = need(rows.find((row) => row[0] === "name"), whyNot)[1];
  const files = rows.filter((row) => row[0] === "key" && row[1] === "output");
  const outputs = new Map(files.map((row) => [row[3], row[4] === "optional"]));
  for (const it of outputs.keys()) need(isUsual(it), `an output that is no usual file: ${it}`);
  const entry = machine.store.get(name);
  if (!entry) return compileAndKeep(machine, name, rows, outputs);
  const [messages, kept] = JSON.parse(entry);
  for (const [path, data] of kept) write(path, bytes(data));
  show("", messages, rows);
  return ["hit", name, 0];
}
function compileAndKeep(machine, name, rows, outputs) {
  const asGiven = rows.find((row) => row.slice(0, 4).join(" ") === "key is run-words given");
  const words = asGiven?.slice(4) ?? rows.filter((row) => row[0] === "arg").map((row) => row[1]);
  const paths = [...outputs.keys()], before = new Map(paths.map((it) => [it, stamp(it)]));
  const ran = run([machine.words[0], ...words], machine.variables, ["inherit", "pipe", "pipe"]);
  show(ran.stdout, text(ran.stderr), rows);
  const written = paths.filter((it) => state(it) && stamp(it) !== before.get(it));
  const isWhole = paths.every((it) => outputs.get(it) || written.includes(it));
  const isRight = ran.status === 0 && !ran.stdout.length && isWhole && written.every(isUsual);
  const entry = () => [text(ran.stderr), written.map((it) => [it, text(content(it))])];
  const put = () => machine.store.put(name, JSON.stringify(entry()));
  const isKept = orNothing(() => isRight && machine.isAsBefore(paths) && put());
  return [isKept ? "miss" : "unkept", name, ran.status];
}
async function main() {
  const {words, variables} = given(), scl = new Scl(process.env.DESCRIBE);
  if (["--help", "-h"].includes(words[0])) return console.log(HELP) ?? 0;
  if (!words.length || !variables.get("CACHE") || !variables.has("DESCRIBE")) stop(HELP, 64);
  let what = "given", why, status;
  try {
    const machine = new Machine(words, variables, text(fs.realpathSync.native(".", "buffer")));
    [what, why, status] = call(machine, await lookedUp(machine, scl));
  } catch (error) { // (whatever fails here, the compiler may not)
    why = error.message;
  }
  scl.close();
  const said = `${what} ${why} | ${words.join(" ")}`.replaceAll("\n", " ");
  orNothing(() => fs.appendFileSync(bytes(variables.get("CACHE_LOG")), bytes(`${said}\n`)));
  if (status !== undefined) return status;
  const ran = orNothing(() => run(words, variables, "inherit")); // (Node has no exec)
  if (!ran) stop(`lookup.mjs: ${words[0]}: it can't be started`, 127);
  if (ran.signal) process.kill(process.pid, ran.signal);
  return ran.status;
}
process.exitCode = await main();
