// What can go wrong, and how it is reported: in each case run the given words, and keep nothing.
import {mkdtempSync, rmSync, writeFileSync} from "node:fs";
import {tmpdir} from "node:os";
import {join} from "node:path";
import {Scl} from "../scl.mjs";

async function ask(scl, title, more) {
  try {
    const answer = await scl.ask({compiler: "gcc", words: ["-E", "a.c"], ...more});
    console.log(`${title}: ${answer.outcome === "too-many-words" ? "too many words" : "answered"}`);
    if (answer.outcome === "cannot-cache") console.log(`word ${answer.word("at")}, ${answer.word("reason")}: ${answer.word("sentence")}`);
  } catch (error) {
    console.log(`${title}: ${error.message}`);
  }
}

const scl = new Scl();
await ask(scl, "rustc", {compiler: "rustc"});
await ask(scl, "a setting", {settings: ["what-none-knows 1"]});
await ask(scl, "one word at most", {settings: ["bound 1"]});
const folder = mkdtempSync(join(tmpdir(), "scl-")), catalogue = join(folder, "catalogue");
writeFileSync(catalogue, "what is this\n");
await ask(new Scl("describe", ["--catalogue", catalogue]), "a catalogue", {});
rmSync(folder, {recursive: true});
await ask(scl, "gcc -E", {});
scl.close();
