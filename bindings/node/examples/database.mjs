// A compile database: how many entries a cache gains, and why the rest is lost. `scl database` does the same for files, with words
// of a shell's text.
import {Scl} from "../scl.mjs";

const database = `[
  {"directory": "/w", "file": "a.c", "arguments": ["gcc", "-c", "a.c"]},
  {"directory": "/w", "file": "c.c", "arguments": ["gcc", "-E", "c.c"]},
  {"directory": "/w", "file": "d.c", "arguments": ["gcc", "-c", "d.c", "-MD", "-MT", "one", "-MT", "two"]}
]`;

const scl = new Scl(), entries = JSON.parse(database);
let cached = 0, withHazard = 0;
for (const [at, {directory, arguments: [compiler, ...words]}] of entries.entries()) {
  const answer = await scl.ask({compiler, words, directory}), hazards = answer.words("hazard");
  cached += answer.outcome === "ok";
  withHazard += hazards.length > 0;
  if (answer.outcome === "cannot-cache") console.log(`entry ${at + 1} cannot be cached: ${answer.word("reason")}`);
  for (const hazard of hazards) console.log(`entry ${at + 1} has a hazard: ${hazard}`);
}
console.log(`${entries.length} entries, ${cached} can be cached, ${withHazard} with a hazard`);
scl.close();
