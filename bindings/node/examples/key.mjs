// The key of `gcc -c a.c -O2 -DX=1`: which rows a cache hashes as they are, which it looks up and hashes with their answer, and
// which it hashes only if the macro counts (docs/CACHE.md). Of a row `by name` the fields say where to look, and only the name is hashed.
import {Scl} from "../scl.mjs";

const scl = new Scl();
const answer = await scl.ask({compiler: "gcc", words: ["-c", "a.c", "-O2", "-DX=1"]});
const key = answer.isCacheable ? answer.fields("key").map((row) => row.map(String)) : [];
if (!key.length) console.log("keep nothing");
for (const [name, ...fields] of key) {
  if (name === "is" || name === "output") console.log(["hash", name, ...fields].join(" "));
  else if (name === "shown") console.log(`hash if it counts ${name} ${fields[0]}`);
  else console.log(`look up ${name}${["plan", "run", "run-else", "pch"].includes(name) ? ", by name" : ""}`);
}
scl.close();
