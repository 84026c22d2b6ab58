// The loop of a cache over three command lines: it asks until no file is wanted that is there, and decides. The files of this
// example are in memory. The look-ups are left out, and so are hits: docs/CACHE.md goes through a whole cache.
import {Scl} from "../scl.mjs";

const disk = new Map([["/w/flags", "-O2 -DX=1"]]);
const scl = new Scl();

async function answered(words) {
  const files = [];
  for (;;) {
    const answer = await scl.ask({compiler: "gcc", words, directory: "/w", files});
    const wanted = answer.fields("wants").map((row) => row.map(String));
    const found = wanted.filter(([kind, path]) => kind === "file" && disk.has(path)).map(([, path]) => path);
    if (!found.length) return answer;
    for (const path of found) {
      console.log(`  reads ${path}`);
      files.push([path, disk.get(path)]);
    }
  }
}

function decision(answer) {
  const [keep] = answer.fields("keep").filter(([what]) => String(what) !== "yes"), names = answer.words("key").map(String);
  if (answer.outcome === "cannot-cache") return `run it as given: ${answer.word("reason")}`;
  if (keep) return `run it as given: ${keep.slice(1).join(" ")}`;
  if (!answer.isCacheable || !names.length) return "run it as given";
  const facts = names.filter((name) => name === "is" || name === "output").length, macros = names.filter((name) => name === "shown").length;
  return `hash ${facts} rows, look up ${names.length - facts - macros}, hash ${macros} if it counts`;
}

for (const line of ["gcc -c a.c @flags", "gcc -E a.c", "gcc -c a.c -o -"]) {
  console.log(line);
  console.log("  " + decision(await answered(line.split(" ").slice(1))));
}
scl.close();
