// A first question: which command may run in the place of `gcc -c a.c -O2`, and what it reads and makes.
import {Scl} from "../scl.mjs";

const scl = new Scl();
const answer = await scl.ask({compiler: "gcc", words: ["-c", "a.c", "-O2"]});
if (answer.outcome === "ok" && !answer.words("hazard").length) {
  console.log(["run: gcc", ...answer.words("arg")].join(" "));
  console.log(`reads: ${answer.word("input")}`);
  for (const [, path] of answer.fields("output")) console.log(`makes: ${path}`);
  console.log(`may be kept: ${answer.isCacheable ? "yes" : "no"}`);
} else {
  console.log("run the given words");
}
scl.close();
