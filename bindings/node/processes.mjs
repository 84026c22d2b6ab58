// Processes whose words and variables are any bytes: Node itself takes and gives UTF-8. A text has a character a byte here, below 256.
// It wants Linux. Nothing is proved of this file.
import {isUtf8} from "node:buffer";
import {spawnSync} from "node:child_process";
import {existsSync, mkdtempSync, readFileSync, rmSync, writeFileSync} from "node:fs";
import {constants, tmpdir} from "node:os";

// A process that waits passes no signal on; by this program one that is killed takes its child with it.
const SETPRIV = "/usr/bin/setpriv", WITH_PARENT = existsSync(SETPRIV) ? [SETPRIV, "--pdeathsig", "TERM", "--"] : [];
const bytes = (text) => Buffer.from(text, "latin1"), quoted = (it) => `'${it.replaceAll("'", "'\\''")}'`;
const listed = (file) => readFileSync(`/proc/self/${file}`, "latin1").split("\0").slice(0, -1);
const split = (pair) => [pair.split("=", 1)[0], pair.slice(pair.indexOf("=") + 1)];

/** What this process was given: its words after the script, and a Map of its variables. */
export function given() {
  const count = process.argv.length - 2, words = count > 0 ? listed("cmdline").slice(-count) : [];
  return {words, variables: new Map(listed("environ").filter((it) => it.includes("=")).map(split))};
}

function end(command, how) {
  const [program, ...words] = [...WITH_PARENT, ...command];
  const ran = spawnSync(program, words, {...how, maxBuffer: Infinity});
  if (ran.error) throw ran.error;
  return {...ran, status: ran.status ?? 128 + constants.signals[ran.signal]};
}

/** Runs a command to its end, and says how that was, as spawnSync does; after a signal the status is that of a shell. It throws where
 * the command can't be started. */
export function run(command, variables, stdio) {
  const all = [...Array.from(variables, (pair) => pair.join("=")), ...command];
  if (isUtf8(bytes(all.join("\0")))) {
    const [words, pairs] = JSON.parse(bytes(JSON.stringify([command, [...variables]])).toString());
    return end(words, {stdio, env: Object.fromEntries(pairs)});
  }
  const folder = mkdtempSync(`${tmpdir()}/run-`);
  try {
    writeFileSync(`${folder}/script`, bytes(`exec /usr/bin/env -i ${all.map(quoted).join(" ")}`));
    return end(["/bin/sh", `${folder}/script`], {stdio});
  } finally {
    rmSync(folder, {recursive: true});
  }
}
