// node --test scl.test.mjs: the program is that of DESCRIBE, or `describe` on PATH.
import assert from "node:assert/strict";
import {existsSync, mkdtempSync, rmSync} from "node:fs";
import {tmpdir} from "node:os";
import {join} from "node:path";
import {test} from "node:test";
import {run} from "./processes.mjs";
import {Answer, Scl, line, request} from "./scl.mjs";

const DESCRIBE = process.env.DESCRIBE ?? "describe";
const plain = {compiler: "gcc", words: ["-c", "a.c"]};

// Asks a program of a shell's text, in which $0 is a path at which there is nothing yet.
async function asking(script, use) {
  const room = mkdtempSync(join(tmpdir(), "scl-"));
  const scl = new Scl("/bin/sh", ["-c", script, join(room, "it")]);
  try {
    await use(scl, join(room, "it"));
  } finally {
    scl.close();
    rmSync(room, {recursive: true});
  }
}

test("bytes are written as fields", () => {
  const text = request({compiler: "gcc", directory: "/w d", words: [Buffer.from("a b\\\xff", "latin1")], files: [["/r", "x\n"]], settings: ["version a b"], bases: ["/w d"]});
  assert.equal(text, "compiler gcc\ncwd /w\\x20d\nword a\\x20b\\x5c\\xff\nfile /r\tx\\x0a\nsetting base /w\\x20d\nsetting version a b\n");
});

test("a setting is one line", async () => {
  const scl = new Scl(DESCRIBE);
  const forged = scl.ask({...plain, settings: ["bound 9\nend\ncompiler gcc\nword -E\nword forged.c"]}), next = scl.ask(plain);
  await assert.rejects(forged, /not known to this library/);
  assert.deepEqual((await next).words("arg").map(String), ["-x", "c", "-c", "-o", "a.o", "-fdiagnostics-color=always", "a.c"]);
  scl.close();
});

test("what is no text is rejected, and the next answer is its own", async () => {
  const scl = new Scl(DESCRIBE);
  const wrong = scl.ask({compiler: "gcc", words: [7]}), next = scl.ask(plain);
  await assert.rejects(wrong, TypeError);
  assert.equal((await next).outcome, "ok");
  scl.close();
});

test("an answer's last field may be empty", () => {
  assert.deepEqual(new Answer("ok\nversion 1\nenvironment K \n").fields("environment").map((it) => it.map(String)), [["K", ""]]);
});

test("what made the answers is told", async () => {
  const scl = new Scl(DESCRIBE);
  const {release, rules, protocol} = await scl.madeBy();
  assert.match(release, /^\d+\.\d+\.\d+$/);
  assert.match(rules, /^\d+\.\d+\.\d+$/);
  assert.equal(protocol, "1");
  scl.close();
});

test("a request of any kind is answered", async () => {
  const scl = new Scl(DESCRIBE);
  const rows = await scl.rows(["lookup", "compiler gcc", "word -c", line("word", Buffer.from("\xff a.c", "latin1"))]);
  assert.ok(rows.some((row) => row.map((it) => it.toString("latin1")).join("|") === "ask|file|\xff a.c"));
  await assert.rejects(scl.rows(["what-none-knows"]), /not known here/);
  scl.close();
});

test("a process gets any bytes", () => {
  for (const [word, value] of [["\xff'\n ", "a"], ["a", "\x80'"], ["\xc3\xa9", "\xc3\xa9"]]) {
    const command = ["/bin/sh", "-c", 'printf "%s|%s" "$1" "$V"; exit 3', "sh", word];
    const ran = run(command, new Map([["V", value], ["PATH", "/usr/bin:/bin"]]), ["ignore", "pipe", "pipe"]);
    assert.equal(ran.stdout.toString("latin1"), `${word}|${value}`);
    assert.equal(ran.status, 3);
  }
});

for (const said of ["bad-line 1", "rules 1\\nversion 1", "made-by 1\\nversion 1", "made-by 1\\nrules 1\\nversion 2"])
  test(`no maker is told by ${said}`, () =>
    asking(`read line; read line; printf '${said}\\nend\\n'`, (scl) => assert.rejects(scl.madeBy(), /not known to this library/)));

test("when the program ends, what waits is rejected, and the next request starts it anew", () =>
  asking(`if test -e $0; then exec ${DESCRIBE} --batch; fi; : > $0; read line; exit 3`, async (scl, mark) => {
    await Promise.all([scl.ask(plain), scl.ask(plain)].map((it) => assert.rejects(it, /out of memory/)));
    assert(existsSync(mark));
    assert.equal((await scl.ask(plain)).outcome, "ok");
  }));

test("after close nothing is asked", async () => {
  const scl = new Scl(DESCRIBE);
  scl.close();
  await assert.rejects(scl.ask(plain), /closed/);
});

test("a program that is not there is reported each time", async () => {
  const scl = new Scl("/no/such/program");
  for (const _ of [1, 2]) await assert.rejects(scl.ask(plain), /ENOENT/);
});

test("four times the text takes at most eight times as long", async () => {
  const took = async (size) => {
    const before = process.cpuUsage();
    await asking(`printf 'ok\\nversion 1\\narg '; head -c ${size} /dev/zero | tr '\\0' a; printf '\\nend\\n'; cat > /dev/null`, async (scl) => {
      assert.equal((await scl.ask(plain)).word("arg").length, size);
    });
    const {user, system} = process.cpuUsage(before);
    return user + system;
  };
  await took(1e6);
  const once = await took(8e6), fourfold = await took(32e6);
  assert(fourfold < 8 * once + 100000, `${once} and ${fourfold} microseconds`);
});
