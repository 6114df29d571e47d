// Tests of weirbowl.mjs: `node --test test.mjs`; WEIRBOWL_WASM names the module, by default that beside this file.
import assert from "node:assert/strict";
import { readFile } from "node:fs/promises";
import test from "node:test";
import { EngineStopped, Weirbowl, WeirbowlError, request, sentenceOf } from "./weirbowl.mjs";

const SCHEMA = {
  "": {
    entityTypes: { User: { memberOfTypes: ["Team"] }, Team: {}, Photo: {} },
    actions: { view: { appliesTo: { principalTypes: ["User"], resourceTypes: ["Photo"] } } },
  },
};
const ALL = "permit(principal, action, resource);";
const TEAM = 'permit(principal in Team::"t", action, resource);';
const ANN = { uid: { type: "User", id: "ann" }, parents: [{ type: "Team", id: "t" }] };
const ANN_VIEWS = request(["User", "ann"], ["Action", "view"], ["Photo", "p1"]);
const HIGHEST = 995; // the terms of the highest sum that is not too deep

const place = process.env.WEIRBOWL_WASM;
const compiled = await WebAssembly.compile(await readFile(place ?? new URL(Weirbowl.fileName, import.meta.url)));
const load = () => Weirbowl.load(compiled);

/** Checks that a call throws this error. */
function rejects(call, status, code, at = null, within = null) {
  assert.throws(call, (error) => {
    assert.ok(error instanceof WeirbowlError, String(error));
    assert.deepEqual([error.status, error.code, error.place, error.within], [status, code, at, within]);
    assert.equal(error.sentence, sentenceOf(code));
    return true;
  });
}

test("decides and changes", async () => {
  const weirbowl = await load();
  const site = new weirbowl.Site(SCHEMA, "one");
  assert.equal(site.authorize(ANN_VIEWS).allowed, false);
  assert.deepEqual(site.putPolicy("p", TEAM), { count: 1, impossible: false, site: "one" });
  site.putEntity(ANN);
  const line = new TextEncoder().encode(JSON.stringify(ANN_VIEWS));
  assert.deepEqual(site.authorize(line), { decision: "Allow", allowed: true, reason: ["p"], errors: [], cycle: [] });
  assert.deepEqual(site.getPolicy("p"), { count: 1, site: "one", text: TEAM });
  assert.deepEqual(site.deleteEntity(["User", "ann"]), { count: 3, site: "one" });
  assert.deepEqual(site.deletePolicy("p"), { count: 4, site: "one" });
  assert.equal(site.getPolicy("p"), null);
  site.close();
  assert.equal(weirbowl.liveBlocks, 0);
});

test("ids of any text", async () => {
  const weirbowl = await load();
  const site = new weirbowl.Site(SCHEMA, "one");
  for (const id of ['"', "\\", "\n\t\x01", "\0", "ü€🙂"]) {
    site.putPolicy(id, ALL);
    assert.deepEqual(site.authorize(ANN_VIEWS).reason, [id]);
    site.deletePolicy(id);
  }
  assert.throws(() => site.putPolicy("\ud800", ALL), TypeError);
  assert.throws(() => site.putPolicy(5, ALL), TypeError);
  assert.throws(() => site.deleteEntity("User"), TypeError);
  assert.throws(() => site.authorize(undefined), TypeError);
  assert.deepEqual(site.authorize(ANN_VIEWS).reason, []);
});

test("exchanges, and long replies", async () => {
  const weirbowl = await load();
  const [one, two] = ["one", "two"].map((name) => new weirbowl.Site(JSON.stringify(SCHEMA), name));
  for (let n = 0; n < 100; n++) one.putPolicy(`p${n}`, ALL);
  two.putPolicy("q", 'forbid(principal == User::"ann", action, resource);');
  const delta = one.delta(two.summary());
  assert.ok(delta.length > 1024);
  assert.equal(two.merge(delta), 100);
  assert.equal(one.merge(two.state()), 101);
  assert.deepEqual(one.state(), two.state());
  assert.equal(one.authorize(ANN_VIEWS).allowed, false);
  one.close();
  two.close();
  assert.equal(weirbowl.liveBlocks, 0);
});

test("rejects", async () => {
  const weirbowl = await load();
  for (const [schema, name, code] of [["{", "one", 20], [SCHEMA, "no name!", 2], [SCHEMA, "", 2], [SCHEMA, "ü", 2]]) rejects(() => new weirbowl.Site(schema, name), 422, code);
  const site = new weirbowl.Site(SCHEMA, "one");
  rejects(() => site.authorize("{"), 422, 63, null, 30);
  rejects(() => site.putPolicy("p", "permit(principal, action);"), 422, 11, 24);
  rejects(() => site.putPolicy("", ALL), 422, 19, 0);
  rejects(() => site.deletePolicy("p"), 404, 60);
  rejects(() => site.merge("{"), 422, 50);
  assert.throws(() => new weirbowl.Site(SCHEMA, 1), TypeError);
  site.close();
  assert.equal(weirbowl.liveBlocks, 0);
});

test("a closed site", async () => {
  const weirbowl = await load();
  const site = new weirbowl.Site(SCHEMA, "one");
  site[Symbol.dispose ?? Symbol.for("Symbol.dispose")]();
  site.close();
  assert.throws(() => site.state(), TypeError);
  assert.equal(weirbowl.liveBlocks, 0);
});

test("decides and checks texts", async () => {
  const weirbowl = await load();
  const schema = JSON.stringify(SCHEMA);
  assert.equal(weirbowl.decide(ALL, [], ANN_VIEWS).allowed, true);
  assert.deepEqual(weirbowl.decideUnder(schema, TEAM, [ANN], ANN_VIEWS).reason, ["policy0"]);
  rejects(() => weirbowl.decideUnder(schema, "permit(", "[]", ANN_VIEWS), 422, 11, 7);
  assert.deepEqual(weirbowl.check(schema, `${ALL} permit(principal, action, resource) when { 1 };`), [
    { id: "policy0", verdict: "accepted" },
    { code: 42, id: "policy1", verdict: "refused" },
  ]);
  rejects(() => weirbowl.check("{", ALL), 422, 20);
  assert.equal(weirbowl.check(schema, Array.from({ length: 300 }, () => ALL).join("\n")).length, 300);
  const cycle = weirbowl.decide(ALL, [{ uid: { type: "T", id: "a" }, parents: [{ type: "T", id: "b" }] }, { uid: { type: "T", id: "b" }, parents: [{ type: "T", id: "a" }] }], ANN_VIEWS);
  assert.deepEqual([cycle.decision, cycle.cycle.map((it) => it.id)], ["Deny", ["a", "b"]]);
  assert.equal(weirbowl.liveBlocks, 0);
});

test("explains texts", async () => {
  const weirbowl = await load();
  const schema = JSON.stringify(SCHEMA);
  assert.equal(weirbowl.explain(schema, ALL, [], ANN_VIEWS), "");
  const text = weirbowl.explain(schema, "permit(principal, action, resource)\nwhen { principal.nope };", [{ uid: { type: "Ghost", id: "g" } }], ANN_VIEWS);
  assert.match(text, /^error 44: .*\n --> policies:2:8\n2 \| when/);
  assert.match(text, /\nerror 31: .*\n --> entities, entity 0 \(from 0\)\n {2}at \/uid\n/);
  assert.equal(weirbowl.liveBlocks, 0);
});

test("memory grows", async () => {
  const weirbowl = await load();
  const before = weirbowl.memoryBytes;
  const site = new weirbowl.Site(SCHEMA, "one");
  for (let n = 0; n < 3000; n++) site.putPolicy(`p${n}`, `permit(principal == User::"u${n}", action, resource);`);
  assert.ok(weirbowl.memoryBytes > before);
  assert.deepEqual(site.authorize(request(["User", "u2999"], ["Action", "view"], ["Photo", "p1"])).reason, ["p2999"]);
  site.close();
  assert.equal(weirbowl.liveBlocks, 0);
});

test("the highest expression", async () => {
  const weirbowl = await load();
  const site = new weirbowl.Site(SCHEMA, "one");
  const sum = (terms) => `permit(principal, action, resource) when { 1${" + 1".repeat(terms)} == 4 };`;
  // more than once, since a host compiles anew what is called often
  for (let n = 0; n < 20; n++) site.putPolicy("p", sum(HIGHEST));
  assert.equal(site.authorize(ANN_VIEWS).allowed, false);
  rejects(() => site.putPolicy("p", sum(HIGHEST + 1)), 422, 17, 0);
  site.close();
  assert.equal(weirbowl.liveBlocks, 0);
});

test("an engine that stopped refuses all calls", async () => {
  const weirbowl = await load();
  const site = new weirbowl.Site(SCHEMA, "one");
  site.putPolicy("p", ALL);
  const kept = site.state();
  // a caller that leaves no stack
  const deep = () => {
    try {
      deep();
    } catch {
      site.authorize(ANN_VIEWS);
    }
  };
  assert.throws(deep, (error) => error instanceof EngineStopped || error instanceof RangeError);
  if (weirbowl.stopped !== null) {
    assert.throws(() => site.state(), EngineStopped);
    assert.throws(() => weirbowl.decide(ALL, [], ANN_VIEWS), EngineStopped);
    site.close();
  }
  const again = new (await load()).Site(SCHEMA, "two");
  assert.equal(again.merge(kept), 1);
  assert.equal(again.authorize(ANN_VIEWS).allowed, true);
});

/** Makes a call until it is not out of memory. */
function again(call) {
  for (;;) {
    try {
      return call();
    } catch (error) {
      if (!(error instanceof WeirbowlError) || error.code !== 1) throw error;
    }
  }
}

test("each allocation fails in turn", async () => {
  const weirbowl = await load();
  const schema = JSON.stringify(SCHEMA);
  let number = 0;
  do {
    weirbowl.refuse(++number);
    const [one, two] = ["one", "two"].map((name) => again(() => new weirbowl.Site(schema, name)));
    assert.equal(again(() => one.putPolicy("p", TEAM)).count, 1);
    assert.equal(again(() => one.putEntity(ANN)).count, 2);
    assert.equal(again(() => one.authorize(ANN_VIEWS)).allowed, true);
    assert.equal(again(() => one.getPolicy("p")).text, TEAM);
    const summary = again(() => two.summary());
    assert.equal(again(() => two.merge(again(() => one.delta(summary)))), 2);
    assert.equal(again(() => two.authorize(ANN_VIEWS)).allowed, true);
    again(() => two.deletePolicy("p"));
    again(() => two.state());
    assert.equal(again(() => weirbowl.decide(TEAM, "[]", ANN_VIEWS)).decision, "Deny");
    assert.equal(again(() => weirbowl.decideUnder(schema, TEAM, "[]", ANN_VIEWS)).decision, "Deny");
    assert.equal(again(() => weirbowl.check(schema, "permit(principal, action, resource) when { 1 };"))[0].code, 42);
    assert.match(again(() => weirbowl.explain(schema, "permit(principal", "[]", ANN_VIEWS)), /^error 11/);
    one.close();
    two.close();
    assert.equal(weirbowl.liveBlocks, 0);
  } while (weirbowl.refuse(0) === 0);
  assert.ok(number > 500, `expected over 500 allocations, got ${number}`);
});
