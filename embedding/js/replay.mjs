// The calls of tests/browser.py, by the exports of a module as C has them: node replay.mjs MODULE CALLS. Each reply has the same
// status and the same bytes. The second site of the calls is one that they have recorded.
import { readFileSync } from "node:fs";

const { instance: { exports } } = await WebAssembly.instantiate(readFileSync(process.argv[2]));
const rows = readFileSync(process.argv[3], "utf8").trim().split("\n").map((line) => JSON.parse(line));
const [roomLength, texts] = [1 << 20, new Set(["decide", "decide_under", "check", "explain"])];

const memory = () => new Uint8Array(exports.memory.buffer);
const bytes = (text) => Buffer.from(text, "base64");

function held(given) {
  const at = exports.weirbowl_host_alloc(BigInt(given.length));
  memory().set(given, Number(at));
  return [at, BigInt(given.length)];
}

const [slot, result, room] = [16, 16, roomLength].map((it) => exports.weirbowl_host_alloc(BigInt(it)));
memory().fill(0, Number(slot), Number(slot) + 16);
const begun = [held(bytes(rows[0][1][0])), held(Buffer.from("one"))];
if (exports.weirbowl_open(slot, ...begun.flat()) !== 0) throw new Error("expected the site to open");

const differing = [];
for (const [name, values, status, body] of rows.slice(1)) {
  const given = values.map((it) => held(bytes(it)));
  exports[`weirbowl_${name}`](result, ...(texts.has(name) ? [] : [slot]), ...given.flat(), room, BigInt(roomLength));
  const view = new DataView(exports.memory.buffer, Number(result), 16);
  const reply = memory().subarray(Number(room), Number(room) + Number(view.getBigUint64(8, true)));
  if (view.getUint32(0, true) !== status || Buffer.compare(reply, bytes(body)) !== 0) differing.push([name, status, String(bytes(body)), view.getUint32(0, true), String(Buffer.from(reply))]);
  for (const [at] of given) exports.weirbowl_host_free(at);
}
exports.weirbowl_close(slot);
for (const at of [slot, result, room, ...begun.map(([it]) => it)]) exports.weirbowl_host_free(at);
console.log(`${rows.length - 1} calls, ${differing.length} with another reply, ${exports.weirbowl_host_live()} blocks left`, differing.slice(0, 3));
process.exitCode = differing.length || exports.weirbowl_host_live() ? 1 : 0;
