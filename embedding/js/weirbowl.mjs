// Weirbowl in a page or in Node: a replicated store of Cedar policies and entities, and decisions over it.
//
//   const weirbowl = await Weirbowl.load();
//   const site = new weirbowl.Site(schema, "one");
//   site.putPolicy("ann", 'permit(principal == User::"ann", action, resource);');
//   site.authorize(request(["User", "ann"], ["Action", "view"], ["Photo", "p1"])).allowed;
//   site.close();
//
// A Weirbowl is the engine in a memory of its own, and a Site one of its stores. Every address of the module is 64 bits
// wide, so it crosses as a BigInt; none leaves this file.
//
// A call that meets a trap, or the end of the host's stack, leaves that memory half written: it throws EngineStopped, and so
// does each later call. Then load anew, and merge a state that was kept. docs/embedding.md says how high an expression may be.

const SENTENCES = new Map([
  [1, "out of memory"],
  [2, "the name does not have 1 to 32 letters, digits, `-`, `_` or `.`"],
  [10, "no token of a policy begins here"],
  [11, "one policy is expected, and this does not continue it"],
  [12, "the number is outside signed 64 bits"],
  [13, "no function or method has this name"],
  [14, "the call has another number of arguments"],
  [15, "the key, the annotation or the name is repeated"],
  [16, "templates are not supported"],
  [17, "the policy is nested too deeply or is too large"],
  [18, "the text is too long"],
  [19, "the policy's id does not have 1 to 256 bytes of UTF-8"],
  [20, "the schema is not JSON"],
  [21, "the JSON does not have the form of a schema"],
  [22, "the schema uses a name that it does not declare"],
  [23, "a common type contains itself"],
  [24, "an action is its own ancestor"],
  [25, "a type of the schema is too large"],
  [30, "the JSON does not have the form of an entity or a request"],
  [31, "the entity's type is not declared"],
  [32, "actions are declared in the schema only"],
  [33, "the attribute is not declared"],
  [34, "a required attribute is missing"],
  [35, "an attribute's value has another type"],
  [36, "the entity may not have a parent of this type"],
  [37, "the entity is its own parent"],
  [38, "tags are not supported"],
  [39, "the action does not apply to these types"],
  [40, "the policy names an entity type that is not declared"],
  [41, "the policy names an action that is not declared"],
  [42, "the policy uses a value of another type"],
  [43, "the policy uses two types that have no common type"],
  [44, "the policy uses an attribute that is not declared or may be missing"],
  [45, "the policy has an empty set of unknown type"],
  [46, "the text of an extension value is not valid"],
  [50, "the message is not JSON"],
  [51, "the JSON does not have the form of a message"],
  [52, "the message is under another schema"],
  [53, "the message has another version"],
  [54, "a count of the message is out of range"],
  [55, "an entry of the message is not valid"],
  [56, "an entry of the message has the name of another entity"],
  [57, "the text of an entity is not canonical"],
  [60, "nothing is stored under this name"],
  [61, "the entity would be its own ancestor"],
  [62, "no stamp is left"],
  [63, "the JSON is not a request under the schema"],
]);

/** Returns what a code of docs/codes.md means. */
export function sentenceOf(code) {
  return SENTENCES.get(code) ?? "unknown code";
}

/**
 * Why a call is rejected. The site is then as it was, except that after a merge that ran out of memory (code 1) `place`
 * counts the updates that it applied.
 */
export class WeirbowlError extends Error {
  constructor(status, code, place = null, within = null) {
    const at = place === null ? "" : ` (at ${place})`;
    const inner = within === null ? "" : ` (within, ${within}: ${sentenceOf(within)})`;
    super(`${code}: ${sentenceOf(code)}${at}${inner}`);
    this.name = "WeirbowlError";
    Object.assign(this, { status, code, place, within, sentence: sentenceOf(code) });
  }
}

/** Why no call of an engine is possible any more: one met a trap, or the end of the host's stack, which is `cause`. */
export class EngineStopped extends Error {
  constructor(cause) {
    super(`the engine stopped: ${cause?.message ?? cause}`, { cause });
    this.name = "EngineStopped";
  }
}

/** Returns the request of three uids, each `[type, id]`. */
export function request(principal, action, resource, context) {
  const asked = { principal: uidOf(principal), action: uidOf(action), resource: uidOf(resource) };
  return context === undefined ? asked : { ...asked, context };
}

function uidOf(given) {
  if (!Array.isArray(given) || given.length !== 2) throw new TypeError("expected a uid as [type, id]");
  return { type: textOf(given[0], "a type"), id: textOf(given[1], "an id") };
}

function textOf(given, what) {
  if (typeof given !== "string") throw new TypeError(`expected ${what} as a string, got ${typeof given}`);
  return given;
}

const encoder = new TextEncoder();
const decoder = new TextDecoder("utf-8", { fatal: true, ignoreBOM: true });

/** Returns bytes as they are, a string in UTF-8, and anything else as JSON. */
function bytesOf(given) {
  if (given instanceof Uint8Array) return given;
  const text = typeof given === "string" ? given : JSON.stringify(given);
  if (typeof text !== "string") throw new TypeError("expected bytes, a string or what JSON.stringify takes");
  // an encoder would put another character in its place, so that two ids could become one
  if (/\p{Surrogate}/u.test(text)) throw new TypeError("expected a string of whole characters, got half of a surrogate pair");
  return encoder.encode(text);
}

function parsed(body) {
  return JSON.parse(decoder.decode(body));
}

function answerOf(body) {
  const { decision, reason, errors, cycle } = parsed(body);
  return { decision, allowed: decision === "Allow", reason, errors, cycle };
}

/** Returns the error of a reply; 503 without a body is out of memory. */
function errorOf({ status, body }) {
  if (status === 0) return new TypeError("the Site is closed");
  if (body.length === 0) return new WeirbowlError(status, 1);
  const { code, place, within } = parsed(body).error;
  return new WeirbowlError(status, code, place, within);
}

const ROOM = 1024; // the bytes of memory for a reply, at first
const PAIR = 16; // the bytes of a slot (a bool and a pointer) and of a result (a u32 and a length)

/** What a host that lacks 64-bit memories would reject: a module that has one, and nothing else. */
const WIDE = new Uint8Array([0, 97, 115, 109, 1, 0, 0, 0, 5, 3, 1, 4, 1]);

/** Returns the bytes of the file beside this one. */
async function fileBeside(name) {
  const place = new URL(name, import.meta.url);
  if (place.protocol !== "file:") return fetch(place);
  const { readFile } = await import("node:fs/promises");
  return readFile(place);
}

async function instanceOf(source) {
  const given = await source;
  if (given instanceof WebAssembly.Module) return WebAssembly.instantiate(given);
  if (typeof Response !== "function" || !(given instanceof Response)) return (await WebAssembly.instantiate(given)).instance;
  if (!given.ok) throw new Error(`expected ${given.url || "the module"} with status 200, got ${given.status}`);
  return (await WebAssembly.instantiate(await given.arrayBuffer())).instance;
}

/** The exports of the module with the memory that they share; after a trap none is called again. */
class Engine {
  #exports;
  #bytes = new Uint8Array(0);
  stopped = null;

  constructor(instance) {
    this.#exports = instance.exports;
  }

  /** Calls an export. */
  enter(name, ...given) {
    if (this.stopped !== null) throw new EngineStopped(this.stopped);
    try {
      return this.#exports[`weirbowl_${name}`](...given);
    } catch (error) {
      this.stopped = error;
      throw new EngineStopped(error);
    }
  }

  /** The memory as bytes; its buffer is another one after each growth. */
  get bytes() {
    if (this.#bytes.buffer !== this.#exports.memory.buffer) this.#bytes = new Uint8Array(this.#exports.memory.buffer);
    return this.#bytes;
  }

  take(length) {
    const at = this.enter("host_alloc", BigInt(length));
    if (at === 0n) throw new WeirbowlError(503, 1);
    return at;
  }

  give(at) {
    this.enter("host_free", at);
  }

  /** Runs `use` on memory of so many bytes, and gives it back. */
  with(length, use) {
    const at = this.take(length);
    try {
      return use(at);
    } finally {
      if (this.stopped === null) this.give(at);
    }
  }

  /** Runs `use` on a pointer and a length of each value, copied into memory that is given back. */
  withValues(values, use) {
    const bytes = values.map(bytesOf);
    const total = bytes.reduce((sum, it) => sum + it.length, 0);
    return this.with(total, (start) => {
      const given = [];
      let at = Number(start);
      for (const it of bytes) {
        this.bytes.set(it, at);
        given.push(BigInt(at), BigInt(it.length));
        at += it.length;
      }
      return use(given);
    });
  }

  /** Copies bytes out of the memory. */
  copied(at, length) {
    return this.bytes.slice(Number(at), Number(at) + length);
  }

  /** Makes a call that returns a result, and reads it. */
  result(name, ...given) {
    return this.with(PAIR, (at) => {
      this.enter(name, at, ...given);
      const view = new DataView(this.bytes.buffer, Number(at), PAIR);
      return { status: view.getUint32(0, true), length: Number(view.getBigUint64(8, true)) };
    });
  }

  /** Makes a call without a site, again if its reply is longer than the memory for it. */
  textCall(name, values) {
    return this.withValues(values, (given) => {
      for (let room = ROOM; ; ) {
        const reply = this.with(room, (out) => {
          const { status, length } = this.result(name, ...given, out, BigInt(room));
          return { status, length, body: length <= room ? this.copied(out, length) : null };
        });
        if (reply.body !== null) return reply;
        room = reply.length;
      }
    });
  }
}

/** A site of an engine: its slot, and the memory for its replies. */
class OpenSite {
  #engine;
  #slot;
  #room;
  #roomLength = ROOM;

  constructor(engine, schema, name) {
    this.#engine = engine;
    this.#slot = engine.take(PAIR);
    let code = 1;
    try {
      this.#room = engine.take(ROOM);
      engine.bytes.fill(0, Number(this.#slot), Number(this.#slot) + PAIR);
      code = engine.withValues([schema, textOf(name, "a name")], (given) => engine.enter("open", this.#slot, ...given));
    } finally {
      if (code) this.#giveAll();
    }
    if (code) throw new WeirbowlError(code === 1 ? 503 : 422, code);
  }

  #giveAll() {
    for (const at of [this.#room, this.#slot]) if (at !== undefined && this.#engine.stopped === null) this.#engine.give(at);
    this.#slot = null;
  }

  /** Makes a call, and returns the body of its reply. */
  call(name, ...values) {
    if (this.#slot === null) throw new TypeError("the Site is closed");
    const engine = this.#engine;
    return engine.withValues(values, (given) => {
      const { status, length } = engine.result(name, this.#slot, ...given, this.#room, BigInt(this.#roomLength));
      if (length > this.#roomLength) this.#repeat(length);
      const body = engine.copied(this.#room, length);
      if (status !== 200) throw errorOf({ status, body });
      return body;
    });
  }

  /** Has the last body copied again, to memory that is long enough. */
  #repeat(length) {
    const room = this.#engine.take(length);
    this.#engine.give(this.#room);
    [this.#room, this.#roomLength] = [room, length];
    this.#engine.result("last_body", this.#slot, room, BigInt(length));
  }

  close() {
    if (this.#slot === null) return;
    // a stopped engine takes nothing back, and closing must not hide the error that stopped it
    if (this.#engine.stopped === null) this.#engine.enter("close", this.#slot);
    this.#giveAll();
  }
}

/** Returns the class of the sites of an engine. */
function sitesOf(engine) {
  return class Site {
    #open;

    /** Opens a site with nothing stored. Throws WeirbowlError: 2 of the name, 20 to 25 of the schema, 1 if out of memory. */
    constructor(schema, name) {
      this.#open = new OpenSite(engine, schema, name);
    }

    /** Decides a request. Throws WeirbowlError: 63 if it is not one under the schema. */
    authorize(asked) {
      return answerOf(this.#open.call("authorize", asked));
    }

    /** Puts one policy under an id, in place of the one that is there. Throws WeirbowlError: 10 to 19, 40 to 46, 62. */
    putPolicy(id, text) {
      return parsed(this.#open.call("put_policy", textOf(id, "an id"), textOf(text, "a policy")));
    }

    /** Looks up the policy of an id; null if there is none. */
    getPolicy(id) {
      try {
        return parsed(this.#open.call("get_policy", textOf(id, "an id")));
      } catch (error) {
        if (error instanceof WeirbowlError && error.code === 60) return null;
        throw error;
      }
    }

    /** Deletes the policy of an id. Throws WeirbowlError: 60 if there is none, 62. */
    deletePolicy(id) {
      return parsed(this.#open.call("delete_policy", textOf(id, "an id")));
    }

    /** Puts an entity. Throws WeirbowlError: 30 to 38 of the entity, 61 for a cycle, 62. */
    putEntity(entity) {
      return parsed(this.#open.call("put_entity", entity));
    }

    /** Deletes the entity `[type, id]`. Throws WeirbowlError: 60 if there is none, 62. */
    deleteEntity(uid) {
      return parsed(this.#open.call("delete_entity", uidOf(uid)));
    }

    /** Returns the state, a message to other sites of the schema, as bytes. */
    state() {
      return this.#open.call("state");
    }

    /** Returns the summary, the names of the store with their stamps, as bytes for `delta` of another site. */
    summary() {
      return this.#open.call("summary");
    }

    /** Returns a delta, the entries that the site of a summary is missing, as bytes. Throws WeirbowlError: 50 to 54. */
    delta(summary) {
      return this.#open.call("delta", summary);
    }

    /** Applies the updates of a state or a delta, and returns how many it has. Throws WeirbowlError: 50 to 57. */
    merge(message) {
      return parsed(this.#open.call("merge", message)).taken;
    }

    /** Closes the site and frees its memory. A closed site stays closed. */
    close() {
      this.#open.close();
    }

    [Symbol.dispose ?? Symbol.for("Symbol.dispose")]() {
      this.close();
    }
  };
}

/** The engine, in a memory of its own. */
export class Weirbowl {
  #engine;
  #exports;

  constructor(instance) {
    this.#exports = instance.exports;
    this.#engine = new Engine(instance);
    this.Site = sitesOf(this.#engine);
  }

  /** The name of the file that this host loads: weirbowl32.wasm where 64-bit memories are missing. */
  static get fileName() {
    return WebAssembly.validate(WIDE) ? "weirbowl.wasm" : "weirbowl32.wasm";
  }

  /** Loads the engine from bytes, a WebAssembly.Module or a Response, or a promise of one: else from the file beside this. */
  static async load(source = fileBeside(Weirbowl.fileName)) {
    return new Weirbowl(await instanceOf(source));
  }

  /** Decides a request over texts of policies and entities, without a schema. Throws WeirbowlError. */
  decide(policies, entities, asked) {
    return this.#decided("decide", [policies, entities, asked]);
  }

  /** The same under a schema. Throws WeirbowlError: 20 to 25, 10 to 19, 40 to 46, 30 to 39, in this order. */
  decideUnder(schema, policies, entities, asked) {
    return this.#decided("decide_under", [schema, policies, entities, asked]);
  }

  /** Validates a text of policies: a verdict for each, in its order. Throws WeirbowlError: 20 to 25, 10 to 19. */
  check(schema, policies) {
    const reply = this.#engine.textCall("check", [schema, policies]);
    const text = decoder.decode(reply.body);
    if (reply.status === 503 || text.startsWith('{"error"')) throw errorOf(reply);
    return text.split("\n").filter(Boolean).map((line) => JSON.parse(line));
  }

  /** Explains what is rejected in these texts, with the line, the column and an excerpt of each error; "" if nothing is. */
  explain(schema, policies, entities, asked) {
    const reply = this.#engine.textCall("explain", [schema, policies, entities, asked]);
    if (reply.status !== 200) throw errorOf(reply);
    return decoder.decode(reply.body);
  }

  /** What stopped the engine; null while calls are possible. */
  get stopped() {
    return this.#engine.stopped;
  }

  /** The bytes of the engine's memory, which never shrinks. */
  get memoryBytes() {
    return this.#exports.memory.buffer.byteLength;
  }

  /** The blocks of that memory in use, for tests. */
  get liveBlocks() {
    return Number(this.#engine.enter("host_live"));
  }

  /** Fails the n-th allocation from here on, for tests; none for 0. Returns how many were left until the last such one. */
  refuse(n) {
    return Number(this.#engine.enter("host_refuse", BigInt(n)));
  }

  #decided(name, values) {
    const reply = this.#engine.textCall(name, values);
    if (reply.status !== 200) throw errorOf(reply);
    return answerOf(reply.body);
  }
}
