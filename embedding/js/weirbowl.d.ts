declare global {
  // the same as in TypeScript's own library, which has it from 5.2 on
  interface SymbolConstructor {
    readonly dispose: unique symbol;
  }
  interface Disposable {
    [Symbol.dispose](): void;
  }
}

/** JSON as bytes, as a string, or as what JSON.stringify takes. */
export type Json = Uint8Array | string | object;
/** A text in UTF-8. */
export type Text = Uint8Array | string;
/** What an engine is made of. */
export type Source = BufferSource | WebAssembly.Module | Response;
export type Uid = readonly [type: string, id: string];
export type Decision = "Allow" | "Deny";

export interface UidObject {
  readonly type: string;
  readonly id: string;
}

export interface Request {
  readonly principal: UidObject;
  readonly action: UidObject;
  readonly resource: UidObject;
  readonly context?: Record<string, unknown>;
}

export interface ErringPolicy {
  readonly policy: string;
  /** The word of the error (docs/codes.md). */
  readonly error: string;
}

export interface Answer {
  readonly decision: Decision;
  /** Whether the decision is "Allow". */
  readonly allowed: boolean;
  /** The ids of the determining policies, in ascending order. */
  readonly reason: readonly string[];
  /** The policies whose evaluation fails, in ascending order of their ids. */
  readonly errors: readonly ErringPolicy[];
  /** A cycle of the entities, if there is one; the decision is then "Deny". */
  readonly cycle: readonly UidObject[];
}

/** The Lamport timestamp of a change: a count, and the name of the site that made the change. */
export interface Stamp {
  readonly count: number;
  readonly site: string;
}

/** A policy that was put; `impossible` if no request that conforms to the schema satisfies it. */
export interface Put extends Stamp {
  readonly impossible: boolean;
}

export interface Found extends Stamp {
  readonly text: string;
}

/** What validation finds of a policy. */
export interface Verdict {
  readonly id: string;
  readonly verdict: "accepted" | "impossible" | "refused";
  /** That of docs/codes.md (40 to 46), if it is refused. */
  readonly code?: number;
}

/** Why a call is rejected. The site is then as it was, except after a merge that ran out of memory (code 1). */
export class WeirbowlError extends Error {
  /** 422, 404 or 409; 503 if out of memory. */
  readonly status: number;
  /** That of docs/codes.md. */
  readonly code: number;
  /** The byte of the text, or the index of the entry, where the error is. */
  readonly place: number | null;
  /** The code of what that entry has. */
  readonly within: number | null;
  /** What the code means. */
  readonly sentence: string;
}

/** Why no call of an engine is possible any more: load anew, and merge a state that was kept. */
export class EngineStopped extends Error {
  readonly cause: unknown;
}

/** Returns what a code of docs/codes.md means. */
export function sentenceOf(code: number): string;

/** Returns the request of three uids. */
export function request(principal: Uid, action: Uid, resource: Uid, context?: Record<string, unknown>): Request;

/** A site: a store of policies and entities under one schema. `using` closes it, where the language has that. */
export interface Site extends Disposable {
  /** Decides a request. Throws WeirbowlError: 63. */
  authorize(request: Json): Answer;
  /** Puts one policy under an id. Throws WeirbowlError: 10 to 19, 40 to 46, 62. */
  putPolicy(id: string, text: string): Put;
  /** Looks up the policy of an id; null if there is none. */
  getPolicy(id: string): Found | null;
  /** Deletes the policy of an id. Throws WeirbowlError: 60, 62. */
  deletePolicy(id: string): Stamp;
  /** Puts an entity. Throws WeirbowlError: 30 to 38, 61, 62. */
  putEntity(entity: Json): Stamp;
  /** Deletes an entity. Throws WeirbowlError: 60, 62. */
  deleteEntity(uid: Uid): Stamp;
  /** Returns the state, a message to other sites. */
  state(): Uint8Array;
  /** Returns the summary, for `delta` of another site. */
  summary(): Uint8Array;
  /** Returns what the site of a summary is missing. Throws WeirbowlError: 50 to 54. */
  delta(summary: Text): Uint8Array;
  /** Applies a state or a delta; returns how many updates it has. Throws WeirbowlError: 50 to 57. */
  merge(message: Text): number;
  /** Closes the site and frees its memory. */
  close(): void;
}

/** The engine, in a memory of its own. */
export class Weirbowl {
  private constructor();
  /** The name of the file that this host loads. */
  static readonly fileName: "weirbowl.wasm" | "weirbowl32.wasm";
  /** Loads the engine, by default from the file beside the module. */
  static load(source?: Source | Promise<Source>): Promise<Weirbowl>;
  /** Opens a site. Throws WeirbowlError: 2 of the name, 20 to 25 of the schema. */
  readonly Site: new (schema: Json, name: string) => Site;
  /** Decides over texts, without a schema. */
  decide(policies: Text, entities: Json, request: Json): Answer;
  /** The same under a schema. */
  decideUnder(schema: Json, policies: Text, entities: Json, request: Json): Answer;
  /** Validates a text of policies: a verdict for each. */
  check(schema: Json, policies: Text): Verdict[];
  /** Explains what is rejected, with the line, the column and an excerpt of each error; "" if nothing is. */
  explain(schema: Json, policies: Text, entities: Json, request: Json): string;
  /** What stopped the engine; null while calls are possible. */
  readonly stopped: unknown;
  /** The bytes of the engine's memory. */
  readonly memoryBytes: number;
  /** The blocks of that memory in use, for tests. */
  readonly liveBlocks: number;
  /** Fails the n-th allocation from here on, for tests. */
  refuse(n: number): number;
}
