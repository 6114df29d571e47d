// What the page reads out of the texts: policies by name, uids, and the places that explanations name.

/** Returns the uid `{ type, id }` of any form that Cedar's JSON has, or null. */
export function uidOf(given) {
  const it = given?.__entity ?? given;
  if (typeof it?.type === "string" && typeof it?.id === "string") return { type: it.type, id: it.id };
  const found = typeof it === "string" ? /^\s*([\w:]+)::"((?:[^"\\]|\\.)*)"\s*$/.exec(it) : null;
  return found && { type: found[1], id: unescaped(found[2]) };
}

function unescaped(text) {
  try {
    return JSON.parse(`"${text}"`);
  } catch {
    return text;
  }
}

export function shown({ type, id }) {
  return `${type}::${JSON.stringify(id)}`;
}

/** Returns the JSON of a text, or null. */
export function jsonOf(text) {
  try {
    return JSON.parse(text);
  } catch {
    return null;
  }
}

/** Returns each policy of a text: its name, as the engine names it, its effect, its text without comments, and where it is. */
export function policiesOf(text) {
  const found = [];
  let own = "";
  let start = null;
  // a string, a comment, the end of a policy, or any other character
  for (const { 0: it, index } of text.matchAll(/"(?:[^"\\]|\\[^])*"?|\/\/[^\n]*|[^]/g)) {
    if (it.startsWith("//")) continue;
    own += it;
    if (it.trim()) start ??= index;
    if (it !== ";") continue;
    const named = /@id\s*\(\s*"((?:[^"\\]|\\.)*)"\s*\)/.exec(own);
    found.push({
      id: named ? unescaped(named[1]) : `policy${found.length}`,
      effect: /\b(permit|forbid)\s*\(/.exec(own)?.[1] ?? "",
      text: own,
      range: [start, index + 1],
    });
    own = "";
    start = null;
  }
  return found;
}

/** Returns each error of an explanation: its own text, and which text it is about, where that is said. */
export function faultsOf(explanation) {
  return explanation.split(/^(?=error \d+: )/m).filter(Boolean).map((text) => {
    const [, file, line, column] = /^ --> (\w+)(?::(\d+):(\d+))?/m.exec(text) ?? [];
    return {
      text,
      sentence: /^error (\d+: .*)$/m.exec(text)?.[1] ?? text,
      file,
      line: Number(line),
      column: Number(column),
      width: /^ *\| *(\^+)$/m.exec(text)?.[1].length ?? 1,
      item: /, entity (\d+)/.exec(text)?.[1],
      pointer: /^ {2}at ((?:\/[^/:\n]*)+)/m.exec(text)?.[1] ?? "",
    };
  });
}

/** Returns where an error is in its text, as a start and an end; null if nowhere. */
export function rangeOf(fault, source) {
  if (fault.range) return fault.range;
  if (fault.line) return rangeAt(source, fault);
  const path = [...(fault.item === undefined ? [] : [fault.item]), ...fault.pointer.split("/").slice(1).map((it) => it.replaceAll("~1", "/").replaceAll("~0", "~"))];
  return path.length ? valueAt(source, path) : null;
}

function rangeAt(source, { line, column, width }) {
  const before = source.split("\n").slice(0, line - 1).reduce((sum, it) => sum + it.length + 1, 0);
  const characters = [...(source.split("\n")[line - 1] ?? "")];
  const units = (list) => list.join("").length;
  const from = before + units(characters.slice(0, column - 1));
  return [from, from + Math.max(1, units(characters.slice(column - 1, column - 1 + width)))];
}

/** Returns where the value under a path begins and ends in a text that is JSON; of a path that leads nowhere, the last part. */
function valueAt(source, path) {
  const tokens = [...source.matchAll(/"(?:[^"\\]|\\.)*"|[{}[\],:]|[^\s{}[\],:"]+/g)].map((it) => ({ text: it[0], at: it.index }));
  const end = (i) => tokens[i].at + tokens[i].text.length;
  /** The index of the token after the value at `i`. */
  const after = (i) => {
    let depth = 0;
    do {
      if ("{[".includes(tokens[i]?.text)) depth++;
      if ("}]".includes(tokens[i]?.text)) depth--;
      i++;
    } while (depth > 0 && i < tokens.length);
    return i;
  };
  let at = 0;
  for (const step of path) {
    const isObject = tokens[at]?.text === "{";
    let i = at + 1;
    let found = null;
    for (let n = 0; i < tokens.length && !"]}".includes(tokens[i].text); n++) {
      const value = isObject ? i + 2 : i;
      if (isObject ? jsonOf(tokens[i].text) === step : String(n) === step) found = value;
      i = after(value);
      if (tokens[i]?.text === ",") i++;
    }
    if (found === null || !tokens[found]) break;
    at = found;
  }
  return tokens[at] ? [tokens[at].at, end(Math.min(after(at), tokens.length) - 1)] : null;
}

/** Returns a text as a part of a URL, and back. */
export async function packed(value) {
  const stream = new Blob([JSON.stringify(value)]).stream().pipeThrough(new CompressionStream("deflate"));
  const bytes = new Uint8Array(await new Response(stream).arrayBuffer());
  return btoa(Array.from(bytes, (it) => String.fromCharCode(it)).join("")).replaceAll("+", "-").replaceAll("/", "_").replaceAll("=", "");
}

export async function unpacked(text) {
  const bytes = Uint8Array.from(atob(text.replaceAll("-", "+").replaceAll("_", "/")), (it) => it.charCodeAt(0));
  const stream = new Blob([bytes]).stream().pipeThrough(new DecompressionStream("deflate"));
  return JSON.parse(await new Response(stream).text());
}
