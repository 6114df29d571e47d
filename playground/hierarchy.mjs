// The picture of the hierarchy: entities in layers under their ancestors, the paths that a decision rests on, a cycle.
import { made } from "./elements.mjs";
import { shown, uidOf } from "./texts.mjs";

const MOST = 80; // entities in one picture
const [WIDE, HIGH, GAP, RISE, BEND, TIP] = [24, 38, 18, 86, 4, 7];

/** Returns the graph of entities: a map from each uid's text to its uid and the texts of its parents. */
export function graphOf(entities) {
  const graph = new Map();
  const node = (uid) => {
    const key = shown(uid);
    if (!graph.has(key)) graph.set(key, { uid, parents: [], attrs: {} });
    return graph.get(key);
  };
  for (const entity of Array.isArray(entities) ? entities : []) {
    const uid = uidOf(entity?.uid);
    if (!uid) continue;
    node(uid).attrs = entity.attrs ?? {};
    const parents = Array.isArray(entity.parents) ? entity.parents.map(uidOf).filter(Boolean) : [];
    for (const it of parents) node(it);
    node(uid).parents = [...new Set(parents.map(shown))];
  }
  return graph;
}

/** Returns the keys on a shortest path from one entity up to another, or null. */
function pathUp(graph, from, to) {
  const before = new Map([[from, null]]);
  for (const key of before.keys()) {
    if (key === to) {
      const path = [];
      for (let it = to; it !== null; it = before.get(it)) path.unshift(it);
      return path;
    }
    for (const it of graph.get(key)?.parents ?? []) if (!before.has(it)) before.set(it, key);
  }
  return null;
}

/** Returns the paths by which `in` holds in policies, for the principal and the resource of a request. */
export function pathsOf(graph, policies, asked) {
  const found = [];
  const name = String.raw`[\w:]+::"(?:[^"\\]|\\.)*"`;
  const test = new RegExp(String.raw`\b(principal|resource)\s+(?:is\s+[\w:]+\s+)?in\s+(?:(${name})|\[([^\]]*)\]|(principal|resource)\.(\w+))`, "g");
  for (const { text } of policies) {
    for (const [, subject, one, many, owner, attribute] of text.matchAll(test)) {
      const targets = one ? [one] : many ? (many.match(new RegExp(name, "g")) ?? []) : [asked[owner] && graph.get(shown(asked[owner]))?.attrs[attribute]];
      for (const target of targets.flat().map(uidOf).filter(Boolean)) {
        const path = asked[subject] && pathUp(graph, shown(asked[subject]), shown(target));
        if (path?.length > 1) found.push(path);
      }
    }
  }
  return found;
}

/** Returns the part of a graph above some entities, if the whole is too large to be drawn. */
function drawable(graph, keys) {
  if (graph.size <= MOST) return graph;
  const kept = new Set(keys.filter((it) => graph.has(it)));
  for (const key of kept) for (const it of graph.get(key).parents) if (kept.size < MOST) kept.add(it);
  return new Map([...kept].map((key) => [key, { ...graph.get(key), parents: graph.get(key).parents.filter((it) => kept.has(it)) }]));
}

/** Returns the layer of each entity: 0 without parents, else one below its lowest parent; a cycle is cut where it closes. */
function layersOf(graph) {
  const layer = new Map();
  const open = new Set();
  const visit = (key) => {
    if (layer.has(key)) return layer.get(key);
    if (open.has(key)) return -1;
    open.add(key);
    const found = 1 + Math.max(-1, ...graph.get(key).parents.map(visit));
    open.delete(key);
    layer.set(key, found);
    return found;
  };
  for (const key of graph.keys()) visit(key);
  return layer;
}

/**
 * Returns the bends of the edges between layers that are not neighbours, by the edge's two keys: a place in each layer between,
 * from the lowest up, so that no edge runs through an entity.
 */
function bendsOf(graph, layer) {
  const bends = new Map();
  for (const [from, { parents }] of graph) {
    for (const to of parents) {
      const [lowest, highest] = [Math.max(layer.get(from), layer.get(to)), Math.min(layer.get(from), layer.get(to))];
      const between = Array.from({ length: Math.max(0, lowest - highest - 1) }, (_, i) => ({ key: `${from} ${to} ${i}`, layer: lowest - 1 - i }));
      bends.set(`${from} ${to}`, between);
    }
  }
  return bends;
}

/** Returns what each entity and each bend is joined to, by its key. */
function neighboursOf(graph, layer, bends) {
  const near = new Map([...graph.keys(), ...[...bends.values()].flat().map((it) => it.key)].map((key) => [key, []]));
  for (const [from, { parents }] of graph) {
    for (const to of parents) {
      const ends = layer.get(from) > layer.get(to) ? [from, to] : [to, from];
      const chain = [ends[0], ...bends.get(`${from} ${to}`).map((it) => it.key), ends[1]];
      for (let i = 1; i < chain.length; i++) {
        near.get(chain[i - 1]).push(chain[i]);
        near.get(chain[i]).push(chain[i - 1]);
      }
    }
  }
  return near;
}

/** Returns the rows of the picture, each ordered so that entities and bends stand below and above what they are joined to. */
function rowsOf(graph, layer, bends) {
  const rows = [];
  for (const [key, at] of layer) (rows[at] ??= []).push(key);
  for (const it of [...bends.values()].flat()) rows[it.layer].push(it.key);
  const near = neighboursOf(graph, layer, bends);
  const place = new Map();
  const putInPlace = (row) => row.forEach((key, i) => place.set(key, i / Math.max(1, row.length - 1)));
  const mean = (key) => (near.get(key).length ? near.get(key).reduce((sum, it) => sum + place.get(it), 0) / near.get(key).length : place.get(key));
  rows.forEach(putInPlace);
  // each row over the rows as they are by now, in turns from the lowest up and from the highest down
  for (let turn = 0; turn < 8; turn++) {
    for (const row of turn % 2 ? rows : [...rows].reverse()) {
      row.sort((one, other) => mean(one) - mean(other));
      putInPlace(row);
    }
  }
  return rows;
}

function svg(name, attributes, ...content) {
  const made = document.createElementNS("http://www.w3.org/2000/svg", name);
  for (const [key, value] of Object.entries(attributes)) made.setAttribute(key, value);
  made.append(...content);
  return made;
}

const short = (text) => (text.length > 26 ? `${text.slice(0, 25)}…` : text);
const widthOf = ({ type, id }) => WIDE + Math.max(36, 7.2 * short(id).length, 6 * short(type).length);

/** Returns the place of each entity and each bend, and the size of the whole. */
function placesOf(graph, rows) {
  const wide = (key) => (graph.has(key) ? widthOf(graph.get(key).uid) : BEND);
  const widths = rows.map((row) => row.reduce((sum, key) => sum + wide(key) + GAP, -GAP));
  const width = Math.max(...widths);
  const places = new Map();
  rows.forEach((row, y) => {
    let x = 8 + (width - widths[y]) / 2;
    for (const key of row) {
      const own = wide(key);
      places.set(key, { x, y: 8 + y * RISE, width: own, middle: x + own / 2 });
      x += own + GAP;
    }
  });
  return { places, width: width + 32, height: rows.length * RISE - RISE + HIGH + 24 };
}

/** Returns the curve from one point up to another. */
function curve(x, y, toX, toY) {
  const half = (y + toY) / 2;
  return ` C${x} ${half} ${toX} ${half} ${toX} ${toY}`;
}

/** Draws the edge from an entity to its parent, through the places of its bends. Only an edge of a cycle does not lead up. */
function edge(from, to, bends, kind) {
  if (from === to) return loop(from, kind);
  const rises = from.y > to.y;
  const [low, high] = rises ? [from, to] : [to, from];
  const aside = rises ? 0 : 10; // two entities may be each other's parents
  let [x, y] = [low.middle + aside, low.y - (rises ? 0 : TIP)];
  let line = `M${x} ${y}`;
  for (const it of bends) {
    line += `${curve(x, y, it.middle, it.y + HIGH)} V${it.y}`;
    [x, y] = [it.middle, it.y];
  }
  const bottom = high.y + HIGH;
  line += curve(x, y, high.middle + aside, bottom + (rises ? TIP : 0));
  return drawn(line, rises ? `M${high.middle} ${bottom} l-4.5 8 h9 z` : `M${low.middle + aside} ${low.y} l-4.5 -8 h9 z`, kind);
}

/** Draws the edge from an entity to itself. */
function loop({ x, y, width, middle }, kind) {
  const [right, bottom] = [x + width, y + HIGH];
  const line = `M${right} ${y + HIGH / 2} C${right + 22} ${y + HIGH / 2} ${right + 22} ${bottom + 30} ${middle} ${bottom + TIP}`;
  return drawn(line, `M${middle} ${bottom} l-4.5 8 h9 z`, kind);
}

function drawn(line, head, kind) {
  return [svg("path", { d: line, class: kind }), svg("path", { d: head, class: `tip ${kind}` })];
}

/** Returns the same as a list, which is closed at first. */
function listOf(graph) {
  const list = made("ul");
  for (const [key, { parents }] of graph) list.append(made("li", parents.length ? `${key} in ${parents.join(", ")}` : key));
  const details = made("details");
  details.append(made("summary", "The hierarchy as a list"), list);
  return details;
}

/** Draws a graph. `asked` are the keys of the request's entities, `paths` and `cycle` lists of keys. */
export function pictureOf(whole, asked, paths, cycle) {
  const graph = drawable(whole, [...asked, ...cycle]);
  if (!graph.size) return [made("p", "There are no entities.")];
  const layer = layersOf(graph);
  const bends = bendsOf(graph, layer);
  const { places, width, height } = placesOf(graph, rowsOf(graph, layer, bends));
  const pairs = (list) => list.slice(1).map((it, i) => `${list[i]} ${it}`);
  const [onPath, onCycle] = [new Set(paths.flatMap(pairs)), new Set(cycle.length ? pairs([...cycle, cycle[0]]) : [])];
  const kind = (from, to) => (onCycle.has(`${from} ${to}`) ? "on-cycle" : onPath.has(`${from} ${to}`) ? "on-path" : "plain");
  const edges = [...graph].flatMap(([key, { parents }]) => parents.map((to) => ({ from: key, to, kind: kind(key, to) })));
  edges.sort((a, b) => (a.kind === "plain" ? 0 : 1) - (b.kind === "plain" ? 0 : 1));
  const told = [];
  if (paths.length) told.push(`Bold: ${paths.map((it) => it.join(" in ")).join("; ")}.`);
  if (cycle.length) told.push(`Red: the cycle ${[...cycle, cycle[0]].join(" in ")}.`);
  if (graph !== whole) told.push(`Only ${graph.size} of ${whole.size} entities are drawn: those of the request, and above.`);
  const picture = svg("svg", { width, height, viewBox: `0 0 ${width} ${height}`, role: "img", "aria-label": `${graph.size} entities with their parents above. ${told.join(" ")}` });
  for (const { from, to, kind } of edges) {
    const through = bends.get(`${from} ${to}`).map((it) => places.get(it.key));
    picture.append(...edge(places.get(from), places.get(to), through, kind));
  }
  for (const [key, { uid: { type, id } }] of graph) {
    const { x, y, width: own, middle } = places.get(key);
    picture.append(
      svg("g", { class: asked.includes(key) ? "asked" : "" },
        svg("title", {}, key),
        svg("rect", { x, y, width: own, height: HIGH, rx: 5 }),
        svg("text", { x: middle, y: y + 15, class: "type" }, short(type)),
        svg("text", { x: middle, y: y + 30 }, short(id))),
    );
  }
  return [made("p", told.join(" ")), picture, listOf(graph)];
}
