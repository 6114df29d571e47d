// The playground: four texts, and what the engine says of them after each edit.
import { EngineStopped, Weirbowl, WeirbowlError, sentenceOf } from "./weirbowl.mjs";
import { made, tableOf } from "./elements.mjs";
import { graphOf, pathsOf, pictureOf } from "./hierarchy.mjs";
import { faultsOf, jsonOf, packed, policiesOf, rangeOf, shown, uidOf, unpacked } from "./texts.mjs";
import { beginSites } from "./sites.mjs";

const $ = (id) => document.getElementById(id);
const FIELDS = ["policies", "request", "entities", "schema"];
const MOST_ROWS = 200; // environments in the table

let examples = [];
let compiled;
let engine;

async function compile() {
  const reply = await fetch(Weirbowl.fileName);
  if (!reply.ok) throw new Error(`expected ${Weirbowl.fileName}, got status ${reply.status}`);
  compiled = await WebAssembly.compile(await reply.arrayBuffer());
}

/** Returns an engine with a memory of its own. */
const anotherEngine = () => Weirbowl.load(compiled);

const textsNow = () => Object.fromEntries(FIELDS.map((it) => [it, $(it).value]));

// ---- marks

/** Shows errors at their places: marked in the text, said below it, and in whole beside it. */
function showFaults(faults) {
  for (const field of FIELDS) {
    const own = faults.filter((it) => it.file === field);
    $(field).setAttribute("aria-invalid", own.length > 0);
    $(`${field}-fault`).textContent = own.map((it) => (it.line ? `Line ${it.line}, column ${it.column}: ${it.sentence}` : it.sentence)).join("\n");
    mark(field, own);
  }
  $("faults").replaceChildren(...faults.flatMap((it) => [made("pre", it.text.trimEnd(), { className: "code" }), ...goTo(it)]));
}

/** Marks places in the text behind a field, which has the same text and size. */
function mark(field, faults) {
  const source = $(field).value;
  const behind = $(field).previousElementSibling;
  const ranges = faults.map((it) => rangeOf(it, source)).filter(Boolean).sort((a, b) => a[0] - b[0]);
  let at = 0;
  behind.replaceChildren();
  for (const [from, to] of ranges) {
    if (from < at) continue;
    const marked = source.slice(from, to);
    // at the end of a line a space is marked, and the line ends after it
    behind.append(source.slice(at, from), ...(marked.trim() ? [made("mark", marked)] : [made("mark", " "), marked]));
    at = to;
  }
  behind.append(source.slice(at), "\n");
  behind.scrollTop = $(field).scrollTop;
}

function goTo(fault) {
  const range = FIELDS.includes(fault.file) ? rangeOf(fault, $(fault.file).value) : null;
  if (!range) return [];
  const button = made("button", `Go to it in the ${fault.file}`, { type: "button" });
  button.addEventListener("click", () => {
    $(fault.file).focus();
    $(fault.file).setSelectionRange(...range);
  });
  return [button];
}

// ---- what the engine says

/** Returns what is rejected by its code and place (docs/codes.md), where there is no explanation. */
function faultOf({ code, place, sentence }, policies) {
  const said = { text: `error ${code}: ${sentence}`, sentence: `${code}: ${sentence}`, pointer: "" };
  if (code < 20) return { ...said, file: "policies", ...lineAt(policies, place ?? 0) };
  if (code < 30) return { ...said, file: "schema" };
  if (code < 40) return place === null ? { ...said, file: "request" } : { ...said, file: "entities", item: String(place) };
  const policy = policiesOf(policies)[place];
  return { ...said, text: `${said.text}, in the policy ${policy?.id}`, file: "policies", range: policy?.range };
}

/** Returns the line and the column of a byte. */
function lineAt(text, place) {
  const before = new TextDecoder().decode(new TextEncoder().encode(text).slice(0, place)).split("\n");
  return { line: before.length, column: [...before.at(-1)].length + 1, width: 1 };
}

/** Returns the answer, or what is rejected. */
function decided({ policies, request, entities, schema }) {
  try {
    return { answer: schema.trim() ? engine.decideUnder(schema, policies, entities, request) : engine.decide(policies, entities, request), faults: [] };
  } catch (error) {
    if (!(error instanceof WeirbowlError)) throw error;
    const explained = schema.trim() && engine.explain ? faultsOf(engine.explain(schema, policies, entities, request)) : [];
    return { answer: null, faults: explained.length ? explained : [faultOf(error, policies)] };
  }
}

/** Returns the verdict of each policy by its id; none without a schema, or if a text is rejected. */
function verdictsOf({ policies, schema }) {
  try {
    return new Map(schema.trim() ? engine.check(schema, policies).map((it) => [it.id, it]) : []);
  } catch (error) {
    if (!(error instanceof WeirbowlError)) throw error;
    return new Map();
  }
}

const VERDICTS = { accepted: "good", impossible: "warn", refused: "bad" };

function showPolicies(policies, answer, verdicts) {
  const rows = policies.map(({ id, effect }) => {
    const verdict = verdicts.get(id);
    const word = verdict ? { accepted: "passes", impossible: "never satisfied", refused: `${verdict.code}: ${sentenceOf(verdict.code)}` }[verdict.verdict] : "–";
    const erring = answer?.errors.find((it) => it.policy === id);
    const part = answer?.reason.includes(id) ? ["determines it", answer.allowed ? "good" : "bad"] : erring ? [`error: ${erring.error}`, "warn"] : "–";
    return [id, effect, verdict ? [word, VERDICTS[verdict.verdict]] : word, answer ? part : "–"];
  });
  $("verdicts").replaceChildren(rows.length ? tableOf(["Policy", "Effect", "Validation", "In this decision"], rows) : made("p", "There are no policies."));
}

function showHierarchy({ entities, request }, answer, policies) {
  const graph = graphOf(jsonOf(entities));
  const given = jsonOf(request);
  const asked = { principal: uidOf(given?.principal), resource: uidOf(given?.resource) };
  for (const it of Object.values(asked)) if (it && !graph.has(shown(it))) graph.set(shown(it), { uid: it, parents: [], attrs: {} });
  const paths = answer ? pathsOf(graph, policies.filter((it) => answer.reason.includes(it.id)), asked) : [];
  const cycle = (answer?.cycle ?? []).map(shown);
  $("hierarchy").replaceChildren(...pictureOf(graph, Object.values(asked).filter(Boolean).map(shown), paths, cycle));
}

/** Returns the environments of a schema: each type of a principal, an action, a type of a resource, and the context. */
function environmentsOf(schema) {
  const found = [];
  for (const [space, { entityTypes = {}, actions = {} } = {}] of Object.entries(schema ?? {})) {
    const whole = (name) => (space && Object.hasOwn(entityTypes ?? {}, name) ? `${space}::${name}` : name);
    for (const [id, action] of Object.entries(actions ?? {})) {
      const { principalTypes = [], resourceTypes = [], context } = action?.appliesTo ?? {};
      const uid = shown({ type: space ? `${space}::Action` : "Action", id });
      const keys = context?.attributes ? Object.keys(context.attributes).join(", ") || "–" : (context?.type ?? "–");
      for (const p of principalTypes ?? []) for (const r of resourceTypes ?? []) found.push([whole(p), uid, whole(r), keys]);
    }
  }
  return found;
}

function showEnvironments({ schema, request }) {
  const rows = environmentsOf(jsonOf(schema));
  const given = jsonOf(request);
  const asked = [uidOf(given?.principal)?.type, given?.action && uidOf(given.action) && shown(uidOf(given.action)), uidOf(given?.resource)?.type];
  const current = rows.findIndex((row) => asked.every((it, i) => it === row[i]));
  const table = tableOf(["Principal", "Action", "Resource", "Context"], rows.slice(0, MOST_ROWS), current);
  const note = rows.length > MOST_ROWS ? `The first ${MOST_ROWS} of ${rows.length}.` : current >= 0 ? "That of the request is marked." : "";
  $("environments").replaceChildren(...(rows.length ? [made("p", note), table] : [made("p", "None: they are those of a schema.")]));
}

function showDecision(word, because) {
  $("result").dataset.decision = word;
  $("decision").textContent = word;
  $("because").textContent = because;
}

function becauseOf(answer) {
  if (answer.cycle.length) return "since the hierarchy has a cycle";
  const errors = answer.errors.length ? `; erring: ${answer.errors.map((it) => it.policy).join(", ")}` : "";
  return (answer.reason.length ? `determined by ${answer.reason.join(", ")}` : "since no policy permits it") + errors;
}

async function show() {
  const texts = textsNow();
  const began = performance.now();
  try {
    const { answer, faults } = decided(texts);
    const taken = performance.now() - began;
    const policies = policiesOf(texts.policies);
    showDecision(answer?.decision ?? "Rejected", answer ? becauseOf(answer) : `${faults.length} ${faults.length === 1 ? "error" : "errors"}`);
    showFaults(faults);
    showPolicies(policies, answer, verdictsOf(texts));
    showHierarchy(texts, answer, policies);
    showEnvironments(texts);
    $("about").textContent = `Answered in ${taken.toFixed(1)} ms; the engine has ${(engine.memoryBytes / 2 ** 20).toFixed(1)} MiB.`;
  } catch (error) {
    if (!(error instanceof EngineStopped)) throw error;
    // the text is too high for the stack of this page: a new engine answers the next edit
    engine = await anotherEngine();
    showDecision("Stopped", `${error.message}. It is loaded anew.`);
    showFaults([]);
  }
}

// ---- examples, links, views

function choose(example, name) {
  const requests = Object.keys(example.requests);
  $("asked").replaceChildren(...requests.map((it) => made("option", it)));
  $("asked").value = name ?? requests[0];
  for (const it of ["schema", "policies", "entities"]) $(it).value = example[it];
  $("request").value = example.requests[$("asked").value];
}

async function link() {
  history.replaceState(null, "", `#${await packed(textsNow())}`);
}

let waiting;
function edited() {
  $("copied").textContent = "";
  show();
  clearTimeout(waiting);
  waiting = setTimeout(link, 300);
}

/** Fills the page from the link that opened it, else from the first example. Returns whether there was a link. */
async function fromLink() {
  try {
    const texts = await unpacked(location.hash.slice(1));
    for (const it of FIELDS) $(it).value = String(texts[it] ?? "");
    return true;
  } catch {
    return false;
  }
}

function listenToTabs() {
  const tabs = [...document.querySelectorAll("[role=tab]")];
  const select = (tab) => {
    for (const it of tabs) {
      it.setAttribute("aria-selected", it === tab);
      it.tabIndex = it === tab ? 0 : -1;
      $(it.getAttribute("aria-controls")).hidden = it !== tab;
    }
    tab.focus();
  };
  tabs.forEach((tab, i) => {
    tab.addEventListener("click", () => select(tab));
    tab.addEventListener("keydown", ({ key }) => {
      const by = { ArrowLeft: -1, ArrowRight: 1 }[key];
      if (by) select(tabs[(i + by + tabs.length) % tabs.length]);
    });
  });
}

function listen() {
  for (const it of FIELDS) {
    $(it).addEventListener("input", edited);
    $(it).addEventListener("scroll", () => ($(it).previousElementSibling.scrollTop = $(it).scrollTop));
    // a marked text has the size of its field
    new ResizeObserver(() => ($(it).previousElementSibling.scrollTop = $(it).scrollTop)).observe($(it));
  }
  $("example").addEventListener("change", () => {
    choose(examples[$("example").selectedIndex]);
    edited();
  });
  $("asked").addEventListener("change", () => {
    $("request").value = examples[$("example").selectedIndex].requests[$("asked").value] ?? $("request").value;
    edited();
  });
  $("link").addEventListener("click", async () => {
    await link();
    try {
      await navigator.clipboard.writeText(location.href);
      $("copied").textContent = "Copied.";
    } catch {
      $("copied").textContent = "The address of this page is the link.";
    }
  });
  addEventListener("hashchange", async () => {
    if (await fromLink()) show();
  });
  listenToTabs();
}

async function begin() {
  const [, given, build] = await Promise.all([compile(), fetch("examples.json").then((it) => it.json()), fetch("wasm.json").then((it) => it.json())]);
  examples = given;
  engine = await anotherEngine();
  $("made").textContent = build.proved ? "The engine was compiled from the proved library." : "This build of the engine is NOT proved.";
  $("example").replaceChildren(...examples.map((it) => made("option", it.name)));
  choose(examples[0]);
  await fromLink();
  listen();
  await beginSites(anotherEngine, textsNow);
  await show();
  document.documentElement.dataset.ready = "yes";
}

begin().catch((error) => {
  showDecision("Not loaded", error.message);
  document.documentElement.dataset.ready = "no";
});
