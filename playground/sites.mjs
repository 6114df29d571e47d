// Two sites: changes at each, messages between them, and which stamp won.
import { EngineStopped, WeirbowlError } from "./weirbowl.mjs";
import { made, tableOf } from "./elements.mjs";
import { jsonOf, policiesOf, shown, uidOf } from "./texts.mjs";

const $ = (id) => document.getElementById(id);
const NAMES = ["paris", "oslo"];

/** What a form does: its title, the fields that it has, and its call. */
const CHANGES = {
  "put a policy": { id: "Id", text: "Policy", call: (site, { id, text }) => site.putPolicy(id, text) },
  "delete a policy": { id: "Id", call: (site, { id }) => site.deletePolicy(id) },
  "put an entity": { text: "Entity", call: (site, { text }) => site.putEntity(text) },
  "delete an entity": { text: 'Uid, such as User::"ann"', call: (site, { text }) => site.deleteEntity(pairOf(text)) },
};
const FIRST = { id: "all", text: "permit(principal, action, resource);" };

function pairOf(text) {
  const uid = uidOf(jsonOf(text) ?? text);
  if (!uid) throw new TypeError('expected a uid such as User::"ann"');
  return [uid.type, uid.id];
}

/** Returns the entries of a site's store by the names that are shown. */
function entriesOf(site) {
  const { entries } = JSON.parse(new TextDecoder().decode(site.state()));
  return new Map(entries.map(({ name, count, site: by, body }) => [name.policy === undefined ? `entity ${shown(name.entity)}` : `policy ${name.policy}`, { count, by, body }]));
}

const stampOf = (entry) => (entry ? `${entry.count} by ${entry.by}` : "–");

/** The two sites of the view, under one schema. */
class Pair {
  constructor(engine, anotherEngine, textsNow) {
    Object.assign(this, { engine, anotherEngine, textsNow, sites: [], schema: null });
    this.views = NAMES.map((name, i) => viewOf(name, (change, given) => this.change(i, change, given)));
    document.querySelector(".pair").append(...this.views.map((it) => it.box));
    $("fill").addEventListener("click", () => this.fill());
    $("send-right").addEventListener("click", () => this.exchange([[0, 1]]));
    $("send-left").addEventListener("click", () => this.exchange([[1, 0]]));
    $("exchange").addEventListener("click", () => this.exchange([[0, 1], [1, 0]]));
    $("afresh").addEventListener("click", () => this.open("Both sites are empty."));
    $("tab-sites").addEventListener("focus", () => this.schema !== this.textsNow().schema && this.open("Both sites are empty, under the schema of the first view."));
  }

  /** Opens both sites, with what they are to hold if that is given. */
  open(note, kept = []) {
    const { schema } = this.textsNow();
    for (const it of this.sites) it.close();
    this.sites = [];
    $("exchanged").textContent = "Nothing was sent yet.";
    try {
      this.sites = NAMES.map((name) => new this.engine.Site(schema, name));
      kept.forEach((state, i) => this.sites[i].merge(state));
      $("sites-note").textContent = note;
      this.schema = schema;
    } catch (error) {
      if (!(error instanceof WeirbowlError)) throw error;
      this.schema = null;
      $("sites-note").textContent = `The first view needs a schema that is accepted: ${error.message}`;
    }
    this.show();
  }

  /** Makes a change at a site, or says why it is rejected. */
  async change(i, change, given) {
    if (!this.sites[i]) return;
    const said = this.views[i].said;
    const kept = this.sites.map((it) => it.state());
    try {
      const { count, site, impossible } = CHANGES[change].call(this.sites[i], given);
      said.textContent = `Stamped ${count} by ${site}.${impossible ? " No request satisfies it." : ""}`;
    } catch (error) {
      said.textContent = error.message;
      if (error instanceof EngineStopped) await this.again(kept);
    }
    this.show();
  }

  /** After the engine stopped: a new one, with the states that were kept. */
  async again(kept) {
    this.engine = await this.anotherEngine();
    this.sites = [];
    this.open("The engine was loaded anew, with the states that were kept.", kept);
  }

  /** Puts the policies and entities of the first view at the first site, and sends them to the second. */
  fill() {
    if (!this.sites.length) return;
    const { policies, entities } = this.textsNow();
    const rejected = [];
    const put = (name, call) => {
      try {
        call();
      } catch (error) {
        if (!(error instanceof WeirbowlError)) throw error;
        rejected.push(`${name}: ${error.message}`);
      }
    };
    for (const it of jsonOf(entities) ?? []) put(uidOf(it?.uid) ? shown(uidOf(it.uid)) : "an entity", () => this.sites[0].putEntity(it));
    for (const it of policiesOf(policies)) put(it.id, () => this.sites[0].putPolicy(it.id, it.text.trim()));
    this.sites[1].merge(this.sites[0].delta(this.sites[1].summary()));
    $("sites-note").textContent = rejected.length ? `Rejected: ${rejected.join("; ")}` : "Both hold the policies and entities of the first view.";
    this.show();
  }

  /** Sends deltas, and says for each name that they change which stamp won. */
  exchange(ways) {
    if (!this.sites.length) return;
    const before = this.sites.map(entriesOf);
    const sent = ways.map(([from, to]) => `${NAMES[from]} → ${NAMES[to]}: ${this.sites[to].merge(this.sites[from].delta(this.sites[to].summary()))}`);
    const after = this.sites.map(entriesOf);
    const rows = [...new Set(before.flatMap((it) => [...it.keys()]))].filter((name) => before.some((it, i) => stampOf(it.get(name)) !== stampOf(after[i].get(name)))).map((name) => {
      const won = after[ways[0][1]].get(name);
      return [name, ...before.map((it) => [stampOf(it.get(name)), stampOf(it.get(name)) === stampOf(won) ? "good" : ""]), stampOf(won)];
    });
    const same = JSON.stringify([...after[0]]) === JSON.stringify([...after[1]]);
    const parts = [made("p", `Updates sent: ${sent.join(", ")}. The stores are ${same ? "equal" : "not equal yet"}.`)];
    if (rows.length) parts.push(tableOf(["Name", ...NAMES.map((it) => `${it} had`), "Won"], rows));
    $("exchanged").replaceChildren(...parts);
    this.show();
  }

  show() {
    const entries = this.sites.map(entriesOf);
    this.views.forEach(({ store }, i) => {
      const rows = [...(entries[i] ?? [])].map(([name, it]) => {
        const differs = stampOf(it) !== stampOf(entries[1 - i]?.get(name));
        return [name, [stampOf(it), differs ? "stamp warn" : "stamp"], [it.body ?? "deleted", "code"]];
      });
      store.replaceChildren(rows.length ? tableOf(["Name", "Stamp", "Text"], rows) : made("p", "Nothing is stored."));
    });
  }
}

/** Returns the view of a site: a form for its changes, and its store. */
function viewOf(name, changed) {
  const box = made("section", "", { className: "site" });
  box.setAttribute("aria-label", `The site ${name}`);
  const form = made("form");
  const labelled = (text, field) => {
    const label = made("label", text);
    label.append(field);
    return label;
  };
  const what = made("select");
  what.append(...Object.keys(CHANGES).map((it) => made("option", it)));
  const id = made("input", "", { value: FIRST.id, autocomplete: "off" });
  const text = made("textarea", "", { value: FIRST.text, rows: 3, className: "code", spellcheck: false });
  const [idLabel, textLabel] = [labelled("Id", id), labelled("Policy", text)];
  what.addEventListener("change", () => {
    const { id: idTitle, text: textTitle } = CHANGES[what.value];
    [idLabel.hidden, textLabel.hidden] = [!idTitle, !textTitle];
    if (textTitle) textLabel.firstChild.data = textTitle;
  });
  const button = made("button", `Do it at ${name}`);
  form.append(labelled("Change", what), idLabel, textLabel, button);
  form.addEventListener("submit", (event) => {
    event.preventDefault();
    changed(what.value, { id: id.value, text: text.value });
  });
  const said = made("p", "", { className: "said" });
  said.setAttribute("role", "status");
  const store = made("div", "", { className: "scroll", tabIndex: 0 });
  store.setAttribute("role", "region");
  store.setAttribute("aria-label", `The store of ${name}`);
  box.append(made("h2", `Site ${name}`), form, said, store);
  return { box, said, store };
}

export async function beginSites(anotherEngine, textsNow) {
  return new Pair(await anotherEngine(), anotherEngine, textsNow);
}
