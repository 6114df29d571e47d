// Tests of what the playground reads out of texts, without a page: `node --test tests/playground.mjs`.
import assert from "node:assert/strict";
import test from "node:test";
import { graphOf, pathsOf } from "../playground/hierarchy.mjs";
import { faultsOf, packed, policiesOf, rangeOf, shown, uidOf, unpacked } from "../playground/texts.mjs";

test("uids of each form", () => {
  const ann = { type: "User", id: "ann" };
  for (const it of [ann, { __entity: ann }, 'User::"ann"']) assert.deepEqual(uidOf(it), ann);
  assert.deepEqual(uidOf('A::B::"x\\"y"'), { type: "A::B", id: 'x"y' });
  for (const it of [null, 5, "User", { type: "User" }]) assert.equal(uidOf(it), null);
  assert.equal(shown({ type: "A::B", id: 'x"y' }), 'A::B::"x\\"y"');
});

test("policies by name", () => {
  const text = '// permit(;\n@id("a;b") permit(principal, action, resource) when { "x;\\";" == "y" };\nforbid(principal, action, resource);';
  assert.deepEqual(policiesOf(text).map(({ id, effect }) => [id, effect]), [["a;b", "permit"], ["policy1", "forbid"]]);
  assert.deepEqual(policiesOf(text).map(({ range }) => text.slice(...range).slice(0, 6)), ["@id(\"a", "forbid"]);
  assert.deepEqual(policiesOf(""), []);
});

const EXPLAINED = `error 44: undeclared or optional attribute \`nope\`
 --> policies:2:10
2 | when { /*é🙂*/ principal.nope };
  |                ^^^^^^^^^^^^^^
  in User, Action::"view", Photo: not declared in User
  hint: correct its name
error 35: a value is of another type than declared
 --> entities, entity 1 (from 0)
  at /attrs/home~1work/zip: Long is declared
  hint: write it by its type
error 20: this is not JSON
 --> schema
  hint: see docs/formats.md
`;

test("errors and their places", () => {
  const [policy, entity, schema] = faultsOf(EXPLAINED);
  assert.deepEqual([policy.file, policy.line, policy.column, policy.width, policy.sentence], ["policies", 2, 10, 14, "44: undeclared or optional attribute `nope`"]);
  const source = "permit(principal, action, resource)\nwhen { 🙂 principal.nope };";
  assert.equal(source.slice(...rangeOf(policy, source)), "principal.nope");
  assert.deepEqual([entity.file, entity.item, entity.pointer], ["entities", "1", "/attrs/home~1work/zip"]);
  const entities = '[{"uid": 1}, {"uid": [{}, "]"], "attrs": {"a": 1, "home/work": {"zip": "x\\"y", "b": 2}}}]';
  assert.equal(entities.slice(...rangeOf(entity, entities)), '"x\\"y"');
  assert.equal(entities.slice(...rangeOf({ ...entity, pointer: "/attrs/home~1work/none" }, entities)), '{"zip": "x\\"y", "b": 2}');
  assert.equal(entities.slice(...rangeOf({ ...entity, pointer: "" }, entities)), entities.slice(13, -1));
  assert.equal(rangeOf(schema, "{"), null);
  assert.deepEqual(rangeOf({ ...entity, item: "7" }, "no JSON"), [0, 2]);
  assert.deepEqual(faultsOf(""), []);
});

test("the paths of `in`", () => {
  const entities = [
    { uid: 'User::"bob"', parents: ['Group::"cousins"'] },
    { uid: 'Group::"cousins"', parents: ['Group::"family"', 'Group::"cousins"'] },
    { uid: 'Photo::"p"', attrs: { readers: 'Group::"family"' } },
  ];
  const graph = graphOf(entities);
  assert.equal(graph.size, 4);
  const asked = { principal: { type: "User", id: "bob" }, resource: { type: "Photo", id: "p" } };
  const up = ['User::"bob"', 'Group::"cousins"', 'Group::"family"'];
  const paths = (text) => pathsOf(graph, policiesOf(text), asked);
  assert.deepEqual(paths('permit(principal in Group::"family", action, resource);'), [up]);
  assert.deepEqual(paths('permit(principal is User in Group::"family", action, resource) when { principal in resource.readers };'), [up, up]);
  assert.deepEqual(paths('permit(principal, action, resource in Album::"a") unless { principal in [Group::"none", Group::"cousins"] };'), [up.slice(0, 2)]);
  assert.deepEqual(graphOf(null).size, 0);
});

test("a question as a link", async () => {
  const texts = { policies: "permit(principal, action, resource); // é🙂\n".repeat(50), request: "" };
  const link = await packed(texts);
  assert.match(link, /^[\w-]+$/);
  assert.ok(link.length < 400);
  assert.deepEqual(await unpacked(link), texts);
});
