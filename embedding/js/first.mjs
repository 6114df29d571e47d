// Two sites in one engine: a policy is put at one, and what the other is missing goes there as a delta.
import { Weirbowl, WeirbowlError, request } from "./weirbowl.mjs";

const schema = {
  "": {
    entityTypes: { User: { memberOfTypes: ["Team"] }, Team: {}, Photo: {} },
    actions: { view: { appliesTo: { principalTypes: ["User"], resourceTypes: ["Photo"] } } },
  },
};
const annViews = request(["User", "ann"], ["Action", "view"], ["Photo", "p1"]);

const weirbowl = await Weirbowl.load();
const [one, two] = ["one", "two"].map((name) => new weirbowl.Site(schema, name));

// ann is in the team, and the team may view
one.putEntity({ uid: { type: "User", id: "ann" }, parents: [{ type: "Team", id: "t" }] });
console.log("put:", JSON.stringify(one.putPolicy("team", 'permit(principal in Team::"t", action, resource);')));
console.log("one:", JSON.stringify(one.authorize(annViews)));
console.log("two:", two.authorize(annViews).decision);

// anti-entropy: what two is missing goes from one to two
console.log("two applies", two.merge(one.delta(two.summary())), "updates");
console.log("two:", two.authorize(annViews).decision);

// an error has a code, a place and a sentence
try {
  two.putPolicy("typo", "permit(principal, action);");
} catch (error) {
  if (!(error instanceof WeirbowlError)) throw error;
  console.log("error", error.message);
}
one.close();
two.close();
