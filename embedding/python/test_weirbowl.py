"""Tests of the package weirbowl: `python3 -m unittest`, with WEIRBOWL_SO if the library is not in embedding/out."""
import copy
import json
import os
import pickle
import threading
import unittest

import weirbowl
from weirbowl import Answer, ErringPolicy, Error, Site, Stamp, Verdict, check, decide, decide_under, explain, request

SCHEMA = {"": {"entityTypes": {"User": {"memberOfTypes": ["Team"]}, "Team": {}, "Photo": {}},
               "actions": {"view": {"appliesTo": {"principalTypes": ["User"], "resourceTypes": ["Photo"]}}}}}
ALL = "permit(principal, action, resource);"
TEAM = 'permit(principal in Team::"t", action, resource);'
ANN_VIEWS = request(("User", "ann"), ("Action", "view"), ("Photo", "p1"))


class Sites(unittest.TestCase):
    def test_decides_and_changes(self):
        with Site(SCHEMA, "one") as site:
            self.assertFalse(site.authorize(ANN_VIEWS).allowed)
            self.assertEqual(site.put_policy("p", TEAM), (Stamp(1, "one"), False))
            site.put_entity({"uid": {"type": "User", "id": "ann"}, "parents": [{"type": "Team", "id": "t"}]})
            answer = site.authorize(json.dumps(ANN_VIEWS).encode())
            self.assertEqual((answer.decision, answer.reason, answer.errors, answer.cycle), ("Allow", ["p"], [], []))
            self.assertEqual(site.get_policy("p"), (TEAM, Stamp(1, "one")))
            self.assertEqual(site.delete_entity(("User", "ann")), Stamp(3, "one"))
            self.assertEqual(site.delete_policy("p"), Stamp(4, "one"))
            self.assertIsNone(site.get_policy("p"))

    def test_ids_of_any_text(self):
        with Site(SCHEMA, "one") as site:
            for id in ('"', "\\", "\n\t\x01", "\0", "ü€🙂"):
                site.put_policy(id, ALL)
                self.assertEqual(site.authorize(ANN_VIEWS).reason, [id])
                site.delete_policy(id)

    def test_exchanges(self):
        with Site(SCHEMA, "one") as one, Site(SCHEMA, "two") as two:
            for n in range(100):
                one.put_policy(f"p{n}", ALL)
            two.put_policy("q", 'forbid(principal == User::"ann", action, resource);')
            delta = one.delta(two.summary())
            self.assertGreater(len(delta), 1024)
            self.assertEqual(two.merge(delta), 100)
            self.assertEqual(one.merge(two.state()), 101)
            self.assertEqual(one.state(), two.state())
            self.assertFalse(one.authorize(ANN_VIEWS).allowed)

    def test_rejects(self):
        for schema, name, code in (("{", "one", 20), (SCHEMA, "no name!", 2), (SCHEMA, "", 2), (SCHEMA, "ü", 2)):
            with self.assertRaises(Error) as caught:
                Site(schema, name)
            self.assertEqual(caught.exception.code, code)
        with Site(SCHEMA, "one") as site:
            for call, values, status, code, place, within in (
                (site.authorize, ("{",), 422, 63, None, 30),
                (site.put_policy, ("p", "permit(principal, action);"), 422, 11, 24, None),
                (site.put_policy, ("", ALL), 422, 19, 0, None),
                (site.put_entity, ({},), 422, 30, None, None),
                (site.merge, (b"\xff",), 422, 50, None, None),
                (site.delete_policy, ("absent",), 404, 60, None, None),
            ):
                with self.assertRaises(Error) as caught:
                    call(*values)
                error = caught.exception
                self.assertEqual((error.status, error.code, error.place, error.within), (status, code, place, within))
            self.assertEqual(str(caught.exception), "60: nothing is stored under this name")

    def test_closed(self):
        site = Site(SCHEMA, "one")
        site.close()
        site.close()
        with self.assertRaises(ValueError):
            site.state()

    def test_stays_on_its_thread(self):
        site, caught = Site(SCHEMA, "one"), []

        def other():
            for call in (site.state, site.close):
                try:
                    call()
                except RuntimeError:
                    caught.append(call)

        thread = threading.Thread(target=other)
        thread.start()
        thread.join()
        self.assertEqual(len(caught), 2)
        site.close()

    def test_is_not_copied(self):
        with Site(SCHEMA, "one") as site:
            for make in (copy.copy, copy.deepcopy, pickle.dumps):
                with self.assertRaises(TypeError):
                    make(site)


class Answers(unittest.TestCase):
    def test_denial_is_false(self):
        self.assertTrue(Answer("Allow", ["p"], [], []))
        for other in ("Deny", "allow", ""):
            self.assertFalse(Answer(other, ["p"], [], []))


class Package(unittest.TestCase):
    def test_is_typed(self):
        self.assertTrue(os.path.exists(f"{os.path.dirname(weirbowl.__file__)}/py.typed"))


class Texts(unittest.TestCase):
    def test_decides(self):
        self.assertTrue(decide(ALL, [], ANN_VIEWS).allowed)
        self.assertEqual(len(decide(ALL * 300, "[]", ANN_VIEWS).reason), 300)
        self.assertFalse(decide_under(SCHEMA, TEAM, [], ANN_VIEWS).allowed)
        answer = decide("permit(principal, action, resource) when { principal.age > 3 };", [], ANN_VIEWS)
        self.assertEqual([it.policy for it in answer.errors], ["policy0"])
        self.assertIsInstance(answer.errors[0], ErringPolicy)
        for call, code in ((lambda: decide("permit", [], ANN_VIEWS), 11), (lambda: decide_under("{", TEAM, [], ANN_VIEWS), 20)):
            with self.assertRaises(Error) as caught:
                call()
            self.assertEqual(caught.exception.code, code)

    def test_cycles(self):
        ring = [{"uid": {"type": "T", "id": a}, "parents": [{"type": "T", "id": b}]} for a, b in ("ab", "ba")]
        self.assertEqual(decide(ALL, ring, ANN_VIEWS).cycle, [("T", "a"), ("T", "b")])

    def test_checks(self):
        self.assertEqual(check(SCHEMA, ALL + " permit(principal, action, resource) when { principal.x };"),
                         [Verdict("policy0", "accepted"), Verdict("policy1", "refused", 44)])
        self.assertEqual(check(SCHEMA, ""), [])
        with self.assertRaises(Error):
            check(SCHEMA, "#")

    def test_explains(self):
        self.assertEqual(explain(SCHEMA, ALL, [], ANN_VIEWS), "")
        self.assertRegex(explain(SCHEMA, "permit(principal", [], ANN_VIEWS), "^error 11: .*\\n --> policies:1:17\\n")


if __name__ == "__main__":
    unittest.main()
