"""Two sites in one process: a policy is put at one, and what the other is missing goes there as a delta."""
from weirbowl import Error, Site, request

SCHEMA = {"": {"entityTypes": {"User": {"memberOfTypes": ["Team"]}, "Team": {}, "Photo": {}},
               "actions": {"view": {"appliesTo": {"principalTypes": ["User"], "resourceTypes": ["Photo"]}}}}}
ANN_VIEWS = request(("User", "ann"), ("Action", "view"), ("Photo", "p1"))

with Site(SCHEMA, "one") as one, Site(SCHEMA, "two") as two:
    # ann is in the team, and the team may view
    one.put_entity({"uid": {"type": "User", "id": "ann"}, "parents": [{"type": "Team", "id": "t"}]})
    print("put:", one.put_policy("team", 'permit(principal in Team::"t", action, resource);').stamp)
    print("one:", one.authorize(ANN_VIEWS))
    print("two:", two.authorize(ANN_VIEWS).decision)

    # anti-entropy: what two is missing goes from one to two
    print("two applies", two.merge(one.delta(two.summary())), "updates")
    print("two:", two.authorize(ANN_VIEWS).decision)

    # an error has a code and a sentence
    try:
        two.put_policy("typo", "permit(principal, action);")
    except Error as error:
        print("error", error)
