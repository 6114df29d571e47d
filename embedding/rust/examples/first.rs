//! Two sites in one process: a policy is put at one, and what the other is missing goes there as a delta.

use weirbowl::{request, Site, Uid};

const SCHEMA: &str = r#"{"": {
    "entityTypes": {"User": {"memberOfTypes": ["Team"]}, "Team": {}, "Photo": {}},
    "actions": {"view": {"appliesTo": {"principalTypes": ["User"], "resourceTypes": ["Photo"]}}}
}}"#;

fn main() -> Result<(), weirbowl::Error> {
    let mut one = Site::open(SCHEMA, "one")?;
    let mut two = Site::open(SCHEMA, "two")?;

    // ann is in the team, and the team may view
    one.put_entity(r#"{"uid": {"type": "User", "id": "ann"}, "parents": [{"type": "Team", "id": "t"}]}"#)?;
    let put = one.put_policy("team", r#"permit(principal in Team::"t", action, resource);"#)?;
    println!("put with the count {} at site {}", put.stamp.count, put.stamp.site);

    let ann_views = request(&Uid::new("User", "ann"), &Uid::new("Action", "view"), &Uid::new("Photo", "p1"));
    println!("one: {:?}", one.authorize(&ann_views)?);
    println!("two: {:?}", two.authorize(&ann_views)?.decision);

    // anti-entropy: what two is missing goes from one to two
    let delta = one.delta(&two.summary()?)?;
    println!("two applies {} updates", two.merge(&delta)?);
    println!("two: {:?}", two.authorize(&ann_views)?.decision);

    // an error has a code and a sentence
    if let Err(error) = two.put_policy("typo", "permit(principal, action);") {
        println!("error {error}");
    }
    Ok(())
}
