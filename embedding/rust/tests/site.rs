use weirbowl::{check, decide, decide_under, explain, request, request_with_context, Code, Decision, Site, Uid, Verdict};

const SCHEMA: &str = r#"{"":{"entityTypes":{"User":{"memberOfTypes":["Team"]},"Team":{},"Photo":{}},"actions":{"view":{"appliesTo":{"principalTypes":["User"],"resourceTypes":["Photo"]}}}}}"#;
const ALL: &str = "permit(principal, action, resource);";
const TEAM: &str = r#"permit(principal in Team::"t", action, resource);"#;

fn ann_views() -> String {
    request(&Uid::new("User", "ann"), &Uid::new("Action", "view"), &Uid::new("Photo", "p1"))
}

#[test]
fn decides_and_changes() {
    let mut site = Site::open(SCHEMA, "one").unwrap();
    assert!(!site.authorize(ann_views()).unwrap().decision.is_allowed());
    let put = site.put_policy("p", TEAM).unwrap();
    assert_eq!((put.stamp.count, put.stamp.site.as_str(), put.impossible), (1, "one", false));
    site.put_entity(r#"{"uid":{"type":"User","id":"ann"},"parents":[{"type":"Team","id":"t"}]}"#).unwrap();
    let answer = site.authorize(ann_views()).unwrap();
    assert!(answer.is_allowed());
    assert_eq!(answer.reason, ["p"]);
    assert_eq!(site.get_policy("p").unwrap().unwrap().text, TEAM);
    assert_eq!(site.delete_entity(&Uid::new("User", "ann")).unwrap().count, 3);
    assert!(!site.authorize(ann_views()).unwrap().is_allowed());
    assert_eq!(site.delete_policy("p").unwrap().count, 4);
    assert_eq!(site.get_policy("p").unwrap(), None);
}

#[test]
fn ids_of_any_text() {
    let mut site = Site::open(SCHEMA, "one").unwrap();
    for id in ["\"", "\\", "\n\t\u{1}", "ü€🙂", "a/b?c%41"] {
        site.put_policy(id, ALL).unwrap();
        assert_eq!(site.authorize(ann_views()).unwrap().reason, [id]);
        site.put_entity(format!(r#"{{"uid":{}}}"#, Uid::new("Photo", id).to_json())).unwrap();
        site.delete_entity(&Uid::new("Photo", id)).unwrap();
        site.delete_policy(id).unwrap();
    }
}

#[test]
fn exchanges() {
    let (mut one, mut two) = (Site::open(SCHEMA, "one").unwrap(), Site::open(SCHEMA, "two").unwrap());
    for n in 0..100 {
        one.put_policy(&format!("p{n}"), ALL).unwrap();
    }
    two.put_policy("q", r#"forbid(principal == User::"ann", action, resource);"#).unwrap();
    let delta = one.delta(&two.summary().unwrap()).unwrap();
    assert!(delta.len() > 1024);
    assert_eq!(two.merge(&delta).unwrap(), 100);
    assert_eq!(one.merge(&two.state().unwrap()).unwrap(), 101);
    assert_eq!(one.state().unwrap(), two.state().unwrap());
    assert!(!one.authorize(ann_views()).unwrap().is_allowed());
}

#[test]
fn rejects() {
    assert_eq!(Site::open("{", "one").err().unwrap().code, 20);
    assert_eq!(Site::open(SCHEMA, "no name!").err().unwrap().code, 2);
    let mut site = Site::open(SCHEMA, "one").unwrap();
    let error = site.authorize("{").unwrap_err();
    assert_eq!((error.status, error.code, error.within), (422, 63, Some(30)));
    assert_eq!(
        error.to_string(),
        "63: the JSON is not a request under the schema (within, 30: the JSON does not have the form of an entity or a request)"
    );
    let error = site.put_policy("p", "permit(principal, action);").unwrap_err();
    assert_eq!((error.code, error.place), (11, Some(24)));
    assert_eq!(site.put_policy("", ALL).unwrap_err().code, 19);
    assert_eq!(site.merge(b"\xff").unwrap_err().code, 50);
    let error = site.delete_policy("absent").unwrap_err();
    assert_eq!((error.status, error.kind()), (404, Some(Code::SiteNotThere)));
    assert_eq!(site.put_entity("{}").unwrap_err().code, 30);
}

#[test]
fn decides_over_texts() {
    assert!(decide(ALL, "[]", ann_views()).unwrap().is_allowed());
    assert_eq!(decide("permit", "[]", ann_views()).unwrap_err().code, 11);
    assert!(!decide_under(SCHEMA, TEAM, "[]", ann_views()).unwrap().is_allowed());
    assert_eq!(decide_under("{", TEAM, "[]", ann_views()).unwrap_err().code, 20);
    let many = decide(ALL.repeat(300), "[]", ann_views()).unwrap();
    assert_eq!(many.reason.len(), 300);
    let verdicts = check(SCHEMA, format!("{ALL} permit(principal, action, resource) when {{ principal.x }};")).unwrap();
    assert_eq!(verdicts, [("policy0".to_string(), Verdict::Accepted), ("policy1".to_string(), Verdict::Rejected(44))]);
    assert_eq!(check(SCHEMA, "#").unwrap_err().code, 10);
    assert_eq!(check(SCHEMA, "").unwrap(), []);
    assert_eq!(explain(SCHEMA, ALL, "[]", ann_views()).unwrap(), "");
    let explained = explain(SCHEMA, "permit(principal", "[]", ann_views()).unwrap();
    assert!(explained.starts_with("error 11: ") && explained.contains("\n --> policies:1:17\n"), "{explained}");
}

#[test]
fn requests_have_a_context() {
    let (ann, eve) = (Uid::new("User", "ann"), Uid::new("User", "eve"));
    let (view, photo) = (Uid::new("Action", "view"), Uid::new("Photo", "p1"));
    let schema = SCHEMA.replace(
        r#""appliesTo":{"#,
        r#""appliesTo":{"context":{"type":"Record","attributes":{"mfa":{"type":"Boolean"}}},"#,
    );
    let policy = r#"permit(principal == User::"ann", action, resource) when { context.mfa };"#;
    let allowed = |principal: &Uid, context: &str| {
        let asked = request_with_context(principal, &view, &photo, context);
        decide_under(&schema, policy, "[]", asked).map(|answer| answer.is_allowed())
    };
    assert_eq!(allowed(&ann, r#"{"mfa":true}"#), Ok(true));
    assert_eq!(allowed(&ann, r#"{"mfa":false}"#), Ok(false));
    assert_eq!(allowed(&ann, "{}").unwrap_err().kind(), Some(Code::EntityMissingAttribute));
    // a context that would bring its own principal
    let forged = format!(r#"{{"mfa":true}},"principal":{}"#, ann.to_json());
    assert_ne!(allowed(&eve, &forged), Ok(true));
    assert_eq!(Code::of(60), Some(Code::SiteNotThere));
    assert_eq!(Code::of(3), None);
}

#[test]
fn erring_policies_are_named() {
    let answer = decide("permit(principal, action, resource) when { principal.age > 3 };", "[]", ann_views()).unwrap();
    assert_eq!(
        (answer.decision, answer.errors.len(), answer.errors[0].policy.as_str()),
        (Decision::Deny, 1, "policy0")
    );
}

#[test]
fn cycles_are_named() {
    let ring = r#"[{"uid":{"type":"T","id":"a"},"parents":[{"type":"T","id":"b"}]},{"uid":{"type":"T","id":"b"},"parents":[{"type":"T","id":"a"}]}]"#;
    let answer = decide(ALL, ring, ann_views()).unwrap();
    assert_eq!((answer.decision, answer.cycle), (Decision::Deny, vec![Uid::new("T", "a"), Uid::new("T", "b")]));
}
