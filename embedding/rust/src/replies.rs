//! What the calls return, as types.

use crate::json::{quote, Json};

/// Whether a request is allowed.
#[must_use]
#[derive(Debug, Clone, Copy, PartialEq, Eq)]
pub enum Decision {
    /// A `permit` is satisfied, and no `forbid` is.
    Allow,
    /// No `permit` is satisfied, or a `forbid` is; or the entities have a cycle.
    Deny,
}

/// The uid of an entity.
#[derive(Debug, Clone, PartialEq, Eq, PartialOrd, Ord, Hash)]
pub struct Uid {
    /// The type of the entity: `User`, `Photos::Album`.
    pub type_name: String,
    /// The id of the entity: any text.
    pub id: String,
}

impl Uid {
    /// Creates the uid of a type and an id.
    pub fn new(type_name: impl Into<String>, id: impl Into<String>) -> Uid {
        Uid { type_name: type_name.into(), id: id.into() }
    }

    /// Returns the uid as JSON: `{"type":"User","id":"ann"}`.
    #[must_use]
    pub fn to_json(&self) -> String {
        let mut json = String::from("{\"type\":");
        quote(&self.type_name, &mut json);
        json.push_str(",\"id\":");
        quote(&self.id, &mut json);
        json.push('}');
        json
    }
}

impl Decision {
    /// Returns whether it is `Allow`.
    #[must_use]
    pub fn is_allowed(self) -> bool {
        self == Decision::Allow
    }
}

/// Returns the JSON of a request with an empty context.
#[must_use]
pub fn request(principal: &Uid, action: &Uid, resource: &Uid) -> String {
    request_with_context(principal, action, resource, "{}")
}

/// Returns the JSON of a request with a context, an object of JSON such as `{"mfa":true}`.
///
/// Whatever the text of the context is, the request has these uids or is rejected: the last value of a repeated key counts.
#[must_use]
pub fn request_with_context(principal: &Uid, action: &Uid, resource: &Uid, context: &str) -> String {
    format!(
        "{{\"context\":{context},\"principal\":{},\"action\":{},\"resource\":{}}}",
        principal.to_json(),
        action.to_json(),
        resource.to_json()
    )
}

/// A policy whose evaluation fails, and so has no effect on the decision.
#[derive(Debug, Clone, PartialEq, Eq)]
pub struct ErringPolicy {
    /// The id of the policy.
    pub policy: String,
    /// The word of the error, by docs/codes.md.
    pub error: String,
}

/// The answer to a request.
#[must_use]
#[derive(Debug, Clone, PartialEq, Eq)]
pub struct Answer {
    /// The decision.
    pub decision: Decision,
    /// The ids of the determining policies, in ascending order.
    pub reason: Vec<String>,
    /// The policies whose evaluation fails, in ascending order of their ids.
    pub errors: Vec<ErringPolicy>,
    /// A cycle of the entities, if there is one: each is a child of the next, and the last of the first. The decision is
    /// then `Deny`.
    pub cycle: Vec<Uid>,
}

impl Answer {
    pub(crate) fn read(line: &[u8]) -> Answer {
        let line = Json::read(line);
        let decision = if line.get("decision").text() == "Allow" { Decision::Allow } else { Decision::Deny };
        let error = |it: &Json| ErringPolicy { policy: it.get("policy").text(), error: it.get("error").text() };
        let uid = |it: &Json| Uid { type_name: it.get("type").text(), id: it.get("id").text() };
        Answer {
            decision,
            reason: line.get("reason").list().iter().map(Json::text).collect(),
            errors: line.get("errors").list().iter().map(error).collect(),
            cycle: line.get("cycle").list().iter().map(uid).collect(),
        }
    }

    /// Returns whether the decision is `Allow`.
    #[must_use]
    pub fn is_allowed(&self) -> bool {
        self.decision.is_allowed()
    }
}

/// The Lamport timestamp of a change.
#[derive(Debug, Clone, PartialEq, Eq)]
pub struct Stamp {
    /// The count: greater than those of all changes that the site had before.
    pub count: u64,
    /// The name of the site that made the change.
    pub site: String,
}

impl Stamp {
    pub(crate) fn of(line: &Json) -> Stamp {
        Stamp { count: line.get("count").number().unwrap_or(0), site: line.get("site").text() }
    }
}

/// A policy that was put.
#[derive(Debug, Clone, PartialEq, Eq)]
pub struct Put {
    /// The stamp of the change.
    pub stamp: Stamp,
    /// Whether no request that conforms to the schema satisfies the policy.
    pub impossible: bool,
}

/// A policy that was found.
#[derive(Debug, Clone, PartialEq, Eq)]
pub struct Found {
    /// The text of the policy.
    pub text: String,
    /// The stamp of the change that put it.
    pub stamp: Stamp,
}

/// What validation finds of a policy.
#[derive(Debug, Clone, Copy, PartialEq, Eq)]
pub enum Verdict {
    /// The policy passes.
    Accepted,
    /// The policy passes, and no request that conforms to the schema satisfies it.
    Impossible,
    /// The policy does not pass; the code says why (40 to 46).
    Rejected(u32),
}

impl Verdict {
    /// Reads a line of `check`: the id of the policy, and the verdict.
    pub(crate) fn read(line: &[u8]) -> (String, Verdict) {
        let line = Json::read(line);
        let verdict = match (line.get("verdict").text().as_str(), line.get("code").number()) {
            ("accepted", _) => Verdict::Accepted,
            ("impossible", _) => Verdict::Impossible,
            (_, code) => Verdict::Rejected(code.and_then(|n| u32::try_from(n).ok()).unwrap_or(0)),
        };
        (line.get("id").text(), verdict)
    }
}
