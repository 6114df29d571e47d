//! Errors, each with its code and the sentence of the code.

use crate::json::Json;
use std::fmt;

/// Why a call is rejected. The site is then as it was.
///
/// The exception is a merge that ran out of memory (code 1): `place` counts the updates that it applied.
#[derive(Debug, Clone, Copy, PartialEq, Eq)]
pub struct Error {
    /// The status of the reply: 404, 409 or 422, or 503 if out of memory. Of [`Site::open`](crate::Site::open) 422 or 503.
    pub status: u32,
    /// The code of the error, by docs/codes.md: 1 is out of memory. Of [`Site::open`](crate::Site::open) also 2.
    pub code: u32,
    /// A byte of a policy's text, or the index of an entity or of an entry, counted from 0.
    pub place: Option<u64>,
    /// The code of the error inside, of codes 55 and 63.
    pub within: Option<u32>,
}

impl Error {
    pub(crate) fn out_of_memory() -> Error {
        Error { status: 503, code: 1, place: None, within: None }
    }

    /// Reads the line of an error. A reply of 503 without a body has none.
    pub(crate) fn read(status: u32, line: &[u8]) -> Error {
        if line.is_empty() {
            return Error::out_of_memory();
        }
        let line = Json::read(line);
        let error = line.get("error");
        let small = |json: &Json| json.number().and_then(|n| u32::try_from(n).ok());
        Error {
            status,
            code: small(error.get("code")).unwrap_or(0),
            place: error.get("place").number(),
            within: small(error.get("within")),
        }
    }

    /// Returns the code by its name.
    #[must_use]
    pub fn kind(&self) -> Option<Code> {
        Code::of(self.code)
    }

    /// Returns what the code means, in a sentence without its end.
    #[must_use]
    pub fn sentence(&self) -> &'static str {
        sentence(self.code)
    }
}

impl fmt::Display for Error {
    fn fmt(&self, f: &mut fmt::Formatter<'_>) -> fmt::Result {
        write!(f, "{}: {}", self.code, self.sentence())?;
        if let Some(place) = self.place {
            write!(f, " (at {place})")?;
        }
        if let Some(within) = self.within {
            write!(f, " (within, {within}: {})", sentence(within))?;
        }
        Ok(())
    }
}

impl std::error::Error for Error {}

/// Declares the codes, each by its name, its number and its sentence.
macro_rules! codes {
    ($($name:ident = $number:literal: $sentence:literal,)*) => {
        /// The code of an error, by name: docs/codes.md.
        #[non_exhaustive]
        #[derive(Debug, Clone, Copy, PartialEq, Eq, Hash)]
        #[repr(u32)]
        pub enum Code {
            $(#[doc = $sentence] $name = $number,)*
        }

        const SENTENCES: &[(Code, &str)] = &[$((Code::$name, $sentence),)*];
    };
}

codes! {
    OutOfMemory = 1: "out of memory",
    BadSiteName = 2: "the name does not have 1 to 32 letters, digits, `-`, `_` or `.`",
    PolicyBadToken = 10: "no token of a policy begins here",
    PolicyUnexpected = 11: "one policy is expected, and this does not continue it",
    PolicyNumberRange = 12: "the number is outside signed 64 bits",
    PolicyUnknownCall = 13: "no function or method has this name",
    PolicyArity = 14: "the call has another number of arguments",
    PolicyRepeatedKey = 15: "the key, the annotation or the name is repeated",
    PolicySlot = 16: "templates are not supported",
    PolicyTooDeep = 17: "the policy is nested too deeply or is too large",
    PolicyTooLong = 18: "the text is too long",
    PolicyBadId = 19: "the policy's id does not have 1 to 256 bytes of UTF-8",
    SchemaNotJson = 20: "the schema is not JSON",
    SchemaBadShape = 21: "the JSON does not have the form of a schema",
    SchemaUnknownName = 22: "the schema uses a name that it does not declare",
    SchemaTypeCycle = 23: "a common type contains itself",
    SchemaActionCycle = 24: "an action is its own ancestor",
    SchemaTypeTooLarge = 25: "a type of the schema is too large",
    EntityBadShape = 30: "the JSON does not have the form of an entity or a request",
    EntityUnknownType = 31: "the entity's type is not declared",
    EntityActionEntity = 32: "actions are declared in the schema only",
    EntityUndeclaredAttribute = 33: "the attribute is not declared",
    EntityMissingAttribute = 34: "a required attribute is missing",
    EntityWrongType = 35: "an attribute's value has another type",
    EntityBadParent = 36: "the entity may not have a parent of this type",
    EntitySelfParent = 37: "the entity is its own parent",
    EntityTags = 38: "tags are not supported",
    EntityNotApplicable = 39: "the action does not apply to these types",
    ValidationUnknownEntityType = 40: "the policy names an entity type that is not declared",
    ValidationUnknownAction = 41: "the policy names an action that is not declared",
    ValidationWrongType = 42: "the policy uses a value of another type",
    ValidationNoCommonType = 43: "the policy uses two types that have no common type",
    ValidationAttribute = 44: "the policy uses an attribute that is not declared or may be missing",
    ValidationEmptySet = 45: "the policy has an empty set of unknown type",
    ValidationExtensionText = 46: "the text of an extension value is not valid",
    MessageNotJson = 50: "the message is not JSON",
    MessageBadShape = 51: "the JSON does not have the form of a message",
    MessageAnotherSchema = 52: "the message is under another schema",
    MessageAnotherVersion = 53: "the message has another version",
    MessageBadCount = 54: "a count of the message is out of range",
    MessageBadEntry = 55: "an entry of the message is not valid",
    MessageAnotherName = 56: "an entry of the message has the name of another entity",
    MessageNotCanonical = 57: "the text of an entity is not canonical",
    SiteNotThere = 60: "nothing is stored under this name",
    SiteWouldCycle = 61: "the entity would be its own ancestor",
    SiteClockFull = 62: "no stamp is left",
    SiteNotARequest = 63: "the JSON is not a request under the schema",
}

impl Code {
    /// Returns the code of a number, if there is one.
    #[must_use]
    pub fn of(number: u32) -> Option<Code> {
        SENTENCES.iter().map(|(code, _)| *code).find(|code| *code as u32 == number)
    }
}

fn sentence(code: u32) -> &'static str {
    SENTENCES.iter().find(|(it, _)| *it as u32 == code).map_or("unknown code", |(_, sentence)| sentence)
}
