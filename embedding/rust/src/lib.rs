//! Weirbowl in your process: a replicated store of Cedar policies and entities, and decisions over it.
//!
//! A [`Site`] has a store under one schema. It changes by its own commands and by messages of other sites, and answers
//! requests. Sites that applied the same updates give equal answers. The engine is proved against its contracts; this
//! crate is the safe Rust over its C functions, and has no dependencies.
//!
//! ```
//! use weirbowl::{request, Site, Uid};
//!
//! let schema = r#"{"":{"entityTypes":{"User":{},"Photo":{}},"actions":{"view":{"appliesTo":
//!     {"principalTypes":["User"],"resourceTypes":["Photo"]}}}}}"#;
//! let mut site = Site::open(schema, "one")?;
//! site.put_policy("ann", r#"permit(principal == User::"ann", action, resource);"#)?;
//! let asked = request(&Uid::new("User", "ann"), &Uid::new("Action", "view"), &Uid::new("Photo", "p1"));
//! assert!(site.authorize(asked)?.is_allowed());
//! # Ok::<(), weirbowl::Error>(())
//! ```
//!
//! Types ensure what the C header asks of a caller: a slot is zeroed, never copied, and borrowed mutably for each
//! call; pointers and lengths are those of slices; a site stays on the thread that opened it: it is neither `Send` nor
//! `Sync`, and a `Mutex` does not help. examples/queue.rs has a thread that owns a site and answers others.
//!
//! # Stack
//!
//! A call needs a thread with a stack of 4 MiB or more, since an expression may be 1,000 nodes high. The threads of std
//! have 2 MiB (see `std::thread::Builder::stack_size`). On a smaller one a long policy aborts the process.
//!
//! ```compile_fail
//! let site = weirbowl::Site::open("{}", "one").unwrap();
//! std::thread::spawn(move || drop(site)); // a site is not `Send`
//! ```

mod calls;
mod error;
mod json;
mod replies;

use calls::*;
pub use error::{Code, Error};
use json::Json;
pub use replies::{request, request_with_context, Answer, Decision, ErringPolicy, Found, Put, Stamp, Uid, Verdict};

/// The bytes of a new site's memory for replies; it grows to the longest reply.
const ROOM: usize = 1024;

/// A site in this process.
///
/// It is neither `Send` nor `Sync`. Dropping it closes it and frees its memory.
pub struct Site {
    slot: Slot,
    /// Memory for the next reply, kept from call to call.
    room: Vec<u8>,
}

impl Site {
    /// Opens a site with nothing stored, under the schema that JSON describes.
    ///
    /// `name` goes into the site's stamps: no site that exchanges with it, directly or not, has or had this name.
    ///
    /// # Errors
    ///
    /// - 2: the name is not 1 to 32 ASCII letters, digits, `-`, `_` and `.`.
    /// - 20 to 25: the bytes are not a schema.
    /// - 1: out of memory.
    pub fn open(schema: impl AsRef<[u8]>, name: &str) -> Result<Site, Error> {
        let schema = schema.as_ref();
        let mut slot = Slot { is_open: false, address: std::ptr::null_mut() };
        // SAFETY: the slot is zeroed; the pointers and lengths are those of slices, which the slot does not overlap.
        let code = unsafe { weirbowl_open(&mut slot, schema.as_ptr(), schema.len(), name.as_ptr(), name.len()) };
        match code {
            0 => Ok(Site { slot, room: vec![0; ROOM] }),
            1 => Err(Error::out_of_memory()),
            code => Err(Error { status: 422, code, place: None, within: None }),
        }
    }

    /// Makes a call, and returns the body of its reply.
    fn call(&mut self, call: impl FnOnce(&mut Slot, *mut u8, usize) -> CallResult) -> Result<&[u8], Error> {
        let result = call(&mut self.slot, self.room.as_mut_ptr(), self.room.len());
        if self.room.len() < result.length {
            self.room.resize(result.length, 0);
            // SAFETY: the slot is this site's, borrowed mutably; the pointer and the length are those of `room`.
            unsafe { weirbowl_last_body(&mut self.slot, self.room.as_mut_ptr(), self.room.len()) };
        }
        let body = &self.room[..result.length];
        if result.status == 200 {
            Ok(body)
        } else {
            Err(Error::read(result.status, body))
        }
    }

    /// Decides a request: its JSON, as [`request`] writes it.
    ///
    /// # Errors
    ///
    /// - 63: the JSON is not a request under the schema.
    /// - 1: out of memory.
    pub fn authorize(&mut self, request: impl AsRef<[u8]>) -> Result<Answer, Error> {
        let request = request.as_ref();
        // SAFETY: the slot is this site's, borrowed mutably; the pointers and lengths are those of slices.
        let body = self
            .call(|site, out, room| unsafe { weirbowl_authorize(site, request.as_ptr(), request.len(), out, room) })?;
        Ok(Answer::read(body))
    }

    /// Puts a policy under an id, in place of the one that is there.
    ///
    /// # Errors
    ///
    /// In this order:
    ///
    /// - 10 to 19: the id or the text is not a policy's.
    /// - 40 to 46: the policy does not pass validation under the schema.
    /// - 62: no stamp is left.
    /// - 1: out of memory, at any point.
    pub fn put_policy(&mut self, id: &str, text: &str) -> Result<Put, Error> {
        // SAFETY: as in `authorize`.
        let body = self.call(|site, out, room| unsafe {
            weirbowl_put_policy(site, id.as_ptr(), id.len(), text.as_ptr(), text.len(), out, room)
        })?;
        let line = Json::read(body);
        Ok(Put { stamp: Stamp::of(&line), impossible: *line.get("impossible") == Json::Boolean(true) })
    }

    /// Looks up the policy of an id; returns `None` if there is none.
    ///
    /// # Errors
    ///
    /// - 1: out of memory.
    pub fn get_policy(&mut self, id: &str) -> Result<Option<Found>, Error> {
        // SAFETY: as in `authorize`.
        let found = self.call(|site, out, room| unsafe { weirbowl_get_policy(site, id.as_ptr(), id.len(), out, room) });
        match found {
            Ok(body) => {
                let line = Json::read(body);
                Ok(Some(Found { text: line.get("text").text(), stamp: Stamp::of(&line) }))
            }
            Err(error) if error.kind() == Some(Code::SiteNotThere) => Ok(None),
            Err(error) => Err(error),
        }
    }

    /// Deletes the policy of an id.
    ///
    /// # Errors
    ///
    /// - 60: there is none.
    /// - 62: no stamp is left.
    /// - 1: out of memory, at any point.
    pub fn delete_policy(&mut self, id: &str) -> Result<Stamp, Error> {
        // SAFETY: as in `authorize`.
        let body =
            self.call(|site, out, room| unsafe { weirbowl_delete_policy(site, id.as_ptr(), id.len(), out, room) })?;
        Ok(Stamp::of(&Json::read(body)))
    }

    /// Puts an entity: its JSON.
    ///
    /// # Errors
    ///
    /// In this order:
    ///
    /// - 30 to 38: the JSON is not an entity under the schema.
    /// - 61: the entity would be its own ancestor.
    /// - 62: no stamp is left.
    /// - 1: out of memory, at any point.
    pub fn put_entity(&mut self, entity: impl AsRef<[u8]>) -> Result<Stamp, Error> {
        let entity = entity.as_ref();
        // SAFETY: as in `authorize`.
        let body = self
            .call(|site, out, room| unsafe { weirbowl_put_entity(site, entity.as_ptr(), entity.len(), out, room) })?;
        Ok(Stamp::of(&Json::read(body)))
    }

    /// Deletes the entity of a uid.
    ///
    /// # Errors
    ///
    /// - 30: the type is not the name of a type.
    /// - 60: there is no such entity.
    /// - 62: no stamp is left.
    /// - 1: out of memory, at any point.
    pub fn delete_entity(&mut self, uid: &Uid) -> Result<Stamp, Error> {
        let uid = uid.to_json();
        // SAFETY: as in `authorize`.
        let body =
            self.call(|site, out, room| unsafe { weirbowl_delete_entity(site, uid.as_ptr(), uid.len(), out, room) })?;
        Ok(Stamp::of(&Json::read(body)))
    }

    /// Returns the state, as a message to other sites of the schema.
    ///
    /// # Errors
    ///
    /// - 1: out of memory.
    pub fn state(&mut self) -> Result<Vec<u8>, Error> {
        // SAFETY: as in `authorize`.
        self.call(|site, out, room| unsafe { weirbowl_state(site, out, room) }).map(<[u8]>::to_vec)
    }

    /// Returns the summary: the names of the store with their stamps, for [`Site::delta`] of another site.
    ///
    /// # Errors
    ///
    /// - 1: out of memory.
    pub fn summary(&mut self) -> Result<Vec<u8>, Error> {
        // SAFETY: as in `authorize`.
        self.call(|site, out, room| unsafe { weirbowl_summary(site, out, room) }).map(<[u8]>::to_vec)
    }

    /// Returns a delta: the entries that the site of a summary is missing.
    ///
    /// # Errors
    ///
    /// - 50 to 54: the bytes are not a summary under this schema.
    /// - 1: out of memory.
    pub fn delta(&mut self, summary: &[u8]) -> Result<Vec<u8>, Error> {
        // SAFETY: as in `authorize`.
        self.call(|site, out, room| unsafe { weirbowl_delta(site, summary.as_ptr(), summary.len(), out, room) })
            .map(<[u8]>::to_vec)
    }

    /// Applies the updates of a state or a delta, and returns how many it has.
    ///
    /// # Errors
    ///
    /// - 50 to 57: the bytes are not a message under this schema; nothing is applied.
    /// - 1: out of memory; `place` counts the updates that were applied.
    pub fn merge(&mut self, message: &[u8]) -> Result<u64, Error> {
        // SAFETY: as in `authorize`.
        let body =
            self.call(|site, out, room| unsafe { weirbowl_merge(site, message.as_ptr(), message.len(), out, room) })?;
        Ok(Json::read(body).get("taken").number().unwrap_or(0))
    }
}

impl Drop for Site {
    fn drop(&mut self) {
        // SAFETY: as in `authorize`.
        unsafe { weirbowl_close(&mut self.slot) };
    }
}

/// Makes a call without a site, again if its reply is longer than the memory for it. Returns the status and the body.
fn text_call(call: impl Fn(*mut u8, usize) -> CallResult) -> (u32, Vec<u8>) {
    let mut room = vec![0; ROOM];
    loop {
        let result = call(room.as_mut_ptr(), room.len());
        if result.length <= room.len() {
            room.truncate(result.length);
            return (result.status, room);
        }
        room.resize(result.length, 0);
    }
}

fn answer_of(status: u32, body: &[u8]) -> Result<Answer, Error> {
    if status == 200 {
        Ok(Answer::read(body))
    } else {
        Err(Error::read(status, body))
    }
}

/// Decides a request over texts of policies and entities, without a schema.
///
/// # Errors
///
/// - 10 to 19: the text is not a file of policies.
/// - 30: the JSON is not an array of entities, or not a request.
/// - 1: out of memory.
pub fn decide(
    policies: impl AsRef<[u8]>,
    entities: impl AsRef<[u8]>,
    request: impl AsRef<[u8]>,
) -> Result<Answer, Error> {
    let (p, e, r) = (policies.as_ref(), entities.as_ref(), request.as_ref());
    // SAFETY: the pointers and lengths are those of slices.
    let (status, body) = text_call(|out, room| unsafe {
        weirbowl_decide(p.as_ptr(), p.len(), e.as_ptr(), e.len(), r.as_ptr(), r.len(), out, room)
    });
    answer_of(status, &body)
}

/// Decides a request over texts of policies and entities, under a schema.
///
/// # Errors
///
/// In this order:
///
/// - 20 to 25: the bytes are not a schema.
/// - 10 to 19: the text is not a file of policies.
/// - 40 to 46: a policy does not pass validation.
/// - 30 to 39: the JSON is not an array of entities under the schema, or not a request.
/// - 1: out of memory, at any point.
pub fn decide_under(
    schema: impl AsRef<[u8]>,
    policies: impl AsRef<[u8]>,
    entities: impl AsRef<[u8]>,
    request: impl AsRef<[u8]>,
) -> Result<Answer, Error> {
    let (s, p, e, r) = (schema.as_ref(), policies.as_ref(), entities.as_ref(), request.as_ref());
    // SAFETY: the pointers and lengths are those of slices.
    let (status, body) = text_call(|out, room| unsafe {
        weirbowl_decide_under(
            s.as_ptr(),
            s.len(),
            p.as_ptr(),
            p.len(),
            e.as_ptr(),
            e.len(),
            r.as_ptr(),
            r.len(),
            out,
            room,
        )
    });
    answer_of(status, &body)
}

/// Validates a file of policies under a schema. Returns the id and the verdict of each policy, in the file's order.
///
/// # Errors
///
/// - 20 to 25: the bytes are not a schema.
/// - 10 to 19: the text is not a file of policies.
/// - 1: out of memory, at any point.
pub fn check(schema: impl AsRef<[u8]>, policies: impl AsRef<[u8]>) -> Result<Vec<(String, Verdict)>, Error> {
    let (s, p) = (schema.as_ref(), policies.as_ref());
    // SAFETY: the pointers and lengths are those of slices.
    let (status, body) =
        text_call(|out, room| unsafe { weirbowl_check(s.as_ptr(), s.len(), p.as_ptr(), p.len(), out, room) });
    if status == 503 || body.starts_with(b"{\"error\"") {
        return Err(Error::read(status, &body));
    }
    Ok(body.split(|byte| *byte == b'\n').filter(|line| !line.is_empty()).map(Verdict::read).collect())
}

/// Explains what is rejected in these texts: an explanation of each error, with the line, the column and an excerpt, or the
/// JSON pointer. It is empty if and only if nothing is rejected.
///
/// # Errors
///
/// - 1: out of memory.
pub fn explain(
    schema: impl AsRef<[u8]>,
    policies: impl AsRef<[u8]>,
    entities: impl AsRef<[u8]>,
    request: impl AsRef<[u8]>,
) -> Result<String, Error> {
    let (s, p, e, r) = (schema.as_ref(), policies.as_ref(), entities.as_ref(), request.as_ref());
    // SAFETY: the pointers and lengths are those of slices.
    let (status, body) = text_call(|out, room| unsafe {
        weirbowl_explain(
            s.as_ptr(),
            s.len(),
            p.as_ptr(),
            p.len(),
            e.as_ptr(),
            e.len(),
            r.as_ptr(),
            r.len(),
            out,
            room,
        )
    });
    match status {
        200 => Ok(String::from_utf8_lossy(&body).into_owned()),
        _ => Err(Error::read(status, &body)),
    }
}
