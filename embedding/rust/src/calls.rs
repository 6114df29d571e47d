//! The functions of `include/weirbowl.h`.

/// A slot for a site. All zeros is a slot in which no site is open.
#[repr(C)]
pub(crate) struct Slot {
    pub(crate) is_open: bool,
    pub(crate) address: *mut u8,
}

/// What a call returns.
#[repr(C)]
#[derive(Clone, Copy)]
pub(crate) struct CallResult {
    pub(crate) status: u32,
    pub(crate) length: usize,
}

#[rustfmt::skip]
unsafe extern "C" {
    pub(crate) fn weirbowl_open(site: *mut Slot, schema: *const u8, schema_length: usize, name: *const u8, name_length: usize) -> u32;
    pub(crate) fn weirbowl_close(site: *mut Slot) -> bool;
    pub(crate) fn weirbowl_last_body(site: *mut Slot, out: *mut u8, out_length: usize) -> CallResult;
    pub(crate) fn weirbowl_authorize(site: *mut Slot, request: *const u8, request_length: usize, out: *mut u8, out_length: usize) -> CallResult;
    pub(crate) fn weirbowl_put_policy(site: *mut Slot, id: *const u8, id_length: usize, text: *const u8, text_length: usize, out: *mut u8, out_length: usize) -> CallResult;
    pub(crate) fn weirbowl_get_policy(site: *mut Slot, id: *const u8, id_length: usize, out: *mut u8, out_length: usize) -> CallResult;
    pub(crate) fn weirbowl_delete_policy(site: *mut Slot, id: *const u8, id_length: usize, out: *mut u8, out_length: usize) -> CallResult;
    pub(crate) fn weirbowl_put_entity(site: *mut Slot, entity: *const u8, entity_length: usize, out: *mut u8, out_length: usize) -> CallResult;
    pub(crate) fn weirbowl_delete_entity(site: *mut Slot, uid: *const u8, uid_length: usize, out: *mut u8, out_length: usize) -> CallResult;
    pub(crate) fn weirbowl_state(site: *mut Slot, out: *mut u8, out_length: usize) -> CallResult;
    pub(crate) fn weirbowl_summary(site: *mut Slot, out: *mut u8, out_length: usize) -> CallResult;
    pub(crate) fn weirbowl_delta(site: *mut Slot, summary: *const u8, summary_length: usize, out: *mut u8, out_length: usize) -> CallResult;
    pub(crate) fn weirbowl_merge(site: *mut Slot, message: *const u8, message_length: usize, out: *mut u8, out_length: usize) -> CallResult;
    pub(crate) fn weirbowl_decide(policies: *const u8, policies_length: usize, entities: *const u8, entities_length: usize, request: *const u8, request_length: usize, out: *mut u8, out_length: usize) -> CallResult;
    pub(crate) fn weirbowl_decide_under(schema: *const u8, schema_length: usize, policies: *const u8, policies_length: usize, entities: *const u8, entities_length: usize, request: *const u8, request_length: usize, out: *mut u8, out_length: usize) -> CallResult;
    pub(crate) fn weirbowl_check(schema: *const u8, schema_length: usize, policies: *const u8, policies_length: usize, out: *mut u8, out_length: usize) -> CallResult;
    pub(crate) fn weirbowl_explain(schema: *const u8, schema_length: usize, policies: *const u8, policies_length: usize, entities: *const u8, entities_length: usize, request: *const u8, request_length: usize, out: *mut u8, out_length: usize) -> CallResult;
}
