//! The functions that the static library exports, behind safe ones.

use std::os::raw::c_uint;

extern "C" {
    fn nagzelud_check_rule(
        sig: *const u8,
        sig_len: usize,
        rule: *const u8,
        rule_len: usize,
    ) -> c_uint;
    fn nagzelud_check_group(
        sig: *const u8,
        sig_len: usize,
        group: *const u8,
        group_len: usize,
    ) -> c_uint;
    fn nagzelud_scope(
        sig: *const u8,
        sig_len: usize,
        group: *const u8,
        group_len: usize,
        position: usize,
    ) -> ScopeAnswer;
    fn nagzelud_flatten(
        sig: *const u8,
        sig_len: usize,
        rule: *const u8,
        rule_len: usize,
        out: *mut u8,
        room: usize,
    ) -> FlattenAnswer;
}

/// `struct nagzelud_scope_answer` of host/nagzelud.h.
#[repr(C)]
#[derive(Clone, Copy, Debug, Default, PartialEq, Eq)]
pub struct ScopeAnswer {
    pub refused: c_uint,
    pub kind: c_uint,
    pub model: usize,
    pub offset: usize,
    pub count: usize,
}

/// `struct nagzelud_flatten_answer` of host/nagzelud.h.
#[repr(C)]
#[derive(Clone, Copy, Debug, PartialEq, Eq)]
pub struct FlattenAnswer {
    pub refused: c_uint,
    pub written: usize,
}

/// 0 where the signature and the rule are sound, else the refusal's number.
pub fn check_rule(signature: &[u8], rule: &[u8]) -> u32 {
    // The pointers and lengths are those of two slices, which are only read.
    unsafe {
        nagzelud_check_rule(
            signature.as_ptr(),
            signature.len(),
            rule.as_ptr(),
            rule.len(),
        )
    }
}

/// The same for a group.
pub fn check_group(signature: &[u8], group: &[u8]) -> u32 {
    // As above.
    unsafe {
        nagzelud_check_group(
            signature.as_ptr(),
            signature.len(),
            group.as_ptr(),
            group.len(),
        )
    }
}

/// Which model owns the rule at a position.
pub fn scope(signature: &[u8], group: &[u8], position: usize) -> ScopeAnswer {
    // As above.
    unsafe {
        nagzelud_scope(
            signature.as_ptr(),
            signature.len(),
            group.as_ptr(),
            group.len(),
            position,
        )
    }
}

/// Flattens a rule into a buffer.
pub fn flatten(signature: &[u8], rule: &[u8], out: &mut [u8]) -> FlattenAnswer {
    // As above; the third slice is this call's alone.
    unsafe {
        nagzelud_flatten(
            signature.as_ptr(),
            signature.len(),
            rule.as_ptr(),
            rule.len(),
            out.as_mut_ptr(),
            out.len(),
        )
    }
}
