//! The C functions, on slices, each with its C name without `ghj_` and with C's number as its result.
//!
//! Each takes any bytes and any numbers; `include/ghjalvestru.h` says what it answers. The rest of the crate is made from
//! these; they are public for a caller who wants to lend the buffer.

#![allow(unsafe_code)]

/// How many bytes a session's challenge has.
pub const CHALLENGE: usize = 16;
/// How many bytes an access record has.
pub const ACCESS: usize = 5;
/// How many bytes a channel's two settings have: an access record each.
pub const SETTINGS: usize = 2 * ACCESS;
/// How many bytes a collector holds.
pub const CAPACITY: usize = 1024;
/// How many parts a collector holds.
pub const PARTS: usize = 64;
/// How many bytes a collector knows of its parts: the lowest unheard index, [`PARTS`] where all were heard; 1 where the list is
/// complete, else 0. A collector with others than a search finds is refused.
pub const KNOWN: usize = 2;
/// How many bytes [`tagged_step`] writes of a record.
pub const TAGGED: usize = 32;
/// How many bytes [`tagged_listing`] writes for each record.
pub const LISTED: usize = 5;

/// Set in a number that is a refusal.
pub const REFUSED: u64 = 1 << 63;
/// Nothing has this number, or there is none left; not a refusal, and nothing is written. No length or count is as large.
pub const NONE: u64 = 1 << 62;
/// Added to the lowest unheard index by [`collector_status`]. No length or count is as large.
pub const MISSING: u64 = 1 << 61;

/// Functions from bytes to bytes.
macro_rules! from_bytes {
    ($($(#[$doc:meta])* $name:ident = $symbol:ident;)*) => {
        unsafe extern "C" {
            $(fn $symbol(given: *const u8, given_length: usize, out: *mut u8, out_length: usize) -> u64;)*
        }
        $(
            $(#[$doc])*
            pub fn $name(given: &[u8], out: &mut [u8]) -> u64 {
                // SAFETY: each pointer goes with its slice's length; `out` is lent to this call alone. Nothing else is
                // read or written, whatever the bytes are.
                unsafe { $symbol(given.as_ptr(), given.len(), out.as_mut_ptr(), out.len()) }
            }
        )*
    };
}

from_bytes! {
    /// Reads a request of Set Channel Access.
    set_access = ghj_set_access;
    /// Reads a response of Get Channel Access.
    access = ghj_access;
    /// Reads a response of Get Channel Info.
    info = ghj_info;
    /// Reads a response of Get Channel Authentication Capabilities.
    capabilities = ghj_capabilities;
    /// Reads a response of Get Session Challenge.
    challenge = ghj_challenge;
    /// Reads a response of Activate Session; the type's byte and the level's count by their low nibble.
    activation = ghj_activation;
    /// Reads a response of Get Channel Cipher Suites, as the crate ipmi-rs-core does.
    suites = ghj_suites;
    /// Reads a response of Get Channel Cipher Suites by suite: the channel's number in a byte, then the part of the list.
    by_suite = ghj_by_suite;
    /// The numbers of the suites of a whole list.
    suite_numbers = ghj_suite_numbers;
    /// The suite numbers of a list that is read strictly, a byte for each record.
    tagged_numbers = ghj_tagged_numbers;
    /// The same with whose suites they are, [`LISTED`] bytes for each record.
    tagged_listing = ghj_tagged_listing;
    /// The numbers of algorithm bytes.
    tagged_algorithms = ghj_tagged_algorithms;
}

/// Functions from numbers to bytes.
macro_rules! from_numbers {
    ($($(#[$doc:meta])* $name:ident($($number:ident),*) = $symbol:ident;)*) => {
        unsafe extern "C" {
            $(fn $symbol($($number: u8,)* out: *mut u8, out_length: usize) -> u64;)*
        }
        $(
            $(#[$doc])*
            pub fn $name($($number: u8,)* out: &mut [u8]) -> u64 {
                // SAFETY: the pointer goes with its slice's length, and `out` is lent to this call alone. Nothing else is
                // written, whatever the numbers are.
                unsafe { $symbol($($number,)* out.as_mut_ptr(), out.len()) }
            }
        )*
    };
}

from_numbers! {
    /// The data of Get Channel Access; the kind is 1 for non-volatile, 2 for volatile.
    access_request(channel, kind) = ghj_access_request;
    /// The data of Get Channel Info.
    info_request(channel) = ghj_info_request;
    /// The data of Get Channel Authentication Capabilities; [`NONE`] where the level's whole number names none.
    capabilities_request(channel, privilege) = ghj_capabilities_request;
    /// The data of Get Channel Cipher Suites, as the crate ipmi-rs-core has them.
    suites_request(channel, index) = ghj_suites_request;
    /// The data of Get Channel Cipher Suites by suite.
    by_suite_request(channel, index) = ghj_by_suite_request;
    /// The text of a channel.
    channel_text(channel) = ghj_channel_text;
    /// The text of an access mode.
    mode_text(mode) = ghj_mode_text;
    /// The text of a channel's privilege limit.
    limit_text(limit) = ghj_limit_text;
    /// The text of a medium.
    medium_text(medium) = ghj_medium_text;
    /// The text of a protocol.
    protocol_text(protocol) = ghj_protocol_text;
    /// The text of a session support.
    session_support_text(support) = ghj_session_support_text;
    /// The name of an authentication type; [`NONE`] where the whole number names none.
    auth_type_name(auth_type) = ghj_auth_type_name;
    /// The three algorithms of a suite.
    suite_algorithms(suite) = ghj_suite_algorithms;
}

unsafe extern "C" {
    fn ghj_set_access_request(
        channel: u8,
        mode_pair: u8,
        limit_pair: u8,
        access: &[u8; ACCESS],
        out: *mut u8,
        out_length: usize,
    ) -> u64;
    fn ghj_set_access_apply(
        mode_pair: u8,
        limit_pair: u8,
        access: &[u8; ACCESS],
        settings: &[u8; SETTINGS],
        out: *mut u8,
        out_length: usize,
    ) -> u64;
    fn ghj_challenge_request(
        auth_type: u8,
        name: *const u8,
        name_length: usize,
        out: *mut u8,
        out_length: usize,
    ) -> u64;
    fn ghj_activation_request(
        auth_type: u8,
        privilege: u8,
        challenge: &[u8; CHALLENGE],
        sequence: u32,
        out: *mut u8,
        out_length: usize,
    ) -> u64;
    safe fn ghj_best_auth(key: u8, md5: u8, md2: u8, none: u8) -> u64;
    safe fn ghj_compare_strength(auth_type: u8, other: u8) -> u64;
    safe fn ghj_suite_of(authentication: u8, integrity: u8, confidentiality: u8) -> u64;
    fn ghj_suite_step(
        list: *const u8,
        list_length: usize,
        position: &mut usize,
        failed: &mut u8,
    ) -> u64;
}

/// The data of Set Channel Access; a pair is 0 for leave, 1 for non-volatile, 2 for volatile.
pub fn set_access_request(
    channel: u8,
    mode_pair: u8,
    limit_pair: u8,
    access: &[u8; ACCESS],
    out: &mut [u8],
) -> u64 {
    let (start, length) = (out.as_mut_ptr(), out.len());
    // SAFETY: the pointer goes with its slice's length, and `out` is lent to this call alone.
    unsafe { ghj_set_access_request(channel, mode_pair, limit_pair, access, start, length) }
}

/// A channel's two settings, non-volatile and volatile, after Set Channel Access.
pub fn set_access_apply(
    mode_pair: u8,
    limit_pair: u8,
    access: &[u8; ACCESS],
    settings: &[u8; SETTINGS],
    out: &mut [u8],
) -> u64 {
    let (start, length) = (out.as_mut_ptr(), out.len());
    // SAFETY: as for the data.
    unsafe { ghj_set_access_apply(mode_pair, limit_pair, access, settings, start, length) }
}

/// The data of Get Session Challenge; [`NONE`] where the type's whole number names none.
pub fn challenge_request(auth_type: u8, name: &[u8], out: &mut [u8]) -> u64 {
    // SAFETY: each pointer goes with its slice's length, and `out` is lent to this call alone.
    unsafe {
        ghj_challenge_request(
            auth_type,
            name.as_ptr(),
            name.len(),
            out.as_mut_ptr(),
            out.len(),
        )
    }
}

/// The data of Activate Session; [`NONE`] where the whole number of the type or of the level names none.
pub fn activation_request(
    auth_type: u8,
    privilege: u8,
    challenge: &[u8; CHALLENGE],
    sequence: u32,
    out: &mut [u8],
) -> u64 {
    let (start, length) = (out.as_mut_ptr(), out.len());
    // SAFETY: the pointer goes with its slice's length, and `out` is lent to this call alone.
    unsafe { ghj_activation_request(auth_type, privilege, challenge, sequence, start, length) }
}

/// The strongest of the authentication types that are offered: 0 is not offered.
#[must_use]
pub fn best_auth(key: u8, md5: u8, md2: u8, none: u8) -> u64 {
    ghj_best_auth(key, md5, md2, none)
}

/// 0 where the first is weaker, 1 where they are equal, 2 where it is stronger; [`NONE`] where a whole number names no type.
#[must_use]
pub fn compare_strength(auth_type: u8, other: u8) -> u64 {
    ghj_compare_strength(auth_type, other)
}

/// The suite of three algorithms.
#[must_use]
pub fn suite_of(authentication: u8, integrity: u8, confidentiality: u8) -> u64 {
    ghj_suite_of(authentication, integrity, confidentiality)
}

/// One step of the reading of a list.
pub fn suite_step(list: &[u8], position: &mut usize, failed: &mut u8) -> u64 {
    // SAFETY: the pointer goes with its slice's length; the references are C's to use for this call. Any position is
    // allowed, one past the end too.
    unsafe { ghj_suite_step(list.as_ptr(), list.len(), position, failed) }
}

unsafe extern "C" {
    fn ghj_tagged_step(
        list: *const u8,
        list_length: usize,
        position: usize,
        out: *mut u8,
        out_length: usize,
    ) -> u64;
    fn ghj_tagged_count(list: *const u8, list_length: usize) -> u64;
    fn ghj_tagged_write(
        owner: u8,
        vendor: u32,
        number: u8,
        authentication: u8,
        integrity: *const u8,
        integrity_length: usize,
        confidentiality: *const u8,
        confidentiality_length: usize,
        out: *mut u8,
        out_length: usize,
    ) -> u64;
}

/// The record at a position of a list that is read strictly; 0 at its end or past it.
pub fn tagged_step(list: &[u8], position: usize, out: &mut [u8]) -> u64 {
    let (start, length) = (out.as_mut_ptr(), out.len());
    // SAFETY: each pointer goes with its slice's length, and `out` is lent to this call alone. Any position is allowed, one
    // past the end too.
    unsafe { ghj_tagged_step(list.as_ptr(), list.len(), position, start, length) }
}

/// How many records a list has that is read strictly.
#[must_use]
pub fn tagged_count(list: &[u8]) -> u64 {
    // SAFETY: the pointer goes with its slice's length.
    unsafe { ghj_tagged_count(list.as_ptr(), list.len()) }
}

/// The bytes of a record; the owner is 0 for a standard suite, with the vendor 0, and 1 for a vendor's own.
pub fn tagged_write(
    owner: u8,
    vendor: u32,
    number: u8,
    authentication: u8,
    integrity: &[u8],
    confidentiality: &[u8],
    out: &mut [u8],
) -> u64 {
    // SAFETY: each pointer goes with its slice's length, and `out` is lent to this call alone.
    unsafe {
        ghj_tagged_write(
            owner,
            vendor,
            number,
            authentication,
            integrity.as_ptr(),
            integrity.len(),
            confidentiality.as_ptr(),
            confidentiality.len(),
            out.as_mut_ptr(),
            out.len(),
        )
    }
}

unsafe extern "C" {
    fn ghj_collector_answer(
        bytes: &mut [u8; CAPACITY],
        marks: &mut [u8; PARTS],
        known: &mut [u8; KNOWN],
        index: u8,
        response: *const u8,
        response_length: usize,
    ) -> u64;
    fn ghj_collector_take(
        collector: &mut Lent,
        index: u8,
        response: *const u8,
        response_length: usize,
    ) -> u64;
    safe fn ghj_collector_status(
        bytes: &[u8; CAPACITY],
        marks: &[u8; PARTS],
        known: &[u8; KNOWN],
    ) -> u64;
    fn ghj_collector_list(
        bytes: &[u8; CAPACITY],
        marks: &[u8; PARTS],
        known: &[u8; KNOWN],
        out: *mut u8,
        out_length: usize,
    ) -> u64;
    fn ghj_collector_suites(
        bytes: &[u8; CAPACITY],
        marks: &[u8; PARTS],
        known: &[u8; KNOWN],
        out: *mut u8,
        out_length: usize,
    ) -> u64;
}

/// The answer to an index, for a collector.
pub fn collector_answer(
    bytes: &mut [u8; CAPACITY],
    marks: &mut [u8; PARTS],
    known: &mut [u8; KNOWN],
    index: u8,
    response: &[u8],
) -> u64 {
    let (start, length) = (response.as_ptr(), response.len());
    // SAFETY: the pointer goes with its slice's length; the references are C's to use for this call.
    unsafe { ghj_collector_answer(bytes, marks, known, index, start, length) }
}

/// A collector as C has it, for [`collector_take`].
#[repr(C)]
#[derive(Clone, Copy, Debug, PartialEq, Eq)]
pub struct Lent {
    /// What was heard, zeros elsewhere.
    pub bytes: [u8; CAPACITY],
    /// One more than each part's length; 0 where it was not heard.
    pub marks: [u8; PARTS],
    /// The lowest unheard index; [`PARTS`] where all were heard.
    pub lowest: u8,
    /// 1 where the list is complete, else 0.
    pub complete: u8,
}

// As in C, without holes.
const _: () = assert!(size_of::<Lent>() == CAPACITY + PARTS + KNOWN);

/// The same as [`collector_answer`], the collector lent whole: by copies, so slower.
pub fn collector_take(collector: &mut Lent, index: u8, response: &[u8]) -> u64 {
    // SAFETY: as for the answer; the struct is laid out as in C.
    unsafe { ghj_collector_take(collector, index, response.as_ptr(), response.len()) }
}

/// Whether a collector is complete.
#[must_use]
pub fn collector_status(bytes: &[u8; CAPACITY], marks: &[u8; PARTS], known: &[u8; KNOWN]) -> u64 {
    ghj_collector_status(bytes, marks, known)
}

/// The list of a collector.
pub fn collector_list(
    bytes: &[u8; CAPACITY],
    marks: &[u8; PARTS],
    known: &[u8; KNOWN],
    out: &mut [u8],
) -> u64 {
    // SAFETY: the pointer goes with its slice's length, and `out` is lent to this call alone.
    unsafe { ghj_collector_list(bytes, marks, known, out.as_mut_ptr(), out.len()) }
}

/// The numbers of the suites of a collector's list.
pub fn collector_suites(
    bytes: &[u8; CAPACITY],
    marks: &[u8; PARTS],
    known: &[u8; KNOWN],
    out: &mut [u8],
) -> u64 {
    // SAFETY: as for the list.
    unsafe { ghj_collector_suites(bytes, marks, known, out.as_mut_ptr(), out.len()) }
}

unsafe extern "C" {
    safe fn ghj_channel_collector_from(channel: u8) -> u64;
    fn ghj_channel_collector_answer(
        channel: u8,
        from: &mut u8,
        bytes: &mut [u8; CAPACITY],
        marks: &mut [u8; PARTS],
        known: &mut [u8; KNOWN],
        index: u8,
        response: *const u8,
        response_length: usize,
    ) -> u64;
    safe fn ghj_channel_collector_status(
        channel: u8,
        from: u8,
        bytes: &[u8; CAPACITY],
        marks: &[u8; PARTS],
        known: &[u8; KNOWN],
    ) -> u64;
    fn ghj_channel_collector_list(
        channel: u8,
        from: u8,
        bytes: &[u8; CAPACITY],
        marks: &[u8; PARTS],
        known: &[u8; KNOWN],
        out: *mut u8,
        out_length: usize,
    ) -> u64;
    fn ghj_channel_collector_suites(
        channel: u8,
        from: u8,
        bytes: &[u8; CAPACITY],
        marks: &[u8; PARTS],
        known: &[u8; KNOWN],
        out: *mut u8,
        out_length: usize,
    ) -> u64;
}

/// What a fresh collector for a channel has as `from`: one more than the number of the channel that it takes answers from, 0
/// for Current.
#[must_use]
pub fn channel_collector_from(channel: u8) -> u64 {
    ghj_channel_collector_from(channel)
}

/// The answer to an index, its channel first, for a collector that was made for a channel.
pub fn channel_collector_answer(
    channel: u8,
    from: &mut u8,
    bytes: &mut [u8; CAPACITY],
    marks: &mut [u8; PARTS],
    known: &mut [u8; KNOWN],
    index: u8,
    response: &[u8],
) -> u64 {
    let (start, length) = (response.as_ptr(), response.len());
    // SAFETY: as for the collector's answer.
    unsafe {
        ghj_channel_collector_answer(channel, from, bytes, marks, known, index, start, length)
    }
}

/// Whether such a collector is complete.
#[must_use]
pub fn channel_collector_status(
    channel: u8,
    from: u8,
    bytes: &[u8; CAPACITY],
    marks: &[u8; PARTS],
    known: &[u8; KNOWN],
) -> u64 {
    ghj_channel_collector_status(channel, from, bytes, marks, known)
}

/// The list of such a collector.
pub fn channel_collector_list(
    channel: u8,
    from: u8,
    bytes: &[u8; CAPACITY],
    marks: &[u8; PARTS],
    known: &[u8; KNOWN],
    out: &mut [u8],
) -> u64 {
    let (start, length) = (out.as_mut_ptr(), out.len());
    // SAFETY: the pointer goes with its slice's length, and `out` is lent to this call alone.
    unsafe { ghj_channel_collector_list(channel, from, bytes, marks, known, start, length) }
}

/// The numbers of the suites of such a collector's list.
pub fn channel_collector_suites(
    channel: u8,
    from: u8,
    bytes: &[u8; CAPACITY],
    marks: &[u8; PARTS],
    known: &[u8; KNOWN],
    out: &mut [u8],
) -> u64 {
    let (start, length) = (out.as_mut_ptr(), out.len());
    // SAFETY: as for the list.
    unsafe { ghj_channel_collector_suites(channel, from, bytes, marks, known, start, length) }
}
