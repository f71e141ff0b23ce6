//! The port's C functions, as include/ghjalvestru.h has them.

use crate::plain::{Plain, CAPACITY, KNOWN, PARTS};

extern "C" {
    pub fn ghj_access(response: *const u8, length: usize, out: *mut u8, room: usize) -> u64;
    pub fn ghj_info(response: *const u8, length: usize, out: *mut u8, room: usize) -> u64;
    pub fn ghj_capabilities(response: *const u8, length: usize, out: *mut u8, room: usize) -> u64;
    pub fn ghj_challenge(response: *const u8, length: usize, out: *mut u8, room: usize) -> u64;
    pub fn ghj_activation(response: *const u8, length: usize, out: *mut u8, room: usize) -> u64;
    pub fn ghj_suites(response: *const u8, length: usize, out: *mut u8, room: usize) -> u64;
    pub fn ghj_suite_numbers(list: *const u8, length: usize, out: *mut u8, room: usize) -> u64;
    pub fn ghj_tagged_numbers(list: *const u8, length: usize, out: *mut u8, room: usize) -> u64;
    pub fn ghj_tagged_listing(list: *const u8, length: usize, out: *mut u8, room: usize) -> u64;
    pub fn ghj_tagged_step(
        list: *const u8,
        length: usize,
        position: usize,
        out: *mut u8,
        room: usize,
    ) -> u64;
    pub fn ghj_collector_answer(
        bytes: *mut [u8; CAPACITY],
        marks: *mut [u8; PARTS],
        known: *mut [u8; KNOWN],
        index: u8,
        response: *const u8,
        length: usize,
    ) -> u64;
    pub fn ghj_collector_take(
        collector: *mut Plain,
        index: u8,
        response: *const u8,
        length: usize,
    ) -> u64;
    pub fn ghj_channel_collector_answer(
        channel: u8,
        from: *mut u8,
        bytes: *mut [u8; CAPACITY],
        marks: *mut [u8; PARTS],
        known: *mut [u8; KNOWN],
        index: u8,
        response: *const u8,
        length: usize,
    ) -> u64;
    pub fn ghj_collector_status(
        bytes: *const [u8; CAPACITY],
        marks: *const [u8; PARTS],
        known: *const [u8; KNOWN],
    ) -> u64;
}
