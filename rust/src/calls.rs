// SPDX-License-Identifier: MIT OR Apache-2.0
//! The functions of kat.h. Each of a command takes texts by their first byte and length, then the memory for the output, its
//! room, and the place for the length of the whole output.

extern "C" {
    pub fn kat_version() -> u32;
    pub fn kat_decide(text: *const u8, length: usize, out: *mut u8, room: usize, needed: *mut usize) -> u8;
    pub fn kat_decide_json(text: *const u8, length: usize, out: *mut u8, room: usize, needed: *mut usize) -> u8;
    pub fn kat_batch(text: *const u8, length: usize, out: *mut u8, room: usize, needed: *mut usize) -> u8;
    pub fn kat_show(text: *const u8, length: usize, out: *mut u8, room: usize, needed: *mut usize) -> u8;
    pub fn kat_gkat(text: *const u8, length: usize, out: *mut u8, room: usize, needed: *mut usize) -> u8;
    pub fn kat_flow(text: *const u8, length: usize, out: *mut u8, room: usize, needed: *mut usize) -> u8;
    pub fn kat_outline(text: *const u8, length: usize, out: *mut u8, room: usize, needed: *mut usize) -> u8;
    pub fn kat_check(
        text: *const u8, length: usize, evidence: *const u8, evidence_length: usize,
        out: *mut u8, room: usize, needed: *mut usize,
    ) -> u8;
    pub fn kat_replay(
        text: *const u8, length: usize, evidence: *const u8, evidence_length: usize,
        out: *mut u8, room: usize, needed: *mut usize,
    ) -> u8;
    pub fn kat_explain(
        text: *const u8, length: usize, evidence: *const u8, evidence_length: usize,
        out: *mut u8, room: usize, needed: *mut usize,
    ) -> u8;
    pub fn kat_chain(
        text: *const u8, length: usize, proof: *const u8, proof_length: usize,
        out: *mut u8, room: usize, needed: *mut usize,
    ) -> u8;
    pub fn kat_outline_check(
        text: *const u8, length: usize, notes: *const u8, notes_length: usize,
        out: *mut u8, room: usize, needed: *mut usize,
    ) -> u8;
    pub fn kat_oneloop(
        text: *const u8, length: usize, prog: *const u8, prog_length: usize,
        out: *mut u8, room: usize, needed: *mut usize,
    ) -> u8;
    pub fn kat_try(
        text: *const u8, length: usize, turns: u64, out: *mut u8, room: usize, needed: *mut usize,
    ) -> u8;
    pub fn kat_try_with(
        text: *const u8, length: usize, turns: u64, evidence: *const u8, evidence_length: usize,
        out: *mut u8, room: usize, needed: *mut usize,
    ) -> u8;
    pub fn kat_run(
        text: *const u8, length: usize, prog: *const u8, prog_length: usize,
        store: *const u8, store_length: usize, turns: u64,
        out: *mut u8, room: usize, needed: *mut usize,
    ) -> u8;
    pub fn kat_optimise(
        text: *const u8, length: usize, prog: *const u8, prog_length: usize, turns: u64,
        out: *mut u8, room: usize, needed: *mut usize,
    ) -> u8;
}
