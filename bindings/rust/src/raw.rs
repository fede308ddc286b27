//! The functions as the static library has them; bindings/check-header holds this file to crates/embed_c.

/// What is answered: number 0 where nothing is refused, and then up to three values; or a refusal's number, side and place.
#[repr(C)]
#[derive(Clone, Copy, Debug, PartialEq, Eq)]
pub struct Answer {
    pub number: u16,
    pub side: u16,
    pub place: usize,
    pub first: usize,
    pub second: usize,
    pub third: usize,
}

extern "C" {
    pub fn baranduk_read(
        text: *const u8,
        text_len: usize,
        marks: *mut u16,
        marks_len: usize,
        rules: *mut u16,
        rules_len: usize,
    ) -> Answer;

    pub fn baranduk_write(
        symbols: u16,
        marks: *const u16,
        marks_len: usize,
        rules: *const u16,
        rules_len: usize,
        text: *mut u8,
        text_len: usize,
    ) -> Answer;

    pub fn baranduk_compile(
        text: *const u8,
        text_len: usize,
        marks: *mut u16,
        marks_len: usize,
        rules: *mut u16,
        rules_len: usize,
    ) -> Answer;

    pub fn baranduk_check(symbols: u16, marks: *const u16, marks_len: usize, rules: *const u16, rules_len: usize) -> Answer;

    pub fn baranduk_check_receiver(
        symbols: u16,
        marks: *const u16,
        marks_len: usize,
        rules: *const u16,
        rules_len: usize,
    ) -> Answer;

    pub fn baranduk_accept(
        symbols: u16,
        marks: *const u16,
        marks_len: usize,
        rules: *const u16,
        rules_len: usize,
        nodes: *const u16,
        nodes_len: usize,
    ) -> Answer;

    pub fn baranduk_include(
        sender_symbols: u16,
        sender_marks: *const u16,
        sender_marks_len: usize,
        sender_rules: *const u16,
        sender_rules_len: usize,
        receiver_symbols: u16,
        receiver_marks: *const u16,
        receiver_marks_len: usize,
        receiver_rules: *const u16,
        receiver_rules_len: usize,
        witness: *mut u16,
        witness_len: usize,
    ) -> Answer;
}
