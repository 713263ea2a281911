//! The calls of the static library as they are: numbers, and slices. Every one takes any numbers, words and bytes, and
//! a refusal changes nothing. `include/pannuqreik.h` says what each does; the numbers of the answers are below.

/// Done, or going.
pub const DONE: u64 = 0;
/// What Full prints.
pub const FULL: u64 = 5;
/// Yes; for check: sound.
pub const YES: u64 = 16;
/// No; for check: not sound.
pub const NO: u64 = 17;
/// How many words a record has. Zeros are an idle record.
pub const RECORD_WORDS: usize = 11;
/// How many words a table has for each slot.
pub const SLOT_WORDS: usize = 2;
/// The fewest slots of a table.
pub const FEWEST_SLOTS: usize = 2;
/// The most slots of a table.
pub const MOST_SLOTS: usize = 1024;
/// The fewest words of a table.
pub const FEWEST_WORDS: usize = words_for(FEWEST_SLOTS);
/// The most words of a table.
pub const MOST_WORDS: usize = words_for(MOST_SLOTS);

/// How many words a table of so many slots has. One of the slots is the root.
pub const fn words_for(slots: usize) -> usize {
    SLOT_WORDS * slots
}

mod c {
    extern "C" {
        pub fn pannuqreik_fresh(words: *mut u64, n: usize) -> u64;
        pub fn pannuqreik_check(words: *const u64, n: usize) -> u64;
        pub fn pannuqreik_list(
            words: *const u64,
            n: usize,
            low: u64,
            high: u64,
            out: *mut u64,
            room: usize,
            count: *mut u64,
        ) -> u64;
        pub fn pannuqreik_first(words: *const u64, n: usize, from: u64, key: *mut u64) -> u64;
        pub fn pannuqreik_sweep(words: *mut u64, n: usize) -> u64;
        pub fn pannuqreik_start_lookup(words: *mut u64, n: usize, record: *mut u64, m: usize, key: u64) -> u64;
        pub fn pannuqreik_start_insert(words: *mut u64, n: usize, record: *mut u64, m: usize, key: u64) -> u64;
        pub fn pannuqreik_start_remove(words: *mut u64, n: usize, record: *mut u64, m: usize, key: u64) -> u64;
        pub fn pannuqreik_step(words: *mut u64, n: usize, record: *mut u64, m: usize) -> u64;
        pub fn pannuqreik_withdraw(words: *mut u64, n: usize, record: *mut u64, m: usize) -> u64;
        pub fn pannuqreik_pack(fields: *const u64, key: *mut u64) -> u64;
        pub fn pannuqreik_unpack(key: u64, fields: *mut u64);
        pub fn pannuqreik_legal(key: u64) -> bool;
        pub fn pannuqreik_read_text(block: *const u8, n: usize, place: usize, length: usize, fields: *mut u64) -> u64;
        pub fn pannuqreik_write_text(buffer: *mut u8, n: usize, place: usize, key: u64) -> u64;
        pub fn pannuqreik_read_sub_second(block: *const u8, n: usize, place: usize, length: usize, hundredths: *mut u64) -> u64;
    }
}

// SAFETY, for each call below: the pointers are those of references that live over the call, the lengths are theirs, and
// Rust lets no two of them overlap where one is `&mut`. The library keeps no pointer.

pub fn fresh(words: &mut [u64]) -> u64 {
    unsafe { c::pannuqreik_fresh(words.as_mut_ptr(), words.len()) }
}

pub fn check(words: &[u64]) -> u64 {
    unsafe { c::pannuqreik_check(words.as_ptr(), words.len()) }
}

pub fn list(words: &[u64], low: u64, high: u64, out: &mut [u64], count: &mut u64) -> u64 {
    unsafe { c::pannuqreik_list(words.as_ptr(), words.len(), low, high, out.as_mut_ptr(), out.len(), count) }
}

pub fn first(words: &[u64], from: u64, key: &mut u64) -> u64 {
    unsafe { c::pannuqreik_first(words.as_ptr(), words.len(), from, key) }
}

pub fn sweep(words: &mut [u64]) -> u64 {
    unsafe { c::pannuqreik_sweep(words.as_mut_ptr(), words.len()) }
}

pub fn start_lookup(words: &mut [u64], record: &mut [u64], key: u64) -> u64 {
    unsafe { c::pannuqreik_start_lookup(words.as_mut_ptr(), words.len(), record.as_mut_ptr(), record.len(), key) }
}

pub fn start_insert(words: &mut [u64], record: &mut [u64], key: u64) -> u64 {
    unsafe { c::pannuqreik_start_insert(words.as_mut_ptr(), words.len(), record.as_mut_ptr(), record.len(), key) }
}

pub fn start_remove(words: &mut [u64], record: &mut [u64], key: u64) -> u64 {
    unsafe { c::pannuqreik_start_remove(words.as_mut_ptr(), words.len(), record.as_mut_ptr(), record.len(), key) }
}

pub fn step(words: &mut [u64], record: &mut [u64]) -> u64 {
    unsafe { c::pannuqreik_step(words.as_mut_ptr(), words.len(), record.as_mut_ptr(), record.len()) }
}

pub fn withdraw(words: &mut [u64], record: &mut [u64]) -> u64 {
    unsafe { c::pannuqreik_withdraw(words.as_mut_ptr(), words.len(), record.as_mut_ptr(), record.len()) }
}

pub fn pack(fields: &[u64; 9], key: &mut u64) -> u64 {
    unsafe { c::pannuqreik_pack(fields.as_ptr(), key) }
}

pub fn unpack(key: u64, fields: &mut [u64; 9]) {
    unsafe { c::pannuqreik_unpack(key, fields.as_mut_ptr()) }
}

pub fn legal(key: u64) -> bool {
    unsafe { c::pannuqreik_legal(key) }
}

pub fn read_text(block: &[u8], place: usize, length: usize, fields: &mut [u64; 6]) -> u64 {
    unsafe { c::pannuqreik_read_text(block.as_ptr(), block.len(), place, length, fields.as_mut_ptr()) }
}

pub fn write_text(buffer: &mut [u8], place: usize, key: u64) -> u64 {
    unsafe { c::pannuqreik_write_text(buffer.as_mut_ptr(), buffer.len(), place, key) }
}

pub fn read_sub_second(block: &[u8], place: usize, length: usize, hundredths: &mut u64) -> u64 {
    unsafe { c::pannuqreik_read_sub_second(block.as_ptr(), block.len(), place, length, hundredths) }
}
