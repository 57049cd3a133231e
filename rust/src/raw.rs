//! The functions of `include/jeulgopae.h`, as they are.
use crate::station::Counters;

/// `JEULGOPAE_CARRIED_OUT`: no refusal, and no reply.
pub const CARRIED_OUT: i32 = -15;
/// `JEULGOPAE_NOT_THIS`: 13, from which the place in the frame is taken.
pub const NOT_THIS: i32 = -130_000;

extern "C" {
    pub fn jeulgopae_mewtocol_station(
        words: *mut u16,
        words_count: usize,
        attributes: *const u8,
        attributes_count: usize,
        profile: u32,
        own: u32,
        frame: *const u8,
        frame_count: usize,
        room: *mut u8,
        room_count: usize,
    ) -> i32;
    pub fn jeulgopae_rtu_station(
        words: *mut u16,
        words_count: usize,
        attributes: *const u8,
        attributes_count: usize,
        profile: u32,
        own: u32,
        frame: *const u8,
        frame_count: usize,
        room: *mut u8,
        room_count: usize,
        counters: *mut Counters,
    ) -> i32;
    pub fn jeulgopae_ascii_station(
        words: *mut u16,
        words_count: usize,
        attributes: *const u8,
        attributes_count: usize,
        profile: u32,
        own: u32,
        frame: *const u8,
        frame_count: usize,
        room: *mut u8,
        room_count: usize,
        counters: *mut Counters,
    ) -> i32;
    pub fn jeulgopae_mewtocol_write(
        station: u32,
        form: u32,
        command: u32,
        first: u32,
        second: u32,
        value: u32,
        contacts: *const u32,
        contacts_count: usize,
        values: *const u8,
        values_count: usize,
        words: *const u16,
        words_count: usize,
        room: *mut u8,
        room_count: usize,
    ) -> i32;
    pub fn jeulgopae_mewtocol_read(
        station: u32,
        form: u32,
        command: u32,
        first: u32,
        second: u32,
        value: u32,
        contacts: *const u32,
        contacts_count: usize,
        values: *const u8,
        values_count: usize,
        words: *const u16,
        words_count: usize,
        frame: *const u8,
        frame_count: usize,
    ) -> i32;
    pub fn jeulgopae_data_word(part: *const u8, part_count: usize, i: u32) -> i32;
    pub fn jeulgopae_data_contact(part: *const u8, part_count: usize, i: usize) -> i32;
    pub fn jeulgopae_laser_read(frame: *const u8, frame_count: usize) -> i32;
    pub fn jeulgopae_laser_write(
        first: u8,
        second: u8,
        bytes: *const u8,
        bytes_count: usize,
        room: *mut u8,
        room_count: usize,
    ) -> i32;
    pub fn jeulgopae_laser_distance(frame: *const u8, frame_count: usize) -> i32;
    pub fn jeulgopae_register_address(number: u32) -> i32;
    pub fn jeulgopae_register_number(address: u32) -> i32;
    pub fn jeulgopae_coil_address(number: u32) -> i32;
    pub fn jeulgopae_coil_number(address: u32) -> i32;
    pub fn jeulgopae_meeting(
        attributes: *const u8,
        attributes_count: usize,
        profile: u32,
        one_format: u32,
        one_own: u32,
        one_frame: *const u8,
        one_count: usize,
        other_format: u32,
        other_own: u32,
        other_frame: *const u8,
        other_count: usize,
    ) -> i32;
    pub fn jeulgopae_pair_value(low: u16, high: u16) -> i32;
    pub fn jeulgopae_pair_low(value: i32) -> i32;
    pub fn jeulgopae_pair_high(value: i32) -> i32;
    pub fn jeulgopae_catalogue_fill(
        file: *const u8,
        file_count: usize,
        name: *const u8,
        name_count: usize,
        attributes: *mut u8,
        attributes_count: usize,
    ) -> i32;
    pub fn jeulgopae_bits_differing(
        a: *const u8,
        a_count: usize,
        b: *const u8,
        b_count: usize,
    ) -> i32;
    pub fn jeulgopae_crc(bytes: *const u8, bytes_count: usize) -> i32;
}
