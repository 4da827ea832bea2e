//! The boundary's functions, as include/tagshards.h declares them. tests/header.rs compares the two.

#[rustfmt::skip]
extern "C" {
    pub fn tagshards_start(
        lows: *mut u64, lows_count: usize,
        owners: *mut u64, owners_count: usize,
        keys: *const u64, keys_count: usize,
        slots: *mut u64, slots_count: usize,
        lens: *const u64, lens_count: usize,
        values: *const u8, values_count: usize,
        name_lens: *mut u64, name_lens_count: usize,
        names: *mut u8, names_count: usize,
        counts: *mut u64, counts_count: usize,
        places: *mut u64, places_count: usize,
        mail: *const u8, mail_count: usize,
        room: *const u8, room_count: usize,
        numbers: *mut u64, numbers_count: usize,
        width: usize,
        size: usize,
        ats: *const u64, ats_count: usize,
        address_lens: *const u64, address_lens_count: usize,
        bytes: *const u8, bytes_count: usize,
        n: usize,
        me: *const u8, me_count: usize,
    ) -> u64;

    pub fn tagshards_receive(
        lows: *const u64, lows_count: usize,
        owners: *const u64, owners_count: usize,
        keys: *const u64, keys_count: usize,
        slots: *const u64, slots_count: usize,
        name_lens: *mut u64, name_lens_count: usize,
        names: *mut u8, names_count: usize,
        counts: *mut u64, counts_count: usize,
        places: *mut u64, places_count: usize,
        room: *mut u8, room_count: usize,
        numbers: *mut u64, numbers_count: usize,
        from: *const u8, from_count: usize,
        datagram: *const u8, datagram_count: usize,
        ack: *mut u8, ack_count: usize,
    ) -> u64;

    pub fn tagshards_process(
        lows: *mut u64, lows_count: usize,
        owners: *mut u64, owners_count: usize,
        keys: *mut u64, keys_count: usize,
        slots: *mut u64, slots_count: usize,
        lens: *mut u64, lens_count: usize,
        values: *mut u8, values_count: usize,
        name_lens: *const u64, name_lens_count: usize,
        names: *const u8, names_count: usize,
        counts: *mut u64, counts_count: usize,
        places: *mut u64, places_count: usize,
        mail: *mut u8, mail_count: usize,
        room: *const u8, room_count: usize,
        numbers: *mut u64, numbers_count: usize,
    ) -> u64;

    pub fn tagshards_retransmit(
        counts: *const u64, counts_count: usize,
        places: *const u64, places_count: usize,
        numbers: *const u64, numbers_count: usize,
        out: *mut u64, out_count: usize,
    ) -> u64;

    pub fn tagshards_turn(
        lows: *mut u64, lows_count: usize,
        owners: *mut u64, owners_count: usize,
        keys: *mut u64, keys_count: usize,
        slots: *mut u64, slots_count: usize,
        lens: *mut u64, lens_count: usize,
        values: *mut u8, values_count: usize,
        name_lens: *mut u64, name_lens_count: usize,
        names: *mut u8, names_count: usize,
        counts: *mut u64, counts_count: usize,
        places: *mut u64, places_count: usize,
        mail: *mut u8, mail_count: usize,
        room: *mut u8, room_count: usize,
        numbers: *mut u64, numbers_count: usize,
        arrived: bool,
        from: *const u8, from_count: usize,
        datagram: *const u8, datagram_count: usize,
        ack: *mut u8, ack_count: usize,
        out: *mut u64, out_count: usize,
    ) -> u64;

    pub fn tagshards_audit(
        lows: *const u64, lows_count: usize,
        owners: *const u64, owners_count: usize,
        keys: *const u64, keys_count: usize,
        slots: *const u64, slots_count: usize,
        lens: *const u64, lens_count: usize,
        values: *const u8, values_count: usize,
        name_lens: *const u64, name_lens_count: usize,
        names: *const u8, names_count: usize,
        counts: *const u64, counts_count: usize,
        places: *const u64, places_count: usize,
        mail: *const u8, mail_count: usize,
        room: *const u8, room_count: usize,
        numbers: *const u64, numbers_count: usize,
    ) -> u64;
}
