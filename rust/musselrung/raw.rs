//! The functions of libmusselrung.a as they are exported: a structure is passed as its parts, and a slice as a pointer and
//! a length. `tests/header` holds these lines to the library's source and to include/musselrung.h.

extern "C" {
    pub fn musselrung_count(
        trace: *const u16,
        references: u64,
        policy: u32,
        k: u64,
        hits: *mut u32,
        room: u64,
        place: *mut u64,
    ) -> u32;
    pub fn musselrung_list(
        trace: *const u16,
        references: u64,
        policy: u32,
        k: u64,
        t: u64,
        places: *mut [u16; 64],
        length: *mut u64,
    ) -> u32;
    pub fn musselrung_read(
        file: *const u8,
        length: u64,
        capacities: *mut [u16; 64],
        references: *mut [u16; 4096],
        counts: *mut [u64; 2],
        place: *mut u64,
    ) -> u32;
    pub fn musselrung_report(file: *const u8, length: u64, out: *mut [u8; 2880]) -> u64;

    pub fn musselrung_session_start_parts(
        wanted: u32,
        limit: u64,
        policy: *mut u8,
        k: *mut u64,
        length: *mut u64,
        references: *mut u64,
        places: *mut [u32; 64],
        depths: *mut [u32; 65],
        counts: *mut [u16; 1024],
    ) -> u32;
    pub fn musselrung_session_refer_parts(
        policy: u8,
        k: u64,
        length: *mut u64,
        references: *mut u64,
        places: *mut [u32; 64],
        depths: *mut [u32; 65],
        counts: *mut [u16; 1024],
        page: u32,
        value: *mut u64,
    ) -> u32;
    pub fn musselrung_session_list_parts(
        policy: u8,
        k: u64,
        length: u64,
        references: u64,
        places: *const [u32; 64],
        shown: *mut [u16; 64],
        value: *mut u64,
    ) -> u32;
    pub fn musselrung_session_references_parts(
        policy: u8,
        k: u64,
        length: u64,
        references: u64,
        value: *mut u64,
    ) -> u32;
    pub fn musselrung_session_hits_parts(
        policy: u8,
        k: u64,
        length: u64,
        references: u64,
        depths: *const [u32; 65],
        capacity: u64,
        value: *mut u64,
    ) -> u32;
    pub fn musselrung_session_misses_parts(
        policy: u8,
        k: u64,
        length: u64,
        references: u64,
        depths: *const [u32; 65],
        capacity: u64,
        value: *mut u64,
    ) -> u32;
    pub fn musselrung_session_sound_parts(
        policy: u8,
        k: u64,
        length: u64,
        references: u64,
        places: *const [u32; 64],
        depths: *const [u32; 65],
        counts: *const [u16; 1024],
    ) -> u32;

    pub fn musselrung_row_fresh_parts(
        slots: *mut [u8; 64],
        places: *mut [u8; 64],
        states: *mut [u8; 64],
        front: *mut u64,
        held: *mut u64,
    );
    pub fn musselrung_row_put_parts(
        slots: *mut [u8; 64],
        places: *mut [u8; 64],
        states: *mut [u8; 64],
        front: *mut u64,
        held: *mut u64,
        frame: u32,
        value: *mut u64,
    ) -> u32;
    pub fn musselrung_row_touch_parts(
        slots: *mut [u8; 64],
        places: *mut [u8; 64],
        states: *mut [u8; 64],
        front: *mut u64,
        held: *mut u64,
        frame: u32,
        value: *mut u64,
    ) -> u32;
    pub fn musselrung_row_start_parts(
        slots: *mut [u8; 64],
        places: *mut [u8; 64],
        states: *mut [u8; 64],
        front: *mut u64,
        held: *mut u64,
        frame: u32,
        value: *mut u64,
    ) -> u32;
    pub fn musselrung_row_end_parts(
        slots: *mut [u8; 64],
        places: *mut [u8; 64],
        states: *mut [u8; 64],
        front: *mut u64,
        held: *mut u64,
        frame: u32,
        value: *mut u64,
    ) -> u32;
    pub fn musselrung_row_drop_parts(
        slots: *mut [u8; 64],
        places: *mut [u8; 64],
        states: *mut [u8; 64],
        front: *mut u64,
        held: *mut u64,
        frame: u32,
        value: *mut u64,
    ) -> u32;
    pub fn musselrung_row_victim_parts(
        slots: *const [u8; 64],
        places: *const [u8; 64],
        states: *const [u8; 64],
        front: u64,
        held: u64,
        value: *mut u64,
    ) -> u32;
    pub fn musselrung_row_sound_parts(
        slots: *const [u8; 64],
        places: *const [u8; 64],
        states: *const [u8; 64],
        front: u64,
        held: u64,
    ) -> u32;

    pub fn musselrung_banks_fresh_parts(
        slots: *mut [u8; 64],
        places: *mut [u8; 64],
        states: *mut [u8; 64],
        front: *mut u64,
        held: *mut u64,
        gates: *mut [u8; 64],
    );
    pub fn musselrung_banks_put_parts(
        slots: *mut [u8; 64],
        places: *mut [u8; 64],
        states: *mut [u8; 64],
        front: *mut u64,
        held: *mut u64,
        gates: *const [u8; 64],
        frame: u32,
        value: *mut u64,
    ) -> u32;
    pub fn musselrung_banks_touch_parts(
        slots: *mut [u8; 64],
        places: *mut [u8; 64],
        states: *mut [u8; 64],
        front: *mut u64,
        held: *mut u64,
        gates: *const [u8; 64],
        frame: u32,
        value: *mut u64,
    ) -> u32;
    pub fn musselrung_banks_start_parts(
        slots: *mut [u8; 64],
        places: *mut [u8; 64],
        states: *mut [u8; 64],
        front: *mut u64,
        held: *mut u64,
        gates: *const [u8; 64],
        frame: u32,
        value: *mut u64,
    ) -> u32;
    pub fn musselrung_banks_end_parts(
        slots: *mut [u8; 64],
        places: *mut [u8; 64],
        states: *mut [u8; 64],
        front: *mut u64,
        held: *mut u64,
        gates: *const [u8; 64],
        frame: u32,
        value: *mut u64,
    ) -> u32;
    pub fn musselrung_banks_drop_parts(
        slots: *mut [u8; 64],
        places: *mut [u8; 64],
        states: *mut [u8; 64],
        front: *mut u64,
        held: *mut u64,
        gates: *const [u8; 64],
        frame: u32,
        value: *mut u64,
    ) -> u32;
    pub fn musselrung_banks_close_parts(
        slots: *mut [u8; 64],
        places: *mut [u8; 64],
        states: *mut [u8; 64],
        front: *mut u64,
        held: *mut u64,
        gates: *mut [u8; 64],
        bank: u32,
        value: *mut u64,
    ) -> u32;
    pub fn musselrung_banks_cut_parts(
        slots: *mut [u8; 64],
        places: *mut [u8; 64],
        states: *mut [u8; 64],
        front: *mut u64,
        held: *mut u64,
        gates: *mut [u8; 64],
        bank: u32,
        value: *mut u64,
    ) -> u32;
    pub fn musselrung_banks_open_parts(
        slots: *mut [u8; 64],
        places: *mut [u8; 64],
        states: *mut [u8; 64],
        front: *mut u64,
        held: *mut u64,
        gates: *mut [u8; 64],
        bank: u32,
        value: *mut u64,
    ) -> u32;
    pub fn musselrung_banks_victim_parts(
        slots: *const [u8; 64],
        places: *const [u8; 64],
        states: *const [u8; 64],
        front: u64,
        held: u64,
        gates: *const [u8; 64],
        value: *mut u64,
    ) -> u32;
    pub fn musselrung_banks_sound_parts(
        slots: *const [u8; 64],
        places: *const [u8; 64],
        states: *const [u8; 64],
        front: u64,
        held: u64,
        gates: *const [u8; 64],
    ) -> u32;
}
