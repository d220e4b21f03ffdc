//! The functions of the archive, as rigtemple.h declares them: the sixteen calls over the parts of a
//! configuration. `beliefs` and `goals` point to 32 bytes each, `plan` to 1,024, `remaining` to 128.

extern "C" {
    pub fn rigtemple_4_check_parts(card: *const u8, card_len: usize) -> u16;

    pub fn rigtemple_4_load_parts(
        card: *const u8,
        card_len: usize,
        beliefs: *mut u8,
        goals: *mut u8,
        plan: *mut u8,
        length: *mut u16,
        phase: *mut u8,
        finished: *mut u16,
    ) -> u16;

    pub fn rigtemple_4_grade_parts(
        card: *const u8,
        card_len: usize,
        verdict: *mut u8,
        offender: *mut u8,
        number: *mut u16,
    ) -> u16;

    pub fn rigtemple_4_list_parts(
        card: *const u8,
        card_len: usize,
        beliefs: *const u8,
        goals: *const u8,
        plan: *const u8,
        length: u16,
        phase: u8,
        finished: u16,
        list: *mut u16,
        room_in_entries: usize,
        entries: *mut u16,
    ) -> u16;

    pub fn rigtemple_4_list_looks_parts(
        card: *const u8,
        card_len: usize,
        beliefs: *const u8,
        goals: *const u8,
        plan: *const u8,
        length: u16,
        phase: u8,
        finished: u16,
        list: *mut u16,
        room_in_entries: usize,
        entries: *mut u16,
        judged: *mut u16,
        open_goals: *mut u16,
    ) -> u16;

    pub fn rigtemple_4_next_parts(
        card: *const u8,
        card_len: usize,
        beliefs: *const u8,
        goals: *const u8,
        plan: *const u8,
        length: u16,
        phase: u8,
        finished: u16,
        coming: *mut u8,
        choice: *mut u16,
    ) -> u16;

    pub fn rigtemple_4_take_parts(
        card: *const u8,
        card_len: usize,
        beliefs: *mut u8,
        goals: *mut u8,
        plan: *mut u8,
        length: *mut u16,
        phase: *mut u8,
        finished: *mut u16,
        choice: u16,
        node: *mut u16,
    ) -> u16;

    pub fn rigtemple_4_run_parts(
        card: *const u8,
        card_len: usize,
        beliefs: *mut u8,
        goals: *mut u8,
        plan: *mut u8,
        length: *mut u16,
        phase: *mut u8,
        finished: *mut u16,
        budget: u16,
        moves: *mut u16,
        ending: *mut u8,
    ) -> u16;

    pub fn rigtemple_4_take_bounded_parts(
        card: *const u8,
        card_len: usize,
        beliefs: *mut u8,
        goals: *mut u8,
        plan: *mut u8,
        length: *mut u16,
        phase: *mut u8,
        finished: *mut u16,
        choice: u16,
        node: *mut u16,
    ) -> u16;

    pub fn rigtemple_4_run_bounded_parts(
        card: *const u8,
        card_len: usize,
        beliefs: *mut u8,
        goals: *mut u8,
        plan: *mut u8,
        length: *mut u16,
        phase: *mut u8,
        finished: *mut u16,
        budget: u16,
        moves: *mut u16,
        ending: *mut u8,
    ) -> u16;

    pub fn rigtemple_4_deliberate_parts(
        card: *const u8,
        card_len: usize,
        program: *const u8,
        program_len: usize,
        beliefs: *mut u8,
        goals: *mut u8,
        plan: *mut u8,
        length: *mut u16,
        phase: *mut u8,
        finished: *mut u16,
        budget: u16,
        moves: *mut u16,
        ending: *mut u8,
        remaining: *mut u8,
        remaining_length: *mut u8,
    ) -> u16;

    pub fn rigtemple_4_go_on_parts(
        card: *const u8,
        card_len: usize,
        program: *const u8,
        program_len: usize,
        numbers: *const u8,
        numbers_len: usize,
        beliefs: *mut u8,
        goals: *mut u8,
        plan: *mut u8,
        length: *mut u16,
        phase: *mut u8,
        finished: *mut u16,
        budget: u16,
        moves: *mut u16,
        ending: *mut u8,
        remaining: *mut u8,
        remaining_length: *mut u8,
    ) -> u16;

    pub fn rigtemple_4_save_parts(
        card: *const u8,
        card_len: usize,
        beliefs: *const u8,
        goals: *const u8,
        plan: *const u8,
        length: u16,
        phase: u8,
        finished: u16,
        place: *mut u8,
        room_in_bytes: usize,
        bytes: *mut u16,
    ) -> u16;

    pub fn rigtemple_4_restore_parts(
        card: *const u8,
        card_len: usize,
        place: *const u8,
        place_len: usize,
        beliefs: *mut u8,
        goals: *mut u8,
        plan: *mut u8,
        length: *mut u16,
        phase: *mut u8,
        finished: *mut u16,
    ) -> u16;

    pub fn rigtemple_4_text_parts(
        text: *const u8,
        text_len: usize,
        card: *mut u8,
        room_in_bytes: usize,
        bytes: *mut u16,
        place: *mut usize,
    ) -> u16;

    pub fn rigtemple_4_print_parts(
        card: *const u8,
        card_len: usize,
        node: u16,
        text: *mut u8,
        room_in_bytes: usize,
        bytes: *mut u16,
    ) -> u16;

    pub fn rigtemple_4_name_parts(
        card: *const u8,
        card_len: usize,
        shed: *const u8,
        shed_len: usize,
        master: *const u8,
        master_len: usize,
        action: u16,
        sheet: *mut u8,
        start: *mut u16,
        length: *mut u16,
    ) -> u16;
}
