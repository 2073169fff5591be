//! The functions of `include/kerdzhusi.h` as they are. A slice is a pointer and then a length.

/// `kz_answer`.
#[derive(Clone, Copy)]
#[repr(C)]
pub struct Answer {
    pub status: u64,
    pub value: u64,
}

extern "C" {
    pub fn kz_judge(
        library: *const u8,
        library_len: usize,
        user: *const u8,
        user_len: usize,
        used: usize,
        verdicts: *mut u8,
        verdicts_len: usize,
        scratch: *mut u8,
        scratch_len: usize,
    ) -> Answer;

    pub fn kz_add(
        library: *const u8,
        library_len: usize,
        user: *mut u8,
        user_len: usize,
        used: *mut usize,
        group: *const u8,
        group_len: usize,
        verdicts: *mut u8,
        verdicts_len: usize,
        scratch: *mut u8,
        scratch_len: usize,
    ) -> Answer;

    pub fn kz_replace(
        library: *const u8,
        library_len: usize,
        user: *mut u8,
        user_len: usize,
        used: *mut usize,
        class_number: usize,
        group: *const u8,
        group_len: usize,
        verdicts: *mut u8,
        verdicts_len: usize,
        scratch: *mut u8,
        scratch_len: usize,
    ) -> Answer;

    pub fn kz_withdraw(
        library: *const u8,
        library_len: usize,
        user: *mut u8,
        user_len: usize,
        used: *mut usize,
        verdicts: *mut u8,
        verdicts_len: usize,
    ) -> Answer;

    pub fn kz_canonical(
        library: *const u8,
        library_len: usize,
        user: *const u8,
        user_len: usize,
        used: usize,
        out: *mut u8,
        out_len: usize,
    ) -> Answer;

    pub fn kz_index(
        library: *const u8,
        library_len: usize,
        user: *const u8,
        user_len: usize,
        used: usize,
        places: *mut u16,
        places_len: usize,
    ) -> Answer;

    pub fn kz_lookup(
        library: *const u8,
        library_len: usize,
        user: *const u8,
        user_len: usize,
        used: usize,
        name: *const u8,
        name_len: usize,
        places: *mut u16,
        places_len: usize,
    ) -> Answer;

    pub fn kz_fingerprint(name: *const u8, name_len: usize) -> Answer;

    pub fn kz_name(
        library: *const u8,
        library_len: usize,
        user: *const u8,
        user_len: usize,
        used: usize,
        class_number: usize,
    ) -> Answer;

    pub fn kz_marks(
        library: *const u8,
        library_len: usize,
        user: *const u8,
        user_len: usize,
        used: usize,
        class_number: usize,
    ) -> Answer;
}
