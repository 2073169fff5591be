//! The proved verifier of class sheets for Rust: the functions of `include/kerdzhusi.h` over
//! slices. That header says what each call asks, refuses and leaves in its buffers.

mod answers;
pub mod raw;

pub use answers::{verdicts, Counts, Part, Refusal, Verdict};

/// The bytes of a verdict: rule, record number, class in which the fault sits.
pub const VERDICT_BYTES: usize = 3;
/// The bytes of scratch that `judge`, `add` and `replace` ask for, and zero.
pub const SCRATCH_BYTES: usize = 65_536;
/// The most bytes of a sheet.
pub const SHEET_BYTES: usize = 32_768;
/// The places of an index: `index` and `lookup` ask for them and fill them.
pub const INDEX_PLACES: usize = 512;

// Each call below is sound for the same reason: a pointer and a length come from one slice, a
// slice that is written is borrowed by nothing else, and the library reads and writes within them.

/// Judges every user class.
pub fn judge(
    library: &[u8],
    user: &[u8],
    used: usize,
    verdicts: &mut [u8],
    scratch: &mut [u8],
) -> Result<Counts, Refusal> {
    let answer = unsafe {
        raw::kz_judge(
            library.as_ptr(),
            library.len(),
            user.as_ptr(),
            user.len(),
            used,
            verdicts.as_mut_ptr(),
            verdicts.len(),
            scratch.as_mut_ptr(),
            scratch.len(),
        )
    };
    answer.accepted().map(Counts::from_value)
}

/// Adds a class after the last one and gives back its number.
pub fn add(
    library: &[u8],
    user: &mut [u8],
    used: &mut usize,
    group: &[u8],
    verdicts: &mut [u8],
    scratch: &mut [u8],
) -> Result<usize, Refusal> {
    let answer = unsafe {
        raw::kz_add(
            library.as_ptr(),
            library.len(),
            user.as_mut_ptr(),
            user.len(),
            used,
            group.as_ptr(),
            group.len(),
            verdicts.as_mut_ptr(),
            verdicts.len(),
            scratch.as_mut_ptr(),
            scratch.len(),
        )
    };
    answer.accepted().map(|value| value as usize)
}

/// Puts a group in the place of a user class and gives back how many classes depend on it, itself
/// counted.
pub fn replace(
    library: &[u8],
    user: &mut [u8],
    used: &mut usize,
    class: usize,
    group: &[u8],
    verdicts: &mut [u8],
    scratch: &mut [u8],
) -> Result<usize, Refusal> {
    let answer = unsafe {
        raw::kz_replace(
            library.as_ptr(),
            library.len(),
            user.as_mut_ptr(),
            user.len(),
            used,
            class,
            group.as_ptr(),
            group.len(),
            verdicts.as_mut_ptr(),
            verdicts.len(),
            scratch.as_mut_ptr(),
            scratch.len(),
        )
    };
    answer.accepted().map(|value| value as usize)
}

/// Takes the last user class out and gives back its number.
pub fn withdraw(
    library: &[u8],
    user: &mut [u8],
    used: &mut usize,
    verdicts: &mut [u8],
) -> Result<usize, Refusal> {
    let answer = unsafe {
        raw::kz_withdraw(
            library.as_ptr(),
            library.len(),
            user.as_mut_ptr(),
            user.len(),
            used,
            verdicts.as_mut_ptr(),
            verdicts.len(),
        )
    };
    answer.accepted().map(|value| value as usize)
}

/// Writes the user sheet in canonical form and gives back its length.
pub fn canonical(
    library: &[u8],
    user: &[u8],
    used: usize,
    out: &mut [u8],
) -> Result<usize, Refusal> {
    let answer = unsafe {
        raw::kz_canonical(
            library.as_ptr(),
            library.len(),
            user.as_ptr(),
            user.len(),
            used,
            out.as_mut_ptr(),
            out.len(),
        )
    };
    answer.accepted().map(|value| value as usize)
}

/// Fills an index of the class names of both sheets and gives back how many entered. Each of its
/// places holds a class number, or 65,535 where it is empty.
pub fn index(
    library: &[u8],
    user: &[u8],
    used: usize,
    places: &mut [u16],
) -> Result<usize, Refusal> {
    let answer = unsafe {
        raw::kz_index(
            library.as_ptr(),
            library.len(),
            user.as_ptr(),
            user.len(),
            used,
            places.as_mut_ptr(),
            places.len(),
        )
    };
    answer.accepted().map(|value| value as usize)
}

/// Gives back the number of the class with a name, and fills the index as `index` does.
pub fn lookup(
    library: &[u8],
    user: &[u8],
    used: usize,
    name: &[u8],
    places: &mut [u16],
) -> Result<usize, Refusal> {
    let answer = unsafe {
        raw::kz_lookup(
            library.as_ptr(),
            library.len(),
            user.as_ptr(),
            user.len(),
            used,
            name.as_ptr(),
            name.len(),
            places.as_mut_ptr(),
            places.len(),
        )
    };
    answer.accepted().map(|value| value as usize)
}

/// The fingerprint of a name, 32-bit FNV-1a.
pub fn fingerprint(name: &[u8]) -> u32 {
    let answer = unsafe { raw::kz_fingerprint(name.as_ptr(), name.len()) };
    let value = answer.accepted().expect("a fingerprint is never refused");
    u32::try_from(value).expect("a fingerprint is four bytes")
}

/// Where a class's name stands.
pub fn name(library: &[u8], user: &[u8], used: usize, class: usize) -> Result<Part, Refusal> {
    let answer = unsafe {
        raw::kz_name(
            library.as_ptr(),
            library.len(),
            user.as_ptr(),
            user.len(),
            used,
            class,
        )
    };
    answer.accepted().map(Part::from_value)
}

/// The overlay markers of a class, bit 0 Immutable to bit 7 DeepSelfless.
pub fn marks(library: &[u8], user: &[u8], used: usize, class: usize) -> Result<u8, Refusal> {
    let answer = unsafe {
        raw::kz_marks(
            library.as_ptr(),
            library.len(),
            user.as_ptr(),
            user.len(),
            used,
            class,
        )
    };
    answer.accepted().map(|value| {
        assert!(value <= 0xFF, "a set of markers is one byte");
        value as u8
    })
}
