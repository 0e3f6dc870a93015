//! The lone check of a picture: `picture_check`, which is proved, and `check`, an independent
//! reading of the rules document; with pictures, damages and vectors to compare the two on.

pub mod damage;
pub mod making;
pub mod random;
pub mod reading;
pub mod tables;
pub mod vectors;

mod proved {
    extern "C" {
        pub fn picture_check(bytes: *const u8, len: usize) -> u32;
    }
}

/// The proved check.
pub fn picture_check(bytes: &[u8]) -> u32 {
    // SAFETY: include/picture_check.h asks for `len` readable bytes and a pointer that is not
    // null; a slice has both, an empty one too. Nothing is changed or kept.
    unsafe { proved::picture_check(bytes.as_ptr(), bytes.len()) }
}

/// The proved answer, after seeing that the independent reading gives the same one.
pub fn agreed(bytes: &[u8]) -> u32 {
    let proved = picture_check(bytes);
    let read = reading::check(bytes);
    assert_eq!(
        proved, read,
        "picture_check {proved}, check {read}: {bytes:02x?}"
    );
    proved
}
