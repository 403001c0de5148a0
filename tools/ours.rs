//! The find of the static library.

// the allocator that the library's function takes is nothing on this side; a slice is a pointer and a length
unsafe extern "C" {
    #[link_name = "find"]
    fn host_find(job: *const u8, job_len: usize, place: usize, searcher: u32, masks: usize, out: *mut u8, out_len: usize) -> u32;
}

/// The number that is answered, and what then stands in `out`.
pub fn call(job: &[u8], place: usize, searcher: u32, masks: usize, out: &mut [u8]) -> u32 {
    unsafe { host_find(job.as_ptr(), job.len(), place, searcher, masks, out.as_mut_ptr(), out.len()) }
}

/// The bytes of a buffer before a call, which it keeps where nothing is written.
pub const BLANK: [u8; 12] = [0xA5; 12];

/// What a find answers: id, start and end, or the number that comes instead.
pub type Answer = Result<(usize, usize, usize), u32>;

/// A find with a buffer of twelve bytes.
pub fn find(job: &[u8], place: usize, searcher: u32, masks: usize) -> Answer {
    let mut out = BLANK;
    let code = call(job, place, searcher, masks, &mut out);
    if code != 0 {
        assert_eq!(out, BLANK, "the buffer was written to, answer {code}");
        return Err(code);
    }
    let n = |k: usize| u32::from_le_bytes(out[k..k + 4].try_into().unwrap()) as usize;
    Ok((n(0), n(4), n(8)))
}

/// Adds a record to a job.
pub fn record(job: &mut Vec<u8>, mark: &[u8; 2], bytes: &[u8]) {
    job.extend_from_slice(mark);
    job.extend_from_slice(&(bytes.len() as u16).to_le_bytes());
    job.extend_from_slice(bytes);
}

/// A job of a kind, patterns and one text.
pub fn job(longest: bool, patterns: &[Vec<u8>], text: &[u8]) -> Vec<u8> {
    let mut job = vec![];
    record(&mut job, if longest { b"KL" } else { b"KF" }, b"");
    for bytes in patterns {
        record(&mut job, b"PN", bytes);
    }
    record(&mut job, b"TX", text);
    job
}
