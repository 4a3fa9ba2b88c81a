//! The C boundary as it is: eight answer words and a report of u32. All `unsafe` of the crate stands here.
#![allow(unsafe_code)]

/// What an answer holds before a judge is asked. No answer may hold it, so a word that is left out is seen.
const UNANSWERED: u64 = u64::MAX;

extern "C" {
    fn udrasmil_judge_openssl(
        words: *const u64,
        nwords: usize,
        bytes: *const u8,
        nbytes: usize,
        report: *mut u32,
        nreport: usize,
        answer: *mut u64,
    );

    fn udrasmil_judge_chrome(
        words: *const u64,
        nwords: usize,
        bytes: *const u8,
        nbytes: usize,
        pwords: *const u64,
        npwords: usize,
        pbytes: *const u8,
        npbytes: usize,
        report: *mut u32,
        nreport: usize,
        answer: *mut u64,
    );
}

/// The answer's eight words by OpenSSL's policy; the entries that fit are written into the report.
pub fn openssl(words: &[u64], bytes: &[u8], report: &mut [u32]) -> [u64; 8] {
    let mut answer = [UNANSWERED; 8];
    // SAFETY: each pointer goes with its slice's length, so it is aligned and that many elements stand there during the
    // call; the answer has its eight words. The judge writes the report and the answer alone: both are borrowed for
    // writing, so nothing overlaps them and nobody else reads or writes them. It keeps no pointer.
    unsafe {
        udrasmil_judge_openssl(
            words.as_ptr(),
            words.len(),
            bytes.as_ptr(),
            bytes.len(),
            report.as_mut_ptr(),
            report.len(),
            answer.as_mut_ptr(),
        );
    }
    answer
}

/// The answer's eight words by Chrome's policy; the entries that fit are written into the report.
pub fn chrome(words: &[u64], bytes: &[u8], pwords: &[u64], pbytes: &[u8], report: &mut [u32]) -> [u64; 8] {
    let mut answer = [UNANSWERED; 8];
    // SAFETY: as in `openssl`. Both bundles are only read, so they may be the same.
    unsafe {
        udrasmil_judge_chrome(
            words.as_ptr(),
            words.len(),
            bytes.as_ptr(),
            bytes.len(),
            pwords.as_ptr(),
            pwords.len(),
            pbytes.as_ptr(),
            pbytes.len(),
            report.as_mut_ptr(),
            report.len(),
            answer.as_mut_ptr(),
        );
    }
    answer
}
