//! The native host: an archive with the C entry of docs/QUESTIONS.md, linked in when the package
//! is built with LAMBSPOOL_ARCHIVE naming it. Without it there is no host to compare with.
use crate::answerer::Answerer;

#[cfg(not(native_host))]
pub fn host(_short: bool) -> Option<Box<dyn Answerer>> {
    None
}

/// `short`: every shorter memory for the text is tried as well, and must be refused.
#[cfg(native_host)]
pub fn host(short: bool) -> Option<Box<dyn Answerer>> {
    let mut lent = linked::Lent::new();
    Some(Box::new(crate::answerer::InProcess(move |body: &[u8]| {
        let whole = lent.answer(body, usize::MAX);
        let shorter = if short { 0..whole.len() } else { 0..0 };
        for room in shorter {
            if !lent.answer(body, room).is_empty() {
                return format!("not refused: {room} bytes for the text\n.\n").into_bytes();
            }
        }
        if short { lent.answer(body, whole.len()) } else { whole }
    })))
}

#[cfg(native_host)]
mod linked {
    unsafe extern "C" {
        fn answer_request(
            request: *const u8,
            request_len: usize,
            words: *mut u64,
            words_len: usize,
            coordinates: *mut u32,
            coordinates_len: usize,
            output: *mut u8,
            output_len: usize,
            answer: *mut u8,
            answer_len: usize,
        ) -> usize;
    }

    /// Memory lent again and again; large enough for every named case.
    pub struct Lent {
        words: Vec<u64>,
        coordinates: Vec<u32>,
        output: Vec<u8>,
        answer: Vec<u8>,
    }

    impl Lent {
        pub fn new() -> Self {
            Self {
                words: vec![0; 400_000],
                coordinates: vec![0; 4_300_000],
                output: vec![0; 280_000_000],
                answer: vec![0; 300_000_000],
            }
        }

        /// The answer into the first `room` bytes of the memory for the text.
        pub fn answer(&mut self, body: &[u8], room: usize) -> Vec<u8> {
            // SAFETY: each pointer comes with a length that lies in the memory behind it, and the
            // host keeps none of them.
            let length = unsafe {
                answer_request(
                    body.as_ptr(),
                    body.len(),
                    self.words.as_mut_ptr(),
                    self.words.len(),
                    self.coordinates.as_mut_ptr(),
                    self.coordinates.len(),
                    self.output.as_mut_ptr(),
                    self.output.len(),
                    self.answer.as_mut_ptr(),
                    room.min(self.answer.len()),
                )
            };
            self.answer[..length].to_vec()
        }
    }
}
