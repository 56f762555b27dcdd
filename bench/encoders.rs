// Times the proved encoders beside the original's, in one run, on 100,000 puts (d 16, captions of 40 bytes), singly and in
// batches of 100, and holds their bytes to the original's. The original's frames are dropped as they are made: putting them
// behind each other in one log, as ours stand, is not in its time.
include!("../target/bench/vecnook.rs");
#[allow(dead_code)]
mod beside;
mod table;

use beside::{CAPTION, Dice, caption, stack_of, time, turns};
use std::hint::black_box;
use storage::{Operation, encode_batch, encode_frame};

unsafe extern "C" {
    fn measure_encode_frame(
        d: usize,
        sequence: u64,
        operations: *const u64,
        operations_len: usize,
        coordinates: *const u32,
        coordinates_len: usize,
        captions: *const u8,
        captions_len: usize,
        out: *mut u8,
        out_len: usize,
    ) -> u64;
    fn measure_encode_batch(
        d: usize,
        sequence: u64,
        operations: *const u64,
        operations_len: usize,
        coordinates: *const u32,
        coordinates_len: usize,
        captions: *const u8,
        captions_len: usize,
        out: *mut u8,
        out_len: usize,
    ) -> u64;
}

const D: usize = 16;
const PUTS: usize = 100_000;
const ROUNDS: usize = 15;

struct Data {
    ids: Vec<u64>,
    vectors: Vec<f32>,
    captions: String,
}

fn data(ascii: bool) -> Data {
    let mut dice = Dice(88172645463325252);
    Data {
        ids: (0..PUTS).map(|_| dice.roll()).collect(),
        vectors: (0..PUTS * D).map(|_| dice.coordinate()).collect(),
        captions: (0..PUTS).map(|i| caption(i, ascii)).collect(),
    }
}

// As each side's caller has them: references, and words.
fn mutations(data: &Data) -> Vec<Mutation<'_>> {
    let put = |i: usize| Mutation::Put {
        id: data.ids[i],
        vector: &data.vectors[i * D..(i + 1) * D],
        metadata: &data.captions[i * CAPTION..(i + 1) * CAPTION],
    };
    (0..PUTS).map(put).collect()
}

fn words(data: &Data) -> Vec<u64> {
    (0..PUTS).flat_map(|i| [data.ids[i], 1 << 63 | (CAPTION as u64) << 48 | (i * CAPTION) as u64]).collect()
}

// Hands each frame of the original's to `take`.
fn original(mutations: &[Mutation], each: usize, mut take: impl FnMut(Vec<u8>)) {
    for (k, some) in mutations.chunks(each).enumerate() {
        let sequence = 1 + k as u64;
        take(match some {
            &[Mutation::Put { id, vector, metadata }] => {
                encode_frame(sequence, Operation::Put { id, vector, metadata })
            }
            _ => encode_batch(sequence, some),
        });
    }
}

// Every frame behind the last; gives the log's length.
fn proved(words: &[u64], bits: &[u32], captions: &[u8], each: usize, log: &mut [u8]) -> usize {
    let encode = if each == 1 { measure_encode_frame } else { measure_encode_batch };
    let mut at = 0;
    for (k, (words, bits)) in words.chunks(2 * each).zip(bits.chunks(D * each)).enumerate() {
        let out = &mut log[at..];
        let n = unsafe {
            encode(
                D,
                1 + k as u64,
                words.as_ptr(),
                words.len(),
                bits.as_ptr(),
                bits.len(),
                captions.as_ptr(),
                captions.len(),
                out.as_mut_ptr(),
                out.len(),
            )
        };
        assert!(n >> 63 == 0, "refused {}", n & 255);
        at += n as usize;
    }
    at
}

const WAYS: [(&str, usize, u32); 2] = [("singly", 1, 1), ("in batches of 100", 100, 2)];

fn bits(data: &Data) -> Vec<u32> {
    data.vectors.iter().map(|v| v.to_bits()).collect()
}

fn compare(kind: &str, data: &Data) {
    let (mutations, words, bits) = (mutations(data), words(data), bits(data));
    let captions = data.captions.as_bytes();
    for (name, each, wanted) in WAYS {
        let mut theirs = Vec::new();
        original(&mutations, each, |frame| theirs.extend(frame));
        let mut log = vec![0; theirs.len()];
        let n = proved(&words, &bits, captions, each, &mut log);
        assert!(log[..n] == theirs, "the bytes differ");
        let [a, b] = turns(
            ROUNDS,
            [
                &mut || time(|| original(black_box(&mutations), each, |frame| drop(black_box(frame)))),
                &mut || time(|| proved(black_box(&words), &bits, captions, each, &mut log)),
            ],
        );
        println!(
            "{:50}{:8.2}{:8.2}{:8.2}{:8.2}{:8.2}{:6.2}, wanted {wanted}",
            format!("{kind}, {name}, {n} bytes alike"),
            a.best * 1e3,
            a.median * 1e3,
            b.best * 1e3,
            b.median * 1e3,
            a.best / b.best,
            a.median / b.median
        );
        table::row(&format!("puts encoded {name}, {kind} captions"), a.best / b.best, a.median / b.median, f64::from(wanted));
    }
}

fn tell_stacks(data: &Data) {
    let (words, bits) = (words(data), bits(data));
    let mut log = vec![0; 20_000];
    for (name, each, _) in WAYS {
        let mut call = || {
            proved(&words[..2 * each], &bits[..D * each], data.captions.as_bytes(), each, &mut log);
        };
        println!("stack of a call, {name}: {} bytes; lent: the output alone", stack_of(&mut call));
    }
}

fn main() {
    println!(
        "{PUTS} puts, d {D}, captions of {CAPTION} bytes; thread time in ms, best and median of {ROUNDS} rounds, the two in turn"
    );
    println!("{:50}{:>16}{:>16}{:>22}", "", "original", "proved", "times its speed");
    compare("ASCII", &data(true));
    compare("mixed", &data(false));
    tell_stacks(&data(false));
}
