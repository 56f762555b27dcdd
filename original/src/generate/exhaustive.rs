//! Short inputs, all of them, and files cut at each byte.
use super::{
    boundaries,
    damage::{PairBytes, undamaged},
    good,
    plan::repair_crc,
    prng::Prng,
    values::table_fill_of,
};
use model::request::{self, *};

/// Every request of the list, in turn.
pub fn requests() -> impl Iterator<Item = Vec<u8>> {
    boundaries::requests().into_iter().chain(all_short())
}

/// The same without the lengths and counts around the bounds.
pub fn all_short() -> impl Iterator<Item = Vec<u8>> {
    short_bytes().chain(characters()).chain(cut_pairs()).chain(delete_frames()).chain(edges_of_settings())
}

fn one_part(call: u8, bytes: &[u8]) -> Vec<u8> {
    request::body(call, &[], &[bytes])
}

/// All inputs of at most two bytes.
fn short_bytes() -> impl Iterator<Item = Vec<u8>> {
    let empty = [CRC, UTF8, C_CRC, C_UTF8].into_iter().map(|call| one_part(call, &[]));
    let one = (0..=255u8).flat_map(|byte| [CRC, UTF8].map(|call| one_part(call, &[byte])));
    let two = (0..=u16::MAX).map(|two| one_part(UTF8, &two.to_be_bytes()));
    empty.chain(one).chain(two)
}

/// First and second byte in full, the others at their bounds: three and four bytes.
fn characters() -> impl Iterator<Item = Vec<u8>> {
    const ENDS: [u8; 6] = [0x00, 0x7F, 0x80, 0xBF, 0xC0, 0xFF];
    let three = (0xE0..=0xEFu8).flat_map(|first| {
        (0..=255u8).flat_map(move |second| ENDS.map(|third| one_part(UTF8, &[first, second, third])))
    });
    let four = (0xEF..=0xF8u8).flat_map(|first| {
        (0..=255u8).flat_map(move |second| {
            ENDS.into_iter()
                .flat_map(move |third| ENDS.map(|fourth| one_part(UTF8, &[first, second, third, fourth])))
        })
    });
    three.chain(four)
}

/// Forty good pairs: the log cut at each byte, the snapshot cut at each byte, its CRC right or not.
fn cut_pairs() -> impl Iterator<Item = Vec<u8>> {
    (0..40).map(small_pair).flat_map(|pair| {
        let mut requests = Vec::new();
        for cut in 0..=pair.log.len() {
            requests.push(recover_request(&pair.snapshot, &pair.log[..cut]));
        }
        for cut in 0..=pair.snapshot.len() {
            let mut snapshot = pair.snapshot[..cut].to_vec();
            requests.push(recover_request(&snapshot, &pair.log));
            repair_crc(&mut snapshot);
            requests.push(recover_request(&snapshot, &pair.log));
        }
        requests
    })
}

fn small_pair(index: u64) -> PairBytes {
    let mut prng = Prng::for_case(0xC075, index);
    loop {
        let pair = undamaged(&good::pair(&mut prng));
        if pair.snapshot.len() + pair.log.len() < 700 && pair.log.len() > 60 {
            return pair;
        }
    }
}

fn recover_request(snapshot: &[u8], log: &[u8]) -> Vec<u8> {
    request::body(RECOVER, &[40, 20, table_fill_of(snapshot.len() + log.len())], &[snapshot, log])
}

fn delete_frames() -> impl Iterator<Item = Vec<u8>> {
    (0..=40).flat_map(|room| {
        [0, 1, u64::MAX].map(|sequence| request::body(C_DELETE_FRAME, &[sequence, 7, room, 0xA5], &[]))
    })
}

fn edges_of_settings() -> impl Iterator<Item = Vec<u8>> {
    const D: [u64; 6] = [0, 1, 2, 4096, 4097, u64::MAX];
    const M: [u64; 6] = [0, 1, 2, 64, 65, u64::MAX];
    const EF: [u64; 9] = [0, 1, 2, 3, 63, 64, 4096, 4097, u64::MAX];
    D.into_iter().flat_map(|d| {
        M.into_iter().flat_map(move |m| EF.map(|ef| request::body(VALIDATE, &[d, m, ef, 42, 0], &[])))
    })
}
