// Times the proved CRC beside a byte-table loop as the original has it, zlib, and libdeflate, which uses the machine's own
// instructions for polynomials, in one run.
// Each figure is the best of several rounds, in processor time, so that a busy machine spoils it less.
mod table;
use std::hint::black_box;

extern "C" {
    fn measure_crc(bytes: *const u8, len: usize) -> u32;
    fn measure_crc_parts(bytes: *const u8, len: usize, size: usize) -> u32;
    fn measure_crc_runs(bytes: *const u8, len: usize, size: usize) -> u32;
    fn clock_gettime(clock: i32, time: *mut [i64; 2]) -> i32;
    #[link_name = "crc32"]
    fn zlib_crc32(crc: u64, bytes: *const u8, len: u32) -> u64;
    fn libdeflate_crc32(crc: u32, bytes: *const u8, len: usize) -> u32;
}

const BYTE_TABLE: [u32; 256] = {
    let mut t = [0u32; 256];
    let mut k = 0;
    while k < 256 {
        let mut c = k as u32;
        let mut n = 0;
        while n < 8 {
            c = (c >> 1) ^ (0xedb88320 * (c & 1));
            n += 1;
        }
        t[k] = c;
        k += 1;
    }
    t
};

#[inline(never)]
fn original(s: &[u8]) -> u32 {
    let mut c = u32::MAX;
    for b in s {
        c = (c >> 8) ^ BYTE_TABLE[(c as u8 ^ b) as usize];
    }
    !c
}

fn proved(s: &[u8]) -> u32 {
    unsafe { measure_crc(s.as_ptr(), s.len()) }
}

fn zlib(s: &[u8]) -> u32 {
    unsafe { zlib_crc32(0, s.as_ptr(), s.len() as u32) as u32 }
}

fn deflate(s: &[u8]) -> u32 {
    unsafe { libdeflate_crc32(0, s.as_ptr(), s.len()) }
}

fn in_parts(s: &[u8]) -> u32 {
    unsafe { measure_crc_parts(s.as_ptr(), s.len(), 65536) }
}

// nanoseconds of processor time that this thread has had (clock 3 of Linux)
fn now() -> f64 {
    let mut t = [0i64; 2];
    unsafe { clock_gettime(3, &mut t) };
    t[0] as f64 * 1e9 + t[1] as f64
}

// the CRCs of all runs of `size` bytes, together
type Way = fn(&[u8], usize) -> u32;

fn each(f: fn(&[u8]) -> u32, s: &[u8], size: usize) -> u32 {
    s.chunks_exact(size).fold(0, |sum, run| sum ^ f(run))
}

fn each_original(s: &[u8], size: usize) -> u32 {
    each(original, s, size)
}

fn each_proved(s: &[u8], size: usize) -> u32 {
    each(proved, s, size)
}

fn each_zlib(s: &[u8], size: usize) -> u32 {
    each(zlib, s, size)
}

fn each_deflate(s: &[u8], size: usize) -> u32 {
    each(deflate, s, size)
}

fn each_in_parts(s: &[u8], size: usize) -> u32 {
    each(in_parts, s, size)
}

// tables made once for all runs
fn each_lent(s: &[u8], size: usize) -> u32 {
    unsafe { measure_crc_runs(s.as_ptr(), s.len(), size) }
}

const WAYS: [(&str, Way); 6] = [
    ("original loop", each_original),
    ("zlib", each_zlib),
    ("libdeflate", each_deflate),
    ("crc32", each_proved),
    ("crc32_with, lent", each_lent),
    ("parts of 64 KiB", each_in_parts),
];
const ORIGINAL: usize = 0;
const ZLIB: usize = 1;
const CRC32: usize = 3;
const LENT: usize = 4;

type Times = [f64; WAYS.len()];

// nanoseconds for one run, by each way
fn best(s: &[u8], size: usize, rounds: usize) -> Times {
    let runs = (s.len() / size) as f64;
    let mut least = [f64::MAX; WAYS.len()];
    for _ in 0..rounds {
        for (k, (_, way)) in WAYS.iter().enumerate() {
            let t = now();
            black_box(way(black_box(s), size));
            least[k] = least[k].min((now() - t) / runs);
        }
    }
    least
}

fn show(sizes: &[usize], times: &[Times], cell: impl Fn(usize, &Times, usize) -> String) {
    print!("{:17}", "");
    for size in sizes {
        let name = match size {
            s if s % (1 << 20) == 0 => format!("{} MiB", s >> 20),
            s if s % 1024 == 0 => format!("{} KiB", s >> 10),
            s => format!("{s} B"),
        };
        print!("{name:>14}");
    }
    println!();
    for (k, (name, _)) in WAYS.iter().enumerate() {
        print!("{name:17}");
        for (f, &size) in times.iter().zip(sizes) {
            print!("{:>14}", cell(k, f, size));
        }
        println!();
    }
}

fn main() {
    let big = 64 << 20;
    let mut x = 1u64;
    let bytes: Vec<u8> = (0..big)
        .map(|_| {
            x = x.wrapping_mul(6364136223846793005).wrapping_add(1442695040888963407);
            (x >> 56) as u8
        })
        .collect();
    for n in (0..600).chain([1023, 1024, 1025, 4095, 4096, 4097]).chain(4600..4616).chain([10591, 10592, 10593, 12995, 12996, 12997, 65535, 65536, 65537, 70145, 1 << 20]) {
        let s = &bytes[n..2 * n];
        assert!(proved(s) == original(s) && zlib(s) == original(s) && deflate(s) == original(s) && in_parts(s) == original(s), "length {n}");
        if n > 0 {
            assert!(each_lent(s, n) == original(s), "lent, length {n}");
        }
    }
    println!("all ways agree; nanoseconds a call, and times the original's");
    let short = [4, 16, 64, 125, 256, 512, 1024];
    let times: Vec<Times> = short.iter().map(|&size| best(&bytes[..1 << 20], size, 25)).collect();
    show(&short, &times, |k, f, _| format!("{:.1} {:5.2}", f[k], f[k] / f[ORIGINAL]));
    println!("MB/s, and times zlib's speed");
    let long = [2048, 4096, 5120, 8192, 16384, 65536, 1 << 20, big];
    let speeds: Vec<Times> = long.iter().map(|&size| if size < big { best(&bytes[..1 << 20], size, 25) } else { best(&bytes, size, 15) }).collect();
    show(&long, &speeds, |k, f, size| format!("{:.0} {:5.2}", size as f64 / f[k] * 1e3, f[ZLIB] / f[k]));
    let whole = speeds[7];
    for (what, times, ours, theirs, wanted) in [
        ("CRC of 64 MiB, against the original's loop", whole, CRC32, ORIGINAL, 6.0),
        ("CRC of 64 MiB, against zlib", whole, CRC32, ZLIB, 4.0),
        ("CRC of 1 MiB, against zlib", speeds[6], CRC32, ZLIB, 0.0),
        ("CRC of 64 KiB, against zlib", speeds[5], CRC32, ZLIB, 2.5),
        ("CRC of 8 KiB, against zlib", speeds[3], CRC32, ZLIB, 1.1),
        ("CRC of 4 bytes, against the original's loop", times[0], CRC32, ORIGINAL, 1.0 / 3.0),
        ("CRC of 4 bytes, tables lent, against the original's loop", times[0], LENT, ORIGINAL, 1.0 / 3.0),
    ] {
        table::row(what, times[theirs] / times[ours], 0.0, wanted);
    }
}
