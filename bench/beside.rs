// What the drivers share that run beside the original: the clock, turns, a generator, captions, snapshots, files in memory, the
// comparison of records, the lines of a table, and the depth of a call's stack.
use crate::{Record, storage, table::row};
use std::{
    collections::BTreeMap,
    fs::{self, File},
    hint::black_box,
    io::Read,
    path::PathBuf,
};
use storage::Recovered;

unsafe extern "C" {
    fn clock_gettime(clock: i32, time: *mut [i64; 2]) -> i32;
    fn pthread_attr_init(attributes: *mut [u64; 16]) -> i32;
    fn pthread_attr_setstack(attributes: *mut [u64; 16], stack: *mut u8, size: usize) -> i32;
    fn pthread_create(
        thread: *mut usize,
        attributes: *const [u64; 16],
        start: extern "C" fn(*mut u8) -> *mut u8,
        argument: *mut u8,
    ) -> i32;
    fn pthread_join(thread: usize, result: *mut *mut u8) -> i32;
}

// seconds of processor time that this thread has had, the kernel's work for it included (clock 3 of Linux)
fn now() -> f64 {
    let mut t = [0i64; 2];
    unsafe { clock_gettime(3, &mut t) };
    t[0] as f64 + t[1] as f64 * 1e-9
}

// What `f` gives is dropped after the clock has stopped.
pub fn time<T>(f: impl FnOnce() -> T) -> f64 {
    let t = now();
    let made = black_box(f());
    let spent = now() - t;
    drop(made);
    spent
}

pub struct Times {
    pub best: f64,
    pub median: f64,
}

// Each way once in every round, in turn; a way gives its seconds. An odd number of rounds has a middle.
pub fn turns<const N: usize>(rounds: usize, mut ways: [&mut dyn FnMut() -> f64; N]) -> [Times; N] {
    let mut spent = [(); N].map(|_| Vec::new());
    for _ in 0..rounds {
        for (way, spent) in ways.iter_mut().zip(&mut spent) {
            spent.push(way());
        }
    }
    spent.map(|mut spent| {
        spent.sort_by(f64::total_cmp);
        Times { best: spent[0], median: spent[rounds / 2] }
    })
}

// a plain generator, so that each run measures the same bytes
pub struct Dice(pub u64);

impl Dice {
    pub fn roll(&mut self) -> u64 {
        self.0 ^= self.0 << 13;
        self.0 ^= self.0 >> 7;
        self.0 ^= self.0 << 17;
        self.0
    }

    // finite, from -10 to 10
    pub fn coordinate(&mut self) -> f32 {
        (self.roll() % 2001) as f32 / 100.0 - 10.0
    }
}

pub const CAPTION: usize = 40;

pub fn caption(number: usize, ascii: bool) -> String {
    let mut text = if ascii {
        format!("a still of the west meadow, no. {number:06}")
    } else {
        format!("prés de l'été, à l'est, №{number:06}")
    };
    while text.len() < CAPTION {
        text.push('.');
    }
    assert!(text.len() == CAPTION);
    text
}

pub const MAX_RECORDS: usize = 100_000;
// the original's buffer for a snapshot or a cache
pub const PIECE: usize = 64 * 1024;

// A snapshot of records with these IDs, all live, with the settings that `Config::new` gives.
pub fn snapshot(d: usize, sequence: u64, dice: &mut Dice, ids: &[u64]) -> Vec<u8> {
    let mut bytes = Vec::with_capacity(56 + ids.len() * (13 + 4 * d + CAPTION));
    bytes.extend(b"VECTORS1");
    // version, d, M, ef, metric
    for number in [2, d as u32, 16, 200, 0] {
        bytes.extend(number.to_le_bytes());
    }
    for number in [42, sequence, ids.len() as u64] {
        bytes.extend(number.to_le_bytes());
    }
    for (i, id) in ids.iter().enumerate() {
        bytes.extend(id.to_le_bytes());
        bytes.push(0);
        for _ in 0..d {
            bytes.extend(dice.coordinate().to_le_bytes());
        }
        bytes.extend((CAPTION as u32).to_le_bytes());
        bytes.extend(mixed_caption(i).as_bytes());
    }
    bytes.extend(storage::crc32(&bytes).to_le_bytes());
    bytes
}

// Every other one has letters beyond ASCII.
pub fn mixed_caption(number: usize) -> String {
    caption(number, number % 2 == 0)
}

// A folder in memory, gone in the end.
pub struct Folder(pub PathBuf);

impl Folder {
    pub fn new(name: &str) -> Self {
        let path = PathBuf::from(format!("/dev/shm/lambspool-bench-{}-{name}", std::process::id()));
        fs::create_dir_all(&path).expect("a folder in /dev/shm");
        Self(path)
    }

    pub fn write(&self, name: &str, bytes: &[u8]) {
        fs::write(self.0.join(name), bytes).unwrap();
    }

    // What the bare file costs.
    pub fn read(&self, name: &str, piece: &mut [u8]) -> usize {
        let mut file = File::open(self.0.join(name)).unwrap();
        let mut all = 0;
        loop {
            let n = file.read(piece).unwrap();
            if n == 0 {
                return all;
            }
            all += n;
        }
    }

    // The original's reading of a store: records, their sizes, and its map of IDs.
    pub fn inspect(&self) -> Recovered {
        let mut log = File::open(self.0.join("wal.bin")).unwrap();
        storage::inspect(&self.0, &mut log).unwrap_or_else(|error| panic!("{error}"))
    }
}

impl Drop for Folder {
    fn drop(&mut self) {
        let _ = fs::remove_dir_all(&self.0);
    }
}

// Rows and active nodes are those of the original's records, and the rest is zeros. How many are active, and the size of all.
pub fn hold_records(
    d: usize,
    sources: [&[u8]; 2],
    records: &[Record],
    rows: &[u64],
    active: &[u32],
) -> (u64, u64) {
    let mut map = BTreeMap::new();
    for (node, record) in records.iter().enumerate() {
        let (id, word) = (rows[2 * node], rows[2 * node + 1]);
        let (n, at) = ((word >> 47 & 0x7fff) as usize, (word & ((1 << 47) - 1)) as usize);
        let (source, end) = (sources[(word >> 62 & 1) as usize], at + 4 * d);
        assert!(id == record.id && word >> 63 == record.deleted as u64, "row {node}");
        assert!(source[at..end].chunks(4).eq(record.vector.iter().map(|v| v.to_le_bytes())), "vector {node}");
        assert!(source[end + 4..end + 4 + n] == *record.metadata.as_bytes(), "caption {node}");
        if !record.deleted {
            map.insert(id, node as u32);
        }
    }
    assert!(map.values().eq(&active[..map.len()]), "active nodes");
    let zeros = rows[2 * records.len()..].iter().all(|&word| word == 0) && active[map.len()..].iter().all(|&entry| entry == 0);
    assert!(zeros, "zeros after");
    (map.len() as u64, records.iter().map(Record::encoded_len).sum::<usize>() as u64)
}

pub fn tell_heads() {
    println!(
        "thread time in ms, best and median, in turn; the speed is ours against the original's, with its file and without"
    );
    println!(
        "{:10}{:>20}{:>20}{:>20}{:>16}{:>16}",
        "", "original", "the bare file", "proved", "speed", "without file"
    );
}

pub fn tell(case: &str, what: &str, [theirs, bare, ours]: &[Times; 3], wanted: f64) {
    print!("  {what:8}");
    for t in [theirs, bare, ours] {
        print!("{:10.2}{:10.2}", t.best * 1e3, t.median * 1e3);
    }
    print!("{:9.2}{:7.2}", theirs.best / ours.best, theirs.median / ours.median);
    let (best, median) = ((theirs.best - bare.best) / ours.best, (theirs.median - bare.median) / ours.median);
    println!("{best:9.2}{median:7.2}, wanted {wanted}");
    row(case, best, median, wanted);
}

// The bytes of stack that `f` takes beyond those of a thread that does nothing: `f` runs on a painted stack.
// Only after the last timing: once a second thread has been started, malloc takes locks, and the original would be slower.
pub fn stack_of(f: &mut dyn FnMut()) -> usize {
    touched(f) - touched(&mut || ())
}

fn touched(mut f: &mut dyn FnMut()) -> usize {
    extern "C" fn start(f: *mut u8) -> *mut u8 {
        unsafe { (*(f as *mut &mut dyn FnMut()))() };
        std::ptr::null_mut()
    }
    const PAINT: u64 = 0xa5a5_a5a5_a5a5_a5a5;
    let mut stack = vec![[PAINT; 2]; 1 << 16];
    let size = stack.len() * 16;
    let (mut attributes, mut thread) = ([0; 16], 0);
    unsafe {
        assert!(pthread_attr_init(&mut attributes) == 0);
        assert!(pthread_attr_setstack(&mut attributes, stack.as_mut_ptr() as *mut u8, size) == 0);
        assert!(pthread_create(&mut thread, &attributes, start, &raw mut f as *mut u8) == 0);
        assert!(pthread_join(thread, std::ptr::null_mut()) == 0);
    }
    let untouched = black_box(&stack).iter().take_while(|words| **words == [PAINT; 2]).count();
    assert!(untouched > 0, "the painted stack is too small");
    size - 16 * untouched
}
