// Compares the proved UTF-8 check with std::str::from_utf8, for speed and for answers, in one process.
// Links libmeasure_utf8.a, compiled for the host. `utf8 [time|same]`: without a word, both.
mod table;
use std::hint::black_box;
use std::time::Instant;

extern "C" {
    fn measure_is_utf8(s: *const u8, n: usize) -> bool;
    fn measure_valid_front(s: *const u8, n: usize) -> usize;
}

fn ours(s: &[u8]) -> bool {
    unsafe { measure_is_utf8(s.as_ptr(), s.len()) }
}

fn ours_front(s: &[u8]) -> usize {
    unsafe { measure_valid_front(s.as_ptr(), s.len()) }
}

#[inline(never)]
fn theirs(s: &[u8]) -> bool {
    std::str::from_utf8(s).is_ok()
}

fn theirs_front(s: &[u8]) -> usize {
    match std::str::from_utf8(s) {
        Ok(_) => s.len(),
        Err(e) => e.valid_up_to(),
    }
}

const GERMAN: &str = "Außenminister trifft Präsidentin in München; Gespräche über Öl und Gas dauern länger als geplant. Fußball: Köln schlägt Nürnberg im Elfmeterschießen, Zuschauer jubeln. Überschwemmungen an der Donau, Straßen gesperrt, Züge fallen aus. Die Bürgermeisterin eröffnet das Museum für Völkerkunde. Schüler demonstrieren für besseres Klima vor dem Rathaus. Ministerpräsident kündigt Rücktritt an. Große Hitze in Süddeutschland, Wälder brennen. ";
const FRENCH: &str = "Le président reçoit à l'Élysée une délégation européenne. Grève générale à la gare de l'Est, où des voyageurs étaient bloqués dès l'aube. La forêt brûle près de Nîmes, des pompiers arrivés de tout le pays. Théâtre: une première très applaudie à Orléans. Élections régionales, résultats attendus ce soir à vingt heures. Un garçon sauvé des eaux à Besançon. Marché de Noël, façades éclairées. ";
const GREEK: &str = "Ο πρωθυπουργός συναντά τον πρόεδρο στην Αθήνα. Πυρκαγιά στην Εύβοια, κάτοικοι εγκαταλείπουν τα σπίτια τους. Μεγάλη συγκέντρωση στο Σύνταγμα για την παιδεία. Νέο μουσείο στη Θεσσαλονίκη ανοίγει τις πύλες του. Ισχυρός σεισμός στην Κρήτη, χωρίς θύματα. Ο Ολυμπιακός νίκησε με 2-1 την ΑΕΚ. ";
const JAPANESE: &str = "首相、東京で記者会見を行う。台風10号が九州に接近、鉄道各線で運転見合わせ。大阪の商店街で火災、けが人なし。高校野球の決勝、延長戦の末に逆転勝利。新しい美術館が京都に開館、初日に三千人。地震の影響で高速道路が通行止め。桜が満開、上野公園に多くの花見客。";
const FACES: &str = "Great match tonight 😀🎉 Köln 2:1 Nürnberg ⚽ café ☕ déjà vu 👍 東京 🗼 Αθήνα 🏛 naïve façade 🚒🔥 flood 🌊 at the Donau 🇩🇪 ok 👌 first snow ❄ in Łódź 🎄 ";
const ENGLISH: &str = "The minister meets the president in London; talks on oil and gas take longer than planned. Football: the home side wins on penalties, and the crowd cheers. Floods along the river, roads closed, trains cancelled. The mayor opens the new museum of natural history. Pupils march for the climate in front of the town hall. ";

// many short passes, so that some of them meet a quiet machine
const ROUNDS: usize = 600;

// a plain generator, so that each run measures the same captions
struct Dice(u64);

impl Dice {
    fn roll(&mut self, below: usize) -> usize {
        self.0 ^= self.0 << 13;
        self.0 ^= self.0 >> 7;
        self.0 ^= self.0 << 17;
        (self.0 % below as u64) as usize
    }
}

// captions of low..=high bytes, cut out of the texts at whole characters
fn captions(texts: &[&str], low: usize, high: usize, many: usize, dice: &mut Dice) -> Vec<Vec<u8>> {
    let mut all = Vec::new();
    while all.len() < many {
        let twice = texts[dice.roll(texts.len())].repeat(3);
        let mut a = dice.roll(twice.len() / 2);
        while !twice.is_char_boundary(a) {
            a += 1;
        }
        let want = low + dice.roll(high - low + 1);
        let mut b = a + want;
        while !twice.is_char_boundary(b) {
            b -= 1;
        }
        if low <= b - a {
            all.push(twice.as_bytes()[a..b].to_vec());
        }
    }
    all
}

fn long(text: &str, n: usize) -> Vec<u8> {
    let mut s = Vec::new();
    for c in text.chars().cycle() {
        let mut buf = [0; 4];
        let e = c.encode_utf8(&mut buf).as_bytes();
        if n < s.len() + e.len() {
            break;
        }
        s.extend_from_slice(e);
    }
    while s.len() < n {
        s.push(b'.');
    }
    s
}

fn pass(f: fn(&[u8]) -> bool, set: &[Vec<u8>], turns: usize) -> f64 {
    let start = Instant::now();
    let mut good = 0usize;
    for _ in 0..turns {
        for c in set {
            good += f(black_box(c.as_slice())) as usize;
        }
    }
    let t = start.elapsed().as_nanos() as f64;
    assert_eq!(black_box(good), turns * set.len());
    t / (turns * set.len()) as f64
}

fn row(name: &str, set: &[Vec<u8>], target: f64) {
    let bytes: usize = set.iter().map(|c| c.len()).sum();
    let turns = (200_000 / bytes).max(1);
    let (mut a, mut b) = (f64::MAX, f64::MAX);
    for _ in 0..ROUNDS {
        a = a.min(pass(ours, set, turns));
        b = b.min(pass(theirs, set, turns));
    }
    let mean = bytes as f64 / set.len() as f64;
    let want = if 0.0 < target { format!("{:.1} {}", target, if target <= b / a { "met" } else { "MISSED" }) } else { String::new() };
    println!("{:34} {:8.1} bytes  ours {:9.1} ns {:6.2} GB/s  std {:9.1} ns {:6.2} GB/s  ratio {:5.2}  {}", name, mean, a, mean / a, b, mean / b, b / a, want);
    table::row(&format!("UTF-8 of {name}, against Rust's own"), b / a, 0.0, target);
}

fn time() {
    let mut dice = Dice(88172645463325252);
    let mixed = [GERMAN, FRENCH, GREEK, JAPANESE, FACES];
    println!("speed relative to std::str::from_utf8 (ratio 1 is as fast), best of {} short passes, in turn", ROUNDS);
    row("ASCII, 16 KiB", &[long(ENGLISH, 16384)], 0.5);
    row("ASCII, captions of 40", &captions(&[ENGLISH], 40, 40, 1000, &mut dice), 0.0);
    row("ASCII, captions of 16..64", &captions(&[ENGLISH], 16, 64, 1000, &mut dice), 0.0);
    for (name, text) in [("German", GERMAN), ("French", FRENCH), ("Greek", GREEK), ("Japanese", JAPANESE), ("2, 3 and 4 bytes, emoji", FACES)] {
        row(&format!("{}, captions of 16..64", name), &captions(&[text], 16, 64, 1000, &mut dice), 1.0);
    }
    row("all five, captions of 16..64", &captions(&mixed, 16, 64, 5000, &mut dice), 1.0);
    row("all five, captions of 16..24", &captions(&mixed, 16, 24, 5000, &mut dice), 1.0);
    for (name, text) in [("German", GERMAN), ("Greek", GREEK), ("Japanese", JAPANESE), ("2, 3 and 4 bytes, emoji", FACES)] {
        row(&format!("{}, 16 KiB", name), &[long(text, 16384)], 0.0);
    }
    row("all five, 16 KiB", &[long(&mixed.concat(), 16384)], 0.0);
}

struct Same {
    tried: u64,
    good: u64,
}

impl Same {
    fn hold(&mut self, s: &[u8]) {
        let front = theirs_front(s);
        if ours(s) != (front == s.len()) || ours_front(s) != front {
            println!("DIFFERS on {:02X?}: ours {} {}, std {}", s, ours(s), ours_front(s), front);
            std::process::exit(1);
        }
        self.tried += 1;
        self.good += (front == s.len()) as u64;
    }
}

fn same_short() {
    let mut all = Same { tried: 0, good: 0 };
    all.hold(&[]);
    for a in 0..=255u8 {
        all.hold(&[a]);
        for b in 0..=255u8 {
            all.hold(&[a, b]);
            for c in 0..=255u8 {
                all.hold(&[a, b, c]);
            }
        }
    }
    println!("same on all strings of 0 to 3 bytes: {} tried, {} are UTF-8", all.tried, all.good);
}

fn same_edges() {
    let edges = [0x00u8, 0x41, 0x7F, 0x80, 0x81, 0x8F, 0x90, 0x91, 0x9F, 0xA0, 0xA1, 0xBE, 0xBF, 0xC0, 0xC1, 0xC2, 0xDF, 0xE0, 0xED, 0xEF, 0xF0, 0xF4, 0xF5, 0xF8, 0xFC, 0xFF];
    let mut all = Same { tried: 0, good: 0 };
    for a in 0..=255u8 {
        for b in 0..=255u8 {
            for c in edges {
                for d in edges {
                    all.hold(&[a, b, c, d]);
                    all.hold(&[a, b, c, d, 0x80]);
                    all.hold(&[0x41, a, b, c, d, 0x42]);
                }
            }
        }
    }
    println!("same on strings of 4 to 6 bytes, every first two, {} edges after: {} tried, {} are UTF-8", edges.len(), all.tried, all.good);
}

fn same_in_ascii() {
    let mut all = Same { tried: 0, good: 0 };
    let chars: [&[u8]; 16] = [&[0xC2, 0x80], &[0xDF, 0xBF], &[0xE0, 0xA0, 0x80], &[0xED, 0x9F, 0xBF], &[0xEF, 0xBF, 0xBF], &[0xF0, 0x90, 0x80, 0x80], &[0xF4, 0x8F, 0xBF, 0xBF], &[0x80], &[0xC0, 0x80], &[0xE0, 0x9F, 0xBF], &[0xED, 0xA0, 0x80], &[0xF4, 0x90, 0x80, 0x80], &[0xE2, 0x82], &[0xF0, 0x9F, 0x98], &[0xFF], &[0x7F]];
    for n in 0..=100usize {
        for at in 0..=n {
            for c in chars {
                let mut s = vec![b'a'; n];
                for (i, b) in c.iter().enumerate() {
                    if at + i < n {
                        s[at + i] = *b;
                    }
                }
                all.hold(&s);
            }
        }
    }
    println!("same on ASCII of 0 to 100 bytes with a character or a bad one at every place: {} tried, {} are UTF-8", all.tried, all.good);
}

fn same_captions() {
    let mut dice = Dice(42);
    let mut all = Same { tried: 0, good: 0 };
    for mut c in captions(&[GERMAN, FRENCH, GREEK, JAPANESE, FACES], 1, 90, 20000, &mut dice) {
        all.hold(&c);
        for _ in 0..20 {
            let at = dice.roll(c.len());
            let old = c[at];
            c[at] = dice.roll(256) as u8;
            all.hold(&c);
            c[at] = old;
        }
        for n in 0..c.len() {
            all.hold(&c[..n]);
        }
    }
    println!("same on captions, each cut at every byte and with one byte changed: {} tried, {} are UTF-8", all.tried, all.good);
}

fn main() {
    let word = std::env::args().nth(1).unwrap_or_default();
    if word != "time" {
        same_short();
        same_edges();
        same_in_ascii();
        same_captions();
    }
    if word != "same" {
        time();
    }
}
