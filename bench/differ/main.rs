// Compares the library's answer with that of the definitions written down apart from it (oracle.rs), on random, structured
// and damaged tables, and measures both. Built and run by bench/differ/run.
//
//     differ [SEED [CASES]]      default: 20,000 cases, begun with the number 1
mod oracle;

use oracle::{Doc, Outcome, compare as asked, read_doc};
use std::time::Instant;

unsafe extern "C" {
    fn compare(
        ours: *const u8,
        ours_length: usize,
        theirs: *const u8,
        theirs_length: usize,
        p: u64,
        q: u64,
        t: u64,
        buffer: *mut u8,
        buffer_length: usize,
    ) -> u64;
}

const GUARD: usize = 16;
const FILL: u8 = 0xa5;

// The library's answer, with what it wrote; the bytes around the buffer must stay.
fn library(ours: &[u8], theirs: &[u8], p: u64, q: u64, t: u64, room: usize) -> Result<(u64, Vec<u8>), String> {
    let mut bytes = vec![FILL; room + 2 * GUARD];
    let result = unsafe {
        compare(ours.as_ptr(), ours.len(), theirs.as_ptr(), theirs.len(), p, q, t, bytes.as_mut_ptr().add(GUARD), room)
    };
    if bytes[..GUARD].iter().chain(&bytes[GUARD + room..]).any(|b| *b != FILL) {
        return Err("it wrote past the buffer".to_string());
    }
    Ok((result, bytes[GUARD..GUARD + room].to_vec()))
}

struct Random(u64);

impl Random {
    fn next(&mut self) -> u64 {
        self.0 ^= self.0 << 13;
        self.0 ^= self.0 >> 7;
        self.0 ^= self.0 << 17;
        self.0
    }

    fn below(&mut self, n: u64) -> u64 {
        self.next() % n
    }
}

fn labels(random: &mut Random, kind: u64) -> u64 {
    match kind {
        0 => 1 << random.below(4),
        1 => random.below(16),
        2 => 1 << random.below(64),
        3 => 0,
        _ => random.next(),
    }
}

// A line of a table of n rows; now and then a number points past the table.
fn line(random: &mut Random, n: u64, style: u64) -> String {
    let reach = if random.below(60) == 0 { 64 } else { n };
    let (a, b) = (random.below(reach), random.below(reach));
    let cap = ["i", "o", "b"][random.below(3) as usize];
    let pick = match style {
        0 => random.below(10),
        1 => [0, 2, 3, 3, 8, 9][random.below(6) as usize],
        2 => [0, 4, 5, 6, 7, 7][random.below(6) as usize],
        _ => [0, 3, 4, 8, 8, 9][random.below(6) as usize],
    };
    match pick {
        0 => "V,,,\n".to_string(),
        1 => "N,,,\n".to_string(),
        2 | 3 | 8 => format!("C,{cap},{a},\n"),
        4..=7 => {
            let kind = if random.below(4) == 0 { random.below(5) } else { random.below(2) };
            format!("E,{:016x},{a},{b}\n", labels(random, kind))
        }
        _ => format!("U,,{a},{b}\n"),
    }
}

// Elements or channels that follow each other round, with a variation at one place.
fn ring(random: &mut Random, n: u64) -> String {
    let odd = random.below(n);
    let channels = random.below(2) == 0;
    let mut text = String::from("V,,,\n");
    for k in 1..n {
        let next = if k + 1 < n { k + 1 } else { 1 };
        let other = if k == odd { 0 } else { next };
        if channels {
            text += &format!("C,{},{other},\n", ["i", "o", "b", "b"][random.below(4) as usize]);
        } else {
            text += &format!("E,{:016x},{},{other}\n", if k == odd { 6 } else { 2 }, 0);
        }
    }
    text
}

fn table(random: &mut Random) -> String {
    let n = match random.below(10) {
        0 => 1 + random.below(3),
        1 => 32 + random.below(34),
        2 => random.below(20),
        _ => 2 + random.below(8),
    };
    if n > 1 && n <= 64 && random.below(6) == 0 {
        return ring(random, n);
    }
    let style = random.below(4);
    (0..n).map(|_| line(random, n.clamp(1, 64), style)).collect()
}

// Now and then a byte is changed, added or taken away.
fn damaged(random: &mut Random, text: String) -> Vec<u8> {
    let mut bytes = text.into_bytes();
    if random.below(8) == 0 {
        for _ in 0..1 + random.below(2) {
            if bytes.is_empty() {
                break;
            }
            let at = random.below(bytes.len() as u64) as usize;
            match random.below(4) {
                0 => bytes[at] = random.next() as u8,
                1 => bytes[at] = b"VNCEU,\n0123456789abciob"[random.below(23) as usize],
                2 => bytes.insert(at, b",\n01V"[random.below(5) as usize]),
                _ => {
                    bytes.remove(at);
                }
            }
        }
    }
    bytes
}

fn depth(doc: &Doc) -> usize {
    match doc {
        Doc::Element(_, a, b) => (1 + depth(a)).max(depth(b)),
        _ => 0,
    }
}

// What is wrong with the library's answer to a question, if something is.
fn wrong(ours: &[u8], theirs: &[u8], p: u64, q: u64, t: u64, random: &mut Random) -> Result<&'static str, String> {
    let (result, buffer) = library(ours, theirs, p, q, t, 40000)?;
    match asked(ours, theirs, p, q, t) {
        Outcome::Fault(fault) => {
            if result != fault.packed() {
                return Err(format!("the answer is {result}, and {} is right: {fault:?}", fault.packed()));
            }
            if buffer.iter().any(|b| *b != FILL) {
                return Err("the buffer was touched at a fault".to_string());
            }
            Ok("fault")
        }
        Outcome::Yes => {
            if result != 0 || buffer.iter().any(|b| *b != FILL) {
                return Err(format!("the answer is {result}, and yes is right"));
            }
            Ok("yes")
        }
        Outcome::No { table, below, p: first, q: second } => {
            if result == 45 + 256 * 7 {
                return Ok("no, too long");
            }
            if result & 0xffff != 1 {
                return Err(format!("the answer is {result}, and no is right"));
            }
            let length = (result >> 16) as usize;
            let doc = read_doc(&buffer[..length]).ok_or("what was written is no order")?;
            let fits = table.fits(&below, &doc).ok_or("the order refers to a row that is no channel row")?;
            if fits >> first & 1 != 1 || fits >> second & 1 == 1 {
                return Err(format!("the order {:?} does not tell the rows apart", String::from_utf8_lossy(&buffer[..length])));
            }
            if buffer[length..].iter().any(|b| *b != FILL) {
                return Err("the rest of the buffer was touched".to_string());
            }
            let room = random.below(length as u64 + 2) as usize;
            let (again, short) = library(ours, theirs, p, q, t, room)?;
            let expected = if room < length { 45 + 256 * 7 } else { result };
            if again != expected || (room < length && short.iter().any(|b| *b != FILL)) {
                return Err(format!("with room for {room} of {length} bytes the answer is {again}"));
            }
            Ok(if depth(&doc) > 3 { "no, deep" } else { "no" })
        }
    }
}

fn number(random: &mut Random, n: u64) -> u64 {
    match random.below(40) {
        0 => u64::MAX,
        1 => 256 + random.below(64),
        2 => n,
        _ => random.below(n.max(1)),
    }
}

fn differ(seed: u64, cases: usize) -> bool {
    let mut random = Random(seed.wrapping_mul(0x9e37_79b9_7f4a_7c15) | 1);
    let mut tally: std::collections::BTreeMap<&'static str, usize> = std::collections::BTreeMap::new();
    for case in 0..cases {
        let text = table(&mut random);
        let ours = damaged(&mut random, text.clone());
        let other = if random.below(3) == 0 { text } else { table(&mut random) };
        let theirs = damaged(&mut random, other);
        let lines = |bytes: &[u8]| bytes.iter().filter(|b| **b == b'\n').count() as u64;
        let (p, q) = (number(&mut random, lines(&ours)), number(&mut random, lines(&theirs)));
        let t = [0, 0, 1, 7, u64::MAX][random.below(5) as usize];
        match wrong(&ours, &theirs, p, q, t, &mut random) {
            Ok(sort) => *tally.entry(sort).or_default() += 1,
            Err(why) => {
                println!("case {case} of seed {seed}: {why}");
                println!("p = {p}, q = {q}, t = {t}");
                println!("ours:\n{}theirs:\n{}", String::from_utf8_lossy(&ours), String::from_utf8_lossy(&theirs));
                return false;
            }
        }
    }
    println!("{cases} cases of seed {seed}, no difference: {tally:?}");
    true
}

// Median and worst time of a question, in microseconds, of the library and of the oracle.
fn speed(name: &str, questions: &[(Vec<u8>, Vec<u8>, u64, u64)]) {
    let mut times: Vec<(f64, f64)> = Vec::new();
    let mut buffer = vec![0u8; 32768];
    for (ours, theirs, p, q) in questions {
        let (mut a, mut b) = (f64::MAX, f64::MAX);
        for _ in 0..3 {
            let start = Instant::now();
            unsafe {
                compare(ours.as_ptr(), ours.len(), theirs.as_ptr(), theirs.len(), *p, *q, 0, buffer.as_mut_ptr(), buffer.len());
            }
            a = a.min(start.elapsed().as_secs_f64() * 1e6);
            let start = Instant::now();
            std::hint::black_box(asked(ours, theirs, *p, *q, 0));
            b = b.min(start.elapsed().as_secs_f64() * 1e6);
        }
        times.push((a, b));
    }
    let sorted = |k: usize| {
        let mut all: Vec<f64> = times.iter().map(|t| if k == 0 { t.0 } else { t.1 }).collect();
        all.sort_by(f64::total_cmp);
        (all[all.len() / 2], all[all.len() - 1])
    };
    let ((a, x), (b, y)) = (sorted(0), sorted(1));
    println!("{name}: library median {a:.1}, worst {x:.1}; definitions in Rust median {b:.1}, worst {y:.1} microseconds");
}

fn speeds() {
    let mut random = Random(77);
    for n in [4u64, 16, 32] {
        let mut questions = Vec::new();
        while questions.len() < 200 {
            let style = random.below(4);
            let make = |random: &mut Random| -> Vec<u8> {
                if random.below(2) == 0 { ring(random, n).into_bytes() } else { (0..n).map(|_| line(random, n, style)).collect::<String>().into_bytes() }
            };
            let (ours, theirs) = (make(&mut random), make(&mut random));
            let (p, q) = (random.below(n), random.below(n));
            if !matches!(asked(&ours, &theirs, p, q, 0), Outcome::Fault(_)) {
                questions.push((ours, theirs, p, q));
            }
        }
        speed(&format!("{n} + {n} rows"), &questions);
    }
    // tables made to be slow: halves of two rings of coprime length, and unions that all offer all channels
    let half = |channels: bool, n: u64, odd: u64| -> Vec<u8> {
        let mut text = String::from("V,,,\n");
        for k in 1..n {
            let next = if k == odd { 0 } else if k + 1 < n { k + 1 } else { 1 };
            text += &if channels { format!("C,b,{next},\n") } else { format!("E,0000000000000002,0,{next}\n") };
        }
        text.into_bytes()
    };
    let unions: Vec<u8> = (0..16)
        .map(|k| format!("U,,{},{}\n", 16 + k, (k + 1) % 16))
        .chain((0..16).map(|k| format!("C,b,{k},\n")))
        .collect::<String>()
        .into_bytes();
    speed("elements falling", &[(half(false, 32, 99), half(false, 31, 99), 1, 1), (half(false, 32, 31), half(false, 31, 99), 1, 1)]);
    speed("channels falling", &[(half(true, 32, 99), half(true, 31, 99), 1, 1), (half(true, 32, 31), half(true, 31, 99), 1, 1)]);
    speed("unions of channels", &[(unions.clone(), unions, 0, 1)]);
}

fn main() {
    let words: Vec<u64> = std::env::args().skip(1).map(|w| w.parse().expect("SEED and CASES are numbers")).collect();
    let seed = words.first().copied().unwrap_or(1);
    let cases = words.get(1).copied().unwrap_or(20_000) as usize;
    if !differ(seed, cases) {
        std::process::exit(1);
    }
    speeds();
}
