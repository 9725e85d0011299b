// The same work in plain Rust, as one would write it without a framework: `rustc -O baseline.rs`; no crates. It prints what `dcc_bench codec N` prints.

// Of codec.rs, which the servers beside this file include too, it needs a part.
#![allow(dead_code)]

use std::hint::black_box;
use std::time::Duration;

const ROUNDS: usize = 7;

const REQUEST: &str = "010000e4c0000110000000040000000000000000\
00000107400000176777312e6578616d706c653b313b3100\
00000108400000136777312e6578616d706c6500000001284000000f6578616d706c6500\
0000011b4000000f6578616d706c6500000001024000000c00000004000001cd4000001464617461406578616d706c65\
000001a04000000c000000040000019f4000000c00000000000001b44000000c00000000000001bb40000028\
000001c24000000c00000000000001bc40000014343931373030303030303030000001b540000018000001a54000001000000000000003e9";

include!("codec.rs");

type Measured<T> = Result<T, &'static str>;

fn octets_of(hex: &str) -> Vec<u8> {
    let digits: Vec<u8> = hex.bytes().map(|c| (c as char).to_digit(16).expect("hex") as u8).collect();
    digits.chunks(2).map(|pair| pair[0] << 4 | pair[1]).collect()
}

fn make_server() -> Server {
    Server { host: b"ocs.example".to_vec(), realm: b"example".to_vec(), validity: 600 }
}

/// The outcome of the sample debit: 1,001 octets are granted.
fn debited() -> Outcome {
    let service = Granted {
        form: Form::Single,
        group: None,
        ids: Vec::new(),
        result: 2001,
        grant: Some((Unit::Octets, 1001)),
        is_final: false,
    };
    Outcome { session: b"gw1.example;1;1".to_vec(), kind: 4, number: 0, result: 2001, services: vec![service] }
}

fn set(debit: &mut [u8], i: u32) {
    debit[12..16].copy_from_slice(&i.to_be_bytes());
    debit[16..20].copy_from_slice(&i.to_be_bytes());
    debit[148..152].copy_from_slice(&i.to_be_bytes());
}

fn marked(mark: u64, octets: &[u8], place: u32) -> u64 {
    mark.rotate_left(5) ^ u64::from(octets.get((place & 127) as usize).copied().unwrap_or(0))
}

const START: u64 = 0xcbf2_9ce4_8422_2325;

fn summed(sum: u64, octets: &[u8]) -> u64 {
    octets.iter().fold(sum, |sum, octet| (sum ^ u64::from(*octet)).wrapping_mul(0x0000_0100_0000_01b3))
}

/// A debit read whole: its header, its list, its proxies, and what it asks for.
fn read(octets: &[u8]) -> Measured<(Header, Vec<u8>)> {
    let header = read_header(octets).ok_or("no header")?;
    let avps = read_list(&octets[20..]).map_err(|_| "no list")?;
    let proxies = proxies(&avps);
    black_box(read_request(&avps).map_err(|_| "no request")?);
    Ok((header, proxies))
}

fn list_all(debit: &mut [u8], count: u32) -> Measured<u64> {
    let mut mark = 0u64;
    for i in 0..count {
        set(debit, i);
        let header = read_header(debit).ok_or("no header")?;
        let avps = read_list(&debit[20..]).map_err(|_| "no list")?;
        mark = mark.rotate_left(5) ^ u64::from(header.hop) ^ black_box(&avps).len() as u64;
    }
    Ok(mark)
}

fn read_all(debit: &mut [u8], count: u32) -> Measured<u64> {
    let mut mark = 0u64;
    for i in 0..count {
        set(debit, i);
        let (header, proxies) = read(debit)?;
        mark = mark.rotate_left(5) ^ u64::from(header.hop) ^ proxies.len() as u64;
    }
    Ok(mark)
}

fn write_all(server: &Server, said: &Outcome, debit: &[u8], count: u32) -> Measured<u64> {
    let mut header = read_header(debit).ok_or("no header")?;
    let mut mark = 0;
    for i in 0..count {
        header.hop = i;
        header.end_to_end = i;
        mark = marked(mark, &write_answer(server, said, &header, &[]), i);
    }
    Ok(mark)
}

fn answer(server: &Server, said: &Outcome, octets: &[u8]) -> Measured<Vec<u8>> {
    let (header, proxies) = read(octets)?;
    Ok(write_answer(server, said, &header, &proxies))
}

fn answer_all(server: &Server, said: &Outcome, debit: &mut [u8], count: u32) -> Measured<u64> {
    let mut mark = 0;
    for i in 0..count {
        set(debit, i);
        mark = marked(mark, &answer(server, said, debit)?, i);
    }
    Ok(mark)
}

fn sum_of_answers(server: &Server, said: &Outcome, debit: &mut [u8], count: u32) -> Measured<u64> {
    let mut sum = START;
    for i in 0..count {
        set(debit, i);
        sum = summed(sum, &answer(server, said, debit)?);
    }
    Ok(sum)
}

/// The debits of `dcc_bench codec N`.
fn codec(count: u32) -> Measured<()> {
    let (server, said) = (make_server(), debited());
    let mut debit = octets_of(REQUEST);
    let mut mark = timed("codec list", count, || list_all(&mut debit, count))?;
    mark ^= timed("codec read", count, || read_all(&mut debit, count))?;
    mark ^= timed("codec write", count, || write_all(&server, &said, &debit, count))?;
    mark ^= timed("codec both", count, || answer_all(&server, &said, &mut debit, count))?;
    let sum = sum_of_answers(&server, &said, &mut debit, count)?;
    println!("codec {count} answers {sum:016x} mark {mark:016x}");
    Ok(())
}

#[repr(C)]
struct Timespec {
    seconds: i64,
    nanos: i64,
}

unsafe extern "C" {
    fn clock_gettime(clock: i32, time: *mut Timespec) -> i32;
}

/// The processor time of the thread, as the measured program takes it (CLOCK_THREAD_CPUTIME_ID of Linux).
fn now() -> Duration {
    let mut time = Timespec { seconds: 0, nanos: 0 };
    assert_eq!(unsafe { clock_gettime(3, &mut time) }, 0);
    Duration::new(time.seconds as u64, time.nanos as u32)
}

/// Measures a thing in rounds of so many items, each of which gives the same mark, and returns the times for one item.
fn timed(name: &str, items: u32, mut round: impl FnMut() -> Measured<u64>) -> Measured<u64> {
    let mut rounds = Vec::new();
    let mut mark = 0;
    for _ in 0..ROUNDS {
        let begin = now();
        mark ^= round()?;
        rounds.push(now() - begin);
    }
    report(name, rounds, items);
    Ok(mark)
}

fn report(name: &str, mut rounds: Vec<Duration>, items: u32) {
    rounds.sort_unstable();
    let picoseconds = |round: Duration| round.as_nanos() as u64 * 1000 / u64::from(items.max(1));
    let (least, median, most) = (picoseconds(rounds[0]), picoseconds(rounds[ROUNDS / 2]), picoseconds(rounds[ROUNDS - 1]));
    eprintln!("{name}: median {median}, least {least}, most {most} picoseconds, {ROUNDS} rounds of {items}");
}

fn main() -> Measured<()> {
    let words: Vec<String> = std::env::args().skip(1).collect();
    let numbers: Option<Vec<u32>> = words.iter().skip(1).map(|word| word.parse().ok()).collect();
    match (words.first().map(String::as_str), numbers.as_deref()) {
        (Some("codec"), Some(&[count])) => codec(count),
        _ => Err("usage: codec N"),
    }
}
