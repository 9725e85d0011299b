// Gateways that load a server over loopback: connections with a window of requests in flight on each, every one a direct debit. `rustc -O load.rs`;
// no crates.
//
//     load charge PORT GATEWAYS WINDOW REQUESTS PID    charges, and prints what it took: of the clock, and of the processor in the server PID
//     load idle PORT GATEWAYS SECONDS PID              exchanges capabilities, sends nothing, and prints the server's clock ticks meanwhile
//     load disk FOLDER SECONDS FILES OCTETS            prints how many times a second so many files take so many octets more each with fdatasync
//
// The debits are of 64 subscribers, or of as many as the variable LOAD_SUBSCRIBERS says; the gateways begin as far from one another as they can.
//
// Each answer's length, identifier and Result-Code are looked at. The sum that is printed is one of all answers' octets, in whatever order they
// came.

use std::collections::HashSet;
use std::fs::{self, File};
use std::io::{self, BufReader, Error, Read, Write};
use std::net::{Ipv4Addr, TcpStream};
use std::os::unix::fs::FileExt;
use std::sync::Barrier;
use std::thread;
use std::time::{Duration, Instant};

/// The number of subscribers.
fn subscribers() -> u32 {
    std::env::var("LOAD_SUBSCRIBERS").ok().and_then(|word| word.parse().ok()).unwrap_or(64)
}

const OCTETS: u64 = 1001;

#[repr(C)]
struct Timespec {
    seconds: i64,
    nanos: i64,
}

unsafe extern "C" {
    fn clock_getcpuclockid(process: i32, clock: *mut i32) -> i32;
    fn clock_gettime(clock: i32, time: *mut Timespec) -> i32;
}

/// The processor time of all threads of a process, also of those that have ended.
fn processor_time(process: i32) -> io::Result<Duration> {
    let (mut clock, mut time) = (0, Timespec { seconds: 0, nanos: 0 });
    if unsafe { clock_getcpuclockid(process, &mut clock) } != 0 || unsafe { clock_gettime(clock, &mut time) } != 0 {
        return Err(Error::other("no such process"));
    }
    Ok(Duration::new(time.seconds as u64, time.nanos as u32))
}

/// The clock ticks of a process, its own and those of the kernel for it.
fn ticks(process: i32) -> io::Result<[u64; 2]> {
    let stat = fs::read_to_string(format!("/proc/{process}/stat"))?;
    let behind = stat.rsplit(") ").next().unwrap_or_default();
    let words: Vec<&str> = behind.split(' ').collect();
    let number = |at: usize| words.get(at).and_then(|word| word.parse().ok()).ok_or_else(|| Error::other("no stat"));
    Ok([number(11)?, number(12)?])
}

fn avp(out: &mut Vec<u8>, code: u32, flags: u8, value: &[u8]) {
    out.extend_from_slice(&code.to_be_bytes());
    out.extend_from_slice(&(u32::from(flags) << 24 | (8 + value.len()) as u32).to_be_bytes());
    out.extend_from_slice(value);
    out.resize(out.len().next_multiple_of(4), 0);
}

fn must(out: &mut Vec<u8>, code: u32, value: &[u8]) {
    avp(out, code, 0x40, value);
}

/// A request: its header, and what is put behind it.
fn request(flags: u8, command: u32, application: u32, identifier: u32, put: impl FnOnce(&mut Vec<u8>)) -> Vec<u8> {
    let mut out = vec![0; 20];
    put(&mut out);
    let length = out.len() as u32;
    for (at, word) in [0x0100_0000 | length, u32::from(flags) << 24 | command, application, identifier, identifier].into_iter().enumerate() {
        out[4 * at..4 * at + 4].copy_from_slice(&word.to_be_bytes());
    }
    out
}

fn origin(out: &mut Vec<u8>, gateway: u32) {
    must(out, 264, format!("gw{gateway}.example").as_bytes());
    must(out, 296, b"example");
}

fn capabilities(gateway: u32) -> Vec<u8> {
    request(0x80, 257, 0, 0, |out| {
        origin(out, gateway);
        must(out, 257, &[0, 1, 127, 0, 0, 1]);
        must(out, 266, &[0; 4]);
        avp(out, 269, 0, b"load");
        must(out, 258, &4u32.to_be_bytes());
    })
}

fn disconnection(gateway: u32) -> Vec<u8> {
    request(0x80, 282, 0, u32::MAX, |out| {
        origin(out, gateway);
        must(out, 273, &[0; 4]);
    })
}

/// A direct debit. A gateway's debits are of all subscribers in turn, each under a number of its own.
fn debit(gateway: u32, number: u32, subscribers: u32) -> Vec<u8> {
    request(0xc0, 272, 4, number, |out| {
        must(out, 263, format!("gw{gateway}.example;1;1").as_bytes());
        origin(out, gateway);
        must(out, 283, b"example");
        must(out, 258, &4u32.to_be_bytes());
        must(out, 461, b"data@example");
        must(out, 416, &4u32.to_be_bytes());
        must(out, 415, &number.to_be_bytes());
        must(out, 436, &[0; 4]);
        let mut inner = Vec::new();
        must(&mut inner, 450, &[0; 4]);
        must(&mut inner, 444, format!("4917{:08}", (number + gateway * (subscribers / 64).max(1)) % subscribers).as_bytes());
        must(out, 443, &inner);
        inner.clear();
        must(&mut inner, 421, &OCTETS.to_be_bytes());
        must(out, 437, &inner);
    })
}

/// The next message, which is looked at as far as every answer goes.
fn answer(from: &mut impl Read) -> io::Result<Vec<u8>> {
    let mut message = vec![0; 20];
    from.read_exact(&mut message)?;
    let length = u32::from_be_bytes([0, message[1], message[2], message[3]]) as usize;
    if length < 20 || message[4] & 0x80 != 0 {
        return Err(Error::other("no answer"));
    }
    message.resize(length, 0);
    from.read_exact(&mut message[20..])?;
    Ok(message)
}

/// The Result-Code of a message, among its own AVPs.
fn result_code(message: &[u8]) -> Option<u32> {
    let mut rest = message.get(20..)?;
    while rest.len() >= 8 {
        let length = u32::from_be_bytes([0, rest[5], rest[6], rest[7]]) as usize;
        if rest[..4] == 268u32.to_be_bytes() {
            return Some(u32::from_be_bytes(rest.get(8..12)?.try_into().ok()?));
        }
        rest = rest.get(length.max(8).next_multiple_of(4)..)?;
    }
    None
}

fn succeeded(message: &[u8]) -> io::Result<()> {
    match result_code(message) {
        Some(2001) => Ok(()),
        code => Err(Error::other(format!("Result-Code {code:?}"))),
    }
}

fn mark(message: &[u8]) -> u64 {
    message.iter().fold(0xcbf2_9ce4_8422_2325, |sum, octet| (sum ^ u64::from(*octet)).wrapping_mul(0x0000_0100_0000_01b3))
}

struct Gateway {
    number: u32,
    output: TcpStream,
    input: BufReader<TcpStream>,
}

impl Gateway {
    fn connect(port: u16, number: u32) -> io::Result<Gateway> {
        let output = TcpStream::connect((Ipv4Addr::LOCALHOST, port))?;
        output.set_nodelay(true)?;
        output.set_read_timeout(Some(Duration::from_secs(60)))?;
        let input = BufReader::with_capacity(1 << 16, output.try_clone()?);
        Ok(Gateway { number, output, input })
    }

    fn ask(&mut self, octets: &[u8]) -> io::Result<()> {
        self.output.write_all(octets)?;
        succeeded(&answer(&mut self.input)?)
    }

    /// Keeps a window of debits in flight until all are answered; the sum of the answers.
    fn charge(&mut self, window: u32, requests: u32) -> io::Result<u64> {
        let mut sum = 0u64;
        let (mut sent, mut taken) = (0, 0);
        let (mut due, subscribers) = (HashSet::new(), subscribers());
        while taken < requests {
            let mut piece = Vec::new();
            while sent < requests && sent - taken < window {
                piece.extend_from_slice(&debit(self.number, sent, subscribers));
                due.insert(sent);
                sent += 1;
            }
            self.output.write_all(&piece)?;
            sum = sum.wrapping_add(self.take(&mut due)?);
            taken += 1;
            while taken < requests && !self.input.buffer().is_empty() {
                sum = sum.wrapping_add(self.take(&mut due)?);
                taken += 1;
            }
        }
        Ok(sum)
    }

    fn take(&mut self, due: &mut HashSet<u32>) -> io::Result<u64> {
        let message = answer(&mut self.input)?;
        succeeded(&message)?;
        let identifier = u32::from_be_bytes([message[12], message[13], message[14], message[15]]);
        if !due.remove(&identifier) {
            return Err(Error::other("an answer to nothing"));
        }
        Ok(mark(&message))
    }
}

fn connected(port: u16, gateways: u32) -> io::Result<Vec<Gateway>> {
    let mut all = (0..gateways).map(|number| Gateway::connect(port, number)).collect::<io::Result<Vec<_>>>()?;
    for gateway in &mut all {
        gateway.ask(&capabilities(gateway.number))?;
    }
    Ok(all)
}

fn leave(all: &mut [Gateway]) -> io::Result<()> {
    all.iter_mut().try_for_each(|gateway| gateway.ask(&disconnection(gateway.number)))
}

/// All gateways at once, each in a thread of its own.
fn charge(port: u16, gateways: u32, window: u32, requests: u32, server: i32) -> io::Result<()> {
    let mut all = connected(port, gateways)?;
    let gate = Barrier::new(all.len() + 1);
    let (processor, before) = (processor_time(server)?, ticks(server)?);
    let (sums, took) = thread::scope(|scope| {
        let running: Vec<_> = all
            .iter_mut()
            .map(|gateway| {
                let gate = &gate;
                scope.spawn(move || {
                    gate.wait();
                    gateway.charge(window, requests)
                })
            })
            .collect();
        gate.wait();
        let begun = Instant::now();
        let sums: io::Result<Vec<u64>> = running.into_iter().map(|thread| thread.join().expect("a gateway's thread")).collect();
        (sums, begun.elapsed())
    });
    let sum = sums?.into_iter().fold(0u64, u64::wrapping_add);
    let (processor, after) = (processor_time(server)? - processor, ticks(server)?);
    leave(&mut all)?;
    let answers = u64::from(gateways) * u64::from(requests);
    let [own, kernel] = [after[0] - before[0], after[1] - before[1]];
    println!("answers {answers} sum {sum:016x} nanoseconds {} processor {} ticks {own} {kernel}", took.as_nanos(), processor.as_nanos());
    Ok(())
}

fn idle(port: u16, gateways: u32, seconds: u64, server: i32) -> io::Result<()> {
    let mut all = connected(port, gateways)?;
    let before = ticks(server)?;
    thread::sleep(Duration::from_secs(seconds));
    let after = ticks(server)?;
    leave(&mut all)?;
    println!("ticks {} {}", after[0] - before[0], after[1] - before[1]);
    Ok(())
}

/// Appends to a new file, each time with what makes it lasting; how many.
fn commits(path: &str, begun: Instant, seconds: u64, octets: u64) -> io::Result<u64> {
    let file = File::create(path)?;
    let piece = vec![1; octets as usize];
    let mut count = 0;
    while begun.elapsed().as_secs() < seconds {
        file.write_all_at(&piece, octets * count)?;
        file.sync_data()?;
        count += 1;
    }
    fs::remove_file(path)?;
    Ok(count)
}

/// So many files at once, each in a thread of its own.
fn disk(folder: &str, seconds: u64, files: u32, octets: u64) -> io::Result<()> {
    let begun = Instant::now();
    let threads: Vec<_> = (0..files)
        .map(|number| {
            let path = format!("{folder}/commits-{number}");
            thread::spawn(move || commits(&path, begun, seconds, octets))
        })
        .collect();
    let counts: io::Result<Vec<u64>> = threads.into_iter().map(|thread| thread.join().expect("a file's thread")).collect();
    let count: u64 = counts?.into_iter().sum();
    println!("commits {count} nanoseconds {}", begun.elapsed().as_nanos());
    Ok(())
}

fn main() -> io::Result<()> {
    let words: Vec<String> = std::env::args().skip(1).collect();
    let number = |at: usize| words.get(at).and_then(|word| word.parse::<u32>().ok());
    let asked = (words.first().map(String::as_str), number(1), number(2), number(3), number(4), number(5));
    match asked {
        (Some("charge"), Some(port), Some(gateways), Some(window), Some(requests), Some(server)) => {
            charge(port as u16, gateways, window, requests, server as i32)
        }
        (Some("idle"), Some(port), Some(gateways), Some(seconds), Some(server), None) => {
            idle(port as u16, gateways, u64::from(seconds), server as i32)
        }
        (Some("disk"), None, Some(seconds), Some(files), Some(octets), None) => disk(&words[1], u64::from(seconds), files, u64::from(octets)),
        _ => Err(Error::other("usage: charge PORT GATEWAYS WINDOW REQUESTS PID, idle PORT GATEWAYS SECONDS PID, or disk FOLDER SECONDS FILES OCTETS")),
    }
}
