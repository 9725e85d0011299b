// The threads of a server of direct debits in plain Rust: one that reads and one that writes for each gateway, one that charges for each shard, and lanes of
// so many items between them as `dcc serve` has. The programs beside this file include it, behind codec.rs: server.rs and keeper.rs.
//
// They say what a `Job` is, how a message is handed on (`handed`), and what a shard does with its jobs (`work`).

use std::io::{self, Read, Write};
use std::net::{TcpListener, TcpStream};
use std::sync::mpsc::{Receiver, SyncSender, sync_channel};
use std::thread;

const LANE: usize = 256;
const PIECE: usize = 4096;

/// What each subscriber has, in minor units.
const FUNDS: u64 = 1_000_000_000_000;

/// What a shard has done at its end.
#[derive(Default)]
struct Counts {
    requests: u64,
    acts: u64,
}

fn make_server() -> Server {
    Server { host: b"ocs.example".to_vec(), realm: b"example".to_vec(), validity: 600 }
}

/// Writes the answers to a gateway; how many.
fn write_gate(mut output: TcpStream, answers: Receiver<Vec<u8>>) -> u64 {
    let mut count = 0;
    for answer in answers {
        count += u64::from(output.write_all(&answer).is_ok());
    }
    count
}

/// The answer to a request of the base protocol.
fn base_answer(header: &Header) -> Vec<u8> {
    let mut out = vec![0; 20];
    put(&mut out, 268, &2001u32.to_be_bytes());
    put(&mut out, 264, b"ocs.example");
    put(&mut out, 296, b"example");
    if header.code == 257 {
        put(&mut out, 257, &[0, 1, 127, 0, 0, 1]);
        put(&mut out, 266, &[0; 4]);
        put(&mut out, 269, b"plain");
        put(&mut out, 258, &4u32.to_be_bytes());
    }
    let words = [0x0100_0000 | out.len() as u32, header.code, header.app, header.hop, header.end_to_end];
    for (place, word) in words.into_iter().enumerate() {
        out[4 * place..4 * place + 4].copy_from_slice(&word.to_be_bytes());
    }
    out
}

/// Hands a message on. False if the connection ends behind it.
fn hand_on(terms: &Terms, message: &[u8], to: &SyncSender<Vec<u8>>, shards: &[SyncSender<Job>]) -> bool {
    let Some(header) = read_header(message) else { return false };
    if header.app == 0 {
        return to.send(base_answer(&header)).is_ok() && header.code != 282;
    }
    match handed(terms, message, to, shards.len()) {
        Some((shard, job)) => shards[shard].send(job).is_ok(),
        None => false,
    }
}

/// Reads a gateway's messages until it leaves.
fn read_gate(mut input: TcpStream, to: SyncSender<Vec<u8>>, shards: Vec<SyncSender<Job>>) -> io::Result<()> {
    let terms = Terms::default();
    let mut stream = Vec::new();
    let mut piece = [0; PIECE];
    loop {
        let count = input.read(&mut piece)?;
        if count == 0 {
            return Ok(());
        }
        stream.extend_from_slice(&piece[..count]);
        let mut begin = 0;
        while let Some(length) = u32_at(&stream, begin).map(|word| (word & 0xff_ffff) as usize) {
            let Some(message) = stream.get(begin..begin + length.max(20)) else { break };
            if !hand_on(&terms, message, &to, &shards) {
                return Ok(());
            }
            begin += length;
        }
        stream.drain(..begin);
    }
}

fn main() -> io::Result<()> {
    let mut numbers = std::env::args().skip(1).map(|word| word.parse::<usize>().expect("usage: GATEWAYS SHARDS"));
    let (gateways, shards) = (numbers.next().unwrap_or(1), numbers.next().unwrap_or(1));
    let listener = TcpListener::bind(("127.0.0.1", 0))?;
    println!("listening {}", listener.local_addr()?);
    let streams = (0..gateways).map(|_| Ok(listener.accept()?.0)).collect::<io::Result<Vec<TcpStream>>>()?;
    let mut senders = Vec::new();
    let mut workers = Vec::new();
    for _ in 0..shards {
        let (sender, receiver) = sync_channel(LANE);
        senders.push(sender);
        workers.push(thread::spawn(move || work(receiver)));
    }
    let (mut readers, mut writers) = (Vec::new(), Vec::new());
    for stream in streams {
        stream.set_nodelay(true)?;
        let input = stream.try_clone()?;
        let (sender, receiver) = sync_channel(LANE);
        let shards = senders.clone();
        readers.push(thread::spawn(move || read_gate(input, sender, shards)));
        writers.push(thread::spawn(move || write_gate(stream, receiver)));
    }
    drop(senders);
    for reader in readers {
        reader.join().expect("a reader")?;
    }
    let counts: Vec<Counts> = workers.into_iter().map(|worker| worker.join().expect("a worker")).collect();
    let answers: u64 = writers.into_iter().map(|writer| writer.join().expect("a writer")).sum();
    let (requests, acts) = counts.iter().fold((0, 0), |sum, counts| (sum.0 + counts.requests, sum.1 + counts.acts));
    println!("round 1 requests {requests} answers {answers} acts {acts}");
    Ok(())
}
