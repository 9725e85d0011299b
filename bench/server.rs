// A server of direct debits in plain Rust, to stand beside `dcc serve`: the threads of threads.rs, the checks of codec.rs, and maps in memory as its
// accounts. `rustc -O server.rs`; no crates.
//
//     server GATEWAYS SHARDS
//
// It prints what a round of `dcc serve` prints. A request that isn't a direct debit which is granted ends the connection.

// Of codec.rs a server of debits needs a part.
#![allow(dead_code)]

use std::collections::HashMap;

include!("codec.rs");
include!("threads.rs");

const PRICE: u64 = 5;
const BLOCK: u64 = 1000;
const DEBIT: u32 = 4;

/// A reader needs to know nothing of prices.
#[derive(Default)]
struct Terms;

/// What a reader hands to a shard: a debit, and where its answer goes.
struct Job {
    subscriber: [u8; 65],
    session: Vec<u8>,
    number: u32,
    units: u64,
    header: Header,
    proxies: Vec<u8>,
    to: SyncSender<Vec<u8>>,
}

/// An account keeps the answers to its debits for repeats.
struct Account {
    funds: u64,
    kept: HashMap<(Vec<u8>, u32), u64>,
}

fn subscriber_key(subscriber: &Subscriber) -> [u8; 65] {
    let mut key = [0; 65];
    key[0] = subscriber.kind;
    key[1..].copy_from_slice(&subscriber.name);
    key
}

/// The type of the subscriber and the sum of its octets, by the number of shards.
fn shard_of(subscriber: &[u8; 65], shards: usize) -> usize {
    subscriber.iter().map(|octet| usize::from(*octet)).sum::<usize>() % shards
}

/// What a debit is granted, and whether it was made now. None if its price isn't covered.
fn charged(accounts: &mut HashMap<[u8; 65], Account>, job: &Job) -> Option<(u64, bool)> {
    let account = accounts.entry(job.subscriber).or_insert_with(|| Account { funds: FUNDS, kept: HashMap::new() });
    let key = (job.session.clone(), job.number);
    if let Some(granted) = account.kept.get(&key) {
        return Some((*granted, false));
    }
    account.funds = account.funds.checked_sub(job.units.div_ceil(BLOCK) * PRICE)?;
    account.kept.insert(key, job.units);
    Some((job.units, true))
}

/// What a debit comes to that is granted so much.
fn debited(session: Vec<u8>, number: u32, units: u64) -> Outcome {
    let grant = Some((Unit::Octets, units));
    let service = Granted { form: Form::Single, group: None, ids: Vec::new(), result: 2001, grant, is_final: false };
    Outcome { session, kind: DEBIT, number, result: 2001, services: vec![service] }
}

fn work(jobs: Receiver<Job>) -> Counts {
    let server = make_server();
    let mut accounts = HashMap::new();
    let mut counts = Counts::default();
    for job in jobs {
        counts.requests += 1;
        let Some((granted, fresh)) = charged(&mut accounts, &job) else { continue };
        counts.acts += u64::from(fresh);
        let outcome = debited(job.session, job.number, granted);
        // a gateway that has gone wants no answer
        let _gone = job.to.send(write_answer(&server, &outcome, &job.header, &job.proxies));
    }
    counts
}

/// What a message comes to: a debit, and the shard that it is for.
fn handed(_terms: &Terms, message: &[u8], to: &SyncSender<Vec<u8>>, shards: usize) -> Option<(usize, Job)> {
    let header = read_header(message)?;
    let avps = read_list(&message[20..]).ok()?;
    let request = read_request(&avps).ok()?;
    let units = request.services.first()?.asked?.octets;
    if request.kind != DEBIT || header.code != 272 || header.app != 4 {
        return None;
    }
    let job = Job {
        subscriber: subscriber_key(&request.subscriber),
        session: request.session.to_vec(),
        number: request.number,
        units,
        header,
        proxies: proxies(&avps),
        to: to.clone(),
    };
    Some((shard_of(&job.subscriber, shards), job))
}
