// A server of direct debits in plain Rust that keeps as much as `dcc serve` over records in memory: the threads of threads.rs, what a message comes to by
// dispatch.rs, accounts with their acts and records beside them by accounts.rs, and a receipt of each answer, compared with the accounts at the end.
// `rustc -O keeper.rs`; no crates.
//
//     keeper GATEWAYS SHARDS
//
// It prints what a round of `dcc serve` prints. A request that isn't a direct debit which is granted ends the connection, or the program.

// Of these files a server of debits needs a part.
#![allow(dead_code)]

include!("codec.rs");
include!("dispatch.rs");
include!("accounts.rs");
include!("threads.rs");

use std::time::SystemTime;

/// The plan and the server's names, which a reader judges messages by.
struct Terms {
    plan: Plan,
    server: Server,
}

impl Default for Terms {
    fn default() -> Terms {
        let rating = Rating { group: 10, unit: Unit::Octets, tariffs: vec![(0, Tariff { price: 5, block: 1000 })] };
        Terms { plan: Plan { ratings: vec![rating], default_group: 10, quantum: 100_000 }, server: make_server() }
    }
}

/// What a reader hands to a shard: an act, and where its answer goes.
struct Job {
    subscriber: Subscriber,
    act: Act,
    header: Header,
    proxies: Vec<u8>,
    to: SyncSender<Vec<u8>>,
}

/// That an act was answered so.
struct Receipt {
    subscriber: Subscriber,
    act: Act,
    header: Header,
    proxies: Vec<u8>,
    answer: Vec<u8>,
}

fn work(jobs: Receiver<Job>) -> Counts {
    let server = make_server();
    let mut shard = Shard::default();
    let mut receipts = Vec::new();
    for Job { subscriber, act, header, proxies, to } in jobs {
        if !shard.accounts.contains_key(&subscriber) {
            shard.top_up(subscriber, 0, FUNDS);
        }
        let answer = shard.step(&server, &subscriber, act.clone(), &header, &proxies);
        receipts.push(Receipt { subscriber, act, header, proxies, answer: answer.clone() });
        // a gateway that has gone wants no answer
        let _gone = to.send(answer);
    }
    let acts = shard.accounts.values().map(|account| account.requests.len() as u64).sum();
    assert!(receipts.iter().all(|receipt| is_true(&server, &shard, receipt)), "a receipt that isn't true");
    Counts { requests: receipts.len() as u64, acts }
}

/// Whether the account has the act, and its outcome gives the octets that were answered.
fn is_true(server: &Server, shard: &Shard, receipt: &Receipt) -> bool {
    let account = &shard.accounts[&receipt.subscriber];
    let Some(done) = account.requests.get(&receipt.act.key).map(|place| &account.acts[*place]) else { return false };
    done.act.key == receipt.act.key && write_answer(server, &done.outcome, &receipt.header, &receipt.proxies) == receipt.answer
}

/// What a message comes to: an act, and the shard that it is for.
fn handed(terms: &Terms, message: &[u8], to: &SyncSender<Vec<u8>>, shards: usize) -> Option<(usize, Job)> {
    let moment = SystemTime::now().duration_since(SystemTime::UNIX_EPOCH).ok()?.as_secs();
    let mut peer = Peer::Open(Vec::new());
    match dispatch(&terms.plan, &terms.server, &mut peer, moment, message) {
        Dispatched::Asked { subscriber, act, header, proxies } => {
            Some((shard_of(&subscriber, shards), Job { subscriber, act, header, proxies, to: to.clone() }))
        }
        Dispatched::Replied(_) => None,
    }
}
