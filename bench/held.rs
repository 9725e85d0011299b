// The memory of accounts in plain Rust, whose acts are held beside no records: so many direct debits of so many subscribers. `rustc -O held.rs`; no crates.
//
//     held SUBSCRIBERS DEBITS
//
// It prints the resident octets of its process.

// Of these files accounts of debits need a part.
#![allow(dead_code)]

include!("codec.rs");
include!("dispatch.rs");
include!("accounts.rs");

const MOMENT: u64 = 1_748_736_000;

fn debit(number: u32) -> Act {
    let service = Asked {
        group: None,
        ids: Vec::new(),
        form: Form::Single,
        asked: Some(1000),
        used: None,
        unit: Some(Unit::Octets),
        tariff: Some(Tariff { price: 5, block: 1000 }),
    };
    let key = RequestKey { session: b"gw1.example;1;1".to_vec(), number };
    Act { moment: MOMENT, kind: 4, action: 0, key, services: vec![service] }
}

fn main() {
    let mut words = std::env::args().skip(1).map(|word| word.parse::<u32>().expect("a number"));
    let (subscribers, debits) = (words.next().expect("subscribers"), words.next().expect("debits"));
    let mut accounts: HashMap<Subscriber, Account> = HashMap::new();
    for place in 0..subscribers {
        let account = accounts.entry(subscriber_of(0, format!("4917{place:08}").as_bytes())).or_default();
        account.top_up(MOMENT, 1, 1_000_000_000_000);
        for number in 0..debits {
            let step = account.prepare(debit(number));
            account.install(step);
        }
    }
    let status = std::fs::read_to_string("/proc/self/status").expect("the status of the process");
    let resident = status.lines().find_map(|line| line.strip_prefix("VmRSS:")).expect("its resident memory");
    let kilobytes: u64 = resident.trim().trim_end_matches(" kB").parse().expect("a number");
    println!("{}", kilobytes * 1024);
    // The accounts stand until they are measured.
    assert!(accounts.values().all(|account| account.acts.len() > debits as usize));
}
