// Accounts and records in memory, in plain Rust: what a debit looks up, copies and pushes, and what a repeat does. The programs beside this file include it,
// behind codec.rs and dispatch.rs.

use std::collections::{HashMap, HashSet};

#[derive(Clone)]
#[allow(dead_code)]
struct Entry {
    place: u64,
    moment: u64,
    group: Option<u32>,
    units: u64,
    amount: i64,
    session: Vec<u8>,
}

/// An act with what it came to.
#[allow(dead_code)]
struct Done {
    act: Act,
    outcome: Outcome,
}

/// The acts of a subscriber with their entries; the places of requests, by session and number, and of top-ups, by ticket; and the sessions that
/// were opened.
#[derive(Default)]
struct Account {
    funds: i128,
    acts: Vec<Done>,
    entries: Vec<Entry>,
    requests: HashMap<RequestKey, usize>,
    tickets: HashMap<u64, usize>,
    opened: HashSet<Vec<u8>>,
}

/// The kind of a top-up, which is no request.
const TOP_UP: u32 = 0;

/// An act that was judged and isn't installed yet.
struct Step {
    act: Act,
    outcome: Outcome,
    entry: Option<Entry>,
    is_new: bool,
}

/// A direct debit that funds or open sessions don't bear is none of those that are measured.
const NO_DEBIT: &str = "a debit that is granted";

/// What a service is granted that asks for units.
fn granted(service: &Asked) -> Granted {
    Granted {
        form: service.form,
        group: service.group,
        ids: service.ids.clone(),
        result: 2001,
        grant: service.unit.zip(service.asked),
        is_final: false,
    }
}

impl Account {
    fn prepare(&self, act: Act) -> Step {
        if let Some(place) = self.requests.get(&act.key) {
            let outcome = self.acts[*place].outcome.clone();
            return Step { act, outcome, entry: None, is_new: false };
        }
        assert!(!self.opened.contains(&act.key.session), "{NO_DEBIT}");
        let [service] = act.services.as_slice() else { panic!("{NO_DEBIT}") };
        let units = service.asked.expect(NO_DEBIT);
        let tariff = service.tariff.expect(NO_DEBIT);
        let cost = i128::from(units.div_ceil(tariff.block)) * i128::from(tariff.price);
        assert!(cost <= self.funds, "{NO_DEBIT}");
        let RequestKey { session, number } = act.key.clone();
        let entry = Entry {
            place: self.acts.len() as u64 + 1,
            moment: act.moment,
            group: service.group,
            units,
            amount: -cost as i64,
            session: session.clone(),
        };
        let outcome = Outcome { session, kind: act.kind, number, result: 2001, services: vec![granted(service)] };
        Step { act, outcome, entry: Some(entry), is_new: true }
    }

    /// A top-up, which is made at once.
    fn top_up(&mut self, moment: u64, ticket: u64, amount: u64) -> (Act, Entry) {
        let (session, number) = (Vec::new(), 0);
        let act = Act { moment, kind: TOP_UP, action: 0, key: RequestKey { session: session.clone(), number }, services: Vec::new() };
        let outcome = Outcome { session: session.clone(), kind: TOP_UP, number, result: 2001, services: Vec::new() };
        let place = self.acts.len() as u64 + 1;
        let entry = Entry { place, moment, group: None, units: 0, amount: amount as i64, session };
        self.tickets.insert(ticket, self.acts.len());
        self.install(Step { act: act.clone(), outcome, entry: Some(entry.clone()), is_new: true });
        (act, entry)
    }

    /// The first request of a session, which is granted what the service asks for.
    fn open(&mut self, act: Act) {
        self.opened.insert(act.key.session.clone());
        let RequestKey { session, number } = act.key.clone();
        let services = act.services.iter().map(granted).collect();
        let outcome = Outcome { session, kind: act.kind, number, result: 2001, services };
        self.install(Step { act, outcome, entry: None, is_new: true });
    }

    fn install(&mut self, step: Step) {
        let Step { act, outcome, entry, is_new } = step;
        if !is_new {
            return;
        }
        if act.kind != TOP_UP {
            self.requests.insert(act.key.clone(), self.acts.len());
        }
        self.acts.push(Done { act, outcome });
        if let Some(entry) = entry {
            self.funds += i128::from(entry.amount);
            self.entries.push(entry);
        }
    }
}

/// What records keep of a subscriber.
#[derive(Default)]
struct Kept {
    acts: Vec<Act>,
    entries: Vec<Entry>,
}

/// The accounts of a shard, and its records in memory.
#[derive(Default)]
struct Shard {
    accounts: HashMap<Subscriber, Account>,
    records: HashMap<Subscriber, Kept>,
}

impl Shard {
    fn top_up(&mut self, subscriber: Subscriber, moment: u64, amount: u64) {
        let (act, entry) = self.accounts.entry(subscriber).or_default().top_up(moment, 1, amount);
        let row = self.records.entry(subscriber).or_default();
        row.acts.push(act);
        row.entries.push(entry);
    }

    /// Makes an act, and writes its answer: it is in the records before the account changes.
    fn step(&mut self, server: &Server, subscriber: &Subscriber, act: Act, header: &Header, proxies: &[u8]) -> Vec<u8> {
        let step = self.accounts.get(subscriber).expect("an account").prepare(act);
        let answer = write_answer(server, &step.outcome, header, proxies);
        if step.is_new {
            let row = self.records.entry(*subscriber).or_default();
            row.acts.push(step.act.clone());
            row.entries.extend(step.entry.clone());
        }
        if let Some(account) = self.accounts.get_mut(subscriber) {
            account.install(step);
        }
        answer
    }
}

/// The type of the subscriber and the sum of its octets, by the number of shards.
fn shard_of(subscriber: &Subscriber, shards: usize) -> usize {
    let name = &subscriber.name[..usize::from(subscriber.len)];
    (usize::from(subscriber.kind) + name.iter().map(|octet| usize::from(*octet)).sum::<usize>()) % shards
}

fn subscriber_of(kind: u8, octets: &[u8]) -> Subscriber {
    let mut name = [0; 64];
    name[..octets.len()].copy_from_slice(octets);
    Subscriber { kind, len: octets.len() as u8, name }
}
