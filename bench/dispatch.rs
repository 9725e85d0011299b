// What a message comes to, in plain Rust: a capabilities exchange is answered, and a credit-control request is refused or asks its subscriber's account for
// the act that the plan makes of it. The programs beside this file include it, behind codec.rs.

/// What units of a group cost from a moment on: so much for each block.
#[derive(Clone, Copy)]
struct Tariff {
    price: u32,
    block: u64,
}

/// A group's tariffs, each from a moment on, in order.
struct Rating {
    group: u32,
    unit: Unit,
    tariffs: Vec<(u64, Tariff)>,
}

struct Plan {
    ratings: Vec<Rating>,
    default_group: u32,
    quantum: u64,
}

impl Plan {
    fn rating(&self, group: u32) -> Option<&Rating> {
        let place = self.ratings.binary_search_by_key(&group, |rating| rating.group).ok()?;
        Some(&self.ratings[place])
    }

    fn at(&self, group: u32, moment: u64) -> Option<Tariff> {
        let tariffs = &self.rating(group)?.tariffs;
        let place = tariffs.partition_point(|(from, _)| *from <= moment);
        Some(tariffs[place.checked_sub(1)?].1)
    }
}

#[derive(Clone, PartialEq, Eq, Hash)]
struct RequestKey {
    session: Vec<u8>,
    number: u32,
}

/// A service of an act, in the unit of its group.
#[derive(Clone)]
#[allow(dead_code)]
struct Asked {
    group: Option<u32>,
    ids: Vec<u32>,
    form: Form,
    asked: Option<u64>,
    used: Option<u64>,
    unit: Option<Unit>,
    tariff: Option<Tariff>,
}

#[derive(Clone)]
#[allow(dead_code)]
struct Act {
    moment: u64,
    kind: u32,
    action: u32,
    key: RequestKey,
    services: Vec<Asked>,
}

fn amount(unit: Option<Unit>, amounts: Amounts) -> u64 {
    match unit {
        None => 0,
        Some(Unit::Octets) => amounts.octets,
        Some(Unit::Time) => amounts.time,
        Some(Unit::Units) => amounts.units,
    }
}

/// What a service asks for: 0 stands for 1 in an event, and for the plan's quantum in a session.
fn asked(plan: &Plan, event: bool, unit: Option<Unit>, asked: Option<Amounts>) -> Option<u64> {
    if unit.is_none() {
        return if event { Some(0) } else { asked.map(|_| 0) };
    }
    let instead = match unit {
        _ if event => 1,
        Some(Unit::Time) => plan.quantum.min(u64::from(u32::MAX)),
        _ => plan.quantum,
    };
    let units = match asked {
        Some(amounts) => amount(unit, amounts),
        None if event => 0,
        None => return None,
    };
    Some(if units == 0 { instead } else { units })
}

fn act_of(plan: &Plan, request: &Request<'_>, moment: u64) -> Act {
    let services = request.services.iter().map(|service| {
        let group = service.group.unwrap_or(plan.default_group);
        let unit = plan.rating(group).map(|rating| rating.unit);
        Asked {
            group: service.group,
            ids: service.ids.clone(),
            form: service.form,
            asked: asked(plan, request.kind == 4, unit, service.asked),
            used: service.used.map(|amounts| amount(unit, amounts)),
            unit,
            tariff: plan.at(group, moment),
        }
    });
    let key = RequestKey { session: request.session.to_vec(), number: request.number };
    Act { moment, kind: request.kind, action: request.action, key, services: services.collect() }
}

/// A gateway, by what its connection has come to.
enum Peer {
    Wait,
    Open(#[allow(dead_code)] Vec<u8>),
    Closed,
}

/// What a message to a gateway comes to.
enum Dispatched {
    Replied(Vec<u8>),
    Asked { subscriber: Subscriber, act: Act, header: Header, proxies: Vec<u8> },
}

fn dispatch(plan: &Plan, server: &Server, peer: &mut Peer, moment: u64, octets: &[u8]) -> Dispatched {
    if matches!(peer, Peer::Closed) {
        return Dispatched::Replied(Vec::new());
    }
    let Some(header) = read_header(octets) else {
        *peer = Peer::Closed;
        return Dispatched::Replied(Vec::new());
    };
    if matches!(peer, Peer::Open(_)) && header.flags & 0xa0 == 0x80 && header.code == 272 && header.app == 4 {
        return charge(plan, server, moment, header, &octets[20..]);
    }
    if header.flags & 0xa0 == 0x80 && header.code == 257 && header.app == 0 {
        return Dispatched::Replied(exchange(server, peer, &header, &octets[20..]));
    }
    *peer = Peer::Closed;
    Dispatched::Replied(Vec::new())
}

fn charge(plan: &Plan, server: &Server, moment: u64, header: Header, octets: &[u8]) -> Dispatched {
    let avps = match read_list(octets) {
        Ok(avps) => avps,
        Err(broken) => return Dispatched::Replied(write_refusal(server, &unread(broken), &header, &[], &[])),
    };
    let proxies = proxies(&avps);
    match read_request(&avps) {
        Ok(request) => Dispatched::Asked { subscriber: request.subscriber, act: act_of(plan, &request, moment), header, proxies },
        Err(refused) => Dispatched::Replied(write_refusal(server, &refused, &header, &avps, &proxies)),
    }
}

/// The host of a gateway that shares an application and a security, or the first refusal.
fn host<'a>(avps: &[Avp<'a>]) -> Result<&'a [u8], Refused<'a>> {
    let groups = checked(&CAPABILITIES, avps, &[260])?;
    let host = name(required(avps, 264)?)?;
    for code in [258, 299] {
        for avp in of_code(avps, code) {
            number(avp)?;
        }
    }
    let shared = |avp: &Avp| matches!(number(avp), Ok(4 | u32::MAX));
    let mut any_shared = of_code(avps, 258).any(shared);
    for avp in groups.iter().filter_map(|group| of_code(&group.avps, 258).next()) {
        number(avp)?;
        any_shared |= shared(avp);
    }
    if !any_shared {
        return Err(Refused::bare(5010));
    }
    let mut securities = of_code(avps, 299).peekable();
    if securities.peek().is_some() && !securities.any(|avp| matches!(number(avp), Ok(0))) {
        return Err(Refused::bare(5017));
    }
    Ok(host)
}

fn exchange(server: &Server, peer: &mut Peer, header: &Header, octets: &[u8]) -> Vec<u8> {
    let (result, proxies) = match read_list(octets) {
        Ok(avps) => (host(&avps), proxies(&avps)),
        Err(broken) => (Err(unread(broken)), Vec::new()),
    };
    let mut out = begun();
    put_origin(&mut out, server, result.as_ref().map_or_else(|refused| refused.code, |_| 2001));
    put(&mut out, 257, &[0, 1, 127, 0, 0, 1]);
    put_number(&mut out, 266, 0);
    put_avp(&mut out, &Avp { code: 269, flags: 0, vendor: None, value: b"dcc" });
    put_number(&mut out, 258, 4);
    match result {
        Ok(host) => *peer = Peer::Open(host.to_vec()),
        Err(refused) => {
            put_failed(&mut out, &refused.failed);
            *peer = Peer::Closed;
        }
    }
    finished(out, header, &proxies)
}
