// Requests read into borrowed AVPs and judged, and their answers and refusals written, in plain Rust, as one would write it without a framework: the
// checks of the proved reader in the same order, and the same octets. The programs beside this file include it.

const MANDATORY: u8 = 0x40;
const VENDOR: u8 = 0x80;

/// The codes of the dictionary, rising, each with the least octets of its data.
const KNOWN: [(u32, u8); 62] = [
    (1, 0), (33, 0), (50, 0), (55, 4), (257, 6), (258, 4), (259, 4), (260, 0), (263, 0), (264, 0), (265, 4), (266, 4), (267, 4),
    (268, 4), (269, 0), (273, 4), (278, 4), (279, 0), (280, 0), (281, 0), (282, 0), (283, 0), (284, 0), (293, 0), (295, 4), (296, 0),
    (299, 4), (411, 0), (412, 8), (414, 8), (415, 4), (416, 4), (417, 8), (418, 4), (419, 8), (420, 4), (421, 8), (422, 4), (423, 0),
    (424, 0), (425, 4), (429, 4), (430, 0), (431, 0), (432, 4), (436, 4), (437, 0), (439, 4), (440, 0), (443, 0), (444, 0), (445, 0),
    (446, 0), (447, 8), (448, 4), (449, 4), (450, 4), (452, 4), (455, 4), (456, 0), (458, 0), (461, 0),
];

/// How often an AVP stands in a list: its code, the least and the most.
type Row = (u32, usize, usize);

const ANY: usize = usize::MAX;

const SESSION: [Row; 13] = [
    (263, 1, 1), (264, 1, 1), (296, 1, 1), (283, 1, 1), (258, 1, 1), (461, 1, 1), (416, 1, 1), (415, 1, 1), (443, 1, ANY),
    (439, 0, 1), (436, 0, 1), (437, 0, 1), (456, 0, 16),
];

const EVENT: [Row; 13] = [
    (263, 1, 1), (264, 1, 1), (296, 1, 1), (283, 1, 1), (258, 1, 1), (461, 1, 1), (416, 1, 1), (415, 1, 1), (443, 1, ANY),
    (436, 1, 1), (439, 0, 1), (437, 0, 1), (456, 0, 16),
];

const CAPABILITIES: [Row; 5] = [(264, 1, 1), (296, 1, 1), (266, 1, 1), (269, 1, 1), (257, 1, ANY)];

const SUBSCRIPTION: [Row; 2] = [(450, 1, 1), (444, 1, 1)];

const SERVICE: [Row; 2] = [(432, 0, 1), (437, 0, 1)];

const UNITS: [Row; 5] = [(420, 0, 1), (421, 0, 1), (412, 0, 1), (414, 0, 1), (417, 0, 1)];

#[derive(Clone, Copy)]
struct Header {
    flags: u8,
    code: u32,
    app: u32,
    hop: u32,
    end_to_end: u32,
}

#[derive(Clone, Copy)]
struct Avp<'a> {
    code: u32,
    flags: u8,
    vendor: Option<u32>,
    value: &'a [u8],
}

/// Why a request is refused: the Result-Code, and what the Failed-AVP of its answer holds.
struct Refused<'a> {
    code: u32,
    failed: Failed<'a>,
}

enum Failed<'a> {
    Nothing,
    One(Avp<'a>),
    Two(Avp<'a>, Avp<'a>),
}

impl<'a> Refused<'a> {
    fn one(code: u32, avp: &Avp<'a>) -> Refused<'a> {
        Refused { code, failed: Failed::One(*avp) }
    }

    fn bare(code: u32) -> Refused<'a> {
        Refused { code, failed: Failed::Nothing }
    }
}

/// Why a list can't be read: fewer octets are left than a header has, or an AVP has a length that it can't have.
enum Broken {
    Short(u32),
    Length(u32, u8),
}

fn u32_at(octets: &[u8], at: usize) -> Option<u32> {
    Some(u32::from_be_bytes(octets.get(at..at + 4)?.try_into().ok()?))
}

fn read_header(octets: &[u8]) -> Option<Header> {
    let length = (u32_at(octets, 0)? & 0xff_ffff) as usize;
    if octets[0] != 1 || length > 65_532 || length < 20 || length % 4 != 0 || length != octets.len() {
        return None;
    }
    Some(Header {
        flags: octets[4],
        code: u32_at(octets, 4)? & 0xff_ffff,
        app: u32_at(octets, 8)?,
        hop: u32_at(octets, 12)?,
        end_to_end: u32_at(octets, 16)?,
    })
}

fn read_avp(octets: &[u8]) -> Result<Avp<'_>, Broken> {
    let Some(word) = u32_at(octets, 4) else {
        return Err(Broken::Short(u32_at(octets, 0).unwrap_or(0)));
    };
    let code = u32_at(octets, 0).unwrap_or(0);
    let flags = (word >> 24) as u8;
    let length = (word & 0xff_ffff) as usize;
    let start = if flags & VENDOR != 0 { 12 } else { 8 };
    let Some(value) = octets.get(start..length) else {
        return Err(Broken::Length(code, flags));
    };
    let vendor = if flags & VENDOR != 0 { u32_at(octets, 8) } else { None };
    Ok(Avp { code, flags, vendor, value })
}

fn read_list(octets: &[u8]) -> Result<Vec<Avp<'_>>, Broken> {
    let mut avps = Vec::new();
    let mut rest = octets;
    while !rest.is_empty() {
        let avp = read_avp(rest)?;
        let length = if avp.vendor.is_some() { 12 } else { 8 } + avp.value.len();
        rest = rest.get(length.next_multiple_of(4)..).unwrap_or_default();
        avps.push(avp);
    }
    Ok(avps)
}

fn least_octets(code: u32) -> Option<&'static [u8]> {
    let place = KNOWN.binary_search_by_key(&code, |row| row.0).ok()?;
    Some(&[0; 8][..usize::from(KNOWN[place].1)])
}

/// The refusal of a list that can't be read, with an AVP that stands for the one that broke it.
fn unread(broken: Broken) -> Refused<'static> {
    let (code, flags, value) = match broken {
        Broken::Short(code) => (code, MANDATORY, [].as_slice()),
        Broken::Length(code, flags) if flags & VENDOR != 0 => (code, flags & !VENDOR, [].as_slice()),
        Broken::Length(code, flags) => (code, flags, least_octets(code).unwrap_or_default()),
    };
    Refused::one(5014, &Avp { code, flags, vendor: None, value })
}

/// A group that is looked into, with its own AVP, and those inside it.
struct Group<'a> {
    avp: Avp<'a>,
    avps: Vec<Avp<'a>>,
    inside: Vec<Group<'a>>,
}

fn group<'a>(avp: &Avp<'a>) -> Result<Vec<Avp<'a>>, Refused<'a>> {
    read_list(avp.value).map_err(|broken| match broken {
        Broken::Short(_) => Refused::one(5014, &Avp { value: &[], vendor: None, flags: avp.flags & !VENDOR, code: avp.code }),
        other => unread(other),
    })
}

fn walked<'a>(avps: &[Avp<'a>], codes: &[u32]) -> Result<Vec<Group<'a>>, Refused<'a>> {
    let mut groups = Vec::new();
    for avp in avps.iter().filter(|avp| avp.vendor.is_none() && codes.contains(&avp.code)) {
        let avps = group(avp)?;
        let inside = if avp.code == 456 { walked(&avps, &[437, 446])? } else { Vec::new() };
        groups.push(Group { avp: *avp, avps, inside });
    }
    Ok(groups)
}

fn of_code<'m, 'a>(avps: &'m [Avp<'a>], code: u32) -> impl Iterator<Item = &'m Avp<'a>> {
    avps.iter().filter(move |avp| avp.vendor.is_none() && avp.code == code)
}

/// The refusal of an AVP that isn't known, and has to be.
fn unknown_in<'a>(_table: &[Row], avps: &[Avp<'a>]) -> Option<Refused<'a>> {
    let unknown = |avp: &&Avp| avp.vendor.is_none() && avp.flags & MANDATORY != 0 && least_octets(avp.code).is_none();
    avps.iter().find(unknown).map(|avp| Refused::one(5001, avp))
}

/// Of the first AVP beyond the most.
fn too_many_in<'a>(table: &[Row], avps: &[Avp<'a>]) -> Option<Refused<'a>> {
    table.iter().find_map(|&(code, _, most)| of_code(avps, code).nth(most)).map(|avp| Refused::one(5009, avp))
}

/// Of the first that is missing.
fn missing_in<'a>(table: &[Row], avps: &[Avp<'a>]) -> Option<Refused<'a>> {
    table.iter().find(|&&(code, least, _)| of_code(avps, code).count() < least).map(|row| missing(row.0))
}

fn missing(code: u32) -> Refused<'static> {
    let flags = if code == 269 { 0 } else { MANDATORY };
    Refused::one(5005, &Avp { code, flags, vendor: None, value: least_octets(code).unwrap_or_default() })
}

fn table_of(code: u32) -> &'static [Row] {
    match code {
        443 => &SUBSCRIPTION,
        456 => &SERVICE,
        437 | 446 => &UNITS,
        _ => &[],
    }
}

/// What is found in groups, each before those inside it.
fn in_groups<'a>(groups: &[Group<'a>], find: impl Fn(&[Row], &[Avp<'a>]) -> Option<Refused<'a>> + Copy) -> Option<Refused<'a>> {
    let lists = groups.iter().flat_map(|group| std::iter::once(group).chain(&group.inside));
    lists.into_iter().find_map(|list| find(table_of(list.avp.code), &list.avps))
}

fn fits(table: &[Row], avps: &[Avp<'_>]) -> bool {
    table.iter().all(|&(code, least, most)| (least..=most).contains(&of_code(avps, code).count()))
}

fn group_fits(group: &Group<'_>) -> bool {
    fits(table_of(group.avp.code), &group.avps) && group.inside.iter().all(group_fits)
}

/// The walked groups of a request, or its first fault: each check is made over all lists before the next.
fn checked<'a>(table: &[Row], avps: &[Avp<'a>], codes: &[u32]) -> Result<Vec<Group<'a>>, Refused<'a>> {
    let groups = walked(avps, codes)?;
    if let Some(refused) = unknown_in(table, avps).or_else(|| in_groups(&groups, unknown_in)) {
        return Err(refused);
    }
    if fits(table, avps) && groups.iter().all(group_fits) {
        return Ok(groups);
    }
    let too_many = too_many_in(table, avps).or_else(|| in_groups(&groups, too_many_in));
    match too_many.or_else(|| missing_in(table, avps)).or_else(|| in_groups(&groups, missing_in)) {
        Some(refused) => Err(refused),
        None => Ok(groups),
    }
}

fn required<'m, 'a>(avps: &'m [Avp<'a>], code: u32) -> Result<&'m Avp<'a>, Refused<'a>> {
    of_code(avps, code).next().ok_or_else(|| missing(code))
}

fn number<'a>(avp: &Avp<'a>) -> Result<u32, Refused<'a>> {
    avp.value.try_into().map(u32::from_be_bytes).map_err(|_| Refused::one(5014, avp))
}

fn number_within<'a>(avp: &Avp<'a>, low: u32, high: u32) -> Result<u32, Refused<'a>> {
    let number = number(avp)?;
    if (low..=high).contains(&number) { Ok(number) } else { Err(Refused::one(5004, avp)) }
}

fn name<'a>(avp: &Avp<'a>) -> Result<&'a [u8], Refused<'a>> {
    if (1..=255).contains(&avp.value.len()) { Ok(avp.value) } else { Err(Refused::one(5014, avp)) }
}

/// The number of the first AVP of a code, if there is one.
fn optional<'a>(avps: &[Avp<'a>], code: u32) -> Result<Option<u32>, Refused<'a>> {
    of_code(avps, code).next().map(number).transpose()
}

fn long<'a>(avps: &[Avp<'a>], code: u32) -> Result<Option<u64>, Refused<'a>> {
    let long = |avp: &Avp<'a>| avp.value.try_into().map(u64::from_be_bytes).map_err(|_| Refused::one(5014, avp));
    of_code(avps, code).next().map(long).transpose()
}

#[derive(Clone, Copy, PartialEq, Eq, Hash)]
struct Subscriber {
    kind: u8,
    len: u8,
    name: [u8; 64],
}

#[derive(Clone, Copy, Default)]
struct Amounts {
    octets: u64,
    time: u64,
    units: u64,
}

#[derive(Clone, Copy, PartialEq)]
enum Form {
    Single,
    Multi,
}

struct Service {
    form: Form,
    group: Option<u32>,
    ids: Vec<u32>,
    asked: Option<Amounts>,
    used: Option<Amounts>,
}

struct Request<'a> {
    subscriber: Subscriber,
    session: &'a [u8],
    number: u32,
    kind: u32,
    action: u32,
    services: Vec<Service>,
}

fn subscriber<'a>(groups: &[Group<'a>]) -> Result<Subscriber, Refused<'a>> {
    let mut chosen = None;
    for group in groups.iter().filter(|group| group.avp.code == 443) {
        let kind = required(&group.avps, 450)?;
        let number = number(kind)?;
        let data = required(&group.avps, 444)?;
        if chosen.is_none_or(|(other, _, _)| other != 0 && number == 0) {
            chosen = Some((number, kind, data));
        }
    }
    let (_, kind, data) = chosen.ok_or(Refused::bare(5005))?;
    let kind = number_within(kind, 0, 4)?;
    let octets = data.value;
    if octets.is_empty() || octets.len() > 64 || !octets.iter().all(|c| (0x21..=0x7e).contains(c)) {
        return Err(Refused::one(5004, data));
    }
    let mut name = [0; 64];
    name[..octets.len()].copy_from_slice(octets);
    Ok(Subscriber { kind: kind as u8, len: octets.len() as u8, name })
}

/// What a group of units says, counted to what was counted before.
fn added<'a>(sum: Amounts, group: &Group<'a>) -> Result<Amounts, Refused<'a>> {
    let avps = &group.avps;
    let time = optional(avps, 420)?;
    let total = long(avps, 421)?;
    let (input, output) = (long(avps, 412)?, long(avps, 414)?);
    let units = long(avps, 417)?;
    let said = total.map_or(u128::from(input.unwrap_or(0)) + u128::from(output.unwrap_or(0)), u128::from);
    let limited = |n: u128| if n <= 1_000_000_000_000 { Ok(n as u64) } else { Err(Refused::one(5004, &group.avp)) };
    Ok(Amounts {
        octets: limited(u128::from(sum.octets) + said)?,
        time: limited(u128::from(sum.time) + u128::from(time.unwrap_or(0)))?,
        units: limited(u128::from(sum.units) + u128::from(units.unwrap_or(0)))?,
    })
}

fn service<'a>(form: Form, group: Option<u32>, avps: &[Avp<'a>], groups: &[Group<'a>]) -> Result<Service, Refused<'a>> {
    let ids = of_code(avps, 439).map(number).collect::<Result<Vec<u32>, _>>()?;
    let asked = match groups.iter().find(|group| group.avp.code == 437) {
        Some(group) => Some(added(Amounts::default(), group)?),
        None => None,
    };
    let mut used = None;
    for group in groups.iter().filter(|group| group.avp.code == 446) {
        used = Some(added(used.unwrap_or_default(), group)?);
    }
    Ok(Service { form, group, ids, asked, used })
}

fn same_key(a: &Service, b: &Service) -> bool {
    a.group == b.group && a.ids.first() == b.ids.first()
}

/// AVPs that can't stand side by side.
fn contradiction<'a>(event: bool, services: &[Service], avps: &[Avp<'a>]) -> Option<Refused<'a>> {
    let multi = |place| of_code(avps, 456).nth(place);
    let both = |first: &Avp<'a>, second: &Avp<'a>| Refused { code: 5007, failed: Failed::Two(*first, *second) };
    let units = of_code(avps, 437).next().or_else(|| of_code(avps, 446).next());
    if let (Some(units), Some(first)) = (units, multi(0)) {
        return Some(both(units, first));
    }
    if let (true, Some(second)) = (event, multi(1)) {
        return Some(both(multi(0)?, second));
    }
    let same = |place: usize| services[..place].iter().position(|other| same_key(other, &services[place])).map(|first| (first, place));
    let (first, second) = (0..services.len()).find_map(same)?;
    Some(both(multi(first)?, multi(second)?))
}

fn read_request<'a>(avps: &[Avp<'a>]) -> Result<Request<'a>, Refused<'a>> {
    let event = of_code(avps, 416).next().is_some_and(|avp| avp.value == [0, 0, 0, 4]);
    let groups = checked(if event { &EVENT } else { &SESSION }, avps, &[443, 456, 437, 446])?;
    let session = name(required(avps, 263)?)?;
    number_within(required(avps, 258)?, 4, 4)?;
    let kind = number_within(required(avps, 416)?, 1, 4)?;
    let number = number(required(avps, 415)?)?;
    let action = if event { number_within(required(avps, 436)?, 0, 3)? } else { 0 };
    let subscriber = subscriber(&groups)?;
    let single = service(Form::Single, None, avps, &groups)?;
    let mut services = Vec::new();
    for group in groups.iter().filter(|group| group.avp.code == 456) {
        services.push(service(Form::Multi, optional(&group.avps, 432)?, &group.avps, &group.inside)?);
    }
    if let Some(refused) = contradiction(event, &services, avps) {
        return Err(refused);
    }
    let is_there = !single.ids.is_empty() || single.asked.is_some() || single.used.is_some();
    if services.is_empty() && (event || is_there) {
        services.push(single);
    }
    Ok(Request { subscriber, session, number, kind, action, services })
}

fn put(out: &mut Vec<u8>, code: u32, value: &[u8]) {
    let length = 8 + value.len();
    out.extend_from_slice(&code.to_be_bytes());
    out.extend_from_slice(&(0x4000_0000 | length as u32).to_be_bytes());
    out.extend_from_slice(value);
    out.extend_from_slice(&[0; 3][..length.next_multiple_of(4) - length]);
}

fn put_number(out: &mut Vec<u8>, code: u32, number: u32) {
    put(out, code, &number.to_be_bytes());
}

/// A group of what is put into it.
fn put_group(out: &mut Vec<u8>, code: u32, inside: impl FnOnce(&mut Vec<u8>)) {
    let begin = out.len();
    out.extend_from_slice(&code.to_be_bytes());
    out.extend_from_slice(&[0; 4]);
    inside(out);
    let length = (out.len() - begin) as u32;
    out[begin + 4..begin + 8].copy_from_slice(&(0x4000_0000 | length).to_be_bytes());
}

fn put_avp(out: &mut Vec<u8>, avp: &Avp<'_>) {
    let start = if avp.vendor.is_some() { 12 } else { 8 };
    let length = start + avp.value.len();
    out.extend_from_slice(&avp.code.to_be_bytes());
    out.extend_from_slice(&(u32::from(avp.flags) << 24 | length as u32).to_be_bytes());
    if let Some(vendor) = avp.vendor {
        out.extend_from_slice(&vendor.to_be_bytes());
    }
    out.extend_from_slice(avp.value);
    out.extend_from_slice(&[0; 3][..length.next_multiple_of(4) - length]);
}

fn proxies(avps: &[Avp<'_>]) -> Vec<u8> {
    let mut out = Vec::new();
    for avp in of_code(avps, 284) {
        put_avp(&mut out, avp);
    }
    out
}

/// Who answers.
struct Server {
    host: Vec<u8>,
    realm: Vec<u8>,
    validity: u32,
}

#[derive(Clone, Copy, PartialEq)]
#[allow(dead_code)]
enum Unit {
    Octets,
    Time,
    Units,
}

/// What a service is answered.
#[derive(Clone)]
struct Granted {
    form: Form,
    group: Option<u32>,
    ids: Vec<u32>,
    result: u32,
    grant: Option<(Unit, u64)>,
    is_final: bool,
}

/// What a request comes to that asks for no price and no balance.
#[derive(Clone)]
struct Outcome {
    session: Vec<u8>,
    kind: u32,
    number: u32,
    result: u32,
    services: Vec<Granted>,
}

fn put_grant(out: &mut Vec<u8>, grant: Option<(Unit, u64)>) {
    let Some((unit, units)) = grant else { return };
    put_group(out, 431, |out| match unit {
        Unit::Octets => put(out, 421, &units.to_be_bytes()),
        Unit::Time => put_number(out, 420, units as u32),
        Unit::Units => put(out, 417, &units.to_be_bytes()),
    });
}

fn put_validity(out: &mut Vec<u8>, server: &Server, outcome: &Outcome, service: &Granted) {
    if service.grant.is_some() && outcome.kind != 4 {
        put_number(out, 448, server.validity);
    }
}

fn put_final(out: &mut Vec<u8>, service: &Granted) {
    if service.is_final {
        put_group(out, 430, |out| put_number(out, 449, 0));
    }
}

fn put_service(out: &mut Vec<u8>, server: &Server, outcome: &Outcome, service: &Granted) {
    if service.form == Form::Single {
        return put_grant(out, service.grant);
    }
    put_group(out, 456, |out| {
        put_grant(out, service.grant);
        for id in &service.ids {
            put_number(out, 439, *id);
        }
        if let Some(group) = service.group {
            put_number(out, 432, group);
        }
        put_validity(out, server, outcome, service);
        put_number(out, 268, service.result);
        put_final(out, service);
    });
}

fn put_origin(out: &mut Vec<u8>, server: &Server, code: u32) {
    put_number(out, 268, code);
    put(out, 264, &server.host);
    put(out, 296, &server.realm);
}

fn begun() -> Vec<u8> {
    let mut out = Vec::with_capacity(256);
    out.extend_from_slice(&[0; 20]);
    out
}

/// The answer with its proxies, under the header of its request.
fn finished(mut out: Vec<u8>, header: &Header, proxies: &[u8]) -> Vec<u8> {
    out.extend_from_slice(proxies);
    let length = out.len() as u32;
    out[0..4].copy_from_slice(&(0x0100_0000 | length).to_be_bytes());
    out[4..8].copy_from_slice(&(u32::from(header.flags & 0x40) << 24 | header.code).to_be_bytes());
    out[8..12].copy_from_slice(&header.app.to_be_bytes());
    out[12..16].copy_from_slice(&header.hop.to_be_bytes());
    out[16..20].copy_from_slice(&header.end_to_end.to_be_bytes());
    out
}

fn write_answer(server: &Server, outcome: &Outcome, header: &Header, proxies: &[u8]) -> Vec<u8> {
    let mut out = begun();
    put(&mut out, 263, &outcome.session);
    put_origin(&mut out, server, outcome.result);
    put_number(&mut out, 258, 4);
    put_number(&mut out, 416, outcome.kind);
    put_number(&mut out, 415, outcome.number);
    for service in &outcome.services {
        put_service(&mut out, server, outcome, service);
    }
    for service in outcome.services.iter().filter(|service| service.form == Form::Single) {
        put_final(&mut out, service);
        put_validity(&mut out, server, outcome, service);
    }
    finished(out, header, proxies)
}

fn put_failed(out: &mut Vec<u8>, failed: &Failed<'_>) {
    match failed {
        Failed::Nothing => {}
        Failed::One(avp) => put_group(out, 279, |out| put_avp(out, avp)),
        Failed::Two(first, second) => put_group(out, 279, |out| {
            put_avp(out, first);
            put_avp(out, second);
        }),
    }
}

/// The refusal of a credit-control request, of which the list was read.
fn write_refusal(server: &Server, refused: &Refused<'_>, header: &Header, avps: &[Avp<'_>], proxies: &[u8]) -> Vec<u8> {
    let mut out = begun();
    if let Some(session) = of_code(avps, 263).next().and_then(|avp| name(avp).ok()) {
        put(&mut out, 263, session);
    }
    put_origin(&mut out, server, refused.code);
    put_number(&mut out, 258, 4);
    for code in [416, 415] {
        if let Some(Ok(number)) = of_code(avps, code).next().map(number) {
            put_number(&mut out, code, number);
        }
    }
    put_failed(&mut out, &refused.failed);
    finished(out, header, proxies)
}
