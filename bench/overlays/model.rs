//! The road model: OPL text and settings to segments, vertices, turns and costs.
//! Trusts its input; only meant to be measured and compared with.

use std::collections::HashMap;

pub const NONE: u32 = u32::MAX;

pub struct Settings {
    pub vehicle: String,
    pub speeds: HashMap<String, u32>,
    pub access_keys: Vec<String>,
    pub denied: Vec<String>,
    pub barriers: Vec<String>,
    /// straight, slight right, right, sharp right, uturn, sharp left, left, slight left
    pub turn: [u32; 8],
    pub u_turn: u32,
    pub signal: u32,
}

fn strings(v: &str) -> Vec<String> {
    v.split('"')
        .skip(1)
        .step_by(2)
        .map(str::to_string)
        .collect()
}

pub fn settings(text: &str) -> Settings {
    let mut s = Settings {
        vehicle: String::new(),
        speeds: HashMap::new(),
        access_keys: vec![],
        denied: vec![],
        barriers: vec![],
        turn: [0; 8],
        u_turn: 0,
        signal: 0,
    };
    let names = [
        "straight",
        "slight_right",
        "right",
        "sharp_right",
        "uturn",
        "sharp_left",
        "left",
        "slight_left",
    ];
    let (mut table, mut open) = (String::new(), String::new());
    for line in text.lines() {
        let line = line.trim();
        if line.starts_with('#') || line.is_empty() {
            continue;
        }
        if open.is_empty() && line.starts_with('[') {
            table = line.trim_matches(|c| c == '[' || c == ']').to_string();
            continue;
        }
        open.push_str(line);
        if open.contains('[') && !open.contains(']') {
            continue;
        }
        let (k, v) = open.split_once('=').expect("key = value");
        let (k, v) = (k.trim().trim_matches('"'), v.trim());
        let number = || v.parse::<u32>().expect("number");
        match (table.as_str(), k) {
            ("speeds", _) => {
                s.speeds.insert(k.to_string(), number());
            }
            ("turn_penalty", _) => s.turn[names.iter().position(|n| *n == k).unwrap()] = number(),
            (_, "vehicle") => s.vehicle = v.trim_matches('"').to_string(),
            (_, "access_keys") => s.access_keys = strings(v),
            (_, "denied") => s.denied = strings(v),
            (_, "barriers") => s.barriers = strings(v),
            (_, "u_turn_penalty") => s.u_turn = number(),
            (_, "signal_penalty") => s.signal = number(),
            _ => {}
        }
        open.clear();
    }
    s
}

fn decode(s: &str) -> String {
    if !s.contains('%') {
        return s.to_string();
    }
    let mut out = String::new();
    let mut parts = s.split('%');
    out.push_str(parts.next().unwrap());
    while let Some(hex) = parts.next() {
        out.push(char::from_u32(u32::from_str_radix(hex, 16).unwrap()).unwrap());
        out.push_str(parts.next().unwrap_or(""));
    }
    out
}

fn micro(s: &str) -> i32 {
    let (neg, s) = match s.strip_prefix('-') {
        Some(r) => (true, r),
        None => (false, s),
    };
    let (whole, frac) = s.split_once('.').unwrap_or((s, ""));
    let mut v: i64 = whole.parse::<i64>().unwrap() * 1_000_000;
    let mut unit = 100_000;
    for (i, b) in frac.bytes().enumerate() {
        let d = (b - b'0') as i64;
        if i < 6 {
            v += d * unit;
            unit /= 10;
        } else if i == 6 && d >= 5 {
            v += 1;
        }
    }
    (if neg { -v } else { v }) as i32
}

type Tags = Vec<(String, String)>;

fn tags(t: &str) -> Tags {
    let mut out: Tags = vec![];
    for e in t.split(',').filter(|e| !e.is_empty()) {
        let (k, v) = e.split_once('=').unwrap();
        let k = decode(k);
        if !out.iter().any(|(o, _)| *o == k) {
            out.push((k, decode(v)));
        }
    }
    out
}

fn get<'a>(t: &'a Tags, key: &str) -> Option<&'a str> {
    t.iter().find(|(k, _)| k == key).map(|(_, v)| v.as_str())
}

struct WayUse {
    id: i64,
    forward: bool,
    backward: bool,
    speed: u32,
    nodes: Vec<i64>,
}

fn way_use(t: &Tags, s: &Settings) -> (bool, bool, u32) {
    let no = (false, false, 0);
    let Some(speed) = get(t, "highway").and_then(|h| s.speeds.get(h)) else {
        return no;
    };
    if let Some(v) = s.access_keys.iter().find_map(|k| get(t, k)) {
        if s.denied.iter().any(|d| d == v) {
            return no;
        }
    }
    let (f, b) = match get(t, "oneway") {
        Some("yes" | "true" | "1") => (true, false),
        Some("-1" | "reverse") => (false, true),
        Some("no") => (true, true),
        _ => {
            let one =
                get(t, "junction") == Some("roundabout") || get(t, "highway") == Some("motorway");
            (true, !one)
        }
    };
    (f, b, speed * 1000)
}

pub struct Network {
    pub nodes: u64,
    pub ways: u64,
    pub relations: u64,
    pub applied: u64,
    pub ignored: u64,
    pub lon: Vec<i32>,
    pub lat: Vec<i32>,
    /// of a vertex
    pub tail: Vec<u32>,
    pub head: Vec<u32>,
    pub permitted: Vec<bool>,
    pub duration: Vec<u32>,
    pub length: Vec<u32>,
    /// turns: those of vertex v are first[v]..first[v + 1]
    pub first: Vec<u32>,
    pub to: Vec<u32>,
    pub penalty: Vec<u32>,
}

struct Relation {
    via: usize,
    only: bool,
    same_segment_only: bool,
    from: Vec<usize>,
    to: Vec<usize>,
}

fn cosine(lat: i64) -> i64 {
    let x2 = lat as i128 * lat as i128;
    (65536 * (32_400_000_000_000_000 - 4 * x2) / (32_400_000_000_000_000 + x2)) as i64
}

fn isqrt(n: u128) -> u128 {
    let mut r = (n as f64).sqrt() as u128;
    while r * r > n {
        r -= 1;
    }
    while (r + 1) * (r + 1) <= n {
        r += 1;
    }
    r
}

fn length(a: (i32, i32), b: (i32, i32)) -> u32 {
    let c = cosine((a.1 as i64 + b.1 as i64).div_euclid(2)) as i128;
    let (dx, dy) = (b.0 as i128 - a.0 as i128, b.1 as i128 - a.1 as i128);
    let plane = ((dx * c).pow(2) + (dy * 65536).pow(2)) as u128;
    ((isqrt(plane) * 111_195 / 6_553_600_000) as u32).max(1)
}

fn bearing(a: (i32, i32), b: (i32, i32)) -> i32 {
    let c = cosine((a.1 as i64 + b.1 as i64).div_euclid(2)) as i128;
    let (e, n) = (
        (b.0 as i128 - a.0 as i128) * c,
        (b.1 as i128 - a.1 as i128) * 65536,
    );
    let (m, big) = (e.abs().min(n.abs()), e.abs().max(n.abs()));
    let t = if big == 0 {
        0
    } else {
        ((45000 * m * big + 15640 * m * (big - m)) / (big * big)) as i64
    };
    let angle = if n.abs() >= e.abs() {
        match (n >= 0, e >= 0) {
            (true, true) => t,
            (true, false) => 360_000 - t,
            (false, true) => 180_000 - t,
            (false, false) => 180_000 + t,
        }
    } else {
        match (e > 0, n >= 0) {
            (true, true) => 90_000 - t,
            (true, false) => 90_000 + t,
            (false, true) => 270_000 + t,
            (false, false) => 270_000 - t,
        }
    };
    (((angle + 500) / 1000) % 360) as i32
}

fn modifier(before: i32, after: i32) -> usize {
    match (after - before).rem_euclid(360) {
        0..=20 | 340..=359 => 0,
        21..=40 => 1,
        41..=120 => 2,
        121..=179 => 3,
        180 => 4,
        181..=239 => 5,
        240..=319 => 6,
        _ => 7,
    }
}

/// The network, and the ids of its nodes.
pub fn network(text: &str, s: &Settings) -> (Network, Vec<i64>) {
    let mut n_ids: Vec<i64> = vec![];
    let mut at: Vec<Option<(i32, i32)>> = vec![];
    let mut closed: Vec<bool> = vec![];
    let mut signal: Vec<bool> = vec![];
    let mut ways: Vec<WayUse> = vec![];
    let mut raw: Vec<(Tags, Vec<(u8, i64, String)>)> = vec![];
    for line in text.lines() {
        let mut fields = line.split([' ', '\t']).filter(|f| !f.is_empty());
        let Some(id) = fields.next() else { continue };
        if id.starts_with('#') || id.starts_with('c') {
            continue;
        }
        let (mut t, mut x, mut y, mut list, mut dead) = ("", "", "", "", false);
        for f in fields {
            let v = &f[1..];
            match f.as_bytes()[0] {
                b'T' => t = v,
                b'x' => x = v,
                b'y' => y = v,
                b'N' | b'M' => list = v,
                b'd' => dead = v == "D",
                _ => {}
            }
        }
        if dead {
            continue;
        }
        let number: i64 = id[1..].parse().unwrap();
        match id.as_bytes()[0] {
            b'n' => {
                n_ids.push(number);
                at.push(if x.is_empty() || y.is_empty() {
                    None
                } else {
                    Some((micro(x), micro(y)))
                });
                let (mut c, mut g) = (false, false);
                if !t.is_empty() {
                    let t = tags(t);
                    c = get(&t, "barrier").is_some_and(|b| s.barriers.iter().any(|o| o == b));
                    g = get(&t, "highway") == Some("traffic_signals");
                }
                closed.push(c);
                signal.push(g);
            }
            b'w' => {
                let (forward, backward, speed) = way_use(&tags(t), s);
                let nodes = if forward || backward {
                    list.split(',')
                        .filter(|e| !e.is_empty())
                        .map(|e| e[1..].split('x').next().unwrap().parse().unwrap())
                        .collect()
                } else {
                    vec![]
                };
                ways.push(WayUse {
                    id: number,
                    forward,
                    backward,
                    speed,
                    nodes,
                });
            }
            b'r' => {
                let m = list
                    .split(',')
                    .filter(|e| !e.is_empty())
                    .map(|e| {
                        let (i, role) = e.split_once('@').unwrap();
                        (i.as_bytes()[0], i[1..].parse().unwrap(), decode(role))
                    })
                    .collect();
                raw.push((tags(t), m));
            }
            k => panic!("kind {}", k as char),
        }
    }
    let (nodes_kept, ways_kept, relations_kept) =
        (n_ids.len() as u64, ways.len() as u64, raw.len() as u64);
    let mut order: Vec<u32> = (0..n_ids.len() as u32).collect();
    if !n_ids.is_sorted() {
        order.sort_by_key(|i| n_ids[*i as usize]);
    }
    let sorted: Vec<i64> = order.iter().map(|i| n_ids[*i as usize]).collect();
    let find = |id: i64| sorted.binary_search(&id).ok().map(|p| order[p] as usize);
    ways.sort_by_key(|w| w.id);

    let (mut tail, mut head, mut permitted, mut duration, mut len, mut way_of) =
        (vec![], vec![], vec![], vec![], vec![], vec![]);
    let mut way_first = vec![0u32];
    for (i, w) in ways.iter().enumerate() {
        for p in w.nodes.windows(2) {
            if p[0] == p[1] {
                continue;
            }
            let (Some(a), Some(b)) = (find(p[0]), find(p[1])) else {
                continue;
            };
            let (Some(pa), Some(pb)) = (at[a], at[b]) else {
                continue;
            };
            let l = length(pa, pb);
            let d = ((l as u64 * 3600 / w.speed as u64) as u32).max(1);
            for (t, h, ok) in [(a, b, w.forward), (b, a, w.backward)] {
                tail.push(t as u32);
                head.push(h as u32);
                permitted.push(ok);
                duration.push(d);
                len.push(l);
                way_of.push(i as u32);
            }
        }
        way_first.push(tail.len() as u32);
    }
    let n = tail.len();

    // restrictions by their via node
    let find_way = |id: i64| ways.binary_search_by_key(&id, |w| w.id).ok();
    let touches = |w: usize, v: usize| {
        (way_first[w]..way_first[w + 1])
            .any(|x| tail[x as usize] == v as u32 || head[x as usize] == v as u32)
    };
    let (mut applied, mut ignored) = (0, 0);
    let mut rules: HashMap<usize, Vec<Relation>> = HashMap::new();
    for (t, members) in &raw {
        if get(t, "type") != Some("restriction") {
            continue;
        }
        if get(t, "except").is_some_and(|e| e.split(';').any(|p| p.trim() == s.vehicle)) {
            continue;
        }
        let made = (|| {
            let kind = get(t, "restriction")?;
            let known = [
                "no_left_turn",
                "no_right_turn",
                "no_straight_on",
                "no_u_turn",
                "only_left_turn",
                "only_right_turn",
                "only_straight_on",
                "no_entry",
                "no_exit",
            ];
            if !known.contains(&kind) {
                return None;
            }
            let of = |role: &str, k: u8| -> Option<Vec<i64>> {
                members
                    .iter()
                    .filter(|m| m.2 == role)
                    .map(|m| if m.0 == k { Some(m.1) } else { None })
                    .collect()
            };
            let (from, via, to) = (of("from", b'w')?, of("via", b'n')?, of("to", b'w')?);
            if via.len() != 1 || from.is_empty() || to.is_empty() {
                return None;
            }
            if (from.len() > 1 && kind != "no_entry") || (to.len() > 1 && kind != "no_exit") {
                return None;
            }
            let via = find(via[0])?;
            let ways = |l: &[i64]| -> Option<Vec<usize>> {
                l.iter()
                    .map(|i| find_way(*i).filter(|w| touches(*w, via)))
                    .collect()
            };
            Some(Relation {
                via,
                only: kind.starts_with("only_"),
                same_segment_only: kind == "no_u_turn" && from == to,
                from: ways(&from)?,
                to: ways(&to)?,
            })
        })();
        match made {
            Some(r) => {
                applied += 1;
                rules.entry(r.via).or_default().push(r);
            }
            None => ignored += 1,
        }
    }

    // permitted vertices that leave a node
    let mut leave_first = vec![0u32; at.len() + 1];
    for v in 0..n {
        if permitted[v] {
            leave_first[tail[v] as usize + 1] += 1;
        }
    }
    for i in 0..at.len() {
        leave_first[i + 1] += leave_first[i];
    }
    let mut place = leave_first.clone();
    let mut leave = vec![0u32; leave_first[at.len()] as usize];
    for v in 0..n {
        if permitted[v] {
            let p = &mut place[tail[v] as usize];
            leave[*p as usize] = v as u32;
            *p += 1;
        }
    }
    let angle: Vec<i16> = (0..n)
        .map(|v| bearing(at[tail[v] as usize].unwrap(), at[head[v] as usize].unwrap()) as i16)
        .collect();

    let (mut first, mut to, mut penalty) = (vec![0u32], vec![], vec![]);
    for d in 0..n {
        if permitted[d] {
            let h = head[d] as usize;
            let outs = &leave[leave_first[h] as usize..leave_first[h + 1] as usize];
            let others = outs.iter().filter(|e| **e as usize != d ^ 1).count();
            let here = rules.get(&h);
            for &e in outs {
                let back = e as usize == d ^ 1;
                let shape = if back {
                    others == 0 || closed[h]
                } else {
                    !closed[h]
                };
                if !shape {
                    continue;
                }
                let (wd, we) = (way_of[d] as usize, way_of[e as usize] as usize);
                let forbidden = here.is_some_and(|l| {
                    l.iter().any(|r| {
                        r.from.contains(&wd)
                            && if r.only {
                                !r.to.contains(&we)
                            } else {
                                r.to.contains(&we) && (!r.same_segment_only || back)
                            }
                    })
                });
                if forbidden {
                    continue;
                }
                let mut p = if back {
                    s.u_turn
                } else if others >= 2 {
                    s.turn[modifier(angle[d] as i32, angle[e as usize] as i32)]
                } else {
                    0
                };
                if signal[h] {
                    p += s.signal;
                }
                to.push(e);
                penalty.push(p);
            }
        }
        first.push(to.len() as u32);
    }
    let network = Network {
        nodes: nodes_kept,
        ways: ways_kept,
        relations: relations_kept,
        applied,
        ignored,
        lon: at.iter().map(|p| p.map_or(0, |p| p.0)).collect(),
        lat: at.iter().map(|p| p.map_or(0, |p| p.1)).collect(),
        tail,
        head,
        permitted,
        duration,
        length: len,
        first,
        to,
        penalty,
    };
    (network, n_ids)
}
