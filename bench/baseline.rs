//! The baseline that `reading.py` measures the program against: the road model of docs/ROUTING.md in plain
//! Rust, as one would write it without proofs and without tricks. It reads the same OPL text and settings
//! and answers the same lines with the same bytes.
//!
//! It trusts its map and its settings: it tells no fault of theirs but too many segments, copies of vertices and turns,
//! looks for no duplicates, does not check UTF-8, and keeps only the nodes' locations, the ways that can be used, and the
//! restrictions. Its TOML is keys with a number, `true` or `false`, a text or a list of texts or of such lists, and tables
//! of numbers or of lists, each list of texts without brackets in them. Of traffic files it tells each fault.
//!
//!     rustc --edition 2024 -C opt-level=3 baseline.rs
//!     baseline ask OPL SETTINGS       answers the lines of standard input
//!     baseline mirror OPL SETTINGS    the same, with rows of traffic applied in the program's way: the rows are
//!                                     kept by their nodes, and each vertex and each turn looks for its own
//!     baseline check OPL SETTINGS     prints the counts of the program's `check`
//!     baseline serve OPL SETTINGS LISTEN CONTROL WORKERS      serves over HTTP (`serve_plain.rs`)
//!
//! `mirror` copies the rows of `metric_make` (`speed_rows.rt`, `turn_rows.rt`) by hand, as they stood when rows by their
//! nodes were first proved: before their maps were made with their room at once. It has Rust's own hasher, and copies
//! what the settings say in place of making it anew. Nothing keeps it like the crate.

mod serve_plain;
mod via_ways;

use std::cmp::Reverse;
use std::collections::{BinaryHeap, HashMap, HashSet};
use std::io::{BufRead, Write};
use std::ops::Deref;
use std::sync::OnceLock;
use via_ways::{Along, Expanded, Roads};

/// A weight in tenths, then deciseconds, then decimetres.
type Cost = (u64, u64, u64);

/// What a turn costs.
#[derive(Clone, Copy)]
struct TurnCost {
    weight: u32,
    /// deciseconds
    penalty: u32,
}

impl TurnCost {
    /// By the settings or a row, the latter perhaps with a weight of its own.
    fn of(by_distance: bool, penalty: u32, own: Option<u32>) -> TurnCost {
        TurnCost { weight: own.unwrap_or(if by_distance { 0 } else { penalty }), penalty }
    }

    fn cost(self) -> Cost {
        (self.weight.into(), self.penalty.into(), 0)
    }
}

#[derive(Clone, Copy)]
struct Point {
    lon: i32,
    lat: i32,
}

#[derive(Clone, Copy)]
struct Place {
    segment: u32,
    at: u64,
}

#[derive(Default)]
struct Settings {
    vehicle: String,
    speeds: HashMap<String, u64>,
    access_keys: Vec<String>,
    denied: Vec<String>,
    barriers: Vec<String>,
    /// By the modifier of a turn, in the order of `MODIFIERS`.
    penalties: [u64; 8],
    u_turn: u64,
    signal: u64,
    left_side: bool,
    by_distance: bool,
    maxspeed: bool,
    /// Thousandths by the value of `surface`.
    surfaces: HashMap<String, u64>,
    /// The name of each class of ways and its tags, as keys and values.
    classes: Vec<(String, Vec<(String, String)>)>,
    /// The sets of classes that a request may exclude, in the order of the file.
    excludable: Vec<Vec<String>>,
}

/// Classes of ways, the first as the last bit.
type Classes = u8;

const MODIFIERS: [&str; 8] =
    ["straight", "slight_right", "right", "sharp_right", "uturn", "sharp_left", "left", "slight_left"];

/// What a restriction says of the turns at its `via` node.
#[derive(Clone, Copy, PartialEq)]
enum Sense {
    No,
    NoUTurn,
    Only,
}

struct Restriction {
    sense: Sense,
    via: i64,
    from: Vec<i64>,
    to: Vec<i64>,
}

/// What is read of a map.
#[derive(Default)]
struct Map {
    locations: HashMap<i64, Point>,
    closed: HashSet<i64>,
    signals: HashSet<i64>,
    ways: Vec<Way>,
    restrictions: Vec<Restriction>,
    /// Those over via ways.
    along: Vec<Along>,
    ignored: usize,
    /// How many nodes, ways and relations.
    counts: [usize; 3],
}

struct Way {
    id: i64,
    name: String,
    classes: Classes,
    speed: u64,
    forward: bool,
    backward: bool,
    roundabout: bool,
    nodes: Vec<i64>,
}

struct Segment {
    tail: i64,
    head: i64,
    from: Point,
    to: Point,
    way: u32,
}

struct Network {
    ways: Vec<Way>,
    segments: Vec<Segment>,
    /// The permitted vertices that leave a node.
    leaving: HashMap<i64, Vec<u32>>,
    /// The turns of vertex v lead to `turns[first[v]..first[v + 1]]`.
    first: Vec<u32>,
    turns: Vec<u32>,
    /// The graph that is searched: that of the turns, with copies of vertices where restrictions go over via ways.
    expanded: Expanded,
    applied: usize,
    ignored: usize,
    left_side: bool,
    by_distance: bool,
    class_names: Vec<String>,
    excludable: Vec<Classes>,
    /// What the settings alone say, and what holds now.
    profile: Metric,
    metric: Metric,
    /// All vertices that leave a node, permitted or not; made when steps are first asked for.
    around: OnceLock<HashMap<i64, Vec<u32>>>,
}

#[derive(Clone)]
struct Metric {
    number: u32,
    /// By vertex; None where it is closed.
    costs: Vec<Option<Cost>>,
    /// By turn.
    turns: Vec<TurnCost>,
    /// The costs without the ways of each excludable set; not kept of the profile.
    avoiding: Vec<Vec<Option<Cost>>>,
}

/// A network as a request sees it.
struct View<'a> {
    network: &'a Network,
    costs: &'a [Option<Cost>],
}

impl Deref for View<'_> {
    type Target = Network;

    fn deref(&self) -> &Network {
        self.network
    }
}

fn main() {
    let words: Vec<String> = std::env::args().skip(1).collect();
    let [command, map, settings, more @ ..] = words.as_slice() else {
        panic!("usage: baseline ask|mirror|check|serve OPL SETTINGS ..");
    };
    let settings = read_settings(&std::fs::read_to_string(settings).expect("settings"));
    let map = read_map(&std::fs::read(map).expect("map"), &settings);
    let counts = map.counts;
    let mut network = build(map, &settings);
    match command.as_str() {
        "ask" => answer_lines(&mut network, metric_of),
        "mirror" => answer_lines(&mut network, mirrored_metric_of),
        "check" => check(counts, &network),
        "serve" => serve_plain::serve(network, more),
        _ => panic!("no such command"),
    }
}

fn check([nodes, ways, relations]: [usize; 3], network: &Network) {
    let vertices = network.profile.costs.iter().filter(|cost| cost.is_some()).count();
    println!("nodes {nodes}\nways {ways}\nrelations {relations}");
    println!("segments {}\nvertices {vertices}\nturns {}", network.segments.len(), network.turns.len());
    println!("restrictions {}\nignored {}", network.applied, network.ignored);
}

// ---- reading ----

fn read_settings(text: &str) -> Settings {
    let mut settings = Settings::default();
    let mut table = String::new();
    let mut lines = text.lines();
    while let Some(line) = lines.next() {
        let line = line.trim();
        if line.starts_with('[') {
            table = line.to_string();
        } else if !line.starts_with('#') && let Some((key, value)) = line.split_once('=') {
            let mut value = value.trim().to_string();
            while value.matches('[').count() > value.matches(']').count() {
                value.push_str(lines.next().expect("a list ends").trim());
            }
            set(&mut settings, &table, key.trim().trim_matches('"'), &value);
        }
    }
    settings
}

fn set(settings: &mut Settings, table: &str, key: &str, value: &str) {
    let number = || value.parse::<u64>().expect("number");
    let text = || value.trim_matches('"').to_string();
    let texts_in = |list: &str| -> Vec<String> { list.split('"').skip(1).step_by(2).map(String::from).collect() };
    let texts = || texts_in(value);
    match (table, key) {
        ("[surfaces]", _) => _ = settings.surfaces.insert(key.to_string(), number()),
        ("[classes]", _) => {
            let tags = texts().into_iter().map(|tag| tag.split_once('=').map(|(key, value)| (key.into(), value.into())).expect("tag"));
            settings.classes.push((key.to_string(), tags.collect()));
        }
        ("[speeds]", _) => _ = settings.speeds.insert(key.to_string(), number() * 1000),
        ("[turn_penalty]", _) => {
            let place = MODIFIERS.iter().position(|name| *name == key).expect("modifier");
            settings.penalties[place] = number();
        }
        (_, "vehicle") => settings.vehicle = text(),
        (_, "weight_name") => settings.by_distance = text() == "distance",
        (_, "access_keys") => settings.access_keys = texts(),
        (_, "denied") => settings.denied = texts(),
        (_, "barriers") => settings.barriers = texts(),
        (_, "u_turn_penalty") => settings.u_turn = number(),
        (_, "signal_penalty") => settings.signal = number(),
        (_, "driving_side") => settings.left_side = text() == "left",
        (_, "maxspeed") => settings.maxspeed = value == "true",
        (_, "excludable") => settings.excludable = value.split(']').map(texts_in).filter(|set| !set.is_empty()).collect(),
        _ => (),
    }
}

fn read_map(text: &[u8], settings: &Settings) -> Map {
    let mut map = Map::default();
    for line in text.split(|b| *b == b'\n') {
        let line = line.strip_suffix(b"\r").unwrap_or(line);
        let deleted = fields(line).skip(1).any(|field| field == b"dD");
        match fields(line).next().map(|field| field[0]) {
            _ if deleted => (),
            Some(b'n') => read_node(line, settings, &mut map),
            Some(b'w') => read_way(line, settings, &mut map),
            Some(b'r') => read_relation(line, settings, &mut map),
            _ => (),
        }
    }
    map
}

fn fields(line: &[u8]) -> impl Iterator<Item = &[u8]> {
    line.split(|b| *b == b' ' || *b == b'\t').filter(|field| !field.is_empty())
}

/// The id of a line, and the content of its field of this letter, or nothing.
fn id_of(line: &[u8]) -> i64 {
    integer(&fields(line).next().unwrap()[1..])
}

fn field(line: &[u8], letter: u8) -> &[u8] {
    fields(line).skip(1).find(|field| field[0] == letter).map_or(&b""[..], |field| &field[1..])
}

fn read_node(line: &[u8], settings: &Settings, map: &mut Map) {
    map.counts[0] += 1;
    let id = id_of(line);
    if let (Some(lon), Some(lat)) = (microdegrees(field(line, b'x')), microdegrees(field(line, b'y'))) {
        map.locations.insert(id, Point { lon: lon as i32, lat: lat as i32 });
    }
    let tags = field(line, b'T');
    if tags.is_empty() {
        return;
    }
    if value_of(tags, "barrier").is_some_and(|value| settings.barriers.contains(&value)) {
        map.closed.insert(id);
    }
    if value_of(tags, "highway").is_some_and(|value| value == "traffic_signals") {
        map.signals.insert(id);
    }
}

/// The value of the first tag of this key.
fn value_of(tags: &[u8], key: &str) -> Option<String> {
    for tag in tags.split(|b| *b == b',') {
        if let Some(at) = tag.iter().position(|b| *b == b'=') {
            let same = if tag[..at].contains(&b'%') { unescaped(&tag[..at]) == key } else { &tag[..at] == key.as_bytes() };
            if same {
                return Some(unescaped(&tag[at + 1..]));
            }
        }
    }
    None
}

fn unescaped(text: &[u8]) -> String {
    let text = std::str::from_utf8(text).expect("UTF-8");
    let mut pieces = text.split('%');
    let mut whole = String::from(pieces.next().unwrap());
    while let (Some(code), Some(plain)) = (pieces.next(), pieces.next()) {
        whole.push(u32::from_str_radix(code, 16).ok().and_then(char::from_u32).expect("escape"));
        whole.push_str(plain);
    }
    whole
}

fn read_way(line: &[u8], settings: &Settings, map: &mut Map) {
    map.counts[1] += 1;
    let tags = field(line, b'T');
    let Some(highway) = value_of(tags, "highway") else {
        return;
    };
    let Some(speed) = settings.speeds.get(&highway) else {
        return;
    };
    let access = settings.access_keys.iter().find_map(|key| value_of(tags, key));
    if access.is_some_and(|value| settings.denied.contains(&value)) {
        return;
    }
    let roundabout = value_of(tags, "junction").is_some_and(|value| value == "roundabout");
    let (forward, backward) = match value_of(tags, "oneway").as_deref() {
        Some("yes" | "true" | "1") => (true, false),
        Some("-1" | "reverse") => (false, true),
        Some("no") => (true, true),
        _ => (true, !roundabout && highway != "motorway"),
    };
    let ids = field(line, b'N').split(|b| *b == b',').filter(|entry| entry.len() > 1);
    let nodes = ids.map(|entry| integer(entry[1..].split(|b| *b == b'x').next().unwrap())).collect();
    let name = value_of(tags, "name").unwrap_or_default();
    let (speed, classes) = (speed_on(tags, *speed, settings), classes_of(tags, settings));
    map.ways.push(Way { id: id_of(line), name, classes, speed, forward, backward, roundabout, nodes });
}

/// What `maxspeed` and then `surface` make of the speed of a way's kind.
fn speed_on(tags: &[u8], speed: u64, settings: &Settings) -> u64 {
    let limit = if settings.maxspeed { value_of(tags, "maxspeed").and_then(|value| limit_of(&value)) } else { None };
    let speed = limit.unwrap_or(speed);
    if settings.surfaces.is_empty() {
        return speed;
    }
    let factor = value_of(tags, "surface").and_then(|value| settings.surfaces.get(&value).copied());
    factor.map_or(speed, |factor| (speed * factor / 1000).max(1000))
}

/// A value of `maxspeed` in thousandths of km/h, where it is one that counts.
fn limit_of(value: &str) -> Option<u64> {
    let (digits, unit) = value.strip_suffix(" mph").map_or((value, 1_000_000), |digits| (digits, 1_609_344));
    let short = (1..=3).contains(&digits.len()) && digits.bytes().all(|byte| byte.is_ascii_digit());
    let number = digits.parse::<u64>().ok().filter(|_| short)?;
    Some(number * unit / 1000).filter(|limit| (1000..=1_000_000).contains(limit))
}

/// The classes one of whose tags a way has.
fn classes_of(tags: &[u8], settings: &Settings) -> Classes {
    let has = |(key, value): &(String, String)| value_of(tags, key).is_some_and(|own| own == *value);
    let of = settings.classes.iter().map(|(_, tags)| Classes::from(tags.iter().any(has)));
    of.enumerate().fold(0, |all, (number, of)| all | of << number)
}

fn read_relation(line: &[u8], settings: &Settings, map: &mut Map) {
    map.counts[2] += 1;
    let tags = field(line, b'T');
    if value_of(tags, "type").as_deref() != Some("restriction") {
        return;
    }
    let except = value_of(tags, "except").unwrap_or_default();
    if except.split(';').any(|entry| entry.trim_matches([' ', '\t']) == settings.vehicle) {
        return;
    }
    match restriction_of(tags, field(line, b'M')) {
        Some(Rule::At(restriction)) => map.restrictions.push(restriction),
        Some(Rule::Along(along)) => map.along.push(along),
        None => map.ignored += 1,
    }
}

/// A restriction at a node, or one over via ways.
enum Rule {
    At(Restriction),
    Along(Along),
}

fn restriction_of(tags: &[u8], members: &[u8]) -> Option<Rule> {
    let kind = value_of(tags, "restriction")?;
    let sense = match kind.as_str() {
        "no_u_turn" => Sense::NoUTurn,
        "no_left_turn" | "no_right_turn" | "no_straight_on" | "no_entry" | "no_exit" => Sense::No,
        "only_left_turn" | "only_right_turn" | "only_straight_on" => Sense::Only,
        _ => return None,
    };
    let (mut from, mut via, mut to) = (Vec::new(), Vec::new(), Vec::new());
    for member in members.split(|b| *b == b',').filter(|member| !member.is_empty()) {
        let at = member.iter().position(|b| *b == b'@')?;
        let (kind, id) = (member[0], integer(&member[1..at]));
        match (unescaped(&member[at + 1..]).as_str(), kind) {
            ("from", b'w') => from.push(id),
            ("to", b'w') => to.push(id),
            ("via", b'n' | b'w') => via.push((kind, id)),
            ("from" | "to" | "via", _) => return None,
            _ => (),
        }
    }
    let enough = !from.is_empty() && !to.is_empty();
    let few = (from.len() == 1 || kind == "no_entry") && (to.len() == 1 || kind == "no_exit");
    match via.as_slice() {
        [(b'n', node)] if enough && few => Some(Rule::At(Restriction { sense, via: *node, from, to })),
        ways if (1..=4).contains(&ways.len()) && ways.iter().all(|(kind, _)| *kind == b'w') => {
            let one_each = enough && few && !["no_entry", "no_exit"].contains(&kind.as_str());
            let via = ways.iter().map(|(_, id)| *id).collect();
            one_each.then(|| Rule::Along(Along { from: from[0], via, to: to[0], only: sense == Sense::Only }))
        }
        _ => None,
    }
}

fn integer(text: &[u8]) -> i64 {
    let digits = text.strip_prefix(b"-").unwrap_or(text);
    let size = digits.iter().fold(0, |number, digit| number * 10 + i64::from(*digit - b'0'));
    if digits.len() < text.len() { -size } else { size }
}

/// The sign and the digits before and after the point; None where it is no decimal.
fn decimal(text: &[u8]) -> Option<(bool, &[u8], &[u8])> {
    let digits = text.strip_prefix(b"-").unwrap_or(text);
    let (whole, fraction) = match digits.iter().position(|b| *b == b'.') {
        Some(at) => (&digits[..at], &digits[at + 1..]),
        None => (digits, &b"0"[..]),
    };
    let all_digits = whole.iter().chain(fraction).all(|b| b.is_ascii_digit());
    (all_digits && !whole.is_empty() && !fraction.is_empty()).then_some((digits.len() < text.len(), whole, fraction))
}

/// A decimal without its sign and without what stands behind so many digits after the point, in units of the
/// last of these; what is past 10^9 counts as 10^9.
fn kept(whole: &[u8], fraction: &[u8], places: usize) -> i64 {
    let mut size: i64 = 0;
    for digit in whole {
        size = (size * 10 + i64::from(*digit - b'0')).min(1_000_000_000);
    }
    for place in 0..places {
        size = size * 10 + i64::from(fraction.get(place).map_or(0, |digit| *digit - b'0'));
    }
    size
}

/// Six digits after the point; a seventh of 5 or more adds one away from zero. None where it is no decimal.
fn microdegrees(text: &[u8]) -> Option<i64> {
    let (negative, whole, fraction) = decimal(text)?;
    let more = fraction.get(6).is_some_and(|digit| *digit >= b'5');
    let size = kept(whole, fraction, 6) + i64::from(more);
    Some(if negative { -size } else { size })
}

// ---- geometry ----

fn cosine(lat: i32) -> i64 {
    let square = i128::from(lat) * i128::from(lat);
    let half_turn = 32_400_000_000_000_000;
    (65536 * (half_turn - 4 * square) / (half_turn + square)) as i64
}

fn middle_cosine(a: Point, b: Point) -> i64 {
    cosine((a.lat + b.lat).div_euclid(2))
}

/// East and north from a to b, in 65536ths of a microdegree of latitude.
fn stride(a: Point, b: Point, cosine: i64) -> (i128, i128) {
    let east = (i64::from(b.lon) - i64::from(a.lon)) * cosine;
    let north = (i64::from(b.lat) - i64::from(a.lat)) * 65536;
    (i128::from(east), i128::from(north))
}

fn plane(a: Point, b: Point) -> u128 {
    let (east, north) = stride(a, b, middle_cosine(a, b));
    (east * east + north * north) as u128
}

fn distance(a: Point, b: Point) -> u64 {
    (plane(a, b).isqrt() * 111_195 / 6_553_600_000) as u64
}

fn project(p: Point, a: Point, b: Point) -> u64 {
    let cosine = middle_cosine(a, b);
    let (to_b, to_p) = (stride(a, b, cosine), stride(a, p, cosine));
    let whole = to_b.0 * to_b.0 + to_b.1 * to_b.1;
    let part = to_b.0 * to_p.0 + to_b.1 * to_p.1;
    if part <= 0 || whole == 0 {
        0
    } else if part >= whole {
        1024
    } else {
        ((2048 * part + whole) / (2 * whole)) as u64
    }
}

fn point_at(a: Point, b: Point, at: u64) -> Point {
    let along = |a: i32, b: i32| {
        let difference = i64::from(b) - i64::from(a);
        (i64::from(a) + (difference * at as i64 + 512).div_euclid(1024)) as i32
    };
    Point { lon: along(a.lon, b.lon), lat: along(a.lat, b.lat) }
}

/// Whole degrees from north, clockwise.
fn bearing(a: Point, b: Point) -> u32 {
    let (east, north) = stride(a, b, middle_cosine(a, b));
    let (m, most) = (east.abs().min(north.abs()), east.abs().max(north.abs()));
    let t = if most == 0 { 0 } else { (45_000 * m * most + 15_640 * m * (most - m)) / (most * most) };
    let angle = if north.abs() >= east.abs() {
        match (north >= 0, east >= 0) {
            (true, true) => t,
            (true, false) => 360_000 - t,
            (false, true) => 180_000 - t,
            (false, false) => 180_000 + t,
        }
    } else {
        match (east > 0, north >= 0) {
            (true, true) => 90_000 - t,
            (true, false) => 90_000 + t,
            (false, true) => 270_000 + t,
            (false, false) => 270_000 - t,
        }
    };
    ((angle + 500) / 1000 % 360) as u32
}

/// The place in `MODIFIERS` of the change of bearing.
fn modifier(before: u32, after: u32) -> usize {
    match (after + 360 - before) % 360 {
        0..=20 | 340..=359 => 0,
        21..=40 => 1,
        41..=120 => 2,
        121..=179 => 3,
        180 => 4,
        181..=239 => 5,
        240..=319 => 6,
        _ => 7,
    }
}

// ---- building ----

fn build(mut map: Map, settings: &Settings) -> Network {
    map.ways.sort_by_key(|way| way.id);
    let mut segments = Vec::new();
    for (number, way) in map.ways.iter().enumerate() {
        for pair in way.nodes.windows(2) {
            let (tail, head) = (pair[0], pair[1]);
            if let (true, Some(from), Some(to)) = (tail != head, map.locations.get(&tail), map.locations.get(&head)) {
                segments.push(Segment { tail, head, from: *from, to: *to, way: number as u32 });
            }
        }
    }
    map.locations = HashMap::new();
    refuse_past(segments.len(), 1 << 24, "segments");
    let (left_side, by_distance) = (settings.left_side, settings.by_distance);
    let costs = vertex_costs(&map.ways, &segments, by_distance);
    let read = map.restrictions.len() + map.along.len();
    let rules = applying(&mut map, &segments);
    let applied: usize = rules.values().map(Vec::len).sum();
    let mut leaving: HashMap<i64, Vec<u32>> = HashMap::new();
    for v in (0..costs.len()).filter(|v| costs[*v].is_some()) {
        leaving.entry(ends(&segments, v).0).or_default().push(v as u32);
    }
    let (first, turns, turn_costs) = turns_of(&map, settings, &segments, &leaving, &costs, &rules);
    let roads = Roads { ways: &map.ways, segments: &segments, first: &first, turns: &turns };
    let (barred, idle) = roads.all_barred(&map.along);
    let Some(expanded) = Expanded::of(&roads, &barred) else { refuse("vias") };
    refuse_past(expanded.arc_count(), 1 << 27, "turns");
    let applied = applied + map.along.len() - idle;
    let ignored = map.ignored + read - applied;
    let class_names: Vec<String> = settings.classes.iter().map(|(name, _)| name.clone()).collect();
    let set = |names: &Vec<String>| set_of(&class_names, names).expect("names of classes");
    let excludable = settings.excludable.iter().map(set).collect();
    let profile = Metric { number: 0, costs, turns: turn_costs, avoiding: Vec::new() };
    let (metric, around) = (profile.clone(), OnceLock::new());
    let ways = map.ways;
    let mut network =
        Network { ways, segments, leaving, first, turns, expanded, applied, ignored, left_side, by_distance, class_names, excludable, profile, metric, around };
    network.metric.avoiding = avoiding(&network, &network.metric.costs);
    network
}

/// Ends the run where there are more of these than may be.
fn refuse_past(count: usize, most: usize, what: &str) {
    if count > most {
        refuse(what);
    }
}

fn refuse(what: &str) -> ! {
    println!("too many {what}");
    std::process::exit(3)
}

/// The classes of these names; None where one is of no class.
fn set_of(class_names: &[String], names: &[String]) -> Option<Classes> {
    names.iter().try_fold(0, |set, name| Some(set | 1 << class_names.iter().position(|own| own == name)?))
}

/// Costs without the ways of each excludable set.
fn avoiding(network: &Network, costs: &[Option<Cost>]) -> Vec<Vec<Option<Cost>>> {
    let without = |set: &Classes| {
        let has_none = |v: usize| network.ways[network.segments[v / 2].way as usize].classes & set == 0;
        costs.iter().enumerate().map(|(v, cost)| cost.filter(|_| has_none(v))).collect()
    };
    network.excludable.iter().map(without).collect()
}

/// The restrictions by their `via` node, but those one of whose ways does not meet it.
fn applying(map: &mut Map, segments: &[Segment]) -> HashMap<i64, Vec<Restriction>> {
    let wanted: HashSet<i64> = map.restrictions.iter().map(|rule| rule.via).collect();
    let mut meets = HashSet::new();
    for segment in segments {
        for node in [segment.tail, segment.head] {
            if wanted.contains(&node) {
                meets.insert((map.ways[segment.way as usize].id, node));
            }
        }
    }
    let mut rules: HashMap<i64, Vec<Restriction>> = HashMap::new();
    for rule in map.restrictions.drain(..) {
        if rule.from.iter().chain(&rule.to).all(|way| meets.contains(&(*way, rule.via))) {
            rules.entry(rule.via).or_default().push(rule);
        }
    }
    rules
}

fn forbids(rule: &Restriction, from: i64, to: i64, back: bool) -> bool {
    rule.from.contains(&from)
        && match rule.sense {
            Sense::No => rule.to.contains(&to),
            Sense::NoUTurn => rule.to.contains(&to) && (back || rule.from != rule.to),
            Sense::Only => !rule.to.contains(&to),
        }
}

fn vertex_costs(ways: &[Way], segments: &[Segment], by_distance: bool) -> Vec<Option<Cost>> {
    let mut costs = Vec::with_capacity(2 * segments.len());
    for segment in segments {
        let way = &ways[segment.way as usize];
        let length = distance(segment.from, segment.to).max(1);
        let cost = cost_at(way.speed, length, by_distance, None);
        costs.push(way.forward.then_some(cost));
        costs.push(way.backward.then_some(cost));
    }
    costs
}

fn turns_of(
    map: &Map,
    settings: &Settings,
    segments: &[Segment],
    leaving: &HashMap<i64, Vec<u32>>,
    costs: &[Option<Cost>],
    rules: &HashMap<i64, Vec<Restriction>>,
) -> (Vec<u32>, Vec<u32>, Vec<TurnCost>) {
    let bearings: Vec<u32> = (0..costs.len()).map(|v| vertex_bearing(segments, v)).collect();
    let way_of = |v: u32| map.ways[segments[v as usize / 2].way as usize].id;
    let (mut first, mut turns, mut turn_costs) = (vec![0], Vec::new(), Vec::new());
    for v in 0..costs.len() {
        let node = ends(segments, v).1;
        if let (Some(_), Some(list)) = (costs[v], leaving.get(&node)) {
            let back = v as u32 ^ 1;
            let exits = list.iter().filter(|e| **e != back).count();
            let closed = map.closed.contains(&node);
            let signal = if map.signals.contains(&node) { settings.signal } else { 0 };
            let here = rules.get(&node).map_or(&[][..], Vec::as_slice);
            for e in list {
                let open = if *e == back { exits == 0 || closed } else { !closed };
                if !open || here.iter().any(|rule| forbids(rule, way_of(v as u32), way_of(*e), *e == back)) {
                    continue;
                }
                let turn = if *e == back {
                    settings.u_turn
                } else if exits >= 2 {
                    settings.penalties[modifier(bearings[v], bearings[*e as usize])]
                } else {
                    0
                };
                turns.push(*e);
                turn_costs.push(TurnCost::of(settings.by_distance, (turn + signal) as u32, None));
            }
        }
        first.push(turns.len() as u32);
    }
    (first, turns, turn_costs)
}

/// The nodes where a vertex begins and ends.
fn ends(segments: &[Segment], v: usize) -> (i64, i64) {
    let segment = &segments[v / 2];
    if v % 2 == 0 { (segment.tail, segment.head) } else { (segment.head, segment.tail) }
}

fn vertex_bearing(segments: &[Segment], v: usize) -> u32 {
    let segment = &segments[v / 2];
    if v % 2 == 0 { bearing(segment.from, segment.to) } else { bearing(segment.to, segment.from) }
}

// ---- routes ----

/// What a coordinate asks of its place: the greatest distance, and a bearing with what it may differ by.
#[derive(Clone, Copy, Default)]
struct Wish {
    radius: Option<u64>,
    bearing: Option<(u32, u32)>,
}

/// The candidates for a point, each as its plane value, its segment and where on it.
fn candidates(network: &View, p: Point, wish: Wish) -> impl Iterator<Item = (u128, u32, u64)> {
    let near = move |number: usize, segment: &Segment| {
        let open = |v: &usize| network.costs[*v].is_some();
        let bears = |v: usize| wish.bearing.is_none_or(|(value, range)| {
            let apart = vertex_bearing(&network.segments, v).abs_diff(value % 360);
            apart.min(360 - apart) <= range
        });
        if ![2 * number, 2 * number + 1].into_iter().filter(open).any(bears) {
            return None;
        }
        let at = project(p, segment.from, segment.to);
        let own = point_at(segment.from, segment.to, at);
        let within = wish.radius.is_none_or(|radius| distance(p, own) <= radius);
        within.then(|| (plane(p, own), number as u32, at))
    };
    network.segments.iter().enumerate().filter_map(move |(number, segment)| near(number, segment))
}

fn snap(network: &View, p: Point, wish: Wish) -> Option<Place> {
    candidates(network, p, wish).min().map(|(_, segment, at)| Place { segment, at })
}

fn plus(a: Cost, b: Cost) -> Cost {
    (a.0 + b.0, a.1 + b.1, a.2 + b.2)
}

fn minus(a: Cost, b: Cost) -> Cost {
    (a.0 - b.0, a.1 - b.1, a.2 - b.2)
}

fn before(cost: Cost, parts: u64) -> Cost {
    (cost.0 * parts / 1024, cost.1 * parts / 1024, cost.2 * parts / 1024)
}

/// A direction of a place's segment: the vertex or a copy of it, what it costs, and how far along it the place lies.
type Direction = (u32, Cost, u64);

/// The open directions of a place's segment.
fn directions(network: &View, place: Place) -> Vec<Direction> {
    let both = [(2 * place.segment, place.at), (2 * place.segment + 1, 1024 - place.at)];
    let open = both.iter().filter_map(|(v, parts)| Some((*v, network.costs[*v as usize]?, *parts)));
    open.collect()
}

/// The same with all copies, each vertex with its own behind it: what a walk may be in at a place that it comes to.
fn states(network: &View, place: Place) -> Vec<Direction> {
    let with_copies = |(v, cost, parts): Direction| {
        let copies = network.expanded.copies_of(v).iter();
        std::iter::once(v).chain(copies.copied()).map(move |state| (state, cost, parts))
    };
    directions(network, place).into_iter().flat_map(with_copies).collect()
}

/// Marks the first vertex of a walk among the vertices before others.
const START: u32 = 1 << 31;

struct Route {
    cost: Cost,
    walk: Vec<u32>,
}

/// What every search uses anew, for each vertex and each copy: a label counts only where its stamp is that of the search.
struct Labels {
    stamp: u32,
    stamps: Vec<u32>,
    costs: Vec<Cost>,
    /// The vertex before; one from which the search started is marked by `START`.
    parents: Vec<u32>,
    settled: Vec<bool>,
    heap: BinaryHeap<Reverse<(Cost, u32)>>,
}

impl Labels {
    fn new(network: &Network) -> Labels {
        let vertices = network.expanded.vertices();
        Labels {
            stamp: 0,
            stamps: vec![0; vertices],
            costs: vec![(0, 0, 0); vertices],
            parents: vec![0; vertices],
            settled: vec![false; vertices],
            heap: BinaryHeap::new(),
        }
    }

    fn offer(&mut self, v: u32, cost: Cost, parent: u32) {
        let i = v as usize;
        if self.stamps[i] != self.stamp || cost < self.costs[i] {
            self.stamps[i] = self.stamp;
            self.costs[i] = cost;
            self.parents[i] = parent;
            self.settled[i] = false;
            self.heap.push(Reverse((cost, v)));
        }
    }

    fn expand(&mut self, network: &View, v: u32, paid: Cost, mark: u32) {
        if network.expanded.is_copy(v) {
            for (turn, head) in network.expanded.arcs_from(v) {
                self.follow(network, *turn as usize, *head, paid, v | mark);
            }
        } else {
            for turn in network.first[v as usize] as usize..network.first[v as usize + 1] as usize {
                self.follow(network, turn, network.expanded.heads[turn], paid, v | mark);
            }
        }
    }

    /// Goes along an arc, which costs what its turn does, to the head of the turn or to a copy of it.
    fn follow(&mut self, network: &View, turn: usize, head: u32, paid: Cost, parent: u32) {
        if let Some(cost) = network.costs[network.turns[turn] as usize] {
            let turned = network.metric.turns[turn].cost();
            self.offer(head, plus(paid, plus(turned, cost)), parent);
        }
    }
}

impl Labels {
    /// Begins a search from a place, in these of its directions.
    fn start(&mut self, network: &View, from: &[Direction]) {
        self.stamp += 1;
        self.heap.clear();
        for (v, cost, parts) in from {
            self.expand(network, *v, minus(*cost, before(*cost, *parts)), START);
        }
    }

    /// Searches until the vertices of all targets are settled, or nothing is left.
    fn reach(&mut self, network: &View, from: &[Direction], targets: &[Direction]) {
        self.start(network, from);
        let mut wanted = targets.len();
        while wanted > 0 {
            let Some((v, _)) = self.settle(network) else { break };
            wanted -= usize::from(targets.iter().any(|target| target.0 == v));
        }
    }

    /// Settles the next vertex; None where nothing is left.
    fn settle(&mut self, network: &View) -> Option<(u32, Cost)> {
        loop {
            let Reverse((cost, v)) = self.heap.pop()?;
            if !self.settled[v as usize] {
                self.settled[v as usize] = true;
                self.expand(network, v, cost, 0);
                return Some((v, cost));
            }
        }
    }

    fn cost_of(&self, v: u32) -> Option<Cost> {
        let i = v as usize;
        (self.stamps[i] == self.stamp && self.settled[i]).then(|| self.costs[i])
    }

    /// The vertices that the walk to a vertex or a copy stands for.
    fn walk_to(&self, network: &View, last: u32) -> Vec<u32> {
        let mut walk = vec![last];
        let mut parent = self.parents[last as usize];
        while parent & START == 0 {
            walk.push(parent);
            parent = self.parents[parent as usize];
        }
        walk.push(parent & !START);
        walk.iter().rev().map(|state| network.expanded.stands_for(*state)).collect()
    }
}

/// What a walk of one vertex costs from one of these directions to one of those, and the vertex.
fn along_one(starts: &[Direction], targets: &[Direction]) -> Option<(Cost, u32)> {
    let pairs = starts.iter().filter_map(|(v, cost, parts)| {
        let (_, _, last) = targets.iter().find(|target| target.0 == *v && target.2 >= *parts)?;
        Some((minus(before(*cost, *last), before(*cost, *parts)), *v))
    });
    pairs.min()
}

/// What a walk with a turn costs to one of these targets by the search that has reached them, and its last vertex.
fn by_turns(labels: &Labels, targets: &[Direction]) -> Option<(Cost, u32)> {
    let turning = targets.iter().filter_map(|(v, own, parts)| {
        let cost = labels.cost_of(*v)?;
        Some((plus(minus(cost, *own), before(*own, *parts)), *v))
    });
    turning.min()
}

fn least_route(network: &View, labels: &mut Labels, from: Place, to: Place) -> Option<Route> {
    least_between(network, labels, &directions(network, from), &states(network, to))
}

/// A least walk that begins in one of these directions and ends in one of those.
fn least_between(network: &View, labels: &mut Labels, starts: &[Direction], targets: &[Direction]) -> Option<Route> {
    labels.reach(network, starts, targets);
    let one = |v: u32| vec![network.expanded.stands_for(v)];
    match (along_one(starts, targets), by_turns(labels, targets)) {
        (None, None) => None,
        (Some((cost, v)), None) => Some(Route { cost, walk: one(v) }),
        (Some((cost, v)), Some((other, _))) if cost <= other => Some(Route { cost, walk: one(v) }),
        (_, Some((cost, v))) => Some(Route { cost, walk: labels.walk_to(network, v) }),
    }
}

/// What a least walk costs from one of these directions to one of those, which the search has reached.
fn cost_between(labels: &Labels, starts: &[Direction], targets: &[Direction]) -> Option<Cost> {
    let both = by_turns(labels, targets).into_iter().chain(along_one(starts, targets));
    both.map(|(cost, _)| cost).min()
}

/// What a least walk from a place to each of others costs, by one search.
fn row(network: &View, labels: &mut Labels, from: Place, to: &[Place]) -> Vec<Option<Cost>> {
    let starts = directions(network, from);
    labels.start(network, &starts);
    let mut wanted: HashSet<u32> = to.iter().flat_map(|place| states(network, *place)).map(|target| target.0).collect();
    while !wanted.is_empty() {
        let Some((v, _)) = labels.settle(network) else { break };
        wanted.remove(&v);
    }
    to.iter().map(|place| cost_between(labels, &starts, &states(network, *place))).collect()
}

// ---- one walk through all places ----

/// What legs cost together.
type Sum = (u128, u128, u128);

fn with_leg(sum: Sum, leg: Cost) -> Sum {
    (sum.0 + u128::from(leg.0), sum.1 + u128::from(leg.1), sum.2 + u128::from(leg.2))
}

/// What a walk may be in at each place: at the first in a direction, at others in a copy of one as well.
fn states_along(network: &View, places: &[Place]) -> Vec<Vec<Direction>> {
    let at = |(number, place): (usize, &Place)| if number == 0 { directions(network, *place) } else { states(network, *place) };
    places.iter().enumerate().map(at).collect()
}

/// For each state at the end of a leg the least sum with which a walk comes to it, and the state at the leg's beginning
/// from which it does. `sums` are those at the beginning.
fn leg_sums(network: &View, labels: &mut Labels, sums: &[Option<Sum>], starts: &[Direction], targets: &[Direction]) -> Vec<Option<(Sum, usize)>> {
    let mut least: Vec<Option<(Sum, usize)>> = vec![None; targets.len()];
    for (from, start) in starts.iter().enumerate() {
        let Some(sum) = sums[from] else { continue };
        labels.reach(network, &[*start], targets);
        for (step, target) in least.iter_mut().zip(targets) {
            let new = cost_between(labels, &[*start], &[*target]).map(|cost| (with_leg(sum, cost), from));
            *step = (*step).into_iter().chain(new).min();
        }
    }
    least
}

/// The state at each place of a least walk through all, as its number there, or the first leg up to which there is none.
/// Of several it ends in the first state, and so on backwards.
fn least_chain(network: &View, labels: &mut Labels, along: &[Vec<Direction>]) -> Result<Vec<usize>, usize> {
    let (mut sums, mut befores) = (vec![Some((0, 0, 0)); along[0].len()], Vec::new());
    for (leg, pair) in along.windows(2).enumerate() {
        let steps = leg_sums(network, labels, &sums, &pair[0], &pair[1]);
        sums = steps.iter().map(|step| step.map(|(sum, _)| sum)).collect();
        befores.push(steps.iter().map(|step| step.map_or(0, |(_, from)| from)).collect::<Vec<usize>>());
        if sums.iter().all(Option::is_none) {
            return Err(leg);
        }
    }
    let ends = sums.iter().enumerate().filter_map(|(end, sum)| Some(((*sum)?, end)));
    let mut chain = vec![ends.min().expect("a walk comes to the last place").1];
    for before in befores.iter().rev() {
        chain.push(before[chain[chain.len() - 1]]);
    }
    chain.reverse();
    Ok(chain)
}

/// A route for each leg, each of which goes on along the vertex on which the one before ends, in the same copy of it, so
/// that they cost the least together; the first leg up to which there are none where there are none.
fn least_through(network: &View, labels: &mut Labels, places: &[Place]) -> Result<Vec<Route>, usize> {
    let along = states_along(network, places);
    let chain = least_chain(network, labels, &along)?;
    let own: Vec<Direction> = along.iter().zip(&chain).map(|(states, number)| states[*number]).collect();
    let route = |pair: &[Direction]| least_between(network, labels, &pair[..1], &pair[1..]).expect("each leg of the chain has a walk");
    Ok(own.windows(2).map(route).collect())
}

// ---- traffic ----

/// One record of a CSV text: its fields one behind the other, and where each ends.
#[derive(Default)]
struct Record {
    bytes: Vec<u8>,
    ends: Vec<usize>,
}

impl Record {
    /// A field without the blanks round it.
    fn field(&self, number: usize) -> &[u8] {
        let from = if number == 0 { 0 } else { self.ends[number - 1] };
        let mut field = &self.bytes[from..self.ends[number]];
        while let Some(rest) = field.strip_prefix(b" ").or(field.strip_suffix(b" ")) {
            field = rest;
        }
        field
    }
}

/// The records of a CSV text: fields parted by commas, records by ends of lines of any kind. A field that begins
/// with a quote goes to the next quote that is not doubled. Empty lines are no records.
struct Records<'a> {
    rest: &'a [u8],
}

impl Records<'_> {
    fn next(&mut self, record: &mut Record) -> bool {
        record.bytes.clear();
        record.ends.clear();
        while let [b'\n' | b'\r', rest @ ..] = self.rest {
            self.rest = rest;
        }
        if self.rest.is_empty() {
            return false;
        }
        while self.field(record) {}
        true
    }

    /// Reads a field; whether another one follows.
    fn field(&mut self, record: &mut Record) -> bool {
        let mut quoted = self.rest.first() == Some(&b'"');
        let mut at = usize::from(quoted);
        let mut last = None;
        while let (None, Some(byte)) = (last, self.rest.get(at)) {
            at += 1;
            match byte {
                b'"' if quoted && self.rest.get(at) != Some(&b'"') => quoted = false,
                b'"' if quoted => {
                    record.bytes.push(b'"');
                    at += 1;
                }
                b',' | b'\n' | b'\r' if !quoted => last = Some(*byte),
                _ => record.bytes.push(*byte),
            }
        }
        record.ends.push(record.bytes.len());
        self.rest = &self.rest[at..];
        last == Some(b',')
    }
}

/// Thousandths of km/h, and of metres for a unit of weight.
struct SpeedRow {
    from: i64,
    to: i64,
    speed: u64,
    rate: Option<u64>,
}

/// Deciseconds, and tenths of a unit of weight.
struct TurnRow {
    from: i64,
    via: i64,
    to: i64,
    penalty: u32,
    weight: Option<u32>,
}

/// The rows of a file, or the number of the first faulty one, from 1, and what is wrong with it.
fn rows_of<R>(text: &[u8], row: fn(&Record) -> Result<R, &'static str>) -> Result<Vec<R>, (usize, &'static str)> {
    let mut records = Records { rest: text.strip_prefix(b"\xef\xbb\xbf").unwrap_or(text) };
    let (mut rows, mut record) = (Vec::new(), Record::default());
    while records.next(&mut record) {
        rows.push(row(&record).map_err(|kind| (rows.len() + 1, kind))?);
    }
    Ok(rows)
}

fn speed_row(record: &Record) -> Result<SpeedRow, &'static str> {
    if ![3, 4].contains(&record.ends.len()) {
        return Err("BadCount");
    }
    let (from, to) = (id_in(record.field(0))?, id_in(record.field(1))?);
    let (negative, speed) = number_in(record.field(2), 3)?;
    if negative {
        return Err("BadNumber");
    }
    let rate = if record.ends.len() == 4 { Some(number_in(record.field(3), 3)?) } else { None };
    let speed = match speed {
        0 => 0,
        1..=1_000_000 => speed.max(1000),
        _ => return Err("OutOfRange"),
    };
    let rate = match rate {
        None => None,
        Some((false, rate @ 1..=1_000_000)) => Some(rate.max(278)),
        Some(_) => return Err("OutOfRange"),
    };
    Ok(SpeedRow { from, to, speed, rate })
}

fn turn_row(record: &Record) -> Result<TurnRow, &'static str> {
    if ![4, 5].contains(&record.ends.len()) {
        return Err("BadCount");
    }
    let (from, via, to) = (id_in(record.field(0))?, id_in(record.field(1))?, id_in(record.field(2))?);
    let penalty = number_in(record.field(3), 1)?;
    let weight = if record.ends.len() == 5 { Some(number_in(record.field(4), 1)?) } else { None };
    let penalty = tenths_of(penalty)?;
    let weight = weight.map(tenths_of).transpose()?;
    Ok(TurnRow { from, via, to, penalty, weight })
}

/// A number of tenths; one below 0 counts as 0.
fn tenths_of((negative, tenths): (bool, u64)) -> Result<u32, &'static str> {
    match if negative { 0 } else { tenths } {
        tenths @ 0..=1_000_000 => Ok(tenths as u32),
        _ => Err("OutOfRange"),
    }
}

fn id_in(text: &[u8]) -> Result<i64, &'static str> {
    let digits = text.strip_prefix(b"-").unwrap_or(text);
    let whole = (1..=19).contains(&digits.len()) && digits.iter().all(u8::is_ascii_digit);
    let text = std::str::from_utf8(text).ok().filter(|_| whole);
    text.and_then(|text| text.parse().ok()).ok_or("BadId")
}

/// Whether it has a sign, and the size in units of the last of so many places after the point.
fn number_in(text: &[u8], places: usize) -> Result<(bool, u64), &'static str> {
    let (negative, whole, fraction) = decimal(text).ok_or("BadNumber")?;
    Ok((negative, kept(whole, fraction, places).unsigned_abs()))
}

/// The bytes of a file, none where its name is `-`.
fn file(name: &str) -> Vec<u8> {
    let read = if name == "-" { Ok(Vec::new()) } else { std::fs::read(name) };
    read.unwrap_or_else(|_| {
        println!("cannot read {name}");
        std::process::exit(1)
    })
}

/// Puts the metric of these files in the place of the one that holds now, or refuses both.
fn take_traffic(network: &mut Network, applying: Applying, speeds: &str, turns: &str) -> String {
    let (speeds, turns) = (file(speeds), file(turns));
    let refused = |file: &str, (row, kind): (usize, &str)| {
        format!("{{\"code\":\"Refused\",\"file\":\"{file}\",\"row\":{row},\"kind\":\"{kind}\"}}")
    };
    let rows = match (rows_of(&speeds, speed_row), rows_of(&turns, turn_row)) {
        (Err(fault), _) => return refused("speeds", fault),
        (_, Err(fault)) => return refused("turns", fault),
        (Ok(speeds), Ok(turns)) => (speeds, turns),
    };
    let (metric, unmatched) = applying(network, &rows.0, &rows.1);
    network.metric = metric;
    let number = network.metric.number;
    format!("{{\"code\":\"Ok\",\"data_version\":\"{number}\",\"unmatched\":{unmatched}}}")
}

/// How rows are applied.
type Applying = fn(&Network, &[SpeedRow], &[TurnRow]) -> (Metric, usize);

/// What so many decimetres cost at a speed above 0, and at a rate where there is one.
fn cost_at(speed: u64, length: u64, by_distance: bool, rate: Option<u64>) -> Cost {
    let duration = (length * 3600 / speed).max(1);
    let weight = match rate {
        Some(rate) => (length * 1000 / rate).max(1),
        None if by_distance => length,
        None => duration,
    };
    (weight, duration, length)
}

/// The same under a row, whose speed of 0 closes.
fn cost_under(row: &SpeedRow, length: u64, by_distance: bool) -> Option<Cost> {
    (row.speed > 0).then(|| cost_at(row.speed, length, by_distance, row.rate))
}

/// The metric of the settings and these rows, and how many rows match nothing.
fn metric_of(network: &Network, speeds: &[SpeedRow], turns: &[TurnRow]) -> (Metric, usize) {
    let mut metric = Metric { number: network.metric.number + 1, ..network.profile.clone() };
    let mut unmatched = 0;
    let between = |from: i64, to: i64| {
        let leaving = network.leaving.get(&from).map_or(&[][..], Vec::as_slice);
        leaving.iter().map(|v| *v as usize).filter(move |v| ends(&network.segments, *v).1 == to)
    };
    for row in speeds {
        let mut matched = false;
        for v in between(row.from, row.to) {
            let length = network.profile.costs[v].expect("permitted").2;
            metric.costs[v] = cost_under(row, length, network.by_distance);
            matched = true;
        }
        unmatched += usize::from(!matched);
    }
    for row in turns {
        let mut matched = false;
        for d in between(row.from, row.via) {
            for turn in network.first[d] as usize..network.first[d + 1] as usize {
                if ends(&network.segments, network.turns[turn] as usize).1 == row.to {
                    metric.turns[turn] = TurnCost::of(network.by_distance, row.penalty, row.weight);
                    matched = true;
                }
            }
        }
        unmatched += usize::from(!matched);
    }
    metric.avoiding = avoiding(network, &metric.costs);
    (metric, unmatched)
}

/// The same: each vertex and each turn looks for the last row of its nodes.
fn mirrored_metric_of(network: &Network, speeds: &[SpeedRow], turns: &[TurnRow]) -> (Metric, usize) {
    let mut metric = Metric { number: network.metric.number + 1, ..network.profile.clone() };
    let mut last_speeds: HashMap<(i64, i64), (usize, bool)> = HashMap::new();
    for (number, row) in speeds.iter().enumerate() {
        last_speeds.insert((row.from, row.to), (number, false));
    }
    for v in 0..metric.costs.len() {
        if let (Some(cost), Some(last)) = (metric.costs[v], last_speeds.get_mut(&ends(&network.segments, v))) {
            last.1 = true;
            metric.costs[v] = cost_under(&speeds[last.0], cost.2, network.by_distance);
        }
    }
    let mut last_turns: HashMap<(i64, i64, i64), (usize, bool)> = HashMap::new();
    for (number, row) in turns.iter().enumerate() {
        last_turns.insert((row.from, row.via, row.to), (number, false));
    }
    for d in 0..metric.costs.len() {
        let (tail, via) = ends(&network.segments, d);
        for turn in network.first[d] as usize..network.first[d + 1] as usize {
            let head = ends(&network.segments, network.turns[turn] as usize).1;
            if let Some(last) = last_turns.get_mut(&(tail, via, head)) {
                last.1 = true;
                let row = &turns[last.0];
                metric.turns[turn] = TurnCost::of(network.by_distance, row.penalty, row.weight);
            }
        }
    }
    metric.avoiding = avoiding(network, &metric.costs);
    let missed = speeds.iter().filter(|row| !last_speeds[&(row.from, row.to)].1).count();
    (metric, missed + turns.iter().filter(|row| !last_turns[&(row.from, row.via, row.to)].1).count())
}

// ---- lines on the map ----

/// The point where a vertex ends.
fn head_point(network: &Network, v: u32) -> Point {
    let segment = &network.segments[v as usize / 2];
    if v % 2 == 0 { segment.to } else { segment.from }
}

fn spot(network: &Network, place: Place) -> Point {
    let segment = &network.segments[place.segment as usize];
    point_at(segment.from, segment.to, place.at)
}

fn leg_points(network: &Network, walk: &[u32], from: Place, to: Place) -> Vec<Point> {
    let middle = walk[..walk.len() - 1].iter().map(|v| head_point(network, *v));
    std::iter::once(spot(network, from)).chain(middle).chain([spot(network, to)]).collect()
}

/// The points that stay of a line (Douglas and Peucker).
fn simplified(points: &[Point], tolerance: u64) -> Vec<Point> {
    if points.len() < 3 {
        return points.to_vec();
    }
    let limit = u128::from(tolerance * 65536).pow(2);
    let mut stays = vec![false; points.len()];
    (stays[0], stays[points.len() - 1]) = (true, true);
    let mut ranges = vec![(0, points.len() - 1)];
    while let Some((from, to)) = ranges.pop() {
        let mut farthest = (limit, 0);
        for at in from + 1..to {
            let own = point_at(points[from], points[to], project(points[at], points[from], points[to]));
            let off = plane(points[at], own);
            if off > farthest.0 {
                farthest = (off, at);
            }
        }
        if farthest.1 > 0 {
            stays[farthest.1] = true;
            ranges.extend([(from, farthest.1), (farthest.1, to)]);
        }
    }
    points.iter().zip(stays).filter(|(_, stays)| *stays).map(|(point, _)| *point).collect()
}

fn tolerance_of(points: &[Point]) -> u64 {
    let extent = |of: fn(&Point) -> i32| match (points.iter().map(of).min(), points.iter().map(of).max()) {
        (Some(low), Some(high)) => u64::from(high.abs_diff(low)),
        _ => 0,
    };
    extent(|point| point.lon).max(extent(|point| point.lat)) / 512
}

/// An encoded polyline of 5 or 6 digits.
fn polyline(points: &[Point], six: bool) -> String {
    let rounded = |v: i32| if six { i64::from(v) } else { i64::from((v + 5).div_euclid(10)) };
    let (mut text, mut last) = (String::new(), (0, 0));
    for point in points {
        let next = (rounded(point.lat), rounded(point.lon));
        for step in [next.0 - last.0, next.1 - last.1] {
            let mut left = if step < 0 { !(step << 1) } else { step << 1 } as u64;
            while left >= 32 {
                text.push((95 + (left & 31)) as u8 as char);
                left >>= 5;
            }
            text.push((63 + left) as u8 as char);
        }
        last = next;
    }
    text
}

fn line_text(points: &[Point], geometries: &str) -> String {
    if geometries == "geojson" {
        let each: Vec<String> = points.iter().map(|p| format!("[{},{}]", degrees(p.lon), degrees(p.lat))).collect();
        return format!("{{\"coordinates\":[{}],\"type\":\"LineString\"}}", each.join(","));
    }
    quoted(&polyline(points, geometries == "polyline6"))
}

/// What a walk pays at each of its vertices.
fn paid_along(network: &View, walk: &[u32], from: Place, to: Place) -> Vec<Cost> {
    let parts = |v: u32, place: Place| if v % 2 == 0 { place.at } else { 1024 - place.at };
    let last = walk.len() - 1;
    let each = walk.iter().enumerate().map(|(at, v)| {
        let whole = network.costs[*v as usize].expect("an open vertex");
        let end = if at == last { before(whole, parts(*v, to)) } else { whole };
        if at == 0 { minus(end, before(whole, parts(*v, from))) } else { end }
    });
    each.collect()
}

// ---- lines ----

fn answer_lines(network: &mut Network, applying: Applying) {
    let mut labels = Labels::new(network);
    let mut input = std::io::stdin().lock();
    let mut output = std::io::stdout().lock();
    let mut line = Vec::new();
    while input.read_until(b'\n', &mut line).expect("input") > 0 {
        if line.ends_with(b"\n") {
            line.pop();
            if line.ends_with(b"\r") {
                line.pop();
            }
        }
        if !line.is_empty() {
            let mut reply = reply(network, &mut labels, applying, &line);
            reply.push('\n');
            output.write_all(reply.as_bytes()).expect("output");
        }
        line.clear();
    }
}

fn reply(network: &mut Network, labels: &mut Labels, applying: Applying, line: &[u8]) -> String {
    let line = if line.len() > 8192 { None } else { std::str::from_utf8(line).ok() };
    match line.and_then(|line| line.split_once(' ')) {
        Some(("GET", target)) => answer(network, labels, target),
        Some(("TRAFFIC", names)) if names.split([' ', '\t']).count() == 2 => match names.split_once(' ') {
            Some((speeds, turns)) if !speeds.is_empty() && !turns.is_empty() => take_traffic(network, applying, speeds, turns),
            _ => String::from("{\"code\":\"BadRequest\"}"),
        },
        _ => String::from("{\"code\":\"BadRequest\"}"),
    }
}

fn answer(network: &Network, labels: &mut Labels, target: &str) -> String {
    let request = match request(target) {
        Ok(request) => request,
        Err((code, message)) => return format!("{{\"code\":\"{code}\",\"message\":{}}}", quoted(&message)),
    };
    let Some(costs) = costs_for(network, &request) else {
        return String::from("{\"code\":\"InvalidValue\",\"message\":\"exclude\"}");
    };
    let (network, version) = (&View { network, costs }, network.metric.number);
    if request.since > version {
        let since = request.since;
        return format!("{{\"code\":\"AheadOfData\",\"data_version\":\"{version}\",\"message\":\"since {since}\"}}");
    }
    let found = match request.service.as_str() {
        "nearest" => nearest(network, &request),
        "table" => table(network, labels, &request),
        "trip" => trip(network, labels, &request),
        _ => route(network, labels, &request),
    };
    match found {
        Ok(members) => format!("{{\"code\":\"Ok\",\"data_version\":\"{version}\",{members}}}"),
        Err((code, message)) => format!("{{\"code\":\"{code}\",\"data_version\":\"{version}\",\"message\":\"{message}\"}}"),
    }
}

/// The costs that a request is answered under; None where it excludes no set that may be excluded.
fn costs_for<'a>(network: &'a Network, request: &Request) -> Option<&'a [Option<Cost>]> {
    let Some(names) = &request.exclude else { return Some(&network.metric.costs) };
    let set = set_of(&network.class_names, names)?;
    let number = network.excludable.iter().position(|own| *own == set)?;
    Some(&network.metric.avoiding[number])
}

type Refusal = (&'static str, String);

fn places_of(network: &View, request: &Request) -> Result<Vec<Place>, Refusal> {
    let place = |number: usize| {
        let found = snap(network, request.points[number], request.wishes[number]);
        found.ok_or_else(|| ("NoSegment", format!("coordinate {number}")))
    };
    (0..request.points.len()).map(place).collect()
}

fn nearest(network: &View, request: &Request) -> Result<String, Refusal> {
    let point = request.points[0];
    let mut found: Vec<(u128, u32, u64)> = candidates(network, point, request.wishes[0]).collect();
    if found.is_empty() {
        return Err(("NoSegment", String::from("coordinate 0")));
    }
    found.sort_unstable();
    let told = found.iter().take(request.number).map(|(_, segment, at)| {
        let ends = &network.segments[*segment as usize];
        let waypoint = waypoint(network, point, Place { segment: *segment, at: *at });
        format!("{{\"nodes\":[{},{}],{}", ends.tail, ends.head, &waypoint[1..])
    });
    Ok(format!("\"waypoints\":[{}]", told.collect::<Vec<_>>().join(",")))
}

fn table(network: &View, labels: &mut Labels, request: &Request) -> Result<String, Refusal> {
    let places = places_of(network, request)?;
    let (from, to) = (&request.sources, &request.destinations);
    let ends: Vec<Place> = to.iter().map(|i| places[*i]).collect();
    let rows: Vec<Vec<Option<Cost>>> = from.iter().map(|i| row(network, labels, places[*i], &ends)).collect();
    let mut members = Vec::new();
    for (name, asked, part) in [("durations", "duration", 1), ("distances", "distance", 2)] {
        if request.annotations.iter().any(|annotation| annotation == asked) {
            let cell = |cell: &Option<Cost>| cell.map_or(String::from("null"), |cost| tenths([cost.0, cost.1, cost.2][part]));
            let row = |row: &Vec<Option<Cost>>| format!("[{}]", row.iter().map(cell).collect::<Vec<_>>().join(","));
            members.push(format!("\"{name}\":[{}]", rows.iter().map(row).collect::<Vec<_>>().join(",")));
        }
    }
    for (name, chosen) in [("sources", from), ("destinations", to)] {
        if !request.skip_waypoints {
            let told: Vec<String> = chosen.iter().map(|i| waypoint(network, request.points[*i], places[*i])).collect();
            members.push(format!("\"{name}\":[{}]", told.join(",")));
        }
    }
    Ok(members.join(","))
}

fn route(network: &View, labels: &mut Labels, request: &Request) -> Result<String, Refusal> {
    let places = places_of(network, request)?;
    let told = route_text(network, labels, request, &places).map_err(|leg| ("NoRoute", format!("leg {leg}")))?;
    let waypoints = request.points.iter().zip(&places).map(|(point, place)| waypoint(network, *point, *place));
    Ok(format!("\"routes\":[{told}]{}", waypoints_text(request, waypoints.collect())))
}

/// All places in the order that is best, found by trying all orders.
fn trip(network: &View, labels: &mut Labels, request: &Request) -> Result<String, Refusal> {
    let places = places_of(network, request)?;
    let rows: Vec<Vec<Option<Cost>>> = places.iter().map(|place| row(network, labels, *place, &places)).collect();
    let order = best_order(&rows, request).ok_or_else(|| ("NoTrips", String::from("trip")))?;
    let stops: Vec<Place> = stops(&order, request.roundtrip).map(|number| places[number]).collect();
    let told = route_text(network, labels, request, &stops).expect("each leg of the best order has a walk");
    let waypoint = |(number, point): (usize, &Point)| {
        let index = order.iter().position(|stop| *stop == number).expect("an order has all places");
        let waypoint = waypoint(network, *point, places[number]);
        format!("{{\"waypoint_index\":{index},\"trips_index\":0,{}", &waypoint[1..])
    };
    let waypoints = request.points.iter().enumerate().map(waypoint);
    Ok(format!("\"trips\":[{told}]{}", waypoints_text(request, waypoints.collect())))
}

/// The places of an order, and on a round trip its first place once more.
fn stops(order: &[usize], roundtrip: bool) -> impl Iterator<Item = usize> {
    order.iter().chain(order.iter().take(usize::from(roundtrip))).copied()
}

/// Of the orders that the request admits and that lack no leg the one that costs the least, and of those that cost as
/// much the first in the order of their numbers.
fn best_order(rows: &[Vec<Option<Cost>>], request: &Request) -> Option<Vec<usize>> {
    let (begins_at_first, last) = (request.from_first || (request.roundtrip && !request.to_last), rows.len() - 1);
    let mut order: Vec<usize> = (0..rows.len()).collect();
    let mut best: Option<(Cost, Vec<usize>)> = None;
    loop {
        let admitted = (!begins_at_first || order[0] == 0) && (!request.to_last || order[last] == last);
        let cost = if admitted { cost_along(rows, &order, request.roundtrip) } else { None };
        if let Some(cost) = cost
            && best.as_ref().is_none_or(|(least, _)| cost < *least)
        {
            best = Some((cost, order.clone()));
        }
        if !go_on(&mut order) {
            return best.map(|(_, order)| order);
        }
    }
}

/// What the legs of an order cost together, None where one is lacking.
fn cost_along(rows: &[Vec<Option<Cost>>], order: &[usize], roundtrip: bool) -> Option<Cost> {
    stops(order, roundtrip).zip(stops(order, roundtrip).skip(1)).try_fold((0, 0, 0), |paid, (from, to)| Some(plus(paid, rows[from][to]?)))
}

/// Makes the next order of one, in the order of their numbers; false where it was the last.
fn go_on(order: &mut [usize]) -> bool {
    let Some(at) = (1..order.len()).rev().find(|at| order[at - 1] < order[*at]) else { return false };
    let other = (at..order.len()).rev().find(|other| order[at - 1] < order[*other]).expect("the one at `at` is greater");
    order.swap(at - 1, other);
    order[at..].reverse();
    true
}

/// The member that has the waypoints, where they are asked for.
fn waypoints_text(request: &Request, waypoints: Vec<String>) -> String {
    if request.skip_waypoints { String::new() } else { format!(",\"waypoints\":[{}]", waypoints.join(",")) }
}

/// A route for each leg through places in their order: one walk that turns round at none of them where that is asked
/// for, else each leg by itself. The number of the first leg that has none where one has none.
fn routes_along(network: &View, labels: &mut Labels, request: &Request, places: &[Place]) -> Result<Vec<Route>, usize> {
    if request.straight {
        return least_through(network, labels, places);
    }
    let legs = places.windows(2).enumerate();
    legs.map(|(number, pair)| least_route(network, labels, pair[0], pair[1]).ok_or(number)).collect()
}

/// A route through places in their order; the number of the first leg that has no walk where one has none.
fn route_text(network: &View, labels: &mut Labels, request: &Request, places: &[Place]) -> Result<String, usize> {
    let (mut whole, mut legs, mut line) = ((0, 0, 0), Vec::new(), Vec::new());
    let routes = routes_along(network, labels, request, places)?;
    for (number, (route, pair)) in routes.iter().zip(places.windows(2)).enumerate() {
        whole = plus(whole, route.cost);
        let points = leg_points(network, &route.walk, pair[0], pair[1]);
        line.extend(&points[usize::from(number > 0)..]);
        legs.push(leg_text(network, request, route, &points, pair[0], pair[1]));
    }
    if request.overview == "simplified" {
        line = simplified(&line, tolerance_of(&line));
    }
    let geometry = match request.overview.as_str() {
        "false" => String::new(),
        _ => format!("\"geometry\":{},", line_text(&line, &request.geometries)),
    };
    let (totals, legs) = (totals(whole), legs.join(","));
    let weight_name = if network.by_distance { "distance" } else { "duration" };
    Ok(format!("{{{totals},\"weight_name\":\"{weight_name}\",{geometry}\"legs\":[{legs}]}}"))
}

fn leg_text(network: &View, request: &Request, route: &Route, points: &[Point], from: Place, to: Place) -> String {
    let mut members = Vec::new();
    let paid = paid_along(network, &route.walk, from, to);
    let steps = if request.steps { steps_text(network, request, &route.walk, &paid, points) } else { String::new() };
    let list = |of: &dyn Fn(&Cost) -> u64| paid.iter().map(|cost| tenths(of(cost))).collect::<Vec<_>>().join(",");
    for name in ["distance", "duration", "weight", "nodes", "speed"] {
        if request.annotations.iter().any(|asked| asked == name || asked == "true") {
            let entries = match name {
                "distance" => list(&|cost| cost.2),
                "duration" => list(&|cost| cost.1),
                "speed" => list(&|cost| (10 * cost.2).checked_div(cost.1).unwrap_or(0)),
                "nodes" => {
                    let first = ends(&network.segments, route.walk[0] as usize).0;
                    let heads = route.walk.iter().map(|v| ends(&network.segments, *v as usize).1);
                    std::iter::once(first).chain(heads).map(|id| id.to_string()).collect::<Vec<_>>().join(",")
                }
                _ => list(&|cost| cost.0),
            };
            members.push(format!("\"{name}\":[{entries}]"));
        }
    }
    let annotation = if members.is_empty() { String::new() } else { format!(",\"annotation\":{{{}}}", members.join(",")) };
    format!("{{{},\"summary\":\"\",\"steps\":[{steps}]{annotation}}}", totals(route.cost))
}

/// What the driver is told of a leg, step by step. A turn's cost is in the step that holds the vertex behind it.
fn steps_text(network: &Network, request: &Request, walk: &[u32], paid: &[Cost], points: &[Point]) -> String {
    let exits = exit_numbers(network, walk);
    let mut begins = vec![(0, Maneuver { kind: "depart", modifier: None, exit: None })];
    for at in 1..walk.len() {
        begins.extend(maneuver(network, walk, &exits, at).map(|maneuver| (at, maneuver)));
    }
    let mut told = String::new();
    for (number, (from, own)) in begins.iter().enumerate() {
        let (from, to) = (*from, begins.get(number + 1).map_or(walk.len(), |next| next.0));
        let whole = paid[from..to].iter().fold((0, 0, 0), |sum, part| plus(sum, *part));
        let turned = (from.max(1)..to).fold((0, 0, 0), |sum, at| plus(sum, turn_cost(network, walk[at - 1], walk[at])));
        let before = if from == 0 { 0 } else { vertex_bearing(&network.segments, walk[from - 1] as usize) };
        let after = vertex_bearing(&network.segments, walk[from] as usize);
        let maneuver = format!("\"bearing_before\":{before},\"bearing_after\":{after},{}", own.text());
        let met: Vec<String> = (from..to).map(|at| intersection(network, walk, points[at], at)).collect();
        told += &step_text(network, request, walk[from], plus(whole, turned), &points[from..=to], &maneuver, &met.join(","));
        told.push(',');
    }
    let (last, end) = (walk[walk.len() - 1], points[points.len() - 1]);
    let before = vertex_bearing(&network.segments, last as usize);
    let maneuver = format!("\"bearing_before\":{before},\"bearing_after\":0,\"type\":\"arrive\"");
    let met = format!("{{{},\"bearings\":[{}],\"entry\":[true],\"in\":0}}", location(end), (before + 180) % 360);
    told + &step_text(network, request, last, (0, 0, 0), &[end, end], &maneuver, &met)
}

/// What leaves the node where a vertex of a walk begins, by bearings, and what may be entered of it; where the walk
/// begins, its own direction alone.
fn intersection(network: &Network, walk: &[u32], point: Point, at: usize) -> String {
    let bears = |v: u32| vertex_bearing(&network.segments, v as usize);
    if at == 0 {
        return format!("{{{},\"bearings\":[{}],\"entry\":[true],\"out\":0}}", location(point), bears(walk[0]));
    }
    let (d, e) = (walk[at - 1] as usize, walk[at]);
    let turns = &network.turns[network.first[d] as usize..network.first[d + 1] as usize];
    let mut ways: Vec<(u32, u32)> = around(network)[&ends(&network.segments, d).1].iter().map(|v| (bears(*v), *v)).collect();
    ways.sort_unstable();
    let place = |wanted: u32| ways.iter().position(|(_, v)| *v == wanted).expect("it leaves the node");
    let (back, on) = (place(walk[at - 1] ^ 1), place(e));
    let bearings: Vec<String> = ways.iter().map(|(bearing, _)| bearing.to_string()).collect();
    let entry: Vec<String> = ways.iter().map(|(_, v)| turns.contains(v).to_string()).collect();
    let lists = format!("\"bearings\":[{}],\"entry\":[{}]", bearings.join(","), entry.join(","));
    format!("{{{},{lists},\"in\":{back},\"out\":{on}}}", location(point))
}

/// All vertices that leave a node, permitted or not.
fn around(network: &Network) -> &HashMap<i64, Vec<u32>> {
    network.around.get_or_init(|| {
        let mut around: HashMap<i64, Vec<u32>> = HashMap::new();
        for v in 0..2 * network.segments.len() {
            around.entry(ends(&network.segments, v).0).or_default().push(v as u32);
        }
        around
    })
}

fn location(point: Point) -> String {
    format!("\"location\":[{},{}]", degrees(point.lon), degrees(point.lat))
}

/// A step that begins at the first of its points and goes on along a vertex.
fn step_text(network: &Network, request: &Request, v: u32, cost: Cost, points: &[Point], maneuver: &str, met: &str) -> String {
    let (totals, line, name) = (totals(cost), line_text(points, &request.geometries), quoted(name_of(network, v)));
    let side = if network.left_side { "left" } else { "right" };
    let place = location(points[0]);
    format!(
        "{{{totals},\"geometry\":{line},\"name\":{name},\"mode\":\"driving\",\"driving_side\":\"{side}\",\
         \"maneuver\":{{{place},{maneuver}}},\"intersections\":[{met}]}}"
    )
}

fn name_of(network: &Network, v: u32) -> &str {
    &network.ways[network.segments[v as usize / 2].way as usize].name
}

/// What a turn costs.
fn turn_cost(network: &Network, d: u32, e: u32) -> Cost {
    let turns = network.first[d as usize] as usize..network.first[d as usize + 1] as usize;
    let turn = turns.clone().find(|turn| network.turns[*turn] == e).expect("a turn");
    network.metric.turns[turn].cost()
}

/// What the driver is to do.
struct Maneuver {
    kind: &'static str,
    /// How a turn bends, as the place in `MODIFIERS`.
    modifier: Option<usize>,
    /// At a roundabout, by which of its exits he leaves it.
    exit: Option<usize>,
}

impl Maneuver {
    fn text(&self) -> String {
        let mut text = format!("\"type\":\"{}\"", self.kind);
        if let Some(modifier) = self.modifier {
            text += &format!(",\"modifier\":\"{}\"", MODIFIERS[modifier].replace('_', " "));
        }
        if let Some(exit) = self.exit {
            text += &format!(",\"exit\":{exit}");
        }
        text
    }
}

/// What the driver is to do at the turn before a vertex of a walk; None where he just goes on. `exits` are those of the
/// walk.
fn maneuver(network: &Network, walk: &[u32], exits: &[Option<usize>], at: usize) -> Option<Maneuver> {
    let (d, e) = (walk[at - 1], walk[at]);
    let bend = modifier(vertex_bearing(&network.segments, d as usize), vertex_bearing(&network.segments, e as usize));
    let (kind, modifier, exit) = match (is_round(network, d), is_round(network, e)) {
        _ if e == d ^ 1 => ("continue", 4, None),
        (true, true) => return None,
        (false, true) => ("roundabout", bend, exits[at]),
        (true, false) => ("exit roundabout", bend, exits[at - 1]),
        (false, false) => (by_names(network, d, e, bend)?, bend, None),
    };
    Some(Maneuver { kind, modifier: Some(modifier), exit })
}

/// What is said of a turn away from roundabouts, by how many ways on there are, by names and by how it bends.
fn by_names(network: &Network, d: u32, e: u32, bend: usize) -> Option<&'static str> {
    let here = &network.leaving[&ends(&network.segments, d as usize).1];
    let several = here.iter().filter(|other| **other != d ^ 1).count() >= 2;
    let same_name = name_of(network, d) == name_of(network, e);
    match (several, same_name, MODIFIERS[bend]) {
        (false, true, _) | (true, true, "straight") => None,
        (false, false, _) | (true, false, "straight" | "slight_right" | "slight_left") => Some("new name"),
        (true, true, _) => Some("continue"),
        (true, false, _) => Some("turn"),
    }
}

/// Whether a vertex is of a roundabout.
fn is_round(network: &Network, v: u32) -> bool {
    network.ways[network.segments[v as usize / 2].way as usize].roundabout
}

/// Whether a vehicle may leave the roundabout at the head of one of its vertices.
fn lets_out(network: &Network, v: u32) -> bool {
    let leaving = network.leaving.get(&ends(&network.segments, v as usize).1);
    leaving.is_some_and(|leaving| leaving.iter().any(|e| !is_round(network, *e)))
}

/// For each vertex of a walk how many exits there are along the neighbouring vertices of roundabouts that it stands
/// among; None where it is of no roundabout, and where the walk ends before it leaves that.
fn exit_numbers(network: &Network, walk: &[u32]) -> Vec<Option<usize>> {
    let mut numbers = Vec::with_capacity(walk.len());
    for run in walk.chunk_by(|d, e| is_round(network, *d) == is_round(network, *e)) {
        let left_again = is_round(network, run[0]) && numbers.len() + run.len() < walk.len();
        let exits = left_again.then(|| run.iter().filter(|v| lets_out(network, **v)).count());
        numbers.extend(run.iter().map(|_| exits));
    }
    numbers
}

fn totals((weight, duration, length): Cost) -> String {
    let (metres, seconds, weight) = (tenths(length), tenths(duration), tenths(weight));
    format!("\"distance\":{metres},\"duration\":{seconds},\"weight\":{weight}")
}

/// What a target asks for; of the options those that the scripts here use.
struct Request {
    service: String,
    points: Vec<Point>,
    overview: String,
    geometries: String,
    annotations: Vec<String>,
    number: usize,
    sources: Vec<usize>,
    destinations: Vec<usize>,
    skip_waypoints: bool,
    steps: bool,
    /// `continue_straight=true`
    straight: bool,
    roundtrip: bool,
    /// `source=first` and `destination=last`.
    from_first: bool,
    to_last: bool,
    since: u32,
    exclude: Option<Vec<String>>,
    wishes: Vec<Wish>,
}

/// The request of a target, or its first refusal.
fn request(target: &str) -> Result<Request, Refusal> {
    let (path, query) = parted(target);
    let (Some(path), Some(query)) = (decoded(path), decoded(query)) else {
        return Err(("InvalidUrl", String::from("path")));
    };
    let pieces: Vec<&str> = path.strip_prefix('/').unwrap_or("").split('/').collect();
    if pieces.len() != 4 || pieces.contains(&"") {
        return Err(("InvalidUrl", String::from("path")));
    }
    let (fewest, most) = match pieces[0] {
        "route" => (2, 500),
        "table" => (1, 100),
        "nearest" => (1, 1),
        "trip" => (2, 9),
        other => return Err(("InvalidService", format!("service {other}"))),
    };
    if pieces[1] != "v1" {
        return Err(("InvalidVersion", format!("version {}", pieces[1])));
    }
    if pieces[3].ends_with(".flatbuffers") {
        return Err(("InvalidOptions", String::from("option format")));
    }
    let coordinates = coordinates_of(pieces[3].strip_suffix(".json").unwrap_or(pieces[3]))?;
    if coordinates.len() < fewest || (pieces[0] == "nearest" && coordinates.len() != 1) {
        return Err(("InvalidQuery", format!("{} coordinates", coordinates.len())));
    }
    let mut request = Request {
        service: pieces[0].to_string(),
        points: Vec::new(),
        overview: String::from("simplified"),
        geometries: String::from("polyline"),
        annotations: vec![String::from(if pieces[0] == "table" { "duration" } else { "false" })],
        number: 1,
        sources: (0..coordinates.len()).collect(),
        destinations: (0..coordinates.len()).collect(),
        skip_waypoints: false,
        steps: false,
        straight: false,
        roundtrip: true,
        from_first: false,
        to_last: false,
        since: 0,
        exclude: None,
        wishes: vec![Wish::default(); coordinates.len()],
    };
    for option in query.split('&').filter(|_| !query.is_empty()) {
        if option.split_once('=').is_none_or(|(name, value)| !set_option(&mut request, name, value, coordinates.len())) {
            return Err(("InvalidOptions", format!("option {}", option.split_once('=').map_or(option, |(name, _)| name))));
        }
    }
    if let Some(number) = coordinates.iter().position(|(lon, lat)| lon.abs() > 180_000_000 || lat.abs() > 90_000_000) {
        return Err(("InvalidValue", format!("coordinate {number}")));
    }
    if coordinates.len() > most {
        return Err(("TooBig", format!("{} coordinates, at most {most}", coordinates.len())));
    }
    if request.number > 100 {
        return Err(("TooBig", format!("{} results, at most 100", request.number)));
    }
    request.points = coordinates.iter().map(|(lon, lat)| Point { lon: *lon as i32, lat: *lat as i32 }).collect();
    Ok(request)
}

fn coordinates_of(text: &str) -> Result<Vec<(i64, i64)>, Refusal> {
    for (front, scale) in [("polyline(", 10), ("polyline6(", 1)] {
        if let Some(line) = text.strip_prefix(front) {
            let line = line.strip_suffix(')').ok_or_else(|| ("InvalidQuery", String::from("coordinate 0")))?;
            return decoded_line(line.as_bytes(), scale).map_err(|byte| ("InvalidQuery", format!("polyline byte {byte}")));
        }
    }
    let coordinate = |(number, text): (usize, &str)| {
        let pair = text.split_once(',').and_then(|(lon, lat)| Some((microdegrees(lon.as_bytes())?, microdegrees(lat.as_bytes())?)));
        pair.ok_or_else(|| ("InvalidQuery", format!("coordinate {number}")))
    };
    text.split(';').enumerate().map(coordinate).collect()
}

/// The points of an encoded line, longitude first, or its first faulty byte.
fn decoded_line(text: &[u8], scale: i64) -> Result<Vec<(i64, i64)>, usize> {
    let (mut points, mut sums, mut at) = (Vec::new(), [0i64; 2], 0);
    while at < text.len() {
        for sum in &mut sums {
            let (mut value, mut groups) = (0u64, 0);
            loop {
                let byte = *text.get(at).ok_or(text.len())?;
                if !(63..=126).contains(&byte) || groups == 7 {
                    return Err(at);
                }
                value |= u64::from((byte - 63) & 31) << (5 * groups);
                (groups, at) = (groups + 1, at + 1);
                if byte - 63 < 32 {
                    break;
                }
            }
            *sum += if value & 1 == 1 { !((value >> 1) as i64) } else { (value >> 1) as i64 };
            if i32::try_from(*sum * scale).is_err() {
                return Err(at - 1);
            }
        }
        points.push((sums[1] * scale, sums[0] * scale));
    }
    Ok(points)
}

/// Whether the service has the option and it may have this value.
fn set_option(request: &mut Request, name: &str, value: &str, count: usize) -> bool {
    let digits = |text: &str| (1..=9).contains(&text.len()) && text.bytes().all(|byte| byte.is_ascii_digit());
    let indexes = |value: &str| -> Option<Vec<usize>> {
        if value == "all" {
            return Some((0..count).collect());
        }
        value.split(';').map(|text| text.parse().ok().filter(|i| digits(text) && *i < count)).collect()
    };
    let wished = |request: &mut Request, set: &dyn Fn(&mut Wish, &str) -> Option<()>| {
        let entries: Vec<&str> = value.split(';').collect();
        entries.len() == count && request.wishes.iter_mut().zip(entries).all(|(wish, entry)| set(wish, entry).is_some())
    };
    let every = ["distance", "duration", "weight", "nodes", "speed"];
    match (request.service.as_str(), name) {
        (_, "skip_waypoints") if ["true", "false"].contains(&value) => request.skip_waypoints = value == "true",
        (_, "since") if value.bytes().all(|byte| byte.is_ascii_digit()) && value.parse::<u32>().is_ok() => {
            request.since = value.parse().unwrap_or(0);
        }
        (_, "exclude") if value.split(',').all(|name| !name.is_empty()) => {
            request.exclude = Some(value.split(',').map(String::from).collect());
        }
        (_, "radiuses") => return wished(request, &set_radius),
        (_, "bearings") => return wished(request, &set_bearing),
        ("route" | "trip", "steps") if ["true", "false"].contains(&value) => request.steps = value == "true",
        ("route", "continue_straight") if ["default", "true", "false"].contains(&value) => request.straight = value == "true",
        ("nearest", "number") if digits(value) && value.bytes().any(|byte| byte != b'0') => request.number = value.parse().unwrap_or(0),
        ("route" | "trip", "overview") if ["simplified", "full", "false"].contains(&value) => request.overview = value.to_string(),
        ("route" | "trip", "geometries") if ["polyline", "polyline6", "geojson"].contains(&value) => request.geometries = value.to_string(),
        ("route" | "trip", "annotations") if ["true", "false"].contains(&value) || value.split(',').all(|name| every.contains(&name)) => {
            request.annotations = value.split(',').map(String::from).collect();
        }
        ("trip", "roundtrip") if ["true", "false"].contains(&value) => request.roundtrip = value == "true",
        ("trip", "source") if ["any", "first"].contains(&value) => request.from_first = value == "first",
        ("trip", "destination") if ["any", "last"].contains(&value) => request.to_last = value == "last",
        ("table", "annotations") if ["duration", "distance", "duration,distance", "distance,duration"].contains(&value) => {
            request.annotations = value.split(',').map(String::from).collect();
        }
        ("table", "sources") if indexes(value).is_some() => request.sources = indexes(value).unwrap_or_default(),
        ("table", "destinations") if indexes(value).is_some() => request.destinations = indexes(value).unwrap_or_default(),
        _ => return false,
    }
    true
}

/// Metres without sign, one digit after the point kept; 2^29 decimetres are as good as no limit.
fn set_radius(wish: &mut Wish, text: &str) -> Option<()> {
    wish.radius = None;
    if !["", "unlimited"].contains(&text) {
        let (negative, whole, fraction) = decimal(text.as_bytes())?;
        let size = kept(whole, fraction, 1).unsigned_abs();
        wish.radius = (size < 1 << 29).then_some(size);
        return (!negative).then_some(());
    }
    Some(())
}

fn set_bearing(wish: &mut Wish, text: &str) -> Option<()> {
    wish.bearing = None;
    if !text.is_empty() {
        let (value, range) = text.split_once(',')?;
        let number = |text: &str, most: u32| {
            let digits = text.bytes().all(|byte| byte.is_ascii_digit());
            text.parse::<u32>().ok().filter(|number| digits && *number <= most)
        };
        wish.bearing = Some((number(value, 360)?, number(range, 180)?));
    }
    Some(())
}

/// A text with its percent escapes read; a `%` without two hexadecimal digits stays.
fn decoded(text: &str) -> Option<String> {
    let digit = |byte: Option<&u8>| byte.and_then(|byte| (*byte as char).to_digit(16));
    let (bytes, mut out, mut at) = (text.as_bytes(), Vec::new(), 0);
    while at < bytes.len() {
        match (bytes[at], digit(bytes.get(at + 1)), digit(bytes.get(at + 2))) {
            (b'%', Some(high), Some(low)) => {
                out.push((high * 16 + low) as u8);
                at += 3;
            }
            (byte, _, _) => {
                out.push(byte);
                at += 1;
            }
        }
    }
    String::from_utf8(out).ok()
}

/// The path and the query: parted at the first `?` with as many `(` as `)` before it.
fn parted(target: &str) -> (&str, &str) {
    let mut depth = 0;
    for (at, byte) in target.bytes().enumerate() {
        match byte {
            b'(' => depth += 1,
            b')' => depth -= 1,
            b'?' if depth == 0 => return (&target[..at], &target[at + 1..]),
            _ => (),
        }
    }
    (target, "")
}

fn waypoint(network: &Network, from: Point, place: Place) -> String {
    let segment = &network.segments[place.segment as usize];
    let point = point_at(segment.from, segment.to, place.at);
    format!(
        "{{\"distance\":{},\"name\":{},\"location\":[{},{}]}}",
        tenths(distance(from, point)),
        quoted(&network.ways[segment.way as usize].name),
        degrees(point.lon),
        degrees(point.lat)
    )
}

fn tenths(count: u64) -> String {
    format!("{}.{}", count / 10, count % 10)
}

fn degrees(count: i32) -> String {
    let sign = if count < 0 { "-" } else { "" };
    let size = count.unsigned_abs();
    format!("{sign}{}.{:06}", size / 1_000_000, size % 1_000_000)
}

fn quoted(text: &str) -> String {
    let mut quoted = String::from("\"");
    for character in text.chars() {
        match character {
            '"' => quoted.push_str("\\\""),
            '\\' => quoted.push_str("\\\\"),
            '\u{8}' => quoted.push_str("\\b"),
            '\u{c}' => quoted.push_str("\\f"),
            '\n' => quoted.push_str("\\n"),
            '\r' => quoted.push_str("\\r"),
            '\t' => quoted.push_str("\\t"),
            control if control < ' ' => quoted.push_str(&format!("\\u{:04x}", control as u32)),
            other => quoted.push(other),
        }
    }
    quoted.push('"');
    quoted
}
