//! A baseline of overlays on the same road model, without proofs, in one thread: plain Dijkstra, Dijkstra from both
//! ends, and Customizable Route Planning, whose cells, cliques, queries and unpacking are those of the program.
//!
//!     overlays OPL SETTINGS [--queries N] [--budget SECONDS] [--limits A,B,..] [--pair] [--reorder] [--check]
//!              [--export PREFIX] [--rows FILE]
//!
//! It reads and builds the network, cuts it into cells of at most so many vertices, customizes them, and asks for N
//! random pairs of segments in rounds until the budget is spent, each pair in all ways; it stops where two ways
//! differ or a walk does not cost what is said. Told are times, sizes and memory. `--pair` has costs of two words,
//! as the program; else duration and length share one. `--reorder` numbers the vertices by their cells. `--check`
//! only tells the counts that `check` of the program tells. `--export` writes the pairs to PREFIX.pairs. `--rows` customizes
//! once more, with the same costs, only the cells that hold a segment which a row of that traffic file names (two ids of nodes,
//! then anything), and tells what that takes; it stops where the cliques differ.

mod crp;
mod model;
mod search;

use model::Network;
use search::{Cost, Graph, Pair, Search};
use std::collections::HashSet;
use std::time::Instant;

struct Options {
    files: Vec<String>,
    queries: usize,
    budget: f64,
    limits: Vec<usize>,
    pair: bool,
    reorder: bool,
    check: bool,
    export: Option<String>,
    rows: Option<String>,
}

fn options() -> Options {
    let mut o = Options {
        files: vec![],
        queries: 1000,
        budget: 10.0,
        limits: vec![256, 4096, 65536, 1048576, 16777216],
        pair: false,
        reorder: false,
        check: false,
        export: None,
        rows: None,
    };
    let mut words = std::env::args().skip(1);
    while let Some(w) = words.next() {
        let mut value = || words.next().expect("a value");
        match w.as_str() {
            "--queries" => o.queries = value().parse().unwrap(),
            "--budget" => o.budget = value().parse().unwrap(),
            "--limits" => o.limits = value().split(',').map(|l| l.parse().unwrap()).collect(),
            "--pair" => o.pair = true,
            "--reorder" => o.reorder = true,
            "--check" => o.check = true,
            "--export" => o.export = Some(value()),
            "--rows" => o.rows = Some(value()),
            _ => o.files.push(w),
        }
    }
    if o.files.len() != 2 {
        eprintln!(
            "usage: baseline OPL SETTINGS [--queries N] [--budget SECONDS] [--limits A,B,..] [--pair] [--reorder] [--check] [--export PREFIX] [--rows FILE]"
        );
        std::process::exit(2);
    }
    o
}

fn megabytes(key: &str) -> f64 {
    let s = std::fs::read_to_string("/proc/self/status").unwrap_or_default();
    let kb = s
        .lines()
        .find(|l| l.starts_with(key))
        .and_then(|l| l.split_whitespace().nth(1)?.parse::<f64>().ok());
    kb.unwrap_or(0.0) / 1024.0
}

struct Random(u64);

impl Random {
    fn below(&mut self, n: u64) -> u64 {
        self.0 ^= self.0 << 13;
        self.0 ^= self.0 >> 7;
        self.0 ^= self.0 << 17;
        self.0 % n
    }
}

fn graph<C: Cost>(n: &Network) -> Graph<C> {
    let weight =
        n.to.iter()
            .zip(&n.penalty)
            .map(|(e, p)| C::of(n.duration[*e as usize] + p, n.length[*e as usize]))
            .collect();
    Graph {
        first: n.first.clone(),
        to: n.to.clone(),
        weight,
    }
}

/// Vertices renumbered so that new number i is old vertex order[i].
fn renumbered<C: Cost>(g: &Graph<C>, order: &[u32]) -> (Graph<C>, Vec<u32>) {
    let mut new = vec![0u32; order.len()];
    for (i, v) in order.iter().enumerate() {
        new[*v as usize] = i as u32;
    }
    let mut r = Graph {
        first: vec![0],
        to: Vec::with_capacity(g.to.len()),
        weight: Vec::with_capacity(g.to.len()),
    };
    for v in order {
        for i in g.out(*v) {
            r.to.push(new[g.to[i] as usize]);
            r.weight.push(g.weight[i]);
        }
        r.first.push(r.to.len() as u32);
    }
    (r, new)
}

/// Times of one way to answer, in milliseconds.
struct Clock {
    name: &'static str,
    times: Vec<f64>,
}

impl Clock {
    fn of(name: &'static str) -> Clock {
        Clock {
            name,
            times: vec![],
        }
    }

    fn run<T>(&mut self, one: impl FnOnce() -> T) -> T {
        let t = Instant::now();
        let out = one();
        self.times.push(t.elapsed().as_secs_f64() * 1000.0);
        out
    }

    fn mean(&self) -> f64 {
        self.times.iter().sum::<f64>() / self.times.len() as f64
    }

    fn print(&self) {
        let mut t = self.times.clone();
        t.sort_by(f64::total_cmp);
        let at = |p: f64| t[((t.len() - 1) as f64 * p) as usize];
        println!(
            "{}: {} queries, mean {:.4} ms, median {:.4}, p95 {:.4}",
            self.name,
            t.len(),
            self.mean(),
            at(0.5),
            at(0.95)
        );
    }
}

fn run<C: Cost>(net: &Network, o: &Options, named: &[u32]) {
    let t = Instant::now();
    let mut g: Graph<C> = graph(net);
    println!("weights: {:.3} s", t.elapsed().as_secs_f64());
    let n = g.len();
    let mid: Vec<(i32, i32)> = (0..n)
        .map(|v| {
            let (a, b) = (net.tail[v] as usize, net.head[v] as usize);
            (net.lon[a] + net.lon[b], net.lat[a] + net.lat[b])
        })
        .collect();
    let t = Instant::now();
    let (mut order, ranges) = crp::partition(&mid, &o.limits);
    println!("partition: {:.3} s", t.elapsed().as_secs_f64());

    // queries between random segments, both open directions at each end
    let mut r = Random(88172645463325252);
    let ends: Vec<u32> = (0..n as u32 / 2)
        .filter(|s| net.permitted[2 * *s as usize] || net.permitted[2 * *s as usize + 1])
        .collect();
    let open = |s: u32| {
        [2 * s, 2 * s + 1]
            .into_iter()
            .filter(|v| net.permitted[*v as usize])
    };
    let pairs: Vec<(u32, u32)> = (0..o.queries)
        .map(|_| {
            (
                ends[r.below(ends.len() as u64) as usize],
                ends[r.below(ends.len() as u64) as usize],
            )
        })
        .collect();
    let mut new: Vec<u32> = (0..n as u32).collect();
    if o.reorder {
        (g, new) = renumbered(&g, &order);
        order = (0..n as u32).collect();
    }
    let queries: Vec<(Vec<(u32, C)>, Vec<u32>)> = pairs
        .iter()
        .map(|(a, b)| {
            let starts = open(*a).map(|v| {
                (
                    new[v as usize],
                    C::of(net.duration[v as usize], net.length[v as usize]),
                )
            });
            (
                starts.collect(),
                open(*b).map(|v| new[v as usize]).collect(),
            )
        })
        .collect();

    let t = Instant::now();
    let f = crp::frame(&g, order, ranges);
    println!("frame: {:.3} s", t.elapsed().as_secs_f64());
    for (i, l) in f.levels.iter().enumerate() {
        println!(
            "  level {}: {} cells, {} entries, {} exits, {} clique values ({:.1} MB), {:.1} entries a cell",
            i + 1,
            l.cells,
            l.entries.len(),
            l.exits.len(),
            l.row.last().unwrap(),
            *l.row.last().unwrap() as f64 * size_of::<C>() as f64 / 1048576.0,
            l.entries.len() as f64 / l.cells as f64
        );
    }
    let t = Instant::now();
    let (cliques, levels) = crp::customize(&f, &g);
    let custom = t.elapsed().as_secs_f64();
    println!("customization: {custom:.4} s, by level {levels:.3?}");
    println!(
        "memory: {:.1} MB now, {:.1} MB at its peak",
        megabytes("VmRSS"),
        megabytes("VmHWM")
    );
    if o.rows.is_some() {
        let vertices: Vec<u32> = named.iter().map(|v| new[*v as usize]).collect();
        let touched = crp::touched(&f, &vertices);
        let t = Instant::now();
        let again = crp::recustomize(&f, &g, &cliques, &touched);
        let custom = t.elapsed().as_secs_f64();
        let cells: Vec<usize> = touched
            .iter()
            .map(|c| c.iter().filter(|c| **c).count())
            .collect();
        println!("customization of the touched cells: {custom:.4} s, of each level {cells:?}");
        assert!(again == cliques, "the cliques of touched cells differ");
    }

    // rounds of a few pairs, so that all ways see the same minutes of the machine
    let back = g.reversed();
    let mut t = crp::Terminals::new(&f);
    let (mut s, mut b, mut q, mut inner) = (
        Search::new(n),
        Search::new(n),
        Search::new(f.ids),
        Search::new(f.ids),
    );
    let (mut plain, mut two, mut fast, mut walk) = (
        Clock::of("plain Dijkstra"),
        Clock::of("two-sided Dijkstra"),
        Clock::of("CRP cost"),
        Clock::of("CRP walk"),
    );
    let (mut settled, mut two_settled) = (0, 0);
    let (mut answers, mut vertices, mut none) = (vec![], 0, 0);
    let begin = Instant::now();
    for round in queries.chunks(5) {
        if !answers.is_empty() && begin.elapsed().as_secs_f64() > o.budget {
            break;
        }
        s.pops = 0;
        let first: Vec<Option<C>> = round
            .iter()
            .map(|r| plain.run(|| search::plain(&g, &mut s, &r.0, &r.1)))
            .collect();
        settled += s.pops;
        (s.pops, b.pops) = (0, 0);
        for (r, x) in round.iter().zip(&first) {
            let y = two.run(|| search::two_sided(&g, &back, &mut s, &mut b, &r.0, &r.1));
            assert!(*x == y, "two-sided differs");
        }
        two_settled += s.pops + b.pops;
        for pass in 0..3 {
            for (r, x) in round.iter().zip(&first) {
                let mut one =
                    || crp::query(&f, &g, &cliques, &mut q, &mut t, &r.0, &r.1).map(|a| a.0);
                let y = if pass > 0 { fast.run(one) } else { one() };
                assert!(*x == y, "CRP differs");
            }
        }
        for (r, x) in round.iter().zip(&first) {
            let found = walk.run(|| {
                let found = crp::query(&f, &g, &cliques, &mut q, &mut t, &r.0, &r.1);
                found.map(|(_, last)| crp::unpack(&f, &g, &cliques, &q, last, &mut inner))
            });
            match (found, x) {
                (Some(w), Some(c)) => {
                    check(&g, r, &w, *c);
                    vertices += w.len();
                }
                (None, None) => none += 1,
                _ => panic!("one has a walk"),
            }
        }
        answers.extend(first);
    }
    let count = answers.len() as u64;
    plain.print();
    println!("  settled {} per query", settled / count);
    two.print();
    println!("  settled {} per query", two_settled / count);
    fast.print();
    println!(
        "  settled {}, scanned {} per query",
        q.pops / (4 * count),
        q.scans / (4 * count)
    );
    walk.print();
    println!(
        "  {} vertices a walk, {none} pairs without a walk",
        vertices / answers.len()
    );
    println!(
        "ratios to plain over {count} pairs: two-sided {:.1}, CRP cost {:.1}, CRP walk {:.1}; customization is {:.0} plain queries",
        plain.mean() / two.mean(),
        plain.mean() / fast.mean(),
        plain.mean() / walk.mean(),
        custom * 1000.0 / plain.mean()
    );
    // a table of up to 100 by 100
    let side = queries.len().min(100);
    let targets: Vec<Vec<u32>> = queries[..side].iter().map(|r| r.1.clone()).collect();
    let mut table = Clock::of("CRP row of a table");
    for (i, r) in queries[..side].iter().enumerate() {
        let row = table.run(|| crp::row(&f, &g, &cliques, &mut q, &mut t, &r.0, &targets));
        assert!(answers.get(i).is_none_or(|a| *a == row[i]), "row differs");
        if table.times.iter().sum::<f64>() > o.budget * 1000.0 {
            break;
        }
    }
    table.print();
    println!(
        "  {side} targets; a cell costs {:.4} ms, {:.1} times less than by queries",
        table.mean() / side as f64,
        fast.mean() * side as f64 / table.mean()
    );
    if let Some(prefix) = &o.export {
        export(net, prefix, &pairs, &answers);
    }
}

/// The walk goes by turns from a start to a target and costs c.
fn check<C: Cost>(g: &Graph<C>, query: &(Vec<(u32, C)>, Vec<u32>), walk: &[u32], c: C) {
    let mut sum = query
        .0
        .iter()
        .find(|q| q.0 == walk[0])
        .expect("begins at a start")
        .1;
    assert!(query.1.contains(walk.last().unwrap()), "ends at a target");
    for p in walk.windows(2) {
        let arc = g.out(p[0]).find(|i| g.to[*i] == p[1]).expect("a turn");
        sum = sum.add(g.weight[arc]);
    }
    assert!(sum == c, "the walk doesn't cost what is said");
}

/// The drawn pairs as text, one a line: a vertex of each, their nodes, where these lie, and the duration of the least walk.
fn export<C: Cost>(net: &Network, prefix: &str, pairs: &[(u32, u32)], answers: &[Option<C>]) {
    let open = |s: u32| {
        [2 * s, 2 * s + 1]
            .into_iter()
            .find(|v| net.permitted[*v as usize])
            .unwrap() as usize
    };
    let degrees = |x: i32| x as f64 / 1e6;
    let mut text = String::new();
    for ((a, b), d) in pairs.iter().zip(answers) {
        let (v, w) = (open(*a), open(*b));
        let (p, q) = (net.tail[v] as usize, net.tail[w] as usize);
        text += &format!(
            "{v} {w} {p} {q} {:.6} {:.6} {:.6} {:.6} {}\n",
            degrees(net.lon[p]),
            degrees(net.lat[p]),
            degrees(net.lon[q]),
            degrees(net.lat[q]),
            d.map_or(-1, |d| d.duration() as i64)
        );
    }
    std::fs::write(format!("{prefix}.pairs"), text).unwrap();
}

/// The vertices that a row of this traffic file names by their two nodes.
fn named(net: &Network, ids: &[i64], rows: &str) -> Vec<u32> {
    let text = std::fs::read_to_string(rows).expect("rows");
    let of_row = |row: &str| -> (i64, i64) {
        let mut fields = row.split(',');
        let mut id = || {
            fields
                .next()
                .expect("a field")
                .trim()
                .parse()
                .expect("an id")
        };
        (id(), id())
    };
    let rows: HashSet<(i64, i64)> = text.lines().map(of_row).collect();
    let is_named = |v: &u32| {
        let v = *v as usize;
        net.permitted[v] && rows.contains(&(ids[net.tail[v] as usize], ids[net.head[v] as usize]))
    };
    (0..net.tail.len() as u32).filter(is_named).collect()
}

fn main() {
    let o = options();
    let t = Instant::now();
    let text = std::fs::read_to_string(&o.files[0]).expect("OPL");
    let settings = model::settings(&std::fs::read_to_string(&o.files[1]).expect("settings"));
    let (net, ids) = model::network(&text, &settings);
    drop(text);
    let named = o
        .rows
        .as_ref()
        .map_or(vec![], |rows| named(&net, &ids, rows));
    drop(ids);
    println!(
        "nodes {} ways {} relations {} segments {} vertices {} turns {} restrictions {} ignored {}",
        net.nodes,
        net.ways,
        net.relations,
        net.tail.len() / 2,
        net.permitted.iter().filter(|p| **p).count(),
        net.to.len(),
        net.applied,
        net.ignored
    );
    if o.check || net.permitted.iter().all(|p| !p) {
        return;
    }
    println!(
        "read and built: {:.3} s, {:.1} MB",
        t.elapsed().as_secs_f64(),
        megabytes("VmRSS")
    );
    if o.pair {
        run::<Pair>(&net, &o, &named);
    } else {
        run::<u64>(&net, &o, &named);
    }
}
