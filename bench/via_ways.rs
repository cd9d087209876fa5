//! Restrictions over via ways in the baseline: the sequences of vertices that no walk may run through, and the graph that
//! is searched, which has copies of vertices beside them. A copy stands for the last vertex of a proper prefix of a
//! sequence, two vertices long or longer, and a walk is in it that came along this prefix.

use super::{Segment, Way, ends};
use std::collections::{HashMap, HashSet};
use std::ops::Range;

/// Who comes from one way along others, in their order, may not go on onto another way, or onto no other way.
pub struct Along {
    pub from: i64,
    pub via: Vec<i64>,
    pub to: i64,
    pub only: bool,
}

/// Sequences that share their middle: each start, then the path, then each end.
pub struct Barred {
    starts: Vec<u32>,
    path: Vec<u32>,
    ends: Vec<u32>,
}

/// The most vertices of a path, and the most copies.
const MOST_ALONG: usize = 64;
const MOST_COPIES: usize = 1 << 20;

/// The roads and the turns between their vertices.
pub struct Roads<'a> {
    pub ways: &'a [Way],
    pub segments: &'a [Segment],
    pub first: &'a [u32],
    pub turns: &'a [u32],
}

impl Roads<'_> {
    fn turns_from(&self, v: u32) -> &[u32] {
        &self.turns[self.first[v as usize] as usize..self.first[v as usize + 1] as usize]
    }

    fn way_of(&self, v: u32) -> i64 {
        self.ways[self.segments[v as usize / 2].way as usize].id
    }

    fn tail(&self, v: u32) -> i64 {
        ends(self.segments, v as usize).0
    }

    fn head(&self, v: u32) -> i64 {
        ends(self.segments, v as usize).1
    }

    /// The segments of each way that has some.
    fn spans(&self) -> HashMap<i64, Range<u32>> {
        let mut spans: HashMap<i64, Range<u32>> = HashMap::new();
        for number in 0..self.segments.len() as u32 {
            spans.entry(self.way_of(2 * number)).or_insert(number..number).end = number + 1;
        }
        spans
    }

    /// The vertices of a whole way in its order; None where it has none, ends where it begins or doesn't hang together.
    fn whole_way(&self, span: Option<&Range<u32>>) -> Option<Vec<u32>> {
        let way: Vec<u32> = span?.clone().map(|number| 2 * number).collect();
        let joins = way.windows(2).all(|pair| self.head(pair[0]) == self.tail(pair[1]));
        (joins && self.tail(way[0]) != self.head(way[way.len() - 1])).then_some(way)
    }

    /// The path along whole ways of which the first is gone through as it stands; None where one doesn't begin where the
    /// one before ends, or a pair of neighbours is no turn.
    fn path(&self, ways: &[Vec<u32>]) -> Option<Vec<u32>> {
        let mut path = ways[0].clone();
        for way in &ways[1..] {
            let node = self.head(path[path.len() - 1]);
            match [way.clone(), turned(way)].into_iter().find(|way| self.tail(way[0]) == node) {
                Some(way) => path.extend(way),
                None => return None,
            }
        }
        path.windows(2).all(|pair| self.turns_from(pair[0]).contains(&pair[1])).then_some(path)
    }

    /// The sequences of a restriction, by the direction in which its first via way is gone through.
    fn barred(&self, spans: &HashMap<i64, Range<u32>>, rule: &Along) -> Vec<Barred> {
        let whole = |way: &i64| self.whole_way(spans.get(way));
        let (Some(mut ways), Some(from)) = (rule.via.iter().map(whole).collect::<Option<Vec<_>>>(), spans.get(&rule.from)) else {
            return Vec::new();
        };
        let mut all = Vec::new();
        for _ in 0..2 {
            if let Some(path) = self.path(&ways).filter(|path| path.len() <= MOST_ALONG) {
                let (begin, end) = (path[0], path[path.len() - 1]);
                let starts: Vec<u32> = (2 * from.start..2 * from.end).filter(|d| self.turns_from(*d).contains(&begin)).collect();
                let ends: Vec<u32> = self.turns_from(end).iter().copied().filter(|e| (self.way_of(*e) == rule.to) != rule.only).collect();
                if !starts.is_empty() && !ends.is_empty() {
                    all.push(Barred { starts, path, ends });
                }
            }
            ways[0] = turned(&ways[0]);
        }
        all
    }

    /// The sequences of all restrictions, and how many of these have none.
    pub fn all_barred(&self, rules: &[Along]) -> (Vec<Barred>, usize) {
        let spans = self.spans();
        let each: Vec<Vec<Barred>> = rules.iter().map(|rule| self.barred(&spans, rule)).collect();
        let idle = each.iter().filter(|barred| barred.is_empty()).count();
        (each.into_iter().flatten().collect(), idle)
    }
}

/// The same way back.
fn turned(way: &[u32]) -> Vec<u32> {
    way.iter().rev().map(|v| v ^ 1).collect()
}

/// What is searched.
pub struct Expanded {
    /// How many ordinary vertices there are; the copies have the numbers from there on.
    ordinary: u32,
    /// For each turn where its arc leads: to its head, or to a copy of it.
    pub heads: Vec<u32>,
    /// Each copy's vertex.
    stands_for: Vec<u32>,
    /// The arcs out of a copy, as the number of the turn and where the arc leads: those of copy i are
    /// `arcs[first[i]..first[i + 1]]`.
    first: Vec<u32>,
    arcs: Vec<(u32, u32)>,
    /// The copies of each vertex that has some.
    copies: HashMap<u32, Vec<u32>>,
}

/// The copies while they are made.
struct Words {
    ordinary: u32,
    numbers: HashMap<Vec<u32>, u32>,
    /// In the order of their numbers.
    list: Vec<Vec<u32>>,
    /// The ends of the sequences that are one of these words and a vertex more.
    ends: HashMap<Vec<u32>, HashSet<u32>>,
}

impl Words {
    /// The prefixes of all sequences, shorter ones first; None where there are too many.
    fn of(ordinary: u32, all: &[Barred]) -> Option<Words> {
        let mut words = Words { ordinary, numbers: HashMap::new(), list: Vec::new(), ends: HashMap::new() };
        let longest = all.iter().map(|barred| barred.path.len()).max().unwrap_or(0);
        for length in 1..=longest {
            for barred in all.iter().filter(|barred| barred.path.len() >= length) {
                for start in &barred.starts {
                    words.add([&[*start], &barred.path[..length]].concat());
                    if words.list.len() > MOST_COPIES {
                        return None;
                    }
                }
            }
        }
        for barred in all {
            for start in &barred.starts {
                words.ends.entry([&[*start], &barred.path[..]].concat()).or_default().extend(&barred.ends);
            }
        }
        Some(words)
    }

    fn add(&mut self, word: Vec<u32>) {
        let number = self.ordinary + self.list.len() as u32;
        if !self.numbers.contains_key(&word) {
            self.list.push(word.clone());
            self.numbers.insert(word, number);
        }
    }

    /// Where a walk is that came along these vertices: in the copy of the longest suffix that has one, else at its last
    /// vertex. None where it has run through a sequence with its last one.
    fn onward(&self, walk: &[u32]) -> Option<u32> {
        let (last, front) = walk.split_last().expect("a walk");
        if (0..front.len()).any(|at| self.ends.get(&front[at..]).is_some_and(|ends| ends.contains(last))) {
            return None;
        }
        Some((0..front.len()).find_map(|at| self.numbers.get(&walk[at..]).copied()).unwrap_or(*last))
    }
}

impl Expanded {
    /// The graph of the turns with copies for these sequences; None where there are too many copies.
    pub fn of(roads: &Roads, all: &[Barred]) -> Option<Expanded> {
        let ordinary = 2 * roads.segments.len() as u32;
        let words = Words::of(ordinary, all)?;
        let stands_for: Vec<u32> = words.list.iter().map(|word| word[word.len() - 1]).collect();
        let mut heads = roads.turns.to_vec();
        for (word, number) in words.numbers.iter().filter(|(word, _)| word.len() == 2) {
            let from = roads.first[word[0] as usize] as usize..roads.first[word[0] as usize + 1] as usize;
            let turn = from.clone().find(|turn| roads.turns[*turn] == word[1]).expect("neighbours of a sequence are a turn");
            heads[turn] = *number;
        }
        let (mut first, mut arcs, mut copies): (_, _, HashMap<u32, Vec<u32>>) = (vec![0], Vec::new(), HashMap::new());
        for (number, word) in words.list.iter().enumerate() {
            let last = stands_for[number];
            for turn in roads.first[last as usize]..roads.first[last as usize + 1] {
                let onward = words.onward(&[word, &[roads.turns[turn as usize]][..]].concat());
                arcs.extend(onward.map(|head| (turn, head)));
            }
            first.push(arcs.len() as u32);
            copies.entry(last).or_default().push(ordinary + number as u32);
        }
        Some(Expanded { ordinary, heads, stands_for, first, arcs, copies })
    }

    /// How many vertices it has, with the copies, and how many arcs.
    pub fn vertices(&self) -> usize {
        self.ordinary as usize + self.stands_for.len()
    }

    pub fn arc_count(&self) -> usize {
        self.heads.len() + self.arcs.len()
    }

    /// The vertex that a vertex or a copy stands for.
    pub fn stands_for(&self, state: u32) -> u32 {
        if self.is_copy(state) { self.stands_for[(state - self.ordinary) as usize] } else { state }
    }

    pub fn is_copy(&self, state: u32) -> bool {
        state >= self.ordinary
    }

    /// The arcs out of a copy.
    pub fn arcs_from(&self, copy: u32) -> &[(u32, u32)] {
        let at = (copy - self.ordinary) as usize;
        &self.arcs[self.first[at] as usize..self.first[at + 1] as usize]
    }

    /// The copies of a vertex.
    pub fn copies_of(&self, v: u32) -> &[u32] {
        self.copies.get(&v).map_or(&[], Vec::as_slice)
    }
}
