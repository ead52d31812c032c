//! A plain program of the same task as `trace` and `exec`, without proofs, to measure them by: `plain_run trace < SET`,
//! `plain_run exec --window WINDOW < SET`. It reads the sets that `sets.py` writes (no offsets), and writes the same text.
//!
//! A round costs by what changed: packs of all levels are the bits of one word, a knockout for each pack tells who is ready and which window ends first,
//! the ticks at which running members are done are kept in blocks with the least of each, and merged rows grow where a processor shows something else.
//! A line's digits are made eight at a time, and those of an end are the next start's. `exec` takes one lock for a post and the next take; a
//! worker that must wait sleeps until the slowest one has come as far.

use std::io::Read;
use std::sync::{Condvar, Mutex};

mod plain_lines;
use plain_lines::{Digits, NameBlock, Page, name_blocks};

/// What a processor shows that has nobody, and what one shows before the first round.
const IDLE: u16 = u16::MAX;
const UNSEEN: u16 = u16::MAX - 1;
const NOBODY: u32 = u32::MAX;
/// A unit behind all windows: where those of idle leaves end.
const NEVER_ENDS: u64 = 1 << 33;
const LIMIT: u64 = 2_097_152;
/// The packs whose least end is kept together.
const BLOCK: usize = 8;
/// As many bits of a key tell a place in its pack.
const PLACE_BITS: u32 = 11;
const NO_KEY: u64 = u64::MAX;

struct Task {
    name: String,
    work: u64,
    period: u64,
}

struct Set {
    processors: usize,
    horizon: u64,
    tasks: Vec<Task>,
}

fn read_set() -> Set {
    let mut text = String::new();
    std::io::stdin().read_to_string(&mut text).unwrap();
    let mut set = Set { processors: 0, horizon: 0, tasks: Vec::new() };
    for line in text.lines() {
        if line.trim() == "[[task]]" {
            set.tasks.push(Task { name: String::new(), work: 0, period: 0 });
        } else if let Some((key, value)) = line.split_once('=') {
            let value = value.trim();
            match key.trim() {
                "processors" => set.processors = value.parse().unwrap(),
                "horizon" => set.horizon = value.parse().unwrap(),
                "name" => set.tasks.last_mut().unwrap().name = value.trim_matches('"').to_string(),
                "work" => set.tasks.last_mut().unwrap().work = value.parse().unwrap(),
                "period" => set.tasks.last_mut().unwrap().period = value.parse().unwrap(),
                _ => {}
            }
        }
    }
    set
}

fn gcd(a: u128, b: u128) -> u128 {
    if b == 0 { a } else { gcd(b, a % b) }
}

#[derive(Clone, Copy)]
enum Member {
    Task(u32),
    Idle,
    Dual(u32),
}

/// A member of a pack: what it is, and its rate.
struct Node {
    kind: Member,
    rate: u128,
}

struct Pack {
    members: Vec<u32>,
    rate: u128,
    dual: Option<u32>,
}

/// The last unit at which a window of a task can end.
fn last_end(set: &Set) -> u64 {
    set.horizon + set.tasks.iter().map(|t| t.period).max().unwrap_or(1)
}

/// Packs level by level, and their members.
struct Tree {
    scale: u128,
    nodes: Vec<Node>,
    packs: Vec<Pack>,
    levels: Vec<std::ops::Range<usize>>,
}

fn first_fit(scale: u128, items: &[(Member, u128)], nodes: &mut Vec<Node>, packs: &mut Vec<Pack>) {
    let base = packs.len();
    for &(kind, rate) in items {
        let at = (base..packs.len()).find(|&p| packs[p].rate + rate <= scale).unwrap_or_else(|| {
            packs.push(Pack { members: Vec::new(), rate: 0, dual: None });
            packs.len() - 1
        });
        packs[at].members.push(nodes.len() as u32);
        packs[at].rate += rate;
        if let Member::Dual(p) = kind {
            packs[p as usize].dual = Some(nodes.len() as u32);
        }
        nodes.push(Node { kind, rate });
    }
}

fn compile(set: &Set) -> Tree {
    let scale = set.tasks.iter().fold(1u128, |l, t| l / gcd(l, t.period as u128) * t.period as u128);
    let (mut nodes, mut packs) = (Vec::new(), Vec::new());
    let items: Vec<_> = (0u32..).zip(&set.tasks).map(|(i, t)| (Member::Task(i), t.work as u128 * (scale / t.period as u128))).collect();
    first_fit(scale, &items, &mut nodes, &mut packs);
    let mut slack = set.processors as u128 * scale - items.iter().map(|i| i.1).sum::<u128>();
    let mut at = 0;
    while slack > 0 {
        if at == packs.len() {
            packs.push(Pack { members: Vec::new(), rate: 0, dual: None });
        }
        let rate = slack.min(scale - packs[at].rate);
        if rate > 0 {
            packs[at].members.push(nodes.len() as u32);
            packs[at].rate += rate;
            nodes.push(Node { kind: Member::Idle, rate });
            slack -= rate;
        }
        at += 1;
    }
    let mut levels = vec![0..packs.len()];
    loop {
        let last = levels.last().unwrap().clone();
        let duals: Vec<_> = last.filter(|&p| packs[p].rate < scale).map(|p| (Member::Dual(p as u32), scale - packs[p].rate)).collect();
        if duals.is_empty() {
            return Tree { scale, nodes, packs, levels };
        }
        let from = packs.len();
        first_fit(scale, &duals, &mut nodes, &mut packs);
        levels.push(from..packs.len());
    }
}

/// The first of a pack's members by the unit at which each ends, ties to the one in front: a tournament tree over keys.
struct Knockout {
    leaves: usize,
    keys: Vec<u64>,
}

impl Knockout {
    fn new(places: usize) -> Knockout {
        let leaves = places.next_power_of_two();
        Knockout { leaves, keys: vec![NO_KEY; 2 * leaves] }
    }

    #[inline(always)]
    fn put(&mut self, place: usize, key: u64) {
        let keys = &mut self.keys[..2 * self.leaves];
        let (mut at, mut first) = (self.leaves + place, key);
        keys[at] = key;
        while at > 1 {
            first = first.min(keys[at ^ 1]);
            at /= 2;
            keys[at] = first;
        }
    }

    #[inline(always)]
    fn set(&mut self, place: usize, end: u64) {
        self.put(place, end << PLACE_BITS | place as u64);
    }

    #[inline(always)]
    fn clear(&mut self, place: usize) {
        self.put(place, NO_KEY);
    }

    #[inline(always)]
    fn first(&self) -> u64 {
        self.keys[1]
    }
}

/// The place that a key tells.
#[inline(always)]
fn place_of(key: u64) -> usize {
    (key & ((1 << PLACE_BITS) - 1)) as usize
}

/// A pack: its members' slots begin at `base`. Packs are numbered from the last level down, so that a dual's pack comes before its primal.
struct PackState {
    base: usize,
    /// Members with something left by the ends of their windows, and the window ends of all.
    ready: Knockout,
    windows: Knockout,
    /// Of its dual: the pack, and the place in it.
    dual: Option<(usize, usize)>,
}

/// The parts that count ticks, for ticks of 64 bits where they fit, else of 128, and for up to 64 packs or 128.
macro_rules! core {
    ($name:ident, $tick:ty, $set:ident, $word:ty) => {
        mod $name {
            use super::*;
            type Tick = $tick;
            /// A bit for each pack.
            type Word = $word;

            pub struct Core {
                horizon: u64,
                scale: Tick,
                /// As many units are given to what never ends, so that ticks stay small.
                most: u64,
                now: Tick,
                unit: u64,
                unit_tick: Tick,
                packs: Vec<PackState>,
                /// The first pack of level 0.
                low: usize,
                // of each pack its next boundary, who runs, and when that is done (the greatest tick where nobody runs)
                next: Vec<u64>,
                serves: Vec<u32>,
                dry: Vec<Tick>,
                least: Vec<Tick>,
                // packs as bits: those to be looked at, those that run, and blocks in which somebody's end has changed
                stale: Word,
                runs: Word,
                touched: u32,
                // of each slot what is left as it rests, what a window of a task brings, its period, its primal, what it shows
                left: Vec<Tick>,
                due: Vec<Tick>,
                period: Vec<u64>,
                primal: Vec<u32>,
                name: Vec<u16>,
                // of each pack of level 0 its processor, now and last; of each processor what it shows; free processors as bits
                held: Vec<u32>,
                last: Vec<u32>,
                free: u64,
                pub shown: Vec<u16>,
                pub changed: Vec<u32>,
            }

            impl Core {
                pub fn new(set: &Set, tree: &Tree) -> Core {
                    let count = tree.packs.len();
                    assert!(count <= Word::BITS as usize);
                    let mut number = vec![0; count];
                    let order: Vec<usize> = tree.levels.iter().rev().flat_map(|level| level.clone()).collect();
                    for (new, &old) in order.iter().enumerate() {
                        number[old] = new;
                    }
                    let low = count - tree.levels[0].len();
                    let mut core = Core {
                        horizon: set.horizon,
                        scale: tree.scale as Tick,
                        most: last_end(set),
                        now: 0,
                        unit: 0,
                        unit_tick: 0,
                        packs: Vec::new(),
                        low,
                        next: vec![NEVER_ENDS; count],
                        serves: vec![NOBODY; count],
                        dry: vec![Tick::MAX; count],
                        least: vec![Tick::MAX; count.div_ceil(BLOCK)],
                        stale: if count == Word::BITS as usize { Word::MAX } else { (1 << count) - 1 },
                        runs: Word::MAX,
                        touched: (1 << count.div_ceil(BLOCK)) - 1,
                        left: Vec::new(),
                        due: Vec::new(),
                        period: Vec::new(),
                        primal: Vec::new(),
                        name: Vec::new(),
                        held: vec![NOBODY; count - low],
                        last: vec![NOBODY; count - low],
                        free: (1 << set.processors) - 1,
                        shown: vec![UNSEEN; set.processors],
                        changed: Vec::new(),
                    };
                    let mut duals = vec![None; count];
                    for (p, &old) in order.iter().enumerate() {
                        let members = &tree.packs[old].members;
                        core.packs.push(PackState {
                            base: core.left.len(),
                            ready: Knockout::new(members.len()),
                            windows: Knockout::new(members.len()),
                            dual: None,
                        });
                        for (place, &x) in members.iter().enumerate() {
                            let node = &tree.nodes[x as usize];
                            let (period, primal, name) = match node.kind {
                                Member::Task(i) => (set.tasks[i as usize].period, NOBODY, i as u16),
                                Member::Idle => (0, NOBODY, IDLE),
                                Member::Dual(q) => {
                                    duals[number[q as usize]] = Some((p, place));
                                    (1, number[q as usize] as u32, IDLE)
                                }
                            };
                            core.left.push(0);
                            core.due.push(node.rate as Tick * period as Tick);
                            core.period.push(period);
                            core.primal.push(primal);
                            core.name.push(name);
                            if let Member::Idle = node.kind {
                                core.left[core.packs[p].base + place] = node.rate as Tick * core.most as Tick;
                                core.packs[p].ready.set(place, NEVER_ENDS);
                                core.packs[p].windows.set(place, NEVER_ENDS);
                            } else {
                                core.packs[p].windows.set(place, 0);
                            }
                        }
                    }
                    for (p, dual) in duals.into_iter().enumerate() {
                        core.packs[p].dual = dual;
                    }
                    core.next.fill(0);
                    core.turn();
                    core
                }

                /// Gives members whose windows end at the present unit their next ones, level by level, and finds the next unit.
                fn turn(&mut self) {
                    let unit = self.unit;
                    let mut hit: Word = 0;
                    for p in self.low..self.packs.len() {
                        hit |= ((self.next[p] == unit) as Word) << p;
                    }
                    self.stale |= hit;
                    while hit != 0 {
                        // a dual's pack has a lower number, so the greatest comes first
                        let p = (Word::BITS - 1 - hit.leading_zeros()) as usize;
                        hit ^= 1 << p;
                        let pack = &mut self.packs[p];
                        let mut first = pack.windows.first();
                        while p >= self.low && first >> PLACE_BITS == unit {
                            let place = place_of(first);
                            let slot = pack.base + place;
                            let end = unit + self.period[slot];
                            self.left[slot] = self.due[slot];
                            pack.ready.set(place, end);
                            pack.windows.set(place, end);
                            first = pack.windows.first();
                        }
                        let end = first >> PLACE_BITS;
                        self.next[p] = end;
                        if let Some((upper, place)) = pack.dual {
                            let above = &mut self.packs[upper];
                            let slot = above.base + place;
                            self.left[slot] = self.due[slot] * (end.min(self.most) - unit) as Tick;
                            above.ready.set(place, end);
                            above.windows.set(place, end);
                            hit |= 1 << upper;
                            self.stale |= 1 << upper;
                        }
                    }
                    self.unit = self.next[self.low..].iter().fold(self.horizon, |least, &next| least.min(next));
                    self.unit_tick = self.unit as Tick * self.scale;
                }

                /// A dual begins or stops, and its primal does the other way.
                #[inline(always)]
                fn turn_primal(&mut self, slot: usize, runs: bool) {
                    let primal = self.primal[slot];
                    if primal != NOBODY {
                        self.runs = self.runs & !(1 << primal) | ((runs as Word) << primal);
                        self.stale |= 1 << primal;
                    }
                }

                /// Who runs, down the tree: the packs of level 0 that begin, as bits.
                fn select(&mut self) -> u64 {
                    let mut begun = 0;
                    while self.stale != 0 {
                        let p = self.stale.trailing_zeros() as usize;
                        self.stale &= self.stale - 1;
                        let runs = self.runs >> p & 1 == 1;
                        let first = self.packs[p].ready.first();
                        let chosen = if runs && first != NO_KEY { (self.packs[p].base + place_of(first)) as u32 } else { NOBODY };
                        let was = self.serves[p];
                        if was != chosen {
                            self.serves[p] = chosen;
                            self.touched |= 1 << (p / BLOCK);
                            if was != NOBODY {
                                self.left[was as usize] = self.dry[p] - self.now;
                                self.turn_primal(was as usize, true);
                            }
                            self.dry[p] = Tick::MAX;
                            if chosen != NOBODY {
                                self.dry[p] = self.now + self.left[chosen as usize];
                                self.turn_primal(chosen as usize, false);
                            }
                        }
                        if p >= self.low {
                            let q = self.held[p - self.low];
                            match (q != NOBODY, runs) {
                                (true, false) => {
                                    self.free |= 1 << q;
                                    self.held[p - self.low] = NOBODY;
                                }
                                (true, true) => self.show(p, q),
                                (false, true) => begun |= 1 << (p - self.low),
                                (false, false) => {}
                            }
                        }
                    }
                    begun
                }

                #[inline(always)]
                fn show(&mut self, p: usize, q: u32) {
                    let slot = self.serves[p];
                    let name = if slot == NOBODY { IDLE } else { self.name[slot as usize] };
                    if self.shown[q as usize] != name {
                        self.shown[q as usize] = name;
                        self.changed.push(q);
                    }
                }

                fn put(&mut self, i: usize, q: u32) {
                    self.free &= !(1 << q);
                    self.held[i] = q;
                    self.last[i] = q;
                    self.show(self.low + i, q);
                }

                /// Packs that begin go where they ran last, where that is free; then the others to the lowest free processors.
                fn place(&mut self, begun: u64) {
                    let (mut rest, mut others) = (begun, 0u64);
                    while rest != 0 {
                        let i = rest.trailing_zeros() as usize;
                        rest &= rest - 1;
                        let q = self.last[i];
                        if q != NOBODY && self.free >> q & 1 == 1 {
                            self.put(i, q);
                        } else {
                            others |= 1 << i;
                        }
                    }
                    while others != 0 {
                        let i = others.trailing_zeros() as usize;
                        others &= others - 1;
                        self.put(i, self.free.trailing_zeros());
                    }
                }

                pub fn is_over(&self) -> bool {
                    self.now >= self.horizon as Tick * self.scale
                }

                /// The tick at which the first of those who run is done.
                fn first_dry(&mut self) -> Tick {
                    while self.touched != 0 {
                        let block = self.touched.trailing_zeros() as usize;
                        self.touched &= self.touched - 1;
                        let ends = &self.dry[block * BLOCK..self.dry.len().min((block + 1) * BLOCK)];
                        self.least[block] = ends.iter().fold(Tick::MAX, |least, &end| least.min(end));
                    }
                    self.least.iter().fold(Tick::MAX, |least, &end| least.min(end))
                }

                /// Those who are done now stop.
                fn dry_up(&mut self) {
                    for block in 0..self.least.len() {
                        if self.least[block] != self.now {
                            continue;
                        }
                        self.touched |= 1 << block;
                        for p in block * BLOCK..self.dry.len().min((block + 1) * BLOCK) {
                            if self.dry[p] == self.now {
                                let slot = self.serves[p] as usize;
                                let pack = &mut self.packs[p];
                                pack.ready.clear(slot - pack.base);
                                self.left[slot] = 0;
                                self.serves[p] = NOBODY;
                                self.dry[p] = Tick::MAX;
                                self.stale |= 1 << p;
                                self.turn_primal(slot, true);
                            }
                        }
                    }
                }

                /// Does a round, and tells its start. `changed` has the processors that show something else from there on.
                pub fn round(&mut self) -> Tick {
                    self.changed.clear();
                    let begun = self.select();
                    self.place(begun);
                    let start = self.now;
                    let dry = self.first_dry();
                    self.now = dry.min(self.unit_tick);
                    if dry == self.now {
                        self.dry_up();
                    }
                    if self.now == self.unit_tick && self.unit < self.horizon {
                        self.turn();
                    }
                    start
                }

                pub fn now(&self) -> Tick {
                    self.now
                }
            }

            /// The merged rows of a processor: where each begins, and what it shows.
            #[derive(Default)]
            pub struct Lane {
                starts: Vec<Tick>,
                names: Vec<u16>,
            }

            impl Lane {
                fn push(&mut self, start: Tick, name: u16) {
                    self.starts.push(start);
                    self.names.push(name);
                }
            }

            pub fn trace(set: &Set, tree: &Tree) -> Option<Vec<Lane>> {
                let mut core = Core::new(set, tree);
                let mut lanes: Vec<Lane> = (0..set.processors).map(|_| Lane::default()).collect();
                let mut rounds = 0u64;
                while !core.is_over() {
                    rounds += 1;
                    if rounds * set.processors as u64 > LIMIT {
                        return None;
                    }
                    let start = core.round();
                    for &q in &core.changed {
                        lanes[q as usize].push(start, core.shown[q as usize]);
                    }
                }
                Some(lanes)
            }

            /// All rounds: the name on each processor, and each round's end.
            pub fn table(set: &Set, tree: &Tree) -> Option<(Vec<u16>, Vec<Tick>)> {
                let mut core = Core::new(set, tree);
                let (mut names, mut ends) = (Vec::new(), Vec::new());
                while !core.is_over() {
                    if (ends.len() as u64 + 1) * set.processors as u64 > LIMIT {
                        return None;
                    }
                    core.round();
                    names.extend_from_slice(&core.shown);
                    ends.push(core.now());
                }
                Some((names, ends))
            }

            pub fn write(set: &Set, tree: &Tree, lanes: &[Lane], end: Tick) {
                let mut page = Page::new();
                page.add(&format!(
                    "run-trace 1\nprocessors {}\nhorizon {}\nscale {}\ntasks {}\n",
                    set.processors,
                    set.horizon,
                    tree.scale,
                    set.tasks.len()
                ));
                for t in &set.tasks {
                    page.add(&format!("task {} {} {}\n", t.name, t.work, t.period));
                }
                let blocks = name_blocks(set.tasks.iter().map(|t| t.name.as_str()));
                let mut totals: Vec<Tick> = vec![0; blocks.len()];
                let mut count = 0;
                for (q, lane) in lanes.iter().enumerate() {
                    let words = NameBlock::of(&format!("row {q} "));
                    // digits of a start and of an end, by turns
                    let mut digits = [Digits::zero(), Digits::zero()];
                    let (mut start, mut from) = (0, 0);
                    let stops = lane.starts.iter().skip(1).copied().chain([end]);
                    for (&name, stop) in lane.names.iter().zip(stops) {
                        let name = (name as usize).min(blocks.len() - 1);
                        totals[name] += stop - start;
                        digits[1 - from].$set(stop as _);
                        page.add_row(&words, &digits[from], &digits[1 - from], &blocks[name]);
                        from = 1 - from;
                        start = stop;
                    }
                    count += lane.names.len();
                }
                for (t, total) in set.tasks.iter().zip(&totals) {
                    page.add(&format!("total {} {}\n", t.name, total));
                }
                page.add(&format!("rows {count}\n"));
                page.flush();
            }

            pub fn run_trace(set: &Set, tree: &Tree) -> i32 {
                let Some(lanes) = trace(set, tree) else { return 9 };
                write(set, tree, &lanes, set.horizon as Tick * tree.scale as Tick);
                0
            }

            pub fn run_exec(set: &Set, tree: &Tree, window: usize) -> i32 {
                let Some((names, ends)) = table(set, tree) else { return 9 };
                let lists = execute(set.processors, window, &names, ends.len());
                let mut lanes = Vec::new();
                for list in lists {
                    let mut lane = Lane::default();
                    let mut start = 0;
                    for (&name, &end) in list.iter().zip(&ends) {
                        if lane.names.last() != Some(&name) {
                            lane.push(start, name);
                        }
                        start = end;
                    }
                    lanes.push(lane);
                }
                write(set, tree, &lanes, *ends.last().unwrap());
                0
            }
        }
    };
}

core!(narrow, u64, set_short, u64);
core!(narrow_deep, u64, set_short, u128);
core!(wide, u128, set_wide, u64);
core!(wide_deep, u128, set_wide, u128);

/// A row of the same task on another processor, which must be posted before: the processor, and how many rows are posted there then.
#[derive(Clone, Copy)]
struct Link {
    lane: u32,
    posted: u32,
}

/// What is posted, by lane, the least of it, and who waits: lanes as bits, those at their window's end, and of each lane those that wait for its rows.
struct Book {
    posted: Vec<u32>,
    least: u32,
    ahead: u64,
    behind: Vec<u64>,
    /// How many rows each of them waits for.
    wanted: Vec<u32>,
}

impl Book {
    /// Posts a lane's row, and tells which lanes may go on: those whose link is posted, and, where the slowest has come as far, those that stood at
    /// their window's end, each with a whole window before it.
    fn post(&mut self, lane: usize) -> u64 {
        let before = self.posted[lane];
        self.posted[lane] = before + 1;
        let mut woken = 0;
        let mut waiting = self.behind[lane];
        while waiting != 0 {
            let q = waiting.trailing_zeros() as usize;
            waiting &= waiting - 1;
            woken |= ((self.wanted[q] <= before + 1) as u64) << q;
        }
        self.behind[lane] &= !woken;
        if self.least == before {
            self.least = *self.posted.iter().min().unwrap();
            if self.least > before {
                let mut waiting = self.ahead;
                while waiting != 0 {
                    let q = waiting.trailing_zeros() as usize;
                    waiting &= waiting - 1;
                    if self.posted[q] == self.least {
                        self.ahead &= !(1 << q);
                        woken |= 1 << q;
                    }
                }
            }
        }
        woken
    }
}

/// The links of all rows, round by round: the last earlier row of the task on another processor.
fn links_of(lanes: usize, names: &[u16]) -> Vec<Link> {
    let none = Link { lane: 0, posted: 0 };
    let most = names.iter().filter(|&&name| name != IDLE).max().map_or(0, |&name| name as usize + 1);
    // of each task its last row, and the last one on another processor than that
    let mut seen = vec![(none, none); most];
    let mut links = Vec::with_capacity(names.len());
    for (k, round) in names.chunks(lanes).enumerate() {
        for (q, &name) in round.iter().enumerate() {
            if name == IDLE {
                links.push(none);
                continue;
            }
            let (last, other) = &mut seen[name as usize];
            links.push(if last.lane == q as u32 { *other } else { *last });
            if last.lane != q as u32 {
                *other = *last;
            }
            *last = Link { lane: q as u32, posted: k as u32 + 1 };
        }
    }
    links
}

/// A worker for each processor takes rows in order, none more than a window ahead of the slowest, and each after the earlier rows of
/// its task: what each of them ran.
fn execute(lanes: usize, window: usize, names: &[u16], rounds: usize) -> Vec<Vec<u16>> {
    let window = window.min(rounds.max(1)) as u32;
    let links = links_of(lanes, names);
    let book = Mutex::new(Book { posted: vec![0; lanes], least: 0, ahead: 0, behind: vec![0; lanes], wanted: vec![0; lanes] });
    let beds: Vec<Condvar> = (0..lanes).map(|_| Condvar::new()).collect();
    std::thread::scope(|scope| {
        let workers: Vec<_> = (0..lanes)
            .map(|q| {
                let (book, beds, links) = (&book, &beds, &links);
                scope.spawn(move || {
                    let mut ran = Vec::with_capacity(rounds);
                    let mut held = book.lock().unwrap();
                    for k in 0..rounds {
                        let link = links[k * lanes + q];
                        loop {
                            if k as u32 >= held.least + window {
                                held.ahead |= 1 << q;
                            } else if held.posted[link.lane as usize] < link.posted {
                                held.behind[link.lane as usize] |= 1 << q;
                                held.wanted[q] = link.posted;
                            } else {
                                break;
                            }
                            held = beds[q].wait(held).unwrap();
                        }
                        drop(held);
                        ran.push(names[k * lanes + q]);
                        held = book.lock().unwrap();
                        let mut woken = held.post(q);
                        if woken != 0 {
                            drop(held);
                            while woken != 0 {
                                beds[woken.trailing_zeros() as usize].notify_one();
                                woken &= woken - 1;
                            }
                            held = book.lock().unwrap();
                        }
                    }
                    ran
                })
            })
            .collect();
        workers.into_iter().map(|w| w.join().unwrap()).collect()
    })
}

fn main() {
    let words: Vec<String> = std::env::args().skip(1).collect();
    let set = read_set();
    let tree = compile(&set);
    let fits = (last_end(&set) as u128).checked_mul(tree.scale).is_some_and(|t| t < 1 << 64);
    let window = words.last().and_then(|w| w.parse().ok()).unwrap_or(32);
    let executes = words.first().is_some_and(|word| word == "exec");
    let status = match (executes, fits, tree.packs.len() <= 64) {
        (false, true, true) => narrow::run_trace(&set, &tree),
        (false, true, false) => narrow_deep::run_trace(&set, &tree),
        (false, false, true) => wide::run_trace(&set, &tree),
        (false, false, false) => wide_deep::run_trace(&set, &tree),
        (true, true, true) => narrow::run_exec(&set, &tree, window),
        (true, true, false) => narrow_deep::run_exec(&set, &tree, window),
        (true, false, true) => wide::run_exec(&set, &tree, window),
        (true, false, false) => wide_deep::run_exec(&set, &tree, window),
    };
    std::process::exit(status);
}
