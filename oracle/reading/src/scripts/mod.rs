//! Random scripts. The reading runs beside the writing, so that calls meet the cache as it stands.
pub mod broken;
mod caches;
mod damage;
mod plots;
mod scene;
mod spoil;

use crate::places::{PlaceEntry, Places, SLICE};
use crate::put;
use crate::random::Random;
use crate::records::*;
use crate::replay::{Held, Replay};
use crate::text;
use crate::wrong::Wrong;
use scene::Scene;

#[derive(Clone, Copy, PartialEq, Eq, Debug)]
pub enum Mode {
    /// Only calls that the original can answer as the rules say.
    Domain,
    /// Every line of the language, the added refusals and broken caches too.
    Full,
}

/// Bytes that a call may print on average, dumps included.
const ALLOWED: i64 = 3000;
/// Steps of the original's tail walk, which takes every path.
const TAIL_STEPS: usize = 20_000;

pub struct Script {
    pub random: Random,
    pub mode: Mode,
    pub replay: Replay,
    /// The lines so far; whoever writes them out may empty it.
    pub lines: Vec<u8>,
    pub calls: u64,
    /// How many calls are wanted; no more are written, but for damaged lines that are calls still.
    wanted: u64,
    /// How many lines were written.
    number: u64,
    /// Whether lines are damaged now and then.
    damages: bool,
    printed: Vec<u8>,
    allowance: i64,
}

impl Script {
    pub fn new(seed: u64, wanted: u64, mode: Mode) -> Script {
        let (replay, damages) = (Replay::new(Wrong::None), mode == Mode::Full);
        Script { random: Random::new(seed), mode, replay, lines: vec![], calls: 0, wanted, number: 0, damages, printed: vec![], allowance: 0 }
    }

    pub fn is_done(&self) -> bool {
        self.calls >= self.wanted
    }

    /// A part: a fresh or loaded cache, then calls that fit together.
    pub fn part(&mut self) {
        let mut scene = Scene::new(self);
        self.start(&mut scene);
        match self.random.weighted(&[35, 45, 7, 8, 5]) {
            0 => {}
            1 => scene.rounds(self),
            2 => scene.fill_groups(self),
            3 => scene.fill_masters(self),
            _ => scene.fill_ids(self),
        }
        // Some of these are left out of a script for the original.
        for _ in 0..10 + self.random.below(80) {
            let full = self.mode == Mode::Full;
            if self.random.chance(1) {
                self.again();
            } else if full && self.random.chance(3) {
                self.lend();
            } else if full && self.random.chance(2) {
                self.broken_calls(&mut scene);
            } else if full && self.random.chance(3) {
                self.setting();
            } else {
                let request = scene.request(self);
                self.call(request);
            }
        }
        self.line("dump");
    }

    fn start(&mut self, scene: &mut Scene) {
        self.line(&format!("# {} shards, masters from {}", scene.shards.len(), scene.base));
        self.lend();
        if self.random.chance(35) {
            let cache = caches::sound(scene, &mut self.random);
            self.load(&cache);
            scene.settle(&cache);
        } else {
            self.call(Request::New(scene.zerostate));
        }
    }

    pub fn cache(&self) -> &Cache {
        match &self.replay.held {
            Held::Lists(c) => c,
            Held::Places(_) => unreachable!("calls are made on sound caches, broken ones are mended at once"),
        }
    }

    /// Writes a line that is no call, and runs it.
    pub fn line(&mut self, line: &str) {
        self.bytes(line.as_bytes());
    }

    /// Writes a line and runs it, perhaps with a damaged copy before or after.
    fn bytes(&mut self, line: &[u8]) {
        self.damaged(line, false);
        self.write(line);
        self.printed.clear();
        self.replay.line(&mut self.printed, self.number, line);
        self.allowance -= self.printed.len() as i64;
        self.damaged(line, false);
    }

    /// Writes a line; the line end may be of two bytes.
    fn write(&mut self, line: &[u8]) {
        self.number += 1;
        self.lines.extend_from_slice(line);
        if self.damages && self.random.chance(2) {
            self.lines.push(b'\r');
        }
        self.lines.push(b'\n');
    }

    pub fn load(&mut self, cache: &Cache) {
        let mut dump = vec![];
        text::dump(&mut dump, cache);
        let lines: Vec<&[u8]> = dump.split(|b| *b == b'\n').filter(|l| !l.is_empty()).collect();
        if self.damages && self.random.chance(60) {
            self.damaged_load(&lines);
        }
        self.line("load");
        for line in lines {
            self.bytes(line);
        }
        self.replay.call(&Request::Sound);
    }

    /// Now and then a damaged copy of a line, and a dump of what it left. What is no call is undone: the line itself is written too.
    fn damaged(&mut self, line: &[u8], call: bool) {
        if !self.damages || self.replay.is_loading() || !self.random.chance(damaged_percent(line, call)) {
            return;
        }
        self.damages = false;
        let before = self.places();
        let damaged = damage::damage(&mut self.random, line);
        self.bytes(&damaged);
        if self.replay.is_loading() {
            self.line("end");
        }
        self.look_after(line);
        let sound = self.replay.call(&Request::Sound) == Answer::Soundness(true);
        let now = self.places();
        if now != before && !(call && sound) {
            self.raw_changes(&now, &before);
            self.replay.call(&Request::Sound);
        }
        self.damages = true;
    }

    /// A dump of what the line would change.
    fn look_after(&mut self, line: &[u8]) {
        let looks = match line {
            [b's', b'l', ..] => ["dump slice", "dump"],
            [b'r', b'a', b'w', b' ', b's', ..] => ["dump slice", "dump slice"],
            [b'r', b'a', b'w', ..] => ["dump raw", "dump"],
            [b'p', b'o', ..] | [b's', b'y', ..] => ["dump", "dump slice"],
            _ => ["dump", "dump"],
        };
        let look = self.random.pick(&looks);
        self.line(look);
    }

    /// A load whose lines are damaged, removed, moved or too many, with a dump after it; the good load follows.
    fn damaged_load(&mut self, dump: &[&[u8]]) {
        self.damages = false;
        let mut lines: Vec<Vec<u8>> = dump.iter().map(|l| l.to_vec()).collect();
        let end = lines.pop().expect("a dump has an end");
        for _ in 0..1 + self.random.below(4) {
            damage::change_load(&mut self.random, &mut lines);
        }
        if self.random.chance(30) {
            lines.push(damage::damage(&mut self.random, &end));
        }
        self.line("load");
        for line in lines {
            self.bytes(&line);
        }
        if self.replay.is_loading() {
            self.bytes(&end);
        }
        let outside = self.random.pick(dump);
        self.bytes(outside);
        let look = self.random.pick(&["dump", "dump", "dump", "dump raw"]);
        self.line(look);
        self.line("sound");
        self.damages = true;
    }

    /// Numbers before answers, on or off, or a line that is none of the language.
    fn setting(&mut self) {
        let line = self.random.pick(&["number on", "number on", "number off", "time 5", "jump", "", "number"]);
        self.line(line);
    }

    fn places(&self) -> Box<Places> {
        match &self.replay.held {
            Held::Places(p) => p.clone(),
            Held::Lists(c) => Places::of(c),
        }
    }

    /// Writes a call and runs it, unless the original can't answer it and the script is for it.
    pub fn call(&mut self, request: Request) -> Option<Answer> {
        if self.is_done() || self.mode == Mode::Domain && !self.in_domain(&request) {
            return None;
        }
        let mut line = vec![];
        text::request(&mut line, &request);
        line.pop();
        self.damaged(&line, true);
        self.write(&line);
        let answer = self.replay.call(&request);
        self.printed.clear();
        text::answer(&mut self.printed, &answer);
        self.calls += 1;
        self.allowance = (self.allowance + ALLOWED - self.printed.len() as i64).min(100 * ALLOWED);
        if matches!(self.replay.held, Held::Lists(_)) {
            self.look(matches!(answer, Answer::Popped { .. } | Answer::Extracted(_)));
        }
        Some(answer)
    }

    /// A dump after a call where it is small or enough calls went without.
    fn look(&mut self, extracted: bool) {
        let size = dump_size(self.cache());
        if size > 1500 && (size > self.allowance || self.random.chance(30)) {
            return;
        }
        let full = self.mode == Mode::Full;
        let slice = 600 * self.replay.slice.iter().filter(|e| **e != PlaceEntry::default()).count() as i64;
        if full && extracted && slice < self.allowance && self.random.chance(60) {
            self.line("dump slice");
        }
        if full && 4 * size < self.allowance && self.random.chance(10) {
            self.line("dump raw");
            // The places say what the lists said.
            self.replay.call(&Request::Sound);
        } else {
            self.line("dump");
        }
    }

    /// What the original answers as the rules say. Not: the added refusals; 7 of a received store, where it has refreshed the mark; 5 and 6 at once; a payload at the
    /// zerostate; tail ids over a graph with too many paths.
    fn in_domain(&self, request: &Request) -> bool {
        let (cache, rules) = (self.cache(), &self.replay.rules);
        let mut refusal = rules.refusal(cache, self.replay.lent, request);
        match request {
            Request::Sound => return false,
            Request::StoreCollated(c) => refusal = refusal.and_then(|()| rules.place_refusal(cache, &c.id, true)),
            Request::StoreReceived(r) => {
                let zerostate_payload = r.reference.seqno() == cache.zerostate && r.payload != 0;
                let five_and_six = refusal == Err(5) && r.id.is_masterchain() && r.id != r.reference;
                if refusal.is_ok() && !rules.synced(cache, r) {
                    refusal = rules.place_refusal(cache, &r.id, false);
                }
                if zerostate_payload || five_and_six || refusal == Err(7) {
                    return false;
                }
            }
            Request::TailIds(key) => return refusal != Err(2) && tail_steps(cache, key.seqno) < TAIL_STEPS,
            _ => {}
        }
        !matches!(refusal, Err(1..=4 | 8..=10))
    }

    /// Lends another number of places, with old contents in some.
    fn lend(&mut self) {
        let full = self.mode == Mode::Full;
        let n = if full { self.random.pick(&[0, 127, 128, 128, 128, 128, 129, 160]) } else { self.random.pick(&[128, 129, 160]) };
        self.line(&format!("slice {n}"));
        if !full {
            return;
        }
        if self.random.chance(50) {
            let i = self.random.below(SLICE);
            let scene = Scene::new(self);
            let entry = PlaceEntry::of(&caches::entry(&scene, &mut self.random, scene.shards[0], 7));
            self.slice_place(i, &entry);
        }
        let used = self.replay.slice.iter().filter(|e| **e != PlaceEntry::default()).count();
        if used > 40 {
            for i in 0..SLICE {
                self.slice_place(i, &PlaceEntry::default());
            }
        }
    }

    fn slice_place(&mut self, i: usize, entry: &PlaceEntry) {
        let mut line = vec![];
        put!(&mut line, "raw slice ", num i as u64, " ");
        entry.write(&mut line);
        self.bytes(line.strip_suffix(b"\n").expect("a line end"));
    }

    /// The cache is set to what it holds, by its own dump.
    fn again(&mut self) {
        let cache = self.cache().clone();
        if self.mode == Mode::Domain || self.random.chance(50) {
            self.load(&cache);
            return;
        }
        let mut raw = vec![];
        Places::of(&cache).write(&mut raw);
        for line in raw.split(|b| *b == b'\n') {
            self.bytes(line);
        }
        self.replay.call(&Request::Sound);
    }

    /// A few calls on the cache with one thing broken, which is mended again.
    fn broken_calls(&mut self, scene: &mut Scene) {
        let whole = Places::of(self.cache());
        let (_, break_it) = self.random.pick(broken::BREAKS);
        let mut places = whole.clone();
        break_it(&mut places, &mut self.random);
        let requests: Vec<Request> = (0..3).map(|_| scene.request(self)).filter(|r| !matches!(r, Request::New(_))).collect();
        if self.random.chance(70) {
            self.raw_changes(&whole, &places);
        } else {
            let cache = self.broken_lists(&places);
            self.load(&cache);
        }
        for r in requests {
            self.call(r);
        }
        self.call(Request::Sound);
        // A break may leave a cache sound (an order of one entry): the calls then change it, and it is set back whole.
        let places = self.places();
        self.raw_changes(&places, &whole);
        self.replay.call(&Request::Sound);
    }

    /// What a load can break: the lists of broken places, or a list that is longer than its record.
    fn broken_lists(&mut self, places: &Places) -> Cache {
        let mut cache = places.view();
        let long = self.random.chance(50);
        if let Some(e) = cache.masters.entries.first_mut().filter(|_| long) {
            e.prev.resize(3, e.id);
        } else if let Some(e) = cache.masters.entries.last_mut().filter(|e| !e.tops.is_empty()) {
            e.tops.resize(9, e.tops[0]);
        }
        cache
    }

    /// The `raw` lines that make one cache of another.
    pub fn raw_changes(&mut self, from: &Places, to: &Places) {
        let mut lines = vec![];
        to.write_changes(&mut lines, from);
        for line in lines.split(|b| *b == b'\n').filter(|l| !l.is_empty()) {
            self.bytes(line);
        }
    }
}

/// A whole script, in memory.
pub fn script(seed: u64, calls: u64, mode: Mode) -> Vec<u8> {
    let mut s = Script::new(seed, calls, mode);
    while !s.is_done() {
        s.part();
    }
    s.lines
}

/// The lines of a script, without their `\n`.
pub fn lines(script: &[u8]) -> impl Iterator<Item = &[u8]> {
    script.split_inclusive(|b| *b == b'\n').map(|l| l.strip_suffix(b"\n").unwrap_or(l))
}

/// How often a line is damaged: less often where there are many of a kind.
fn damaged_percent(line: &[u8], call: bool) -> usize {
    match line {
        b"raw zero" => 12,
        _ if call => 8,
        [b'r', b'a', b'w', b' ', b's', ..] => 1,
        [b'r', b'a', b'w', ..] => 5,
        [b'd', b'u', ..] => 2,
        _ => 12,
    }
}

/// About how long a dump is.
fn dump_size(c: &Cache) -> i64 {
    let entries = c.shards.iter().flat_map(|(_, g)| &g.entries).chain(&c.masters.entries);
    let size: usize = entries.map(|e| 260 + 165 * (e.prev.len() + e.tops.len())).sum();
    (100 + size + 165 * c.ids.len() + 60 * c.shards.len()) as i64
}

/// How many ids the original takes from its list for tail ids: one for every path.
fn tail_steps(c: &Cache, seqno: u32) -> usize {
    let Some(at) = c.masters.at(seqno) else { return 0 };
    let mut waiting: Vec<(Id, bool)> = c.masters.entries[at].tops.iter().map(|t| (t.id, true)).collect();
    let mut steps = 0;
    while let Some((id, is_top)) = waiting.pop() {
        steps += 1;
        if steps >= TAIL_STEPS {
            break;
        }
        let entry = c.shard(id.shard()).and_then(|g| g.at(id.seqno()).map(|at| &g.entries[at]));
        if let Some(e) = entry.filter(|e| is_top || e.reference == seqno) {
            waiting.extend(e.prev.iter().map(|p| (*p, false)));
        }
    }
    steps
}
