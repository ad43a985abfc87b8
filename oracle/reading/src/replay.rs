//! Runs a script: the cache as lists where they say all, as places after `raw` and `load`.
use crate::places::*;
use crate::put;
use crate::records::*;
use crate::rules::Rules;
use crate::script::*;
use crate::text::{self, Out, Read};
use crate::wrong::Wrong;

pub enum Held {
    Lists(Cache),
    Places(Box<Places>),
}

pub struct Replay {
    pub rules: Rules,
    pub held: Held,
    pub slice: Vec<PlaceEntry>,
    pub lent: usize,
    /// Whether answers are led by the number of their line.
    numbered: bool,
    /// Between `load` and `end`.
    loading: bool,
    /// The group that a load's entries go to; none before the first `masters` or `shard` line.
    group: Option<GroupPlace>,
    /// How many calls were made, how many lines were bad, and how many skipped.
    pub calls: u64,
    pub bad: u64,
    skipped: u64,
}

impl Replay {
    /// "A script starts on the empty cache of zerostate seqno 0", with 128 places lent.
    pub fn new(wrong: Wrong) -> Replay {
        let slice = vec![PlaceEntry::default(); SLICE];
        let held = Held::Lists(Cache::empty(0));
        Replay { rules: Rules { wrong }, held, slice, lent: 128, numbered: false, loading: false, group: None, calls: 0, bad: 0, skipped: 0 }
    }

    pub fn is_loading(&self) -> bool {
        self.loading
    }

    /// Runs one line, given without its `\n`, and writes what it prints.
    pub fn line(&mut self, o: &mut Out, number: u64, line: &[u8]) {
        let read = read(line, self.rules.wrong).and_then(|l| self.stands(&l).map(|()| l));
        match read {
            Ok(Line::Command(command)) => self.command(o, number, command),
            Ok(Line::Number(on)) => self.numbered = on,
            Err(_) => {
                self.bad += 1;
                put!(o, "line ", num number, ": bad\n");
                self.after_bad(line);
            }
        }
    }

    /// Whether the line may stand here: a dump's lines within a load alone, and nothing else there.
    fn stands(&mut self, line: &Line) -> Read<()> {
        let wrong = self.rules.wrong;
        let in_load = match line {
            Line::Command(Command::Time(_)) if wrong != Wrong::TimeSkipped => return Err("a command"),
            Line::Command(Command::Loading(line)) if self.loading || wrong == Wrong::DumpLineAnywhere => return self.has_room(line),
            Line::Command(Command::Loading(_)) => return Err("a command"),
            Line::Command(Command::Skip) => wrong != Wrong::SkipsNotInLoad,
            Line::Command(Command::Slice(_)) | Line::Number(_) => wrong == Wrong::SettingInLoad,
            Line::Command(_) => wrong == Wrong::CallInLoad,
        };
        if !self.loading || in_load { Ok(()) } else { Err("a dump's line") }
    }

    /// Whether a dump's line has somewhere to go: its list is not full, an entry has a group, and the top items of an entry too.
    fn has_room(&mut self, line: &DumpLine) -> Read<()> {
        let (wrong, group) = (self.rules.wrong, self.group_of_entry());
        let p = self.places();
        let room = match line {
            DumpLine::Id(_) => p.ids_count < IDS as u64 || wrong == Wrong::FullIdsSilent,
            DumpLine::Shard { .. } => p.shards_count < SHARDS as u64 || wrong == Wrong::FullShardsSilent,
            DumpLine::Entry(e) => {
                let place = group.ok_or("masters or shard")?;
                if place != GroupPlace::Masters && !e.tops.is_empty() && wrong != Wrong::TopsInShard {
                    return Err("no top items in a shard");
                }
                group_of(p, place).count < ENTRIES as u64 || wrong == Wrong::FullGroupSilent
            }
            DumpLine::Zerostate(_) | DumpLine::Masters { .. } | DumpLine::End => true,
        };
        if room { Ok(()) } else { Err("no more lines than places") }
    }

    fn group_of_entry(&self) -> Option<GroupPlace> {
        let first = self.rules.is(Wrong::MastersFirst).then_some(GroupPlace::Masters);
        self.group.or(first)
    }

    /// A bad line changes nothing; here is what wrong readings let it change.
    fn after_bad(&mut self, line: &[u8]) {
        let begins = |word: &str| line.starts_with(word.as_bytes());
        match self.rules.wrong {
            Wrong::BadMastersSets if self.loading && begins("masters") => self.group = Some(GroupPlace::Masters),
            Wrong::BadShardSets if self.loading && begins("shard") => {
                let shards = self.places().shards_count as usize;
                self.group = shards.checked_sub(1).map(GroupPlace::Shard).or(self.group);
            }
            Wrong::BadShardUnsets if self.loading && begins("shard") => self.group = None,
            Wrong::BadEndEnds if begins("end") => self.loading = false,
            Wrong::BadEndsLoad => self.loading = false,
            Wrong::BadLoadEmpties if begins("load") => *self.places() = Places::default(),
            Wrong::BadRawZeroClears if begins("raw zero") => *self.places() = Places::default(),
            Wrong::BadSliceLendsAll if begins("slice") => self.lent = SLICE,
            Wrong::BadResetsSlice => self.lent = 128,
            Wrong::BadResetsNumber => self.numbered = false,
            _ => {}
        }
    }

    /// Leads the first line of an answer by the number of its line.
    fn lead(&self, o: &mut Out, number: u64) {
        let number = match self.rules.wrong {
            Wrong::NumberOfCall => self.calls,
            Wrong::NumberOfGood => number - self.bad,
            Wrong::NumberFromZero => number - 1,
            Wrong::NumberOfUnskipped => number - self.skipped,
            _ => number,
        };
        if self.numbered {
            put!(o, num number, ": ");
        }
    }

    fn command(&mut self, o: &mut Out, number: u64, command: Command) {
        match command {
            Command::Skip | Command::Time(_) => self.skipped += 1,
            Command::Call(request) => self.answer(o, number, &request),
            Command::Slice(n) => self.lent = n,
            Command::Dump => {
                if self.rules.is(Wrong::NumberLeadsDump) {
                    self.lead(o, number);
                }
                self.dump(o);
            }
            Command::DumpRaw => self.places().write(o),
            Command::DumpSlice => self.dump_slice(o),
            Command::Load => {
                *self.places() = Places::default();
                self.loading = true;
                self.group = self.group.filter(|_| self.rules.is(Wrong::GroupKept));
            }
            Command::Loading(DumpLine::End) => {
                self.loading = false;
                if !self.rules.is(Wrong::LoadedNotLed) {
                    self.lead(o, number);
                }
                put!(o, "loaded\n");
            }
            Command::Loading(line) => self.load_line(line),
            Command::Raw(raw) => self.raw(raw),
        }
    }

    /// Makes the call and writes its answer.
    fn answer(&mut self, o: &mut Out, number: u64, request: &Request) {
        self.calls += 1;
        let answer = self.call(request);
        if !(matches!(answer, Answer::Refused(_)) && self.rules.is(Wrong::RefusedNotLed)) {
            self.lead(o, number);
        }
        let first = o.len();
        text::answer(o, &answer);
        if self.rules.is(Wrong::NumberLeadsAll) {
            let lines = o.split_off(first);
            for (n, line) in lines.split_inclusive(|b| *b == b'\n').enumerate() {
                if n > 0 {
                    self.lead(o, number);
                }
                o.extend_from_slice(line);
            }
        }
    }

    /// Question 1 of places: they hold the lists and zeros, nothing else. Then the call, on the lists.
    pub fn call(&mut self, request: &Request) -> Answer {
        if let Held::Places(p) = &self.held {
            let view = p.view();
            if *Places::of(&view) == **p || self.rules.is(Wrong::SpareIgnored) {
                self.held = Held::Lists(view);
            }
        }
        let answer = match (&mut self.held, request) {
            (Held::Lists(cache), _) => self.rules.call(cache, self.lent, request),
            (Held::Places(_), Request::Sound) => Answer::Soundness(false),
            // A new cache asks nothing of the old one.
            (Held::Places(_), Request::New(_)) => {
                let mut cache = Cache::default();
                let answer = self.rules.call(&mut cache, self.lent, request);
                if answer == Answer::Made {
                    self.held = Held::Lists(cache);
                }
                answer
            }
            (Held::Places(_), _) => Answer::Refused(1),
        };
        if let Answer::Popped { extracted, .. } | Answer::Extracted(extracted) = &answer {
            self.fill(&extracted.blocks);
        }
        answer
    }

    /// The blocks stand in the slice from its first place on; what stood after them stays.
    fn fill(&mut self, blocks: &[Entry]) {
        if self.rules.is(Wrong::SliceTailZeroed) {
            self.slice[..self.lent].fill(PlaceEntry::default());
        }
        for (place, b) in self.slice.iter_mut().zip(blocks) {
            *place = PlaceEntry::of(b);
        }
    }

    fn dump(&self, o: &mut Out) {
        match &self.held {
            Held::Lists(c) => text::dump(o, c),
            Held::Places(p) => text::dump(o, &p.view()),
        }
    }

    fn dump_slice(&self, o: &mut Out) {
        for (i, e) in self.slice.iter().enumerate() {
            if *e != PlaceEntry::default() {
                put!(o, "raw slice ", num i as u64, " ");
                e.write(o);
            }
        }
    }

    fn places(&mut self) -> &mut Places {
        if let Held::Lists(c) = &self.held {
            self.held = Held::Places(Places::of(c));
        }
        match &mut self.held {
            Held::Places(p) => p,
            Held::Lists(_) => unreachable!("just placed"),
        }
    }

    fn raw(&mut self, raw: Raw) {
        if let Raw::Slice(i, e) = raw {
            self.slice[i] = *e;
            return;
        }
        let p = self.places();
        match raw {
            Raw::Zero => *p = Places::default(),
            Raw::Head { zerostate, range, ids, shards } => {
                (p.zerostate, p.range, p.ids_count, p.shards_count) = (zerostate, range, ids, shards);
            }
            Raw::Id(i, id) => p.ids[i] = id,
            Raw::Group { place, shard, count, mark, boundary } => {
                let g = group_of(p, place);
                (g.shard, g.count, g.mark, g.boundary) = (shard, count, mark, boundary);
            }
            Raw::Entry(place, i, e) => group_of(p, place).entries[i] = *e,
            Raw::Tops(i, t) => p.tops[i] = *t,
            Raw::Slice(..) => unreachable!("set above"),
        }
    }

    /// "Each line goes to the next free place of its list and is not tested in any other way"
    fn load_line(&mut self, line: DumpLine) {
        let (wrong, group) = (self.rules.wrong, self.group_of_entry());
        let p = self.places();
        match line {
            DumpLine::Zerostate(z) => p.zerostate = z,
            DumpLine::Masters { mark, boundary, range } => {
                (p.masters.mark, p.masters.boundary, p.range) = (mark, boundary, range);
                if group.is_none() || wrong != Wrong::MastersOnce {
                    self.group = Some(GroupPlace::Masters);
                }
            }
            DumpLine::Id(id) => {
                if let Some(at) = next(&mut p.ids_count, IDS) {
                    p.ids[at] = id;
                }
            }
            DumpLine::Shard { shard, mark, boundary } => {
                if let Some(at) = next(&mut p.shards_count, SHARDS) {
                    (p.shards[at].shard, p.shards[at].mark, p.shards[at].boundary) = (shard, mark, boundary);
                    self.group = Some(GroupPlace::Shard(at));
                }
            }
            DumpLine::Entry(mut e) => {
                if wrong == Wrong::LoadedListCut {
                    e.prev.truncate(PREV_IDS);
                    e.tops.truncate(TOPS);
                }
                load_entry(p, group.expect("a group"), &e);
            }
            DumpLine::End => unreachable!("the load's end"),
        }
    }
}

fn load_entry(p: &mut Places, place: GroupPlace, e: &Entry) {
    let g = group_of(p, place);
    let Some(at) = next(&mut g.count, ENTRIES) else { return };
    g.entries[at] = PlaceEntry::of(e);
    if place == GroupPlace::Masters {
        p.tops[at] = PlaceTops::of(&e.tops);
    }
}

/// The next free place; a line that finds none is bad before.
fn next(count: &mut u64, places: usize) -> Option<usize> {
    let at = usize::try_from(*count).ok().filter(|at| *at < places)?;
    *count += 1;
    Some(at)
}

fn group_of(p: &mut Places, place: GroupPlace) -> &mut PlaceGroup {
    match place {
        GroupPlace::Masters => &mut p.masters,
        GroupPlace::Shard(i) => &mut p.shards[i],
    }
}
