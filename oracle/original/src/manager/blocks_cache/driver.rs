//! Reads a script, makes its calls on the original and prints the answers.
use std::cell::RefCell;
use std::future::Future;
use std::io::{BufRead, BufReader, Write};
use std::panic::{AssertUnwindSafe, catch_unwind};
use std::pin::pin;
use std::task::{Context, Poll, Waker};
use std::time::Duration;

use async_trait::async_trait;
use reading::records as language;
use reading::records::{Answer, Request, Shard, TailRow, View, ViewRow};
use reading::script::{Command, DumpLine, command};
use reading::text;
use tycho_block_util::block::BlockStuff;
use tycho_types::cell::HashBytes;

use super::convert::*;
use super::timing::{Clock, Kept, changes, microseconds};
use super::*;

/// The block store that the cache asks about a received block.
pub struct Adapter {
    zerostate: ZerostateId,
    prev: Vec<BlockId>,
    payload: u64,
}

impl Adapter {
    /// The original can't be given a block without a previous id: one stands in, and is taken out of a fresh entry.
    pub fn of(r: &language::Received, seqno: u32) -> Adapter {
        let prev = if r.prev.is_empty() { vec![id(&r.id)] } else { ids(&r.prev) };
        Adapter { zerostate: zerostate(seqno), prev, payload: r.payload }
    }
}

#[async_trait]
impl StateNodeAdapter for Adapter {
    async fn load_block(&self, block_id: &BlockId) -> Result<Option<BlockStuff>> {
        Ok(Some(BlockStuff::make(*block_id, self.prev.clone())))
    }
    async fn load_diff(&self, _: &BlockId) -> Result<Option<QueueDiffStuff>> {
        Ok(Some(QueueDiffStuff { payload: Some(self.payload) }))
    }
    fn zerostate_id(&self) -> &ZerostateId {
        &self.zerostate
    }
}

/// Nothing here waits.
pub fn block_on<F: Future>(future: F) -> F::Output {
    match pin!(future).poll(&mut Context::from_waker(Waker::noop())) {
        Poll::Ready(output) => output,
        Poll::Pending => panic!("the adapter never waits"),
    }
}

pub fn zerostate(seqno: u32) -> ZerostateId {
    ZerostateId { seqno, root_hash: HashBytes::default(), file_hash: HashBytes::default() }
}

/// The number of the question that the original's error is the answer to.
fn refused(e: &anyhow::Error) -> Answer {
    let words = e.to_string();
    let numbers = [
        ("received masterchain block older than zerostate", 5),
        ("Should not store", 7),
        ("Applied master block not found in cache", 11),
        ("read_before_tail_ids_of_mc_block: Master block not found", 12),
    ];
    match numbers.iter().find(|(start, _)| words.starts_with(start)) {
        Some((_, number)) => Answer::Refused(*number),
        None => panic!("an error without a number: {words}"),
    }
}

fn stored(r: &BlockCacheStoreResult) -> Answer {
    Answer::Stored {
        received_and_collated: r.received_and_collated,
        mismatch: r.block_mismatch,
        last: r.last_collated_mc_block_id.as_ref().map(id_back),
        range: r.applied_mc_queue_range,
    }
}

thread_local! {
    static PANIC: RefCell<String> = const { RefCell::new(String::new()) };
}

pub struct Driver {
    pub cache: BlocksCache,
    /// Within a load: the shard that the next entry goes to, none for the masters.
    loading: Option<Option<Shard>>,
    clock: Clock,
    /// How often the next line's call is made and timed.
    times: Option<u32>,
    kept: Kept,
}

impl Driver {
    fn new() -> Driver {
        Driver { cache: BlocksCache::new(&zerostate(0)), loading: None, clock: Clock::default(), times: None, kept: Kept::default() }
    }

    /// A driver with the cache of this one, made again: the original's cache is no value that could be copied.
    fn again(&self) -> Result<Driver, &'static str> {
        let mut driver = Driver::new();
        for command in &self.kept.commands {
            driver.run(&mut vec![], command.clone())?;
        }
        driver.clock = Clock::default();
        Ok(driver)
    }

    /// Makes the call so many times, each on the same cache, and answers its time too.
    fn call_times(&mut self, request: &Request, times: u32) -> Result<(Answer, u128), &'static str> {
        self.clock = Clock::default();
        let mut others = Duration::ZERO;
        for _ in 1..times {
            if changes(request) {
                let mut other = self.again()?;
                other.call(request)?;
                others += other.clock.spent();
            } else {
                self.call(request)?;
            }
        }
        let answer = self.call(request)?;
        Ok((answer, microseconds(others + self.clock.spent(), times)))
    }

    fn call(&mut self, request: &Request) -> Result<Answer, &'static str> {
        let (c, clock) = (&self.cache, &self.clock);
        Ok(match request {
            Request::New(z) => {
                self.cache = BlocksCache::new(&zerostate(*z));
                Answer::Made
            }
            Request::StoreCollated(r) => {
                let b = Box::new(candidate(&r.id, r.reference, &r.prev, r.processed_to, r.payload));
                let tops = tops(&r.tops);
                clock.time(|| c.store_collated(b, tops, r.anchor)).map_or_else(|e| refused(&e), |r| stored(&r))
            }
            Request::StoreReceived(r) => self.store_received(r),
            Request::Validation(i, v) => self.validate(&id(i), verdict(*v)),
            Request::Pop(from) => self.pop(*from),
            Request::Sync(i) => self.sync(&id(i)),
            Request::Peek(from) => self.peek(*from),
            Request::TailIds(k) => self.tail_ids(&key(k)),
            Request::Boundary(keys) => {
                let keys: Vec<_> = keys.iter().map(key).collect();
                clock.time(|| c.set_gc_to_boundary(&keys));
                Answer::Done
            }
            Request::Collect => {
                clock.time(|| c.gc_prev_blocks());
                Answer::Done
            }
            Request::RemoveNext(keys) => {
                let keys: Vec<_> = keys.iter().map(key).collect();
                clock.time(|| c.remove_next_collated_blocks_from_cache(&keys));
                Answer::Done
            }
            Request::Sound => return Err("the original has no question 1"),
        })
    }

    fn validate(&self, id: &BlockId, verdict: ValidationStatus) -> Answer {
        match self.clock.time(|| self.cache.store_master_block_validation_result(id, verdict)) {
            None => Answer::NoChange,
            Some(s) => Answer::Changed(status_back(s)),
        }
    }

    fn peek(&self, from: u32) -> Answer {
        match self.clock.time(|| self.cache.peek_front_applied_mc_block_subgraph(from)) {
            Err(e) => refused(&e),
            Ok(None) => Answer::Nothing,
            Ok(Some(v)) => Answer::Found(view(&v)),
        }
    }

    fn tail_ids(&self, key: &BlockCacheKey) -> Answer {
        self.clock.time(|| self.cache.read_before_tail_ids_of_mc_block(key)).map_or_else(|e| refused(&e), rows)
    }

    fn sync(&self, id: &BlockId) -> Answer {
        let extract = self.clock.time(|| self.cache.extract_mc_block_subgraph_for_sync(id));
        self.extracted(extract).map_or(Answer::AlreadyExtracted, Answer::Extracted)
    }

    fn pop(&self, from: u32) -> Answer {
        match self.clock.time(|| self.cache.pop_front_applied_mc_block_subgraph(from)) {
            Err(e) => refused(&e),
            Ok((x, last)) => self.extracted(x).map_or(Answer::AlreadyExtracted, |extracted| Answer::Popped { last, extracted }),
        }
    }

    fn store_received(&self, r: &language::Received) -> Answer {
        let c = &self.cache;
        let adapter = Arc::new(Adapter::of(r, c.inner.zerostate_mc_seqno));
        let (reference, state) = (id(&r.reference), state(r));
        let store = || self.clock.time(|| block_on(c.store_received(adapter, &reference, state, Default::default())));
        match catch_unwind(AssertUnwindSafe(store)) {
            // 6 is a debug assertion, made before anything is locked.
            Err(e) if !PANIC.with_borrow(|words| words.contains("is_masterchain()")) => std::panic::resume_unwind(e),
            Err(_) => Answer::Refused(6),
            Ok(Err(e)) => refused(&e),
            Ok(Ok(None)) => Answer::Synced,
            Ok(Ok(Some(s))) => {
                self.as_given(r, &s);
                stored(&s)
            }
        }
    }

    /// Sets what the original can't be given in a fresh entry: no previous id, no top anchor.
    pub fn as_given(&self, r: &language::Received, stored: &BlockCacheStoreResult) {
        if stored.received_and_collated {
            return;
        }
        let set = |e: &mut BlockCacheEntry| {
            if r.prev.is_empty() {
                e.prev_blocks_ids.clear();
            }
            if r.anchor.is_none() {
                e.top_processed_to_anchor = None;
            }
        };
        if r.id.is_masterchain() {
            set(self.cache.inner.masters.lock().blocks.get_mut(&r.id.seqno()).unwrap());
        } else {
            set(self.cache.inner.shards.get_mut(&shard(r.id.shard())).unwrap().blocks.get_mut(&r.id.seqno()).unwrap());
        }
    }

    fn extracted(&self, x: McBlockSubgraphExtract) -> Option<language::Extracted> {
        let McBlockSubgraphExtract::Extracted(g) = x else { return None };
        let master = entry_back(&g.master_block);
        let blocks: Vec<language::Entry> = g.shard_blocks.iter().map(entry_back).collect();
        let taken = if cfg!(feature = "count") {
            crate::counted::TAKEN.get()
        } else {
            // The rules' sum: an id for each starting item, and one for each previous id of a joined block.
            let zerostate = self.cache.inner.zerostate_mc_seqno;
            let starting = master.tops.iter().filter(|t| t.updated && t.reference > zerostate).count();
            (starting + blocks.iter().map(|b| b.prev.len()).sum::<usize>()) as u64
        };
        Some(language::Extracted { master, blocks, taken })
    }

    fn load_line(&mut self, line: DumpLine) {
        let c = &self.cache;
        match line {
            DumpLine::Zerostate(z) => self.cache = BlocksCache::new(&zerostate(z)),
            DumpLine::Masters { mark, boundary, range } => {
                let mut m = c.inner.masters.lock();
                (m.last_known_synced, m.gc_to_boundary) = (mark, boundary.as_ref().map(key));
                m.data.applied_mc_queue_range = range;
            }
            DumpLine::Id(i) => {
                c.inner.masters.lock().data.last_collated_mc_block_ids.insert(i.seqno(), id(&i));
            }
            DumpLine::Shard { shard: s, mark, boundary } => {
                let mut g = c.inner.shards.entry(shard(s)).or_default();
                (g.last_known_synced, g.gc_to_boundary) = (mark, boundary.as_ref().map(key));
                self.loading = Some(Some(s));
            }
            DumpLine::Entry(e) => {
                let entry = entry(&e);
                match self.loading.flatten() {
                    None => c.inner.masters.lock().blocks.insert(entry.block_id.seqno, entry),
                    Some(s) => c.inner.shards.get_mut(&shard(s)).unwrap().blocks.insert(entry.block_id.seqno, entry),
                };
            }
            DumpLine::End => self.loading = None,
        }
    }

    pub fn line(&mut self, o: &mut text::Out, line: &[u8]) -> Result<(), &'static str> {
        let Ok(command) = command(line) else { return Err("no line that the original can answer") };
        if self.loading.is_some() != matches!(command, Command::Loading(_)) && command != Command::Skip {
            return Err("a dump's lines stand within a load, and only they");
        }
        if command == Command::Skip {
            return Ok(());
        }
        let times = self.times.take();
        match (&command, times) {
            (Command::Time(times), _) => self.times = Some(*times),
            (Command::Call(request), Some(times)) if !matches!(request, Request::New(_)) => {
                let (answer, spent) = self.call_times(request, times)?;
                text::answer(o, &answer);
                writeln!(o, "time {times} calls {spent} microseconds").expect("a vector");
            }
            _ => self.run(o, command.clone())?,
        }
        self.kept.keep(&command);
        Ok(())
    }

    fn run(&mut self, o: &mut text::Out, command: Command) -> Result<(), &'static str> {
        match command {
            Command::Skip | Command::Slice(_) | Command::Time(_) => {}
            Command::Call(request) => text::answer(o, &self.call(&request)?),
            Command::Dump => text::dump(o, &cache_back(&self.cache)),
            Command::Load => {
                self.cache = BlocksCache::new(&zerostate(0));
                self.loading = Some(None);
            }
            Command::Loading(line) => {
                if line == DumpLine::End {
                    o.extend_from_slice(b"loaded\n");
                }
                self.load_line(line);
            }
            Command::Raw(_) | Command::DumpRaw | Command::DumpSlice => return Err("the original has no places"),
        }
        Ok(())
    }
}

fn view(v: &CachedMcBlockSubgraphView) -> View {
    let row = |i: &BlockId, reference: u32, diff: &QueueDiffStuff| ViewRow { id: id_back(i), reference, payload: payload(diff) };
    View {
        missing: v.missing_top_shard_block.as_ref().map(key_back),
        master: row(&v.block_id, v.ref_by_mc_seqno, &v.queue_diff),
        tops: v.top_shard_blocks.iter().map(|b| row(&b.block_id, b.ref_by_mc_seqno, &b.queue_diff)).collect(),
    }
}

fn rows(map: BeforeTailIdsResult) -> Answer {
    let row =
        |(s, (i, prev)): (&ShardIdent, &(Option<BlockId>, Vec<BlockId>))| TailRow { shard: shard_back(s), id: i.as_ref().map(id_back), prev: ids_back(prev) };
    Answer::Rows(map.iter().map(row).collect())
}

/// Ends the run: what was answered so far, then why.
fn stop(out: &[u8], number: u64, why: &str) -> ! {
    std::io::stdout().write_all(out).expect("output");
    eprintln!("original: line {number}: {why}");
    std::process::exit(2)
}

pub fn main() {
    std::panic::set_hook(Box::new(|info| PANIC.set(info.to_string())));
    let mut input = BufReader::with_capacity(1 << 20, std::io::stdin().lock());
    let mut driver = Driver::new();
    let lines = std::env::args().any(|word| word == "--lines");
    let (mut line, mut out, mut number) = (vec![], vec![], 0);
    loop {
        line.clear();
        if input.read_until(b'\n', &mut line).expect("input") == 0 {
            break;
        }
        number += 1;
        let text = line.strip_suffix(b"\n").unwrap_or(&line);
        match catch_unwind(AssertUnwindSafe(|| if lines { driver.logged_line(text) } else { driver.line(&mut out, text) })) {
            Err(_) => stop(&out, number, &PANIC.take()),
            Ok(Err(why)) => stop(&out, number, why),
            Ok(Ok(())) => {}
        }
        if out.len() > 1 << 20 {
            std::io::stdout().write_all(&out).expect("output");
            out.clear();
        }
    }
    std::io::stdout().write_all(&out).expect("output");
}
