//! `original --lines`: makes a script's calls as a node with `call_lines` does, from the original's own records, and prints that node's log.
use std::panic::{AssertUnwindSafe, catch_unwind};
use std::sync::Arc;

use reading::records as language;
use reading::records::Request;
use reading::script::{Command, command};

use super::call_lines::Call;
use super::convert::*;
use super::driver::{Adapter, Driver, block_on, zerostate};
use super::*;

impl Driver {
    /// A line of the script: a call is made and logged; any other line is carried out as ever and stands in the log as it is.
    pub fn logged_line(&mut self, line: &[u8]) -> Result<(), &'static str> {
        if let Ok(Command::Call(request)) = command(line) {
            return self.logged(&request).map_err(|_| "a call that can't be logged");
        }
        println!("cache-call: {}", String::from_utf8_lossy(line));
        self.line(&mut vec![], line)
    }

    fn logged(&mut self, request: &Request) -> Result<()> {
        if let Request::StoreReceived(r) = request {
            return self.logged_received(r);
        }
        let call = call_lines::begin();
        let c = &self.cache;
        let answer = match request {
            Request::New(z) => {
                call.line(&call_lines::new(&zerostate(*z)));
                self.cache = BlocksCache::new(&zerostate(*z));
                "made".to_owned()
            }
            Request::StoreCollated(r) => {
                let (b, tops) = (Box::new(candidate(&r.id, r.reference, &r.prev, r.processed_to, r.payload)), tops(&r.tops));
                call.line(&call_lines::store_collated(&b, &tops, r.anchor, payload(&b.queue_diff_aug.data)));
                call_lines::collated_answer(&c.store_collated(b, tops, r.anchor))
            }
            Request::Validation(i, v) => {
                let (block, result) = (id(i), verdict(*v));
                call.line(&call_lines::validation(&block, &result, handle_of(&result)));
                call_lines::validation_answer(c.store_master_block_validation_result(&block, result))
            }
            _ => logged_short(&call, c, request)?,
        };
        call.answer(&answer);
        Ok(())
    }

    /// As in a node the block is loaded first. Where that fails, the cache is not asked: here the line stands without previous ids, for the comparison.
    fn logged_received(&self, r: &language::Received) -> Result<()> {
        let (block, reference, state) = (id(&r.id), id(&r.reference), state(r));
        let adapter = Adapter::of(r, self.cache.inner.zerostate_mc_seqno);
        let load = || block_on(ReceivedBlockContext::load(&adapter, &reference, state.clone(), Default::default()));
        let loaded = catch_unwind(AssertUnwindSafe(load)).unwrap_or_else(|_| bail!("the master is not its own reference"));
        // What the original can't be given: no previous id, no top anchor.
        let prev = loaded.as_ref().map_or(&[][..], |ctx| if r.prev.is_empty() { &[] } else { &ctx.prev_ids });
        let pay = loaded.as_ref().map_or(r.payload, |ctx| payload(&ctx.queue_diff));
        let (tops, anchor) = call_lines::tops_and_anchor(&state)?;
        let anchor = anchor.filter(|_| r.anchor.is_some());
        let call = call_lines::begin();
        call.line(&call_lines::store_received(&block, &reference, prev, &tops, anchor, pay));
        let result = match loaded {
            Err(e) => Err(e),
            Ok(_) => block_on(self.cache.store_received(Arc::new(adapter), &reference, state, Default::default())),
        };
        if let Ok(Some(stored)) = &result {
            self.as_given(r, stored);
        }
        call.answer(&call_lines::received_answer(&result));
        Ok(())
    }
}

/// The calls that are given no more than a seqno, an id or keys.
fn logged_short(call: &Call, c: &BlocksCache, request: &Request) -> Result<String> {
    Ok(match request {
        Request::Pop(from) => {
            call.line(&call_lines::pop(*from));
            call_lines::pop_answer(&c.pop_front_applied_mc_block_subgraph(*from))
        }
        Request::Sync(i) => {
            call.line(&call_lines::sync(&id(i)));
            call_lines::sync_answer(&c.extract_mc_block_subgraph_for_sync(&id(i)))
        }
        Request::Peek(from) => {
            call.line(&call_lines::peek(*from));
            call_lines::peek_answer(&c.peek_front_applied_mc_block_subgraph(*from))
        }
        Request::TailIds(k) => {
            call.line(&call_lines::tail_ids(&key(k)));
            call_lines::tail_ids_answer(&c.read_before_tail_ids_of_mc_block(&key(k)))
        }
        Request::Boundary(keys) => {
            let keys: Vec<_> = keys.iter().map(key).collect();
            call.line(&call_lines::boundary(&keys));
            c.set_gc_to_boundary(&keys);
            "done".to_owned()
        }
        Request::Collect => {
            call.line(&call_lines::collect());
            c.gc_prev_blocks();
            "done".to_owned()
        }
        Request::RemoveNext(keys) => {
            let keys: Vec<_> = keys.iter().map(key).collect();
            call.line(&call_lines::remove_next(&keys));
            c.remove_next_collated_blocks_from_cache(&keys);
            "done".to_owned()
        }
        _ => bail!("no call of the original"),
    })
}
