//! Many files on several threads. Which files, and which disagreement is the first, doesn't depend
//! on the threads.
use crate::compare::{compared, Disagreement};
use crate::given::Given;
use crate::tally::Tally;
use crate::{independence, papers, texts};
use std::sync::atomic::{AtomicU64, Ordering::SeqCst};
use std::sync::Mutex;
use std::thread;

/// Proofs are checked by recursion, and deep trees are taken down by it.
pub const STACK: usize = 256 << 20;

/// How many files a thread takes at a time.
const BLOCK: u64 = 256;

/// Compares the files numbered from 0 to `files`; gives the tally, or the number and the
/// disagreement of the first file that has one. `progress` is told now and then how many are done.
pub fn run(
    files: u64,
    threads: usize,
    make: &(dyn Fn(u64) -> Given + Sync),
    progress: &(dyn Fn(u64) + Sync),
) -> Result<Tally, (u64, Box<Disagreement>)> {
    let (next, done, end) = (AtomicU64::new(0), AtomicU64::new(0), AtomicU64::new(files));
    let first: Mutex<Option<(u64, Box<Disagreement>)>> = Mutex::new(None);
    let work = || {
        let mut tally = Tally::default();
        loop {
            let block = next.fetch_add(BLOCK, SeqCst);
            for number in block..block + BLOCK {
                // after a disagreement only files of lower number still matter
                if number >= end.load(SeqCst) {
                    return tally;
                }
                let given = make(number);
                let all = compared(&given).and_then(|answers| {
                    let texts = texts::compared(&given, &answers)?;
                    let independence = independence::compared(&given, &answers)?;
                    let papers = papers::compared(&given, &answers)?;
                    Ok((answers, texts, independence, papers))
                });
                match all {
                    Ok((answers, texts, independence, papers)) => {
                        tally.count(&given, &answers);
                        tally.texts.add(&texts);
                        tally.independence.add(&independence);
                        tally.papers.add(&papers);
                    }
                    Err(disagreement) => {
                        end.fetch_min(number, SeqCst);
                        let mut first = first.lock().expect("no thread has failed");
                        if first.as_ref().is_none_or(|(earlier, _)| number < *earlier) {
                            *first = Some((number, disagreement));
                        }
                    }
                }
            }
            progress(done.fetch_add(BLOCK, SeqCst) + BLOCK);
        }
    };
    let mut tally = Tally::default();
    thread::scope(|scope| {
        let start = |_| thread::Builder::new().stack_size(STACK).spawn_scoped(scope, work);
        let running: Vec<_> = (0..threads).map(start).collect();
        for thread in running {
            tally.add(&thread.expect("a thread starts").join().expect("no checker panics"));
        }
    });
    match first.into_inner().expect("no thread has failed") {
        Some(found) => Err(found),
        None => Ok(tally),
    }
}
