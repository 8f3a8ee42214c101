//! `pairs WAY HELD ROUNDS` gets a tag, writes the value beside it and gives the tag back, so many times, while it holds so
//! many of 1,024 tags. WAY is hand, hand-cache, shared or shared-cache; a cache keeps up to 8 tags. It prints nothing: it is
//! for counting instructions and time.
use std::error::Error;
use std::hint::black_box;
use tags::{Options, Pool};

const TAGS: u32 = 1024;

fn main() -> Result<(), Box<dyn Error>> {
    let words: Vec<String> = std::env::args().skip(1).collect();
    let [way, held, rounds] = words.as_slice() else {
        return Err("usage: pairs WAY HELD ROUNDS".into());
    };
    let (held, rounds): (usize, u64) = (held.parse()?, rounds.parse()?);
    let cache = if way.ends_with("-cache") { 8 } else { 0 };
    let options = Options {
        cache,
        ..Options::new(TAGS, 1)
    };
    let pool = Pool::open_with(&options, |_| 0_u64)?;
    let hand = pool.join()?;
    if way.starts_with("shared") {
        let hand = hand.into_shared();
        let _held: Vec<_> = (0..held).filter_map(|_| hand.get().ok().flatten()).collect();
        for _ in 0..rounds {
            let mut tag = hand.get()?.ok_or("no tag is free")?;
            *tag.value_mut() = black_box(tag.number()).into();
        }
    } else {
        let _held: Vec<_> = (0..held).filter_map(|_| hand.get().ok().flatten()).collect();
        for _ in 0..rounds {
            let mut tag = hand.get()?.ok_or("no tag is free")?;
            *tag.value_mut() = black_box(tag.number()).into();
        }
    }
    Ok(())
}
