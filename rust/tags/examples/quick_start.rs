//! One thread takes a tag, uses its slot, and gives the tag back.
use std::error::Error;
use tags::{Options, Pool};

fn main() -> Result<(), Box<dyn Error>> {
    let pool = Pool::open(&Options {
        reserved: 2,
        ..Options::new(16, 2)
    })?;
    let hand = pool.join()?;
    if let Some(tag) = hand.get()? {
        tag.write(70);
        println!("tag {} has {}", tag.number(), tag.read());
    } // here the tag goes back
    drop(hand);
    let totals = pool.close()?;
    println!("got {}, back {}", totals.got, totals.back);
    Ok(())
}
