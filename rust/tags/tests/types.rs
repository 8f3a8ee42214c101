//! What may go to other threads, be used by several, and be used after a panic. The opposite is tested by examples of
//! the documentation that do not compile.
use std::cell::Cell;
use std::fmt::Debug;
use std::panic::{RefUnwindSafe, UnwindSafe};
use tags::{Batch, CloseError, Error, GetAsync, GetAsyncOwned, Hand, Kind, NextAsync, Numbers, Options, OwnedTag};
use tags::{Pool, SharedHand, SharedHands, Sizes, Sleeper, SubmitError, Tag, Totals};

fn goes<T: Send>() {}
fn is_shared<T: Send + Sync>() {}
fn outlives_panics<T: UnwindSafe + RefUnwindSafe>() {}
fn is_plain<T: Copy + Debug + Send + Sync + Unpin + UnwindSafe + RefUnwindSafe>() {}
fn is_debug<T: Debug>() {}
fn is_unpin<T: Unpin>() {}

#[test]
fn what_goes_to_other_threads() {
    goes::<Hand>();
    goes::<Hand<Cell<u8>>>();
    is_shared::<Pool>();
    is_shared::<Pool<Cell<u8>>>();
    is_shared::<SharedHand>();
    is_shared::<SharedHand<Cell<u8>>>();
    is_shared::<SharedHands>();
    is_shared::<SharedHands<Cell<u8>>>();
    is_shared::<OwnedTag>();
    is_shared::<GetAsyncOwned>();
    goes::<OwnedTag<Cell<u8>>>();
    goes::<GetAsyncOwned<Cell<u8>>>();
    is_shared::<Error>();
    is_shared::<CloseError>();
    is_shared::<&dyn Sleeper>();
}

#[test]
fn what_outlives_a_panic() {
    outlives_panics::<Pool>();
    outlives_panics::<Pool<Vec<u8>>>();
    outlives_panics::<Hand>();
    outlives_panics::<SharedHand>();
    outlives_panics::<SharedHands>();
    outlives_panics::<Tag<'static>>();
    outlives_panics::<Batch<'static>>();
    outlives_panics::<OwnedTag>();
    outlives_panics::<GetAsync<'static>>();
    outlives_panics::<GetAsyncOwned>();
    outlives_panics::<NextAsync<'static>>();
    outlives_panics::<CloseError>();
    outlives_panics::<SubmitError<'static>>();
}

#[test]
fn what_is_plain() {
    is_plain::<Error>();
    is_plain::<Kind>();
    is_plain::<Numbers>();
    is_plain::<Options>();
    is_plain::<Sizes>();
    is_plain::<Totals>();
}

#[test]
fn what_can_be_shown_and_moved() {
    is_debug::<Pool<Cell<u8>>>();
    is_debug::<Hand<Cell<u8>>>();
    is_debug::<SharedHand<Cell<u8>>>();
    is_debug::<Tag<'static, Cell<u8>>>();
    is_debug::<OwnedTag<Cell<u8>>>();
    is_debug::<Batch<'static, Cell<u8>>>();
    is_debug::<GetAsync<'static, Cell<u8>>>();
    is_debug::<GetAsyncOwned<Cell<u8>>>();
    is_debug::<NextAsync<'static, Cell<u8>>>();
    is_debug::<SubmitError<'static, Cell<u8>>>();
    is_unpin::<GetAsync<'static>>();
    is_unpin::<GetAsyncOwned>();
    is_unpin::<NextAsync<'static>>();
}

/// A refused submit and a refused close, by `?`.
fn fail_at<E>(closes: bool) -> Result<(), E>
where
    E: From<Error> + for<'a> From<SubmitError<'a>> + From<CloseError>,
{
    let pool = Pool::open(&Options::new(1, 1))?;
    let hand = pool.join()?;
    if closes {
        pool.close()?;
    }
    hand.get_blocking()?.submit(0)?;
    Ok(())
}

#[test]
fn each_refusal_converts() {
    type Boxed = Box<dyn std::error::Error>;
    type Sent = Box<dyn std::error::Error + Send + Sync>;
    for (closes, error) in [(false, Error::NoSuchQueue), (true, Error::HandsOut)] {
        assert_eq!(fail_at::<Error>(closes), Err(error));
        assert_eq!(fail_at::<Boxed>(closes).unwrap_err().to_string(), error.to_string());
        assert_eq!(fail_at::<Sent>(closes).unwrap_err().to_string(), error.to_string());
    }
}

#[test]
fn a_pool_is_used_after_a_panic() {
    let pool = Pool::open(&Options::new(2, 1)).unwrap();
    let panicked = std::panic::catch_unwind(|| {
        let hand = pool.join().unwrap();
        let _tag = hand.get_blocking().unwrap();
        panic!("while it holds a tag");
    });
    assert!(panicked.is_err());
    let hand = pool.join().unwrap();
    assert_eq!(hand.busy(&mut [0]), Ok(0));
    drop(hand);
    assert_eq!(pool.close().unwrap().back, 1);
}
