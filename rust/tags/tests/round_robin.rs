//! Gets under round robin by one hand alone, beside a free tag before their start.
use std::time::Duration;
use tags::{Hand, Options, Pool, Shift, Tag};

/// Two reserved tags and three ordinary ones, both in words of two.
fn open() -> Pool {
    let options = Options {
        reserved: 2,
        round_robin: true,
        shift: Shift::Of(1),
        ..Options::new(5, 1)
    };
    Pool::open(&options).unwrap()
}

/// Holds all ordinary tags but the first, behind which the next get starts.
fn all_but_first(hand: &Hand) -> [Tag<'_>; 2] {
    let [first, second, third] = [(); 3].map(|()| hand.get().unwrap().unwrap());
    drop(first);
    let again = hand.get().unwrap().unwrap();
    assert_eq!(again.number(), 2);
    drop(again);
    [second, third]
}

/// Makes a get beside the free tag, which has to find that.
fn finds(get: impl FnOnce(&Hand) -> Option<u32>) {
    let pool = open();
    let hand = pool.join().unwrap();
    let held = all_but_first(&hand);
    assert_eq!(get(&hand), Some(2));
    drop(held);
    drop(hand);
    pool.close().unwrap();
}

#[test]
fn each_form_of_a_get_finds_a_tag_before_its_start() {
    finds(|hand| hand.get().unwrap().map(|tag| tag.number()));
    finds(|hand| hand.get_many(1).unwrap().map(|tags| tags[0].number()));
    finds(|hand| Some(hand.get_timeout(Duration::ZERO).unwrap()?.number()));
}

#[test]
fn gets_of_reserved_tags_do_too() {
    let pool = open();
    let hand = pool.join().unwrap();
    let [first, second] = [(); 2].map(|()| hand.get_reserved().unwrap().unwrap());
    drop(first);
    let again = hand.get_reserved().unwrap().unwrap();
    assert_eq!(again.number(), 0);
    drop(again);
    assert_eq!(hand.get_reserved().unwrap().map(|tag| tag.number()), Some(0));
    drop(second);
    drop(hand);
    pool.close().unwrap();
}

#[test]
fn nothing_is_found_where_nothing_is_free() {
    let pool = open();
    let hand = pool.join().unwrap();
    let held = [(); 3].map(|()| hand.get().unwrap().unwrap());
    assert!(hand.get().unwrap().is_none());
    assert!(hand.get_many(1).unwrap().is_none());
    drop(held);
}

/// Random numbers, the same in each run.
struct Numbers(u64);

impl Numbers {
    /// Returns a number below this one.
    fn below(&mut self, bound: usize) -> usize {
        self.0 ^= self.0 << 13;
        self.0 ^= self.0 >> 7;
        self.0 ^= self.0 << 17;
        (self.0 % bound as u64) as usize
    }
}

#[test]
fn random_gets_find_each_free_tag() {
    let mut numbers = Numbers(88_172_645_463_325_252);
    for (total, shift) in (1..10).flat_map(|total| (0..4).map(move |shift| (total, shift))) {
        let options = Options {
            round_robin: true,
            shift: Shift::Of(shift),
            ..Options::new(total, 1)
        };
        let pool = Pool::open(&options).unwrap();
        let hand = pool.join().unwrap();
        let mut held: Vec<Tag> = Vec::new();
        for _ in 0..500 {
            let free = total as usize - held.len();
            match numbers.below(3) {
                0 => {
                    let won = hand.get().unwrap();
                    assert_eq!(won.is_some(), free > 0);
                    held.extend(won);
                }
                1 => {
                    let count = 1 + numbers.below(total as usize);
                    let won = hand.get_many(count as u32).unwrap();
                    assert_eq!(won.is_some(), count <= free);
                    held.extend(won.into_iter().flatten());
                }
                _ if held.is_empty() => {}
                _ => drop(held.swap_remove(numbers.below(held.len()))),
            }
        }
    }
}
