//! Tests two panels side by side with this crate's own panels alone, where the
//! proved library is not at hand: `own_shops [SEED [SHOPS]]`. All shops are
//! tested; the first difference is shrunk, and the shops are counted by what
//! found one.

use std::collections::BTreeMap;
use std::{env, process};

use mizzencord_compare::drawing::random::Random;
use mizzencord_compare::interface::board::Handwritten;
use mizzencord_compare::shop_test::{Difference, ShopTest};

const SEED: u64 = 1;
const SHOPS: usize = 20_000;

fn main() {
    let arguments: Result<Vec<u64>, _> = env::args().skip(1).map(|word| word.parse()).collect();
    let Some(arguments) = arguments.ok().filter(|numbers| numbers.len() <= 2) else {
        eprintln!("own_shops [SEED [SHOPS]]");
        process::exit(2);
    };
    let mut random = Random::new(arguments.first().copied().unwrap_or(SEED));
    let shops = arguments.get(1).map_or(SHOPS, |shops| *shops as usize);
    let mut test = ShopTest::new(&Handwritten, None);
    let mut found: BTreeMap<String, usize> = BTreeMap::new();
    let mut first: Option<Difference> = None;
    for _ in 0..shops {
        for difference in test.test(random.word()) {
            difference.checks().into_iter().for_each(|check| *found.entry(check).or_default() += 1);
            first.get_or_insert(difference);
        }
    }
    println!("{}", test.counts);
    let Some(first) = first else { return println!("no difference") };
    println!("DIFFERENCE\n{}", first.told("own panels alone", &Handwritten));
    let found: Vec<String> = found.iter().map(|(check, shops)| format!("{check} {shops}")).collect();
    println!("shops by what found a difference: {}", found.join(", "));
    process::exit(1);
}
