//! Whole shops whose panels hear the same things at different times and whose
//! clocks are put back at times.

use mizzencord_compare::drawing::random::Random;
use mizzencord_compare::drawing::shop::Shop;

use crate::build::*;

fn run(seed: u64, panels: u8, requests: usize) {
    let mut random = Random::new(seed);
    let mut shop = Shop::new(seed + 1, panels);
    let mut made = 0;
    while made < requests {
        let panel = random.below(panels as usize);
        match random.below(9) {
            0 | 1 => {
                let (r, q) = (random.below(4) as u8, random.below(4) as u8);
                let operation = if r == q { set(r, random.below(9) as u32) } else { shift(r, q, 2) };
                let strong = random.percent(40);
                made += shop.make(panel, operation, strong) as usize;
            }
            2 => shop.order_settlement(),
            3 => shop.run_due(panel),
            4 => shop.put_back(random.below(3) as u32),
            _ => drop(shop.deliver(panel)),
        }
    }
    for panel in 0..panels as usize {
        let delivered = (0..10_000).take_while(|_| shop.deliver(panel).is_some()).count();
        assert!(delivered < 10_000, "a settlement waits for ever");
        shop.run_due(panel);
    }
    let first = &shop.panels()[0];
    assert_eq!(first.accepted_requests(), requests);
    assert!((0..panels).all(|maker| readings(first, maker).is_sorted()));
    for panel in shop.panels() {
        assert_eq!(order(panel), order(first));
        assert_eq!(panel.committed().len(), first.committed().len());
        assert_eq!(panel.registers(), first.registers());
    }
}

#[test]
fn panels_that_heard_the_same_agree() {
    for seed in 0..40 {
        run(seed * 2, 2 + (seed % 7) as u8, 30);
    }
}
