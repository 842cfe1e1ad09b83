//! Part figures: every one, and the refusals.

use super::Maker;
use crate::station::op;

pub fn make(maker: &mut Maker, cases: u64) {
    for part in 0..=12 {
        for figure in 0..=8 {
            maker.send(&[op::FIGURE, part, figure]);
        }
    }
    for _ in 0..cases {
        let part = maker.random.long();
        let figure = maker.random.long();
        maker.send(&[op::FIGURE, part, figure]);
    }
}
