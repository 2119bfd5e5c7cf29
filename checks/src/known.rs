//! A shard whose verdict is known beforehand: laid out under the usual tag,
//! and then perhaps damaged.

use crate::cases::spoil_somehow;
use crate::generate::{flatten, start_of, usual_tag, Rng, ShardPlan};
use crate::reader::{Refusal, Verdict};

/// The shard, and what is known of it.
#[derive(Clone, Debug)]
pub struct Known {
    /// The tag.
    pub tag: Vec<u8>,
    /// The shard.
    pub shard: Vec<u8>,
    /// What the shard is the layout of, but for damage.
    pub laid: ShardPlan,
    /// The refusal that the damage or the tag brings.
    pub refusal: Option<Refusal>,
}

impl Known {
    /// The layout of this plan.
    pub fn new(laid: ShardPlan) -> Self {
        let tag = usual_tag();
        let shard = flatten(&laid.lay(&tag));
        let refusal = None;
        Known {
            tag,
            shard,
            laid,
            refusal,
        }
    }

    /// Damages the shard or the tag.
    pub fn damage(&mut self, rng: &mut Rng) {
        let mut layout = self.laid.lay(&self.tag);
        let length = self.shard.len() as u64;
        self.refusal = Some(match rng.below(6) {
            0 => {
                self.tag.pop();
                Refusal::new(2, 0)
            }
            1 => {
                self.shard.push(0);
                Refusal::new(14, length)
            }
            2 => {
                self.shard.pop();
                Refusal::new(1, start_of(&layout, layout.len() - 1))
            }
            _ => {
                let place = rng.place(layout.len());
                let refusal = spoil_somehow(rng, &mut layout, place);
                self.shard = flatten(&layout);
                refusal
            }
        });
    }

    /// What judging it must answer.
    pub fn verdict(&self) -> Verdict {
        self.refusal.map_or_else(|| Ok(self.laid.summary()), Err)
    }
}
