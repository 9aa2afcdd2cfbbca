//! Digests of a run, as `data/answers/digests.txt` has them.

use crate::calls::{Block, Calls};
use crate::rule::Run;

/// Calls between two digests.
pub const STEP: u64 = 100_000;

/// FNV-1a of 64 bits.
pub struct Digest(u64);

impl Default for Digest {
    fn default() -> Digest {
        Digest(0xcbf2_9ce4_8422_2325)
    }
}

impl Digest {
    pub fn feed(&mut self, number: u64) {
        for byte in number.to_le_bytes() {
            self.0 = (self.0 ^ byte as u64).wrapping_mul(0x100_0000_01b3);
        }
    }

    pub fn value(&self) -> u64 {
        self.0
    }
}

/// The digest of a heap's blocks.
pub fn of_state(blocks: &[Block]) -> u64 {
    let mut digest = Digest::default();
    for block in blocks {
        digest.feed(block.offset as u64);
        digest.feed(block.size as u64);
        digest.feed(block.used as u64);
    }
    digest.value()
}

/// Makes calls until there were so many, and tells the digest of their answers after every 100,000 and after the last.
pub fn follow<C: Calls>(
    run: &mut Run<C>,
    calls: u64,
    mut tell: impl FnMut(&Run<C>, u64) -> Result<(), String>,
) -> Result<(), String> {
    let mut digest = Digest::default();
    while run.made() < calls {
        let made = run.step()?;
        digest.feed(made.answer);
        digest.feed(made.usable);
        if run.made() % STEP == 0 || run.made() == calls {
            tell(run, digest.value())?;
        }
    }
    Ok(())
}

/// A line of digests: calls made, the digest of the answers; and with the state, its digest and the live payloads.
pub fn line<C: Calls>(run: &Run<C>, digest: u64, state: bool) -> Result<String, String> {
    let answers = format!("{} {digest:016x}", run.made());
    if !state {
        return Ok(answers);
    }
    let state = of_state(&run.heap().blocks()?);
    Ok(format!("{answers} {state:016x} {}", run.live()))
}
