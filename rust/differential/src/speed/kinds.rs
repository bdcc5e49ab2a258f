//! Seeded legal blocks of each kind.

use super::rival::Profile;
use model::blocks::{self, Configuration, Legal};
use model::random::Random;
use model::{Layout, HDR_MODES};

/// A kind of blocks. The class of an endpoint mode is a fourth of it, and decides how many numbers a pair of endpoints has. Each
/// class has LDR modes and HDR ones, which are kinds of their own.
#[derive(Clone, Copy, PartialEq, Eq)]
pub enum Kind {
    /// LDR blocks of so many partitions, of one plane.
    Parts(usize),
    /// LDR blocks of two planes.
    Dual,
    /// Blocks whose partitions are all HDR.
    Hdr,
    /// Void blocks of 16-bit numbers.
    Void,
    /// Void blocks of halves.
    HdrVoid,
    /// LDR blocks of one partition and plane whose endpoint mode is of this class.
    LdrClass(usize),
    /// HDR blocks of one partition and plane whose endpoint mode is of this class.
    HdrClass(usize),
    /// Of eight blocks about five are LDR ones of one partition and plane, two are spread over all legal configurations (so mostly
    /// of several partitions, some of two planes and some HDR), and one is void.
    Mixed,
}

impl Kind {
    pub const ALL: [Kind; 17] = [
        Kind::Parts(1),
        Kind::Parts(2),
        Kind::Parts(3),
        Kind::Parts(4),
        Kind::Dual,
        Kind::Hdr,
        Kind::Void,
        Kind::HdrVoid,
        Kind::LdrClass(0),
        Kind::LdrClass(1),
        Kind::LdrClass(2),
        Kind::LdrClass(3),
        Kind::HdrClass(0),
        Kind::HdrClass(1),
        Kind::HdrClass(2),
        Kind::HdrClass(3),
        Kind::Mixed,
    ];

    /// A word for a table.
    pub fn name(self) -> &'static str {
        match self {
            Kind::Parts(n) => ["one", "two", "three", "four"][n - 1],
            Kind::Dual => "dual",
            Kind::Hdr => "hdr",
            Kind::Void => "void",
            Kind::HdrVoid => "hvoid",
            Kind::LdrClass(class) => ["l0", "l1", "l2", "l3"][class],
            Kind::HdrClass(class) => ["h0", "h1", "h2", "h3"][class],
            Kind::Mixed => "mixed",
        }
    }

    /// How astcenc reads the blocks.
    pub fn profile(self) -> Profile {
        match self {
            Kind::Parts(_) | Kind::Dual | Kind::Void | Kind::LdrClass(_) => Profile::Ldr,
            Kind::Hdr | Kind::HdrVoid | Kind::HdrClass(_) | Kind::Mixed => Profile::Hdr,
        }
    }

    /// Whether blocks of a configuration can be of this kind.
    fn has(self, layout: &Layout) -> bool {
        let plain = layout.parts == 1 && !layout.mode.dual;
        match self {
            Kind::Parts(n) => layout.parts == n && !layout.mode.dual,
            Kind::Dual => layout.mode.dual,
            Kind::Hdr => true,
            Kind::LdrClass(class) | Kind::HdrClass(class) => plain && layout.classes[0] == class,
            Kind::Mixed => plain,
            Kind::Void | Kind::HdrVoid => false,
        }
    }
}

/// A void block as encoders write it: without extents.
fn void(hdr: bool, random: &mut Random) -> [u8; 16] {
    let mut block = blocks::void(random);
    block[1] = if hdr { 0xff } else { 0xfd };
    block[2..8].fill(0xff);
    block
}

/// The source of the blocks of a kind at a footprint.
pub struct Source<'a> {
    kind: Kind,
    legal: &'a Legal,
    configurations: Vec<Configuration>,
}

impl<'a> Source<'a> {
    pub fn new(kind: Kind, legal: &'a Legal) -> Self {
        let configurations = legal
            .configurations()
            .filter(|c| kind.has(&c.layout()))
            .collect();
        Source {
            kind,
            legal,
            configurations,
        }
    }

    /// A block whose partitions all are HDR, or all are not. The bits that decide it are free in every configuration, and each
    /// class has both.
    fn of_range(&self, hdr: bool, random: &mut Random) -> [u8; 16] {
        let configuration = self.configurations[random.below(self.configurations.len())];
        loop {
            let block = configuration.fill(random);
            let modes = Layout::of(&block).modes(&block);
            if modes.iter().all(|mode| HDR_MODES.contains(mode) == hdr) {
                return block;
            }
        }
    }

    fn mixed(&self, random: &mut Random) -> [u8; 16] {
        match random.below(8) {
            0..=4 => self.of_range(false, random),
            5 | 6 => self.legal.pick(random).fill(random),
            _ => void(random.below(2) == 0, random),
        }
    }

    pub fn block(&self, random: &mut Random) -> [u8; 16] {
        match self.kind {
            Kind::Parts(_) | Kind::Dual | Kind::LdrClass(_) => self.of_range(false, random),
            Kind::Hdr | Kind::HdrClass(_) => self.of_range(true, random),
            Kind::Void => void(false, random),
            Kind::HdrVoid => void(true, random),
            Kind::Mixed => self.mixed(random),
        }
    }

    /// So many blocks, one after another.
    pub fn data(&self, blocks: usize) -> Vec<u8> {
        let random = &mut Random::new(1);
        (0..blocks).flat_map(|_| self.block(random)).collect()
    }
}

#[cfg(test)]
mod tests {
    use super::*;
    use model::answer;

    /// What a block of one kind is, by the rules alone: its answer, partitions and planes, whether it is HDR, and the class of its
    /// first mode.
    fn seen(block: &[u8; 16], bw: usize, bh: usize) -> (u8, usize, bool, bool, usize) {
        let answer = answer(block, bw, bh);
        if answer != 0 {
            return (answer, 0, false, block[1] & 2 != 0, 0);
        }
        let layout = Layout::of(block);
        let modes = layout.modes(block);
        let hdr = HDR_MODES.contains(&modes[0]);
        assert!(modes.iter().all(|mode| HDR_MODES.contains(mode) == hdr));
        (0, layout.parts, layout.mode.dual, hdr, modes[0] / 4)
    }

    #[test]
    fn blocks_are_of_their_kind() {
        for (bw, bh) in [(4, 4), (8, 5), (12, 12)] {
            let legal = Legal::at(bw, bh);
            for kind in Kind::ALL {
                let random = &mut Random::new(5);
                let source = Source::new(kind, &legal);
                for _ in 0..if kind == Kind::Mixed { 0 } else { 300 } {
                    let block = source.block(random);
                    let found = seen(&block, bw, bh);
                    let (answer, parts, dual, hdr, class) = found;
                    let expected = match kind {
                        Kind::Parts(n) => (0, n, false, false, class),
                        Kind::Dual => (0, parts, true, false, class),
                        Kind::Hdr => (0, parts, dual, true, class),
                        Kind::Void => (1, 0, false, false, 0),
                        Kind::HdrVoid => (1, 0, false, true, 0),
                        Kind::LdrClass(n) => (0, 1, false, false, n),
                        Kind::HdrClass(n) => (0, 1, false, true, n),
                        Kind::Mixed => (answer, parts, dual, hdr, class),
                    };
                    assert_eq!(found, expected, "{} at {bw}x{bh}", kind.name());
                }
            }
        }
    }
}
