//! A seeded generator of good shards: a plan, and its layout as records.

use crate::reader::{Hash, Kind, Summary, ALL_ONES, WITH_METADATA, WITH_VERIFICATION};

/// No generated shard is longer than this, even with a record added.
pub const LONGEST: usize = 6_000;

/// The tag used wherever a case is not about the tag: bytes 1 to 32.
pub fn usual_tag() -> Vec<u8> {
    (1..=32).collect()
}

/// A small xorshift generator (xorshift64*).
#[derive(Clone, Debug)]
pub struct Rng(u64);

impl Rng {
    /// A generator with this seed.
    pub fn new(seed: u64) -> Self {
        Rng(seed.wrapping_mul(0x9E37_79B9_7F4A_7C15) | 1)
    }

    /// The next 64 bits.
    pub fn word(&mut self) -> u64 {
        self.0 ^= self.0 >> 12;
        self.0 ^= self.0 << 25;
        self.0 ^= self.0 >> 27;
        self.0.wrapping_mul(0x2545_F491_4F6C_DD1D)
    }

    /// A number below `bound`, which is not 0.
    pub fn below(&mut self, bound: u64) -> u64 {
        (self.word() >> 11) % bound
    }

    /// A place in a list that is not empty.
    pub fn place(&mut self, length: usize) -> usize {
        self.below(length as u64) as usize
    }

    /// True once in `n` times.
    pub fn once_in(&mut self, n: u64) -> bool {
        self.below(n) == 0
    }

    /// One of these.
    pub fn pick<T: Copy>(&mut self, list: &[T]) -> T {
        list[self.place(list.len())]
    }

    /// A 32-bit number, often a special one.
    pub fn number(&mut self) -> u32 {
        let any = self.word() as u32;
        let small = any % 1000;
        self.pick(&[any, any, small, small, small, 0, 1, 1 << 31, u32::MAX])
    }

    /// A 64-bit number, often a special one.
    pub fn wide(&mut self) -> u64 {
        let any = self.word();
        self.pick(&[any, any, any >> 32, 0, 1, 1 << 31, 1 << 32, u64::MAX])
    }

    /// So many bytes.
    pub fn bytes(&mut self, count: usize) -> Vec<u8> {
        (0..count).map(|_| self.word() as u8).collect()
    }

    /// Any hash, sometimes all ones or all zeros.
    pub fn hash(&mut self) -> Hash {
        match self.below(12) {
            0 => ALL_ONES,
            1 => [0; 4],
            2 => self.head_hash(),
            _ => [self.word(), self.word(), self.word(), self.word()],
        }
    }

    /// A hash that is not all ones, though sometimes but for one bit.
    pub fn head_hash(&mut self) -> Hash {
        let mut hash = ALL_ONES;
        if self.once_in(8) {
            hash[self.place(4)] ^= 1 << self.below(64);
            return hash;
        }
        hash.map(|_| self.word() >> 1)
    }
}

/// A segment to be laid out.
#[derive(Clone, Debug)]
pub struct SegmentPlan {
    /// The xorb hash.
    pub hash: Hash,
    /// The unpacked bytes.
    pub bytes: u32,
    /// The first chunk.
    pub start: u32,
    /// The chunk after the last.
    pub end: u32,
    /// The verification hash, used if the shard has them.
    pub verification: Hash,
}

/// A file to be laid out.
#[derive(Clone, Debug)]
pub struct FilePlan {
    /// The file hash.
    pub hash: Hash,
    /// Whether there are verifications.
    pub verified: bool,
    /// The segments.
    pub segments: Vec<SegmentPlan>,
    /// The SHA-256 value, if there is a metadata record.
    pub metadata: Option<Hash>,
}

/// A xorb to be laid out.
#[derive(Clone, Debug)]
pub struct XorbPlan {
    /// The xorb hash.
    pub hash: Hash,
    /// The bytes on disk.
    pub on_disk: u32,
    /// Hash and length of each chunk; the lengths sum to less than 2^32.
    pub chunks: Vec<(Hash, u32)>,
}

/// What a footer says.
#[derive(Clone, Copy, Debug)]
pub struct FooterPlan {
    /// The key.
    pub key: Hash,
    /// The time of creation.
    pub created: u64,
    /// The time of expiry.
    pub expiry: u64,
}

/// A shard to be laid out.
#[derive(Clone, Debug, Default)]
pub struct ShardPlan {
    /// The files.
    pub files: Vec<FilePlan>,
    /// The xorbs.
    pub xorbs: Vec<XorbPlan>,
    /// The footer, if there is one.
    pub footer: Option<FooterPlan>,
}

/// How large a random plan may become.
#[derive(Clone, Copy, Debug)]
pub struct Size {
    /// At most this many files and this many xorbs.
    pub blocks: u64,
    /// At most this many entries in each.
    pub entries: u64,
}

impl Size {
    /// At most one block of at most two entries.
    pub const TINY: Size = Size {
        blocks: 1,
        entries: 2,
    };
    /// At most three blocks of at most three entries.
    pub const SMALL: Size = Size {
        blocks: 3,
        entries: 3,
    };
    /// At most seven blocks of at most nine entries.
    pub const LARGE: Size = Size {
        blocks: 7,
        entries: 9,
    };

    /// Mostly small, seldom large.
    pub fn any(rng: &mut Rng) -> Size {
        match rng.below(24) {
            0 => Size::LARGE,
            1..=8 => Size::TINY,
            _ => Size::SMALL,
        }
    }
}

impl ShardPlan {
    /// A random plan; its layout and one more record are at most [`LONGEST`].
    pub fn random(rng: &mut Rng, size: Size) -> Self {
        loop {
            let plan = Self::attempt(rng, size);
            if flatten(&plan.lay(&usual_tag())).len() + 200 <= LONGEST {
                return plan;
            }
        }
    }

    fn attempt(rng: &mut Rng, size: Size) -> Self {
        let verified = rng.once_in(2);
        let files = rng.below(size.blocks + 1);
        let xorbs = rng.below(size.blocks + 1);
        ShardPlan {
            files: (0..files)
                .map(|_| FilePlan::random(rng, size, verified))
                .collect(),
            xorbs: (0..xorbs).map(|_| XorbPlan::random(rng, size)).collect(),
            footer: rng.once_in(2).then(|| FooterPlan::random(rng)),
        }
    }

    /// What judging the laid out plan must answer.
    pub fn summary(&self) -> Summary {
        let segments = self.files.iter().flat_map(|file| &file.segments);
        let chunks = self.xorbs.iter().map(|xorb| xorb.chunks.len() as u64);
        Summary {
            length: flatten(&self.lay(&usual_tag())).len() as u64,
            files: self.files.len() as u64,
            segments: segments.clone().count() as u64,
            xorbs: self.xorbs.len() as u64,
            chunks: chunks.sum(),
            bytes: segments.map(|segment| u64::from(segment.bytes)).sum(),
            footer: self.footer.is_some(),
        }
    }

    /// The records of the plan, in order.
    pub fn lay(&self, tag: &[u8]) -> Vec<Laid> {
        let mut layout = vec![lay_header(tag, self.footer.is_some())];
        self.files.iter().for_each(|file| file.lay(&mut layout));
        layout.push(lay_bookend());
        let xorb_offset = layout.len() as u64 * 48;
        self.xorbs.iter().for_each(|xorb| xorb.lay(&mut layout));
        layout.push(lay_bookend());
        let footer_offset = layout.len() as u64 * 48;
        if let Some(footer) = &self.footer {
            layout.push(footer.lay(xorb_offset, footer_offset));
        }
        layout
    }
}

impl FilePlan {
    fn random(rng: &mut Rng, size: Size, verified: bool) -> Self {
        let count = rng.below(size.entries + 1);
        FilePlan {
            hash: rng.head_hash(),
            verified,
            segments: (0..count).map(|_| SegmentPlan::random(rng)).collect(),
            metadata: rng.once_in(2).then(|| rng.hash()),
        }
    }

    fn lay(&self, layout: &mut Vec<Laid>) {
        let verified = if self.verified { WITH_VERIFICATION } else { 0 };
        let metadata = self.metadata.map_or(0, |_| WITH_METADATA);
        let numbers = [verified | metadata, self.segments.len() as u32, 0, 0];
        layout.push(Laid::entry(Kind::FileHead, self.hash, numbers));
        for part in &self.segments {
            let numbers = [0, part.bytes, part.start, part.end];
            layout.push(Laid::entry(Kind::Segment, part.hash, numbers));
        }
        for part in self.segments.iter().filter(|_| self.verified) {
            layout.push(Laid::entry(Kind::Verification, part.verification, [0; 4]));
        }
        if let Some(hash) = self.metadata {
            layout.push(Laid::entry(Kind::Metadata, hash, [0; 4]));
        }
    }
}

impl SegmentPlan {
    fn random(rng: &mut Rng) -> Self {
        let start = rng.number().min(u32::MAX - 1);
        let room = u64::from(u32::MAX - start);
        let wide = 1 + rng.below(room) as u32;
        SegmentPlan {
            hash: rng.hash(),
            bytes: rng.number(),
            start,
            end: start + rng.pick(&[1, room as u32, wide]),
            verification: rng.hash(),
        }
    }
}

impl XorbPlan {
    fn random(rng: &mut Rng, size: Size) -> Self {
        let mut left = u32::MAX;
        let mut chunks = Vec::new();
        for _ in 0..rng.below(size.entries + 1) {
            let part = rng.below(u64::from(left) + 1) as u32;
            let length = match rng.below(8) {
                0 | 1 => 0,
                2 => left,
                3 => part,
                _ => part % 131_073,
            };
            left -= length;
            chunks.push((rng.hash(), length));
        }
        XorbPlan {
            hash: rng.head_hash(),
            on_disk: rng.number(),
            chunks,
        }
    }

    fn lay(&self, layout: &mut Vec<Laid>) {
        let total = self.chunks.iter().map(|chunk| chunk.1).sum();
        let numbers = [0, self.chunks.len() as u32, total, self.on_disk];
        layout.push(Laid::entry(Kind::XorbHead, self.hash, numbers));
        let mut start = 0;
        for &(hash, length) in &self.chunks {
            layout.push(Laid::entry(Kind::Chunk, hash, [start, length, 0, 0]));
            start += length;
        }
    }
}

impl FooterPlan {
    fn random(rng: &mut Rng) -> Self {
        FooterPlan {
            key: rng.hash(),
            created: rng.wide(),
            expiry: rng.wide(),
        }
    }

    fn lay(&self, xorb_offset: u64, footer_offset: u64) -> Laid {
        let mut bytes = Vec::with_capacity(200);
        for word in [1, 48, xorb_offset] {
            bytes.extend(word.to_le_bytes());
        }
        bytes.extend([0; 48]);
        for word in self.key.into_iter().chain([self.created, self.expiry]) {
            bytes.extend(word.to_le_bytes());
        }
        bytes.extend([0; 72]);
        bytes.extend(footer_offset.to_le_bytes());
        Laid {
            kind: Kind::Footer,
            bytes,
        }
    }
}

/// One record laid out as bytes.
#[derive(Clone, Debug)]
pub struct Laid {
    /// Its kind.
    pub kind: Kind,
    /// Its bytes.
    pub bytes: Vec<u8>,
}

impl Laid {
    /// A 48-byte record of a hash and four 32-bit numbers.
    pub fn entry(kind: Kind, hash: Hash, numbers: [u32; 4]) -> Self {
        let mut bytes = Vec::with_capacity(48);
        for word in hash {
            bytes.extend(word.to_le_bytes());
        }
        for number in numbers {
            bytes.extend(number.to_le_bytes());
        }
        Laid { kind, bytes }
    }
}

/// A header with this tag, however long, and footer size 200 or 0.
pub fn lay_header(tag: &[u8], footer: bool) -> Laid {
    let mut bytes = tag.to_vec();
    bytes.extend(2_u64.to_le_bytes());
    bytes.extend(if footer { 200_u64 } else { 0 }.to_le_bytes());
    Laid {
        kind: Kind::Header,
        bytes,
    }
}

/// A bookend.
pub fn lay_bookend() -> Laid {
    Laid::entry(Kind::Bookend, ALL_ONES, [0; 4])
}

/// The bytes of all records in a row.
pub fn flatten(layout: &[Laid]) -> Vec<u8> {
    let records: Vec<&[u8]> = layout.iter().map(|laid| &laid.bytes[..]).collect();
    records.concat()
}

/// Where record `index` starts.
pub fn start_of(layout: &[Laid], index: usize) -> u64 {
    let before = layout[..index].iter().map(|laid| laid.bytes.len() as u64);
    before.sum()
}

/// Where each part of these lengths begins, one behind the other, and the end.
pub fn edges(lengths: impl Iterator<Item = u32>) -> Vec<u64> {
    let mut edges = vec![0];
    for length in lengths {
        edges.push(edges[edges.len() - 1] + u64::from(length));
    }
    edges
}
