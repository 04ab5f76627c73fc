//! The instruction words: reading and packing.

#[derive(Clone, Copy, Debug, PartialEq, Eq)]
pub enum Speed {
    Stay,
    Grow,
    Shrink,
}

#[derive(Clone, Copy, Debug, PartialEq, Eq)]
pub enum Word {
    SetSpeed { node: u32, speed: Speed },
    SetBlossom { node: u32, blossom: u32 },
    AddDefectVertex { vertex: u32, node: u32 },
    FindObstacle,
    Reset,
    LoadDefectsExternal { layer: u32 },
    Grow { length: u32 },
}

impl Speed {
    pub const ALL: [Self; 3] = [Self::Stay, Self::Grow, Self::Shrink];

    pub fn value(self) -> i64 {
        match self {
            Self::Stay => 0,
            Self::Grow => 1,
            Self::Shrink => -1,
        }
    }
}

impl Word {
    /// None for a word that is not carried, refusal 12.
    pub fn read(word: u32) -> Option<Self> {
        let a = word >> 17;
        let b = word >> 2 & 0x7FFF;
        let speed = Speed::ALL.get((word >> 15 & 3) as usize);
        match (word & 3, word >> 2 & 1, word >> 3 & 7) {
            (0, 0, _) => speed.map(|&speed| Self::SetSpeed { node: a, speed }),
            (1, _, _) => Some(Self::SetBlossom { node: a, blossom: b }),
            (2, _, _) => Some(Self::AddDefectVertex { vertex: a, node: b }),
            (0, 1, 0) => Some(Self::FindObstacle),
            (0, 1, 4) => Some(Self::Reset),
            (0, 1, 5) => Some(Self::LoadDefectsExternal { layer: a }),
            (0, 1, 6) => Some(Self::Grow { length: word >> 6 }),
            _ => None,
        }
    }

    /// The word for fields that fit.
    pub fn pack(self) -> u32 {
        match self {
            Self::SetSpeed { node, speed } => node << 17 | (speed as u32) << 15,
            Self::SetBlossom { node, blossom } => node << 17 | blossom << 2 | 1,
            Self::AddDefectVertex { vertex, node } => vertex << 17 | node << 2 | 2,
            Self::FindObstacle => 0b000_100,
            Self::Reset => 0b100_100,
            Self::LoadDefectsExternal { layer } => layer << 17 | 0b101_100,
            Self::Grow { length } => length << 6 | 0b110_100,
        }
    }
}
