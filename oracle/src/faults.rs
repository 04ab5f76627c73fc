//! One-line wrong readings of document 01, to see whether sessions tell them apart.

macro_rules! faults {
    ($($name:ident $reading:literal,)*) => {
        #[derive(Clone, Copy, Debug, PartialEq, Eq)]
        pub enum Fault { None, $($name,)* }

        /// Every wrong reading; a mutant's number is its place here, from 1.
        pub const FAULTS: &[(Fault, &str)] = &[$((Fault::$name, $reading),)*];
    };
}

faults! {
    // stage 1
    TightCountsReduced "the tight count counts reduced edges",
    ReducedIsHalf "a reduced weight is weight / 2",
    ReducedByDefault "a reduced weight looks at the default virtual flag",
    TightIsExact "tight means equal to the weight",
    // stage 2
    DefectMatchAnyCount "DefectMatch without the tight counts",
    DefectMatchOneCount "DefectMatch tests the left end's tight count only",
    DefectMatchAnySpeed "DefectMatch without the speeds",
    DefectMatchAnyEnd "DefectMatch with a right end that is no defect",
    VirtualMatchForgetsFarEnds "VirtualMatch stalls its end only",
    VirtualMatchStallsAllFarEnds "VirtualMatch stalls the far ends of untight edges too",
    VirtualMatchStallsNamed "VirtualMatch stalls the virtual end too",
    VirtualMatchNotVirtual "VirtualMatch without a virtual named end",
    VirtualMatchAnyFarEnd "VirtualMatch takes a defect at a tight other edge",
    VirtualMatchAnyFarCount "VirtualMatch without the far ends' tight counts",
    VirtualMatchCountedTight "VirtualMatch looks at other edges that are counted tight",
    VirtualMatchAnySpeed "VirtualMatch without the speed",
    ParallelIsSame "a parallel edge is no other edge",
    FusionMatchAnyCount "FusionMatch without the tight count",
    FusionMatchCountOne "FusionMatch with tight count 1",
    FusionMatchStallsBoth "FusionMatch stalls both ends",
    FusionMatchNeedsUnits "without unit records there is no FusionMatch",
    UnitsWithoutFlag "units without their flag",
    // stage 3
    SetSpeedByRoot "SetSpeed looks at the root",
    SetBlossomByNode "SetBlossom looks at the node only",
    SetBlossomTouchesRoot "SetBlossom sets the root too",
    SetBlossomKeepsSpeed "SetBlossom leaves the speed",
    StalledGrows "a stalled vertex grows",
    WaitingGrows "a virtual vertex with a layer grows",
    VirtualNeverGrows "a virtual vertex without a layer does not grow",
    DefectEndsVirtual "AddDefectVertex ends virtual",
    DefectKeepsRoot "AddDefectVertex leaves the root of a defect",
    DefectWraps "an unknown vertex is taken modulo V",
    LoadAnyLayer "a load takes every layer up to its own",
    LoadKeepsDefaultVirtual "a load leaves default-virtual vertices virtual",
    LoadClearsDefect "a load ends defects of its layer",
    // 14 and 15
    LowBeforeHigh "14 before 15 whatever the vertex",
    MostGrownRefused "15 at 67,108,863",
    UnmovedRefused "14 and 15 look at stalled vertices too",
    // stage 4
    LastPeer "the last peer instead of the first",
    PeerTightBefore "a peer's edge is tight on old grown amounts",
    PeerSpeedBefore "a peer has Grow before stage 3",
    PeerMayBeVirtual "a peer may be virtual",
    PeerVirtualBefore "a peer is not virtual before stage 3",
    FullWeightAtLoad "the full weight in the cycle that loads its layer",
    // stage 5
    CrossesTwoEdges "propagation crosses two edges in one cycle",
    UpdateTakesDefects "stage 5 takes defects too",
    UpdateTakesVirtual "stage 5 takes virtual vertices too",
    UpdateKeepsNode "without a peer the node stays",
    // stage 6
    ShrinkTakesNoPeer "Shrink at grown 0 shows no peer",
    ShrinkAtZeroShowsNone "Shrink at grown 0 without a peer shows none",
    ShrinkPeerStays "Shrink at grown 0 with a peer shows Stay",
    WaitingShowsNode "a virtual vertex with a layer shows its node",
    WaitingShowsSpeed "a virtual vertex with a layer shows its speed",
    StalledShowsSpeed "a stalled vertex shows its speed",
    StalledShowsNone "a stalled vertex shows no node",
    StallsAfterExecute "stage 6 judges stalls after stage 3",
    // stage 7
    ShrinkReportsBefore "Shrink reports the old grown amount",
    StalledReportsNothing "a stalled vertex at Shrink reports nothing",
    ShadowReports "a vertex whose shadow is not Shrink reports nothing",
    EqualRoots "an edge with equal shadow roots reports no limit",
    RemainingBefore "remaining on old grown amounts",
    AvailableAnyVirtual "available looks at the node only",
    AvailableNotNone "available looks at virtual only",
    ConflictBelowZero "a negative remaining is a Conflict",
    TouchIsNode "a touch is the node",
    // stage 8 and 16
    LastConflict "the last Conflict instead of the first",
    LengthBelowZeroFirst "a negative length before a Conflict",
    ConflictHidesOdd "16 is not given when a Conflict exists",
    OddAboveZero "16 for positive remainders only",
    OddRoundsDown "an odd remainder is rounded down",
    OddIgnoresNodes "16 on edges with equal shadow nodes too",
    InstructionSwaps "an instruction's own finding is swapped",
    // state
    WaitingStartsPlain "a vertex with a layer starts by its default",
    ResetMaximum "reset resets the maximum",
    ResetKeepsPairs "reset keeps the pair list",
    RefusedListsPairs "a refused instruction changes the pair list",
    PairsAfter "pairs are judged on registers after the instruction",
    // search
    NoSwap "a search does not swap",
    SwapForgetsTouches "a swap leaves the touches",
    ClampBeforeNoLimit "clamping before no limit",
    MaximumStays "growth does not lower the maximum",
    ZeroGrows "at length 0 one more growth step",
    NegativeClamped "a negative length stops as 0",
    NegativeNeedsMaximum "17 not given where the maximum is 0",
    NegativeMaximumTaken "a refused negative maximum is taken as 0",
    RefusedKeepsMaximum "a refused search keeps the old maximum",
    RefusedUndone "a refused search takes back its steps",
    RefusedCounts "a refused Grow counts as a step of its search",
    RefusedLowers "a refused Grow lowers the maximum",
}

impl Fault {
    /// The mutant of that number; 0 is the right reading.
    pub fn numbered(number: usize) -> Option<Self> {
        match number {
            0 => Some(Self::None),
            _ => FAULTS.get(number - 1).map(|&(fault, _)| fault),
        }
    }
}
