//! Document 01 as plain code, simple and slow, with one of the wrong readings switched on if
//! asked. Every stage reads the registers before the instruction, unless it is given later ones.

use crate::faults::Fault;
use crate::image::{Image, Unit};
use crate::replay::{Decoder, Finding, Node, Registers, Search, MOST_GROWN, UNKNOWN};
use crate::words::{Speed, Word};

const NO_MAXIMUM: i64 = 2_147_483_647;

#[derive(Clone)]
pub struct Model {
    image: Image,
    units: Vec<Holder>,
    edges_at: Vec<Vec<usize>>,
    fault: Fault,
    /// More growth steps than this in one search are answered as unknown.
    patience: u64,
    registers: Vec<Registers>,
    maximum: i64,
    pairs: Vec<usize>,
    pub tally: Tally,
}

/// What the instructions so far did, searches included.
#[derive(Clone, Default)]
pub struct Tally {
    pub instructions: u64,
    /// DefectMatch, VirtualMatch, FusionMatch.
    pub held: [u64; 3],
}

/// An offloading unit: its kind, edge and named or conditioned vertex.
#[derive(Clone, Copy)]
enum Holder {
    Defect { edge: usize },
    Virtual { edge: usize, named: usize },
    Fusion { edge: usize, condition: usize },
}

struct Stalls {
    vertices: Vec<bool>,
    edges: Vec<bool>,
    held: [u64; 3],
}

impl Stalls {
    fn pairs(&self) -> Vec<usize> {
        (0..self.edges.len()).filter(|&edge| self.edges[edge]).collect()
    }
}

struct Shadow {
    speed: Speed,
    node: Node,
    root: Node,
    is_virtual: bool,
}

type Peer = Option<(Node, Node)>;

impl Model {
    pub fn open(image: &Image, fault: Fault, patience: u64) -> Self {
        let mut image = image.clone();
        if !image.fusion {
            image.vertices.iter_mut().for_each(|vertex| vertex.layer = None);
            image.edges.iter_mut().for_each(|edge| edge.condition = None);
        }
        let edges_at = (0..image.vertices.len())
            .map(|vertex| (0..image.edges.len()).filter(|&edge| image.edges[edge].has_end(vertex)).collect())
            .collect();
        let mut model = Self {
            units: vec![],
            edges_at,
            fault,
            patience,
            registers: vec![],
            maximum: NO_MAXIMUM,
            pairs: vec![],
            tally: Tally::default(),
            image,
        };
        model.units = model.all_units();
        model.registers = model.fresh();
        model
    }

    fn is(&self, fault: Fault) -> bool {
        self.fault == fault
    }

    fn all_units(&self) -> Vec<Holder> {
        if !self.image.offloading && !self.is(Fault::UnitsWithoutFlag) {
            return vec![];
        }
        let mut units: Vec<Holder> = self
            .image
            .units
            .iter()
            .map(|unit| match *unit {
                Unit::DefectMatch { edge } => Holder::Defect { edge },
                Unit::VirtualMatch { edge, named } => Holder::Virtual { edge, named },
            })
            .collect();
        if self.is(Fault::FusionMatchNeedsUnits) && units.is_empty() {
            return units;
        }
        for (edge, record) in self.image.edges.iter().enumerate() {
            if let Some(condition) = record.condition {
                units.push(Holder::Fusion { edge, condition });
            }
        }
        units
    }

    fn fresh(&self) -> Vec<Registers> {
        self.image
            .vertices
            .iter()
            .map(|vertex| {
                let waiting = vertex.layer.is_some() && !self.is(Fault::WaitingStartsPlain);
                let is_virtual = vertex.default_virtual || waiting;
                let node = if is_virtual { Node::Virtual } else { Node::None };
                Registers { speed: Speed::Stay, grown: 0, is_virtual, defect: false, node, root: node }
            })
            .collect()
    }

    // Stage 1: fetch weight and tightness.

    fn is_reduced(&self, edge: usize, on: &[Registers]) -> bool {
        self.image.edges[edge].condition.is_some_and(|vertex| {
            if self.is(Fault::ReducedByDefault) {
                return self.image.vertices[vertex].default_virtual;
            }
            on[vertex].is_virtual
        })
    }

    fn fetch_weight(&self, edge: usize, on: &[Registers]) -> i64 {
        let weight = i64::from(self.image.edges[edge].weight);
        match (self.is_reduced(edge, on), self.fault) {
            (false, _) => weight,
            (true, Fault::ReducedIsHalf) => weight / 2,
            (true, _) => weight / 4 * 2,
        }
    }

    fn grown_on(&self, edge: usize, on: &[Registers]) -> i64 {
        let edge = &self.image.edges[edge];
        on[edge.left].grown + on[edge.right].grown
    }

    fn is_tight(&self, edge: usize, on: &[Registers]) -> bool {
        let (grown, weight) = (self.grown_on(edge, on), self.fetch_weight(edge, on));
        grown == weight || grown > weight && !self.is(Fault::TightIsExact)
    }

    fn is_counted_tight(&self, edge: usize, on: &[Registers]) -> bool {
        self.is_tight(edge, on) && (!self.is_reduced(edge, on) || self.is(Fault::TightCountsReduced))
    }

    fn tight_count(&self, vertex: usize, on: &[Registers]) -> usize {
        self.edges_at[vertex].iter().filter(|&&edge| self.is_counted_tight(edge, on)).count()
    }

    // Stage 2: the units.

    fn stalls(&self, on: &[Registers]) -> Stalls {
        let mut stalls =
            Stalls { vertices: vec![false; on.len()], edges: vec![false; self.image.edges.len()], held: [0; 3] };
        for unit in &self.units {
            let (kind, edge, stalled) = match *unit {
                Holder::Defect { edge } => (0, edge, self.defect_match(edge, on)),
                Holder::Virtual { edge, named } => (1, edge, self.virtual_match(edge, named, on)),
                Holder::Fusion { edge, condition } => (2, edge, self.fusion_match(edge, condition, on)),
            };
            let Some(stalled) = stalled else { continue };
            stalled.into_iter().for_each(|vertex| stalls.vertices[vertex] = true);
            stalls.edges[edge] = true;
            stalls.held[kind] += 1;
        }
        stalls
    }

    /// The vertices that the unit stalls, if it holds.
    fn defect_match(&self, edge: usize, on: &[Registers]) -> Option<Vec<usize>> {
        let ends = [self.image.edges[edge].left, self.image.edges[edge].right];
        let fits = |side: usize| {
            let end = ends[side];
            let right = side == 1;
            (on[end].defect || right && self.is(Fault::DefectMatchAnyEnd))
                && (on[end].speed == Speed::Grow || self.is(Fault::DefectMatchAnySpeed))
                && (self.tight_count(end, on) == 1
                    || self.is(Fault::DefectMatchAnyCount)
                    || right && self.is(Fault::DefectMatchOneCount))
        };
        (self.is_tight(edge, on) && fits(0) && fits(1)).then(|| ends.to_vec())
    }

    fn virtual_match(&self, edge: usize, named: usize, on: &[Registers]) -> Option<Vec<usize>> {
        let end = self.image.edges[edge].far_end(named);
        let far = |other: usize| self.image.edges[other].far_end(end);
        let is_other = |other: usize| {
            if self.is(Fault::ParallelIsSame) {
                far(other) != named
            } else {
                other != edge
            }
        };
        let others: Vec<usize> = self.edges_at[end].iter().copied().filter(|&other| is_other(other)).collect();
        let fits = |other: usize| {
            !self.tight_other(other, on)
                || (!on[far(other)].defect || self.is(Fault::VirtualMatchAnyFarEnd))
                    && (self.tight_count(far(other), on) == 1 || self.is(Fault::VirtualMatchAnyFarCount))
        };
        let holds = self.is_tight(edge, on)
            && (on[named].is_virtual || self.is(Fault::VirtualMatchNotVirtual))
            && on[end].defect
            && (on[end].speed == Speed::Grow || self.is(Fault::VirtualMatchAnySpeed))
            && others.iter().all(|&other| fits(other));
        holds.then(|| self.virtual_stalls(end, named, &others, on))
    }

    fn tight_other(&self, other: usize, on: &[Registers]) -> bool {
        if self.is(Fault::VirtualMatchCountedTight) {
            return self.is_counted_tight(other, on);
        }
        self.is_tight(other, on)
    }

    fn virtual_stalls(&self, end: usize, named: usize, others: &[usize], on: &[Registers]) -> Vec<usize> {
        let mut stalled = vec![end];
        for &other in others {
            let tight = self.tight_other(other, on) && !self.is(Fault::VirtualMatchForgetsFarEnds);
            if tight || self.is(Fault::VirtualMatchStallsAllFarEnds) {
                stalled.push(self.image.edges[other].far_end(end));
            }
        }
        if self.is(Fault::VirtualMatchStallsNamed) {
            stalled.push(named);
        }
        stalled
    }

    fn fusion_match(&self, edge: usize, condition: usize, on: &[Registers]) -> Option<Vec<usize>> {
        let end = self.image.edges[edge].far_end(condition);
        let count = self.tight_count(end, on);
        let counted = match self.fault {
            Fault::FusionMatchAnyCount => true,
            Fault::FusionMatchCountOne => count == 1,
            _ => count == 0,
        };
        let holds = self.is_tight(edge, on)
            && on[condition].is_virtual
            && on[end].defect
            && on[end].speed == Speed::Grow
            && counted;
        let stalled = if self.is(Fault::FusionMatchStallsBoth) { vec![end, condition] } else { vec![end] };
        holds.then_some(stalled)
    }

    // Stage 3: execute.

    fn execute(&self, word: Word, stalls: &Stalls) -> Result<Vec<Registers>, u8> {
        let mut new = self.registers.clone();
        let mut refusals = vec![];
        for (index, vertex) in new.iter_mut().enumerate() {
            match word {
                Word::SetSpeed { node, speed } => self.set_speed(vertex, Node::Number(node), speed),
                Word::SetBlossom { node, blossom } => {
                    self.set_blossom(vertex, Node::Number(node), Node::Number(blossom))
                }
                Word::AddDefectVertex { vertex: given, node } => {
                    if self.is_meant(given as usize, index) {
                        self.add_defect(vertex, Node::Number(node));
                    }
                }
                Word::LoadDefectsExternal { layer } => self.load(vertex, index, layer),
                Word::Grow { length } => {
                    refusals.extend(self.grow(vertex, index, i64::from(length), stalls.vertices[index]));
                }
                Word::FindObstacle | Word::Reset => {}
            }
        }
        let refusal = if self.is(Fault::LowBeforeHigh) { refusals.iter().min() } else { refusals.first() };
        refusal.map_or(Ok(new), |&number| Err(number))
    }

    fn set_speed(&self, vertex: &mut Registers, node: Node, speed: Speed) {
        let held = if self.is(Fault::SetSpeedByRoot) { vertex.root } else { vertex.node };
        if held == node {
            vertex.speed = speed;
        }
    }

    fn set_blossom(&self, vertex: &mut Registers, node: Node, blossom: Node) {
        if vertex.node == node || vertex.root == node && !self.is(Fault::SetBlossomByNode) {
            vertex.node = blossom;
            if !self.is(Fault::SetBlossomKeepsSpeed) {
                vertex.speed = Speed::Grow;
            }
            if self.is(Fault::SetBlossomTouchesRoot) {
                vertex.root = blossom;
            }
        }
    }

    fn is_meant(&self, given: usize, index: usize) -> bool {
        given == index || self.is(Fault::DefectWraps) && given % self.registers.len() == index
    }

    fn add_defect(&self, vertex: &mut Registers, node: Node) {
        if !(vertex.defect && self.is(Fault::DefectKeepsRoot)) {
            vertex.root = node;
        }
        vertex.node = node;
        vertex.defect = true;
        vertex.speed = Speed::Grow;
        if self.is(Fault::DefectEndsVirtual) {
            vertex.is_virtual = false;
        }
    }

    fn load(&self, vertex: &mut Registers, index: usize, layer: u32) {
        let record = &self.image.vertices[index];
        let kept = record.default_virtual && self.is(Fault::LoadKeepsDefaultVirtual);
        let its = |held: u16| u32::from(held) == layer || u32::from(held) < layer && self.is(Fault::LoadAnyLayer);
        if record.layer.is_some_and(its) && !kept {
            vertex.is_virtual = false;
            if self.is(Fault::LoadClearsDefect) {
                vertex.defect = false;
            }
        }
    }

    /// The vertex grown, or its refusal, 14 or 15.
    fn grow(&self, vertex: &mut Registers, index: usize, length: i64, stalled: bool) -> Option<u8> {
        let layer = self.image.vertices[index].layer.is_some();
        let waits = match self.fault {
            Fault::WaitingGrows => false,
            Fault::VirtualNeverGrows => vertex.is_virtual,
            _ => vertex.is_virtual && layer,
        };
        let moves = !waits && (!stalled || self.is(Fault::StalledGrows));
        if !moves && !self.is(Fault::UnmovedRefused) {
            return None;
        }
        let grown = vertex.grown + vertex.speed.value() * length;
        if moves {
            vertex.grown = grown;
        }
        let most = if self.is(Fault::MostGrownRefused) { MOST_GROWN - 1 } else { MOST_GROWN };
        match grown {
            grown if grown < 0 => Some(14),
            grown if grown > most => Some(15),
            _ => None,
        }
    }

    // Stages 4 and 5: peer and update.

    fn fetch_weight_late(&self, edge: usize, new: &[Registers]) -> i64 {
        self.fetch_weight(edge, if self.is(Fault::FullWeightAtLoad) { new } else { &self.registers })
    }

    fn peer(&self, vertex: usize, new: &[Registers]) -> Peer {
        if new[vertex].grown != 0 {
            return None;
        }
        let serves = |edge: usize| {
            let far = self.image.edges[edge].far_end(vertex);
            let grown = self.grown_on(edge, if self.is(Fault::PeerTightBefore) { &self.registers } else { new });
            let speed = if self.is(Fault::PeerSpeedBefore) { self.registers[far].speed } else { new[far].speed };
            let is_virtual = match self.fault {
                Fault::PeerMayBeVirtual => false,
                Fault::PeerVirtualBefore => self.registers[far].is_virtual,
                _ => new[far].is_virtual,
            };
            let tight = grown >= self.fetch_weight_late(edge, new);
            (tight && !is_virtual && speed == Speed::Grow).then_some((new[far].node, new[far].root))
        };
        let mut peers = self.edges_at[vertex].iter().filter_map(|&edge| serves(edge));
        if self.is(Fault::LastPeer) {
            return peers.next_back();
        }
        peers.next()
    }

    fn update(&self, executed: &[Registers]) -> (Vec<Registers>, Vec<Peer>) {
        let mut updated = executed.to_vec();
        let mut peers = vec![];
        for index in 0..executed.len() {
            let peer = self.peer(index, if self.is(Fault::CrossesTwoEdges) { &updated } else { executed });
            let vertex = &mut updated[index];
            let follows = (!vertex.defect || self.is(Fault::UpdateTakesDefects))
                && (!vertex.is_virtual || self.is(Fault::UpdateTakesVirtual))
                && vertex.grown == 0;
            if follows && (peer.is_some() || !self.is(Fault::UpdateKeepsNode)) {
                (vertex.node, vertex.root) = peer.unwrap_or((Node::None, Node::None));
                vertex.speed = if peer.is_some() { Speed::Grow } else { Speed::Stay };
            }
            peers.push(peer);
        }
        (updated, peers)
    }

    // Stage 6: shadow.

    fn shadow(&self, index: usize, vertex: &Registers, peer: Peer, stalled: bool) -> Shadow {
        let mut shadow =
            Shadow { speed: vertex.speed, node: vertex.node, root: vertex.root, is_virtual: vertex.is_virtual };
        let shrunk = vertex.speed == Speed::Shrink && vertex.grown == 0;
        match peer {
            Some((node, root)) if shrunk && !self.is(Fault::ShrinkTakesNoPeer) => {
                (shadow.node, shadow.root) = (node, root);
                shadow.speed = if self.is(Fault::ShrinkPeerStays) { Speed::Stay } else { Speed::Grow };
            }
            None if shrunk && self.is(Fault::ShrinkAtZeroShowsNone) => {
                (shadow.node, shadow.root, shadow.speed) = (Node::None, Node::None, Speed::Stay);
            }
            _ => {}
        }
        if vertex.is_virtual && self.image.vertices[index].layer.is_some() {
            if !self.is(Fault::WaitingShowsNode) {
                (shadow.node, shadow.root) = (Node::None, Node::None);
            }
            if !self.is(Fault::WaitingShowsSpeed) {
                shadow.speed = Speed::Stay;
            }
        }
        if stalled && !self.is(Fault::StalledShowsSpeed) {
            shadow.speed = Speed::Stay;
        }
        if stalled && self.is(Fault::StalledShowsNone) {
            shadow.node = Node::None;
        }
        shadow
    }

    // Stage 7: reports.

    fn vertex_report(&self, index: usize, vertex: &Registers, shadow: &Shadow, stalled: bool) -> Finding {
        let silent = stalled && self.is(Fault::StalledReportsNothing)
            || shadow.speed != Speed::Shrink && self.is(Fault::ShadowReports);
        if vertex.speed != Speed::Shrink || silent {
            return Finding::NoLimit;
        }
        let grown = if self.is(Fault::ShrinkReportsBefore) { self.registers[index].grown } else { vertex.grown };
        Finding::Length(grown)
    }

    fn is_available(&self, shadow: &Shadow) -> bool {
        let absent = shadow.node == Node::None || self.is(Fault::AvailableNotNone);
        absent && (!shadow.is_virtual || self.is(Fault::AvailableAnyVirtual))
    }

    fn edge_report(&self, index: usize, new: &[Registers], shadows: &[Shadow]) -> Result<Finding, u8> {
        let edge = &self.image.edges[index];
        let sides = [&shadows[edge.left], &shadows[edge.right]];
        let joint = sides[0].speed.value() + sides[1].speed.value();
        let grown = self.grown_on(index, if self.is(Fault::RemainingBefore) { &self.registers } else { new });
        let remaining = self.fetch_weight_late(index, new) - grown;
        let equal = match self.fault {
            Fault::EqualRoots => sides[0].root == sides[1].root,
            _ => sides[0].node == sides[1].node,
        };
        let odd = joint == 2 && remaining % 2 != 0 && (remaining > 0 || !self.is(Fault::OddAboveZero));
        if equal && odd && self.is(Fault::OddIgnoresNodes) {
            return Err(16);
        }
        if equal || joint <= 0 {
            return Ok(Finding::NoLimit);
        }
        let touching = remaining == 0 || remaining < 0 && self.is(Fault::ConflictBelowZero);
        if touching && !sides.iter().any(|side| self.is_available(side)) {
            return Ok(self.conflict([edge.left, edge.right], sides));
        }
        if odd && !self.is(Fault::OddRoundsDown) {
            return Err(16);
        }
        Ok(Finding::Length(remaining.div_euclid(joint)))
    }

    fn conflict(&self, vertices: [usize; 2], sides: [&Shadow; 2]) -> Finding {
        let nodes = sides.map(|side| side.node);
        let touches = if self.is(Fault::TouchIsNode) { nodes } else { sides.map(|side| side.root) };
        Finding::Conflict { nodes, touches, vertices }
    }

    // Stage 8: the finding.

    fn reduce(&self, lengths: Vec<Finding>, edges: Vec<Result<Finding, u8>>) -> Result<Finding, u8> {
        let is_conflict = |report: &Finding| matches!(report, Finding::Conflict { .. });
        let any_conflict = edges.iter().any(|report| report.as_ref().is_ok_and(is_conflict));
        let mut reports = lengths;
        for report in edges {
            match report {
                Ok(report) => reports.push(report),
                Err(_) if any_conflict && self.is(Fault::ConflictHidesOdd) => {}
                Err(number) => return Err(number),
            }
        }
        let length = reports
            .iter()
            .filter_map(|report| match report {
                Finding::Length(length) => Some(*length),
                _ => None,
            })
            .min();
        let mut conflicts = reports.into_iter().filter(is_conflict);
        let conflict = if self.is(Fault::LastConflict) { conflicts.next_back() } else { conflicts.next() };
        let short = length.is_some_and(|length| length < 0) && self.is(Fault::LengthBelowZeroFirst);
        match conflict {
            Some(conflict) if !short => Ok(conflict),
            _ => Ok(length.map_or(Finding::NoLimit, Finding::Length)),
        }
    }

    /// One instruction; registers and pairs are written only if it completes.
    fn step(&mut self, word: Word) -> Result<Finding, u8> {
        let stalls = self.stalls(&self.registers);
        let pairs = stalls.pairs();
        let answer = self.stages(word, stalls);
        if answer.is_ok() || self.is(Fault::RefusedListsPairs) {
            self.pairs = if self.is(Fault::PairsAfter) { self.stalls(&self.registers).pairs() } else { pairs };
        }
        answer
    }

    fn stages(&mut self, word: Word, stalls: Stalls) -> Result<Finding, u8> {
        let executed = self.execute(word, &stalls)?;
        let (updated, peers) = self.update(&executed);
        let late = self.is(Fault::StallsAfterExecute).then(|| self.stalls(&executed));
        let stalled = &late.as_ref().unwrap_or(&stalls).vertices;
        let shadows: Vec<Shadow> =
            (0..updated.len()).map(|index| self.shadow(index, &updated[index], peers[index], stalled[index])).collect();
        let lengths = (0..updated.len())
            .map(|index| self.vertex_report(index, &updated[index], &shadows[index], stalled[index]))
            .collect();
        let edges = (0..self.image.edges.len()).map(|index| self.edge_report(index, &updated, &shadows)).collect();
        let finding = self.reduce(lengths, edges)?;
        self.registers = updated;
        self.tally.instructions += 1;
        (0..3).for_each(|kind| self.tally.held[kind] += stalls.held[kind]);
        Ok(finding)
    }

    // Search.

    fn swapped(&self, finding: Finding) -> Finding {
        match finding {
            Finding::Conflict { nodes: [first, second], touches: [t1, t2], vertices: [v1, v2] }
                if !matches!(first, Node::Number(_)) =>
            {
                let touches = if self.is(Fault::SwapForgetsTouches) { [t1, t2] } else { [t2, t1] };
                Finding::Conflict { nodes: [second, first], touches, vertices: [v2, v1] }
            }
            finding => finding,
        }
    }

    /// The length to grow by, or what ends the search.
    fn next_length(&self, finding: Finding) -> Result<i64, Result<Finding, u8>> {
        let length = match finding {
            Finding::Conflict { .. } if self.is(Fault::NoSwap) => return Err(Ok(finding)),
            Finding::Conflict { .. } => return Err(Ok(self.swapped(finding))),
            Finding::NoLimit if self.is(Fault::ClampBeforeNoLimit) => NO_MAXIMUM,
            Finding::NoLimit => return Err(Ok(finding)),
            Finding::Length(length) => length,
        };
        let excused = self.is(Fault::NegativeClamped) || self.maximum == 0 && self.is(Fault::NegativeNeedsMaximum);
        if length < 0 && !excused {
            return Err(Err(17));
        }
        match length.clamp(0, self.maximum) {
            0 => Err(Ok(Finding::Length(0))),
            length => Ok(length),
        }
    }

    fn walk(&mut self, growth: &mut i64, steps: &mut u64) -> Result<Finding, u8> {
        while *steps <= self.patience {
            let finding = self.step(Word::FindObstacle)?;
            let length = match self.next_length(finding) {
                Ok(length) => length,
                Err(answer) => {
                    let zero = answer == Ok(Finding::Length(0)) && self.is(Fault::ZeroGrows);
                    *steps += u64::from(zero);
                    return answer;
                }
            };
            let grown = self.step(Word::Grow { length: length as u32 });
            if grown.is_ok() && !self.is(Fault::MaximumStays) || self.is(Fault::RefusedLowers) {
                self.maximum -= length;
            }
            *steps += u64::from(grown.is_ok() || self.is(Fault::RefusedCounts));
            grown?;
            *growth += length;
        }
        Err(UNKNOWN)
    }
}

impl Decoder for Model {
    fn instruction(&mut self, word: Word) -> Result<Finding, u8> {
        let finding = self.step(word)?;
        Ok(if self.is(Fault::InstructionSwaps) { self.swapped(finding) } else { finding })
    }

    fn reset(&mut self) {
        self.registers = self.fresh();
        if !self.is(Fault::ResetKeepsPairs) {
            self.pairs.clear();
        }
        if self.is(Fault::ResetMaximum) {
            self.maximum = NO_MAXIMUM;
        }
    }

    fn search(&mut self, maximum: Option<i32>) -> Result<Search, u8> {
        let old = self.maximum;
        if maximum.is_some_and(|maximum| maximum < 0) {
            self.maximum = if self.is(Fault::NegativeMaximumTaken) { 0 } else { old };
            return Err(13);
        }
        self.maximum = maximum.map_or(old, i64::from);
        let (mut growth, mut steps) = (0, 0);
        let before = self.registers.clone();
        let answer = self.walk(&mut growth, &mut steps);
        if answer.is_err() && self.is(Fault::RefusedKeepsMaximum) {
            self.maximum = old;
        }
        if answer.is_err() && self.is(Fault::RefusedUndone) {
            self.registers = before;
        }
        Ok(Search { answer, growth, steps, left: self.maximum })
    }

    fn pairs(&self) -> Vec<usize> {
        self.pairs.clone()
    }

    fn registers(&self) -> Vec<Registers> {
        self.registers.clone()
    }
}
