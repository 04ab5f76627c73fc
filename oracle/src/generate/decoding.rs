//! Sessions as a matching program makes them, for timing: of given sizes, never idle, and without a
//! call that the Rust would answer by an assertion.

use super::{Author, Style};
use crate::image::{Edge, Image, Unit, Vertex};
use crate::random::Random;
use crate::replay::Finding;
use crate::words::Word;

const LAYERS: usize = 4;
const NO_LIMIT: u32 = 2_147_483_647;

/// Flags as in the image: bit 0 layer fusion, bit 1 offloading. A round loads and solves each layer.
pub fn session(seed: u64, vertices: usize, edges: usize, flags: u8, rounds: usize) -> Vec<u8> {
    let mut random = Random::new(seed, (vertices * edges) as u64);
    let mut image = image(&mut random, vertices, edges);
    (image.fusion, image.offloading) = (flags & 1 != 0, flags & 2 != 0);
    let mut bytes = image.write();
    let mut author = Author::new(random, image, Style::Any);
    (author.assertion_chance, author.high, author.tame) = (0, false, true);
    (0..rounds).for_each(|_| author.round());
    bytes.extend(author.bytes);
    bytes
}

/// Rows of vertices, one row a layer. Every eighth vertex is of the boundary.
fn image(random: &mut Random, vertices: usize, edges: usize) -> Image {
    let row = vertices.div_ceil(LAYERS);
    let mut image = Image::default();
    for vertex in 0..vertices {
        let default_virtual = vertex % 8 == 7;
        let layer = (!default_virtual).then_some((vertex / row) as u16);
        image.vertices.push(Vertex { default_virtual, layer });
    }
    let near = [1, row, 2, row + 1, 3, row + 2].into_iter();
    let ends = near.flat_map(|far| (0..vertices.saturating_sub(far)).map(move |left| (left, left + far)));
    for (left, right) in ends.take(edges) {
        let weight = 4 * random.within(1, 6) as u32;
        let condition = image.vertices[right].layer.filter(|_| left / row < right / row).map(|_| right);
        image.units.extend(unit(&image, left, right));
        image.edges.push(Edge { left, right, weight, condition });
    }
    image
}

/// The unit of the next edge.
fn unit(image: &Image, left: usize, right: usize) -> Option<Unit> {
    let edge = image.edges.len();
    match [left, right].map(|end| image.vertices[end].default_virtual) {
        [false, false] => Some(Unit::DefectMatch { edge }),
        [true, false] => Some(Unit::VirtualMatch { edge, named: left }),
        [false, true] => Some(Unit::VirtualMatch { edge, named: right }),
        [true, true] => None,
    }
}

impl Author {
    fn round(&mut self) {
        let defects = self.image.vertices.len() / LAYERS / 8 + 1;
        self.offer(0, Word::Reset.pack());
        for layer in 0..LAYERS {
            self.offer(0, Word::LoadDefectsExternal { layer: layer as u32 }.pack());
            (0..defects).for_each(|_| self.offer_defect(layer));
            for _ in 0..6 * defects {
                self.offer_reply(layer);
            }
            self.offer(3, 0);
        }
    }

    fn offer_defect(&mut self, layer: usize) {
        let vertices = self.image.vertices.iter().enumerate();
        let here: Vec<usize> =
            vertices.filter(|(_, v)| v.layer == Some(layer as u16)).map(|(index, _)| index).collect();
        let vertex = self.random.pick(&here) as u32;
        self.offer(0, Word::AddDefectVertex { vertex, node: vertex }.pack());
    }

    fn offer_reply(&mut self, layer: usize) {
        match self.last {
            Finding::Conflict { nodes, .. } => {
                let word = self.resolve(nodes);
                self.offer(0, word);
            }
            Finding::Length(0) => {
                let word = self.turn_shrinking();
                self.offer(0, word);
            }
            Finding::NoLimit => self.offer_defect(layer),
            Finding::Length(_) => {
                self.offer(1, NO_LIMIT);
            }
        }
    }
}
