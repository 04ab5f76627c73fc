//! `words`: the Rust packers' words for fields that fit, a line each.
//! `words --too-large`: their words for the smallest fields that do not fit.

use micro_blossom_nostd::instruction::Instruction32;
use micro_blossom_nostd::util::{CompactGrowState, CompactNodeIndex};
use oracle::words::{Speed, Word};

const FIELDS: [u32; 7] = [0, 1, 2, 5, 100, 32_766, 32_767];
const LENGTHS: [u32; 5] = [0, 1, 2, 67_108_862, 67_108_863];

fn index(number: u32) -> CompactNodeIndex {
    CompactNodeIndex::new(number).unwrap()
}

/// The line's name and fields, and the Rust's word.
fn packed(word: Word) -> (String, u32) {
    let speeds = [CompactGrowState::Stay, CompactGrowState::Grow, CompactGrowState::Shrink];
    let (line, packed) = match word {
        Word::SetSpeed { node, speed } => {
            (format!("SetSpeed {node} {}", speed as u8), Instruction32::set_speed(index(node), speeds[speed as usize]))
        }
        Word::SetBlossom { node, blossom } => {
            (format!("SetBlossom {node} {blossom}"), Instruction32::set_blossom(index(node), index(blossom)))
        }
        Word::AddDefectVertex { vertex, node } => {
            (format!("AddDefectVertex {vertex} {node}"), Instruction32::add_defect_vertex(index(vertex), index(node)))
        }
        Word::FindObstacle => ("FindObstacle".to_string(), Instruction32::find_obstacle()),
        Word::Reset => ("Reset".to_string(), Instruction32::reset()),
        Word::LoadDefectsExternal { layer } => {
            (format!("LoadDefectsExternal {layer}"), Instruction32::load_syndrome_external(index(layer)))
        }
        Word::Grow { length } => (format!("Grow {}", length as i32), Instruction32::grow(length as i32)),
    };
    (line, packed.into())
}

fn fitting() -> Vec<Word> {
    let mut words = vec![Word::FindObstacle, Word::Reset];
    for a in FIELDS {
        words.extend(Speed::ALL.map(|speed| Word::SetSpeed { node: a, speed }));
        words.extend(FIELDS.map(|b| Word::SetBlossom { node: a, blossom: b }));
        words.extend(FIELDS.map(|b| Word::AddDefectVertex { vertex: a, node: b }));
        words.push(Word::LoadDefectsExternal { layer: a });
    }
    words.extend(LENGTHS.map(|length| Word::Grow { length }));
    words
}

fn too_large() -> [Word; 8] {
    [
        Word::SetSpeed { node: 32_768, speed: Speed::Stay },
        Word::SetBlossom { node: 32_768, blossom: 0 },
        Word::SetBlossom { node: 0, blossom: 32_768 },
        Word::AddDefectVertex { vertex: 32_768, node: 0 },
        Word::AddDefectVertex { vertex: 0, node: 32_768 },
        Word::LoadDefectsExternal { layer: 32_768 },
        Word::Grow { length: 67_108_864 },
        Word::Grow { length: -1i32 as u32 },
    ]
}

fn main() {
    if std::env::args().any(|given| given == "--too-large") {
        for word in too_large() {
            let (line, value) = packed(word);
            println!("{line} {value}, which reads as {:?}", Word::read(value));
        }
        return;
    }
    for word in fitting() {
        let (line, value) = packed(word);
        assert_eq!((word.pack(), Word::read(value)), (value, Some(word)), "{line}");
        println!("{line} {value}");
    }
}
