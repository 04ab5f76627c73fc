//! `sample SEED COUNT FOLDER`: of COUNT small and COUNT other sessions a few hundred that together
//! catch every mutant and reach every refusal, with the Rust's answers.

use oracle::batch::join;
use oracle::faults::{Fault, FAULTS};
use oracle::generate::{session, Style};
use oracle::image::Image;
use oracle::judge::{cut_at_assertion, kills, listing, model_answer, rust_answer};
use oracle::replay::RECORD;
use oracle::rust::silence_assertions;
use std::fs;
use std::path::Path;

const SMALL: usize = 40;
const ALL: usize = 300;
const MOST_BYTES: usize = 450;
/// Besides, so many of the largest, each cut to so many records.
const LARGE: usize = 2;
const LARGE_RECORDS: usize = 12;
const REFUSALS: usize = 19;

struct Candidate {
    session: Vec<u8>,
    /// Numbers of mutants, then of refusals, then of unit kinds.
    shows: Vec<usize>,
    theorem: bool,
}

fn candidate(session: &[u8], small: bool) -> Candidate {
    let session = cut_at_assertion(session, &rust_answer(session).0);
    let (answer, tally) = model_answer(&session, Fault::None);
    let refusals: Vec<usize> = listing(&answer).iter().filter_map(|line| refusal(line)).collect();
    let mut shows = kills(&session);
    shows.extend(refusals.iter().map(|number| FAULTS.len() + number));
    shows.extend((0..3).filter(|&kind| tally.held[kind] > 0).map(|kind| FAULTS.len() + REFUSALS + kind));
    shows.sort();
    shows.dedup();
    let theorem = small && tally.instructions <= 60 && is_plain(&session);
    Candidate { session, shows, theorem }
}

fn refusal(line: &str) -> Option<usize> {
    let rest = line.strip_prefix("r ").or(line.strip_prefix("bad "))?;
    rest.split(' ').next()?.parse().ok()
}

/// Fusion or units on, and 10 to 30 calls.
fn is_plain(session: &[u8]) -> bool {
    Image::read(session).is_ok_and(|(image, records)| {
        let calls = records.len() / RECORD;
        (image.fusion || image.offloading) && !image.edges.is_empty() && (10..=30).contains(&calls)
    })
}

/// Adds to `chosen`, greedily, what shows most that was not yet shown; then not yet twice, and so on.
fn choose(candidates: &[Candidate], chosen: &mut Vec<usize>, count: usize, fits: impl Fn(&Candidate) -> bool) {
    let mut shown = vec![0; FAULTS.len() + REFUSALS + 4];
    chosen.iter().flat_map(|&at| &candidates[at].shows).for_each(|&thing| shown[thing] += 1);
    let mut times = 1;
    while chosen.len() < count {
        let wanted = |thing: usize| shown[thing] < times.min(most_times(thing));
        let worth = |at: usize| candidates[at].shows.iter().filter(|&&thing| wanted(thing)).count();
        let free = (0..candidates.len()).filter(|&at| fits(&candidates[at]) && !chosen.contains(&at));
        // of equals the shortest
        let best = free.max_by_key(|&at| (worth(at), usize::MAX - candidates[at].session.len()));
        let Some(best) = best else { break };
        if worth(best) == 0 {
            times += 1;
            continue;
        }
        candidates[best].shows.iter().for_each(|&thing| shown[thing] += 1);
        chosen.push(best);
    }
}

/// A refused image shows nothing else, so a few of each are enough.
fn most_times(thing: usize) -> usize {
    let is_image_refusal = (FAULTS.len() + 1..=FAULTS.len() + 11).contains(&thing);
    if is_image_refusal {
        4
    } else {
        usize::MAX
    }
}

fn json(session: &[u8]) -> String {
    let hex: String = session.iter().map(|byte| format!("{byte:02X}")).collect();
    let (answer, _) = rust_answer(session);
    let quoted = |lines: &[&str]| lines.iter().map(|line| format!("\"{line}\"")).collect::<Vec<_>>().join(", ");
    let lines: Vec<&str> = answer.lines().collect();
    let end = lines.iter().rposition(|line| !line.starts_with("v ")).unwrap() + 1;
    let (listing, registers) = (quoted(&listing(&answer)), quoted(&lines[end..]));
    format!("{{\"hex\": \"{hex}\",\n \"listing\": [{listing}],\n \"registers_end\": [{registers}]}}")
}

fn write(folder: &Path, sessions: &[Vec<u8>], small: usize) {
    let answers: Vec<String> = sessions.iter().map(|session| rust_answer(session).0).collect();
    let listings: Vec<String> =
        answers.iter().map(|answer| listing(answer).iter().map(|line| format!("{line}\n")).collect()).collect();
    let objects: Vec<String> = sessions[..small].iter().map(|session| json(session)).collect();
    fs::create_dir_all(folder).unwrap();
    fs::write(folder.join("sessions.bin"), join(sessions)).unwrap();
    fs::write(folder.join("listing.txt"), listings.join("=\n")).unwrap();
    fs::write(folder.join("registers.txt"), answers.join("=\n")).unwrap();
    fs::write(folder.join("small.json"), format!("[{}]\n", objects.join(",\n"))).unwrap();
}

fn main() {
    let arguments: Vec<String> = std::env::args().skip(1).collect();
    let [seed, count, folder] = &arguments[..] else { panic!("sample SEED COUNT FOLDER") };
    let (seed, count): (u64, u64) = (seed.parse().unwrap(), count.parse().unwrap());
    silence_assertions();
    let mut candidates: Vec<Candidate> =
        (0..count).map(|index| candidate(&session(seed, index, Style::Small), true)).collect();
    let others: Vec<Vec<u8>> = (0..count).map(|index| session(seed, index, Style::Any)).collect();
    candidates.extend(others.iter().filter(|other| other.len() <= MOST_BYTES).map(|other| candidate(other, false)));
    candidates.extend(others.iter().filter_map(|other| large(other)).take(LARGE).map(|other| candidate(&other, false)));
    let mut chosen = vec![];
    choose(&candidates, &mut chosen, SMALL, |candidate| candidate.theorem);
    chosen.extend(candidates.len() - LARGE..candidates.len());
    choose(&candidates, &mut chosen, ALL, |_| true);
    let sessions: Vec<Vec<u8>> = chosen.iter().map(|&at| candidates[at].session.clone()).collect();
    write(Path::new(folder), &sessions, SMALL);
    report(&candidates, &chosen);
}

fn large(session: &[u8]) -> Option<Vec<u8>> {
    let (image, records) = Image::read(session).ok()?;
    let kept = records.len().min(RECORD * LARGE_RECORDS);
    let largest = image.vertices.len() == 256 && image.edges.len() == 1024 && image.fusion && image.offloading;
    largest.then(|| session[..session.len() - records.len() + kept].to_vec())
}

fn report(candidates: &[Candidate], chosen: &[usize]) {
    for (name, part) in [("small.json", &chosen[..SMALL]), ("sessions.bin", chosen)] {
        let times = |thing: usize| part.iter().filter(|&&at| candidates[at].shows.contains(&thing)).count();
        let missed: Vec<usize> = (1..=FAULTS.len()).filter(|&number| times(number) == 0).collect();
        let refusals: Vec<String> =
            (1..REFUSALS).map(|number| format!("{number}: {}", times(FAULTS.len() + number))).collect();
        let bytes: usize = part.iter().map(|&at| candidates[at].session.len()).sum();
        println!("{name}: {} sessions, {bytes} bytes, mutants not caught: {missed:?}", part.len());
        println!("sessions with refusals: {}", refusals.join(", "));
    }
}
