//! How the calls that go through a whole hall grow with it: reading a plan, recovery, the write of the last block and a record, each at four
//! sizes of the hall. Recovery is also timed beside a Rust version with an index.
use super::*;

/// The nodes of the halls, each time twice as many.
const SIZES: [usize; 4] = [512, 1024, 2048, 4096];
/// Addresses whose records are asked for, in each hall.
const ASKED: usize = 64;

/// The inputs of one size: so many for the smallest hall, half as many where it is twice as large, but at least two.
fn fewer(most: usize, size: usize) -> usize {
    (most * SIZES[0] / size).max(2)
}

/// What one call takes in a hall of so many nodes, proved and called.
struct Row {
    name: String,
    size: usize,
    times: [f64; 2],
}

/// A time in microseconds, and behind it how many times that of half the nodes it is.
fn growing(time: f64, half: Option<f64>) -> String {
    let growth = half.map_or(String::new(), |half| format!(" {:.1}", time / half));
    format!("{:.2} |{growth}", time / 1000.0)
}

fn plans(random: &mut Random, size: usize) -> Row {
    let texts: Vec<Vec<u8>> = (0..fewer(PLANS / 4, size)).map(|_| plan(random, size)).collect();
    let (mut words, mut words2) = ([0; PLAN_NODES], [0; PLAN_NODES]);
    for text in &texts {
        let read = plan_read(text, &mut words);
        assert_eq!(read, Plan { nodes: size, place: 0, refusal: 0 });
        assert_eq!((simple::plan_read(text, &mut words2), words2), (read, words));
    }
    let times = times_of(
        texts.len(),
        [each!(texts, |text| plan_read(text, black_box(&mut words))), each!(texts, |text| called_plan_read(text, black_box(&mut words2)))],
    );
    Row { name: "plan".to_string(), size, times }
}

/// Recovery from full blocks. What it takes the Rust version with an index goes behind the others.
fn recoveries(halls: &[Vec<Node>], size: usize, with_index: &mut Vec<f64>) -> Row {
    let journals: Vec<Vec<u8>> = halls.iter().map(|hall| journal(hall, size - 1, BLOCK_MOST)).collect();
    let (mut words, mut words2, mut words3) = ([0; NODES], [0; NODES], [0; NODES]);
    for journal in &journals {
        let recovered = recover(journal, &mut words);
        assert_eq!(recovered, Recovered { nodes: size, refusal: 0 });
        assert_eq!((simple::journal_recover(journal, &mut words2), words2), (recovered, words));
        assert_eq!((simple::journal_recover_indexed(journal, &mut words3), words3), (recovered, words));
    }
    let [proved, called, indexed] = times_of(
        journals.len(),
        [
            each!(journals, |journal| recover(journal, black_box(&mut words))),
            each!(journals, |journal| called_recover(journal, black_box(&mut words2))),
            each!(journals, |journal| called_recover_indexed(journal, black_box(&mut words3))),
        ],
    );
    with_index.push(indexed);
    Row { name: format!("recovery, {} blocks", (size - 1).div_ceil(BLOCK_MOST)), size, times: [proved, called] }
}

/// The write of the block that makes the hall that large, behind full ones.
fn writes(halls: &[Vec<Node>], size: usize) -> Row {
    let blocks = (size - 2) / BLOCK_MOST;
    let more = size - 1 - blocks * BLOCK_MOST;
    let times = writing_times(halls, blocks * BLOCK_MOST, more, [write, called_write]);
    Row { name: format!("write, {more} addresses behind {blocks} blocks"), size, times }
}

/// Records of nodes anywhere in the hall, from the words of recovery: from so many of them.
fn records(random: &mut Random, halls: &[Vec<Node>], size: usize, name: &str, lent: usize) -> Row {
    let recovered = |hall: &Vec<Node>| {
        let mut words = vec![0; NODES];
        assert_eq!(recover(&journal(hall, size - 1, BLOCK_MOST), &mut words).nodes, size);
        words.truncate(lent);
        words
    };
    let words: Vec<Vec<u64>> = halls.iter().map(recovered).collect();
    let asked: Vec<(&[u64], u64)> =
        words.iter().flat_map(|words| [words; ASKED]).map(|words| (&words[..], words[random.below(size as u64) as usize])).collect();
    for (words, address) in &asked {
        let answer = record(words, *address);
        assert_eq!((answer.found, answer.node.address), (1, *address));
        assert_eq!(answer, simple::journal_record(words, *address));
    }
    let times = times_of(
        asked.len(),
        [each!(asked, |(words, address)| record(words, *address)), each!(asked, |(words, address)| called_record(words, *address))],
    );
    Row { name: name.to_string(), size, times }
}

/// Each call at all sizes, then recovery beside an index.
pub fn tables(random: &mut Random) {
    let halls = SIZES.map(|size| (0..fewer(JOURNALS, size)).map(|_| hall(random, size)).collect::<Vec<_>>());
    let at_each = |row: &mut dyn FnMut(&[Vec<Node>], usize) -> Row| -> Vec<Row> {
        halls.iter().zip(SIZES).map(|(halls, size)| row(halls, size)).collect()
    };
    let mut indexed = Vec::new();
    let calls = [
        at_each(&mut |_, size| plans(random, size)),
        at_each(&mut |halls, size| recoveries(halls, size, &mut indexed)),
        at_each(&mut |halls, size| writes(halls, size)),
        at_each(&mut |halls, size| records(random, halls, size, "record, 4,096 words lent", NODES)),
        at_each(&mut |halls, size| records(random, halls, size, "record, the nodes alone lent", size)),
    ];
    println!("\n| in a hall | nodes | proved, µs | growth | Rust called, µs | growth | ratio |\n|---|---|---|---|---|---|---|");
    for rows in &calls {
        let mut halves = [None, None];
        for Row { name, size, times: [proved, called] } in rows {
            let [half, called_half] = halves;
            println!("| {name} | {size} | {} | {} | {:.2} |", growing(*proved, half), growing(*called, called_half), proved / called);
            halves = [Some(*proved), Some(*called)];
        }
    }
    println!("\n| recovery, nodes | proved, µs | Rust with an index, µs | growth | ratio |\n|---|---|---|---|---|");
    let mut half = None;
    for (Row { size, times: [proved, _], .. }, indexed) in calls[1].iter().zip(indexed) {
        println!("| {size} | {:.2} | {} | {:.2} |", proved / 1000.0, growing(indexed, half), proved / indexed);
        half = Some(indexed);
    }
}
