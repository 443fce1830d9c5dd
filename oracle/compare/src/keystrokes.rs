//! A keystroke in a text of a megabyte: re-reading beside whole reading of the same new text by ours, in one run.
//!
//! A letter is typed inside a name, so that the number of records stays: each re-reading leaves the row as the next one
//! needs it, and all turns do the same work. The rows hold a reading's records, and zeros behind them. Into a row that
//! fits, both measure before they write; a long row has room for any text of the length, and they write at once.
use crate::{
    bench::{nanoseconds, ROUNDS},
    ours,
};
use oracle::{answer, ANSWER, END, KIND, START, STRIDE};

/// False if a re-reading does not leave what the whole reading leaves.
pub fn time(text: &str) -> bool {
    println!("bench: {:<24} {:>10} {:>10} {:>8}", "keystroke", "whole", "re-read", "ratio");
    let records = answer(text.as_bytes(), 0, 0).records;
    let mut fine = true;
    for percent in [10, 50, 90] {
        let near = (text.len() * percent / 100) as u32;
        let name = records.iter().find(|&&[kind, start, end, ..]| kind == 3 && start >= near && end - start > 1);
        let at = name.expect("a name of two letters")[START] as usize + 1;
        let new = [&text[..at], "x", &text[at..]].concat();
        let cut = records.iter().rposition(|record| record[KIND] == 0 && record[END] < at as u32);
        let (kept, end) = cut.map_or((0, 0), |cut| (cut + 1, records[cut][END] as usize));
        for (row, numbers) in [("row that fits", STRIDE * records.len()), ("long row", STRIDE * (2 * new.len() + 101))]
        {
            fine &= time_into(&format!("at {percent} %, {row}"), text, &new, at as u32, numbers);
            println!(
                "       {} bytes, {} behind the cut; {} records, {} looked at to find it, {kept} kept and tested; a row of {numbers} numbers",
                new.len(),
                new.len() - end,
                records.len(),
                records.len() - kept + 1,
            );
        }
    }
    fine
}

/// Prints the best time of each and their ratio.
fn time_into(name: &str, text: &str, new: &str, a: u32, numbers: usize) -> bool {
    let (mut edited, mut fresh) = (vec![0; numbers], vec![0; numbers]);
    let [code, old, ..] = ours::read(text.as_bytes(), 0, 0, &mut edited);
    let (mut answers, mut best) = ([[0; ANSWER]; 2], [f64::MAX; 2]);
    for _ in 0..ROUNDS {
        let mut whole = || {
            answers[0] = ours::read(new.as_bytes(), 0, 0, &mut fresh);
            answers[0][0] as u64
        };
        best[0] = best[0].min(nanoseconds(&mut whole));
        let mut reread = || {
            answers[1] = ours::reread(new.as_bytes(), 0, &mut edited, old, a);
            answers[1][0] as u64
        };
        best[1] = best[1].min(nanoseconds(&mut reread));
    }
    let [whole, reread] = best.map(|time| time / 1e6);
    println!("bench: {name:<24} {whole:>7.2} ms {reread:>7.2} ms {:>7.2}x", whole / reread);
    let fine = code == 0 && answers[0][0] == 0 && answers[0] == answers[1] && edited == fresh;
    if !fine {
        println!("bench: {name}: re-reading does not leave what whole reading leaves");
    }
    fine
}
