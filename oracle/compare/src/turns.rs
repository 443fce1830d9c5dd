//! Two archives of ours in turns over the same texts: whether the newer one reads more slowly than the older.
//!
//! Each is a shared object that tools/bench-archives makes of an archive; the archive that this program is linked with
//! is not asked. Times are the processor's. The two read a text, or a group of short ones, right after one another, by
//! turns the one first and the other; the best time of each counts, and a figure is the sum over the groups. So what
//! else goes on on the machine spoils a few turns of a few groups, mostly for both.
//!
//! The two may have records of different width: rows are lent by records.
use crate::bench::{library_text, nanoseconds, pieces, rooms};
use oracle::{ANSWER, END, FULL, KIND, STRIDE};
use std::{
    ffi::{c_char, c_int, c_void, CStr, CString},
    mem::transmute,
    path::Path,
};

/// The bytes of a group of short texts, about: a millisecond's work.
const GROUP: usize = 1 << 18;

/// The first interface whose records have a line, and how many numbers they had before: kind, start, end.
const WITH_LINES: u32 = 5;
const WITHOUT_LINES: usize = 3;

/// False if the two do not both read every text to its end, with as many records.
pub fn run(below: &Path, archives: [&str; 2], turns: usize) -> bool {
    let (text, tops) = library_text(below);
    let texts = |size| -> Vec<&[u8]> { pieces(&tops, size).into_iter().map(|part| text[part].as_bytes()).collect() };
    let doors = archives.map(Doors::load);
    println!("turns: {:<37} {:>9} {:>9} {:>9}", "text", "old", "new", "new/old");
    let mut fine = true;
    for mode in [0, FULL] {
        if doors.iter().any(|doors| doors.measure(b"", mode)[0] != 0) {
            println!("turns: mode {mode} is left out: one of the two does not know it");
            continue;
        }
        for (name, size) in [("16 MB", text.len()), ("1 MB each", 1 << 20), ("4 KB each", 1 << 12)] {
            fine &= time(&format!("mode {mode}, {name}"), &texts(size), mode, &doors, turns);
        }
    }
    for (name, size) in [("16 MB", text.len()), ("1 MB each", 1 << 20)] {
        fine &= time_kept(name, &texts(size), &doors, turns);
    }
    fine
}

/// Times measuring, a row that fits, and a long row.
fn time(name: &str, texts: &[&[u8]], mode: u32, doors: &[Doors; 2], turns: usize) -> bool {
    let [old, new] = doors;
    let answers = |doors: &Doors| texts.iter().map(|text| doors.measure(text, mode)).collect::<Vec<_>>();
    let measured = answers(old);
    if measured != answers(new) || measured.iter().any(|answer| answer[0] != 0) {
        println!("turns: {name}: the two do not read the same, or not to the end");
        return false;
    }
    let needs: Vec<usize> = measured.iter().map(|answer| answer[1] as usize).collect();
    let longest = texts.iter().map(|text| text.len()).max().unwrap_or(1);
    let groups: Vec<&[&[u8]]> = texts.chunks((GROUP / longest).max(1)).collect();
    let bytes = texts.iter().map(|text| text.len()).sum();
    let time = |how, work: &mut dyn FnMut(&Doors, &[u8]) -> [u32; ANSWER]| {
        print_best(&format!("{name}, {how}"), bytes, groups.len(), turns, |which, group| {
            groups[group].iter().map(|text| work(&doors[which], text)[1] as u64).sum()
        })
    };
    time("measured", &mut |doors, text| doors.measure(text, mode));
    for (how, room) in ["row that fits", "long row"].into_iter().zip(rooms(&needs, longest)) {
        let mut row = vec![0; doors.iter().map(|doors| doors.stride * room).max().unwrap_or(0)];
        time(how, &mut |doors, text| doors.read(text, mode, &mut row[..doors.stride * room]));
    }
    true
}

/// Times re-reading of texts that are as they were, with the cut near their ends: a byte of what stands before the cut,
/// for which each byte and each kept record is looked at. The check of the cut's line is among it from interface 5 on.
fn time_kept(name: &str, texts: &[&[u8]], doors: &[Doors; 2], turns: usize) -> bool {
    let both = |text| [0, 1].map(|which| Kept::new(text, &doors[which]));
    let mut kept: Vec<[Kept; 2]> = texts.iter().map(|text| both(text)).collect();
    let again = |kept: &mut [Kept; 2]| [0, 1].map(|which| kept[which].again(&doors[which]));
    if kept.iter_mut().any(|kept| again(kept) != [kept[0].answer; 2] || kept[0].cut != kept[1].cut) {
        println!("turns: {name}: the two do not read the same again");
        return false;
    }
    let bytes = kept.iter().map(|kept| kept[0].cut).sum();
    let name = format!("re-read, cut near the end, {name}");
    print_best(&name, bytes, kept.len(), turns, |which, at| kept[at][which].again(&doors[which])[1] as u64);
    true
}

/// A text, the row that an archive read it into, the answer, and where the cut ends: the last Newline below the end.
struct Kept<'a> {
    text: &'a [u8],
    row: Vec<u32>,
    answer: [u32; ANSWER],
    cut: usize,
}

impl<'a> Kept<'a> {
    fn new(text: &'a [u8], doors: &Doors) -> Kept<'a> {
        let mut row = vec![0; doors.stride * doors.measure(text, 0)[1] as usize];
        let answer = doors.read(text, 0, &mut row);
        let is_cut = |record: &&[u32]| record[KIND] == 0 && (record[END] as usize) < text.len();
        let cut = row.chunks_exact(doors.stride).rfind(is_cut).map_or(0, |record| record[END] as usize);
        Kept { text, row, answer, cut }
    }

    /// The answer to the text again.
    fn again(&mut self, doors: &Doors) -> [u32; ANSWER] {
        doors.reread(self.text, 0, &mut self.row, self.answer[1], self.text.len() as u32)
    }
}

/// Prints the best time of each, per byte, and their ratio; `work` is done by one of the two for one of the groups.
fn print_best(name: &str, bytes: usize, groups: usize, turns: usize, mut work: impl FnMut(usize, usize) -> u64) {
    let mut best = vec![[f64::MAX; 2]; groups];
    for turn in 0..turns {
        for (group, best) in best.iter_mut().enumerate() {
            for which in [turn % 2, 1 - turn % 2] {
                best[which] = best[which].min(nanoseconds(&mut || work(which, group)));
            }
        }
    }
    let [old, new] = [0, 1].map(|which| best.iter().map(|best| best[which]).sum::<f64>() / bytes as f64);
    println!("turns: {name:<37} {old:>6.3} ns {new:>6.3} ns {:>9.3}", new / old);
}

type Read = unsafe extern "C" fn(*const u8, usize, u32, u32, *mut u32, usize, *mut [u32; ANSWER]);
type Measure = unsafe extern "C" fn(*const u8, usize, u32, u32, *mut [u32; ANSWER]);
type Reread = unsafe extern "C" fn(*const u8, usize, u32, *mut u32, usize, u32, u32, *mut [u32; ANSWER]);
type Version = unsafe extern "C" fn() -> u32;

/// Three doors of an archive, and how many numbers its records have.
struct Doors {
    read: Read,
    measure: Measure,
    reread: Reread,
    stride: usize,
}

extern "C" {
    fn dlopen(path: *const c_char, flags: c_int) -> *mut c_void;
    fn dlsym(library: *mut c_void, name: *const c_char) -> *mut c_void;
    fn dlerror() -> *const c_char;
}

impl Doors {
    fn load(path: &str) -> Doors {
        const RTLD_NOW: c_int = 2;
        let path = CString::new(path).expect("a path");
        // SAFETY: the C library's functions, with strings that end in a zero; the doors have these types
        // (docs/API.md), and the object stays loaded.
        unsafe {
            let library = dlopen(path.as_ptr(), RTLD_NOW);
            let door = |name: &[u8]| match library.is_null() {
                false => dlsym(library, name.as_ptr().cast()),
                true => library,
            };
            let names = [&b"srv_read\0"[..], b"srv_measure\0", b"srv_reread\0", b"srv_version\0"];
            let doors = names.map(door);
            if doors.iter().any(|door| door.is_null()) {
                panic!("{}", CStr::from_ptr(dlerror()).to_string_lossy());
            }
            let [read, measure, reread, version] = doors;
            Doors {
                read: transmute::<*mut c_void, Read>(read),
                measure: transmute::<*mut c_void, Measure>(measure),
                reread: transmute::<*mut c_void, Reread>(reread),
                stride: stride(transmute::<*mut c_void, Version>(version)()),
            }
        }
    }

    fn read(&self, text: &[u8], mode: u32, row: &mut [u32]) -> [u32; ANSWER] {
        let mut answer = [0; ANSWER];
        // SAFETY: the door reads the text, writes the row and the answer, and keeps no pointer.
        unsafe { (self.read)(text.as_ptr(), text.len(), mode, 0, row.as_mut_ptr(), row.len(), &mut answer) };
        answer
    }

    fn measure(&self, text: &[u8], mode: u32) -> [u32; ANSWER] {
        let mut answer = [0; ANSWER];
        // SAFETY: as in `read`, without a row.
        unsafe { (self.measure)(text.as_ptr(), text.len(), mode, 0, &mut answer) };
        answer
    }

    fn reread(&self, text: &[u8], mode: u32, row: &mut [u32], old: u32, a: u32) -> [u32; ANSWER] {
        let mut answer = [0; ANSWER];
        // SAFETY: as in `read`.
        unsafe { (self.reread)(text.as_ptr(), text.len(), mode, row.as_mut_ptr(), row.len(), old, a, &mut answer) };
        answer
    }
}

/// How many numbers a record of an interface has.
fn stride(version: u32) -> usize {
    if version < WITH_LINES {
        WITHOUT_LINES
    } else {
        STRIDE
    }
}
