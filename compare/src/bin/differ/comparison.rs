//! The comparison over bytes: lists of calls, printouts and messages, stored and
//! seeded.

use std::path::Path;
use std::{env, fs, io, process};

use mizzencord_compare::byte_test::cases;
use mizzencord_compare::byte_test::difference::{Case, Function, Outcome};
use mizzencord_compare::drawing::random::Random;
use mizzencord_compare::interface::board::{Board, Handwritten, MOST_PRINTED};
use mizzencord_compare::progress::{progress, progress_ends};

use crate::counts::Counts;
use crate::{Side, PROGRESS_LINES};

/// How long the lists of calls of one round are.
const LENGTHS: [usize; 12] = [1, 4, 10, 20, 40, 60, 60, 100, 200, 400, 400, 1500];

struct Comparison<'a> {
    side: &'a Side<'a>,
    counts: Counts,
    library: Outcome,
    handwritten: Outcome,
}

impl Comparison<'_> {
    fn compare(&mut self, case: &Case) {
        self.library.take(self.side.board, case);
        self.handwritten.take(&Handwritten, case);
        if self.library != self.handwritten {
            report(self.side, case);
        }
        self.counts.count(case, &self.library);
    }

    fn round(&mut self, random: &mut Random) {
        for length in LENGTHS {
            self.compare(&cases::list_of_calls(random.word(), length));
        }
        for _ in 0..4 {
            self.compare(&cases::printed(random.word()));
        }
        for _ in 0..20 {
            for case in cases::readings(random.word()) {
                self.compare(&case);
            }
        }
        for _ in 0..200 {
            self.compare(&cases::writing(random.word()));
        }
    }

    /// Compares a long list of calls and a long printout.
    fn long_shifts(&mut self, random: &mut Random) {
        self.compare(&cases::long_list_of_calls(random.word()));
        self.compare(&cases::long_printed(random.word()));
    }
}

/// Shows the least part of a case on which the two differ, keeps it, and ends.
pub fn report(side: &Side, case: &Case) -> ! {
    let small = case.shrunk(side.board, &Handwritten);
    let boards: [&dyn Board; 2] = [side.board, &Handwritten];
    progress_ends();
    println!("DIFFERENCE\n{}", small.show([side.name, "handwritten"], boards));
    let file = env::temp_dir().join("mizzencord-difference.case");
    match fs::write(&file, small.store()) {
        Ok(()) => println!("stored in {}: once mended, keep it in compare/cases/", file.display()),
        Err(error) => println!("not stored: {error}"),
    }
    process::exit(1);
}

fn stored_cases(folder: &Path) -> io::Result<Vec<Case>> {
    let mut files: Vec<_> = fs::read_dir(folder.join("compare/cases"))?.collect::<Result<_, _>>()?;
    files.sort_by_key(|file| file.path());
    let mut cases = Vec::new();
    for file in files.iter().filter(|file| file.path().extension().is_some_and(|end| end == "case")) {
        let case = Case::stored(&fs::read(file.path())?);
        cases.push(case.unwrap_or_else(|| panic!("{} is no case", file.path().display())));
    }
    for name in ["worked", "busy", "awkward", "together", "steady", "late"] {
        let bytes = fs::read(folder.join("examples").join(name).with_extension("bin"))?;
        cases.push(Case { function: Function::Print, bytes, at: 0, room: MOST_PRINTED });
    }
    Ok(cases)
}

pub fn compare_calls(side: &Side, seed: u64, calls: usize) -> io::Result<()> {
    let (counts, library, handwritten) = (Counts::default(), Outcome::default(), Outcome::default());
    let mut comparison = Comparison { side, counts, library, handwritten };
    let stored = stored_cases(&Path::new(env!("CARGO_MANIFEST_DIR")).join(".."))?;
    for case in &stored {
        comparison.compare(case);
    }
    println!("seed {seed}; stored cases: {}", stored.len());
    let mut random = Random::new(seed);
    let mut long = random.fork();
    let mut next_line = 0;
    while comparison.counts.calls < calls {
        comparison.round(&mut random);
        comparison.long_shifts(&mut long);
        let counts = &comparison.counts;
        if counts.calls >= next_line {
            progress(&format!("{} of {calls} calls, {} printouts", counts.calls, counts.printouts));
            next_line += calls / PROGRESS_LINES;
        }
    }
    progress_ends();
    comparison.counts.tell();
    Ok(())
}
