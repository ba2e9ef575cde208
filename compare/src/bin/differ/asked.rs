//! What the arguments ask for: a library, a seed, and how much of each part.

pub const HELP: &str =
    "differ [--peer] [SEED [CALLS]], or for one part alone differ [--peer] --calls [SEED [CALLS]], \
     --shops [SEED [SHOPS]], --panels [SEED [CALLS]] or --soak [SEED [CALLS]]";

const SEED: u64 = 1;

/// How much of each part is compared where no number says it.
struct Amounts {
    calls: usize,
    shops: usize,
    panels: usize,
    soak: usize,
}

const OF_THE_PROVED: Amounts =
    Amounts { calls: 5_000_000, shops: 100_000, panels: 2_000_000, soak: 1_000_000 };
const OF_THE_PEER: Amounts = Amounts { calls: 1_000_000, shops: 20_000, panels: 1_000_000, soak: 1_000_000 };

#[derive(Default)]
pub struct Asked {
    pub peer: bool,
    pub seed: u64,
    pub calls: Option<usize>,
    pub shops: Option<usize>,
    pub panels: Option<usize>,
    pub soak: Option<usize>,
}

impl Asked {
    pub fn read(words: &[String]) -> Option<Asked> {
        let (peer, words) = match words.split_first() {
            Some((word, rest)) if word == "--peer" => (true, rest),
            _ => (false, words),
        };
        let (part, numbers) = match words.split_first() {
            Some((part, numbers)) if part.starts_with('-') => (part.as_str(), numbers),
            _ => ("", words),
        };
        let numbers: Vec<u64> = numbers.iter().map(|word| word.parse().ok()).collect::<Option<_>>()?;
        let seed = numbers.first().copied().unwrap_or(SEED);
        let count = |default| Some(numbers.get(1).map_or(default, |count| *count as usize));
        let most = if peer { OF_THE_PEER } else { OF_THE_PROVED };
        let asked = Asked { peer, seed, ..Asked::default() };
        let asked = match part {
            "" => {
                let (shops, panels, soak) = (Some(most.shops), Some(most.panels), Some(most.soak));
                Asked { calls: count(most.calls), shops, panels, soak, ..asked }
            }
            "--calls" => Asked { calls: count(most.calls), ..asked },
            "--shops" => Asked { shops: count(most.shops), ..asked },
            "--panels" => Asked { panels: count(most.panels), ..asked },
            "--soak" => Asked { soak: count(most.soak), ..asked },
            _ => return None,
        };
        (numbers.len() <= 2).then_some(asked)
    }
}
