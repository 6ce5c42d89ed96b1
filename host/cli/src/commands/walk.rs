use crate::args::Args;
use crate::commands::explain::said;
use crate::dump::{dump, json};
use crate::failure::{status_of, Failure, Outcome};
use crate::help::dashed;
use crate::image::load;
use crate::json::Json;
use crate::reason::{levels, told};
use crate::style::Style;
use crate::words::{counted, grouped, numbers, runs, shortened};
use plokamyr::{walk, Reply, State, Walked};
use std::ops::RangeInclusive;

pub fn command(args: &Args, style: Style) -> Result<Outcome, Failure> {
    let path = super::only(args, "FILE")?;
    let size = super::size(args)?;
    let mut registers = [0; 4];
    for (number, (key, letter)) in registers.iter_mut().zip(KEYS) {
        *number = register(args, key, letter)?;
    }
    let budget = super::number(args, "budget", "a number of instructions")?.unwrap_or(u64::MAX);
    let image = load(path)?;
    let way = Way { size, registers, budget };
    let (walked, list) = way.walked(&image.state);
    let positions = runs(list[..walked.visited].iter().copied());
    let reason = way.reason(args, &image.state, walked.reply);
    let first = format!("reply {}: {}\n", walked.reply.number(), told(said(walked.reply), reason.as_deref()));
    let text = || match walked.reply {
        Reply::Done | Reply::BudgetSpent => first + &visited(&walked, &positions) + &dump(&walked.state, size, style),
        _ => first, // all is as it was
    };
    Ok(Outcome::either(args, status_of(walked.reply), || answer(&walked, &positions, size, reason.as_deref()), text))
}

/// The options that name registers, in the order of the library, and the registers' letters.
const KEYS: [(&str, char); 4] = [("n", 'x'), ("m", 'x'), ("d", 'p'), ("k", 'p')];

/// A register's number; past 32 bits it is past every register, as the largest of them is.
fn register(args: &Args, key: &str, letter: char) -> Result<u32, Failure> {
    let text = args.value(key).ok_or_else(|| format!("{} is missing (try --help)", dashed(key)))?;
    let wrong = || format!("{} is '{text}': the number of a register would do, as 1 or {letter}1", dashed(key));
    let number = super::register(text, letter).ok_or_else(wrong)?;
    Ok(u32::try_from(number).unwrap_or(u32::MAX))
}

fn visited(walked: &Walked, positions: &[RangeInclusive<u64>]) -> String {
    let executed = counted(walked.count, "instruction");
    let visited = counted(walked.visited as u64, "position");
    format!("{executed} executed\n{visited} visited: {}\n", shortened(positions))
}

fn answer(walked: &Walked, positions: &[RangeInclusive<u64>], size: u32, reason: Option<&str>) -> Json {
    let mut fields = vec![("reply", Json::Number(walked.reply.number()))];
    fields.extend(reason.map(|reason| ("reason", Json::text(reason))));
    fields.extend([
        ("count", Json::text(walked.count)),
        ("visited", Json::text(walked.visited)),
        ("positions", positions_json(positions)),
        ("state", json(&walked.state, size)),
    ]);
    Json::Object(fields)
}

/// Positions are numbers of 64 bits.
fn positions_json(ranges: &[RangeInclusive<u64>]) -> Json {
    Json::list(ranges.iter().map(|range| Json::list([Json::text(range.start()), Json::text(range.end())])))
}

/// The most positions that are kept, 128 MB of them.
const PLACES: usize = 1 << 24;

/// What a walk is told beside the state.
struct Way {
    size: u32,
    /// n, m, d and k.
    registers: [u32; 4],
    budget: u64,
}

impl Way {
    fn walk(&self, state: &State, list: &mut [u64]) -> Walked {
        let [n, m, d, k] = self.registers;
        walk(state, self.size, n, m, d, k, list, self.budget)
    }

    /// The walk, with a list that grows until the library takes it.
    fn walked(&self, state: &State) -> (Walked, Vec<u64>) {
        let mut list = vec![0; 256];
        loop {
            let walked = self.walk(state, &mut list);
            if walked.reply != Reply::ListTooShort || list.len() >= PLACES {
                return (walked, list);
            }
            list = vec![0; list.len() * 16]; // not resized: memory that nothing has touched costs nothing
        }
    }

    /// What is known of a refusal besides its reply.
    fn reason(&self, args: &Args, state: &State, refusal: Reply) -> Option<String> {
        match refusal {
            Reply::BadWalkRegisters => {
                Some(not_taken(self.registers, KEYS.map(|(key, _)| args.value(key).unwrap_or(""))))
            }
            Reply::LevelTooLow => Some(levels(state.level, "a walk", asked_level()?)),
            Reply::ListTooShort => {
                let [from, to] = [0, 1].map(|place| state.x.get(self.registers[place] as usize).copied().unwrap_or(0));
                let positions = counted(to.saturating_sub(from), "position");
                Some(format!("{positions}, and this command keeps at most {}", grouped(PLACES as u64)))
            }
            Reply::BudgetSpent => {
                let unbounded = Way { budget: u64::MAX, ..*self };
                let needed = grouped(unbounded.walked(state).0.count);
                Some(format!("the budget is {}, the walk needs {needed}", grouped(self.budget)))
            }
            _ => None,
        }
    }
}

/// The lowest level at which the library does not refuse a walk for it.
fn asked_level() -> Option<u8> {
    let way = Way { size: 0, registers: TAKEN[0], budget: 0 };
    (0..=3).find(|level| way.walk(&State::new(128, *level), &mut []).reply != Reply::LevelTooLow)
}

/// Two walks that the library takes, without a number that stands at the same place in both.
const TAKEN: [[u32; 4]; 2] = [[0, 1, 0, 1], [2, 3, 2, 3]];

/// Whether the library takes these registers for a walk.
fn takes(registers: [u32; 4]) -> bool {
    let way = Way { size: 0, registers, budget: 0 };
    way.walk(&State::new(128, 1), &mut []).reply != Reply::BadWalkRegisters
}

/// Whether it takes a register at a place, with some others.
fn takes_at(place: usize, number: u32) -> bool {
    let with = |mut registers: [u32; 4]| {
        registers[place] = number;
        takes(registers)
    };
    TAKEN.into_iter().any(with)
}

/// Which registers the library does not take, as they are given: each that it takes with no others, and each pair of the rest
/// that it does not take.
fn not_taken(registers: [u32; 4], given: [&str; 4]) -> String {
    let alone = |place: &usize| takes_at(*place, registers[*place]);
    let mut said: Vec<String> =
        (0..4).filter(|place| !alone(place)).map(|place| past_range(place, given[place])).collect();
    let ([n, m, d, k], good) = (registers, TAKEN[0]);
    for (pair, tried) in [([0, 1], [n, m, good[2], good[3]]), ([2, 3], [good[0], good[1], d, k])] {
        if !takes(tried) && pair.iter().all(alone) {
            let [one, other] = pair.map(|place| dashed(KEYS[place].0));
            let number = registers[pair[0]];
            said.push(format!("{one} and {other} are both {number}: two different registers would do"));
        }
    }
    said.join("; ")
}

/// What is allowed in place of a register that no walk takes there.
fn past_range(place: usize, given: &str) -> String {
    let allowed: Vec<u32> = (0..=255).filter(|number| takes_at(place, *number)).collect();
    format!("{} is {given}: {} would do", dashed(KEYS[place].0), numbers(&allowed))
}

#[cfg(test)]
mod tests {
    use super::*;

    /// There is a reason exactly where the library refuses.
    #[test]
    fn reasons() {
        let (x, p) = ([0, 1, 30, 31, 32], [0, 1, 15, 16]);
        for (n, m) in x.into_iter().flat_map(|n| x.map(|m| (n, m))) {
            for (d, k) in p.into_iter().flat_map(|d| p.map(|k| (d, k))) {
                let registers = [n, m, d, k];
                let reason = not_taken(registers, ["N", "M", "D", "K"]);
                assert_eq!(reason.is_empty(), takes(registers), "{registers:?}: {reason}");
                assert_eq!(reason.contains("-d is D: 0 to 15"), d == 16);
                assert_eq!(reason.contains("-n is N: 0 to 30"), n > 30);
            }
        }
    }
}
