//! What an illegal state is asked: steps by either way, runs, a walk and a write. Each answers 4, and changes nothing.

use crate::boundary;
use crate::differences::{show_state, show_word, Differences};
use crate::lent::{byte, whole, Lent};
use crate::seen::Seen;
use crate::steps::by_either_way;
use compare::instructions;
use compare::random::Random;
use compare::routes::Route;

/// A walk from the state, and beside it a word, the list of the walk and the buffer of an image.
pub struct Asked {
    pub route: Route,
    pub word: u32,
    list: Lent<u64>,
    buffer: Lent<u8>,
}

impl Asked {
    pub fn new(random: &mut Random, route: Route) -> Asked {
        let list = Lent::new(route.places, random, whole);
        let buffer = Lent::new(random.index(1000), random, byte);
        let form = random.index(instructions::FORMS.len());
        let word = if random.one_in(2) { instructions::any(random) } else { instructions::word_of(random, form) };
        Asked { route, word, list, buffer }
    }

    pub fn show(&self) -> String {
        show_state(&self.route.state) + &show_word(self.word)
    }

    /// What differs, and the second program's reply to a step.
    pub fn compare(&self) -> (Differences, u8) {
        let (mut differences, reply, after) = by_either_way(&self.route.state, self.word);
        differences.state(&after, &self.route.state);
        self.compare_runs(&mut differences);
        self.compare_walks(&mut differences);
        self.compare_writes(&mut differences);
        (differences, reply)
    }

    /// Without words, with one, and with several.
    fn compare_runs(&self, differences: &mut Differences) {
        let (state, word) = (&self.route.state, self.word);
        for words in [&[][..], &[word], &[word, word, word]] {
            let (library, second) = (boundary::run(state, words), model::run(state, words));
            let name = format!("reply, refused and done of a run of {}", words.len());
            differences.field(&name, (library.reply, library.refused, library.done), (4, 0, 0));
            differences.field("reply of the second program's run", second.reply, 4);
            differences.state(&library.state, state);
        }
    }

    fn compare_walks(&self, differences: &mut Differences) {
        let (mut ours, mut theirs) = (self.list.clone(), self.list.clone());
        let library = boundary::walk(&self.route, ours.part());
        let Route { state, size, n, m, d, k, budget, .. } = &self.route;
        let second = model::walk(state, *size, *n, *m, *d, *k, theirs.part(), *budget);
        let numbers = (library.reply, library.count, library.visited);
        differences.field("reply, count and visited of a walk", numbers, (4, 0, 0));
        differences.field("reply of the second program's walk", second.reply, 4);
        differences.state(&library.state, state);
        differences.lent("list", &ours, &self.list);
    }

    fn compare_writes(&self, differences: &mut Differences) {
        let (mut ours, mut theirs) = (self.buffer.clone(), self.buffer.clone());
        let library = boundary::write(&self.route.state, &[self.word], ours.part());
        let second = model::write(&self.route.state, &[self.word], theirs.part());
        differences.field("reply and length of a write", (library.reply, library.length), (4, 0));
        differences.field("reply of the second program's write", second.reply, 4);
        differences.lent("image", &ours, &self.buffer);
    }

    /// What would be refused by another reply, were the state legal.
    pub fn note(&self, seen: &mut Seen) {
        seen.note_if(model::decode(self.word).is_none(), "a word that is none of ours");
        seen.note_if(self.route.state.level == 0, "level 0");
        seen.note_if(!self.route.state.access, "without access");
    }
}
