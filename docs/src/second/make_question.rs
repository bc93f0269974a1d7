//! Seeded questions: a pattern, and case ignored in a third of them.

use crate::letters::Letters;
use crate::make_pattern::{pattern, sound_pattern};
use crate::make_returns;
use crate::make_tree::Taste;
use crate::question::Question;
use crate::rng::Rng;
use crate::tree::Pattern;

/// At least `sound` percent of the patterns are sound; some tell whether a CR belongs to its line.
pub fn question(rng: &mut Rng, sound: usize) -> Question {
    let letters = some_letters(rng);
    question_with(rng, letters, sound)
}

pub fn some_letters(rng: &mut Rng) -> Letters {
    rng.pick(&[Letters::Apart, Letters::Apart, Letters::Alike])
}

pub fn question_with(rng: &mut Rng, letters: Letters, sound: usize) -> Question {
    if rng.chance(16) {
        return Question { letters, pattern: make_returns::pattern(rng) };
    }
    let taste = taste_for(rng, letters);
    let pattern = if rng.chance(sound) { sound_pattern(rng, taste) } else { pattern(rng, taste) };
    Question { letters, pattern }
}

/// A question with a sound pattern, and the tree that this is read as.
pub fn sound_question(rng: &mut Rng, letters: Letters) -> (Question, Pattern) {
    let question = question_with(rng, letters, 100);
    let tree = question.read().expect("a sound pattern was refused: the second program is wrong");
    (question, tree)
}

/// Mostly letters of both cases where case is ignored, but not only there.
pub fn taste_for(rng: &mut Rng, letters: Letters) -> Taste {
    let percent = match letters {
        Letters::Apart => 15,
        Letters::Alike => 75,
    };
    if rng.chance(percent) {
        Taste::Cased
    } else {
        Taste::Rich
    }
}
