//! All 65,536 log words, each into lists of 0 to 2 values.
use crate::case::{Case, Failed, Run, Smaller, same};
use crate::lent::Lent;
use crate::ours;
use crate::reach::is_out_of_reach;
use crate::theirs;

#[derive(Clone, Debug)]
struct LogWord {
    word: i16,
    slots: usize,
}

impl Case for LogWord {
    fn compare(&self) -> Result<u32, String> {
        let mut value = Lent::marked(self.slots);
        let refusal = ours::log_word(self.word, value.list());
        match if self.slots < 1 { Err(6) } else { theirs::log_word(self.word) } {
            Ok(expanded) => {
                same("refusal", &refusal, &0)?;
                value.written("value", &[expanded])?;
            }
            Err(number) => {
                same("refusal", &refusal, &number)?;
                value.kept("value")?;
            }
        }
        Ok(refusal)
    }

    fn smaller(&self) -> Smaller<'_, LogWord> {
        let word = i32::from(self.word);
        let size = |word: i32| (word.abs(), word < 0);
        let nearer = [0, -word, word % 256, word / 2, word - 256 * word.signum(), word - word.signum()];
        let nearer = nearer.into_iter().filter(move |&near| size(near) < size(word));
        // The opposite of the least word is none.
        let nearer = nearer.filter_map(|near| i16::try_from(near).ok());
        Box::new(nearer.map(|word| LogWord { word, ..*self }))
    }

    fn out_of_reach(&self) -> bool {
        is_out_of_reach(self.word)
    }
}

pub fn run(run: &mut Run) -> Result<(), Failed> {
    for word in i16::MIN..=i16::MAX {
        for slots in 0..=2 {
            run.agree(LogWord { word, slots })?;
        }
    }
    Ok(())
}
