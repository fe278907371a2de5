//! A morning page: what it is made of, its comparison, and how it is made smaller. The clicks that
//! the lines have are summed and compared with those of the whole recording.
use crate::case::{Case, Smaller, plainer, same, same_list, shorter};
use crate::lent::Lent;
use crate::ours;
use crate::their_pages::{self, BLOCK, LINE, page_bytes};
use std::fmt;
use std::ops::Range;

#[derive(Clone)]
pub struct Page {
    pub samples: Vec<i32>,
    pub threshold: u32,
    /// The length of the lent page, and that of the answer.
    pub room: usize,
    pub slots: usize,
}

impl fmt::Debug for Page {
    /// A block is long, and most of it is 0 where it was made smaller: only the others are shown.
    fn fmt(&self, f: &mut fmt::Formatter<'_>) -> fmt::Result {
        let others = self.samples.iter().enumerate().filter(|&(_, &sample)| sample != 0);
        let shown: Vec<String> =
            others.take(64).map(|(place, sample)| format!("{place}: {sample}")).collect();
        write!(f, "Page {{ {} samples, of these not 0: [{}], ", self.samples.len(), shown.join(", "))?;
        write!(f, "threshold: {}, room: {}, slots: {} }}", self.threshold, self.room, self.slots)
    }
}

/// The lines of a page.
fn lines(page: &[u8]) -> Vec<String> {
    page.chunks(LINE).map(|line| String::from_utf8_lossy(line).into_owned()).collect()
}

/// Each channel's clicks, which stand in a line's last two columns, summed over the lines; none where
/// a column holds no number.
fn summed_clicks(page: &[u8]) -> [Option<usize>; 2] {
    let clicks =
        |line: &String, column: &Range<usize>| line.get(column.clone())?.trim_start().parse::<usize>().ok();
    [28..36, 36..44].map(|column| lines(page).iter().map(|line| clicks(line, &column)).sum())
}

/// Smaller numbers, from 0 on, nearer and nearer.
fn below(number: u32) -> impl Iterator<Item = u32> {
    (0..32).map(move |bits| number - (number >> bits)).take_while(move |&smaller| smaller < number)
}

/// Lists with one sample nearer to 0, or as far above it as it was below.
fn nearer(samples: &[i32]) -> impl Iterator<Item = Vec<i32>> {
    let places = (0..samples.len()).filter(move |&place| samples[place] != 0).take(64);
    places.flat_map(move |place| {
        let sample = samples[place];
        let above = (sample < 0 && sample > i32::MIN).then(|| -sample);
        let nearer = below(sample.unsigned_abs()).map(move |distance| distance as i32 * sample.signum());
        above.into_iter().chain(nearer).map(move |other| {
            let mut list = samples.to_vec();
            list[place] = other;
            list
        })
    })
}

impl Page {
    /// With other samples; the page stays as much too short or too long.
    fn with_samples(&self, samples: Vec<i32>) -> Page {
        let room = (self.room + page_bytes(samples.len())).saturating_sub(page_bytes(self.samples.len()));
        Page { samples, room, ..*self }
    }

    /// With the same clicks of other samples, with half of each number, so that what is just at the
    /// threshold stays there, and with one channel silent.
    fn plainer_numbers(&self) -> impl Iterator<Item = Page> {
        let samples = || self.samples.iter().copied();
        let loud = samples().map(|sample| (sample.unsigned_abs() > self.threshold).into()).collect();
        let half = samples().map(|sample| sample / 2).collect();
        let silent = |silent| {
            samples().enumerate().map(|(i, sample)| if i % 2 == silent { 0 } else { sample }).collect()
        };
        let numbers =
            [(loud, 0), (half, self.threshold / 2), (silent(0), self.threshold), (silent(1), self.threshold)];
        let others = numbers.into_iter().map(|(samples, threshold)| Page { samples, threshold, ..*self });
        others.filter(|other| other.samples != self.samples)
    }

    /// Without some blocks, without the last frames, and without some others: the number of samples
    /// stays odd or even, and what lies at the edge of two blocks may stay there.
    fn shorter_lists(&self) -> impl Iterator<Item = Page> {
        let blocks: Vec<&[i32]> = self.samples.chunks(2 * BLOCK).collect();
        let without_blocks: Vec<Vec<&[i32]>> = shorter(&blocks).collect();
        let without_blocks = without_blocks.into_iter().map(|blocks| blocks.concat());
        let (frames, rest) = self.samples.as_chunks::<2>();
        let first = below(frames.len() as u32).map(|count| frames[..count as usize].to_vec());
        let without_frames =
            first.chain(shorter(frames)).map(move |frames| [frames.as_flattened(), rest].concat());
        without_blocks.chain(without_frames).map(|samples| self.with_samples(samples))
    }
}

impl Case for Page {
    fn compare(&self) -> Result<u32, String> {
        let (mut page, mut answer) = (Lent::marked(self.room), Lent::marked(self.slots));
        let mut samples = Lent::holding(&self.samples);
        let refusal = ours::morning_page(samples.list(), self.threshold, page.list(), answer.list());
        samples.kept("samples")?;
        let theirs = their_pages::page(&self.samples, self.threshold, self.room);
        match if self.slots < 1 { Err(6) } else { theirs } {
            Ok(text) => {
                same("refusal", &refusal, &0)?;
                let shown = page.list()[..text.len()].to_vec();
                same_list("line", &lines(&shown), &lines(&text))?;
                page.written("page", &text)?;
                answer.written("answer", &[text.len() as u32])?;
                let clicks = |channel| Some(their_pages::clicks(&self.samples, channel, self.threshold));
                same("summed clicks", &summed_clicks(&shown), &[0, 1].map(clicks))?;
            }
            Err(number) => {
                same("refusal", &refusal, &number)?;
                page.kept("page")?;
                answer.kept("answer")?;
            }
        }
        Ok(refusal)
    }

    fn smaller(&self) -> Smaller<'_, Page> {
        let plain = plainer(&self.samples).map(|samples| Page { samples, ..*self });
        let thresholds = below(self.threshold).map(|threshold| Page { threshold, ..self.clone() });
        let nearer = nearer(&self.samples).map(|samples| Page { samples, ..*self });
        let asked = page_bytes(self.samples.len());
        let rooms = [asked, asked + 1].into_iter().filter(|&room| room < self.room);
        let rooms = rooms.map(|room| Page { room, ..self.clone() });
        let slots = (self.slots > 1).then(|| Page { slots: 1, ..self.clone() });
        let lengths = self.shorter_lists().chain(rooms).chain(slots);
        Box::new(self.plainer_numbers().chain(plain).chain(thresholds).chain(nearer).chain(lengths))
    }
}
