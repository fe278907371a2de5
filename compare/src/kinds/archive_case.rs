//! Reading an archive file: what it is made of, its comparison, and how it is made smaller. A file that
//! is accepted, with nothing superseded, is written again from what was read.
use crate::archive_files::mend;
use crate::case::{Case, Smaller, left_out, plainer, same, same_list, shorter};
use crate::lent::Lent;
use crate::ours;
use crate::their_archives::{
    self, BLOCK, CHECK, Listed, Recording, check, file_bytes, number, recordings, refused,
};
use std::fmt;
use std::iter::once;

#[derive(Clone)]
pub struct ArchiveRead {
    pub file: Vec<u8>,
    /// The lengths of the list and of the storage for payloads, and that of the answer.
    pub rooms: [usize; 2],
    pub slots: usize,
}

/// Whether a block is whole and its check is right.
fn is_right(block: &[u8]) -> bool {
    block.len() == BLOCK && number(&block[CHECK..]) == check(&block[..CHECK]) as usize
}

impl fmt::Debug for ArchiveRead {
    /// Of each of the first blocks its number, its count and the data up to the last that are not 0.
    fn fmt(&self, f: &mut fmt::Formatter<'_>) -> fmt::Result {
        write!(f, "ArchiveRead {{ file of {}", self.file.len())?;
        for (place, block) in self.file.chunks(BLOCK).enumerate().take(12) {
            let used = block.iter().rposition(|&byte| byte != 0).map_or(0, |last| last + 1);
            let check = if is_right(block) { "right" } else { "wrong" };
            write!(f, ", block {place} with a {check} check: {:02x?}", &block[..used.min(64)])?;
        }
        write!(f, ", rooms: {:?}, slots: {} }}", self.rooms, self.slots)
    }
}

/// What lists and payloads take; nothing where the file is refused.
fn asked(file: &[u8]) -> [usize; 2] {
    their_archives::listed(file).map_or([0; 2], |listed| [listed.list.len(), listed.payloads.len()])
}

/// Where these recordings start in their file, and where the last one ends.
fn places(all: &[Recording]) -> Vec<usize> {
    let ends = all.iter().scan(0, |end, recording| {
        *end += file_bytes(recording.payload.len());
        Some(*end)
    });
    once(0).chain(ends).collect()
}

/// The file that our writing makes of what was read.
fn written(listed: &Listed) -> Result<Vec<u8>, String> {
    let (mut out, mut payloads) = (Vec::new(), &listed.payloads[..]);
    for key in listed.list.chunks_exact(4) {
        let (payload, rest) = payloads.split_at(key[3] as usize);
        let start = out.len();
        out.resize(start + file_bytes(payload.len()), 0);
        let refusal =
            ours::archive_write((key[0] as u16, key[1], key[2] as u16), payload, &mut out[start..], &mut [0]);
        same("refusal of writing", &refusal, &0)?;
        payloads = rest;
    }
    Ok(out)
}

impl ArchiveRead {
    /// All of a file, with just the storage that it asks for, or plenty where it is refused.
    pub fn whole(file: Vec<u8>) -> ArchiveRead {
        let plenty = |_| [file.len() / BLOCK * 4, file.len()];
        let exact = |listed: Listed| [listed.list.len(), listed.payloads.len()];
        let rooms = their_archives::listed(&file).map_or_else(plenty, exact);
        ArchiveRead { file, rooms, slots: 2 }
    }

    /// Without the bytes from one of these places to another.
    fn without(&self, places: Vec<usize>) -> impl Iterator<Item = Vec<u8>> {
        let left_out = left_out(places.len() - 1);
        left_out.map(move |part| [&self.file[..places[part.start]], &self.file[places[part.end]..]].concat())
    }

    /// With a shorter payload in one of the first of these recordings, which stand between these places.
    fn with_less(&self, all: Vec<Recording>, places: Vec<usize>) -> impl Iterator<Item = Vec<u8>> {
        all.into_iter().take(16).enumerate().flat_map(move |(place, recording)| {
            let (before, after) = (&self.file[..places[place]], &self.file[places[place + 1]..]);
            let length = recording.payload.len();
            [0, length / 2, length.saturating_sub(1)].map(|length| {
                let payload = recording.payload[..length].to_vec();
                [before, &Recording { payload, ..recording }.blocks(), after].concat()
            })
        })
    }

    /// With some bytes 0; the checks that are right stay so.
    fn plain(&self) -> impl Iterator<Item = Vec<u8>> {
        plainer(&self.file).map(|mut plain| {
            let blocks = plain.chunks_mut(BLOCK).zip(self.file.chunks(BLOCK));
            blocks.filter(|(_, was)| is_right(was)).for_each(|(block, _)| mend(block));
            plain
        })
    }
}

impl Case for ArchiveRead {
    fn compare(&self) -> Result<u32, String> {
        let (mut list, mut payloads) = (Lent::marked(self.rooms[0]), Lent::marked(self.rooms[1]));
        let (mut file, mut answer) = (Lent::holding(&self.file), Lent::marked(self.slots));
        let refusal = ours::archive_read(file.list(), list.list(), payloads.list(), answer.list());
        file.kept("file")?;
        let theirs = their_archives::read(&self.file, self.rooms);
        match if self.slots < 2 { Err(refused(6)) } else { theirs } {
            Ok(listed) => {
                same("refusal", &refusal, &0)?;
                list.written("list", &listed.list)?;
                payloads.written("payloads", &listed.payloads)?;
                answer.written("answer", &[listed.list.len() as u32 / 4, listed.payloads.len() as u32])?;
                if !listed.superseded {
                    same_list("file of what was read", &written(&listed)?, &self.file)?;
                }
            }
            Err(refused) => {
                same("refusal", &refusal, &refused.number)?;
                answer.written("answer", &refused.answer)?;
                list.kept("list")?;
                payloads.kept("payloads")?;
            }
        }
        Ok(refusal)
    }

    fn smaller(&self) -> Smaller<'_, ArchiveRead> {
        let end = self.file.len();
        let blocks = (0..end).step_by(BLOCK).chain([end]).collect();
        let all = recordings(&self.file).unwrap_or_default();
        let places = places(&all);
        let fewer = self.without(places.clone()).chain(self.with_less(all, places));
        let files = fewer.chain(self.without(blocks)).chain(shorter(&self.file)).chain(self.plain());
        let asked_before = asked(&self.file);
        // The storage stays as much too short or too long.
        let files = files.filter(|file| *file != self.file).map(move |file| {
            let now = asked(&file);
            let room = |place: usize| (self.rooms[place] + now[place]).saturating_sub(asked_before[place]);
            ArchiveRead { rooms: [room(0), room(1)], file, slots: self.slots }
        });
        let rooms = [0, 1].map(|place| self.rooms[place].min(asked_before[place]));
        let rooms = (rooms != self.rooms).then(|| ArchiveRead { rooms, ..self.clone() });
        let slots = (self.slots > 2).then(|| ArchiveRead { slots: 2, ..self.clone() });
        Box::new(files.chain(rooms).chain(slots))
    }
}
