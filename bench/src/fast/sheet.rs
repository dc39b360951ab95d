//! The day sheet, summed round by round from the first round on. What each booking holds is worked out before, in memory of its own.

use super::standing::Stream;
use crate::scheduler::Sheet;
use playback::Refusal;

/// A booking as the sheet sees it, with what it holds by round of its own.
#[derive(Clone, Copy)]
pub struct Row<'a> {
    start: usize,
    reserve: u64,
    held: &'a [u64],
}

impl<'a> Row<'a> {
    pub fn new(stream: &Stream, start: usize, held: &'a [u64]) -> Row<'a> {
        Row {
            start,
            reserve: stream.reserve,
            held,
        }
    }

    fn end(&self) -> usize {
        self.start + self.held.len()
    }
}

/// 11: the first T places of the sheet.
pub struct Lists<'a> {
    opens: &'a mut [u64],
    reserves: &'a mut [u64],
    helds: &'a mut [u64],
}

impl Lists<'_> {
    pub fn of(sheet: &mut Sheet, rounds: u64) -> Result<Lists<'_>, Refusal> {
        let rounds = rounds as usize;
        let opens = sheet.opens.get_mut(..rounds).ok_or(Refusal::NoRoom)?;
        let reserves = sheet.reserves.get_mut(..rounds).ok_or(Refusal::NoRoom)?;
        let helds = sheet.helds.get_mut(..rounds).ok_or(Refusal::NoRoom)?;
        Ok(Lists {
            opens,
            reserves,
            helds,
        })
    }

    pub fn clear(&mut self) {
        self.opens.fill(0);
        self.reserves.fill(0);
        self.helds.fill(0);
    }

    /// Sums each round over the bookings open in it. Each place is written once, a round's before those of the next.
    pub fn sum(&mut self, rows: &mut [Row]) {
        rows.sort_unstable_by_key(|row| row.start);
        let mut coming = rows.iter().peekable();
        let mut open: Vec<Row> = Vec::with_capacity(rows.len());
        let mut helds: Vec<&[u64]> = Vec::with_capacity(rows.len());
        let mut from = 0;
        while from < self.opens.len() {
            open.retain(|row| from < row.end());
            while let Some(row) = coming.next_if(|row| row.start == from) {
                open.push(*row);
            }
            // Up to the round in which the next one opens or ends, the same ones are open.
            let opens = coming.peek().map_or(self.opens.len(), |row| row.start);
            let to = open.iter().map(Row::end).fold(opens, usize::min);
            helds.clear();
            helds.extend(
                open.iter()
                    .map(|row| &row.held[from - row.start..to - row.start]),
            );
            let reserves = open.iter().map(|row| row.reserve).sum();
            self.sum_alike(from..to, reserves, &helds);
            from = to;
        }
    }

    /// Rounds in which the same bookings are open, with their reserves and what each holds in these rounds.
    fn sum_alike(&mut self, rounds: std::ops::Range<usize>, reserved: u64, held: &[&[u64]]) {
        let opens = self.opens[rounds.clone()].iter_mut();
        let reserves = self.reserves[rounds.clone()].iter_mut();
        let helds = self.helds[rounds].iter_mut();
        for (round, ((opens, reserves), helds)) in opens.zip(reserves).zip(helds).enumerate() {
            *opens = held.len() as u64;
            *reserves = reserved;
            *helds = held.iter().map(|held| held[round]).sum();
        }
    }
}
