//! Markers as they are stored and lent again, and what may have happened to them meanwhile.

/// Two lists and an end, as the quick question is given them.
#[derive(Clone, Debug, PartialEq, Eq)]
pub struct Markers {
    /// Function indices.
    pub indices: Vec<u32>,
    /// The offsets of their entries.
    pub offsets: Vec<u32>,
    /// Where their subsection ends.
    pub end: u64,
}

impl Markers {
    /// Lists and an end of any kind.
    pub fn new(indices: &[u32], offsets: &[u32], end: u64) -> Markers {
        Markers {
            indices: indices.to_vec(),
            offsets: offsets.to_vec(),
            end,
        }
    }

    /// The same markers with one thing changed: a length, the end, or a number at one position.
    pub fn damaged(&self, payload_len: usize) -> Vec<Markers> {
        let mut all = self.of_other_lengths();
        all.extend(self.with_other_ends(payload_len as u64));
        for at in 0..self.indices.len() {
            all.extend(self.with_another_index(at));
            all.extend(self.with_another_offset(at));
            all.extend(self.with_others_at_both(at));
        }
        all
    }

    fn changed(&self, change: impl FnOnce(&mut Markers)) -> Markers {
        let mut changed = self.clone();
        change(&mut changed);
        changed
    }

    /// One list without its last number, with one more, and with none.
    fn of_other_lengths(&self) -> Vec<Markers> {
        let short = self.indices.len().saturating_sub(1);
        vec![
            self.changed(|it| it.indices.truncate(short)),
            self.changed(|it| it.offsets.truncate(short)),
            self.changed(|it| it.indices.push(u32::MAX)),
            self.changed(|it| it.offsets.push(u32::MAX)),
            self.changed(|it| it.indices.clear()),
            self.changed(|it| it.offsets.clear()),
        ]
    }

    /// Ends beside the true one, beside that of the payload and beside the last marker, and the greatest.
    fn with_other_ends(&self, payload_len: u64) -> Vec<Markers> {
        let last = self.offsets.last().copied().unwrap_or_default();
        let near = [self.end, payload_len, u64::from(last)];
        let beside = near.map(|end| [end.saturating_sub(1), end, end + 1]);
        let ends = beside.concat().into_iter().chain([0, u64::MAX]);
        ends.map(|end| self.changed(|it| it.end = end)).collect()
    }

    fn with_another_index(&self, at: usize) -> Vec<Markers> {
        let others = others(&self.indices, at).into_iter();
        others
            .map(|index| self.changed(|it| it.indices[at] = index))
            .collect()
    }

    fn with_another_offset(&self, at: usize) -> Vec<Markers> {
        let end = self.end as u32; // that of the small payloads here
        let mut others = others(&self.offsets, at);
        others.extend([end.saturating_sub(1), end, end + 1]);
        let others = others.into_iter();
        others
            .map(|offset| self.changed(|it| it.offsets[at] = offset))
            .collect()
    }

    /// A marker left out, and one exchanged with the next.
    fn with_others_at_both(&self, at: usize) -> Vec<Markers> {
        let without = self.changed(|it| {
            it.indices.remove(at);
            it.offsets.remove(at);
        });
        let exchanged = self.changed(|it| {
            let next = (at + 1) % it.indices.len();
            it.indices.swap(at, next);
            it.offsets.swap(at, next);
        });
        vec![without, exchanged]
    }
}

/// What a number of a list is changed to: that before it and the one below, its neighbours, and the ends of all numbers.
fn others(list: &[u32], at: usize) -> Vec<u32> {
    let mut others = vec![
        0,
        list[at].wrapping_sub(1),
        list[at].wrapping_add(1),
        u32::MAX,
    ];
    if let Some(before) = at.checked_sub(1) {
        others.extend([list[before], list[before].wrapping_sub(1)]);
    }
    others
}
