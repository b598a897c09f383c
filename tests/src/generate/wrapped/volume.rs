//! Volumes of more than 65,535 tracks whose number of tracks wraps to the right one.

use super::Patient;

impl Patient<'_> {
    /// H stays, so C × H can only be the same modulo 65,536 where the two have a factor in common.
    pub(super) fn cylinders(&mut self) -> Option<()> {
        let step = 65_536 >> self.heads().trailing_zeros();
        let most = (65_535 - self.word(62)) / step;
        (most > 0).then_some(())?;
        let more = step * self.rng.range(1, most);
        self.put(62, self.word(62) + more);
        Some(())
    }

    /// On a volume of one cylinder all CC and all whole cylinders are 0, and HH and odd tracks are
    /// the same for every greater H.
    pub(super) fn cylinders_and_heads(&mut self) -> Option<()> {
        let g = self.glance.geometry;
        (g.cylinders == 1).then_some(())?;
        let numbers = (g.heads + 1..=255).flat_map(|h| (1..h).map(move |turns| (h, turns)));
        let fit: Vec<(u32, u32)> = numbers
            .filter(|&(h, turns)| (g.tracks() + 65_536 * turns).is_multiple_of(h))
            .map(|(h, turns)| (h, (g.tracks() + 65_536 * turns) / h))
            .filter(|&(_, c)| c <= 65_535)
            .collect();
        let &(h, c) = self.rng.pick(&fit)?;
        self.put(62, c);
        self.put(64, h);
        Some(())
    }
}
