//! When two readings of a channel are alike.

use super::refusal::Refusal;
use super::stored::MOST_CHANNELS;

pub trait Likeness {
    fn alike(&self, channel: u8, old: i16, new: i16) -> bool;
}

/// Alike are equal readings.
#[derive(Clone, Copy, Debug)]
pub struct Exact;

impl Likeness for Exact {
    fn alike(&self, _channel: u8, old: i16, new: i16) -> bool {
        old == new
    }
}

/// Alike are readings that differ by at most the tolerance of the channel.
#[derive(Clone, Copy, Debug, Default)]
pub struct Within {
    tolerances: [u16; MOST_CHANNELS],
}

impl Within {
    pub const MOST_TOLERANCE: u16 = 1_000;

    pub fn set(&mut self, channel: u8, tolerance: u16) -> Result<(), Refusal> {
        if tolerance > Self::MOST_TOLERANCE {
            return Err(Refusal::ToleranceTooLarge);
        }
        let place = self
            .tolerances
            .get_mut(usize::from(channel))
            .ok_or(Refusal::BadChannels)?;
        *place = tolerance;
        Ok(())
    }
}

impl Likeness for Within {
    fn alike(&self, channel: u8, old: i16, new: i16) -> bool {
        let tolerance = self.tolerances.get(usize::from(channel)).unwrap_or(&0);
        old.abs_diff(new) <= *tolerance
    }
}

/// Heights of one channel are alike when they have the same class of sea.
#[derive(Clone, Copy, Debug)]
pub struct SeaState {
    pub channel: u8,
}

impl SeaState {
    /// Where the classes 0 to 8 end, in centimetres; class 9 lies above.
    const ENDS: [i16; 9] = [0, 10, 50, 125, 250, 400, 600, 900, 1_400];

    fn class(height: i16) -> usize {
        Self::ENDS.iter().take_while(|&&end| end < height).count()
    }
}

impl Likeness for SeaState {
    fn alike(&self, channel: u8, old: i16, new: i16) -> bool {
        old == new || (channel == self.channel && Self::class(old) == Self::class(new))
    }
}

#[cfg(test)]
mod tests {
    use super::*;

    #[test]
    fn tolerances() {
        let mut within = Within::default();
        assert!(!within.alike(0, 1, 2));
        assert_eq!(within.set(8, 1_001), Err(Refusal::ToleranceTooLarge));
        assert_eq!(within.set(8, 1_000), Err(Refusal::BadChannels));
        assert_eq!(within.set(7, 1_000), Ok(()));
        assert!(within.alike(7, -500, 500) && !within.alike(7, -500, 501));
        assert!(!within.alike(7, i16::MIN, i16::MAX));
        assert!(within.alike(9, 3, 3) && !within.alike(9, 3, 4));
    }

    #[test]
    fn classes_of_the_sea() {
        let classes = [i16::MIN, 0, 1, 10, 11, 900, 901, 1_400, 1_401].map(SeaState::class);
        assert_eq!(classes, [0, 0, 1, 1, 2, 7, 8, 8, 9]);
        let sea = SeaState { channel: 1 };
        assert!(sea.alike(1, -3, 0) && !sea.alike(0, -3, 0));
    }
}
