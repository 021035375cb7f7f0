//! Forecasts: what is told of a rule before it is judged, and the 16 bytes in which the library writes
//! it.

use std::time::Duration;

/// What is told of a rule before it is judged: how long its formula is, and how many full choices it has
/// at the most on these tables.
///
/// [`forecast`](crate::forecast) gives it. The crate's page says how to use it, under "Asking before
/// judging".
#[derive(Clone, Copy, PartialEq, Eq, Hash, Debug)]
pub struct Forecast {
    /// The exact length of the formula that [`reduce`](crate::reduce) writes.
    pub length: usize,
    /// A ceiling: the verdict's [`full`](crate::Verdict::full) is never above it. Where it is 0 the rule
    /// is idle.
    pub ceiling: u64,
}

impl Forecast {
    /// The length of a forecast as the library writes it.
    pub const BYTES: usize = 16;

    /// The forecast that is written so, by [`forecast_into`](crate::forecast_into).
    ///
    /// ```
    /// use rcl2000::Forecast;
    ///
    /// let mut bytes = [0; Forecast::BYTES];
    /// let nobody = [0; rcl2000::MIN_TABLES];
    /// rcl2000::forecast_into(&nobody, b"|CR|=1", &mut bytes)?;
    /// let forecast = Forecast::from_bytes(&bytes);
    /// assert_eq!((forecast.length, forecast.ceiling), (7, 1));
    /// # Ok::<(), rcl2000::Refusal>(())
    /// ```
    pub fn from_bytes(bytes: &[u8; Forecast::BYTES]) -> Forecast {
        let number = |at: usize| u64::from_le_bytes(std::array::from_fn(|i| bytes[at + i]));
        Forecast {
            length: number(0) as usize,
            ceiling: number(8),
        }
    }

    /// How long as many choices as the ceiling allows would take, at so much time for each: their
    /// product, to the nanosecond, or [`Duration::MAX`] where it is longer than that.
    ///
    /// ```
    /// use rcl2000::Forecast;
    /// use std::time::Duration;
    ///
    /// let three = Forecast { length: 40, ceiling: 64 * 64 * 64 };
    /// let eight = Forecast { length: 90, ceiling: 64_u64.pow(8) };
    /// let per_choice = Duration::from_nanos(100);
    /// assert_eq!(three.at_most(per_choice), Duration::from_nanos(26_214_400));
    /// assert_eq!(eight.at_most(per_choice).as_secs() / 86_400, 325);
    /// assert_eq!(eight.at_most(Duration::MAX), Duration::MAX);
    /// ```
    pub fn at_most(&self, per_choice: Duration) -> Duration {
        const SECOND: u128 = 1_000_000_000;
        let ceiling = u128::from(self.ceiling);
        // Neither product, nor the sum of the seconds, leaves 128 bits.
        let parts = u128::from(per_choice.subsec_nanos()) * ceiling;
        let seconds = u128::from(per_choice.as_secs()) * ceiling + parts / SECOND;
        match u64::try_from(seconds) {
            Ok(seconds) => Duration::new(seconds, (parts % SECOND) as u32),
            Err(_) => Duration::MAX,
        }
    }
}

#[cfg(test)]
mod tests {
    use super::*;

    fn at_most(ceiling: u64, per_choice: Duration) -> Duration {
        let length = 0;
        Forecast { length, ceiling }.at_most(per_choice)
    }

    #[test]
    fn a_wait_is_exact_up_to_the_longest_duration_and_never_less() {
        let odd = Duration::new(3, 700_000_001);
        for ceiling in [0, 1, 2, 64, 1_000_003] {
            let exact = odd.as_nanos() * u128::from(ceiling);
            assert_eq!(at_most(ceiling, odd).as_nanos(), exact);
        }
        let longest = u64::MAX;
        let second = Duration::from_secs(1);
        assert_eq!(at_most(longest, second), Duration::from_secs(longest));
        assert_eq!(at_most(1, Duration::MAX), Duration::MAX);
        let nanosecond = Duration::from_nanos(1);
        assert_eq!(at_most(longest, nanosecond), Duration::from_nanos(longest));
        // One nanosecond too many in each second.
        assert_eq!(at_most(longest, second + nanosecond), Duration::MAX);
        assert_eq!(at_most(longest, Duration::MAX), Duration::MAX);
    }
}
