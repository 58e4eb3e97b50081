//! The colours of contact: the scale `plasma` as far as it stands out from paper. Its lightness only rises, so that it
//! serves eyes that do not tell red from green.

/// A tenth of the scale apart.
const PLASMA: [u32; 9] =
    [0x0d0887, 0x41049d, 0x6a00a8, 0x8f0da4, 0xb12a90, 0xcc4778, 0xe16462, 0xf2844b, 0xfca636];

/// Steps from 0 to a limit, in degrees.
pub struct Scale {
    pub limit: f64,
    pub step: f64,
}

/// The least of 1, 2 or 5 times a power of ten that is at least this.
pub fn round_step(least: f64) -> f64 {
    let power = 10f64.powf(least.log10().floor());
    [1.0, 2.0, 5.0].into_iter().map(|k| k * power).find(|step| *step >= least).unwrap_or(10.0 * power)
}

impl Scale {
    pub fn new(limit: f64) -> Scale {
        Scale { limit, step: round_step(limit / 8.0) }
    }

    pub fn steps(&self) -> usize {
        (self.limit / self.step).ceil() as usize
    }

    /// The step of a contact.
    pub fn step_of(&self, degrees: f64) -> usize {
        ((degrees / self.step) as usize).min(self.steps() - 1)
    }

    /// Where a step begins, in degrees.
    pub fn edge(&self, step: usize) -> f64 {
        (step as f64 * self.step).min(self.limit)
    }

    pub fn color(&self, step: usize) -> String {
        let last = (self.steps() - 1).max(1);
        let place = step as f64 / last as f64 * (PLASMA.len() - 1) as f64;
        let k = (place as usize).min(PLASMA.len() - 2);
        let part = |shift: u32| {
            let [a, b] = [PLASMA[k], PLASMA[k + 1]].map(|c| f64::from((c >> shift) as u8));
            (a + (b - a) * (place - k as f64)).round() as u8
        };
        format!("#{:02x}{:02x}{:02x}", part(16), part(8), part(0))
    }
}

#[cfg(test)]
mod tests {
    use super::*;

    #[test]
    fn steps_are_round_and_end_at_the_limit() {
        for (limit, step, steps) in
            [(60.0, 10.0, 6), (75.0, 10.0, 8), (1.0, 0.2, 5), (179.9, 50.0, 4), (40.0, 5.0, 8)]
        {
            let scale = Scale::new(limit);
            assert_eq!((scale.step, scale.steps()), (step, steps));
            assert_eq!((scale.edge(0), scale.edge(steps)), (0.0, limit));
            assert_eq!([0.0, limit.next_down(), limit].map(|d| scale.step_of(d)), [0, steps - 1, steps - 1]);
            assert_eq!((scale.color(0), scale.color(steps - 1)), ("#0d0887".into(), "#fca636".into()));
        }
    }
}
