//! "Pins: a word of outputs below 1024 (else 9) gives a word of pins (bit 0 is PDO1)."

use super::numbers::WORD_LIMIT;
use super::settings::{settings_verdict, Settings, Source};
use super::verdict::{Verdict, WORD_OUT_OF_RANGE};

pub struct Pins {
    pub verdict: Verdict,
    pub pins: u16,
}

/// "Settings are tested first."
pub fn pins(settings: &Settings, outputs: u16) -> Pins {
    let verdict = settings_verdict(settings).and_then(|| Verdict::unless(outputs < WORD_LIMIT, WORD_OUT_OF_RANGE, 0));
    let mut pins = 0;
    if verdict.is_accepted() {
        for (output, group) in settings.groups.iter().enumerate() {
            // "Source 0 gives 0, source 1 the output's bit, 2 gives 0, 3 gives 1."
            let pin = match group.source {
                Source::Disabled | Source::Low => 0,
                Source::Engine => outputs >> output & 1,
                Source::High => 1,
            };
            pins |= pin << output;
        }
    }
    Pins { verdict, pins }
}
