//! The values that came in, up to the first thing that is wrong.

use filter::stop::Stop;
use second::text::{read_whole, Refusal, Refused};

pub struct Taken {
    pub values: Vec<u8>,
    /// Where the first character of each value stands in its text.
    places: Vec<u64>,
    pub stop: Option<Stop>,
}

impl Taken {
    /// The values of a text that ends here, or at which reading stopped.
    pub fn of_text(text: &[u8], unread: Option<Stop>) -> Taken {
        let reading = read_whole(text);
        let is_end = |refused: &Refused| {
            let of_end = [Refusal::WrongRemainder, Refusal::MissingRemainder];
            of_end.contains(&refused.refusal)
        };
        // Where reading stopped is not where the text ends, so nothing is known of its remainder.
        let known = |refused: &Refused| unread.is_none() || !is_end(refused);
        let refused = reading.refused.filter(known);
        Taken {
            values: reading.values,
            places: reading.places,
            stop: refused.map(told).or(unread),
        }
    }

    /// The same, up to the first codeword with a bit above its width.
    pub fn below(mut self, width: u8) -> Taken {
        let is_above = |&value: &u8| value >> width != 0;
        if let Some(first) = self.values.iter().position(is_above) {
            let line = format!("codeword above its width at {}", self.places[first]);
            self.values.truncate(first);
            self.stop = Some(Stop(line.into_bytes()));
        }
        self
    }
}

fn told(refused: Refused) -> Stop {
    Stop(format!("{} at {}", refused.refusal.name(), refused.place).into_bytes())
}

#[cfg(test)]
mod tests {
    use super::*;

    fn shown(taken: Taken) -> (Vec<u8>, String) {
        let line = taken.stop.map_or(Vec::new(), |stop| stop.0);
        (taken.values, String::from_utf8(line).unwrap())
    }

    fn unread() -> Option<Stop> {
        Some(Stop(b"broken".to_vec()))
    }

    #[test]
    fn a_text_whose_end_was_not_read_is_not_refused_for_it() {
        for (text, values, line) in [
            ("0102\n07\n", vec![1, 2], "broken"),
            ("0102\n07", vec![1, 2], "broken"),
            ("0102\n03\n", vec![1, 2], "broken"),
            ("", vec![], "broken"),
            ("0102\n\n", vec![1, 2], "bad character at 5"),
        ] {
            let found = shown(Taken::of_text(text.as_bytes(), unread()));
            assert_eq!(found, (values, line.to_string()), "{text}");
        }
    }

    #[test]
    fn the_first_codeword_above_its_width_is_told_by_its_place() {
        let text = b"0102\n03\n0405\n0F\n";
        for (width, values, line) in [
            (2, vec![1, 2, 3], "codeword above its width at 8"),
            (3, vec![1, 2, 3, 4, 5], ""),
        ] {
            let found = shown(Taken::of_text(text, None).below(width));
            assert_eq!(found, (values, line.to_string()));
        }
    }

    #[test]
    fn a_codeword_is_told_before_what_follows_it() {
        for (text, line) in [
            ("0104x", "codeword above its width at 2"),
            ("040x", "codeword above its width at 0"),
            ("04x", "bad character at 2"),
            ("04\n\n", "bad character at 3"),
            ("04\n0", "codeword above its width at 0"),
        ] {
            let found = shown(Taken::of_text(text.as_bytes(), None).below(2));
            assert_eq!(found.1, line, "{text}");
        }
    }
}
