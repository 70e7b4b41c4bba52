//! Tapes and scripts, random ones each made from a seed.

mod long;
mod prng;
mod script;
mod tape;
mod wire;

pub use long::{day, longest, noise, shortest, turns, year};
pub use script::script;
pub use tape::tape;

#[cfg(test)]
mod tests {
    use std::sync::LazyLock;

    use crate::{bench, hex, make, report};

    const SEEDS: std::ops::RangeInclusive<u64> = 1..=200;
    /// The steps of the seeds' scripts, one script behind the other.
    static STEPS: LazyLock<Vec<String>> =
        LazyLock::new(|| SEEDS.flat_map(|seed| steps(&make::script(seed))).collect());

    /// What `bench` does for a script: `record = row` for each record and for the last row.
    fn steps(script: &[u8]) -> Vec<String> {
        let mut rest = script;
        let step = |row: &str| {
            let whole = rest.get(1..).and_then(bench::payload);
            let next = whole.map_or(&[][..], |(_, next)| next);
            let record = &rest[..rest.len() - next.len()];
            rest = next;
            format!("{} = {row}", hex::dotted(record))
        };
        bench::rows(script).lines().map(step).collect()
    }

    fn all_reached(text: &str, wanted: &[&str], shows: fn(&str, &str) -> bool) {
        for sign in wanted {
            assert!(text.lines().any(|line| shows(line, sign)), "{sign}");
        }
    }

    #[test]
    fn scripts_reach_every_op_event_and_refusal() {
        let rows = STEPS.iter().filter_map(|step| step.split_once(" = "));
        let text: String = rows.map(|(_, row)| format!("{row}\n")).collect();
        let starts = "01 0,01 1,01 2,01 short,02 0,02 1,02 2,02 3,02 short,03 0,03 2,04 ,05 ,\
            10 0 NONE,10 0 FRAME,10 0 CHECK,10 0 SHORT,10 0 LONG,10 0 PAIR,10 4,11 0,11 3,\
            11 short,12 0 NONE,12 0 FRAME,12 0 CHECK,12 0 SHORT,12 0 LONG,12 0 PAIR,12 0 ADDR,\
            12 4,13,13 short,20 0 out 0,20 0 out 89,20 0 store 0,20 0 store 89,20 0 store 130,20 1,\
            20 2,20 4,20 5,20 short,21 0,21 4,22,22 short,23 ,24 0,24 1,24 5,24 short,25 0 ACK,\
            25 0 DATA,25 0 NACK 1,25 0 NACK 2,25 0 NACK 3,25 0 NACK 4,25 0 NACK 5,25 0 NACK 6,25 5,\
            25 6,25 7,25 8,25 9,25 short,26 03,26 short,27,27 short,end,cut,bad";
        let starts: Vec<&str> = starts.split(',').collect();
        all_reached(&text, &starts, |line, start| line.starts_with(start));
        let nacks = [".2A.01.", ".2A.02.", ".2A.03.", ".2A.06.", ".2A.55."];
        all_reached(&text, &nacks, |line, reply| {
            line.starts_with("20 0 out 7") && line.contains(reply)
        });
        let remembered = [" 131 ", " 255 ", " 256 ", " 386 ", " 65535 "];
        all_reached(&text, &remembered, |line, length| {
            line.starts_with("20 4") && line.contains(length)
        });
        let buffers = ["01 0", "01 2", "02 0", "02 3", "24 0", "24 5"];
        all_reached(&text, &buffers, |line, start| {
            line.starts_with(start) && fields(line).any(|field| field.len() == 600 * 3 - 1)
        });
        let taken = ["10 0 NONE", "10 0 FRAME", "12 0 NONE", "12 0 FRAME"];
        all_reached(&text, &taken, |line, start| {
            let taken = fields(line).nth(3).and_then(|field| field.parse().ok());
            line.starts_with(start) && taken.is_some_and(|taken: usize| taken > 255)
        });
    }

    fn fields(line: &str) -> impl Iterator<Item = &str> {
        line.split(' ')
    }

    /// What 02, L2 adds; SS is a speed.
    #[test]
    fn scripts_reach_what_slow_and_fast_readers_do() {
        let made = [
            &["26.01.00.00 = 26 SS *- - slow"][..],
            &["26.01.00.01 = 26 SS *- - fast"],
            &["26.01.00.FF = 26 SS *- - fast"],
        ];
        all_followed(&made, &["03"]);
        let kept = [
            &["20* SS *slow", "21.00.00 = 21 0 SS *- - slow"][..],
            &["20* SS *fast", "21.00.00 = 21 0 SS *- - fast"],
            &["20*.01.02.SS = 20 0 out 7 *.2A.55.* SS *slow"],
        ];
        all_followed(&kept, &["03", "04", "05", "06", "07"]);
        let written = "20*.01.01.02.SS = 20 0 out 7 *.2A.55.* SS *01.01 7 fast";
        let power_on = "21.00.00 = 21 0 03 *- - fast";
        let nack_3 = "20*.01.01.02.SS = 20 0 out 7 *.2A.03.*slow";
        let slow_write = "20*.01.01.02.* = 20 0 out 7 *.2A.55.*01.01 7 slow";
        let not_kept = [
            &[written, power_on, "20*.02.02 = 20 0 out 7 *.02.03.*fast"][..],
            &[written, power_on, written],
            &[nack_3, slow_write],
            &[slow_write, "20*.01.01.02.SS = 20 0 store 7 *.2A.55.*slow"],
            &["20* = 20 4 out 0 - SS *- - slow"],
            &["21.00.00 = 21 4 SS *- - slow"],
            &["24*.01.02.SS = 24 0 "],
            &["25*.01.02.02.SS.*.2A.55 = 25 0 ACK"],
            &["25*.01.02.02.SS.*.2A.03 = 25 0 NACK 3"],
        ];
        all_followed(&not_kept, &["08", "09", "0A"]);
    }

    /// For each speed, steps that follow one another are like the wanted ones.
    fn all_followed(wanted: &[&[&str]], speeds: &[&str]) {
        for speed in speeds {
            for patterns in wanted {
                let patterns = patterns.iter().map(|pattern| pattern.replace("SS", speed));
                let patterns: Vec<String> = patterns.collect();
                let follow = |steps: &[String]| steps.iter().zip(&patterns).all(is_like);
                assert!(STEPS.windows(patterns.len()).any(follow), "{patterns:?}");
            }
        }
    }

    /// Whether a step is like a pattern: `*` stands for anything, and anything may follow.
    fn is_like((step, pattern): (&String, &String)) -> bool {
        let mut parts = pattern.split('*');
        let first = parts.next().unwrap_or_default();
        let rest = step.strip_prefix(first);
        parts
            .fold(rest, |rest, part| Some(rest?.split_once(part)?.1))
            .is_some()
    }

    #[test]
    fn tapes_reach_every_event_and_last_line() {
        let text: String = SEEDS
            .map(|seed| crate::tape::listing(&make::tape(seed)))
            .collect();
        let events = "P FRAME,P CHECK,P SHORT,P LONG,P PAIR,\
            A FRAME,A CHECK,A SHORT,A LONG,A PAIR,A ADDR,end 0,cut 0,bad 0,end,cut,bad";
        let events: Vec<&str> = events.split(',').collect();
        all_reached(&text, &events, |line, event| line.contains(event));
    }

    #[test]
    fn reports_reach_every_rank_and_sign() {
        let text: String = SEEDS
            .map(|seed| rank_and_signs(&report::report(&make::tape(seed)).unwrap()))
            .collect();
        for louder in ["P", "A", "none"] {
            for signs in ["+ +", "+ -", "- +", "- -"] {
                let wanted = format!("{louder} {signs}");
                all_reached(&text, &[&wanted], |line, wanted| line == wanted);
            }
        }
    }

    /// Which line of a report was heard more, and the signs of both differences.
    fn rank_and_signs(report: &str) -> String {
        let totals = |row| fields(report.lines().nth(row).unwrap()).collect::<Vec<&str>>();
        let (first, second) = (totals(1), totals(2));
        let equal = first[2] == second[2];
        let louder = if equal { "none" } else { first[0] };
        let sign = |line: &[&str]| if line[5].starts_with('-') { '-' } else { '+' };
        format!("{louder} {} {}\n", sign(&first), sign(&second))
    }
}
