//! What the front counts, for root: one line of JSON.
use std::time::Duration;

/// Below so many microseconds each has a place of its own; above, each power of two has eight.
const FINE: u64 = 16;
const PLACES: usize = 320;

/// How often a time was taken, by its size to an eighth.
#[derive(Debug)]
pub struct Latencies {
    counts: Vec<u64>,
    /// By `BOUNDS`, and more than the last.
    pub buckets: [u64; BOUNDS.len()],
    count: u64,
    micros: u64,
    most: u64,
}

/// Microseconds at which a histogram is cut.
pub const BOUNDS: [u64; 15] = [
    100, 250, 500, 1_000, 2_500, 5_000, 10_000, 25_000, 50_000, 100_000, 250_000, 500_000, 1_000_000, 2_500_000,
    5_000_000,
];

fn place(micros: u64) -> usize {
    if micros < FINE {
        return micros as usize;
    }
    let power = 63 - micros.leading_zeros() as usize;
    (FINE as usize + (power - 4) * 8 + (micros >> (power - 3) & 7) as usize).min(PLACES - 1)
}

/// The least time that has a place.
fn least(place: usize) -> u64 {
    match place.checked_sub(FINE as usize) {
        None => place as u64,
        Some(above) => (8 + above as u64 % 8) << (above / 8 + 1),
    }
}

impl Default for Latencies {
    fn default() -> Latencies {
        Latencies { counts: vec![0; PLACES], buckets: [0; BOUNDS.len()], count: 0, micros: 0, most: 0 }
    }
}

impl Latencies {
    pub fn add(&mut self, time: Duration) {
        let micros = time.as_micros() as u64;
        self.counts[place(micros)] += 1;
        if let Some(at) = BOUNDS.iter().position(|bound| micros <= *bound) {
            self.buckets[at] += 1;
        }
        self.count += 1;
        self.micros = self.micros.saturating_add(micros);
        self.most = self.most.max(micros);
    }

    pub fn count(&self) -> u64 {
        self.count
    }

    pub fn sum(&self) -> Duration {
        Duration::from_micros(self.micros)
    }

    /// A time that so many of a thousand didn't pass, but by an eighth.
    fn quantile(&self, thousandths: u64) -> u64 {
        let wanted = (self.count * thousandths + 999) / 1_000;
        let mut passed = 0;
        for (place, count) in self.counts.iter().enumerate() {
            passed += count;
            if passed >= wanted && passed > 0 {
                return least(place + 1).saturating_sub(1).min(self.most);
            }
        }
        0
    }

    fn json(&self) -> String {
        let [half, nine, ninety_nine, last] = [500, 900, 990, 999].map(|it| self.quantile(it));
        let (count, most) = (self.count, self.most);
        format!(r#"{{"count":{count},"50":{half},"90":{nine},"99":{ninety_nine},"99.9":{last},"most":{most}}}"#)
    }
}

/// Counts by what was said.
#[derive(Default, Debug)]
pub struct Counts(Vec<(Vec<u8>, u64)>);

impl Counts {
    pub fn add(&mut self, kind: &[u8]) {
        match self.0.iter_mut().find(|(it, _)| it == kind) {
            Some((_, count)) => *count += 1,
            None => self.0.push((kind.to_vec(), 1)),
        }
    }

    pub fn all(&self) -> &[(Vec<u8>, u64)] {
        &self.0
    }

    fn json(&self) -> String {
        let member = |(kind, count): &(Vec<u8>, u64)| format!(r#""{}":{count}"#, String::from_utf8_lossy(kind));
        format!("{{{}}}", self.0.iter().map(member).collect::<Vec<_>>().join(","))
    }
}

#[derive(Default, Debug)]
pub struct Stats {
    pub opened: u64,
    /// Connections that were refused.
    pub refused: Counts,
    pub notes: u64,
    /// What the core answered, and what the front answered itself.
    pub answers: Counts,
    pub own: Counts,
    /// How often answers with entries came together: each time the core had synced before.
    pub batches: u64,
    pub latencies: Latencies,
}

/// What is counted elsewhere.
pub struct Now<'a> {
    pub open: usize,
    pub entries: u64,
    pub syncs: u64,
    /// The files of the journal and their bytes, and how many bytes it may have.
    pub journal: (u64, u64),
    pub limit: Option<u64>,
    /// The same of the sessions files.
    pub sessions: (u64, u64),
    pub core: u32,
    pub pools: Vec<(&'a str, [usize; 4])>,
}

/// The resident memory of a process, in KiB.
pub fn memory(pid: u32) -> u64 {
    let text = std::fs::read_to_string(format!("/proc/{pid}/status")).unwrap_or_default();
    let line = text.lines().find_map(|line| line.strip_prefix("VmRSS:")).unwrap_or("");
    line.split_whitespace().next().and_then(|word| word.parse().ok()).unwrap_or(0)
}

impl Stats {
    pub fn json(&self, now: &Now) -> String {
        let pool = |(name, [free, leased, returning, kept]): &(&str, [usize; 4])| {
            format!(r#""{name}":{{"free":{free},"leased":{leased},"returning":{returning},"kept":{kept}}}"#)
        };
        let pools = now.pools.iter().map(pool).collect::<Vec<_>>().join(",");
        let ((segments, bytes), (files, of_sessions)) = (now.journal, now.sessions);
        let limit = now.limit.map_or("null".to_string(), |limit| limit.to_string());
        format!(
            concat!(
                r#"{{"sessions":{{"open":{},"opened":{},"refused":{}}},"lines":{{"core":{},"own":{},"notes":{}}},"#,
                r#""entries":{},"syncs":{{"core":{},"sessions":{}}},"latency_us":{},"#,
                r#""segments":{},"journal_bytes":{},"journal_limit":{},"sessions_files":{},"sessions_bytes":{},"#,
                r#""core":{{"pid":{},"memory_kib":{}}},"pools":{{{}}}}}"#
            ),
            now.open,
            self.opened,
            self.refused.json(),
            self.answers.json(),
            self.own.json(),
            self.notes,
            now.entries,
            self.batches,
            now.syncs,
            self.latencies.json(),
            segments,
            bytes,
            limit,
            files,
            of_sessions,
            now.core,
            memory(now.core),
            pools
        )
    }
}

#[cfg(test)]
mod tests {
    use super::*;

    #[test]
    fn places_of_times_are_in_order() {
        for micros in (0..5_000).chain([u64::from(u32::MAX), 1 << 40]) {
            let at = place(micros);
            assert!(least(at) <= micros && micros < least(at + 1), "{micros}");
            assert!(micros < FINE || (least(at + 1) - least(at)) * 8 <= micros, "{micros}");
        }
        assert_eq!(place(u64::MAX), PLACES - 1);
    }

    #[test]
    fn quantiles() {
        let mut latencies = Latencies::default();
        assert_eq!(latencies.quantile(500), 0);
        (1..=1_000).for_each(|micros| latencies.add(Duration::from_micros(micros)));
        for (thousandths, wanted) in [(500, 500), (900, 900), (990, 990), (999, 999), (1, 1)] {
            let found = latencies.quantile(thousandths);
            assert!(wanted <= found && found <= wanted + wanted / 8, "{thousandths}: {found}");
        }
        assert_eq!(latencies.quantile(1_000), 1_000);
        assert_eq!((latencies.count(), latencies.sum()), (1_000, Duration::from_micros(500_500)));
        assert_eq!(latencies.buckets[..5], [100, 150, 250, 500, 0]);
    }

    #[test]
    fn counts_are_json() {
        let mut counts = Counts::default();
        assert_eq!(counts.json(), "{}");
        [&b"yes"[..], b"no star", b"yes"].iter().for_each(|kind| counts.add(kind));
        assert_eq!(counts.json(), r#"{"yes":2,"no star":1}"#);
    }
}
