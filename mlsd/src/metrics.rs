//! What the front counts, for Prometheus: a file in its text format, which node_exporter's textfile collector reads.
use crate::desk::Desk;
use crate::say::say;
use crate::stats::{memory, Counts, BOUNDS};
use std::fmt::Write as _;
use std::fs::{self, OpenOptions, Permissions};
use std::io::{self, Write as _};
use std::os::unix::fs::{OpenOptionsExt, PermissionsExt};
use std::time::{Duration, Instant, SystemTime, UNIX_EPOCH};

/// How often it is written.
const EACH: Duration = Duration::from_secs(15);
/// The collector is another user.
const MODE: u32 = 0o644;
const RESTARTS: &str = "mlsd_restarts_total";

#[derive(Debug)]
pub struct Metrics {
    path: String,
    next: Instant,
    began: u64,
    /// Starts over the same file, behind the first.
    restarts: u64,
    is_failing: bool,
}

fn seconds() -> u64 {
    SystemTime::now().duration_since(UNIX_EPOCH).unwrap_or_default().as_secs()
}

/// How many restarts the next one is, by the file that the last run has left.
fn restarts(text: &str) -> Option<u64> {
    let count = text.lines().find_map(|line| line.strip_prefix(RESTARTS)?.strip_prefix(' '))?;
    count.parse::<u64>().ok()?.checked_add(1)
}

impl Metrics {
    pub fn new(path: &str, now: Instant) -> Metrics {
        let restarts = restarts(&fs::read_to_string(path).unwrap_or_default()).unwrap_or(0);
        Metrics { path: path.to_string(), next: now, began: seconds(), restarts, is_failing: false }
    }

    /// Puts a whole file in the place of the last: whoever reads it reads one of them.
    fn put(&mut self, text: &str) {
        let done = write(&self.path, text);
        if let (Err(error), false) = (&done, self.is_failing) {
            say(format!("{}: {error}: it is tried again, and not told again", self.path));
        }
        self.is_failing = done.is_err();
    }
}

fn write(path: &str, text: &str) -> io::Result<()> {
    let beside = format!("{path}.new");
    let mut file = OpenOptions::new().write(true).create(true).truncate(true).mode(MODE).open(&beside)?;
    file.write_all(text.as_bytes())?;
    file.set_permissions(Permissions::from_mode(MODE))?;
    fs::rename(beside, path)
}

/// The text of a file.
#[derive(Default)]
struct Page(String);

impl Page {
    fn family(&mut self, name: &str, kind: &str, help: &str) {
        let _ = writeln!(self.0, "# HELP {name} {help}\n# TYPE {name} {kind}");
    }

    fn sample(&mut self, name: &str, labels: &[(&str, &str)], value: impl std::fmt::Display) {
        let shown: Vec<String> = labels.iter().map(|(label, text)| format!("{label}=\"{text}\"")).collect();
        let shown = if shown.is_empty() { String::new() } else { format!("{{{}}}", shown.join(",")) };
        let _ = writeln!(self.0, "{name}{shown} {value}");
    }

    fn one(&mut self, name: &str, kind: &str, help: &str, value: impl std::fmt::Display) {
        self.family(name, kind, help);
        self.sample(name, &[], value);
    }

    fn counts(&mut self, name: &str, label: &str, more: Option<(&str, &str)>, counts: &Counts) {
        for (kind, count) in counts.all() {
            let kind = String::from_utf8_lossy(kind);
            let labels: Vec<(&str, &str)> = more.into_iter().chain([(label, &kind[..])]).collect();
            self.sample(name, &labels, count);
        }
    }
}

impl Desk {
    fn measured(&self, is_up: bool) -> String {
        let mut page = Page::default();
        page.one("mlsd_up", "gauge", "Whether mlsd serves: 0 once it has ended.", u8::from(is_up));
        if let Some(metrics) = &self.metrics {
            page.one("mlsd_start_time_seconds", "gauge", "When mlsd started, since 1970.", metrics.began);
            page.one(RESTARTS, "counter", "Starts of mlsd behind the first that wrote this file.", metrics.restarts);
        }
        page.one("mlsd_written_time_seconds", "gauge", "When this file was written, since 1970.", seconds());
        self.of_lines(&mut page);
        self.of_clients(&mut page);
        self.of_files(&mut page);
        page.0
    }

    fn of_lines(&self, page: &mut Page) {
        let stats = &self.stats;
        page.family("mlsd_answers_total", "counter", "Answers, by what they say and who gave them.");
        page.counts("mlsd_answers_total", "kind", Some(("from", "core")), &stats.answers);
        page.counts("mlsd_answers_total", "kind", Some(("from", "mlsd")), &stats.own);
        page.one("mlsd_notes_total", "counter", "Notes in the sessions file.", stats.notes);
        page.one("mlsd_core_syncs_total", "counter", "Batches of entries that the core has synced.", stats.batches);
        page.one("mlsd_sessions_syncs_total", "counter", "Syncs of the sessions file.", self.sessions.syncs);
        let name = "mlsd_answer_duration_seconds";
        page.family(name, "histogram", "How long lines waited for the core's answer.");
        let (mut count, bucket) = (0, format!("{name}_bucket"));
        for (bound, more) in BOUNDS.iter().zip(stats.latencies.buckets) {
            count += more;
            page.sample(&bucket, &[("le", &format!("{}", *bound as f64 / 1e6))], count);
        }
        page.sample(&bucket, &[("le", "+Inf")], stats.latencies.count());
        page.sample(&format!("{name}_sum"), &[], stats.latencies.sum().as_secs_f64());
        page.sample(&format!("{name}_count"), &[], stats.latencies.count());
        let oldest = self.oldest().as_secs_f64();
        page.one("mlsd_oldest_unanswered_seconds", "gauge", "How long the oldest line waits for its answer.", oldest);
    }

    fn of_clients(&self, page: &mut Page) {
        page.one("mlsd_clients", "gauge", "Connections.", self.open);
        page.one("mlsd_clients_limit", "gauge", "Connections that there may be.", self.most);
        page.one("mlsd_sessions_total", "counter", "Sessions that were opened.", self.stats.opened);
        page.family("mlsd_refused_total", "counter", "Connections that were refused, by what they were told.");
        page.counts("mlsd_refused_total", "reason", None, &self.stats.refused);
        page.family("mlsd_pool_subjects", "gauge", "Subjects of a pool, by what they are.");
        for (pool, counts) in self.pools.counts() {
            for (state, count) in ["free", "leased", "returning", "kept"].iter().zip(counts) {
                page.sample("mlsd_pool_subjects", &[("pool", pool), ("state", state)], count);
            }
        }
    }

    fn of_files(&self, page: &mut Page) {
        let ((files, bytes), (of_sessions, bytes_of_sessions)) = (self.journal.size(), self.sessions.size());
        page.one("mlsd_journal_entries", "gauge", "Entries of the journal.", self.entries);
        page.one("mlsd_journal_files", "gauge", "Files of the journal.", files);
        page.one("mlsd_journal_bytes", "gauge", "Bytes of all files of the journal.", bytes);
        if let Some(limit) = self.journal.limit() {
            let help = "Bytes that the journal may have; none in segments.";
            page.one("mlsd_journal_limit_bytes", "gauge", help, limit);
        }
        page.one("mlsd_sessions_files", "gauge", "Sessions files.", of_sessions);
        page.one("mlsd_sessions_bytes", "gauge", "Bytes of all sessions files.", bytes_of_sessions);
        let name = "mlsd_resident_memory_bytes";
        page.family(name, "gauge", "Memory of mlsd and of its core.");
        page.sample(name, &[("of", "mlsd")], memory(std::process::id()) * 1_024);
        page.sample(name, &[("of", "core")], memory(self.core.pid()) * 1_024);
    }

    /// Writes the metrics where they are wanted and it is time.
    pub fn measure(&mut self) {
        if self.metrics.as_ref().map_or(true, |metrics| self.now < metrics.next) {
            return;
        }
        self.put_metrics(true);
    }

    /// Writes them, at the end too.
    pub fn put_metrics(&mut self, is_up: bool) {
        if self.metrics.is_none() {
            return;
        }
        let (text, now) = (self.measured(is_up), self.now);
        if let Some(metrics) = &mut self.metrics {
            metrics.next = now + EACH;
            metrics.put(&text);
        }
    }

    /// How long none are to be written.
    pub fn until_metrics(&self) -> Option<Duration> {
        self.metrics.as_ref().map(|metrics| metrics.next.saturating_duration_since(self.now))
    }
}

#[cfg(test)]
mod tests {
    use super::*;

    #[test]
    fn restarts_are_counted_by_the_file_that_is_there() {
        assert_eq!((restarts(""), restarts("mlsd_up 1\n")), (None, None));
        assert_eq!(restarts("# TYPE mlsd_restarts_total counter\nmlsd_restarts_total 41\nmlsd_up 1\n"), Some(42));
    }

    #[test]
    fn samples_have_their_labels() {
        let mut page = Page::default();
        page.one("a", "gauge", "What it is.", 1.5);
        page.sample("b", &[("c", "d e"), ("f", "g")], 7);
        assert_eq!(page.0, "# HELP a What it is.\n# TYPE a gauge\na 1.5\nb{c=\"d e\",f=\"g\"} 7\n");
    }
}
