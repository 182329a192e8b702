//! Indices that two runs of one host share.

use crate::net::{host_of, Host, Sent};
use crate::packets::packets;
use crate::play::{Record, Run};
use std::collections::BTreeMap;

/// The indices of the connections to FILE that a datagram asks for.
fn opened(sent: &Sent) -> impl Iterator<Item = u16> {
    packets(&sent.bytes).into_iter().filter(|it| it.kind == "RFC" && it.text.ends_with(" FILE")).map(|it| it.index)
}

/// The place of the client's run that sent this.
fn run_of(runs: &[Run], sent: &Sent) -> Option<usize> {
    let host = host_of(sent.from.0);
    runs.iter().position(|run| run.work.is_some() && run.host == host && (run.begun..=run.ended).contains(&sent.at))
}

/// Whether two runs of one host opened connections of the same index, by the trace of a record. Each run draws its indices, and one in 256
/// is the same. Then a late packet of the first connection can end the second, or answer its commands: nobody promises anything there.
pub fn is_one_shared(record: &Record) -> bool {
    let mut users: BTreeMap<(Host, u16), usize> = BTreeMap::new();
    record.trace.iter().any(|sent| {
        run_of(&record.runs, sent).is_some_and(|run| {
            let host = record.runs[run].host;
            opened(sent).any(|index| *users.entry((host, index)).or_insert(run) != run)
        })
    })
}

#[cfg(test)]
mod tests {
    use super::*;
    use crate::process::End;
    use crate::scenario::{Task, Work};

    fn run(host: Host, begun: u64, ended: u64) -> Run {
        let work = Work { place: 0, pause: 0, task: Task::Rename(0, 1), options: vec![] };
        let (output, errors, got) = (vec![], vec![], vec![]);
        Run { host, work: Some(work), begun, ended, end: End::Killed, output, errors, peak: 0, got, is_final: false }
    }

    /// A request for FILE from a host's connection of that index.
    fn request(at: u64, host: u8, index: u8) -> Sent {
        let words = [1, 0, 0, 4, 1, 1, 0, 0, 1, 2, 0, index, 0, 9, 0, 0, 0x49, 0x46, 0x45, 0x4c];
        let bytes = [&[0x43, 0x48, 1, 0][..], &words].concat();
        Sent { at, from: (crate::net::ip(host.into()), 9), to: (0, 0), bytes, arrivals: vec![], fate: None }
    }

    #[test]
    fn an_index_is_shared_by_two_runs_of_one_host() {
        let is_shared = |second: Sent| {
            let runs = vec![run(1, 0, 10), run(2, 0, 30), run(1, 20, 30)];
            is_one_shared(&Record { runs, trace: vec![request(5, 1, 7), second], ..Record::default() })
        };
        assert!(is_shared(request(25, 1, 7)));
        assert!(!is_shared(request(25, 1, 8)) && !is_shared(request(25, 2, 7)) && !is_shared(request(9, 1, 7)));
        assert!(!is_shared(request(15, 1, 7)));
    }
}
