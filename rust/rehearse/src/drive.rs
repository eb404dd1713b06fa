//! Where a path that did not pass stops: the library's whole step at each station in turn, with every clock at one
//! reading. The journey check has the verdict; this only finds the place to look at.

use crate::answers::{self, Answer};
use crate::header::Header;
use crate::plan::Station;
use crate::sentences::Call;
use standard_path::{AsRoutingAction, Edition, Interfaces, LocalAsRoutingAction, ScionNetworkTime};

/// The station, counted from 0, and its answer.
pub struct Stop {
    pub station: usize,
    pub answer: Answer,
}

/// The first station that does not send the path on, or at the last that does not deliver it.
pub fn stop(edition: Edition, path: &[u8], stations: &[Station], reading: u32) -> Option<Stop> {
    // The step reads and writes the header alone.
    let mut path = Header(path).parts().0.to_vec();
    let now = ScionNetworkTime::from_timestamp_secs(reading);
    for (station, at) in stations.iter().enumerate() {
        let (ids, states): (Vec<u16>, Vec<u8>) = at.interfaces.iter().copied().unzip();
        let table = Interfaces {
            ids: &ids,
            states: &states,
        };
        let before = path.clone();
        let answer = edition.handle_standard_path(&mut path, at.arrival, now, &at.key, table, false);
        let is_last = station + 1 == stations.len();
        match answer {
            Ok(AsRoutingAction::ForwardNextHop { .. }) if !is_last => {}
            Ok(AsRoutingAction::Local(LocalAsRoutingAction::ForwardLocal)) if is_last => {}
            answer => {
                return Some(Stop {
                    station,
                    answer: answers::of_step(answer).of_call(Call::Journey, edition, &before, &path),
                })
            }
        }
    }
    None
}
