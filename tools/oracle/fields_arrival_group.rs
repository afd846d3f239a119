// Private fields of the groups, for the driver. A group's size and sequences reach no answer: one packet with sequence 0.
use crate::bwe::drive::{at, option_words, optional, since_zero};
use crate::rtp_::TwccSeq;

impl super::ArrivalGroup {
    fn from_words(w: &[u64]) -> Option<Self> {
        (w[0] == 1).then(|| Self {
            first: Some((TwccSeq(0), at(w[1]), at(w[2]))),
            last_seq_no: Some(TwccSeq(0)),
            last_local_send_time: Some(at(w[3])),
            last_remote_recv_time: Some(at(w[4])),
            size: 1,
        })
    }

    fn words(&self) -> [u64; 5] {
        let Some((_, send, remote)) = self.first else {
            return [0; 5];
        };
        [1, since_zero(send), since_zero(remote), since_zero(self.local_send_time()), since_zero(self.remote_recv_time())]
    }
}

impl super::ArrivalGroupAccumulator {
    pub fn from_words(w: &[u64]) -> Self {
        Self {
            send_time_origin: optional(w).map(at),
            previous_group: super::ArrivalGroup::from_words(&w[2..]),
            current_group: super::ArrivalGroup::from_words(&w[7..]).unwrap_or_default(),
        }
    }

    pub fn words(&self) -> Vec<u64> {
        let mut w = option_words(self.send_time_origin.map(since_zero)).to_vec();
        w.extend(self.previous_group.as_ref().map_or([0; 5], |g| g.words()));
        w.extend(self.current_group.words());
        w
    }
}
