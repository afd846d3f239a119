//! Shims for what the Rust's twcc.rs leans on: no more of each than it uses.
pub mod twcc;

#[derive(Debug, Clone, Copy, PartialEq, Eq)]
pub struct Ssrc(u32);

impl From<u32> for Ssrc {
    fn from(v: u32) -> Self {
        Ssrc(v)
    }
}

impl std::ops::Deref for Ssrc {
    type Target = u32;

    fn deref(&self) -> &u32 {
        &self.0
    }
}

pub enum RtcpType {
    TransportLayerFeedback = 205,
}

pub enum TransportType {
    TransportWide = 15,
}

pub enum FeedbackMessageType {
    TransportFeedback(TransportType),
}

pub struct RtcpHeader {
    pub rtcp_type: RtcpType,
    pub feedback_message_type: FeedbackMessageType,
    pub words_less_one: u16,
}

impl RtcpHeader {
    /// Version 2, no padding.
    pub fn write_to(self, buf: &mut [u8]) {
        let FeedbackMessageType::TransportFeedback(format) = self.feedback_message_type;
        buf[..2].copy_from_slice(&[0x80 | format as u8, self.rtcp_type as u8]);
        buf[2..4].copy_from_slice(&self.words_less_one.to_be_bytes());
    }
}

pub trait RtcpPacket {
    fn header(&self) -> RtcpHeader;
    fn length_words(&self) -> usize;
    fn write_to(&self, buf: &mut [u8]) -> usize;
}

/// The number with these low 16 bits that is nearest to the last one.
pub fn extend_u16(last: Option<u64>, low: u16) -> u64 {
    let last = last.unwrap_or(low as u64);
    last.wrapping_add_signed(low.wrapping_sub(last as u16) as i16 as i64)
}
