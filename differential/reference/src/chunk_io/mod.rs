//! Stands where chunk_io stands. The session's serializer is a recorder: a packet is the message and its two flags in
//! place of chunks. Its deserializer hands over what the harness has set. The error types are the text's.
//! The text's own serializer and deserializer are compiled beside them, for `self_test`, with a chunk_header.rs of the
//! harness. With `--cfg chunks` the session has those two themselves, for the benchmark.

mod chunk_header;
mod deserialization_errors;
mod deserializer;
mod serialization_errors;
mod serializer;

pub use self::deserialization_errors::ChunkDeserializationError;
pub use self::serialization_errors::ChunkSerializationError;
#[cfg(chunks)]
pub use self::{
    deserializer::ChunkDeserializer,
    serializer::{ChunkSerializer, Packet},
};

#[cfg(not(chunks))]
use bytes::Bytes;
#[cfg(not(chunks))]
use messages::{MessagePayload, RtmpMessage};
#[cfg(not(chunks))]
use std::collections::VecDeque;
#[cfg(not(chunks))]
use time::RtmpTimestamp;

/// A recorded message.
#[cfg(not(chunks))]
#[derive(Debug, PartialEq)]
pub struct Packet {
    pub message: MessagePayload,
    pub force_uncompressed: bool,
    pub can_be_dropped: bool,
}

#[cfg(not(chunks))]
pub struct ChunkSerializer;

#[cfg(not(chunks))]
impl ChunkSerializer {
    pub fn new() -> ChunkSerializer {
        ChunkSerializer
    }

    // The limit, the time and the flags are those of the text's serializer; `self_test` compares them.
    pub fn set_max_chunk_size(&mut self, new_size: u32, time: RtmpTimestamp) -> Result<Packet, ChunkSerializationError> {
        if new_size > 2147483647 {
            return Err(ChunkSerializationError::InvalidMaxChunkSize { attempted_chunk_size: new_size });
        }
        let message = RtmpMessage::SetChunkSize { size: new_size };
        let payload = MessagePayload::from_rtmp_message(message, time, 0)?;
        self.serialize(&payload, true, false)
    }

    pub fn serialize(
        &mut self,
        message: &MessagePayload,
        force_uncompressed: bool,
        can_be_dropped: bool,
    ) -> Result<Packet, ChunkSerializationError> {
        if message.data.len() > 16777215 {
            return Err(ChunkSerializationError::MessageTooLong { size: message.data.len() as u32 });
        }
        let message = MessagePayload {
            timestamp: message.timestamp,
            type_id: message.type_id,
            message_stream_id: message.message_stream_id,
            data: message.data.clone(),
        };
        Ok(Packet { message, force_uncompressed, can_be_dropped })
    }
}

#[cfg(not(chunks))]
pub struct ChunkDeserializer {
    /// The messages that the next calls hand over, one each.
    pub next: VecDeque<MessagePayload>,
    /// The text's own, for its test of a chunk size.
    inner: deserializer::ChunkDeserializer,
}

#[cfg(not(chunks))]
impl ChunkDeserializer {
    pub fn new() -> ChunkDeserializer {
        ChunkDeserializer { next: VecDeque::new(), inner: deserializer::ChunkDeserializer::new() }
    }

    // The bytes count in the session alone.
    pub fn get_next_message(&mut self, _bytes: &[u8]) -> Result<Option<MessagePayload>, ChunkDeserializationError> {
        Ok(self.next.pop_front())
    }

    pub fn set_max_chunk_size(&mut self, new_size: usize) -> Result<(), ChunkDeserializationError> {
        self.inner.set_max_chunk_size(new_size)
    }

    /// The peer's chunk size as the text holds it.
    pub fn get_max_chunk_size(&self) -> usize {
        self.inner.get_max_chunk_size()
    }
}

/// The recorder against the text's serializer, whose chunks the text's deserializer reads: the same refusals and the same
/// message for each chunk size, a header of format 0 exactly where the recorder says so, and the same limit of a body.
#[cfg(not(chunks))]
pub fn self_test() {
    for size in &[0, 1, 128, 4096, 2147483647, 2147483648, 4294967295] {
        for time in &[0, 7, 16777215, 4294967295] {
            let mut text = serializer::ChunkSerializer::new();
            let first = MessagePayload {
                timestamp: RtmpTimestamp::new(*time),
                type_id: 1,
                message_stream_id: 0,
                data: Bytes::from(vec![0, 0, 0, 1]),
            };
            let before = text.serialize(&first, false, false).unwrap();
            let theirs = text.set_max_chunk_size(*size, RtmpTimestamp::new(*time));
            let ours = ChunkSerializer::new().set_max_chunk_size(*size, RtmpTimestamp::new(*time));
            match (theirs, ours) {
                (Ok(theirs), Ok(ours)) => {
                    let mut reader = deserializer::ChunkDeserializer::new();
                    reader.get_next_message(&before.bytes).unwrap();
                    let read = reader.get_next_message(&theirs.bytes).unwrap();
                    assert_eq!(read.as_ref(), Some(&ours.message));
                    assert_eq!(theirs.bytes[0] >> 6 == 0, ours.force_uncompressed);
                    assert_eq!(theirs.can_be_dropped, ours.can_be_dropped);
                }
                (Err(theirs), Err(ours)) => assert_eq!(format!("{:?}", theirs), format!("{:?}", ours)),
                _ => panic!("the recorder and the text differ on chunk size {}", size),
            }
        }
    }
    for length in &[16777215, 16777216] {
        let message = MessagePayload {
            timestamp: RtmpTimestamp::new(0),
            type_id: 9,
            message_stream_id: 1,
            data: Bytes::from(vec![0; *length]),
        };
        let theirs = serializer::ChunkSerializer::new().serialize(&message, false, true).is_ok();
        assert_eq!(theirs, ChunkSerializer::new().serialize(&message, false, true).is_ok());
    }
}
