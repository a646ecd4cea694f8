//! Stands where messages/types stands: the layouts of document 01's "Bodies", with exact lengths. The originals are not
//! at hand, so nothing here is compared. Which module a type goes to is the text's (message_payload.rs).

use bytes::Bytes;
use messages::{MessageDeserializationError, MessageSerializationError};
use messages::{PeerBandwidthLimitType, RtmpMessage, UserControlEventType};
use rml_amf0::{self, Amf0Value};
use time::RtmpTimestamp;

type Read = Result<RtmpMessage, MessageDeserializationError>;
type Written = Result<Bytes, MessageSerializationError>;

// The big-endian number of a body that must have exactly n bytes from `at` on.
fn rest(data: &Bytes, at: usize, n: usize) -> Result<u64, MessageDeserializationError> {
    if data.len() != at + n {
        return Err(MessageDeserializationError::InvalidMessageFormat);
    }
    Ok(data[at..].iter().fold(0, |sum, b| sum * 256 + *b as u64))
}

fn four(value: u32) -> Written {
    Ok(Bytes::from(value.to_be_bytes().to_vec()))
}

pub mod set_chunk_size {
    use super::*;
    // A size above 2,147,483,647 is for the session to refuse (document 01, refusal 7), so it is read here.
    pub fn deserialize(data: Bytes) -> Read {
        Ok(RtmpMessage::SetChunkSize { size: rest(&data, 0, 4)? as u32 })
    }
    pub fn serialize(size: u32) -> Written {
        if size > 2147483647 {
            return Err(MessageSerializationError::InvalidChunkSize);
        }
        four(size)
    }
}

pub mod abort {
    use super::*;
    pub fn deserialize(data: Bytes) -> Read {
        Ok(RtmpMessage::Abort { stream_id: rest(&data, 0, 4)? as u32 })
    }
    pub fn serialize(stream_id: u32) -> Written {
        four(stream_id)
    }
}

pub mod acknowledgement {
    use super::*;
    pub fn deserialize(data: Bytes) -> Read {
        Ok(RtmpMessage::Acknowledgement { sequence_number: rest(&data, 0, 4)? as u32 })
    }
    pub fn serialize(sequence_number: u32) -> Written {
        four(sequence_number)
    }
}

pub mod window_acknowledgement_size {
    use super::*;
    pub fn deserialize(data: Bytes) -> Read {
        Ok(RtmpMessage::WindowAcknowledgement { size: rest(&data, 0, 4)? as u32 })
    }
    pub fn serialize(size: u32) -> Written {
        four(size)
    }
}

pub mod set_peer_bandwidth {
    use super::*;
    pub fn deserialize(data: Bytes) -> Read {
        let both = rest(&data, 0, 5)?;
        let limit_type = match both % 256 {
            0 => PeerBandwidthLimitType::Hard,
            1 => PeerBandwidthLimitType::Soft,
            2 => PeerBandwidthLimitType::Dynamic,
            _ => return Err(MessageDeserializationError::InvalidMessageFormat),
        };
        Ok(RtmpMessage::SetPeerBandwidth { size: (both / 256) as u32, limit_type })
    }
    pub fn serialize(limit_type: PeerBandwidthLimitType, size: u32) -> Written {
        let mut out = size.to_be_bytes().to_vec();
        out.push(match limit_type {
            PeerBandwidthLimitType::Hard => 0,
            PeerBandwidthLimitType::Soft => 1,
            PeerBandwidthLimitType::Dynamic => 2,
        });
        Ok(Bytes::from(out))
    }
}

pub mod user_control {
    use super::*;
    pub fn deserialize(data: Bytes) -> Read {
        if data.len() < 2 {
            return Err(MessageDeserializationError::InvalidMessageFormat);
        }
        let (mut stream_id, mut buffer_length, mut timestamp) = (None, None, None);
        let event_type = match data[0] as u32 * 256 + data[1] as u32 {
            0 => UserControlEventType::StreamBegin,
            1 => UserControlEventType::StreamEof,
            2 => UserControlEventType::StreamDry,
            3 => UserControlEventType::SetBufferLength,
            4 => UserControlEventType::StreamIsRecorded,
            6 => UserControlEventType::PingRequest,
            7 => UserControlEventType::PingResponse,
            _ => return Err(MessageDeserializationError::InvalidMessageFormat),
        };
        match event_type {
            UserControlEventType::SetBufferLength => {
                let both = rest(&data, 2, 8)?;
                stream_id = Some((both >> 32) as u32);
                buffer_length = Some(both as u32);
            }
            UserControlEventType::PingRequest | UserControlEventType::PingResponse => {
                timestamp = Some(RtmpTimestamp::new(rest(&data, 2, 4)? as u32));
            }
            _ => stream_id = Some(rest(&data, 2, 4)? as u32),
        }
        Ok(RtmpMessage::UserControl { event_type, stream_id, buffer_length, timestamp })
    }

    // The session sends three of the events; a field that an event needs and lacks is written as 0.
    pub fn serialize(
        event_type: UserControlEventType,
        stream_id: Option<u32>,
        buffer_length: Option<u32>,
        timestamp: Option<RtmpTimestamp>,
    ) -> Written {
        let (event, value) = match event_type {
            UserControlEventType::StreamBegin => (0, stream_id),
            UserControlEventType::StreamEof => (1, stream_id),
            UserControlEventType::StreamDry => (2, stream_id),
            UserControlEventType::SetBufferLength => (3, stream_id),
            UserControlEventType::StreamIsRecorded => (4, stream_id),
            UserControlEventType::PingRequest => (6, timestamp.map(|t| t.value)),
            UserControlEventType::PingResponse => (7, timestamp.map(|t| t.value)),
            UserControlEventType::BufferEmpty | UserControlEventType::BufferReady => {
                panic!("the session sends neither BufferEmpty nor BufferReady")
            }
        };
        let mut out = vec![0, event];
        out.extend_from_slice(&value.unwrap_or(0).to_be_bytes());
        if event == 3 {
            out.extend_from_slice(&buffer_length.unwrap_or(0).to_be_bytes());
        }
        Ok(Bytes::from(out))
    }
}

pub mod audio_data {
    use super::*;
    pub fn deserialize(data: Bytes) -> Read {
        Ok(RtmpMessage::AudioData { data })
    }
    pub fn serialize(data: Bytes) -> Written {
        Ok(data)
    }
}

pub mod video_data {
    use super::*;
    pub fn deserialize(data: Bytes) -> Read {
        Ok(RtmpMessage::VideoData { data })
    }
    pub fn serialize(data: Bytes) -> Written {
        Ok(data)
    }
}

pub mod amf0_data {
    use super::*;
    pub fn deserialize(data: Bytes) -> Read {
        Ok(RtmpMessage::Amf0Data { values: rml_amf0::deserialize(&data)? })
    }
    pub fn serialize(values: Vec<Amf0Value>) -> Written {
        Ok(Bytes::from(rml_amf0::serialize(&values)?))
    }
}

pub mod amf0_command {
    use super::*;
    pub fn deserialize(data: Bytes) -> Read {
        let mut values = rml_amf0::deserialize(&data)?.into_iter();
        match (values.next(), values.next(), values.next()) {
            (Some(Amf0Value::Utf8String(command_name)), Some(Amf0Value::Number(transaction_id)), Some(command_object)) => {
                let additional_arguments = values.collect();
                Ok(RtmpMessage::Amf0Command { command_name, transaction_id, command_object, additional_arguments })
            }
            _ => Err(MessageDeserializationError::InvalidMessageFormat),
        }
    }
    pub fn serialize(name: String, transaction_id: f64, object: Amf0Value, mut arguments: Vec<Amf0Value>) -> Written {
        let mut values = vec![Amf0Value::Utf8String(name), Amf0Value::Number(transaction_id), object];
        values.append(&mut arguments);
        Ok(Bytes::from(rml_amf0::serialize(&values)?))
    }
}
