//! Results as lines. Numbers of refusals and places of events are document 01's.

use chunk_io::{ChunkDeserializationError, ChunkSerializationError, Packet};
use rml_amf0::Amf0Value;
use sessions::{ClientSessionError, ClientSessionEvent, ClientSessionResult, StreamMetadata};

pub fn hex(bytes: &[u8]) -> String {
    bytes.iter().map(|b| format!("{:02x}", b)).collect()
}

/// A value as canonical text: `#` and 16 digits of a number, true, false, `'` and the digits of a text, null, undefined,
/// `{name:value,..}` with names as digits and in their order, `[value,..]`.
pub fn canonical(value: &Amf0Value) -> String {
    match *value {
        Amf0Value::Number(x) => format!("#{:016x}", x.to_bits()),
        Amf0Value::Boolean(x) => x.to_string(),
        Amf0Value::Utf8String(ref x) => format!("'{}", hex(x.as_bytes())),
        Amf0Value::Null => "null".to_string(),
        Amf0Value::Undefined => "undefined".to_string(),
        Amf0Value::StrictArray(ref values) => canonical_list(values),
        Amf0Value::Object(ref properties) => {
            let mut sorted: Vec<_> = properties.iter().map(|(n, v)| (hex(n.as_bytes()), canonical(v))).collect();
            sorted.sort();
            let texts: Vec<_> = sorted.into_iter().map(|(n, v)| format!("{}:{}", n, v)).collect();
            format!("{{{}}}", texts.join(","))
        }
    }
}

fn canonical_list(values: &Vec<Amf0Value>) -> String {
    let texts: Vec<_> = values.iter().map(canonical).collect();
    format!("[{}]", texts.join(","))
}

fn metadata(m: &StreamMetadata) -> String {
    let mut out = String::new();
    {
        let mut put = |name: &str, value: Option<String>| {
            if let Some(value) = value {
                out.push_str(&format!("\t{}={}", name, value));
            }
        };
        put("width", m.video_width.map(|x| x.to_string()));
        put("height", m.video_height.map(|x| x.to_string()));
        put("videocodecid", m.video_codec_id.map(|x| x.to_string()));
        put("framerate", m.video_frame_rate.map(|x| format!("{:08x}", x.to_bits())));
        put("videodatarate", m.video_bitrate_kbps.map(|x| x.to_string()));
        put("audiocodecid", m.audio_codec_id.map(|x| x.to_string()));
        put("audiodatarate", m.audio_bitrate_kbps.map(|x| x.to_string()));
        put("audiosamplerate", m.audio_sample_rate.map(|x| x.to_string()));
        put("audiochannels", m.audio_channels.map(|x| x.to_string()));
        put("stereo", m.audio_is_stereo.map(|x| (x as u8).to_string()));
        put("encoder", m.encoder.as_ref().map(|x| hex(x.as_bytes())));
    }
    out
}

fn event(e: &ClientSessionEvent) -> String {
    match *e {
        ClientSessionEvent::ConnectionRequestAccepted => "0".to_string(),
        ClientSessionEvent::ConnectionRequestRejected { ref description } => {
            format!("1\t{}", hex(description.as_bytes()))
        }
        ClientSessionEvent::PlaybackRequestAccepted => "2".to_string(),
        ClientSessionEvent::PublishRequestAccepted => "3".to_string(),
        ClientSessionEvent::StreamMetadataReceived { metadata: ref m } => format!("4{}", metadata(m)),
        ClientSessionEvent::VideoDataReceived { timestamp, ref data } => {
            format!("5\t{}\t{}", timestamp.value, hex(data))
        }
        ClientSessionEvent::AudioDataReceived { timestamp, ref data } => {
            format!("6\t{}\t{}", timestamp.value, hex(data))
        }
        ClientSessionEvent::UnhandleableAmf0Command {
            ref command_name,
            transaction_id,
            ref command_object,
            ref additional_values,
        } => format!(
            "7\t{}\t{:016x}\t{}\t{}",
            hex(command_name.as_bytes()),
            transaction_id.to_bits(),
            canonical(command_object),
            canonical_list(additional_values)
        ),
        ClientSessionEvent::UnknownTransactionResultReceived {
            transaction_id,
            ref command_object,
            ref additional_values,
        } => format!(
            "8\t{:016x}\t{}\t{}",
            transaction_id.to_bits(),
            canonical(command_object),
            canonical_list(additional_values)
        ),
        ClientSessionEvent::UnhandleableOnStatusCode { ref code } => format!("9\t{}", hex(code.as_bytes())),
        ClientSessionEvent::AcknowledgementReceived { bytes_received } => format!("10\t{}", bytes_received),
        ClientSessionEvent::PingResponseReceived { timestamp } => format!("11\t{}", timestamp.value),
    }
}

pub fn packet(p: &Packet) -> String {
    format!(
        "out\t{}\t{}\t{}\t{}\t{}\t{}",
        p.message.type_id,
        p.message.timestamp.value,
        p.message.message_stream_id,
        p.can_be_dropped as u8,
        p.force_uncompressed as u8,
        hex(&p.message.data)
    )
}

pub fn result(r: &ClientSessionResult) -> String {
    match *r {
        ClientSessionResult::OutboundResponse(ref p) => packet(p),
        ClientSessionResult::RaisedEvent(ref e) => format!("event\t{}", event(e)),
        ClientSessionResult::UnhandleableMessageReceived(ref m) => format!("unhandled\t{}", m.type_id),
    }
}

/// Document 01's number of a refusal. What is on no line of its table is printed as the text has it.
pub fn refusal(e: &ClientSessionError) -> String {
    let number = match *e {
        ClientSessionError::CantConnectWhileAlreadyConnected => 1,
        ClientSessionError::SessionInInvalidState { .. } => 2,
        ClientSessionError::NoKnownActiveStreamIdWhenRequired => 3,
        ClientSessionError::CreateStreamFailed => 4,
        ClientSessionError::CreateStreamResponseHadNoStreamNumber => 5,
        ClientSessionError::InvalidOnStatusArguments => 6,
        ClientSessionError::ChunkDeserializationError(ChunkDeserializationError::InvalidMaxChunkSize { .. }) => 7,
        ClientSessionError::ChunkSerializationError(ChunkSerializationError::InvalidMaxChunkSize { .. }) => 7,
        ClientSessionError::MessageDeserializationError(_) => 8,
        ClientSessionError::ChunkSerializationError(ChunkSerializationError::MessageTooLong { .. }) => 9,
        ref other => return format!("refused\t{:?}", other),
    };
    format!("refused\t{}", number)
}
