//! The Rust session behind the lines of the program `card`: the same lines in, and for each the session's results with
//! every value, then the active stream and the open requests.

extern crate byteorder;
extern crate bytes;
extern crate thiserror;

mod chunk_io;
mod messages;
mod print;
mod rml_amf0;
mod sessions;
mod time;
mod world;

use bytes::Bytes;
use messages::MessagePayload;
use sessions::{ClientSession, ClientSessionConfig, ClientSessionError, PublishRequestType, StreamMetadata};
use std::io::{BufRead, BufWriter, Write};
use std::panic::{catch_unwind, AssertUnwindSafe};
use time::RtmpTimestamp;

// Result lines without line number and stage; a line that can't be read has None.
type Lines = Option<Vec<String>>;

struct Fields<'a> {
    all: Vec<&'a [u8]>,
    at: usize,
}

impl<'a> Fields<'a> {
    fn bytes(&mut self) -> Option<&'a [u8]> {
        self.at += 1;
        self.all.get(self.at - 1).map(|x| *x)
    }

    fn text(&mut self) -> Option<String> {
        String::from_utf8(self.bytes()?.to_vec()).ok()
    }

    fn number(&mut self) -> Option<u32> {
        self.text()?.parse().ok()
    }

    fn flag(&mut self) -> Option<bool> {
        match self.number()? {
            0 => Some(false),
            1 => Some(true),
            _ => None,
        }
    }

    fn body(&mut self) -> Option<Bytes> {
        let digits = self.text()?;
        if digits.len() % 2 != 0 || !digits.is_ascii() {
            return None;
        }
        let bytes: Result<Vec<u8>, _> =
            (0..digits.len() / 2).map(|i| u8::from_str_radix(&digits[2 * i..2 * i + 2], 16)).collect();
        bytes.ok().map(Bytes::from)
    }

    fn left(&self) -> usize {
        self.all.len() - self.at
    }

    // No field is left over.
    fn end(&self) -> Option<()> {
        if self.at == self.all.len() {
            Some(())
        } else {
            None
        }
    }
}

fn refused(e: ClientSessionError) -> Vec<String> {
    vec![print::refusal(&e)]
}

fn several(results: Result<Vec<sessions::ClientSessionResult>, ClientSessionError>) -> Lines {
    Some(match results {
        Ok(ref results) if results.is_empty() => vec!["none".to_string()],
        Ok(results) => results.iter().map(print::result).collect(),
        Err(e) => refused(e),
    })
}

fn one(result: Result<sessions::ClientSessionResult, ClientSessionError>) -> Lines {
    several(result.map(|r| vec![r]))
}

fn metadata(fields: &mut Fields) -> Option<StreamMetadata> {
    let mut m = StreamMetadata::new();
    while fields.left() > 0 {
        let text = fields.text()?;
        let cut = text.find('=')?;
        let (name, value) = (&text[..cut], &text[cut + 1..]);
        match name {
            "width" => m.video_width = Some(value.parse().ok()?),
            "height" => m.video_height = Some(value.parse().ok()?),
            "videocodecid" => m.video_codec_id = Some(value.parse().ok()?),
            "framerate" if value.len() == 8 => {
                m.video_frame_rate = Some(f32::from_bits(u32::from_str_radix(value, 16).ok()?))
            }
            "videodatarate" => m.video_bitrate_kbps = Some(value.parse().ok()?),
            "audiocodecid" => m.audio_codec_id = Some(value.parse().ok()?),
            "audiodatarate" => m.audio_bitrate_kbps = Some(value.parse().ok()?),
            "audiosamplerate" => m.audio_sample_rate = Some(value.parse().ok()?),
            "audiochannels" => m.audio_channels = Some(value.parse().ok()?),
            "stereo" => m.audio_is_stereo = Some(value.parse::<u8>().ok()? != 0),
            "encoder" => m.encoder = Some(value.to_string()),
            _ => return None,
        }
    }
    Some(m)
}

fn open(session: &mut ClientSession, fields: &mut Fields) -> Lines {
    let mut config = ClientSessionConfig::new();
    if fields.left() > 0 {
        config.flash_version = fields.text()?;
        config.playback_buffer_length_ms = fields.number()?;
        config.window_ack_size = fields.number()?;
        config.chunk_size = fields.number()?;
        config.tc_url = if fields.left() > 0 { Some(fields.text()?) } else { None };
        fields.end()?;
    }
    world::set_clock(0);
    match ClientSession::new(config) {
        Ok((new, results)) => {
            *session = new;
            several(Ok(results))
        }
        Err(e) => Some(refused(e)),
    }
}

fn publish_type(name: &[u8]) -> Option<PublishRequestType> {
    match name {
        b"live" => Some(PublishRequestType::Live),
        b"record" => Some(PublishRequestType::Record),
        b"append" => Some(PublishRequestType::Append),
        _ => None,
    }
}

fn media(session: &mut ClientSession, fields: &mut Fields, is_video: bool) -> Lines {
    let time = RtmpTimestamp::new(fields.number()?);
    let droppable = fields.flag()?;
    let data = fields.body()?;
    fields.end()?;
    one(if is_video {
        session.publish_video_data(data, time, droppable)
    } else {
        session.publish_audio_data(data, time, droppable)
    })
}

fn payload(fields: &mut Fields) -> Option<MessagePayload> {
    let type_id = fields.text()?.parse().ok()?;
    let timestamp = RtmpTimestamp::new(fields.number()?);
    let message_stream_id = fields.number()?;
    let data = fields.body()?;
    Some(MessagePayload { timestamp, type_id, message_stream_id, data })
}

fn message(session: &mut ClientSession, fields: &mut Fields) -> Lines {
    let message = payload(fields)?;
    fields.end()?;
    several(session.feed(vec![message]))
}

fn turn(session: &mut ClientSession, fields: &mut Fields) -> Lines {
    let mut messages = Vec::new();
    while fields.left() > 0 {
        messages.push(payload(fields)?);
    }
    several(session.feed(messages))
}

// The ping hands its time back beside the packet; it must be the clock.
fn ping(session: &mut ClientSession, clock: u32) -> Lines {
    Some(match session.send_ping_request() {
        Ok((packet, time)) => {
            assert_eq!(time.value, clock);
            vec![print::packet(&packet)]
        }
        Err(e) => refused(e),
    })
}

fn call(session: &mut ClientSession, all_bytes: &[u8], fields: &mut Fields) -> Lines {
    let clock = fields.number()?;
    let verb = fields.bytes()?;
    world::set_clock(clock as u64);
    match verb {
        b"bytes" => {
            let count = fields.number()? as usize;
            fields.end()?;
            several(session.handle_input(&all_bytes[..count]))
        }
        b"msg" => message(session, fields),
        b"connect" => {
            let app = fields.text()?;
            fields.end()?;
            one(session.request_connection(app))
        }
        b"play" => {
            let key = fields.text()?;
            fields.end()?;
            one(session.request_playback(key))
        }
        b"publish" => {
            let key = fields.text()?;
            let kind = publish_type(fields.bytes()?)?;
            fields.end()?;
            one(session.request_publishing(key, kind))
        }
        b"stop_playback" => fields.end().and_then(|_| several(session.stop_playback())),
        b"stop_publishing" => fields.end().and_then(|_| several(session.stop_publishing())),
        b"ping" => fields.end().and_then(|_| ping(session, clock)),
        b"video" => media(session, fields, true),
        b"audio" => media(session, fields, false),
        b"metadata" => metadata(fields).and_then(|m| one(session.publish_metadata(&m))),
        b"open" => open(session, fields),
        // The lent output's length: the text lends none.
        b"space" => Some(Vec::new()),
        // Two verbs that `card` hasn't, for the list of differences: several messages in one turn, and the next number.
        b"turn" => turn(session, fields),
        b"next" => {
            session.set_next_number(fields.number()?);
            Some(vec!["none".to_string()])
        }
        _ => None,
    }
}

fn open_line(session: &ClientSession) -> String {
    let active = session.active().map(|n| n.to_string()).unwrap_or("-".to_string());
    let requests: Vec<_> = session.requests().iter().map(|&(n, kind)| format!("{}:{}", n, kind)).collect();
    let requests = if requests.is_empty() { "-".to_string() } else { requests.join(",") };
    format!("open\t{}\t{}", active, requests)
}

fn main() {
    world::self_test();
    if std::env::args().nth(1).map(|x| x == "--self-test").unwrap_or(false) {
        chunk_io::self_test();
        println!("clock and recorder as they should be");
        return;
    }
    std::panic::set_hook(Box::new(|_| ()));
    let all_bytes = world::all_bytes();
    world::set_clock(0);
    let mut session = ClientSession::new(ClientSessionConfig::new()).unwrap().0;
    let input = std::io::stdin();
    let output = std::io::stdout();
    let mut out = BufWriter::new(output.lock());
    for (i, line) in input.lock().split(b'\n').enumerate() {
        let mut line = line.unwrap();
        if line.last() == Some(&b'\r') {
            line.pop();
        }
        if line.is_empty() {
            continue;
        }
        let mut fields = Fields { all: line.split(|b| *b == b'\t').collect(), at: 0 };
        // A panic of the text is printed like a result; the session goes on as the panic left it.
        let lines = catch_unwind(AssertUnwindSafe(|| call(&mut session, all_bytes, &mut fields)))
            .unwrap_or(Some(vec!["panic".to_string()]));
        match lines {
            None => eprintln!("line {}: can't be read", i + 1),
            Some(ref lines) if lines.is_empty() => (),
            Some(mut lines) => {
                lines.push(open_line(&session));
                for text in lines {
                    writeln!(out, "{}\t{}\t{}", i + 1, session.stage(), text).unwrap();
                }
            }
        }
    }
}
