//! The benchmark's driver: the Rust session and ours make the same calls on the same bytes, in turns, and a plain copy of
//! those bytes goes beside them. It stands where the harness's main.rs stands; bench/run builds it.

extern crate byteorder;
extern crate bytes;
extern crate thiserror;

mod chunk_io;
mod messages;
mod rml_amf0;
mod sessions;
mod time;
mod world;

use bytes::Bytes;
use messages::MessagePayload;
use sessions::{ClientSession, ClientSessionConfig, ClientSessionError, ClientSessionEvent, ClientSessionResult, ClientState};
use std::hint::black_box;
use time::RtmpTimestamp;

// The proved loops of crates/bench_session. A slice is its address and its length.
extern "C" {
    fn bench_picture(rounds: u32, open: u8, data: *const u8, n: usize, out: *mut u8, m: usize) -> u64;
    fn bench_sound(rounds: u32, open: u8, data: *const u8, n: usize, out: *mut u8, m: usize) -> u64;
    fn bench_message(rounds: u32, open: u8, stage: u8, type_id: u8, body: *const u8, n: usize, out: *mut u8, m: usize) -> u64;
    fn bench_lent(rounds: u32, open: u8, stage: u8, type_id: u8, body: *const u8, n: usize) -> u64;
    fn bench_bytes(rounds: u32, open: u8, window: u32, count: u32, out: *mut u8, m: usize) -> u64;
    fn bench_connect(rounds: u32, open: u8, app: *const u8, n: usize, reply: *const u8, k: usize, out: *mut u8, m: usize) -> u64;
    fn syscall(number: i64, ...) -> i64;
}

// The library's clock is the harness's, for the session's sake, so this one asks the system: nanoseconds of CLOCK_MONOTONIC.
fn now() -> f64 {
    let mut at = [0i64; 2];
    unsafe { syscall(228, 1i64, at.as_mut_ptr()) };
    at[0] as f64 * 1e9 + at[1] as f64
}

fn median(mut all: Vec<f64>) -> f64 {
    all.sort_by(|a, b| a.partial_cmp(b).unwrap());
    all[all.len() / 2]
}

// What the Rust answered, as crates/bench_session/src/answers.rt makes a number of what ours did.
#[cfg(chunks)]
fn last(packet: &chunk_io::Packet) -> u64 {
    packet.bytes.last().map_or(0, |b| *b as u64)
}
#[cfg(not(chunks))]
fn last(packet: &chunk_io::Packet) -> u64 {
    packet.message.data.last().map_or(0, |b| *b as u64)
}

fn event(event: &ClientSessionEvent) -> u64 {
    match *event {
        ClientSessionEvent::StreamMetadataReceived { metadata: ref m } => {
            let whole = |x: Option<u32>| x.unwrap_or(0) as u64;
            let rate = m.video_frame_rate.map_or(0, |x| if x < 1.0 { 1 } else { 2 });
            let flag = m.audio_is_stereo.map_or(0, |x| if x { 1 } else { 2 });
            let video = whole(m.video_width) + whole(m.video_height) + whole(m.video_codec_id) + whole(m.video_bitrate_kbps);
            let audio = whole(m.audio_codec_id) + whole(m.audio_bitrate_kbps) + whole(m.audio_sample_rate) + whole(m.audio_channels);
            video + rate + audio + flag + m.encoder.as_ref().map_or(0, |x| x.len() as u64)
        }
        ClientSessionEvent::VideoDataReceived { timestamp, .. } => timestamp.value as u64,
        ClientSessionEvent::UnknownTransactionResultReceived { transaction_id, .. } => transaction_id.to_bits(),
        _ => 1,
    }
}

fn one(result: ClientSessionResult) -> u64 {
    let result = black_box(result);
    match result {
        ClientSessionResult::OutboundResponse(ref p) => last(p) + if p.can_be_dropped { 257 } else { 1 },
        ClientSessionResult::RaisedEvent(ref e) => event(e),
        ClientSessionResult::UnhandleableMessageReceived(_) => 1,
    }
}

const REFUSED: u64 = 1000000000000;

fn single(result: Result<ClientSessionResult, ClientSessionError>) -> u64 {
    result.map_or(REFUSED, one)
}

fn several(results: Result<Vec<ClientSessionResult>, ClientSessionError>) -> u64 {
    results.map_or(REFUSED, |all| all.into_iter().fold(0, |sum: u64, r| sum.wrapping_add(one(r))))
}

fn message(type_id: u8, time: u32, stream: u32, data: &Bytes) -> MessagePayload {
    MessagePayload { timestamp: RtmpTimestamp::new(time), type_id, message_stream_id: stream, data: data.clone() }
}

// A message as the Rust session takes it in.
trait Arrives {
    fn new(type_id: u8, stream: u32, body: Vec<u8>) -> Self;
    fn arrive(&mut self, session: &mut ClientSession, time: u32) -> Result<Vec<ClientSessionResult>, ClientSessionError>;
}

// In use: the bytes of its chunks, of 4096 bytes each, whose first has a full header with the time behind its first byte.
#[cfg(chunks)]
struct Incoming(Vec<u8>);
#[cfg(chunks)]
impl Arrives for Incoming {
    fn new(type_id: u8, stream: u32, body: Vec<u8>) -> Incoming {
        let mut serializer = chunk_io::ChunkSerializer::new();
        serializer.set_max_chunk_size(4096, RtmpTimestamp::new(0)).unwrap();
        Incoming(serializer.serialize(&message(type_id, 0, stream, &Bytes::from(body)), true, false).unwrap().bytes)
    }

    fn arrive(&mut self, session: &mut ClientSession, time: u32) -> Result<Vec<ClientSessionResult>, ClientSessionError> {
        assert!(time < 0xffffff);
        self.0[1..4].copy_from_slice(&time.to_be_bytes()[1..]);
        session.handle_input(black_box(&self.0))
    }
}

// With the recorder: the message itself, whose body is shared.
#[cfg(not(chunks))]
struct Incoming(u8, u32, Bytes);
#[cfg(not(chunks))]
impl Arrives for Incoming {
    fn new(type_id: u8, stream: u32, body: Vec<u8>) -> Incoming {
        Incoming(type_id, stream, Bytes::from(body))
    }

    fn arrive(&mut self, session: &mut ClientSession, time: u32) -> Result<Vec<ClientSessionResult>, ClientSessionError> {
        session.hand_over(message(self.0, time, self.1, black_box(&self.2)))
    }
}

// Bodies.
fn text(of: &str) -> Vec<u8> {
    let mut out = vec![2, 0, of.len() as u8];
    out.extend_from_slice(of.as_bytes());
    out
}

fn number(of: f64) -> Vec<u8> {
    let mut out = vec![0];
    out.extend_from_slice(&of.to_bits().to_be_bytes());
    out
}

fn object(fields: &[(&str, Vec<u8>)]) -> Vec<u8> {
    let mut out = vec![3];
    for &(name, ref value) in fields {
        out.extend_from_slice(&text(name)[1..]);
        out.extend_from_slice(value);
    }
    out.extend_from_slice(&[0, 0, 9]);
    out
}

fn reply(to: f64) -> Vec<u8> {
    let server = object(&[("fmsVer", text("FMS/3,0,1,123")), ("capabilities", number(31.0))]);
    let said = object(&[
        ("level", text("status")),
        ("code", text("NetConnection.Connect.Success")),
        ("description", text("Connection succeeded.")),
        ("objectEncoding", number(0.0)),
    ]);
    [text("_result"), number(to), server, said].concat()
}

fn start() -> Vec<u8> {
    let said = object(&[
        ("level", text("status")),
        ("code", text("NetStream.Publish.Start")),
        ("description", text("front-door is now published.")),
    ]);
    [text("onStatus"), number(0.0), vec![5], said].concat()
}

fn metadata() -> Vec<u8> {
    let fields = object(&[
        ("width", number(1920.0)),
        ("height", number(1080.0)),
        ("videocodecid", number(7.0)),
        ("framerate", number(29.97)),
        ("videodatarate", number(4000.0)),
        ("audiocodecid", number(10.0)),
        ("audiodatarate", number(128.0)),
        ("audiosamplerate", number(48000.0)),
        ("audiochannels", number(2.0)),
        ("stereo", vec![1, 1]),
        ("encoder", text("spindle camera 1.0")),
    ]);
    [text("onMetaData"), fields].concat()
}

// The Rust session after a connect that was accepted, as its chunks are of 4096 bytes from then on, with requests open. So are the peer's.
fn opened(open: u32) -> ClientSession {
    let mut session = ClientSession::new(ClientSessionConfig::new()).unwrap().0;
    session.request_connection("camera".to_string()).unwrap();
    Incoming::new(1, 0, vec![0, 0, 16, 0]).arrive(&mut session, 0).unwrap();
    Incoming::new(20, 0, reply(1.0)).arrive(&mut session, 0).unwrap();
    session.put_at(ClientState::Disconnected, None);
    for _ in 0..open {
        session.request_connection("a stream key of 32 bytes, or so.".to_string()).unwrap();
    }
    session
}

struct Case {
    name: &'static str,
    // how many bytes a plain copy beside it has, if any
    copied: Option<usize>,
    ours: Box<dyn FnMut(u32) -> u64>,
    theirs: Box<dyn FnMut(u32) -> u64>,
}

fn picture(name: &'static str, size: usize, open: u8, is_video: bool) -> Case {
    let data: Vec<u8> = (0..size).map(|i| (i * 7 + 1) as u8).collect();
    let shared = Bytes::from(data.clone());
    let mut out = vec![1u8; size];
    let ours = move |rounds| unsafe {
        if is_video {
            bench_picture(rounds, open, data.as_ptr(), size, out.as_mut_ptr(), size)
        } else {
            bench_sound(rounds, open, data.as_ptr(), size, out.as_mut_ptr(), size)
        }
    };
    let mut session = opened(open as u32);
    session.put_at(ClientState::Publishing, Some(1));
    let theirs = move |rounds| {
        let mut sum: u64 = 0;
        for i in 0..rounds {
            let data = black_box(&shared).clone();
            let time = RtmpTimestamp::new(i);
            sum += single(if is_video {
                session.publish_video_data(data, time, true)
            } else {
                session.publish_audio_data(data, time, true)
            });
        }
        sum
    };
    Case { name, copied: Some(size), ours: Box::new(ours), theirs: Box::new(theirs) }
}

fn incoming(name: &'static str, stage: u8, state: ClientState, type_id: u8, body: Vec<u8>) -> Case {
    let mut incoming = Incoming::new(type_id, 1, body.clone());
    let mut out = vec![1u8; 1024];
    let size = body.len();
    let ours =
        move |rounds| unsafe { bench_message(rounds, 0, stage, type_id, body.as_ptr(), body.len(), out.as_mut_ptr(), 1024) };
    let mut session = opened(0);
    let theirs = move |rounds| {
        let mut sum: u64 = 0;
        for i in 0..rounds {
            session.put_at(state.clone(), Some(1));
            sum = sum.wrapping_add(several(incoming.arrive(&mut session, i)));
        }
        sum
    };
    Case { name, copied: Some(size), ours: Box::new(ours), theirs: Box::new(theirs) }
}

// A picture that comes, with our session lent to the call, as the Rust's is. The stage stays as it is.
fn lent(name: &'static str, size: usize) -> Case {
    let body = vec![7u8; size];
    let mut incoming = Incoming::new(9, 1, body.clone());
    let ours = move |rounds| unsafe { bench_lent(rounds, 0, 3, 9, body.as_ptr(), body.len()) };
    let mut session = opened(0);
    session.put_at(ClientState::Playing, Some(1));
    let theirs = move |rounds| (0..rounds).fold(0u64, |sum, i| sum.wrapping_add(several(incoming.arrive(&mut session, i))));
    Case { name, copied: Some(size), ours: Box::new(ours), theirs: Box::new(theirs) }
}

// A window of 2,500,000 bytes: an acknowledgement goes out at every 1713th count. The bytes are counted alone, which the Rust does only where it
// reads no chunks.
fn counts(name: &'static str) -> Case {
    let (window, count) = (2500000u32, 1460u32);
    let mut out = vec![1u8; 1024];
    let ours = move |rounds| unsafe { bench_bytes(rounds, 0, window, count, out.as_mut_ptr(), 1024) };
    let bytes = vec![0u8; count as usize];
    let theirs = move |rounds| {
        let mut session = opened(0);
        Incoming::new(5, 0, window.to_be_bytes().to_vec()).arrive(&mut session, 0).unwrap();
        (0..rounds).fold(0, |sum, _| sum + several(session.handle_input(black_box(&bytes))))
    };
    Case { name, copied: None, ours: Box::new(ours), theirs: Box::new(theirs) }
}

fn connect(name: &'static str) -> Case {
    let body = reply(1.0);
    let mut incoming = Incoming::new(20, 0, body.clone());
    let mut out = vec![1u8; 1024];
    let app = "camera";
    let ours = move |rounds| unsafe {
        bench_connect(rounds, 0, app.as_ptr(), app.len(), body.as_ptr(), body.len(), out.as_mut_ptr(), 1024)
    };
    let mut session = opened(0);
    let theirs = move |rounds| {
        let mut sum: u64 = 0;
        for i in 0..rounds {
            session.put_at(ClientState::Disconnected, None);
            session.set_next_number(1);
            sum += single(session.request_connection(black_box(app).to_string()));
            sum += several(incoming.arrive(&mut session, i));
        }
        sum
    };
    Case { name, copied: None, ours: Box::new(ours), theirs: Box::new(theirs) }
}

fn copies(size: usize) -> Box<dyn FnMut(u32) -> u64> {
    let from = vec![7u8; size];
    let mut to = vec![1u8; size];
    Box::new(move |rounds| {
        for _ in 0..rounds {
            to.copy_from_slice(black_box(&from));
            black_box(&mut to);
        }
        0
    })
}

// Nanoseconds a call, with what the calls came to.
fn timed(calls: &mut dyn FnMut(u32) -> u64, rounds: u32) -> (f64, u64) {
    let start = now();
    let sum = black_box(calls(rounds));
    ((now() - start) / rounds as f64, sum)
}

fn measure(mut case: Case) {
    let turns = 15;
    let mut copy = case.copied.map(copies);
    let (one, _) = timed(&mut *case.ours, 1000);
    let rounds = (1e7 / one) as u32 + 1;
    let (mut ours, mut theirs, mut plain) = (Vec::new(), Vec::new(), Vec::new());
    for _ in 0..turns {
        let (time, answers) = timed(&mut *case.ours, rounds);
        ours.push(time);
        let (time, their_answers) = timed(&mut *case.theirs, rounds);
        theirs.push(time);
        assert_eq!(answers, their_answers, "{}: the answers differ", case.name);
        if let Some(ref mut copy) = copy {
            plain.push(timed(&mut **copy, rounds).0);
        }
    }
    let (ours, theirs) = (median(ours), median(theirs));
    print!("{:38} {:9.1} {:9.1} {:7.2}", case.name, ours, theirs, ours / theirs);
    if plain.is_empty() {
        println!();
    } else {
        let plain = median(plain);
        println!(" {:9.1} {:7.2}", plain, ours / plain);
    }
}

fn main() {
    let writer = if cfg!(chunks) { "writes and reads chunks" } else { "is handed whole messages" };
    println!("the Rust {}; ns a call, median of 15 turns", writer);
    println!("{:38} {:>9} {:>9} {:>7} {:>9} {:>7}", "", "ours", "the Rust", "ratio", "copy", "ratio");
    measure(picture("picture of 0 bytes", 0, 0, true));
    measure(picture("picture of 0 bytes, 8 requests open", 0, 8, true));
    measure(picture("picture of 4 KiB", 4096, 0, true));
    measure(picture("picture of 64 KiB", 65536, 0, true));
    measure(picture("picture of 64 KiB, 8 requests open", 65536, 8, true));
    measure(picture("sound of 200 bytes", 200, 0, false));
    measure(incoming("_result to no request", 1, ClientState::Connected, 20, reply(77.0)));
    measure(incoming("onStatus, NetStream.Publish.Start", 4, ClientState::PublishRequested, 20, start()));
    measure(incoming("onMetaData with eleven fields", 3, ClientState::Playing, 18, metadata()));
    measure(lent("video in of 4 KiB", 4096));
    measure(incoming("video in of 4 KiB, by value", 3, ClientState::Playing, 9, vec![7; 4096]));
    if !cfg!(chunks) {
        measure(counts("byte count"));
    }
    measure(connect("connect and its _result"));
}
