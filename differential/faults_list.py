"""The faults that faults.py plants: a name, then for each edit where it stands, the old text and the new.

Where is FILE or FILE:FUNCTION, below crates/. The old text occurs exactly once there, contracts and proofs left out.
"""

MISTAKES = [
    ('a late connect reply clears the active stream',
     'session/src/replies.rt:accepted', 'self.progress.state = ClientState::Connected;',
     'self.progress = Progress {\n            state: ClientState::Connected,\n            active: None,\n        };'),
    ('a request stays open after refusal 5',
     'session/src/replies.rt:granted', '            self.requests = rest;\n            return Err(', '            return Err('),
    ('a second createStream reply is refused while Playing',
     'session/src/replies.rt', '                self.granted(rest, clock, purpose, &request.text, stream, out)\n',
     '                if self.progress.state.is_play() {\n'
     '                    return Err(ClientSessionError::SessionInInvalidState(self.progress.state));\n                }\n'
     '                self.granted(rest, clock, purpose, &request.text, stream, out)\n'),
    ('a window applies to the count that brought it',
     'session/src/client.rt', '            self.link.total = total;\n            return Ok(Outcome::Nothing);\n        };\n',
     '            self.link.pending = self.link.pending.wrapping_add(count);\n'
     '            self.link.total = total;\n            return Ok(Outcome::Nothing);\n        };\n'),
]

NO_SESSION = ('session/src/record.rt', ' && self.requests.sound()\n', ' && false\n',
              'session/src/record.rt', '            && requests::all_free(&self.requests.places)\n', '            && false\n')


def turned_away(answer):
    """Every call with that answer in place of refusal 13."""
    edits = []
    for function in ('client.rt:connect', 'client.rt:request_stream', 'client.rt:stopped', 'client.rt:ping', 'client.rt:count', 'incoming.rt:media_outcome',
                     'incoming.rt:received'):
        edits += ['session/src/' + function, 'self.checked()?;', 'if self.checked().is_err() {\n            return %s;\n        }' % answer]
    for function in ('publish_data', 'publish_fields'):
        edits += ['session/src/client.rt:' + function, 'let stream = self.stream()?;',
                  'let Ok(stream) = self.stream() else {\n            return %s;\n        };' % answer]
    return NO_SESSION + tuple(edits)


WORTHLESS = [
    ('sends nothing, session kept', *turned_away('Ok(Outcome::Nothing)')),
    ('refuses every call', *NO_SESSION),
    ('gives every call the same packet',
     *turned_away('Ok(sending::sent(4, RtmpTimestamp(0), StreamNumber(0), false, 6))')),
    ('acts on the first message and lets the rest go by',
     'session/src/incoming.rt',
     '        let message = messages::to_rtmp_message(type_id, body)?;\n'
     '        self.dispatched(clock, type_id, time, stream, message, body, out)\n',
     '        if self.link.chunk == 127 {\n            return Ok(Outcome::Nothing);\n        }\n'
     '        let message = messages::to_rtmp_message(type_id, body)?;\n'
     '        let outcome = self.dispatched(clock, type_id, time, stream, message, body, out);\n'
     '        self.link.chunk = 127;\n        outcome\n'),
    ('reports a pending count not fed by the bytes',
     'session/src/client.rt', 'bodies::write_acknowledgement(out, low)', 'bodies::write_acknowledgement(out, size)'),
    ('says "eight open" with places free', 'requests/src/table.rt', 'first_free(&self.places)', 'first_free(&self.places[..1])'),
    ('says "space" with space free',
     'session/src/client.rt:connect', '        let len = sending::connect(&self.config, number, app, out)?;\n',
     '        let len = sending::connect(&self.config, number, app, out)?;\n        if 0 < len {\n            return Err(ClientSessionError::Space);\n        }\n',
     'session/src/client.rt:request_stream', '        let len = bodies::write_create_stream(out, number)?;\n',
     '        let len = bodies::write_create_stream(out, number)?;\n        if 0 < len {\n            return Err(ClientSessionError::Space);\n        }\n',
     'session/src/client.rt:stopped', '                let len = bodies::write_delete_stream(out, stream)?;\n',
     '                let len = bodies::write_delete_stream(out, stream)?;\n                if 0 < len {\n                    return Err(ClientSessionError::Space);\n                }\n',
     'session/src/client.rt:publish_data', '        let len = octets::write_bytes(out, data)?;\n',
     '        let len = octets::write_bytes(out, data)?;\n        if 0 < len {\n            return Err(ClientSessionError::Space);\n        }\n',
     'session/src/client.rt:publish_fields', '        let len = bodies::write_metadata(out, fields, text)?;\n',
     '        let len = bodies::write_metadata(out, fields, text)?;\n        if 0 < len {\n            return Err(ClientSessionError::Space);\n        }\n',
     'session/src/incoming.rt:handle_user_control', '                let len = bodies::write_ping_response(out, time)?;\n',
     '                let len = bodies::write_ping_response(out, time)?;\n                if 0 < len {\n                    return Err(ClientSessionError::Space);\n                }\n'),
]

CALLS = [
    ('opening takes a chunk size of 2,147,483,648',
     'session/src/client.rt', 'if 2147483647 < config.chunk_size', 'if 2147483648 < config.chunk_size'),
    ('connect is refused at Connected only', 'session/src/client.rt', 'if !self.progress.state.is_disconnected()', 'if self.progress.state.is_connected()'),
    ('connect looks at the text before the stage',
     'session/src/client.rt:connect',
     '        if !self.progress.state.is_disconnected() {\n            return Err(ClientSessionError::CantConnectWhileAlreadyConnected);\n        }\n'
     '        if !requests::fits(app) {\n            return Err(ClientSessionError::Length);\n        }\n',
     '        if !requests::fits(app) {\n            return Err(ClientSessionError::Length);\n        }\n'
     '        if !self.progress.state.is_disconnected() {\n            return Err(ClientSessionError::CantConnectWhileAlreadyConnected);\n        }\n'),
    ('play and publish look at the key before the stage',
     'session/src/client.rt:request_stream',
     '        if !self.progress.state.is_connected() {\n            return Err(ClientSessionError::SessionInInvalidState(self.progress.state));\n        }\n'
     '        if !requests::fits(key) {\n            return Err(ClientSessionError::Length);\n        }\n',
     '        if !requests::fits(key) {\n            return Err(ClientSessionError::Length);\n        }\n'
     '        if !self.progress.state.is_connected() {\n            return Err(ClientSessionError::SessionInInvalidState(self.progress.state));\n        }\n'),
    ('play and publish store no request', 'session/src/client.rt:request_stream', '        self.requests = requests;\n', ''),
    ('a stop keeps the active stream', 'session/src/client.rt:stopped', 'active: None,', 'active: self.progress.active,'),
    ('a stop keeps the stage', 'session/src/client.rt:stopped', 'state: ClientState::Connected,', 'state: self.progress.state,'),
    ('publishing is stopped at the stages of playback', 'session/src/client.rt', 'self.progress.state.is_publish();', 'self.progress.state.is_play();'),
    ('deleteStream goes out on stream 0',
     'session/src/client.rt:stopped', 'sending::sent(20, clock, stream,', 'sending::sent(20, clock, StreamNumber(0),'),
    ('a ping carries 0', 'session/src/client.rt', 'bodies::write_ping_request(out, clock)', 'bodies::write_ping_request(out, RtmpTimestamp(0))'),
    ('a picture carries the clock', 'session/src/client.rt', 'self.publish_data(9, data, time,', 'self.publish_data(9, data, clock,'),
    ('sound goes out as a picture', 'session/src/client.rt', 'self.publish_data(8,', 'self.publish_data(9,'),
    ('the droppable flag is lost', 'session/src/client.rt', 'sending::sent(type_id, time, stream, droppable, len)',
     'sending::sent(type_id, time, stream, false, len)'),
    ('metadata goes out at time 0', 'session/src/client.rt', 'sending::sent(18, clock,', 'sending::sent(18, RtmpTimestamp(0),'),
    ('the encoder\'s text is not tested', 'session/src/client.rt', 'sending::encoder_fits(fields.encoder, text)', 'sending::encoder_fits(fields.encoder, b"")'),
    ('an acknowledgement goes out only past the window', 'session/src/client.rt', 'if sum < size as u64', 'if sum <= size as u64'),
    ('the wrapped sum is compared with the window', 'session/src/client.rt', 'if sum < size as u64', 'if low < size'),
    ('pending is kept after an acknowledgement', 'session/src/client.rt', 'self.link.pending = 0;', 'self.link.pending = low;'),
    ('pending is the latest count alone',
     'session/src/client.rt', 'self.link.pending = low;', 'self.link.pending = count;'),
    ('a pending count is not stored', 'session/src/client.rt:count', '            self.link.pending = low;\n', ''),
    ('refusal 12 keeps what the call changed',
     'session/src/client.rt:connect', '        let len = sending::connect(&self.config, number, app, out)?;\n        self.requests = requests;\n',
     '        self.requests = requests;\n        let len = sending::connect(&self.config, number, app, out)?;\n',
     'session/src/client.rt:request_stream', '        let len = bodies::write_create_stream(out, number)?;\n        self.requests = requests;\n',
     '        self.requests = requests;\n        let len = bodies::write_create_stream(out, number)?;\n',
     'session/src/client.rt:stopped', '                let len = bodies::write_delete_stream(out, stream)?;\n',
     '                self.progress = Progress {\n                    state: ClientState::Connected,\n                    active: None,\n                };\n'
     '                let len = bodies::write_delete_stream(out, stream)?;\n'),
    ('tcUrl is not tested where it is configured', 'session/src/config.rt', 'Some(url) => url.sound(),', 'Some(_) => true,'),
    ('the default buffer is 200 milliseconds', 'session/src/config.rt', 'playback_buffer_length_ms: 2000,', 'playback_buffer_length_ms: 200,'),
    ('tcUrl is sent where none is configured, and not where one is',
     'session/src/sending.rt', 'None => bodies::write_connect(out, number, app, flash, None),', 'None => bodies::write_connect(out, number, app, flash, Some(b"")),',
     'session/src/sending.rt', 'flash, Some(url.as_slice())),', 'flash, None),'),
    ('publishing can be stopped only while it runs', 'session/src/state.rt:is_publish', 'ClientState::PublishRequested | ClientState::Publishing', 'ClientState::Publishing'),
    ('pictures go out before the Start notice', 'session/src/state.rt:is_publishing', 'self == ClientState::Publishing',
     'matches!(self, ClientState::PublishRequested | ClientState::Publishing)'),
]

INCOMING = [
    ('a stream with a higher number counts as the active one', 'session/src/incoming.rt:is_active', 'active == Some(stream)',
     'matches!(active, Some(number) if number.0 <= stream.0)'),
    ('any stream is active where none is', 'session/src/incoming.rt:is_active', 'active == Some(stream)', 'active.is_none() || active == Some(stream)'),
    ('pictures come in at PlayRequested only',
     'session/src/incoming.rt:handle_media_data', 'self.progress.state.is_play()', 'self.progress.state.is_play_requested()'),
    ('sound that came is told as a picture',
     'session/src/incoming.rt:dispatched', 'ClientSessionEvent::AudioDataReceived(time)', 'ClientSessionEvent::VideoDataReceived(time)'),
    ('a ping is answered with the clock',
     'session/src/incoming.rt', 'bodies::write_ping_response(out, time)', 'bodies::write_ping_response(out, clock)'),
    ('a ping is answered at the peer\'s time', 'session/src/incoming.rt', 'sending::sent(4, clock,', 'sending::sent(4, time,'),
    ('a window is not stored', 'session/src/incoming.rt:handle_window_ack_size', '        self.link.window = Some(size);\n', ''),
    ('a window clears pending', 'session/src/incoming.rt:handle_window_ack_size', 'Outcome::Nothing', 'self.link.pending = 0;\n        Outcome::Nothing'),
    ('the peer\'s chunk size clears the window',
     'session/src/incoming.rt:handle_set_chunk_size', '        self.link.chunk = size;\n', '        self.link.chunk = size;\n        self.link.window = None;\n'),
    ('a peer\'s chunk size of 2,147,483,648 passes', 'session/src/incoming.rt', 'if 2147483647 < size', 'if 2147483648 < size'),
    ('_error is taken for _result',
     'session/src/incoming.rt', 'self.handle_failed_result(command, body)', 'self.handle_success_result(clock, command, out)'),
    ('type 6 comes to nothing', 'session/src/incoming.rt', 'RtmpMessage::Unknown | RtmpMessage::Abort(_) | RtmpMessage::SetPeerBandwidth { .. } =>',
     'RtmpMessage::SetPeerBandwidth { .. } => Ok(Outcome::Nothing),\n            RtmpMessage::Unknown | RtmpMessage::Abort(_) =>'),
    ('the chunk size goes out at the clock', 'session/src/replies.rt', 'time: RtmpTimestamp(0),', 'time: clock,'),
    ('the chunk size goes out with a compressed header', 'session/src/replies.rt', 'uncompressed: true,', 'uncompressed: false,'),
    ('the chunk size\'s body is the window\'s', 'session/src/replies.rt', 'start: 4,', 'start: 0,'),
    ('window and chunk size are exchanged', 'session/src/replies.rt', 'write_sizes(out, self.config.window_ack_size, self.config.chunk_size)',
     'write_sizes(out, self.config.chunk_size, self.config.window_ack_size)'),
    ('a connect reply keeps the stage', 'session/src/replies.rt:accepted', '        self.progress.state = ClientState::Connected;\n', ''),
    ('a connect reply keeps its request open', 'session/src/replies.rt:accepted', '        self.requests = rest;\n', ''),
    ('a grant keeps its request open', 'session/src/replies.rt:granted', '        self.requests = rest;\n        self.progress', '        self.progress'),
    ('a grant\'s stream is not stored', 'session/src/replies.rt:granted', 'active: Some(stream),', 'active: None,'),
    ('a grant to publish gives PlayRequested',
     'session/src/replies.rt', 'PublishRequest(_) => ClientState::PublishRequested', 'PublishRequest(_) => ClientState::PlayRequested'),
    ('play goes out on stream 0', 'session/src/replies.rt:grant_results', '                stream,\n', '                stream: StreamNumber(0),\n'),
    ('SetBufferLength goes out on the granted stream', 'session/src/replies.rt', 'sending::packet(4, clock, StreamNumber(0), false, 10)',
     'sending::packet(4, clock, stream, false, 10)'),
    ('a grant without a number is refusal 4', 'session/src/replies.rt',
     'Err(ClientSessionError::CreateStreamResponseHadNoStreamNumber)', 'Err(ClientSessionError::CreateStreamFailed)'),
    ('a rejected connect stays open',
     'session/src/replies.rt:handle_failed_result', '        let Some(request) = self.requests.close(', '        let mut rest = self.requests;\n        let Some(request) = rest.close(',
     'session/src/replies.rt:handle_failed_result', 'Err(ClientSessionError::CreateStreamFailed),',
     '{\n                self.requests = rest;\n                Err(ClientSessionError::CreateStreamFailed)\n            }'),
    ('a request stays open after refusal 4',
     'session/src/replies.rt:handle_failed_result', '        let Some(request) = self.requests.close(', '        let mut rest = self.requests;\n        let Some(request) = rest.close(',
     'session/src/replies.rt:handle_failed_result', '                let text = amf0::text_at(',
     '                self.requests = rest;\n                let text = amf0::text_at('),
    ('a second Play.Start passes', 'session/src/notices.rt', 'self.progress.state.is_play_requested()', 'self.progress.state.is_play()'),
    ('Publish.Start keeps the stage', 'session/src/notices.rt', 'self.started(awaited, ClientState::Publishing, event)', 'self.started(awaited, ClientState::PublishRequested, event)'),
    ('Publish.Start clears the active stream',
     'session/src/notices.rt', 'self.started(awaited, ClientState::Publishing, event)',
     'let outcome = self.started(awaited, ClientState::Publishing, event);\n                if outcome.is_ok() {\n'
     '                    self.progress.active = None;\n                }\n                outcome'),
    ('a bad notice comes to nothing', 'session/src/notices.rt', 'Err(ClientSessionError::InvalidOnStatusArguments)', 'Ok(Outcome::Nothing)'),
]

REQUESTS = [
    ('numbers start at 2', 'requests/src/table.rt', 'next: 1,', 'next: 2,'),
    ('closing empties no place', 'requests/src/table.rt', 'close(&mut self.places, number)', 'close(&mut self.places, TransactionNumber(0))'),
    ('the eighth place counts as free', 'requests/src/place.rt:first_free', 'places.iter().position(|place| place.request.is_none())',
     'places[..7].iter().position(|place| place.request.is_none()).or(Some(7))'),
    ('the eighth place is not searched', 'requests/src/place.rt:find', 'places.iter()', 'places[..7].iter()'),
    ('a reply to a later number meets a request', 'requests/src/place.rt:is_open_as', 'open == number', 'open.0 <= number.0',
     'requests/src/place.rt:request_under', 'open == number', 'open.0 <= number.0'),
    ('a text of 255 bytes is refused', 'requests/src/text.rt:fits', 's.len() <= 255', 's.len() < 255'),
    ('a caller\'s text need not be UTF-8', 'requests/src/text.rt:fits', 'octets::is_utf8(s)', 'octets::is_utf8(&s[..0])'),
    ('the 255th byte of a text is lost', 'requests/src/text.rt:padded', 's.len().min(255)', 's.len().min(254)'),
]

MESSAGES = [
    ('the leading 0 of type 17 is not skipped', 'messages/src/message_payload.rt', '        return 1;', '        return 0;'),
    ('type 15 is unknown', 'messages/src/message_payload.rt', '15 => amf0_data(body)', '15 => Ok(RtmpMessage::Unknown)'),
    ('type 8 is a picture', 'messages/src/message_payload.rt', '8 => Ok(RtmpMessage::AudioData)', '8 => Ok(RtmpMessage::VideoData)'),
    ('a body of more than 4 bytes passes', 'messages/src/protocol_control.rt', 'body.len() - at != 4', 'body.len() - at < 4'),
    ('limit 2 of type 6 is malformed, 3 is not',
     'messages/src/rtmp_message.rt', '            2 => Ok(', '            3 => Ok('),
    ('event 5 is well formed, 4 is not', 'messages/src/user_control.rt', '        4 => ', '        5 => '),
    ('events 6 and 7 are exchanged',
     'messages/src/user_control.rt', '        6 => ', '        7 => ', 'messages/src/user_control.rt', '        7 => ', '        6 => '),
    ('SetBufferLength may be longer', 'messages/src/user_control.rt', 'last_word(body, 6)?', 'octets::read_be32(body, 6).ok_or(Malformed)?'),
    ('a command\'s arguments may be malformed',
     'messages/src/amf0_command.rt', 'amf0::count_values(body, args)', 'amf0::count_values(body, body.len())'),
    ('_error is misspelt', 'messages/src/amf0_command.rt', 'b"_error"', 'b"error"'),
    ('Play.Start is taken for Publish.Start', 'messages/src/on_status.rt', 'return Some(OnStatus::PlayStart);', 'return Some(OnStatus::PublishStart);'),
    ('a notice\'s code is read from level', 'messages/src/on_status.rt', 'amf0::text_at(body, at, b"code")', 'amf0::text_at(body, at, b"level")'),
    ('onMetaData alone is metadata',
     'messages/src/amf0_data.rt', '        _ => DataMessage::Other', '        Err(Malformed) => DataMessage::OnMetaData(place),\n        _ => DataMessage::Other'),
]

BODIES = [
    ('createStream needs a byte more', 'bodies/src/commands.rt', 'if out.len() < 25', 'if out.len() <= 25'),
    ('app and flash version are exchanged',
     'bodies/src/commands.rt', 'put_connect_object(&mut w, app, flash,', 'put_connect_object(&mut w, flash, app,'),
    ('connect\'s object has no end behind tcUrl', 'bodies/src/commands.rt', 'put_text_property(w, b"tcUrl", url);', 'return put_text_property(w, b"tcUrl", url);'),
    ('play has number 1', 'bodies/src/commands.rt', 'b"play", 0)', 'b"play", 1)'),
    ('record is sent as append', 'bodies/src/commands.rt', 'Record => b"record"', 'Record => b"append"'),
    ('stream and length of SetBufferLength are exchanged',
     'bodies/src/controls.rt', 'w.put_be32(stream.0)', 'w.put_be32(ms)',
     'bodies/src/controls.rt', 'w.put_be32(ms)', 'w.put_be32(stream.0)'),
    ('a ping is answered by a ping', 'bodies/src/controls.rt', 'write_event(out, 7, time.0)', 'write_event(out, 6, time.0)'),
    ('videodatarate is the sound\'s', 'bodies/src/metadata_body.rt:put_rates', 'm.video_bitrate_kbps', 'm.audio_bitrate_kbps'),
    ('stereo is turned round', 'bodies/src/metadata_body.rt', 'put_boolean_property(w, name, self)', 'put_boolean_property(w, name, !self)'),
    ('metadata is sent into an output a byte too short', 'bodies/src/metadata_body.rt', '.len() + 12', '.len() + 11'),
]

VALUES = [
    ('undefined has marker 7', 'amf0/src/marker.rt', '0x06 => ', '0x07 => '),
    ('an ECMA array\'s count is not skipped', 'amf0/src/read.rt', 'object(s, b + 4, left - 1)', 'object(s, b, left - 1)'),
    ('a strict array has one value fewer', 'amf0/src/read.rt', 'for _ in 0..n', 'for _ in 1..n'),
    ('depth 9 passes', 'amf0/src/read.rt', 'value(s, at, 8)', 'value(s, at, 9)'),
    ('depth 8 is refused', 'amf0/src/read.rt', 'value(s, at, 8)', 'value(s, at, 7)'),
    ('an ECMA array is no object', 'amf0/src/kinds.rt', 'Marker::Object | Marker::EcmaArray => Ok(Kind::Object)',
     'Marker::Object => Ok(Kind::Object),\n        Marker::EcmaArray => Ok(Kind::Array)'),
    ('of equal names the first holds', 'amf0/src/properties.rt', 'best = Some(e);', 'return Ok(Some(e));'),
    ('of equal metadata fields the first holds', 'messages/src/stream_metadata.rt', 'Some(name.start + name.len);',
     'places[k].or(Some(name.start + name.len));'),
    ('an empty name stands before any value', 'amf0/src/names.rt', 'place.start + 1));\n    }\n    Err(Malformed)\n',
     'place.start + 1));\n    }\n    Ok(Named::At(place))\n'),
    ('a text at the end of the body is malformed', 'amf0/src/names.rt', 's.len() - start < len', 's.len() - start <= len'),
    ('a peer\'s text need not be UTF-8', 'amf0/src/names.rt', '&s[start..start + len]', '&s[start..start]'),
    ('a negative number is held as the largest', 'numbers/src/lib.rt:hold', '    } else {\n        0\n', '    } else {\n        4294967295\n'),
    ('4,294,967,296 is held as its low bits', 'numbers/src/lib.rt:hold', '0x41f0_0000_0000_0000', '0x4200_0000_0000_0000'),
    ('the smallest singles are halved', 'numbers/src/lib.rt', '1 << (926 - field)', '1 << (927 - field)'),
    ('the largest singles are infinite', 'numbers/src/lib.rt', 'field < 1151', 'field < 1150'),
    ('a NaN is sent as infinity', 'numbers/src/lib.rt:widen', 'f64_to_bits_with_nan(f32_to_f64_with_nan(x))',
     'f64_to_bits_with_nan(f32_to_f64_with_nan(if x != x { 1.0f32 / 0.0f32 } else { x }))'),
    ('numbers are read little-endian', 'octets/src/big_endian.rt:read_be16', 'u16::from_be_bytes', 'u16::from_le_bytes'),
    ('a number of 4 bytes is sent with its low half twice', 'octets/src/output.rt:put_be32', 'n as u64', '(n % 65536 * 65537) as u64'),
    ('a name is the same as its beginning', 'octets/src/compare.rt', 'a == b', 'a == part(b, 0, a.len())'),
    ('a picture that just fits is refused', 'octets/src/output.rt', 'out.len() < src.len()', 'out.len() <= src.len()'),
    ('surrogates are UTF-8', 'octets/src/utf8.rt', 'std::str::from_utf8(s).is_ok()',
     'match std::str::from_utf8(s) { Ok(_) => true, Err(e) => s[e.valid_up_to()] == 0xed }'),
    ('C0 and C1 begin a character', 'octets/src/utf8.rt', 'std::str::from_utf8(s).is_ok()',
     'match std::str::from_utf8(s) { Ok(_) => true, Err(e) => matches!(s[e.valid_up_to()], 0xc0..=0xc1) }'),
    ('a character that is cut off is UTF-8', 'octets/src/utf8.rt', 'std::str::from_utf8(s).is_ok()',
     'match std::str::from_utf8(s) { Ok(_) => true, Err(e) => e.error_len().is_none() }'),
]

CARD = [
    ('4,294,967,295 is no number', 'script/src/decimal.rt', "checked_add(u32::from(b - b'0'))?", "checked_add(u32::from(b - b'0') + 1)? - 1"),
    ('the droppable flag is turned round', 'script/src/media.rt', 'Ok((time, droppable, body))', 'Ok((time, !droppable, body))'),
    ('window and chunk size of an opening are exchanged', 'script/src/opening.rt', 'let window = fields.number()?;\n    let chunk = fields.number()?;',
     'let chunk = fields.number()?;\n    let window = fields.number()?;'),
    ('a carriage return stays', 'script/src/fields.rt', 'strip_suffix(b"\\r")', 'strip_suffix(b"\\n")'),
    ('stop_playback stops publishing', 'script/src/verbs.rt', '(b"stop_playback", Verb::StopPlayback)', '(b"stop_playback", Verb::StopPublishing)'),
    ('an opening that is refused replaces the session',
     'script_run/src/opening.rt', 'apart(session, Ok(Came::Answer(called.outcome)))', 'apart(called.session, Ok(Came::Answer(called.outcome)))'),
    ('clock and time of a picture are exchanged',
     'script_run/src/media.rt', 'publish_video_data(clock, data, time,', 'publish_video_data(time, data, clock,'),
    ('Publishing is told as 4', 'session/src/state.rt', '        state as u8\n', '        if state == ClientState::Publishing { 4 } else { state as u8 }\n'),
    ('an acknowledgement is told as event 11',
     'script_results/src/results.rt', 'AcknowledgementReceived(_) => 10', 'AcknowledgementReceived(_) => 11'),
    ('refusal 10 is told as 11', 'session/src/errors.rt', 'EightOpen => 10', 'EightOpen => 11'),
    ('digits are written in upper case', 'script_results/src/hex.rt', 'b\'a\' + (d - 10)', 'b\'A\' + (d - 10)'),
    ('the droppable flag is told from the other', 'script_results/src/results.rt', 'u8::from(packet.droppable)', 'u8::from(packet.uncompressed)'),
    ('of two messages the first is told twice',
     'script_io/src/results.rt:outcome', 'Ok(Outcome::Two(a, b)) => {', 'Ok(Outcome::Two(a, _)) => { let b = a;'),
]

EVENTS = [
    ('a width that came is the height', 'messages/src/stream_metadata.rt', 'whole(kind_there(body, places[0]))', 'whole(kind_there(body, places[1]))'),
    ('a frame rate that is absent is 0', 'messages/src/stream_metadata.rt', 'Some(numbers::narrow(kind?.number()?))',
     'Some(match kind {\n        Some(k) => numbers::narrow(k.number()?),\n        None => 0.0,\n    })'),
    ('a tie goes to the upper single', 'numbers/src/lib.rt:nearest', 'whole + whole % 2', 'whole + 1'),
    ('stereo that came is turned round', 'messages/src/stream_metadata.rt', 'Some(b)', 'Some(!b)'),
    ('metadata is read from the body\'s start', 'session/src/incoming.rt', 'messages::read_metadata(body, place)', 'messages::read_metadata(body, 0)'),
    ('a description is that of the object before it',
     'session/src/replies.rt', 'amf0::text_at(body, command.args, b"description")', 'amf0::text_at(body, command.object, b"description")'),
    ('the number of an unknown reply is held',
     'session/src/replies.rt:unknown_reply', 'number: command.number,', 'number: numbers::number_of(numbers::hold(command.number)),'),
    ('the arguments of an unknown reply start at its object',
     'session/src/replies.rt:unknown_reply', 'args: command.args,', 'args: command.object,'),
    ('another command has no name', 'session/src/incoming.rt', 'name: command.name_at,', 'name: octets::Span { start: 0, len: 0 },'),
    ('a picture that came has the clock', 'session/src/incoming.rt:dispatched', 'VideoDataReceived(time)', 'VideoDataReceived(clock)'),
    ('an acknowledgement that came is 0', 'session/src/incoming.rt', 'AcknowledgementReceived(count)', 'AcknowledgementReceived(count / 4294967295)'),
    ('a ping response has the clock', 'session/src/incoming.rt', 'PingResponseReceived(time)', 'PingResponseReceived(clock)'),
    ('a code is told by half', 'messages/src/on_status.rt', 'Some(OnStatus::Other(place))',
     'Some(OnStatus::Other(Span {\n        start: place.start,\n        len: place.len / 2,\n    }))'),
]

GROUPS = [
    ('document 01\'s mistakes near at hand', MISTAKES), ('document 01\'s worthless versions', WORTHLESS), ('calls', CALLS),
    ('messages that came', INCOMING), ('what events hold', EVENTS), ('open requests', REQUESTS), ('bodies read', MESSAGES), ('bodies written', BODIES),
    ('values, numbers and bytes', VALUES), ('card', CARD),
]

# What neither run can show, why, and the must-fail edit by which the prover refuses it.
ONLY_PROVED = [
    ('4,294,967,295 is not given', 'so many requests are out of reach', 'requests/must-fail/second.edit'),
    ('refusal 10 is told before 11', 'so many requests are out of reach', 'session/must-fail/silent.edit'),
    ('refusal 9 is told before 3', 'a Publishing session without an active stream is out of reach', 'session_laws/must-fail/sixth.edit'),
    ('refusal 8 is told before 9', 'a line has no body over 1,048,576 bytes', 'session_laws/must-fail/second.edit'),
    ('a next number of 0 is a session\'s', 'no line makes a record', 'requests/must-fail/second.edit'),
    ('a next number past 4,294,967,296 is a session\'s', 'no line makes a record', 'requests/must-fail/first.edit'),
    ('a number in two places is a session\'s', 'no line makes a record', 'requests/must-fail/first.edit'),
    ('the peer\'s chunk size is 4,096 at first', 'no result tells it', 'session/must-fail/silent.edit'),
    ('a ping hands back another time than it sent', 'the message alone is told', 'session/must-fail/first.edit'),
]
