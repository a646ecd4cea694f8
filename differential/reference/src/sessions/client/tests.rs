//! Stands where the text's `mod tests` stands. As a child of the session's module it sees the private fields, so that the
//! harness can read them and feed one message with the text unchanged.

use super::{ClientResult, ClientSession, ClientState, OutstandingTransaction, PublishRequestType, TransactionPurpose};
#[cfg(not(chunks))]
use messages::MessagePayload;

impl ClientSession {
    /// The stage, 0 to 5 in the mission's order.
    pub fn stage(&self) -> u32 {
        match self.current_state {
            ClientState::Disconnected => 0,
            ClientState::Connected => 1,
            ClientState::PlayRequested => 2,
            ClientState::Playing => 3,
            ClientState::PublishRequested => 4,
            ClientState::Publishing => 5,
        }
    }

    pub fn active(&self) -> Option<u32> {
        self.active_stream_id
    }

    /// The open requests by number, each with its kind and purpose.
    pub fn requests(&self) -> Vec<(u32, &'static str)> {
        let mut open: Vec<_> = self.outstanding_transactions.iter().map(|(n, kind)| (*n, kind_of(kind))).collect();
        open.sort();
        open
    }

    /// The messages of one turn, but for the list of differences always one. `handle_input` runs the acknowledgement
    /// test with a count of 0, which no message should, so the window is taken away for this call; a window that the
    /// message itself sets stays.
    #[cfg(not(chunks))]
    pub fn feed(&mut self, messages: Vec<MessagePayload>) -> ClientResult {
        let window = self.peer_window_ack_size.take();
        self.deserializer.next = messages.into();
        let results = self.handle_input(&[]);
        self.deserializer.next.clear();
        if self.peer_window_ack_size.is_none() {
            self.peer_window_ack_size = window;
        }
        results
    }

    /// One message with nothing made anew for it, for the benchmark: the window must be unset.
    #[cfg(not(chunks))]
    pub fn hand_over(&mut self, message: MessagePayload) -> ClientResult {
        self.deserializer.next.push_back(message);
        self.handle_input(&[])
    }

    pub fn put_at(&mut self, state: ClientState, active: Option<u32>) {
        self.current_state = state;
        self.active_stream_id = active;
    }

    pub fn set_next_number(&mut self, number: u32) {
        self.next_transaction_id = number;
    }
}

fn kind_of(request: &OutstandingTransaction) -> &'static str {
    match *request {
        OutstandingTransaction::ConnectionRequested { .. } => "connect",
        OutstandingTransaction::CreateStream { ref purpose } => match *purpose {
            TransactionPurpose::PlayRequest { .. } => "play",
            TransactionPurpose::PublishRequest { ref request_type, .. } => match *request_type {
                PublishRequestType::Live => "publish:live",
                PublishRequestType::Record => "publish:record",
                PublishRequestType::Append => "publish:append",
            },
        },
    }
}
