//! Stands where sessions/server stands, which is not at hand: names alone, for sessions/mod.rs to hand on.

pub struct PublishMode;
pub struct ServerSession;
pub struct ServerSessionConfig;
pub struct ServerSessionError;
pub struct ServerSessionEvent;
pub struct ServerSessionResult;
