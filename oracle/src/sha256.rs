//! Stand-in for what `value.rs` names of the crate `hashes`: the state of a SHA-256 engine.
//!
//! No hash is computed. `ctx8_from_midstate` and `ctx8_from_hash_engine` compile with it and are not compared:
//! the port leaves both behind.

/// Thirty-two bytes and the number of bytes hashed.
#[derive(Clone, Copy, Debug)]
pub struct Midstate {
    bytes: [u8; 32],
    hashed: u64,
}

impl Midstate {
    /// Both parts.
    pub fn to_parts(&self) -> ([u8; 32], u64) {
        (self.bytes, self.hashed)
    }
}

/// An engine: a midstate, and the bytes that don't fill a block yet.
#[derive(Clone, Debug)]
pub struct HashEngine {
    midstate: Midstate,
    unprocessed: Vec<u8>,
}

impl HashEngine {
    /// The midstate, if no byte waits.
    pub fn midstate(&self) -> Result<Midstate, MidstateError> {
        if self.unprocessed.is_empty() {
            Ok(self.midstate)
        } else {
            Err(MidstateError { engine: self.clone() })
        }
    }
}

/// Bytes wait in the engine.
#[derive(Clone, Debug)]
pub struct MidstateError {
    engine: HashEngine,
}

impl MidstateError {
    /// The midstate before the waiting bytes.
    pub fn midstate(&self) -> &Midstate {
        &self.engine.midstate
    }

    /// The waiting bytes.
    pub fn unprocessed_bytes(&self) -> &[u8] {
        &self.engine.unprocessed
    }
}
