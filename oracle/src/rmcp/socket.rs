//! Stand-in for the socket: hands out scripted packets and keeps what is sent, the four outer bytes first.
use super::RmcpIpmiReceiveError;
use std::{cell::RefCell, collections::VecDeque, rc::Rc};

pub type Sent = Rc<RefCell<Vec<Vec<u8>>>>;

#[derive(Debug)]
pub struct Script {
    pub answers: VecDeque<Vec<u8>>,
    pub sent: Sent,
}

#[derive(Debug)]
pub struct RmcpIpmiSocket {
    script: Script,
    now: Vec<u8>,
}

impl RmcpIpmiSocket {
    pub fn new(script: Script) -> Self {
        Self { script, now: Vec::new() }
    }

    pub fn recv(&mut self) -> Result<&mut [u8], RmcpIpmiReceiveError> {
        self.now = self.script.answers.pop_front().ok_or(RmcpIpmiReceiveError::EmptyMessage)?;
        Ok(&mut self.now)
    }

    pub fn send<E>(&mut self, write: impl FnOnce(&mut Vec<u8>) -> Result<(), E>) -> Result<(), E> {
        let mut buffer = vec![0x06, 0x00, 0xFF, 0x07];
        write(&mut buffer)?;
        self.script.sent.borrow_mut().push(buffer);
        Ok(())
    }
}
