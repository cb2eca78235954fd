//! Stand-in for the IPMI 1.5 layer: it only brings the scripted answers to `activate`.
#[derive(Debug)]
pub struct ActivationError;

#[derive(Debug, Clone, PartialEq)]
pub struct ReadError;

#[derive(Debug)]
pub struct WriteError;

#[derive(Debug)]
pub struct State(pub super::socket::Script);

impl State {
    pub fn release_socket(self) -> super::socket::Script {
        self.0
    }
}
