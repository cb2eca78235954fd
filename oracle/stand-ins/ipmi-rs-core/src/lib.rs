//! Stand-in for `ipmi-rs-core`: the code tables of the Standard (13.28, table 13-17 to 13-19; levels 1 to 5), and the bare
//! types that the session layer's files name.
pub mod app {
    pub mod auth;
}

pub mod connection {
    #[derive(Debug)]
    pub struct NotEnoughData;

    #[derive(Debug)]
    pub struct Request;

    #[derive(Debug)]
    pub struct Message(pub u8, pub u8, pub Vec<u8>);

    impl Message {
        pub fn new_raw(netfn: u8, cmd: u8, data: Vec<u8>) -> Self {
            Self(netfn, cmd, data)
        }
    }

    #[derive(Debug)]
    pub struct Response(pub Message);

    impl Response {
        pub fn new(message: Message, _seq: u8) -> Option<Self> {
            (!message.2.is_empty()).then_some(Self(message))
        }
    }

    pub trait IpmiConnection {
        type SendError;
        type RecvError;
        type Error;
        fn send(&mut self, request: &mut Request) -> Result<(), Self::SendError>;
        fn recv(&mut self) -> Result<Response, Self::RecvError>;
        fn send_recv(&mut self, request: &mut Request) -> Result<Response, Self::Error>;
    }
}
