//! Stand-in for the connection's states: what `rmcp/mod.rs` names, never reached.
use super::{ActivationError, RmcpIpmiError, RmcpIpmiReceiveError};
use crate::connection::{Request, Response};
use std::{io, marker::PhantomData, net::ToSocketAddrs, time::Duration};

#[derive(Debug, Clone)]
pub struct Unbound;
#[derive(Debug)]
pub struct Bound;
#[derive(Debug)]
pub struct Active;

#[derive(Debug, Clone)]
pub struct RmcpWithState<T>(PhantomData<T>);

impl RmcpWithState<Unbound> {
    pub fn new<R: ToSocketAddrs>(_remote: R, _timeout: Duration) -> io::Result<Self> {
        Ok(Self(PhantomData))
    }

    pub fn bind(&self) -> io::Result<RmcpWithState<Bound>> {
        Ok(RmcpWithState(PhantomData))
    }
}

impl RmcpWithState<Bound> {
    pub fn activate(
        self,
        _plus: bool,
        _name: Option<&str>,
        _password: Option<&[u8]>,
    ) -> Result<RmcpWithState<Active>, ActivationError> {
        Ok(RmcpWithState(PhantomData))
    }
}

impl RmcpWithState<Active> {
    pub fn send(&mut self, _request: &mut Request) -> Result<(), RmcpIpmiError> {
        Err(RmcpIpmiError::NotActive)
    }

    pub fn recv(&mut self) -> Result<Response, RmcpIpmiReceiveError> {
        Err(RmcpIpmiReceiveError::NotIpmi)
    }

    pub fn send_recv(&mut self, _request: &mut Request) -> Result<Response, RmcpIpmiError> {
        Err(RmcpIpmiError::NotActive)
    }
}

#[derive(Debug, Default)]
pub struct IpmbState;

pub fn next_ipmb_message(_request: &mut Request, _state: &mut IpmbState) -> Vec<u8> {
    Vec::new()
}
