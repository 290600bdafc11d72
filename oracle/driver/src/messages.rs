//! The Rust's messages around given headers.

use bytes::Bytes;
use sip_core::{Headers, Method, Request, RequestLine, Response, SipUri, StatusLine};

/// A request with these headers; nothing in scope looks at its URI.
pub fn request(method: Method, headers: Headers) -> Request {
    let uri = SipUri::parse("sip:x").expect("readable");
    let line = RequestLine::new(method, uri);
    Request::new(line, headers, Bytes::new()).expect("no body")
}

/// A response with these headers; the Rust has none outside 100 to 699.
pub fn response(code: u16, headers: Headers) -> Option<Response> {
    let line = StatusLine::new(code, "x").ok()?;
    Some(Response::new(line, headers, Bytes::new()).expect("no body"))
}
