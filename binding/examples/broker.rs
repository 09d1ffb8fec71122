//! A broker on loopback that real clients can ask: it answers ApiVersions at versions 0 to 3 and Metadata at 0 to 4.
//!
//! ```text
//! $ cargo run --release --example broker
//! port 40133
//! $ kcat -L -b 127.0.0.1:40133
//! ```
//!
//! Frames, headers and ApiVersions bodies are read and written by the library. It writes no Metadata response, which is a
//! broker's part, so that body is put together here. Each request is shown as a line: API key, version, correlation id, and the
//! client's name.

use befrolan::{
    append_response_frame, read_api_versions_request, response_header_number, ApiVersionsAnswer, ApiVersionsTables,
    FrameReader, RequestFrame, ResponseHeader, StreamError,
};
use std::io::{self, Write};
use std::net::{TcpListener, TcpStream};

const API_VERSIONS: i16 = 18;
const METADATA: i16 = 3;

/// Error code 35: the broker does not have the version that it was asked at.
const UNSUPPORTED_VERSION: i16 = 35;

/// ApiVersions. A version that is not here is answered at version 0 with error code 35, as brokers do (KIP-511).
fn api_versions(request: &RequestFrame<'_>) -> Result<Vec<u8>, StreamError> {
    let mut tables = ApiVersionsTables::default();
    let known = read_api_versions_request(request.body, request.request_api_version, &mut tables).is_ok();
    let (error, version) = if known { (0, request.request_api_version) } else { (UNSUPPORTED_VERSION, 0) };
    let mut answer = ApiVersionsAnswer::new(error);
    answer.api(API_VERSIONS, 0, 3, &[]);
    answer.api(METADATA, 0, 4, &[]);
    let mut body = vec![0; 64];
    let length = answer.write(&mut body, version)?;
    body.truncate(length);
    Ok(body)
}

fn string(out: &mut Vec<u8>, text: &str) {
    out.extend((text.len() as i16).to_be_bytes());
    out.extend(text.as_bytes());
}

/// Metadata: this broker, which has the node number 1, and a topic of two partitions that it leads.
fn metadata(version: i16, port: u16) -> Vec<u8> {
    let mut out = Vec::new();
    let int32 = |out: &mut Vec<u8>, n: i32| out.extend(n.to_be_bytes());
    if version >= 3 {
        int32(&mut out, 0); // throttle_time_ms
    }
    int32(&mut out, 1); // brokers
    int32(&mut out, 1);
    string(&mut out, "127.0.0.1");
    int32(&mut out, port.into());
    if version >= 1 {
        out.extend((-1i16).to_be_bytes()); // rack
    }
    if version >= 2 {
        string(&mut out, "depot-7"); // cluster_id
    }
    if version >= 1 {
        int32(&mut out, 1); // controller_id
    }
    int32(&mut out, 1); // topics
    out.extend(0i16.to_be_bytes());
    string(&mut out, "charging");
    if version >= 1 {
        out.push(0); // is_internal
    }
    int32(&mut out, 2); // partitions
    for index in 0..2 {
        out.extend(0i16.to_be_bytes());
        // partition_index, leader_id, one replica, and one that is in sync
        for n in [index, 1, 1, 1, 1, 1] {
            int32(&mut out, n);
        }
    }
    out
}

/// Answers the requests of one client, until it goes or asks for what is not here.
fn serve(mut stream: TcpStream, port: u16) -> Result<(), StreamError> {
    let mut frames = FrameReader::new();
    let mut out = Vec::new();
    while let Some(request) = frames.read_request(&mut stream)? {
        let (key, version) = (request.request_api_key, request.request_api_version);
        println!("{key} {version} {} {}", request.correlation_id, request.client_id.unwrap_or("-"));
        let body = match (key, version) {
            (API_VERSIONS, _) => api_versions(&request)?,
            (METADATA, 0..=4) => metadata(version, port),
            _ => return Ok(()),
        };
        out.clear();
        let header = ResponseHeader { correlation_id: request.correlation_id, tags: &[] };
        append_response_frame(&mut out, response_header_number(key, version), &header, &body)?;
        stream.write_all(&out)?;
    }
    Ok(())
}

fn main() -> io::Result<()> {
    let listener = TcpListener::bind("127.0.0.1:0")?;
    let port = listener.local_addr()?.port();
    println!("port {port}");
    for stream in listener.incoming() {
        let stream = stream?;
        std::thread::spawn(move || {
            if let Err(e) = serve(stream, port) {
                eprintln!("broker: {e}");
            }
        });
    }
    Ok(())
}
