#!/bin/sh
# Measures the scan of an HTTP request of 1 MiB that comes in 64 pieces, against copying the pieces and looking at
# each byte once, both in one run. It prints nanoseconds and the ratio for a body with a Content-Length and for
# chunked bodies of several chunk sizes. `once` is one scan of the whole request, `pieces` a scan at each piece.
# Then, for a body of each kind and for a head of 100 fields, nanoseconds per byte of one scan, of the flat form and of
# going over all tokens.
# Run it at the top of the repository: tools/measure_http.sh
set -eu
top=$(pwd)
work=$(mktemp -d)
trap 'rm -rf "$work"' EXIT
mkdir -p "$work/crates/http_measure/src"
crates='rd_base rd_token_map rd_dialect rd_http_frame rd_http_scan rd_body_tokens rd_http_tokens'
for crate in $crates; do
  cp -r "$top/crates/$crate" "$work/crates/"
  grep "^$crate:" "$top/crates.txt" >> "$work/crates.txt"
done
echo 'http_measure: rd_base rd_http_frame rd_dialect rd_http_tokens' >> "$work/crates.txt"
cat > "$work/crates/http_measure/src/main.rt" <<'PROGRAM'
// Times the scan of a request, its flat form and its tokens.
#![tactic(auto)]

use rd_base::{Bytes, NameRules, Names, Note, Part, Phase, Scan, Side};
use rd_dialect::Dialect;
use rd_http_frame::scan_request;
use rd_http_tokens::Http;
use std::alloc::{AllocError, Global};
use std::io;
use std::time::Instant;

const PIECE: usize = 16_384;

/// A request of 64 pieces whose body has a stated length.
fn sized(alloc: Global) -> Result<Vec<u8>, AllocError> {
    let mut bytes = Vec::new(alloc);
    bytes.extend_from_slice(b"POST / HTTP/1.1\r\nHost: h\r\nContent-Length: 1048523\r\n\r\n")?;
    for _ in 0..1_048_523u32 {
        bytes.push(b'x')?;
    }
    Ok(bytes)
}

/// A request whose body has so many chunks of this text.
fn chunked(alloc: Global, count: u32, chunk: &[u8]) -> Result<Vec<u8>, AllocError> {
    let mut bytes = Vec::new(alloc);
    bytes.extend_from_slice(b"POST / HTTP/1.1\r\nHost: h\r\nTransfer-Encoding: chunked\r\n\r\n")?;
    for _ in 0..count {
        bytes.extend_from_slice(chunk)?;
    }
    bytes.extend_from_slice(b"0\r\n\r\n")?;
    Ok(bytes)
}

/// A chunk of so many bytes, whose size line is this.
fn chunk(alloc: Global, line: &[u8], size: u32) -> Result<Vec<u8>, AllocError> {
    let mut bytes = Vec::new(alloc);
    bytes.extend_from_slice(line)?;
    for _ in 0..size {
        bytes.push(b'x')?;
    }
    bytes.extend_from_slice(b"\r\n")?;
    Ok(bytes)
}

/// Copies the pieces, and looks at each byte once.
fn copy_and_look(alloc: Global, bytes: &[u8]) -> Result<u8, AllocError> {
    let mut kept: Vec<u8> = Vec::new(alloc);
    for piece in bytes.chunks(PIECE) {
        kept.extend_from_slice(piece)?;
    }
    let mut seen = 0u8;
    for b in &kept {
        seen = (seen ^ *b).rotate_left(1);
    }
    Ok(seen)
}

/// The first bytes, or all.
fn front(bytes: &[u8], count: usize) -> &[u8] {
    bytes.get(..count).unwrap_or(bytes)
}

/// Scans at each of the 64 pieces, and counts those that leave the request open.
fn scan_pieces(bytes: &[u8]) -> u32 {
    let mut open = 0u32;
    for n in 1..65usize {
        if scan_request(front(bytes, n * PIECE)) == Scan::More {
            open = open.saturating_add(1);
        }
    }
    open
}

fn is_whole(bytes: &[u8]) -> bool {
    scan_request(bytes) == Scan::Whole(bytes.len())
}

/// Nanoseconds of a copy with a look, of one scan, and of a scan at each piece.
fn measure(rt: &HostRuntime, alloc: Global, name: &str, bytes: &[u8]) -> io::Result<()> {
    let start = Instant::now(rt)?;
    let seen = copy_and_look(alloc, bytes)?;
    let copied = start.elapsed(rt)?.as_nanos();
    let start = Instant::now(rt)?;
    let whole = is_whole(bytes);
    let once = start.elapsed(rt)?.as_nanos();
    let start = Instant::now(rt)?;
    let open = scan_pieces(bytes);
    let pieces = start.elapsed(rt)?.as_nanos();
    let len = bytes.len();
    println!(rt; "{name} {len} {copied} {once} {pieces} {seen} {whole} {open}")?;
    Ok(())
}

const PHASE: Phase = Phase(0);

const NOTE: Note = Note(1);

/// A request of this type whose body is this text, again and again, so many times; the length is that of the body.
fn typed(
    alloc: Global,
    kind: &[u8],
    length: &[u8],
    text: &[u8],
    count: u32,
) -> Result<Vec<u8>, AllocError> {
    let mut bytes = Vec::new(alloc);
    bytes.extend_from_slice(b"POST / HTTP/1.1\r\nHost: h\r\nContent-Type: ")?;
    bytes.extend_from_slice(kind)?;
    bytes.extend_from_slice(b"\r\nContent-Length: ")?;
    bytes.extend_from_slice(length)?;
    bytes.extend_from_slice(b"\r\n\r\n")?;
    for _ in 0..count {
        bytes.extend_from_slice(text)?;
    }
    Ok(bytes)
}

/// A request with 100 fields and no body.
fn hundred_fields(alloc: Global) -> Result<Vec<u8>, AllocError> {
    let mut bytes = Vec::new(alloc);
    bytes.extend_from_slice(b"GET /a/page?with=query HTTP/1.1\r\n")?;
    for _ in 0..100u32 {
        bytes.extend_from_slice(b"X-Some-Field: some words, of a value; and a number=17\r\n")?;
    }
    bytes.extend_from_slice(b"\r\n")?;
    Ok(bytes)
}

/// The number of tokens of a whole request with this flat form.
fn count_tokens(http: &Http, flat: &[u8]) -> u32 {
    if flat.len() >= 4_294_967_296 {
        return 0;
    }
    let mut count = 0u32;
    let mut cursor = http.first_cursor();
    for _ in 0..flat.len() {
        match http.next_token(Part::Request, PHASE, NOTE, flat, true, cursor) {
            Some((_, next)) => {
                count = count.saturating_add(1);
                cursor = next;
            }
            None => return count,
        }
    }
    count
}

/// Nanoseconds of so many rounds of a copy with a look, of a scan, of a flat form, and of all tokens.
fn measure_tokens(
    rt: &HostRuntime,
    alloc: Global,
    http: &Http,
    name: &str,
    bytes: &[u8],
    rounds: u32,
) -> io::Result<()> {
    let start = Instant::now(rt)?;
    let mut seen = 0u8;
    for _ in 0..rounds {
        seen = seen ^ copy_and_look(alloc, bytes)?;
    }
    let copied = start.elapsed(rt)?.as_nanos();
    let start = Instant::now(rt)?;
    let mut whole = true;
    for _ in 0..rounds {
        whole = whole && is_whole(bytes);
    }
    let scanned = start.elapsed(rt)?.as_nanos();
    let start = Instant::now(rt)?;
    let mut flat = Bytes::new(alloc);
    for _ in 0..rounds {
        flat = Bytes::new(alloc);
        if http.flat_into(Part::Request, PHASE, NOTE, bytes, true, &mut flat).is_err() {
            return Ok(());
        }
    }
    let flattened = start.elapsed(rt)?.as_nanos();
    let start = Instant::now(rt)?;
    let mut tokens = 0u32;
    for _ in 0..rounds {
        tokens = count_tokens(http, flat.as_slice());
    }
    let cut = start.elapsed(rt)?.as_nanos();
    let len = bytes.len();
    println!(rt; "tokens-of-{name} {len} {rounds} {copied} {scanned} {flattened} {cut} {seen} {whole} {tokens}")?;
    Ok(())
}

/// Measures a body of about 1 MiB of each kind, and a head of 100 fields.
fn measure_kinds(rt: &HostRuntime, alloc: Global) -> io::Result<()> {
    let rules = NameRules {
        pass: Names::new(alloc),
        firm: Names::new(alloc),
        free: Names::new(alloc),
    };
    let Ok(http) = Http::new(alloc, Side::Incoming, &rules) else {
        return Ok(());
    };
    let text = b"<p>Some plain words, a link</p>\n";
    let bytes = typed(alloc, b"text/html", b"1048576", text, 32_768)?;
    measure_tokens(rt, alloc, &http, "words", &bytes, 1)?;
    let text = b"{\"name\":\"a \\\"text\\\"\",\"n\":-1.50},";
    let bytes = typed(alloc, b"application/json", b"1048576", text, 32_768)?;
    measure_tokens(rt, alloc, &http, "json", &bytes, 1)?;
    let text = b"key=some+value%20of+words&n=125&";
    let bytes = typed(alloc, b"application/x-www-form-urlencoded", b"1048576", text, 32_768)?;
    measure_tokens(rt, alloc, &http, "form", &bytes, 1)?;
    let text = b"\x00\x01\x02\x03\x04\x05\x06\x07\x08\x09\x0a\x0b\x0c\x0d\x0e\x0f";
    let bytes = typed(alloc, b"image/png", b"1048576", text, 65_536)?;
    measure_tokens(rt, alloc, &http, "raw", &bytes, 1)?;
    let bytes = hundred_fields(alloc)?;
    measure_tokens(rt, alloc, &http, "100-fields", &bytes, 100)?;
    Ok(())
}

fn main(rt: HostRuntime) -> io::Result<()> {
    let alloc = rt.alloc();
    for _ in 0..5u32 {
        let bytes = sized(alloc)?;
        measure(&rt, alloc, "content-length", &bytes)?;
        let one = chunk(alloc, b"4000\r\n", 16_384)?;
        let bytes = chunked(alloc, 63, &one)?;
        measure(&rt, alloc, "chunks-of-16384", &bytes)?;
        let one = chunk(alloc, b"400\r\n", 1_024)?;
        let bytes = chunked(alloc, 1_016, &one)?;
        measure(&rt, alloc, "chunks-of-1024", &bytes)?;
        let one = chunk(alloc, b"40\r\n", 64)?;
        let bytes = chunked(alloc, 14_979, &one)?;
        measure(&rt, alloc, "chunks-of-64", &bytes)?;
        measure_kinds(&rt, alloc)?;
    }
    Ok(())
}
PROGRAM
cd "$work/crates/http_measure"
rt run > "$work/out" 2> "$work/log" || { tail -40 "$work/log" >&2; exit 1; }
awk '/^tokens-of-/ { each = $2 * $3; printf "%s: %d bytes, ns per byte: copy and look %.2f, one scan %.2f, flat form %.2f, %d tokens %.2f (%.0f ns each), %s\n", $1, $2, $4 / each, $5 / each, $6 / each, $10, $7 / each, $7 / $3 / $10, $9; next }
  { printf "%s: %.0f bytes, copy and look %.0f ns, one scan %.0f ns (ratio %.4f), 64 scans %.0f ns (ratio %.4f), %s, %d open\n", $1, $2, $3, $4, $4 / $3, $5, $5 / $3, $7, $8 }' "$work/out"
