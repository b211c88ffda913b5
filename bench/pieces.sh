#!/bin/sh
# A feed of frames in pieces of one byte: one frame with a long body, and many short frames; each once, and four times
# as long. A body that arrives in many pieces is read once. This runs the sources of the crates UNPROVED, by a trial
# run of the toolchain's `rt`.
# Usage: bench/pieces.sh
. "$(dirname "$0")/lib.sh"

# frame_feed and the crates that it uses.
needed=$(awk -F '[:#]' '/^[a-z]/ { split($1, word, " "); below[word[1]] = $2 }
    function visit(name, deps, n, i) {
        if (!(name in below) || name in seen) return
        seen[name] = 1
        print name
        n = split(below[name], deps, " ")
        for (i = 1; i <= n; i++) visit(deps[i])
    }
    END { visit("frame_feed") }' "$top/crates.txt")
mkdir crates
for crate in $needed; do
    mkdir "crates/$crate"
    for part in src specs proofs; do
        [ ! -d "$top/crates/$crate/$part" ] || cp -r "$top/crates/$crate/$part" "crates/$crate/"
    done
    grep "^$crate:" "$top/crates.txt" >>crates.txt
done
echo 'pieces: wire_frames frame_feed' >>crates.txt
mkdir -p crates/pieces/src
cat >crates/pieces/src/main.rt <<'PROGRAM'
#![tactic(auto)]

use frame_feed::{FrameFeed, Next};
use std::alloc::{AllocError, Global};
use std::time::Instant;
use wire_frames::Way;

// A Describe of a text of so many bytes.
fn frame(alloc: Global, length: u32) -> Result<Vec<u8>, AllocError> {
    let mut bytes = Vec::from_slice(alloc, &[1, 1])?;
    bytes.extend_from_slice(&length.saturating_add(7).to_be_bytes())?;
    bytes.extend_from_slice(&[0, 1])?;
    bytes.extend_from_slice(&length.to_be_bytes())?;
    for _ in 0..length {
        bytes.push(b'a')?;
    }
    bytes.push(0)?;
    Ok(bytes)
}

// The number of messages that a feed gives for so many such frames, in pieces of one byte.
fn messages(alloc: Global, frame: &[u8], times: u32) -> Result<u32, AllocError> {
    let mut feed = FrameFeed::new(alloc, Way::ToServer);
    let mut count = 0u32;
    for _ in 0..times {
        for piece in frame.chunks(1) {
            feed.feed(piece)?;
            if let Next::One { .. } = feed.next(alloc) {
                count = count.saturating_add(1);
            }
        }
    }
    Ok(count)
}

fn main(rt: HostRuntime) -> Result<(), std::io::Error> {
    let alloc = rt.alloc();
    for (length, times) in [(16_000, 1), (64_000, 1), (10, 2_000), (10, 8_000)] {
        let frame = frame(alloc, length)?;
        let begin = Instant::now(&rt)?;
        let count = messages(alloc, &frame, times)?;
        let took = begin.elapsed(&rt)?;
        println!(rt; "{length} {times} {count} {}", took.as_micros())?;
    }
    Ok(())
}
PROGRAM
cd crates/pieces
rt try 2>log >figures || { cat log >&2; exit 1; }
# a line is: bytes of the text, frames, messages, microseconds
row() {
    growth "$1" "$(sed -n "$2p" figures | awk '{ print $4 / 1000000 }')" "$(sed -n "$3p" figures | awk '{ print $4 / 1000000 }')" 6
}
row 'UNPROVED: a frame of 16 kB, byte by byte' 1 2
row 'UNPROVED: 2,000 frames of 10 bytes, byte by byte' 3 4
