// A Rust program linked with libvmx.a: codes a plane, puts its streams into a frame and finds them there again.
use std::process::exit;

#[rustfmt::skip]
#[link(name = "vmx", kind = "static")]
unsafe extern "C" {
    fn vmx_encode_plane8(
        rows: *const u8, rows_len: usize, stride: usize, place: usize, preset: usize, shift: u32,
        dc: *mut u8, dc_len: usize, dc_at: &mut usize, ac: *mut u8, ac_len: usize, ac_at: &mut usize,
    ) -> u32;
    fn vmx_frame_start(
        width: usize, height: usize, interlaced: u32, quality: u8, dc_shift: u32, out: *mut u8, out_len: usize,
        ac_turn: &mut u32, next: &mut usize, at: &mut usize,
    ) -> u32;
    fn vmx_frame_put(
        width: usize, height: usize, ac: u32, slice: usize, stream: *const u8, stream_len: usize, out: *mut u8,
        out_len: usize, ac_turn: &mut u32, next: &mut usize, at: &mut usize,
    ) -> u32;
    fn vmx_frame_complete(width: usize, height: usize, ac_turn: u32, next: usize, complete: &mut u32) -> u32;
    fn vmx_stream(
        width: usize, height: usize, frame: *const u8, frame_len: usize, ac: u32, slice: usize, offset: &mut usize,
        len: &mut usize,
    ) -> u32;
}

// Number and ends of coding an 8-bit plane from byte 0 of both buffers.
fn code(rows: &[u8], stride: usize, preset: usize, dc: &mut [u8], ac: &mut [u8]) -> (u32, usize, usize) {
    let (r, rn) = (rows.as_ptr(), rows.len());
    let (d, dn, a, an) = (dc.as_mut_ptr(), dc.len(), ac.as_mut_ptr(), ac.len());
    let (mut d_at, mut a_at) = (0, 0);
    // SAFETY: slices with their own lengths, which do not overlap, and two places of our own.
    let n = unsafe { vmx_encode_plane8(r, rn, stride, 0, preset, 0, d, dn, &mut d_at, a, an, &mut a_at) };
    (n, d_at, a_at)
}

// A frame of 16 x 16 samples, one slice, from its streams.
fn frame(streams: [&[u8]; 2]) -> Vec<u8> {
    let mut out = vec![0u8; 64];
    let (o, on) = (out.as_mut_ptr(), out.len());
    let (mut turn, mut next, mut at, mut complete) = (0, 0, 0, 9);
    // SAFETY: the output with its own length, and three places of our own.
    let n = unsafe { vmx_frame_start(16, 16, 0, 99, 0, o, on, &mut turn, &mut next, &mut at) };
    expect(n == 0, "the header");
    for (kind, s) in (0..).zip(streams) {
        let (s, sn) = (s.as_ptr(), s.len());
        // SAFETY: stream and output with their own lengths, which do not overlap, and three places of our own.
        let n = unsafe { vmx_frame_put(16, 16, kind, 0, s, sn, o, on, &mut turn, &mut next, &mut at) };
        expect(n == 0, "a stream");
        // SAFETY: a place of our own.
        let n = unsafe { vmx_frame_complete(16, 16, turn, next, &mut complete) };
        expect(n == 0 && complete == 1, "complete after its only DC stream, and after its only AC stream");
    }
    out.truncate(at);
    out
}

fn stream(frame: &[u8], kind: u32) -> &[u8] {
    let (mut offset, mut len) = (0, 0);
    // SAFETY: the frame with its own length, and two places of our own.
    let n = unsafe { vmx_stream(16, 16, frame.as_ptr(), frame.len(), kind, 0, &mut offset, &mut len) };
    expect(n == 0, "a stream found");
    &frame[offset..offset + len]
}

fn expect(ok: bool, what: &str) {
    if !ok {
        eprintln!("failed: {what}");
        exit(1);
    }
}

fn main() {
    let rows = [128u8; 16 * 8];
    let (mut dc, mut ac) = ([0xAAu8; 8], [0xAAu8; 400]);
    expect(code(&rows, 8, 25, &mut dc, &mut ac) == (1, 0, 0), "no preset 25");
    expect(dc == [0xAA; 8] && ac == [0xAA; 400], "nothing written");
    expect(code(&rows, 8, 0, &mut dc, &mut ac) == (0, 1, 2), "a plane of 128");
    expect(dc[..2] == [0xF0, 0xAA] && ac[..3] == [0x80, 0x80, 0xAA], "its streams");
    let f = frame([&dc[..1], &ac[..2]]);
    expect(f == [1, 99, 1, 1, 0, 0, 0, 0xF0, 2, 0, 0, 0, 0x80, 0x80], "the frame's bytes");
    expect(stream(&f, 0) == [0xF0] && stream(&f, 1) == [0x80, 0x80], "its streams again");
    println!("link: a Rust program runs");
}
