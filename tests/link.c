/* A C program linked with libvmx.a: codes and previews planes, builds a small frame, reads it back, and meets refusals. */
#include "vmx.h"

#include <stdio.h>
#include <string.h>

static int passed, failed;

static void check(int ok, const char *what) {
    if (ok) {
        passed++;
    } else {
        failed++;
        fprintf(stderr, "failed: %s\n", what);
    }
}

/* 16 x 32 samples: two slices. */
enum { WIDTH = 16, HEIGHT = 32, ROOM = 64 };

/* 0 where it is cut to 32 bits. */
static const size_t FAR = (size_t)1 << 32;

static void geometry(void) {
    size_t aligned = 7, slices = 7, luma = 7, chroma = 7, dc = 7, ac = 7, wide = 7, high = 7;
    uint32_t capable = 7;
    check(vmx_layout(WIDTH, HEIGHT, &aligned, &slices, &luma, &chroma, &dc, &ac) == VMX_OK, "layout");
    check(aligned == 32 && slices == 2 && luma == 16 && chroma == 8 && dc == 512 && ac == 896, "layout's numbers");
    check(vmx_layout(17, HEIGHT, &aligned, &slices, &luma, &chroma, &dc, &ac) == VMX_NO_SIZE, "odd width");
    check(aligned == 32 && slices == 2 && luma == 16 && chroma == 8 && dc == 512 && ac == 896, "kept on refusal");
    check(vmx_interlace_capable(1920, 1080, &capable) == VMX_OK && capable == 1, "1080 rows interlaced");
    check(vmx_interlace_capable(1280, 720, &capable) == VMX_OK && capable == 0, "720 rows not");
    check(vmx_interlace_capable(17, 1080, &capable) == VMX_NO_SIZE && capable == 0, "odd width");
    check(vmx_preview_size(1920, 1080, 0, &wide, &high) == VMX_OK && wide == 240 && high == 135, "preview size");
    check(vmx_preview_size(1920, 1080, 1, &wide, &high) == VMX_OK && wide == 240 && high == 134, "preview of fields");
    check(vmx_preview_size(1920, 4321, 0, &wide, &high) == VMX_NO_SIZE && wide == 240 && high == 134, "4,321 rows");
}

/* An 8-bit plane at place 0, stride 8, preset 0, all samples alike: its streams, at the positions 2 and 1. */
static void plane_of(uint8_t sample, uint32_t shift, const uint8_t *dc_want, size_t dc_n, const char *what) {
    uint8_t rows[128], dc[16], ac[400], rest[400];
    size_t d = 2, a = 1;
    memset(rows, sample, sizeof rows);
    memset(dc, 0xAA, sizeof dc);
    memset(ac, 0xAA, sizeof ac);
    memset(rest, 0xAA, sizeof rest);
    check(vmx_encode_plane8(rows, sizeof rows, 8, 0, 0, shift, dc, sizeof dc, &d, ac, sizeof ac, &a) == VMX_OK, what);
    check(d == 2 + dc_n && a == 3, "where the streams end");
    check(memcmp(dc + 2, dc_want, dc_n) == 0 && ac[1] == 0x80 && ac[2] == 0x80, "the streams");
    check(memcmp(dc, rest, 2) == 0 && memcmp(dc + d, rest, sizeof dc - d) == 0, "all other DC bytes");
    check(memcmp(ac, rest, 1) == 0 && memcmp(ac + a, rest, sizeof ac - a) == 0, "all other AC bytes");
}

static void planes(void) {
    static const uint8_t grey[] = {0xF0}, white[] = {0x00, 0x3F, 0x8E}, black[] = {0x00, 0x10, 0x01, 0x80},
                         shifted[] = {0x01, 0xFF, 0x80};
    uint8_t rows[128], dc[16], ac[400], rest[400];
    uint16_t wide[128];
    size_t d = 0, a = 0, i;
    plane_of(128, 0, grey, sizeof grey, "all 128");
    plane_of(255, 0, white, sizeof white, "all 255");
    plane_of(0, 0, black, sizeof black, "all 0");
    plane_of(255, 3, shifted, sizeof shifted, "all 255, shift 3");

    memset(rows, 128, sizeof rows);
    memset(dc, 0xAA, sizeof dc);
    memset(ac, 0xAA, sizeof ac);
    memset(rest, 0xAA, sizeof rest);
    check(vmx_encode_plane8(rows, sizeof rows, 8, 0, 25, 0, dc, sizeof dc, &d, ac, sizeof ac, &a) == VMX_NO_PRESET,
          "preset 25");
    check(vmx_encode_plane8(rows, sizeof rows, 8, 0, 0, 16, dc, sizeof dc, &d, ac, sizeof ac, &a) == VMX_NO_SHIFT,
          "shift 16");
    check(vmx_encode_plane8(rows, sizeof rows, 8, 4, 0, 0, dc, sizeof dc, &d, ac, sizeof ac, &a) == VMX_NO_PLANE,
          "place 4");
    check(vmx_encode_plane8(rows, sizeof rows, 8, FAR, 0, 0, dc, sizeof dc, &d, ac, sizeof ac, &a) == VMX_NO_PLANE,
          "place 2^32");
    check(vmx_encode_plane8(rows, sizeof rows, 12, 0, 0, 0, dc, sizeof dc, &d, ac, sizeof ac, &a) == VMX_NO_STRIDE,
          "stride 12");
    check(vmx_encode_plane8(rows, 127, 8, 0, 0, 0, dc, sizeof dc, &d, ac, sizeof ac, &a) == VMX_NO_ROWS, "127 samples");
    check(d == 0 && a == 0, "positions kept on refusal");
    d = 9;
    a = 7;
    check(vmx_encode_plane8(rows, sizeof rows, 8, 0, 0, 0, dc, sizeof dc, &d, ac, sizeof ac, &a) == VMX_NO_ROOM,
          "no room for DC");
    check(d == 9 && a == 7, "positions kept on refusal");
    check(memcmp(dc, rest, sizeof dc) == 0 && memcmp(ac, rest, sizeof ac) == 0, "nothing written");

    for (i = 0; i < 128; i++) {
        wide[i] = (uint16_t)(512 << 6);
    }
    d = a = 0;
    check(vmx_encode_plane10(wide, 128, 8, 0, 0, 0, dc, sizeof dc, &d, ac, sizeof ac, &a) == VMX_OK, "10 bits, all 512");
    check(d == 1 && dc[0] == 0xF0 && a == 2 && ac[0] == 0x80 && ac[1] == 0x80, "its streams");
}

/* Planes 0 and 1, each all zeros once its level is taken off: their streams, one after the other. */
static void slices(void) {
    static const uint8_t dc_want[] = {0xF0, 0xF0}, ac_want[] = {0x80, 0x80, 0x80, 0x80};
    uint8_t p0[128], p1[128], none[1] = {0}, dc[16], ac[788];
    uint16_t w0[128], w1[128], wide_none[1] = {0};
    size_t d = 0, a = 0, i, dc_len = 7, ac_len = 7;
    memset(p0, 128, sizeof p0);
    memset(p1, 0, sizeof p1);
    for (i = 0; i < 128; i++) {
        w0[i] = (uint16_t)(512 << 6);
        w1[i] = 0;
    }
    check(vmx_slice_size(2, 8, 8, 0, 0, &dc_len, &ac_len) == VMX_OK && dc_len == 16 && ac_len == 788, "size of two planes");
    check(vmx_plane_size(8, &dc_len, &ac_len) == VMX_OK && dc_len == 8 && ac_len == 394, "size of a plane");
    check(vmx_plane_size(12, &dc_len, &ac_len) == VMX_NO_STRIDE && dc_len == 8 && ac_len == 394, "no size");
    check(vmx_slice_size(5, 8, 8, 8, 8, &dc_len, &ac_len) == VMX_NO_PLANE && dc_len == 8 && ac_len == 394,
          "no slice of five planes");

    check(vmx_encode_slice8(p0, 128, 8, p1, 128, 8, none, 0, 0, none, 0, 0, 5, 0, 0, dc, 16, &d, ac, 788, &a) == VMX_NO_PLANE,
          "five planes");
    check(vmx_encode_slice8(p0, 128, 8, p1, 127, 8, none, 0, 0, none, 0, 0, 2, 0, 0, dc, 16, &d, ac, 788, &a) == VMX_NO_ROWS,
          "plane 1 too short");
    check(vmx_encode_slice8(p0, 128, 8, p1, 128, 8, none, 0, 0, none, 0, 0, 2, 0, 0, dc, 15, &d, ac, 788, &a) == VMX_NO_ROOM,
          "a byte short");
    check(d == 0 && a == 0, "positions kept on refusal");
    check(vmx_encode_slice8(p0, 128, 8, p1, 128, 8, none, 0, 0, none, 0, 0, 2, 0, 0, dc, 16, &d, ac, 788, &a) == VMX_OK,
          "two planes");
    check(d == 2 && a == 4 && memcmp(dc, dc_want, 2) == 0 && memcmp(ac, ac_want, 4) == 0, "their streams");
    d = a = 0;
    memset(dc, 0, sizeof dc);
    check(vmx_encode_slice10(w0, 128, 8, w1, 128, 8, wide_none, 0, 0, wide_none, 0, 0, 2, 0, 0, dc, 16, &d, ac, 788, &a)
              == VMX_OK,
          "two planes of 10 bits");
    check(d == 2 && a == 4 && memcmp(dc, dc_want, 2) == 0 && memcmp(ac, ac_want, 4) == 0, "their streams");
}

static void previews(void) {
    /* DC 1020 is 0 here, DC 1016 is 255; both after a byte of something else */
    static const uint8_t dc[] = {0x55, 0x00, 0x3F, 0xCE, 0x00, 0x3F, 0x8E}, bad[] = {0, 0, 0, 0, 0, 0, 0},
                         ac[] = {0x80, 0x80};
    uint8_t upper[2] = {7, 7}, lower[2] = {7, 7}, report[3] = {7, 7, 7};
    size_t at = 1;
    check(vmx_preview(0, 0, 8, upper, 2, lower, 2, dc, sizeof dc, &at) == VMX_OK, "preview");
    check(at == 4 && upper[0] == 0 && lower[0] == 0 && upper[1] == 7 && lower[1] == 7, "DC 1020 is not clamped");
    check(vmx_preview(0, 0, 8, upper, 2, lower, 2, dc, sizeof dc, &at) == VMX_OK, "preview of the next plane");
    check(at == 7 && upper[0] == 255 && lower[0] == 255, "DC 1016");
    at = 0;
    check(vmx_preview(0, 4, 8, upper, 2, lower, 2, dc, sizeof dc, &at) == VMX_NO_PLANE, "place 4");
    check(vmx_preview(0, FAR, 8, upper, 2, lower, 2, dc, sizeof dc, &at) == VMX_NO_PLANE, "place 2^32");
    check(vmx_preview(0, 0, 8, upper, 2, lower, 2, bad, sizeof bad, &at) == VMX_NO_CODE, "a bad code");
    check(vmx_preview(0, 0, 8, upper, 2, lower, 0, dc, sizeof dc, &at) == VMX_NO_ROWS, "no room for the lower row");
    check(at == 0 && upper[0] == 255 && lower[0] == 255, "nothing changed on refusal");

    check(vmx_block_report(8, report, 3, ac, sizeof ac, &at) == VMX_OK, "block report");
    check(at == 2 && report[0] == 0 && report[1] == 1 && report[2] == 7, "one run for both blocks");
    at = 0;
    check(vmx_block_report(8, report, 1, ac, sizeof ac, &at) == VMX_NO_ROWS, "no room for two bytes");
    check(vmx_block_report(8, report, 3, bad, sizeof bad, &at) == VMX_NO_CODE, "a bad code");
    check(at == 0 && report[0] == 0 && report[1] == 1, "nothing changed on refusal");
}

static void presets_and_rows(void) {
    uint8_t kept = 0;
    uint32_t there = 7;
    size_t preset = 99, row = 99;
    vmx_quality_preset(36, &kept, &preset);
    check(kept == 36 && preset == 24, "quality 36");
    vmx_quality_preset(35, &kept, &preset);
    check(kept == 35 && preset == 0, "quality 35");
    vmx_quality_preset(100, &kept, &preset);
    check(kept == 99 && preset == 0, "quality 100");
    check(vmx_image_row(64, 1080, 1, 0, &there, &row) == VMX_OK && there == 1 && row == 1, "row 1 of a progressive image");
    check(vmx_image_row(64, 1080, 1, 1, &there, &row) == VMX_OK && there == 1 && row == 2, "row 1 of the top field");
    check(vmx_image_row(64, 1080, 544, 1, &there, &row) == VMX_OK && there == 1 && row == 1, "row 0 of the bottom field");
    check(vmx_image_row(64, 1080, 1080, 0, &there, &row) == VMX_OK && there == 0 && row == 1, "padding");
    there = 7;
    check(vmx_image_row(17, 100000, 5, 0, &there, &row) == VMX_NO_SIZE && there == 7 && row == 1, "100,000 rows");
}

static void frame(void) {
    static const uint8_t dc0[] = {0xF0}, dc1[] = {1, 2, 3}, ac0[] = {0x80, 0x80}, ac1[] = {9};
    static const uint8_t whole[] = {3, 4, 1, 36, 2,                            /* header, shift 4 */
                                    1, 0, 0, 0, 0xF0, 3, 0, 0, 0, 1, 2, 3,     /* DC */
                                    2, 0, 0, 0, 0x80, 0x80, 1, 0, 0, 0, 9};    /* AC */
    static uint8_t long_dc[513], long_out[600];
    uint8_t out[ROOM], before[ROOM];
    size_t next, at = 0, header_len, offset, len;
    uint32_t turn, complete = 9, interlaced, quality, shift, there, views[VMX_VIEWS];
    memset(out, 0xAA, sizeof out);

    check(vmx_frame_start(WIDTH, HEIGHT, 0, 36, 4, out, ROOM, &turn, &next, &at) == VMX_OK, "start");
    check(at == 5 && turn == 0 && next == 0, "state after the header");
    check(vmx_frame_complete(WIDTH, HEIGHT, turn, next, &complete) == VMX_OK && complete == 0, "a header is no frame");
    check(vmx_frame_put(WIDTH, HEIGHT, 0, 0, dc0, sizeof dc0, out, ROOM, &turn, &next, &at) == VMX_OK, "DC 0");

    memcpy(before, out, ROOM);
    check(vmx_frame_put(WIDTH, HEIGHT, 1, 1, ac1, sizeof ac1, out, ROOM, &turn, &next, &at) == VMX_NO_TURN, "out of turn");
    check(memcmp(before, out, ROOM) == 0 && at == 10 && next == 1 && turn == 0, "nothing changed on refusal");
    check(vmx_frame_put(15, HEIGHT, 0, 1, dc1, sizeof dc1, out, ROOM, &turn, &next, &at) == VMX_NO_SIZE, "no such size");
    check(memcmp(before, out, ROOM) == 0 && at == 10 && next == 1 && turn == 0, "nothing changed on refusal");

    check(vmx_frame_put(WIDTH, HEIGHT, 0, 1, dc1, sizeof dc1, out, ROOM, &turn, &next, &at) == VMX_OK, "DC 1");
    check(vmx_frame_complete(WIDTH, HEIGHT, turn, next, &complete) == VMX_OK && complete == 1, "complete without AC");
    check(vmx_frame_put(WIDTH, HEIGHT, 1, 0, ac0, sizeof ac0, out, ROOM, &turn, &next, &at) == VMX_OK, "AC 0");
    check(vmx_frame_put(WIDTH, HEIGHT, 1, 1, ac1, sizeof ac1, out, ROOM, &turn, &next, &at) == VMX_OK, "AC 1");
    check(at == sizeof whole && memcmp(out, whole, sizeof whole) == 0, "the frame's bytes");
    check(vmx_frame_complete(WIDTH, HEIGHT, turn, next, &complete) == VMX_OK && complete == 1, "complete");
    check(vmx_frame_complete(15, HEIGHT, turn, next, &complete) == VMX_NO_SIZE && complete == 1, "kept on refusal");
    at = next = turn = 0;
    check(vmx_frame_put(WIDTH, HEIGHT, 0, 0, long_dc, sizeof long_dc, long_out, sizeof long_out, &turn, &next, &at) == VMX_NO_LIMIT,
          "513 bytes of DC at width 16");
    check(vmx_frame_put(WIDTH, HEIGHT, 0, 0, long_dc, 512, long_out, sizeof long_out, &turn, &next, &at) == VMX_OK && at == 516,
          "512 bytes");
    at = sizeof whole;
    check(out[at] == 0xAA, "no byte after the frame");

    check(vmx_parse(WIDTH, HEIGHT, out, at, &interlaced, &quality, &shift, &header_len, &there) == VMX_OK, "parse");
    check(interlaced == 0 && quality == 36 && shift == 4 && header_len == 5 && there == 1, "the header");
    check(vmx_stream(WIDTH, HEIGHT, out, at, 0, 1, &offset, &len) == VMX_OK, "DC stream 1");
    check(len == sizeof dc1 && memcmp(out + offset, dc1, len) == 0, "its bytes");
    check(vmx_stream(WIDTH, HEIGHT, out, at, 1, 0, &offset, &len) == VMX_OK, "AC stream 0");
    check(len == sizeof ac0 && memcmp(out + offset, ac0, len) == 0, "its bytes");
    check(vmx_stream(WIDTH, HEIGHT, out, at, 1, 2, &offset, &len) == VMX_NO_TURN, "no slice 2");
    check(offset == 0 && len == 0, "an empty part");
    check(vmx_parse(WIDTH, HEIGHT, out, at - 1, &interlaced, &quality, &shift, &header_len, &there) == VMX_NO_BYTES,
          "a byte short");
    check(quality == 36 && header_len == 5, "kept on refusal");

    views[0] = views[8] = 99;
    check(vmx_streams(WIDTH, HEIGHT, out, at, views, 7, &interlaced, &quality, &shift, &header_len, &there) == VMX_NO_ROWS,
          "no table for two slices");
    check(vmx_streams(WIDTH, HEIGHT, out, at - 1, views, VMX_VIEWS, &interlaced, &quality, &shift, &header_len, &there) ==
              VMX_NO_BYTES,
          "a byte short");
    check(vmx_streams(17, HEIGHT, out, at, views, 0, &interlaced, &quality, &shift, &header_len, &there) == VMX_NO_SIZE,
          "9 before 5");
    check(views[0] == 99, "kept on refusal");
    check(vmx_streams(WIDTH, HEIGHT, out, at, views, VMX_VIEWS, &interlaced, &quality, &shift, &header_len, &there) == VMX_OK,
          "all streams");
    check(views[2] == 14 && views[3] == sizeof dc1 && views[4] == 21 && views[5] == sizeof ac0 && views[8] == 99,
          "their places");

    at = ROOM - 4;
    check(vmx_frame_start(WIDTH, HEIGHT, 0, 36, 4, out, ROOM, &turn, &next, &at) == VMX_NO_ROOM,
          "no room");
    check(at == ROOM - 4, "kept on refusal");
}

static void shown(void) {
    size_t offset, len;
    uint32_t from_new;
    check(vmx_shown_rows(512, 512, 16, 1, VMX_OK, &from_new, &offset, &len) == VMX_OK, "shown");
    check(from_new == 1 && offset == 256 && len == 256, "out of the new picture");
    check(vmx_shown_rows(512, 512, 16, 1, VMX_NO_CODE, &from_new, &offset, &len) == VMX_OK, "shown");
    check(from_new == 0 && offset == 256 && len == 256, "out of the held picture");
    from_new = 7;
    check(vmx_shown_rows(512, 511, 16, 1, VMX_OK, &from_new, &offset, &len) == VMX_NO_ROWS, "held too short");
    check(from_new == 7 && offset == 0 && len == 0, "an empty part, of no picture");
    check(vmx_shown_time(20, 10, VMX_OK) == 20 && vmx_shown_time(20, 10, VMX_NO_CODE) == 10, "time");
}

/* Planes and slices read: what was coded comes back, and a bad code leaves every sample. */
static void reading(void) {
    uint8_t rows[128], back[136], second[128], old[136], dc[16], ac[400];
    uint16_t wide[128], wide_back[128];
    static const uint8_t bad[] = {0xC0, 0, 0, 0, 0, 0, 0, 0};
    uint8_t none[1];
    size_t d = 0, a = 0, i, dc_end, ac_end;
    for (i = 0; i < sizeof rows; i++) {
        rows[i] = (uint8_t)(i < 64 ? 200 : 90);
    }
    check(vmx_encode_plane8(rows, 128, 8, 0, 0, 0, dc, sizeof dc, &d, ac, sizeof ac, &a) == VMX_OK, "coded");
    dc_end = d;
    ac_end = a;
    memset(back, 7, sizeof back);
    d = a = 0;
    check(vmx_decode_plane8(back, sizeof back, 8, 0, 0, 0, dc, dc_end, &d, ac, ac_end, &a) == VMX_OK, "read");
    check(d == dc_end && a == ac_end, "read up to where it was coded");
    check(memcmp(back, rows, 128) == 0 && back[128] == 7 && back[135] == 7, "the samples, and those after them");

    d = a = 0;
    check(vmx_decode_plane8(back, 128, 8, 0, 0, 0, none, 0, &d, none, 0, &a) == VMX_OK, "two empty streams");
    check(d == 1 && a == 32 && back[0] == 128 && back[127] == 128, "all 128, ends 1 and 32");

    memset(back, 7, sizeof back);
    memset(second, 7, sizeof second);
    memset(old, 7, sizeof old);
    d = a = 0;
    check(vmx_decode_plane8(back, 128, 8, 0, 0, 0, bad, sizeof bad, &d, none, 0, &a) == VMX_NO_CODE, "a bad code");
    check(d == 0 && a == 0 && memcmp(back, old, 128) == 0, "every sample stays");
    check(vmx_decode_slice8(back, 128, 8, second, 128, 8, none, 0, 0, none, 0, 0, 2, 0, 0, bad, sizeof bad, &d, none, 0, &a)
              == VMX_NO_CODE, "a bad code in a slice");
    check(d == 0 && a == 0 && memcmp(back, old, 128) == 0 && memcmp(second, old, 128) == 0, "both planes stay");
    check(vmx_decode_plane8(back, 128, 8, 0, 25, 0, bad, sizeof bad, &d, none, 0, &a) == VMX_NO_PRESET, "preset 25");
    check(vmx_decode_plane8(back, 128, 8, FAR, 0, 0, dc, dc_end, &d, ac, ac_end, &a) == VMX_NO_PLANE, "place 2^32");
    d = 16777216;
    check(vmx_decode_plane8(back, 128, 8, 0, 0, 0, dc, dc_end, &d, ac, ac_end, &a) == VMX_NO_START && d == 16777216,
          "a start too far");

    for (i = 0; i < 128; i++) {
        wide[i] = (uint16_t)(512 << 6 | 63);
        wide_back[i] = 1;
    }
    d = a = 0;
    check(vmx_encode_plane10(wide, 128, 8, 0, 0, 0, dc, sizeof dc, &d, ac, sizeof ac, &a) == VMX_OK, "10 bits coded");
    dc_end = d;
    ac_end = a;
    d = a = 0;
    check(vmx_decode_plane10(wide_back, 128, 8, 0, 0, 0, dc, dc_end, &d, ac, ac_end, &a) == VMX_OK, "10 bits read");
    check(wide_back[0] == 512 << 6 && wide_back[127] == 512 << 6, "the low six bits are 0");
}

int main(void) {
    planes();
    slices();
    reading();
    previews();
    presets_and_rows();
    geometry();
    frame();
    shown();
    printf("link: %d passed, %d failed\n", passed, failed);
    return failed != 0;
}
