/* VMX planes, slice streams and frames.
 *
 * Link with libvmx.a (bash tests/library.sh vmx). Every call is proved to give the answer that docs/PROMISES.md names, on every
 * argument; no call allocates, keeps a pointer or has state of its own. A call takes less than 16 KiB of stack
 * (measured, and tested by bindings/rust/tests/stack.rs).
 *
 * A call that returns uint32_t under "number" returns 0 where it is accepted, else the number of the first question of
 * the list below that is answered no. A refused call leaves all memory that it was lent as it was, except that a part
 * (offset, length) is 0, 0.
 *
 * What the caller owes, as in any C library: a buffer (pointer, count) has so many elements (a count of 0 may come
 * with any pointer that is not null), each place for an answer can be read and written, and no place for an answer lies
 * in a buffer or is lent twice in one call. A buffer that a call writes overlaps no other buffer of that call.
 */
#ifndef VMX_H
#define VMX_H

#include <stddef.h>
#include <stdint.h>

#ifdef __cplusplus
extern "C" {
#endif

/* The numbers: the question that was answered no. */
#define VMX_OK 0            /* none: accepted */
#define VMX_NO_PRESET 1     /* preset 0 to 24? */
#define VMX_NO_SHIFT 2      /* DC shift 0 to 15? */
#define VMX_NO_PLANE 3      /* plane place 0 to 3, plane count 1 to 4? */
#define VMX_NO_STRIDE 4     /* stride a multiple of 8 from 8 to 7,680? */
#define VMX_NO_ROWS 5       /* rows, or a table, long enough? (shown rows: up to the slice's end in both pictures) */
#define VMX_NO_ROOM 6       /* room behind the start for the size call's lengths (builder: for what it writes)? */
#define VMX_NO_START 7      /* starts at most 16,777,215, streams read within 245,760 (DC) and 430,080 (AC) bytes? */
#define VMX_NO_CODE 8       /* at most 54 zeros after the head of every code reached? */
#define VMX_NO_SIZE 9       /* width even, 16 to 7,680, height 16 to 4,320? */
#define VMX_NO_BYTES 10     /* five bytes there, each length and stream whole? */
#define VMX_NO_FORMAT 11    /* first byte 1, 2 or 3? */
#define VMX_NO_COUNT 12     /* slice count as the layout's, modulo 256? */
#define VMX_NO_LIMIT 13     /* stream within its limit? */
#define VMX_NO_TURN 14      /* slice number below the count (shown rows: below 270), AC there when wanted, builder in turn? */

/* ---- Planes
 *
 * A plane is 16 rows of `stride` samples, one row after the other: rows_len is at least 16 * stride, and what comes after
 * is neither looked at nor changed. Its place says which plane of a picture it is: 0 luma, 1 and 2 chroma, 3 alpha.
 * Samples are uint8_t at 8 bits; at 10 bits they are uint16_t, the ten bits on top: the low six bits do not count when
 * a plane is coded and are 0 when it is read.
 *
 * dc_at and ac_at, in: the byte at which the plane's stream begins in the buffer. Out, where the call is accepted: the
 * byte after it, so that the next plane goes on there. Refused: as they were. */

/* Codes a plane into both buffers: the DC stream from *dc_at on, the AC stream from *ac_at on. preset is 0 to 24
 * (vmx_quality_preset), shift (0 to 15) the DC shift of the frame. There must be room for vmx_plane_size's lengths after
 * the positions; a stream is mostly shorter, and no other byte is changed.
 * Number: 1 to 7. Refused: both buffers and both positions stay as they were. */
uint32_t vmx_encode_plane8(const uint8_t *rows, size_t rows_len, size_t stride, size_t place, size_t preset,
                           uint32_t shift, uint8_t *dc, size_t dc_len, size_t *dc_at, uint8_t *ac, size_t ac_len,
                           size_t *ac_at);
uint32_t vmx_encode_plane10(const uint16_t *rows, size_t rows_len, size_t stride, size_t place, size_t preset,
                            uint32_t shift, uint8_t *dc, size_t dc_len, size_t *dc_at, uint8_t *ac, size_t ac_len,
                            size_t *ac_at);

/* Codes the first `count` (1 to 4) of four planes, at places 0 to 3, their streams one after the other. A question is put
 * over all these planes before the next one; there must be room for vmx_slice_size's lengths. Planes from `count` on are
 * neither asked about nor read: their length may be 0.
 * Number: 1 to 7. Refused: both buffers and both positions stay as they were. */
uint32_t vmx_encode_slice8(const uint8_t *p0, size_t p0_len, size_t stride0, const uint8_t *p1, size_t p1_len,
                           size_t stride1, const uint8_t *p2, size_t p2_len, size_t stride2, const uint8_t *p3,
                           size_t p3_len, size_t stride3, size_t count, size_t preset, uint32_t shift, uint8_t *dc,
                           size_t dc_len, size_t *dc_at, uint8_t *ac, size_t ac_len, size_t *ac_at);
uint32_t vmx_encode_slice10(const uint16_t *p0, size_t p0_len, size_t stride0, const uint16_t *p1, size_t p1_len,
                            size_t stride1, const uint16_t *p2, size_t p2_len, size_t stride2, const uint16_t *p3,
                            size_t p3_len, size_t stride3, size_t count, size_t preset, uint32_t shift, uint8_t *dc,
                            size_t dc_len, size_t *dc_at, uint8_t *ac, size_t ac_len, size_t *ac_at);

/* Reads a plane into its rows: 16 * stride samples, from the DC stream at *dc_at and the AC stream at *ac_at; samples after
 * them stay. Past a stream's end every bit is one. Both streams are read through before a sample is stored.
 * Number: 1 to 5, 7, 8. Refused: every sample and both positions stay as they were. */
uint32_t vmx_decode_plane8(uint8_t *rows, size_t rows_len, size_t stride, size_t place, size_t preset, uint32_t shift,
                           const uint8_t *dc, size_t dc_len, size_t *dc_at, const uint8_t *ac, size_t ac_len,
                           size_t *ac_at);
uint32_t vmx_decode_plane10(uint16_t *rows, size_t rows_len, size_t stride, size_t place, size_t preset, uint32_t shift,
                            const uint8_t *dc, size_t dc_len, size_t *dc_at, const uint8_t *ac, size_t ac_len,
                            size_t *ac_at);

/* Reads the first `count` (1 to 4) of four planes, at places 0 to 3, from streams one after the other. All of them are read
 * through before a sample of any is stored. Planes from `count` on are neither asked about nor changed: their length may
 * be 0.
 * Number: 1 to 5, 7, 8. Refused: every sample of every plane and both positions stay as they were. */
uint32_t vmx_decode_slice8(uint8_t *p0, size_t p0_len, size_t stride0, uint8_t *p1, size_t p1_len, size_t stride1,
                           uint8_t *p2, size_t p2_len, size_t stride2, uint8_t *p3, size_t p3_len, size_t stride3,
                           size_t count, size_t preset, uint32_t shift, const uint8_t *dc, size_t dc_len, size_t *dc_at,
                           const uint8_t *ac, size_t ac_len, size_t *ac_at);
uint32_t vmx_decode_slice10(uint16_t *p0, size_t p0_len, size_t stride0, uint16_t *p1, size_t p1_len, size_t stride1,
                            uint16_t *p2, size_t p2_len, size_t stride2, uint16_t *p3, size_t p3_len, size_t stride3,
                            size_t count, size_t preset, uint32_t shift, const uint8_t *dc, size_t dc_len,
                            size_t *dc_at, const uint8_t *ac, size_t ac_len, size_t *ac_at);

/* Lengths in bytes that the streams of a plane, or of the first `count` of four planes together, are at most: 4 bytes a
 * block (DC) and 197 bytes a block (AC).
 * Number: 4 (a plane); 3, 4 (a slice). Refused: both lengths stay as they were. */
uint32_t vmx_plane_size(size_t stride, size_t *dc_len, size_t *ac_len);
uint32_t vmx_slice_size(size_t count, size_t stride0, size_t stride1, size_t stride2, size_t stride3, size_t *dc_len,
                        size_t *ac_len);

/* The preview of a plane, one byte a block, from its DC stream alone: stride / 8 bytes into each of upper and lower (the
 * upper and the lower eight rows); bytes after them stay. The stream is read through before a byte is stored.
 * Number: 2, 3, 4, 5, 7, 8. Refused: both outputs and *dc_at stay as they were. */
uint32_t vmx_preview(uint32_t shift, size_t place, size_t stride, uint8_t *upper, size_t upper_len, uint8_t *lower,
                     size_t lower_len, const uint8_t *dc, size_t dc_len, size_t *dc_at);

/* The block report of a plane, from its AC stream alone: stride / 4 bytes, one a block in coding order (left to right,
 * upper eight rows first), 1 where no AC symbol is read for the block, else 0; bytes after them stay. The stream is
 * read through before a byte is stored.
 * Number: 4, 5, 7, 8. Refused: the output and *ac_at stay as they were. */
uint32_t vmx_block_report(size_t stride, uint8_t *report, size_t report_len, const uint8_t *ac, size_t ac_len,
                          size_t *ac_at);

/* The quantiser preset of a quality 0 to 255, and the quality that is in force with it (for the frame's header). Below
 * quality 36 there is none of its own: preset 0, and the quality as it is. Never refused. */
void vmx_quality_preset(uint8_t quality, uint8_t *kept, size_t *preset);

/* ---- Frames */

/* The geometry of a frame size: height rounded up to whole slices of 16 rows, number of slices, strides in samples of
 * planes 0 and 3 (luma) and 1 and 2 (chroma), longest DC and AC stream of a slice in bytes.
 * Number: 9. */
uint32_t vmx_layout(size_t width, size_t height, size_t *aligned_height, size_t *slices, size_t *luma, size_t *chroma,
                    size_t *max_dc_len, size_t *max_ac_len);

/* Whether a frame of this size is interlaced when its header says so: *capable is 1 (heights 480, 576, 1080) or 0.
 * Number: 9. */
uint32_t vmx_interlace_capable(size_t width, size_t height, uint32_t *capable);

/* The row of the image that coded row r holds: *there is 1 and *row is set; *there is 0 for a row of padding, and *row
 * stays. interlaced is 0 or any other number: then the upper half of the coded rows holds the even rows, the lower half
 * the odd ones.
 * Number: 9. */
uint32_t vmx_image_row(size_t width, size_t height, size_t r, uint32_t interlaced, uint32_t *there, size_t *row);

/* The size of the 1/8 preview; interlaced is 0 or any other number.
 * Number: 9. */
uint32_t vmx_preview_size(size_t width, size_t height, uint32_t interlaced, size_t *preview_width,
                          size_t *preview_height);

/* Puts all questions about a frame and says what its header holds: interlaced 1 or 0, quality and DC shift as stored,
 * the header's length in bytes, ac 1 if AC streams follow the DC streams, else 0. Bytes after the last stream are
 * ignored.
 * Number: 9, 10, 11, 2, 12, then stream by stream 10, 13, 10. */
uint32_t vmx_parse(size_t width, size_t height, const uint8_t *frame, size_t frame_len, uint32_t *interlaced,
                   uint32_t *quality, uint32_t *dc_shift, size_t *header_len, uint32_t *ac);

/* The same in one call, and where all streams of the frame lie: views[2 * i] and views[2 * i + 1] are offset and length of
 * the DC stream of slice i, views[2 * (slices + i)] and the number after it those of its AC stream (0 and 0 where the
 * frame has none), for slices as vmx_layout says. So 4 * slices numbers are set, at most VMX_VIEWS; those after them stay.
 * Number: 9, 5 (views_len at least 4 * slices?), then those of vmx_parse. Refused: all views stay as they were. */
#define VMX_VIEWS 1080
uint32_t vmx_streams(size_t width, size_t height, const uint8_t *frame, size_t frame_len, uint32_t *views,
                     size_t views_len, uint32_t *interlaced, uint32_t *quality, uint32_t *dc_shift, size_t *header_len,
                     uint32_t *ac);

/* Where the DC stream (ac 0) or the AC stream (ac any other number) of a slice lies in the frame: frame[offset] is its
 * first byte. On refusal *offset and *len are 0.
 * Number: those of vmx_parse, then 14. */
uint32_t vmx_stream(size_t width, size_t height, const uint8_t *frame, size_t frame_len, uint32_t ac, size_t slice,
                    size_t *offset, size_t *len);

/* Writes a frame's header into out from *at on, sets *at to the byte after it, and sets the state in which the DC
 * stream of slice 0 has its turn. interlaced is 0 or any other number; a DC shift of 0 gives the short header (3 bytes,
 * else 5). The state is three numbers that the caller holds: ac_turn, next, at.
 * Number: 2, 6, 9. Refused: out and the three numbers stay as they were. */
uint32_t vmx_frame_start(size_t width, size_t height, uint32_t interlaced, uint8_t quality, uint32_t dc_shift,
                         uint8_t *out, size_t out_len, uint32_t *ac_turn, size_t *next, size_t *at);

/* Puts the DC stream (ac 0) or the AC stream (ac any other number) of a slice, after its length, into out from *at on,
 * and sets the state for the next one. width and height are the header's: slice count and limits are found from them. The
 * DC streams of all slices have their turn in order, then the AC streams of all slices. The frame lies from where
 * vmx_frame_start began up to *at.
 * Number: 6, 9, 13, 14. Refused: out and the state stay as they were. */
uint32_t vmx_frame_put(size_t width, size_t height, uint32_t ac, size_t slice, const uint8_t *stream, size_t stream_len,
                       uint8_t *out, size_t out_len, uint32_t *ac_turn, size_t *next, size_t *at);

/* Whether the frame is complete (*complete 1) or not (0), by the builder's state: after the last DC stream, with no AC
 * stream put, and after the last AC stream. A complete frame, all of whose calls had this width and height and were handed
 * the state that the one before left, is accepted by vmx_parse.
 * Number: 9. Refused: *complete stays as it was. */
uint32_t vmx_frame_complete(size_t width, size_t height, uint32_t ac_turn, size_t next, uint32_t *complete);

/* Of two pictures with so many samples each, in which one a viewer finds the slice's sixteen rows (*from_new 1: the new
 * one, 0: the held one), where they begin and how many samples they are. verdict is the number that the slice's reading
 * call returned: 0 shows the new picture. On refusal *offset and *len are 0, and *from_new stays as it was.
 * Number: 4, 5, 14. */
uint32_t vmx_shown_rows(size_t new_len, size_t held_len, size_t stride, size_t slice, uint32_t verdict,
                        uint32_t *from_new, size_t *offset, size_t *len);

/* The time that is shown: new_time if verdict is 0, else held_time. */
uint64_t vmx_shown_time(uint64_t new_time, uint64_t held_time, uint32_t verdict);

#ifdef __cplusplus
}
#endif

#endif
