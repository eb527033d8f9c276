/*
 * Nomiluvar: the frame reader, for a shell written in C on x86-64 Linux.
 *
 * `tools/archive` proves the reader and writes target/staticlib/libframe_reader.a; link with that archive. It needs
 * memcpy and memset, at link time and at run time, and nothing else: no other library, no heap, no file and no call
 * of the system. A call takes about 560 bytes of stack, and what memcpy and memset take.
 */
#ifndef NOMILUVAR_FRAME_H
#define NOMILUVAR_FRAME_H

#include <stddef.h>
#include <stdint.h>

#ifdef __cplusplus
extern "C" {
#endif

/* No frame is longer, and a frame buffer has to have at least so many bytes. */
#define NOMILUVAR_FRAME_ROOM 352

/*
 * Reads one line as a frame. docs/FORMAT.md says which lines are frames.
 *
 * line, line_len    the line's bytes, lowercase hexadecimal digits, two for each byte of the frame, without the byte 0a
 *                   that ends the line. Any bytes and any length may be handed over. The line is only read.
 * frame, frame_len  the frame buffer.
 *
 * Where the line is a well-formed frame and frame_len is at least NOMILUVAR_FRAME_ROOM, the frame's bytes are written
 * from frame[0] on, their number is returned, which is from 5 to 352, and the rest of the buffer is left as it was.
 *
 * Otherwise 0 is returned, which stands for refusal 1, and the whole buffer is left as it was. So it is with an empty
 * line, an odd number of digits, a byte that is not one of 0 to 9 and a to f, an unknown kind, a length that is not the
 * kind's, a code that is not six digits, a method over 3, a second over 86,399, a payment byte over 1, a byte of blocking
 * letters over 31, a count that is not 1 to 16, or in a search not 1 to 8, a search's mode that is not 1 to 3, a text's
 * length that is not 1 to 10, or with mode 1 not 10, and a buffer of fewer than NOMILUVAR_FRAME_ROOM bytes, 0 included.
 *
 * The caller sees to it that both buffers are valid, of the lengths given, and do not overlap. A buffer of length 0 is
 * neither read nor written, so its pointer may be NULL. Nothing is kept between calls: calls on different buffers may run
 * in different threads at the same time, and calls that only share a line may too.
 */
size_t nomiluvar_read_frame(const uint8_t *line, size_t line_len, uint8_t *frame, size_t frame_len);

#ifdef __cplusplus
}
#endif

#endif
