/* The check of a lone picture (crates/capi). Link crates/capi/out/libcapi.a, which `rt lib` writes in crates/capi. */
#ifndef PICTURE_CHECK_H
#define PICTURE_CHECK_H

#include <stddef.h>
#include <stdint.h>

#ifdef __cplusplus
extern "C" {
#endif

/* Answers 0 for a picture that is accepted; 17 to 21 as its reader does, in the order of its records; else 16, where two entries,
 * records or back-pointers clash or the entries kept and promised are more than 64. Reads bytes[0] to bytes[len - 1] alone, changes
 * and keeps nothing. `bytes` is not NULL, where `len` is 0 too. */
uint32_t picture_check(const uint8_t *bytes, size_t len);

#ifdef __cplusplus
}
#endif

#endif
