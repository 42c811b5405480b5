/*
 * Letters of Windows-1250, which the banks read, and of UTF-8, which people's terminals and editors write.  A byte of Windows-1250
 * is one letter and takes one column; the bytes 0x81, 0x83, 0x88, 0x90 and 0x98 are none.
 */
#ifndef HOST_COMMON_LETTERS_H
#define HOST_COMMON_LETTERS_H

#include <stdbool.h>
#include <stddef.h>
#include <stdint.h>
#include <stdio.h>

enum { NO_LETTER = 0xfffd, NO_BYTE = -1 };

/* The letter (code point) of a byte of Windows-1250, control characters too; NO_LETTER if it has none. */
uint32_t letter_of_1250(uint8_t byte);

/* The byte of a letter in Windows-1250, or NO_BYTE. */
int byte_in_1250(uint32_t letter);

/* Takes the letter at the front of UTF-8 bytes and gives back how many bytes it has; 0 if there is none, by RFC 3629. */
size_t take_utf8(const uint8_t *bytes, size_t len, uint32_t *letter);

/* Writes a letter as UTF-8. */
void put_utf8(FILE *to, uint32_t letter);

/* Is there a byte above 127, and do all of them spell letters of UTF-8?  The last letter may be cut short, as a bank cuts it. */
bool looks_like_utf8(const uint8_t *bytes, size_t len);

/* Shows bytes of Windows-1250 as UTF-8 in as many columns as there are bytes.  What has no letter, or none that can be seen
   (control characters, the soft hyphen), is shown as U+FFFD, so that a file can do nothing to the terminal. */
void show_1250(FILE *to, const uint8_t *bytes, size_t len);

#endif
