/* Cenguatu's C function. `tools/build archive listing` makes the archive to link, target/staticlib/liblisting.a. */
#ifndef CENGUATU_H
#define CENGUATU_H

#include <stddef.h>
#include <stdint.h>

#ifdef __cplusplus
extern "C" {
#endif

/* Writes the findings of a sheet as text to the front of page: `findings N`, then a line a finding: code, start, end, message;
   and if the sheet has expressions 25, in all M of them, a last line `old exists M`, which is no finding. Each line ends in a line feed.
   Warnings are off for 0 and on for any other number.

   Answers 256 plus the length of the text, the last line with it. Else a refusal's number, 1 to 6 for what is wrong with the sheet, 8 if one of its five lists
   would need more than 2,048 entries, 10 for a page that is too short; page is then as it was. Bytes of page after the text keep their value, and sheet is only read.

   sheet and page are sheet_len and page_len bytes that don't overlap; neither pointer is null, even where a length is 0. The call keeps
   nothing, takes no memory but stack, and may be made from any thread. */
uint32_t cenguatu_listing(const uint8_t *sheet, size_t sheet_len, uint8_t *page, size_t page_len, uint32_t warnings);

#ifdef __cplusplus
}
#endif

#endif
