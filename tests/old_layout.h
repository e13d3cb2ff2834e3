/* An image in the layout of before version 3, for tests: docs/IMAGE.md. */
#include <stddef.h>
#include <stdint.h>
#include <string.h>

#include "slavotuk.h"

enum { SECOND_WORDS_SIZE = SLAVOTUK_IMAGE_HEADER_SIZE - SLAVOTUK_IMAGE_OLD_HEADER_SIZE };

/* Makes it of an image in the new layout, where that lies or elsewhere, and says its length: without second words, the rows in their place. */
static size_t to_old_layout(uint8_t *old, const uint8_t *image, size_t length)
{
    memmove(old, image, SLAVOTUK_IMAGE_OLD_HEADER_SIZE);
    old[8] = SLAVOTUK_IMAGE_OLD_HEADER_SIZE;
    memmove(old + SLAVOTUK_IMAGE_OLD_HEADER_SIZE, image + SLAVOTUK_IMAGE_HEADER_SIZE, length - SLAVOTUK_IMAGE_HEADER_SIZE);
    return length - SECOND_WORDS_SIZE;
}
