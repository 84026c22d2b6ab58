/* A library that says more: linked with --wrap=scl_describe, it adds the text MORE to each description. */
#include "scl.h"

int32_t __real_scl_describe(const uint8_t *request, size_t request_len, uint8_t *room, size_t room_len, size_t *wanted);
int32_t __wrap_scl_describe(const uint8_t *request, size_t request_len, uint8_t *room, size_t room_len, size_t *wanted);

int32_t __wrap_scl_describe(const uint8_t *request, size_t request_len, uint8_t *room, size_t room_len, size_t *wanted) {
    static const char more[] = MORE;
    size_t len = sizeof more - 1;
    int32_t status = __real_scl_describe(request, request_len, room, room_len > len ? room_len - len : 0, wanted);
    if (status == SCL_OK) memcpy(room + *wanted, more, len);
    if (status == SCL_OK || status == SCL_SHORT) *wanted += len;
    return status;
}
