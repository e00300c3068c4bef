// The header in C++: it compiles without a warning, and its functions are found under their C names.
#include "nakhshirul.h"

#include <cstdio>
#include <cstring>

int main()
{
    const uint8_t a[] = {0x10, 0x03, 0x01, 0x00, 0x40};
    uint64_t reply[4];
    char text[NAKHSHIRUL_TEXT];
    const uint64_t status = nakhshirul_named(a, sizeof a, nullptr, 0, nullptr, 0, reply);
    const bool right = status == NAKHSHIRUL_NAMED && reply[0] == 2 && reply[1] == 0 && reply[2] == 0 && reply[3] == 0
        && std::strcmp(nakhshirul_application_text(NAKHSHIRUL_USER, 12, text), "user 12") == 0
        && std::strcmp(nakhshirul_kind_text(NAKHSHIRUL_CODE_SRLG), "SRLG") == 0
        && std::strcmp(nakhshirul_refusal_text(status), "not refused") == 0;
    std::printf("%d passed, %d failed\n", right, !right);
    return right ? 0 : 1;
}
