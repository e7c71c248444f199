// The library linked from C++ through include/box.h: the message and the enciphered PIN of 002 A.1, and a refusal.
#include "box.h"

#include <cstdio>
#include <cstring>

namespace {

const uint8_t smi[] = {0x4b, 0x6a, 0xf8, 0xf7, 0x77, 0xc5, 0x00, 0x1d, 0x6a, 0xe5, 0x70, 0xd2, 0x9b, 0x9d, 0x1b, 0x60,
                       0x43, 0x77, 0x78, 0x87, 0xc1, 0xcc, 0x4d, 0xb6, 0x4f, 0xea, 0xa8, 0xba, 0x0a, 0x22, 0x67, 0x88};
const uint8_t smc[] = {0x6a, 0x0c, 0xd3, 0x67, 0x3c, 0x2c, 0xe5, 0xe8, 0xf3, 0x2c, 0x5c, 0x66, 0x98, 0x82, 0x99, 0x17,
                       0x66, 0x5f, 0xf5, 0xb8, 0x92, 0x07, 0x50, 0xfc, 0xec, 0x46, 0x5c, 0x2d, 0xdc, 0x27, 0x1c, 0x14};
const uint8_t header[] = {0x21, 0x1f, 0xaa, 0x43};
const uint8_t data[] = {0x45, 0x15, 0x3f, 0xbb};
const uint8_t published[] = {0x87, 0x04, 0x45, 0x15, 0x3f, 0xbb, 0x8e, 0x04, 0x1f, 0x14, 0x11, 0x5e};
const uint8_t digits[] = {1, 2, 3, 4, 5, 6, 7};
const uint8_t enciphered[] = {0x90, 0x73, 0xbb, 0x4f, 0x8f, 0x08, 0xf9, 0x16};

template <size_t n> bool same(const uint8_t (&a)[n], const uint8_t (&b)[n]) { return std::memcmp(a, b, n) == 0; }

const char *wrong() {
    uint8_t message[sizeof published] = {}, found[3] = {}, block[8] = {}, pin[8] = {};
    if (box_wrap(smi, sizeof smi, header, sizeof header, 0x87, data, sizeof data, message, sizeof message, 0) != 0) return "wrap";
    if (!same(message, published)) return "the message of A.1.1";
    if (box_open(smi, sizeof smi, header, sizeof header, message, sizeof message, found, sizeof found) != 0) return "open";
    const uint8_t there[] = {0x87, 2, 4};
    if (!same(found, there)) return "tag, place and length";
    if (box_write_pin(digits, sizeof digits, block, sizeof block) != 0) return "write_pin";
    if (box_encipher(smc, sizeof smc, block, sizeof block, pin, sizeof pin) != 0) return "encipher";
    if (!same(pin, enciphered)) return "the PIN of A.1.2";
    message[sizeof message - 1] ^= 1;
    uint8_t kept[] = {1, 2, 3};
    const uint8_t before[] = {1, 2, 3};
    if (box_open(smi, sizeof smi, header, sizeof header, message, sizeof message, kept, sizeof kept) != 8) return "a code that differs";
    if (!same(kept, before)) return "a refusal that writes";
    return nullptr;
}

} // namespace

int main() {
    const char *what = wrong();
    if (what != nullptr) {
        std::printf("exports-cpp: FAILED: %s\n", what);
        return 1;
    }
    std::puts("the message and the PIN of 002 A.1 from C++");
    return 0;
}
