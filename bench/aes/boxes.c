// Prints the two groups of boxes in crates/fips197_vectors/stdin, as the AES instructions of an x86-64 processor give them:
// the last round of the cipher, and of the inverse cipher, on a state of 16 equal bytes under a round key of zeros.
//   gcc -O2 -maes -o target/boxes bench/aes/boxes.c && target/boxes
#include <stdio.h>
#include <wmmintrin.h>

static int entry(int byte, int back) {
    __m128i state = _mm_set1_epi8((char)byte), key = _mm_setzero_si128();
    __m128i last = back ? _mm_aesdeclast_si128(state, key) : _mm_aesenclast_si128(state, key);
    return _mm_cvtsi128_si32(last) & 255;
}

int main(void) {
    for (int back = 0; back < 2; back++) {
        printf("/\n%s\n rows of the %sbox passed\n\n\n", back ? "5.3.2" : "5.1.1", back ? "inverse " : "");
        for (int row = 0; row < 16; row++) {
            printf("x=%x ", row);
            for (int column = 0; column < 16; column++) printf("%02x", entry(16 * row + column, back));
            printf("\n");
        }
    }
}
