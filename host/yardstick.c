/* The bare work of the calls, as fast as it goes by hand with SSE2 and no more: a yardstick for the
 * benchmark. Nothing is judged here and no head is written. */

#include <emmintrin.h>
#include <stddef.h>
#include <stdint.h>
#include <string.h>

enum { BLOCK = 16, PLANES = 8, GROUPS = 8 }; /* a block is a plane of bits; a group is 16 samples */

/* What an octet becomes in the register after 1, 2, 3 and 4 steps. */
static uint16_t table[4][256];

/* Must be called once, before any check. */
void yardstick_prepare(void)
{
    for (unsigned octet = 0; octet < 256; octet++) {
        unsigned sum = octet;
        for (int bit = 0; bit < 8; bit++)
            sum = (sum >> 1) ^ (sum & 1) * 0x8408u;
        table[0][octet] = (uint16_t)sum;
    }
    for (int step = 1; step < 4; step++)
        for (int octet = 0; octet < 256; octet++) {
            uint16_t before = table[step - 1][octet];
            table[step][octet] = (uint16_t)((before >> 8) ^ table[0][before & 255]);
        }
}

static unsigned octet_by_octet(unsigned sum, const uint8_t *octets, size_t length)
{
    for (size_t n = 0; n < length; n++)
        sum = (sum >> 8) ^ table[0][(sum ^ octets[n]) & 255];
    return sum;
}

/* The check sequence of ISO 3309 with one table. */
uint16_t yardstick_check_by_octet(const uint8_t *octets, size_t length)
{
    return (uint16_t)~octet_by_octet(0xFFFF, octets, length);
}

/* The same with four tables: the four look-ups of a step do not wait for one another. */
uint16_t yardstick_check_by_four(const uint8_t *octets, size_t length)
{
    unsigned sum = 0xFFFF;
    for (; length >= 4; octets += 4, length -= 4) {
        sum ^= octets[0] | (unsigned)octets[1] << 8;
        sum = table[3][sum & 255] ^ table[2][sum >> 8] ^ table[1][octets[2]] ^ table[0][octets[3]];
    }
    return (uint16_t)~octet_by_octet(sum, octets, length);
}

/* Packs 128 samples, each below 2^sample_bits, into that many blocks, from the highest bit down. The
 * bit that is wanted next is kept at the top of each sample, where movemask finds 16 at once. */
void yardstick_pack(const uint8_t *samples, uint8_t sample_bits, uint8_t *voice_field, size_t blocks)
{
    const __m128i to_top = _mm_cvtsi32_si128(8 - sample_bits);
    __m128i group[GROUPS];
    for (int g = 0; g < GROUPS; g++)
        group[g] = _mm_sll_epi16(_mm_loadu_si128((const __m128i *)(samples + 16 * g)), to_top);
    for (size_t block = 0; block < blocks; block++)
        for (int g = 0; g < GROUPS; g++) {
            uint16_t bits = (uint16_t)_mm_movemask_epi8(group[g]);
            memcpy(voice_field + BLOCK * block + 2 * g, &bits, sizeof bits);
            group[g] = _mm_add_epi8(group[g], group[g]);
        }
}

/* Turns eight octets, in each half, as a square of bits: bit j of octet i becomes bit i of octet j. */
static __m128i turned(__m128i squares)
{
#define SWAPPED(shift, mask)                                                                                  \
    do {                                                                                                      \
        __m128i other = _mm_and_si128(_mm_xor_si128(squares, _mm_srli_epi64(squares, shift)), mask);          \
        squares = _mm_xor_si128(squares, _mm_xor_si128(other, _mm_slli_epi64(other, shift)));                 \
    } while (0)
    SWAPPED(7, _mm_set1_epi16(0x00AA));
    SWAPPED(14, _mm_set1_epi32(0x0000CCCC));
    SWAPPED(28, _mm_set_epi32(0, (int)0xF0F0F0F0u, 0, (int)0xF0F0F0F0u));
#undef SWAPPED
    return squares;
}

/* Reads 128 words of as many bits as there are blocks. The planes are first laced octet by octet, so that
 * the eight octets of a square stand together, and the squares are then turned. */
void yardstick_unpack(const uint8_t *voice_field, size_t blocks, uint8_t *words)
{
    const __m128i from_top = _mm_cvtsi32_si128(8 - (int)blocks);
    __m128i plane[PLANES], twos[PLANES], fours[PLANES]; /* plane 7 is the highest bit */
    for (size_t block = 0; block < PLANES; block++)
        plane[7 - block] = block < blocks ? _mm_loadu_si128((const __m128i *)(voice_field + BLOCK * block))
                                          : _mm_setzero_si128();
    for (int n = 0; n < 4; n++) {
        twos[n] = _mm_unpacklo_epi8(plane[2 * n], plane[2 * n + 1]);
        twos[4 + n] = _mm_unpackhi_epi8(plane[2 * n], plane[2 * n + 1]);
    }
    for (int n = 0; n < 4; n++) {
        fours[n / 2 * 4 + n % 2] = _mm_unpacklo_epi16(twos[2 * n], twos[2 * n + 1]);
        fours[n / 2 * 4 + 2 + n % 2] = _mm_unpackhi_epi16(twos[2 * n], twos[2 * n + 1]);
    }
    for (int n = 0; n < 4; n++) {
        __m128i low = turned(_mm_unpacklo_epi32(fours[2 * n], fours[2 * n + 1]));
        __m128i high = turned(_mm_unpackhi_epi32(fours[2 * n], fours[2 * n + 1]));
        _mm_storeu_si128((__m128i *)(words + 32 * n), _mm_srl_epi16(low, from_top));
        _mm_storeu_si128((__m128i *)(words + 32 * n + 16), _mm_srl_epi16(high, from_top));
    }
}
