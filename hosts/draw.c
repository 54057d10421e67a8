/* Draws the LowMC tables of a set from one stream of bits. */
#include "draw.h"

#include <stddef.h>
#include <string.h>

#include "picnic.h"

/* The stream. A register gives outputs; each is the sum of those that came 80, 67, 57, 42, 29 and 18 before it. As none of them
   is nearer than 16, sixteen outputs are made at once. Outputs are taken in pairs: 10 gives the bit 0, 11 the bit 1, and the
   other two give nothing. */
struct stream {
    uint64_t older; /* of the last 80 outputs the first 64, the oldest in the highest bit */
    uint64_t newer; /* and the last 16 */
    uint32_t bits;  /* the bits that no byte has yet, the last one in the lowest bit; */
    int held;       /* so many */
    uint8_t given[256], count[256]; /* for each eight outputs: the bits that their pairs give, and how many */
};

enum {
    AT_ONCE = 16,
    DROPPED = 160, /* outputs at the start */
    WORDS = PICNIC_L5_FS_BLOCK / 8,
    MOST_ROWS = 8 * PICNIC_L5_FS_BLOCK
};

static uint32_t next_outputs(struct stream *stream)
{
    uint64_t a = stream->older, b = stream->newer;
    uint64_t sum = a >> 48 ^ a >> 35 ^ a >> 25 ^ a >> 10 ^ (a << 3 | b >> 13) ^ (a << 14 | b >> 2);

    stream->older = a << AT_ONCE | b;
    stream->newer = sum & 0xffff;
    return (uint32_t)stream->newer;
}

/* What the four pairs of eight outputs give. */
static void fill_pairs(struct stream *stream, unsigned outputs)
{
    int pair;

    for (pair = 6; pair >= 0; pair -= 2)
        if (outputs >> pair & 2) {
            stream->given[outputs] = (uint8_t)(stream->given[outputs] << 1 | (outputs >> pair & 1));
            stream->count[outputs]++;
        }
}

static void start_stream(struct stream *stream)
{
    unsigned i;

    memset(stream, 0, sizeof *stream);
    for (i = 0; i < 256; i++)
        fill_pairs(stream, i);
    stream->older = ~(uint64_t)0;
    stream->newer = 0xffff;
    for (i = 0; i < DROPPED / AT_ONCE; i++)
        next_outputs(stream);
}

static void take_in(struct stream *stream, uint32_t outputs)
{
    stream->bits = stream->bits << stream->count[outputs] | stream->given[outputs];
    stream->held += stream->count[outputs];
}

/* Fills bytes from the stream, the first bit in the highest place. */
static void fill(struct stream *stream, uint8_t *bytes, size_t length)
{
    size_t i;

    for (i = 0; i < length; i++) {
        while (stream->held < 8) {
            uint32_t outputs = next_outputs(stream);

            take_in(stream, outputs >> 8);
            take_in(stream, outputs & 0xff);
        }
        stream->held -= 8;
        bytes[i] = (uint8_t)(stream->bits >> stream->held);
    }
}

static void add_row(uint64_t *row, const uint64_t *other)
{
    int i;

    for (i = 0; i < WORDS; i++)
        row[i] ^= other[i];
}

/* Clears one column below a row, by a row that has a one there; that one comes up to the row. Says whether there is such. */
static int clear_column(uint64_t rows[][WORDS], size_t count, size_t row)
{
    size_t word = row / 64, i = row;
    uint64_t bit = (uint64_t)1 << row % 64;

    while (i < count && !(rows[i][word] & bit))
        i++;
    if (i == count)
        return 0;
    if (i != row)
        add_row(rows[row], rows[i]);
    for (i = row + 1; i < count; i++)
        if (rows[i][word] & bit)
            add_row(rows[i], rows[row]);
    return 1;
}

/* Whether a square matrix has full rank. In which order the bits of a row come makes no difference, so each row is read into
   words as it is. */
static int has_full_rank(const uint8_t *matrix, size_t width)
{
    uint64_t rows[MOST_ROWS][WORDS] = { { 0 } };
    size_t i, count = 8 * width;

    for (i = 0; i < count; i++)
        memcpy(rows[i], matrix + i * width, width);
    for (i = 0; i < count; i++)
        if (!clear_column(rows, count, i))
            return 0;
    return 1;
}

/* A matrix without full rank is thrown away, and the stream goes on. */
static void fill_matrices(struct stream *stream, uint8_t *matrices, size_t count, size_t width)
{
    size_t i, length = 8 * width * width;

    for (i = 0; i < count; i++)
        do
            fill(stream, matrices + i * length, length);
        while (!has_full_rank(matrices + i * length, width));
}

void draw_tables(uint64_t set, uint8_t *tables)
{
    static const size_t widths[] = { PICNIC_L1_FS_BLOCK, PICNIC_L3_FS_BLOCK, PICNIC_L5_FS_BLOCK };
    static const size_t constants[] = { PICNIC_L1_FS_CONSTANTS, PICNIC_L3_FS_CONSTANTS, PICNIC_L5_FS_CONSTANTS };
    size_t width = widths[set - 1], rounds = constants[set - 1] / width, matrix = 8 * width * width;
    uint8_t *layers = tables + (rounds + 1) * matrix;
    struct stream stream;

    start_stream(&stream);
    fill_matrices(&stream, layers, rounds, width);
    fill(&stream, layers + rounds * matrix, rounds * width);
    fill_matrices(&stream, tables, rounds + 1, width);
}
