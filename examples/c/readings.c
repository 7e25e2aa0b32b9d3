/* Writes a 9-2LE frame of one ASDU in both forms, reads the fixed one strictly, and prints its readings;
 * then checks numbers of channels against it, reads it for a customer to whom two of its channels are
 * granted, and reads it by its confRev with a store of data sets. */
#include <stdio.h>
#include <string.h>

#include "hopsickle.h"

#define CHANNELS 8
#define SHOWN 2
#define MASK 0x11u /* bits 0 and 4: Ia and Ua */

static const char *const names[CHANNELS] = {"Ia", "Ib", "Ic", "In", "Ua", "Ub", "Uc", "Un"};
static const float scales[CHANNELS] = {0.0001f, 0.0001f, 0.0001f, 0.0001f, 0.01f, 0.01f, 0.01f, 0.01f};

static const uint8_t addresses[12] = {0x01, 0x0c, 0xcd, 0x04, 0x00, 0x01, 0x00, 0x00, 0x00, 0x00, 0x00, 0x02};
static const char sv_id[] = "Feeder3_MU";

static const int32_t sent[CHANNELS] = {1234567, -617283, -617284, 0, 1632993, -816497, -816496, 0};
static const uint32_t words[CHANNELS] = {0, 0, 0, 0x0800, 0, 0, 0, 0x0043};

static int refused(const char *call, size_t number, size_t place)
{
    printf("%s: refused %lu at %lu\n", call, (unsigned long)number, (unsigned long)place);
    return 1;
}

/* The frame's octets in a form; the answer is the refusal's number. */
static size_t write_frame(bool fixed, uint8_t *frame, size_t frame_len, size_t *size)
{
    uint32_t numbers[HOPSICKLE_MAX_NUMBERS] = {0};
    uint8_t octets[HOPSICKLE_MAX_OCTETS] = {0};

    numbers[HOPSICKLE_TAGGED] = 1;
    numbers[HOPSICKLE_TPID] = 0x8100;
    numbers[HOPSICKLE_TCI] = 0x8000; /* priority 4 */
    numbers[HOPSICKLE_ETHER_TYPE] = 0x88ba;
    numbers[HOPSICKLE_APPID] = 0x4000;
    numbers[HOPSICKLE_NO_ASDU] = 1;
    numbers[HOPSICKLE_NUMBER(0, HOPSICKLE_SV_ID_LENGTH)] = sizeof sv_id - 1;
    numbers[HOPSICKLE_NUMBER(0, HOPSICKLE_SMP_CNT)] = 3999;
    numbers[HOPSICKLE_NUMBER(0, HOPSICKLE_CONF_REV)] = 1;
    numbers[HOPSICKLE_NUMBER(0, HOPSICKLE_SMP_SYNCH)] = 2;
    memcpy(octets + HOPSICKLE_DST_ADDR, addresses, sizeof addresses);
    memcpy(octets + HOPSICKLE_OCTET(0, HOPSICKLE_SV_ID_OCTETS), sv_id, sizeof sv_id - 1);
    return hopsickle_write(numbers, HOPSICKLE_MAX_NUMBERS, octets, HOPSICKLE_MAX_OCTETS, CHANNELS,
                           fixed, sent, CHANNELS, words, CHANNELS, frame, frame_len, size);
}

/* Reads a frame with so many channels, checks that they match it, and prints the answer. */
static void print_checked(const uint8_t *frame, size_t size, size_t channels)
{
    uint32_t numbers[HOPSICKLE_MAX_NUMBERS];
    uint8_t octets[HOPSICKLE_MAX_OCTETS];
    int32_t counts[HOPSICKLE_MAX_SAMPLES];
    uint32_t qualities[HOPSICKLE_MAX_SAMPLES];
    size_t number, place;

    number = hopsickle_read_checked(frame, size, channels, numbers, HOPSICKLE_MAX_NUMBERS,
                                    octets, HOPSICKLE_MAX_OCTETS, counts, HOPSICKLE_MAX_SAMPLES,
                                    qualities, HOPSICKLE_MAX_SAMPLES, &place);
    if (number == HOPSICKLE_ACCEPTED)
        printf("checked, %lu channels: accepted\n", (unsigned long)channels);
    else
        printf("checked, %lu channels: refused %lu at %lu\n", (unsigned long)channels,
               (unsigned long)number, (unsigned long)place);
}

/* Adds a data set of so many channels to a store and prints the answer. */
static void print_addition(uint32_t *sets, float *set_scales, uint32_t conf_rev, size_t channels)
{
    size_t number, held;

    number = hopsickle_sets_add(sets, set_scales, conf_rev, scales, channels, &held);
    if (number == HOPSICKLE_ACCEPTED)
        printf("confRev %lu, %lu channels: added, %lu held\n", (unsigned long)conf_rev,
               (unsigned long)channels, (unsigned long)held);
    else
        printf("confRev %lu, %lu channels: refused %lu\n", (unsigned long)conf_rev,
               (unsigned long)channels, (unsigned long)number);
}

/* Reads a frame with the set of its confRev, and prints the set and the values, or the refusal. */
static void print_by_sets(const uint8_t *frame, size_t size, const uint32_t *sets, const float *set_scales)
{
    uint32_t numbers[HOPSICKLE_MAX_NUMBERS];
    uint8_t octets[HOPSICKLE_MAX_OCTETS];
    int32_t counts[HOPSICKLE_MAX_SAMPLES];
    uint32_t qualities[HOPSICKLE_MAX_SAMPLES];
    float its_scales[HOPSICKLE_MAX_CHANNELS], values[HOPSICKLE_MAX_SAMPLES];
    size_t number, place, channels, written, k;

    number = hopsickle_read_by_sets(frame, size, sets, set_scales, &channels, its_scales,
                                    numbers, HOPSICKLE_MAX_NUMBERS, octets, HOPSICKLE_MAX_OCTETS,
                                    counts, HOPSICKLE_MAX_SAMPLES, qualities, HOPSICKLE_MAX_SAMPLES,
                                    &place);
    if (number == HOPSICKLE_ACCEPTED)
        number = hopsickle_values(its_scales, channels, (uint16_t)numbers[HOPSICKLE_NO_ASDU],
                                  counts, HOPSICKLE_MAX_SAMPLES, values, HOPSICKLE_MAX_SAMPLES, &written);
    if (number != HOPSICKLE_ACCEPTED) {
        printf("by sets: refused %lu at %lu\n", (unsigned long)number, (unsigned long)place);
        return;
    }
    printf("by sets: confRev %lu, %lu channels:",
           (unsigned long)numbers[HOPSICKLE_NUMBER(0, HOPSICKLE_CONF_REV)], (unsigned long)channels);
    for (k = 0; k < written; k++)
        printf(" %.4f", (double)values[k]);
    printf("\n");
}

/* Keeps the data sets of two confRevs, and reads the frame before and after they are added. */
static void print_store(const uint8_t *frame, size_t size)
{
    uint32_t sets[HOPSICKLE_SET_NUMBERS] = {0}; /* an empty store */
    float set_scales[HOPSICKLE_SET_SCALES] = {0};
    size_t i;

    print_by_sets(frame, size, sets, set_scales);
    print_addition(sets, set_scales, 1, CHANNELS);
    print_addition(sets, set_scales, 4, CHANNELS - 2);
    print_addition(sets, set_scales, 3, CHANNELS);
    for (i = 0; i < sets[HOPSICKLE_SETS_HELD]; i++)
        printf("set %lu: confRev %lu, %lu channels, the last by %.4f\n", (unsigned long)i,
               (unsigned long)sets[HOPSICKLE_SET_CONF_REV(i)],
               (unsigned long)sets[HOPSICKLE_SET_CHANNELS(i)],
               (double)set_scales[HOPSICKLE_SET_SCALE(i, sets[HOPSICKLE_SET_CHANNELS(i)] - 1)]);
    print_by_sets(frame, size, sets, set_scales);
}

int main(void)
{
    uint8_t frame[HOPSICKLE_MAX_FRAME];
    uint32_t numbers[HOPSICKLE_MAX_NUMBERS];
    uint8_t octets[HOPSICKLE_MAX_OCTETS];
    int32_t counts[HOPSICKLE_MAX_SAMPLES];
    uint32_t qualities[HOPSICKLE_MAX_SAMPLES];
    float values[HOPSICKLE_MAX_SAMPLES];
    int32_t shown_counts[SHOWN]; /* of one ASDU */
    uint32_t shown_qualities[SHOWN];
    size_t number, size, place, written, i, j, k;

    number = write_frame(false, frame, sizeof frame, &size);
    if (number != HOPSICKLE_ACCEPTED)
        return refused("hopsickle_write", number, 0);
    printf("%lu octets in the shortest form\n", (unsigned long)size);
    number = write_frame(true, frame, sizeof frame, &size);
    if (number != HOPSICKLE_ACCEPTED)
        return refused("hopsickle_write", number, 0);
    printf("%lu octets in the fixed form\n", (unsigned long)size);

    number = hopsickle_read_strict(frame, size, CHANNELS, true, numbers, HOPSICKLE_MAX_NUMBERS,
                                   octets, HOPSICKLE_MAX_OCTETS, counts, HOPSICKLE_MAX_SAMPLES,
                                   qualities, HOPSICKLE_MAX_SAMPLES, &place);
    if (number != HOPSICKLE_ACCEPTED)
        return refused("hopsickle_read_strict", number, place);

    number = hopsickle_values(scales, CHANNELS, (uint16_t)numbers[HOPSICKLE_NO_ASDU],
                              counts, HOPSICKLE_MAX_SAMPLES, values, HOPSICKLE_MAX_SAMPLES, &written);
    if (number != HOPSICKLE_ACCEPTED)
        return refused("hopsickle_values", number, 0);

    for (i = 0; i < numbers[HOPSICKLE_NO_ASDU]; i++) {
        printf("%.*s, smpCnt %lu, confRev %lu, smpSynch %lu\n",
               (int)numbers[HOPSICKLE_NUMBER(i, HOPSICKLE_SV_ID_LENGTH)],
               (const char *)octets + HOPSICKLE_OCTET(i, HOPSICKLE_SV_ID_OCTETS),
               (unsigned long)numbers[HOPSICKLE_NUMBER(i, HOPSICKLE_SMP_CNT)],
               (unsigned long)numbers[HOPSICKLE_NUMBER(i, HOPSICKLE_CONF_REV)],
               (unsigned long)numbers[HOPSICKLE_NUMBER(i, HOPSICKLE_SMP_SYNCH)]);
        for (j = 0; j < CHANNELS; j++)
            printf("%s %10ld %11.4f %04lx\n", names[j], (long)counts[i * CHANNELS + j],
                   (double)values[i * CHANNELS + j], (unsigned long)qualities[i * CHANNELS + j]);
    }

    print_checked(frame, size, CHANNELS);
    print_checked(frame, size, CHANNELS - 1);

    number = hopsickle_read_granted(frame, size, CHANNELS, MASK, numbers, HOPSICKLE_MAX_NUMBERS,
                                    octets, HOPSICKLE_MAX_OCTETS, shown_counts, SHOWN,
                                    shown_qualities, SHOWN, &place);
    if (number != HOPSICKLE_ACCEPTED)
        return refused("hopsickle_read_granted", number, place);
    printf("granted, mask %02x\n", MASK);
    for (j = 0, k = 0; j < CHANNELS; j++)
        if (MASK >> j & 1) {
            printf("%s %10ld %04lx\n", names[j], (long)shown_counts[k], (unsigned long)shown_qualities[k]);
            k++;
        }

    print_store(frame, size);
    return 0;
}
