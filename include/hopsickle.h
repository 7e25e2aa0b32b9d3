/*
 * Hopsickle: reads and writes IEC 61850-9-2 sampled-value frames. The functions are those of
 * target/staticlib/libhopsickle.a, each proved to answer what crates/definition says.
 *
 * A description of a frame crosses in two arrays, one of numbers and one of octets, with the places
 * below; its samples cross in two more, counts and quality words, ASDU by ASDU and channel by
 * channel: sample j of ASDU i stands at i * channels + j.
 *
 * fixed is the form of the counters of every ASDU. true: smpCnt has two octets, confRev four and
 * smpSynch one, always, highest octet first. false: the fewest octets whose first is below 80
 * (hexadecimal), as every other integer of the frame. hopsickle_read, hopsickle_read_checked,
 * hopsickle_read_granted, hopsickle_read_by_sets and hopsickle_decode take both.
 *
 * Every function answers 0 where it accepts, else the number of a refusal, and then the only thing
 * it has written is the place, or the size, written or held. hopsickle_is_smv alone answers a bool.
 *
 * What is proved of the calls together (crates/flat_agreement/proofs/Theorems.antt). Two descriptions of
 * one number of channels are equal when they say the same of all that counts: numbers behind a mark of
 * 0, Length, spare octets and what lies past noASDU don't.
 * - write_then_read: what hopsickle_write wrote, hopsickle_read_strict accepts into arrays that are long
 *   enough, and hands back an equal description, with zeros where nothing counts.
 * - read_then_write: what hopsickle_read_strict accepts, hopsickle_write writes from the arrays handed
 *   back as the octets that were read, and leaves the rest of the buffer as it was.
 * - accepted_exactly: hopsickle_read_strict accepts exactly the octets that hopsickle_write writes of
 *   some description for which the arrays are long enough; ordinary_same: hopsickle_read then leaves the
 *   same in all four arrays.
 * - write_same, same_write: descriptions that are written as the same octets, in whichever forms, are
 *   equal; and equal ones are written as the same octets in one form. handed_back_same: every
 *   description that was written as the octets equals what hopsickle_read_strict hands back of them.
 * - write_sized, size_enough: hopsickle_size answers the size that hopsickle_write writes, and a buffer
 *   of that size is enough.
 *
 * An array is lent as a pointer and the number of its elements. The two arrays of a store of data sets
 * (HOPSICKLE_SET_NUMBERS and HOPSICKLE_SET_SCALES elements) and the scale factors that
 * hopsickle_read_by_sets hands back (HOPSICKLE_MAX_CHANNELS) have fixed lengths, and are lent as a
 * pointer alone. The caller sees to it that
 * - each pointer points to as many elements as it says or as are fixed, also where that is 0, and is
 *   never null;
 * - what a function writes (arrays, place, size, written, held, channels) overlaps nothing else that is
 *   lent to it.
 * Nothing is kept after a call, so calls from several threads don't disturb each other, provided that
 * nothing lent to one of them is written by another.
 */
#ifndef HOPSICKLE_H
#define HOPSICKLE_H

#include <stdbool.h>
#include <stddef.h>
#include <stdint.h>

#ifdef __cplusplus
extern "C" {
#endif

/* ---- limits */

#define HOPSICKLE_MAX_ASDUS 8
#define HOPSICKLE_MAX_CHANNELS 24
#define HOPSICKLE_MAX_TEXT 127       /* octets of svID, and of datSet */
#define HOPSICKLE_MAX_SECURITY 64    /* octets */
#define HOPSICKLE_MAX_PDU 1492       /* octets of a written PDU, from its tag to its end */
#define HOPSICKLE_QUALITY_LIMIT 8192 /* a quality word is below this, which is a power of 2 */
#define HOPSICKLE_MAX_SETS 32        /* data sets of a store */

/* What follows from them. */
#define HOPSICKLE_MAX_SAMPLES (HOPSICKLE_MAX_ASDUS * HOPSICKLE_MAX_CHANNELS) /* of all ASDUs */
#define HOPSICKLE_MAX_FRAME (26 + HOPSICKLE_MAX_PDU)       /* octets of a written frame, with a VLAN tag */
#define HOPSICKLE_SET_NUMBERS (1 + 2 * HOPSICKLE_MAX_SETS) /* elements of a store's numbers */
#define HOPSICKLE_SET_SCALES (HOPSICKLE_MAX_SETS * HOPSICKLE_MAX_CHANNELS) /* and of its scale factors */

/* ---- refusals */

#define HOPSICKLE_ACCEPTED 0

/* By the sender of a frame. The place is an octet's index from the first octet that was lent. */
#define HOPSICKLE_ENDS_TOO_SOON 1        /* octets end too soon; where they are missing */
#define HOPSICKLE_BAD_LENGTH 2           /* a length octet 80, or 84 to FF; its tag */
#define HOPSICKLE_INTEGER_TOO_LONG 3     /* an integer too long; its first content octet */
#define HOPSICKLE_TOO_LONG_TO_HOLD 4     /* noASDU above HOPSICKLE_MAX_ASDUS, or svID, datSet or security
                                            too long to hold; its first content octet */
#define HOPSICKLE_GM_IDENTITY_TOO_LONG 5 /* gmIdentity above 8 octets; its first content octet */
#define HOPSICKLE_NOT_AS_WRITTEN 6       /* strict reading only: not what the writer writes in this form;
                                            the first octet that differs, or the shorter length, or 0
                                            where the writer refuses what was read */

/* By the calling program, place 0. */
#define HOPSICKLE_NO_ROOM 7           /* a lent buffer or array too short */
#define HOPSICKLE_TOO_MANY_CHANNELS 8 /* more than HOPSICKLE_MAX_CHANNELS */

/* By whoever describes a frame, place 0. */
#define HOPSICKLE_BAD_DESCRIPTION 9   /* noASDU not 1 to HOPSICKLE_MAX_ASDUS, svID, datSet or security too
                                         long, EtherType not 88 BA, TPID not 81 00, a quality word of
                                         HOPSICKLE_QUALITY_LIMIT or more, a mark that is neither 0 nor 1,
                                         or a number beyond its field's width */
#define HOPSICKLE_TOO_LONG_TO_WRITE 10  /* a PDU above HOPSICKLE_MAX_PDU octets */
#define HOPSICKLE_VALUE_OUT_OF_RANGE 11 /* a scaled value below -2^31 or above 2^31 */

/* By a frame and a number of channels that don't match. The place is an octet's index from the first
 * octet that was lent. */
#define HOPSICKLE_LENGTHS_DIFFER 13 /* checked reading only: in an ASDU the length after 87 (hexadecimal) is
                                       not 8 times the channels; the octet after that length in the
                                       earliest such ASDU */

/* By whoever adds data sets to a store, place 0. */
#define HOPSICKLE_SET_NOT_ADDED 14 /* a confRev that isn't higher than all held, or HOPSICKLE_MAX_SETS are
                                      held */

/* By a frame and data sets that don't match, place 0. */
#define HOPSICKLE_NO_SET 15         /* reading by sets only: no set for the first ASDU's confRev, or no ASDU */
#define HOPSICKLE_OTHER_CONF_REV 16 /* reading by sets only: a later ASDU has another confRev than the first */

/* ---- places in the numbers. A mark is 1 where the field is there, else 0; reading puts 0 behind a
 * mark of 0, and writing doesn't look there. */

#define HOPSICKLE_TAGGED 0     /* mark: VLAN tag */
#define HOPSICKLE_TPID 1       /* 0x8100 */
#define HOPSICKLE_TCI 2
#define HOPSICKLE_ETHER_TYPE 3 /* 0x88BA */
#define HOPSICKLE_APPID 4
#define HOPSICKLE_LENGTH 5     /* Length as read; writing doesn't look at it */
#define HOPSICKLE_SIMULATION 6 /* 0 or 1 */
#define HOPSICKLE_SECURITY 7   /* mark */
#define HOPSICKLE_SECURITY_LENGTH 8
#define HOPSICKLE_NO_ASDU 9    /* the number of ASDUs */
#define HOPSICKLE_HEAD_NUMBERS 10
#define HOPSICKLE_HEADER_NUMBERS 6 /* of them those of the header */

/* The numbers of an ASDU, from its first: see HOPSICKLE_NUMBER. */
#define HOPSICKLE_SV_ID_LENGTH 0
#define HOPSICKLE_DAT_SET 1     /* mark */
#define HOPSICKLE_DAT_SET_LENGTH 2
#define HOPSICKLE_SMP_CNT 3     /* 16 bits */
#define HOPSICKLE_CONF_REV 4    /* 32 bits */
#define HOPSICKLE_REFR_TM 5     /* mark */
#define HOPSICKLE_SMP_SYNCH 6   /* 8 bits */
#define HOPSICKLE_SMP_RATE 7    /* mark */
#define HOPSICKLE_SMP_RATE_VALUE 8 /* 16 bits */
#define HOPSICKLE_SMP_MOD 9     /* mark */
#define HOPSICKLE_SMP_MOD_VALUE 10 /* 16 bits */
#define HOPSICKLE_GM_IDENTITY 11 /* mark */
#define HOPSICKLE_ASDU_NUMBERS 12

/* ---- places in the octets. After reading, octets past a field's length are zero, and so are those
 * of a field that is absent; writing doesn't look at them. */

#define HOPSICKLE_DST_ADDR 0 /* 6 octets */
#define HOPSICKLE_SRC_ADDR 6 /* 6 octets */
#define HOPSICKLE_SECURITY_OCTETS (HOPSICKLE_SRC_ADDR + 6) /* HOPSICKLE_MAX_SECURITY octets */
#define HOPSICKLE_HEAD_OCTETS (HOPSICKLE_SECURITY_OCTETS + HOPSICKLE_MAX_SECURITY)
#define HOPSICKLE_HEADER_OCTETS HOPSICKLE_SECURITY_OCTETS /* of them those of the header */

/* The octets of an ASDU, from its first: see HOPSICKLE_OCTET. */
#define HOPSICKLE_SV_ID_OCTETS 0 /* HOPSICKLE_MAX_TEXT octets */
#define HOPSICKLE_DAT_SET_OCTETS (HOPSICKLE_SV_ID_OCTETS + HOPSICKLE_MAX_TEXT)   /* as many */
#define HOPSICKLE_REFR_TM_OCTETS (HOPSICKLE_DAT_SET_OCTETS + HOPSICKLE_MAX_TEXT) /* 8 octets */
#define HOPSICKLE_GM_IDENTITY_OCTETS (HOPSICKLE_REFR_TM_OCTETS + 8)              /* 8 octets */
#define HOPSICKLE_ASDU_OCTETS (HOPSICKLE_GM_IDENTITY_OCTETS + 8)

/* The place of a number, and of an octet, of ASDU i (from 0). */
#define HOPSICKLE_NUMBER(i, place) (HOPSICKLE_HEAD_NUMBERS + (size_t)(i) * HOPSICKLE_ASDU_NUMBERS + (place))
#define HOPSICKLE_OCTET(i, place) (HOPSICKLE_HEAD_OCTETS + (size_t)(i) * HOPSICKLE_ASDU_OCTETS + (place))

/* Elements that are enough for every frame: of the numbers, and of the octets. Counts and quality
 * words are enough with HOPSICKLE_MAX_SAMPLES. */
#define HOPSICKLE_MAX_NUMBERS (HOPSICKLE_HEAD_NUMBERS + HOPSICKLE_MAX_ASDUS * HOPSICKLE_ASDU_NUMBERS)
#define HOPSICKLE_MAX_OCTETS (HOPSICKLE_HEAD_OCTETS + HOPSICKLE_MAX_ASDUS * HOPSICKLE_ASDU_OCTETS)

/* ---- places in a store of data sets: how many it holds, then confRev and channels of each, the
 * earliest addition first, in the numbers; HOPSICKLE_MAX_CHANNELS scale factors of each, zero past its
 * channels, in the scale factors. A store whose first number is 0 is empty, whatever else is in the
 * arrays. */

#define HOPSICKLE_SETS_HELD 0
/* Of set i (from 0): confRev and channels, and the scale factor of channel j. */
#define HOPSICKLE_SET_CONF_REV(i) (1 + 2 * (size_t)(i))
#define HOPSICKLE_SET_CHANNELS(i) (2 + 2 * (size_t)(i))
#define HOPSICKLE_SET_SCALE(i, j) ((size_t)(i) * HOPSICKLE_MAX_CHANNELS + (j))

/* ---- reading */

/* Whether the EtherType is there and is that of sampled values, behind a VLAN tag or not. */
bool hopsickle_is_smv(const uint8_t *frame, size_t frame_len);

/*
 * Reads the header of a frame: writes the numbers TAGGED to LENGTH (HOPSICKLE_HEADER_NUMBERS) and the
 * two addresses (HOPSICKLE_HEADER_OCTETS). *place is the position after the header, 22, or 26 where
 * there is a VLAN tag, which can lie past the end of the frame; where refused, the refusal's place.
 * Refused: 1; then 7 where there is no room for so many numbers and octets.
 */
size_t hopsickle_header(const uint8_t *frame, size_t frame_len,
                        uint32_t *numbers, size_t numbers_len,
                        uint8_t *octets, size_t octets_len,
                        size_t *place);

/*
 * Reads a frame whose samples are of so many channels; it doesn't test the EtherType. Writes
 * HOPSICKLE_HEAD_NUMBERS + HOPSICKLE_ASDU_NUMBERS * noASDU numbers, HOPSICKLE_HEAD_OCTETS +
 * HOPSICKLE_ASDU_OCTETS * noASDU octets, noASDU * channels counts and as many quality words, of which the
 * bit of HOPSICKLE_QUALITY_LIMIT and all above it are cleared; nothing past them. *place is the refusal's
 * place, 0 where accepted.
 * Refused: 8; then 1 to 5 in the order of the frame; then 7.
 */
size_t hopsickle_read(const uint8_t *frame, size_t frame_len, size_t channels,
                      uint32_t *numbers, size_t numbers_len,
                      uint8_t *octets, size_t octets_len,
                      int32_t *counts, size_t counts_len,
                      uint32_t *qualities, size_t qualities_len,
                      size_t *place);

/*
 * Reads a frame and checks that the channels match it: as hopsickle_read, and accepted only if in every
 * ASDU the length after 87 (hexadecimal) is 8 times the channels. The length is a number, however many
 * octets it takes: 87 81 08 is that of one channel. A frame without ASDUs has nothing to check. Every
 * frame that hopsickle_read_strict accepts, in either form, is accepted.
 * Refused: as hopsickle_read; then 13.
 */
size_t hopsickle_read_checked(const uint8_t *frame, size_t frame_len, size_t channels,
                              uint32_t *numbers, size_t numbers_len,
                              uint8_t *octets, size_t octets_len,
                              int32_t *counts, size_t counts_len,
                              uint32_t *qualities, size_t qualities_len,
                              size_t *place);

/*
 * Reads a frame for a customer to whom some of its channels are granted. Channel i is shown where bit
 * i of mask is set and i is below channels, else hidden; other bits do nothing. Writes numbers and
 * octets as hopsickle_read does, and of the samples the counts and quality words of the n shown
 * channels alone, ASDU by ASDU and in the order of the channels: the k-th (from 0) of ASDU i stands at
 * i * n + k. These are noASDU * n counts and as many quality words; nothing past them.
 * Refused: as hopsickle_read, with 7 by noASDU * n counts and quality words. Where no channel is shown,
 * arrays without elements are enough for them.
 * Two frames of equal length that differ only in the count and quality octets of hidden channels, read
 * with the same channels and mask into arrays of the same lengths, have the same answer: number, place
 * and every element that is written, also where they are refused.
 * hopsickle_read_strict is not for customers: it looks at all bits of all quality words, so what it
 * refuses tells of hidden channels.
 */
size_t hopsickle_read_granted(const uint8_t *frame, size_t frame_len, size_t channels, uint32_t mask,
                              uint32_t *numbers, size_t numbers_len,
                              uint8_t *octets, size_t octets_len,
                              int32_t *counts, size_t counts_len,
                              uint32_t *qualities, size_t qualities_len,
                              size_t *place);

/*
 * Reads a PDU from the octet at on, as hopsickle_read does after the header. The numbers and octets
 * of the header are written 0, except the simulation mark, which is looked for where a frame that
 * starts at octet 0 has it. Places count from octet 0.
 * Refused: as hopsickle_read.
 */
size_t hopsickle_decode(const uint8_t *frame, size_t frame_len, size_t at, size_t channels,
                        uint32_t *numbers, size_t numbers_len,
                        uint8_t *octets, size_t octets_len,
                        int32_t *counts, size_t counts_len,
                        uint32_t *qualities, size_t qualities_len,
                        size_t *place);

/*
 * Reads a frame strictly: as hopsickle_read, and accepted only if the frame is, from first to last
 * octet, what hopsickle_write writes in this form of what was read.
 * Refused: 8; then 1 to 5 in the order of the frame; then 7; then 6.
 */
size_t hopsickle_read_strict(const uint8_t *frame, size_t frame_len, size_t channels, bool fixed,
                             uint32_t *numbers, size_t numbers_len,
                             uint8_t *octets, size_t octets_len,
                             int32_t *counts, size_t counts_len,
                             uint32_t *qualities, size_t qualities_len,
                             size_t *place);

/*
 * The values of the counts of a reading of no_asdu ASDUs: each count as a float, times the scale
 * factor of its channel. scales has one scale factor for each channel. Writes no_asdu * channels
 * values; *written is how many, 0 where refused.
 * A count from -4194303 to 4194303 whose scale factor has a magnitude from 2^-30 to 2^30 comes back
 * from its value by hopsickle_write_values with the same scale factor: proved of the two calls
 * (values_written in Flat.antt of crates/values_agreement). Past these bounds a count may be lost.
 * Refused: 8; then 7 for counts or values.
 */
size_t hopsickle_values(const float *scales, size_t channels, uint16_t no_asdu,
                        const int32_t *counts, size_t counts_len,
                        float *values, size_t values_len,
                        size_t *written);

/* ---- data sets by confRev. A store is two arrays that the caller keeps: numbers and scale factors. */

/*
 * Adds a data set to a store under a confRev that is higher than all held. scales has one scale factor
 * for each channel. Writes how many sets are held, and the confRev, the channels and the
 * HOPSICKLE_MAX_CHANNELS scale factors of the added one; nothing else of the store. *held is how many
 * sets are then held, 0 where refused. The confRevs of a store that additions made from an empty one
 * increase strictly.
 * Refused: 8; then 14.
 */
size_t hopsickle_sets_add(uint32_t *sets /* HOPSICKLE_SET_NUMBERS */,
                          float *set_scales /* HOPSICKLE_SET_SCALES */, uint32_t conf_rev,
                          const float *scales, size_t channels,
                          size_t *held);

/*
 * Reads a frame as hopsickle_read does, with the channels of the set that is held under the first ASDU's
 * confRev. That set is handed back: *channels, and its HOPSICKLE_MAX_CHANNELS scale factors in scales.
 * Every ASDU that is read has its confRev.
 * Refused: 1 to 4 as hopsickle_read up to the first ASDU's confRev; then 15, and without ASDUs after the
 * length that follows A2 (hexadecimal); then the rest of what hopsickle_read refuses with the channels
 * of the set, 7 as its last; then 16.
 * An addition to the store, taken or refused, changes no answer but 15: a frame that was read is read the
 * same, into arrays of the same lengths, after any later additions.
 * A store that additions didn't make is read too: it holds at most HOPSICKLE_MAX_SETS, whatever its first
 * number is; of sets with the same confRev the first counts; and one with more channels than
 * HOPSICKLE_MAX_CHANNELS is refused 8.
 */
size_t hopsickle_read_by_sets(const uint8_t *frame, size_t frame_len,
                              const uint32_t *sets /* HOPSICKLE_SET_NUMBERS */,
                              const float *set_scales /* HOPSICKLE_SET_SCALES */,
                              size_t *channels, float *scales /* HOPSICKLE_MAX_CHANNELS */,
                              uint32_t *numbers, size_t numbers_len,
                              uint8_t *octets, size_t octets_len,
                              int32_t *counts, size_t counts_len,
                              uint32_t *qualities, size_t qualities_len,
                              size_t *place);

/* ---- writing */

/*
 * Writes the frame of a description with these counts and quality words, in this form. *size is the
 * number of octets written, at most HOPSICKLE_MAX_FRAME, 0 where refused.
 * Refused: 8; 7 where one of the four arrays is too short for noASDU; 9; 10; 7 for the frame.
 */
size_t hopsickle_write(const uint32_t *numbers, size_t numbers_len,
                       const uint8_t *octets, size_t octets_len, size_t channels, bool fixed,
                       const int32_t *counts, size_t counts_len,
                       const uint32_t *qualities, size_t qualities_len,
                       uint8_t *frame, size_t frame_len,
                       size_t *size);

/*
 * The same with values: each is divided by the scale factor of its channel and rounded to the
 * nearest whole number, halves away from zero. NaN becomes 0, and 2^31 becomes 2^31 - 1. Of values
 * that hopsickle_values wrote, within the bounds there, it writes what hopsickle_write writes of the
 * counts.
 * Refused: 8; 7 where one of the four arrays is too short for noASDU; 9; 11; 10; 7 for the frame.
 */
size_t hopsickle_write_values(const uint32_t *numbers, size_t numbers_len,
                              const uint8_t *octets, size_t octets_len,
                              const float *scales, size_t channels, bool fixed,
                              const float *values, size_t values_len,
                              const uint32_t *qualities, size_t qualities_len,
                              uint8_t *frame, size_t frame_len,
                              size_t *size);

/*
 * *size is the number of octets that the writers write for a description in this form, 0 where
 * refused.
 * Refused: 8; 7 where one of the two arrays is too short for noASDU; 9, quality words apart; 10.
 */
size_t hopsickle_size(const uint32_t *numbers, size_t numbers_len,
                      const uint8_t *octets, size_t octets_len, size_t channels, bool fixed,
                      size_t *size);

#ifdef __cplusplus
}
#endif

#endif
