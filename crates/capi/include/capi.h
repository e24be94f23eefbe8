/* The lock line bench for C: draw, scan, Fit, and runs of a link of two USART ends. */
#ifndef HOTSKREBI_CAPI_H
#define HOTSKREBI_CAPI_H

#include <stddef.h>
#include <stdint.h>

#ifdef __cplusplus
extern "C" {
#endif

/*
 * Every function answers 0, or the number of the refusal. A call that is refused writes nothing.
 *
 * The caller owes what C always owes: each pointer is to so many items as the length beside it says (lengths count items, not
 * bytes), aligned for its type and not NULL, and what is written overlaps nothing else that is passed.
 * The numbers may be any: those out of range are refused. Nothing is allocated, kept or shared between calls, so calls from
 * several threads do not disturb each other.
 */
enum hotskrebi_refusal {
    HOTSKREBI_OUT_OF_RANGE = 1,    /* a number of an end, a rate or the kind of an act */
    HOTSKREBI_TOO_WIDE = 2,        /* a character has more bits than the format */
    HOTSKREBI_FULL = 3,            /* as many characters wait as the sender has room for */
    HOTSKREBI_NOTHING_UNREAD = 4,  /* no received character is unread */
    HOTSKREBI_FORMATS_DIFFER = 5,  /* sender and receiver differ in data bits, address bits or parity */
    HOTSKREBI_TOO_SHORT = 6,       /* a buffer is too short, or more than 4,096 characters are to be drawn */
    HOTSKREBI_NOT_A_LEVEL = 7      /* a byte of a picture, or the value of a noise clock, is neither 0 nor 1 */
};

/* A USART: its settings, and its format. */
struct hotskrebi_end {
    uint16_t divider;      /* clocks of the USART for each bit, from 3 */
    uint8_t modulator;     /* bit k mod 8 set: bit k of a frame lasts one clock more */
    uint8_t data_bits;     /* 7 or 8 */
    uint8_t address_bits;  /* 0 or 1 */
    uint8_t parity;        /* 0 none, 1 odd, 2 even */
    uint8_t stop_bits;     /* 1 or 2 */
};

/* The flags of an entry, added up. */
enum hotskrebi_flag {
    HOTSKREBI_OVERRUN = 1,  /* an entry before this one was never read */
    HOTSKREBI_PARITY = 2,   /* the parity rule fails */
    HOTSKREBI_FRAMING = 4,  /* the first stop bit was space */
    HOTSKREBI_BREAK = 8     /* the line stayed at space */
};

/* A character as it arrived: its data bits, the address bit as the next higher one, and its flags. */
struct hotskrebi_entry {
    uint16_t character;
    uint8_t flags;
};

enum hotskrebi_fits { HOTSKREBI_PASSES = 0, HOTSKREBI_EARLY = 1, HOTSKREBI_LATE = 2 };

struct hotskrebi_verdict {
    uint8_t verdict;  /* whether the rates pass, or which way the bit fails */
    size_t bit;       /* the bit of the frame, the start bit being 0; 0 where the rates pass */
};

enum hotskrebi_act_kind {
    HOTSKREBI_LOAD = 0,     /* load the character in value */
    HOTSKREBI_SEND = 1,     /* a send clock */
    HOTSKREBI_RECEIVE = 2,  /* a receive clock, with the level on the line */
    HOTSKREBI_NOISE = 3,    /* a receive clock, with the level in value: 0 space, 1 mark */
    HOTSKREBI_READ = 4      /* read the oldest unread entry */
};

struct hotskrebi_act {
    uint8_t kind;
    uint16_t value;  /* looked at for a load and for noise only */
};

enum hotskrebi_answer_kind {
    HOTSKREBI_DONE = 0,
    HOTSKREBI_LINE = 1,    /* of a send clock: value is the level on the line, 0 space, 1 mark */
    HOTSKREBI_ENTRY = 2,   /* of a read: value is the character, flags are its flags */
    HOTSKREBI_REFUSED = 3  /* of a load or a read: value is the refusal's number */
};

struct hotskrebi_answer {
    uint8_t kind;
    uint8_t flags;
    uint16_t value;
};

/*
 * Draws up to 4,096 characters as a sender puts them on the line, frame after frame, one byte for each clock: 0 for space, 1 for
 * mark. The rest of the picture is kept; written is how many bytes were drawn.
 * Refused with 1 for the end, else 2 for a character, else 6.
 */
uint8_t hotskrebi_draw(const struct hotskrebi_end *end, const uint16_t *characters, size_t character_count, uint8_t *picture,
                       size_t picture_size, size_t *written);

/*
 * Gives a picture, one byte for each clock, to a new receiver and lists every entry that arrives. The rest of the list is kept;
 * found is how many entries there are.
 * Refused with 1 for the end, else 7 for a byte, else 6 where the list is too short for all of them.
 */
uint8_t hotskrebi_scan(const struct hotskrebi_end *end, const uint8_t *picture, size_t picture_size,
                       struct hotskrebi_entry *entries, size_t entry_count, size_t *found);

/*
 * Whether a sender and a receiver fit when send_rate clocks of the sender come to receive_rate clocks of the receiver, whatever
 * the unit; each rate is from 1 to 16,777,216.
 * Refused with 1 for an end or a rate, else 5.
 */
uint8_t hotskrebi_fit(const struct hotskrebi_end *sender, const struct hotskrebi_end *receiver, uint32_t send_rate,
                      uint32_t receive_rate, struct hotskrebi_verdict *verdict);

/*
 * Joins a sender and a receiver at rest by a line, does the acts one after the other, and writes down what each answers. The rest
 * of the answers is kept. All acts are looked at before the first is done.
 * Refused with 1 for an end; else, for the first act that is at fault, with 1 for its kind or 7 for its level; else with 6 where
 * there are fewer places for answers than acts. An act that the link refuses, as a load with 2, 3 or 5, is answered so, and the
 * run goes on.
 */
uint8_t hotskrebi_run(const struct hotskrebi_end *sender, const struct hotskrebi_end *receiver, const struct hotskrebi_act *acts,
                      size_t act_count, struct hotskrebi_answer *answers, size_t answer_count);

/* The same with a queue of sixteen characters in front of the sender and one of sixteen entries behind the receiver. */
uint8_t hotskrebi_run_queued(const struct hotskrebi_end *sender, const struct hotskrebi_end *receiver,
                             const struct hotskrebi_act *acts, size_t act_count, struct hotskrebi_answer *answers,
                             size_t answer_count);

#ifdef __cplusplus
}
#endif

#endif
