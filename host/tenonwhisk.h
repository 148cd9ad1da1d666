/* Tenonwhisk: a proved core of a console's sound chip (SPU), for C and C++.
 *
 * Memory. The host lends all of it:
 *
 *   state   TENONWHISK_STATE_HALFWORDS halfwords: the whole chip except its sound RAM
 *   ram     L bytes of sound RAM; L is 65,536 or 524,288, and each state is made for one of the two
 *   marks   L/16 bytes: bit h % 8 of byte h / 8 says that the halfword at address 2h is loaded; zero them to begin with
 *
 * A slice is a pointer and its number of elements: a state's length counts halfwords, not bytes. The slices of one call
 * must not overlap, except the two banks of a lookup. Every pointer is aligned for its elements. None may be NULL, not
 * even with length 0. The library checks everything else: wrong lengths, damaged states, banks and sectors, and bad
 * arguments are refused. A refused call returns its number and zero results, and leaves all lent memory as it was.
 * There are two exceptions: for a size other than the two, tenonwhisk_make returns 1 and still writes the state for
 * 65,536; and tenonwhisk_xa_decode hands the histories back.
 *
 * Saved states. Every call works on the state in place, so what the host lends is the state, between any two calls. It
 * is plain halfwords: copy it, save it, with RAM and marks beside it. Its first two halfwords, the tag, name its layout
 * (docs/STATE.md). A library with another layout refuses it with 2; it never misreads it. A saved state has the byte
 * order of its host. A host with the other order reads another tag, so it is refused with 2 there.
 *
 * Threads. The library has no variables of its own: it allocates nothing and keeps nothing between calls. Calls on
 * different memory may run at the same time, on any threads. So may calls on the same memory that only read it.
 *
 * Platform. The archive is for x86-64 Linux, with the System V calling convention. It needs memcpy and memset, and
 * nothing else.
 *
 * What it does not do. Calls that ask for one of these are refused with 5:
 *
 *   - volume sweep: a volume with bit 15 set, of a voice or of the main output
 *   - the data port 1A8h, and manual writes through it
 *   - transfer types other than 2 (1ACh bits 3-1)
 *   - a write of a voice's envelope level (+Ch)
 *
 * External audio is taken as zero. The library does not resample, and it does not open an output device. */
#ifndef TENONWHISK_H
#define TENONWHISK_H

#include <stdbool.h>
#include <stddef.h>
#include <stdint.h>

#ifdef __cplusplus
extern "C" {
#endif

#define TENONWHISK_VERSION "0.7.0"

/* The length of a state, in halfwords. */
#define TENONWHISK_STATE_HALFWORDS 1284

/* No call uses more stack than this. */
#define TENONWHISK_STACK_BYTES 40960

/* ---- numbers */

/* What a call returns: TENONWHISK_DONE, or why it was refused. Where several reasons apply, it returns the lowest
 * number, except that TENONWHISK_UNDOCUMENTED goes before TENONWHISK_NOT_CARRIED, and that the three of XA sectors go
 * the other way: 14, 13, 12. A buffer of another length or with another tag does not name an L, so for it a call
 * returns TENONWHISK_STATE. */
enum tenonwhisk_number {
    TENONWHISK_DONE = 0,
    TENONWHISK_MEMORY = 1,        /* RAM or marks do not have the lengths that the state's L asks for; or no such L */
    TENONWHISK_STATE = 2,         /* not a state: another length, another tag, or a field out of range */
    TENONWHISK_OFFSET = 3,        /* the register offset is odd or not listed */
    TENONWHISK_READ_ONLY = 4,     /* a write to a register that can only be read */
    TENONWHISK_NOT_CARRIED = 5,   /* the register is listed, but it, or this value of it, is not carried */
    TENONWHISK_MODE = 6,          /* another transfer mode is applied */
    TENONWHISK_COUNT = 7,         /* a transfer of no halfwords, or of more than 32 */
    TENONWHISK_ADDRESS = 8,       /* the block address is not a multiple of 8, or is beyond L-16 */
    TENONWHISK_BANK = 9,          /* a bank is damaged, or the entries handed in would make a damaged one */
    TENONWHISK_NO_ENTRY = 10,     /* no bank that was handed in has an entry with this number */
    TENONWHISK_UNDOCUMENTED = 11, /* a write sets a bit that nobody has documented */
    TENONWHISK_XA_COPIES = 12,    /* an XA sector's header bytes differ from their copies */
    TENONWHISK_XA_EIGHT_BIT = 13, /* 8-bit XA samples, which are not decoded */
    TENONWHISK_XA_LENGTH = 14,    /* an XA sector, or the buffer for its samples, of another length */
    TENONWHISK_ENCODER = 23,      /* originals or encoded bytes that do not make whole blocks */
    TENONWHISK_ROOM = 24,         /* the buffer is shorter than the bank to be written */
    TENONWHISK_BUFFERS = 25       /* the buffers of a run do not hold whole pairs, or have different lengths */
};

/* Returns a number's meaning in plain words. */
static inline const char *tenonwhisk_words(uint8_t number)
{
    switch (number) {
    case TENONWHISK_DONE:
        return "done";
    case TENONWHISK_MEMORY:
        return "sound RAM or marks do not have the size that the state was made for (RAM 65,536 or 524,288 bytes, "
               "marks a sixteenth)";
    case TENONWHISK_STATE:
        return "the halfwords are not a state, or a field of the state is out of range";
    case TENONWHISK_OFFSET:
        return "there is no register at this offset";
    case TENONWHISK_READ_ONLY:
        return "this register can only be read";
    case TENONWHISK_NOT_CARRIED:
        return "this register, or this value of it, is not carried";
    case TENONWHISK_MODE:
        return "another transfer mode is applied (SPUCNT bits 5-4 act from the next tick on); mode 1 or 2 moves "
               "inward, 3 outward";
    case TENONWHISK_COUNT:
        return "a transfer moves 1 to 32 halfwords";
    case TENONWHISK_ADDRESS:
        return "no block begins at this address: it is not a multiple of 8, or fewer than 16 bytes follow";
    case TENONWHISK_BANK:
        return "a sound bank is damaged, or the entries handed in would make a damaged one";
    case TENONWHISK_NO_ENTRY:
        return "there is no entry with this number";
    case TENONWHISK_UNDOCUMENTED:
        return "the value sets a bit that nobody has documented (bit 13 of a voice's +Ah; "
               "bits 15-8 of 18Ah, 18Eh, 192h, 196h, 19Ah; bits 15-4 and 0 of 1ACh)";
    case TENONWHISK_XA_COPIES:
        return "the XA sector is damaged: header bytes of a sound group differ from their copies";
    case TENONWHISK_XA_EIGHT_BIT:
        return "XA samples of 8 bits are not decoded, only those of 4 bits";
    case TENONWHISK_XA_LENGTH:
        return "an XA sector is 2,304 bytes, and its samples are 4,032";
    case TENONWHISK_ENCODER:
        return "a block is 16 bytes for 28 samples: the originals or the encoded bytes do not make whole blocks";
    case TENONWHISK_ROOM:
        return "the buffer is shorter than the sound bank to be written";
    case TENONWHISK_BUFFERS:
        return "the buffers do not hold whole pairs, or have different lengths";
    default:
        return "a number that no call gives";
    }
}

/* ---- a state */

/* Writes a fresh state for a sound RAM of size bytes. For a size other than the two, it writes the state for 65,536 and
 * returns 1. For a state_len other than TENONWHISK_STATE_HALFWORDS, it writes nothing and returns 2, or 1 if the size
 * is wrong too. */
uint8_t tenonwhisk_make(uint32_t size, uint16_t *state, size_t state_len);

/* Resets the state to what tenonwhisk_make wrote. Sound RAM and marks stay. Returns 0 or 2. */
uint8_t tenonwhisk_reset(uint16_t *state, size_t state_len);

struct tenonwhisk_overview {
    uint8_t number;
    bool doubt;    /* the sound may rest on bytes that nobody loaded; it stays until a reset */
    uint32_t size; /* L */
    uint32_t tick; /* ticks since the state was made or reset, modulo 2^32 */
};

/* Looks at a state, which it only reads. Numbers: 0 if the halfwords are a good state, 2 if not. */
struct tenonwhisk_overview tenonwhisk_status(const uint16_t *state, size_t state_len);

/* ---- registers, by their offset from 1F801C00h */

/* Writes a register. Returns 0, 2, 3, 4, 5 or 11.
 *
 * 11 is for bits that the public register description calls unused or unknown: nobody can say what a console does with
 * them. They are bit 13 of a voice's +Ah (bit 29 of ADSR), bits 15-8 of 18Ah, 18Eh, 192h, 196h and 19Ah (bits 31-24 of
 * KON, KOFF, PMON, NON and EON), and bits 15-4 and 0 of 1ACh. Write them as 0. A state that already holds such a bit is
 * accepted. */
uint8_t tenonwhisk_write(uint16_t *state, size_t state_len, uint32_t offset, uint16_t value);

struct tenonwhisk_reading {
    uint8_t number;
    uint16_t value;
};

/* Reads a register. The state is only read. Numbers: 0, 2, 3, 5. */
struct tenonwhisk_reading tenonwhisk_read(const uint16_t *state, size_t state_len, uint32_t offset);

/* ---- transfers, at the transfer address */

struct tenonwhisk_moved {
    uint8_t number;
    bool irq;       /* this call raised the interrupt */
    bool doubt;     /* this call raised the doubt */
    uint32_t count; /* halfwords */
};

/* Moves 1 to 32 halfwords to sound RAM and marks them. SPUCNT's transfer mode must have been 1 or 2 at the last tick.
 * Numbers: 0, 1, 2, 6, 7. */
struct tenonwhisk_moved tenonwhisk_transfer_in(uint16_t *state, size_t state_len, uint8_t *ram, size_t ram_len,
                                               uint8_t *marks, size_t marks_len, const uint16_t *values,
                                               size_t values_len);

/* Moves 1 to 32 halfwords from sound RAM to out, as many as it holds. SPUCNT's transfer mode must have been 3 at the
 * last tick. Numbers: 0, 1, 2, 6, 7. */
struct tenonwhisk_moved tenonwhisk_transfer_out(uint16_t *state, size_t state_len, const uint8_t *ram, size_t ram_len,
                                                const uint8_t *marks, size_t marks_len, uint16_t *out, size_t out_len);

/* ---- sound */

struct tenonwhisk_ticked {
    uint8_t number;
    bool irq;   /* this tick raised the interrupt */
    bool doubt; /* this tick raised the doubt */
    int16_t left;
    int16_t right;
};

/* Makes one tick, 1/44100 s, with a pair of CD samples. Returns the pair that is heard. Numbers: 0, 1, 2. */
struct tenonwhisk_ticked tenonwhisk_tick(uint16_t *state, size_t state_len, uint8_t *ram, size_t ram_len,
                                         uint8_t *marks, size_t marks_len, int16_t cd_left, int16_t cd_right);

struct tenonwhisk_ticked_floats {
    uint8_t number;
    bool irq;
    bool doubt;
    float left;
    float right;
};

/* Does what tenonwhisk_tick does. Returns each sample divided by 32768. Numbers: 0, 1, 2. */
struct tenonwhisk_ticked_floats tenonwhisk_tick_floats(uint16_t *state, size_t state_len, uint8_t *ram, size_t ram_len,
                                                       uint8_t *marks, size_t marks_len, int16_t cd_left,
                                                       int16_t cd_right);

struct tenonwhisk_ran {
    uint8_t number;
    size_t count; /* ticks */
    size_t irq;   /* the tick, from 0, that raised the interrupt; count if none did. Only a register write clears the
                     interrupt, so no run raises it twice */
    size_t doubt; /* the tick, from 0, that raised the doubt; count if none did */
};

/* The arguments cd and cd_len of a run without CD. */
#define TENONWHISK_NO_CD tenonwhisk_no_cd(), 0

static inline const int16_t *tenonwhisk_no_cd(void)
{
    static const int16_t none[1] = {0};
    return none;
}

/* Makes a tick for each pair of out (left, right, left, ..). cd holds as many pairs of CD samples, or none: cd_len is
 * out_len, or 0 for no CD. Without CD, every CD sample is zero. Numbers: 0, 1, 2, 25. */
struct tenonwhisk_ran tenonwhisk_run(uint16_t *state, size_t state_len, uint8_t *ram, size_t ram_len, uint8_t *marks,
                                     size_t marks_len, const int16_t *cd, size_t cd_len, int16_t *out, size_t out_len);

/* Does what tenonwhisk_run does. Writes each sample divided by 32768 to floats too: floats_len is out_len. Numbers:
 * 0, 1, 2, 25. */
struct tenonwhisk_ran tenonwhisk_run_floats(uint16_t *state, size_t state_len, uint8_t *ram, size_t ram_len,
                                            uint8_t *marks, size_t marks_len, const int16_t *cd, size_t cd_len,
                                            int16_t *out, size_t out_len, float *floats, size_t floats_len);

/* ---- a look at a block */

/* Says whether tenonwhisk_block_view gives the block at address. Only reads what is lent. Returns 0, 1, 2 or 8. */
uint8_t tenonwhisk_view_number(const uint16_t *state, size_t state_len, const uint8_t *ram, size_t ram_len,
                               uint32_t address);

/* Returns the sixteen bytes of the block at address, which stand in the host's own RAM. Returns NULL if refused. */
static inline const uint8_t *tenonwhisk_block_view(const uint16_t *state, size_t state_len, const uint8_t *ram,
                                                   size_t ram_len, uint32_t address)
{
    return tenonwhisk_view_number(state, state_len, ram, ram_len, address) == TENONWHISK_DONE ? ram + address : NULL;
}

/* ---- sound banks */

/* A sound bank is one file of sounds, with every number low byte first:
 *
 *   header   the number of entries (2 bytes, at most 1,024), then for each entry its kind (2 bytes), its offset and
 *            its count (4 bytes each)
 *   data     all that follows
 *
 * Entries are numbered from 0, and each is one of two:
 *
 *   sound    kind 0: count blocks of 16 bytes, at least one, from offset on. The offset is counted from the bank's
 *            start and is a multiple of 16. The sound lies after the header and inside the bank.
 *   alias    kind 1: another number for an entry that stands before it, a sound or an alias. Its offset is the number
 *            of that entry, and its count is 0.
 *
 * Anything else is damage, and so is a header that counts more than 1,024 entries or is longer than the bank. Sounds
 * may overlap and stand in any order, and bytes may belong to none. A bank of no entries is good; a bank of no bytes is
 * damaged.
 *
 * These calls need no state. A bank that is looked at is only read, so the two banks of a lookup may overlap. */
enum tenonwhisk_bank_kind { TENONWHISK_BANK_SOUND = 0, TENONWHISK_BANK_ALIAS = 1 };

/* The most entries of a bank. */
#define TENONWHISK_BANK_ENTRIES 1024

/* The arguments bank and bank_len of a bank of no entries, for a host that has only one bank. */
#define TENONWHISK_NO_BANK tenonwhisk_no_bank(), 2

static inline const uint8_t *tenonwhisk_no_bank(void)
{
    static const uint8_t none[2] = {0, 0};
    return none;
}

struct tenonwhisk_bank_found {
    uint8_t number;
    bool house;     /* the sound stands in the house's bank; else in the title's */
    uint32_t entry; /* the sound's own entry: the one that was asked for, or the one that its aliases lead to */
    size_t offset;  /* of its first byte, from the bank's start */
    size_t length;  /* in bytes, 16 for each block */
};

/* Finds a sound by the number of its entry: in the title's bank or, if that has no entry with this number, in the
 * house's. An alias leads to a sound of its own bank. Both banks must be good, even the one that is not needed.
 * Numbers: 0, 9, 10. */
struct tenonwhisk_bank_found tenonwhisk_bank_find(const uint8_t *title, size_t title_len, const uint8_t *house,
                                                  size_t house_len, uint32_t number);

/* Returns the first byte of the sound that tenonwhisk_bank_find finds, which stands in the host's own bank, and writes
 * its length in bytes. Returns NULL and writes 0 if refused. */
static inline const uint8_t *tenonwhisk_bank_lookup(const uint8_t *title, size_t title_len, const uint8_t *house,
                                                    size_t house_len, uint32_t number, size_t *length)
{
    struct tenonwhisk_bank_found found = tenonwhisk_bank_find(title, title_len, house, house_len, number);
    *length = found.length;
    return found.number == TENONWHISK_DONE ? (found.house ? house : title) + found.offset : NULL;
}

enum tenonwhisk_bank_place {
    TENONWHISK_BANK_GOOD = 0,
    TENONWHISK_BANK_IN_HEADER = 1, /* shorter than 2 bytes, more than 1,024 entries, or shorter than its header */
    TENONWHISK_BANK_AT_ENTRY = 2
};

struct tenonwhisk_bank_damage {
    uint8_t number;
    uint8_t place;  /* an enum tenonwhisk_bank_place */
    uint32_t entry; /* the first damaged entry, if the place is TENONWHISK_BANK_AT_ENTRY; else 0 */
};

/* Says whether a bank is damaged, and where first. Numbers: 0, 9. */
struct tenonwhisk_bank_damage tenonwhisk_bank_check(const uint8_t *bank, size_t bank_len);

struct tenonwhisk_bank_fields {
    uint8_t number;
    uint16_t kind;
    uint32_t offset;
    uint32_t count;
};

/* Reads entry n as it stands in the bank, good or damaged, so that a tool can list a damaged bank too. Numbers: 0; 9 if
 * the header is damaged; 10 if the bank has no entry n. */
struct tenonwhisk_bank_fields tenonwhisk_bank_entry(const uint8_t *bank, size_t bank_len, uint32_t n);

struct tenonwhisk_bank_written {
    uint8_t number;
    size_t length; /* of the bank, in bytes; 0 if refused */
};

/* Returns the length of a bank with so many entries and bytes of data: what tenonwhisk_bank_write needs room for. */
static inline size_t tenonwhisk_bank_length(size_t entries, size_t data_len)
{
    return 2 + 10 * entries + data_len;
}

/* Writes a bank to out: its header, with entry k made of kinds[k], offsets[k] and counts[k], then data as it is. It
 * adds no padding: data begins with the bytes between the header and the first sound. Bytes of out past the bank stay.
 * Numbers: 0; 9 if the three lists have different lengths or more than 1,024 entries, or if the bank would be damaged;
 * 24 if out_len is less than the bank's length. */
struct tenonwhisk_bank_written tenonwhisk_bank_write(const uint16_t *kinds, size_t kinds_len, const uint32_t *offsets,
                                                     size_t offsets_len, const uint32_t *counts, size_t counts_len,
                                                     const uint8_t *data, size_t data_len, uint8_t *out,
                                                     size_t out_len);

/* ---- XA speech */

/* An XA sector holds dialogue as CD-ROM XA ADPCM: 18 sound groups of 128 bytes, each with eight units of 28 samples of
 * 4 bits. In a mono sector the units follow each other; in a stereo sector the even ones are left, the odd ones right.
 * What stands around the 2,304 bytes on a disc (sync, subheader, checksums) is the host's. So is the rate, 37,800 or
 * 18,900 Hz: nothing is resampled.
 *
 * These calls need no state. The two samples before a sector's first go in and come back by value, for left, right and
 * mono each. A host keeps them for each stream that it decodes, from sector to sector. */

/* The length of a sector, in bytes. */
#define TENONWHISK_XA_SECTOR_BYTES 2304

/* The samples of a sector, mono or stereo (then 2,016 pairs). */
#define TENONWHISK_XA_SAMPLES 4032

/* The last two samples of a channel. Any values are good. */
struct tenonwhisk_xa_history {
    int16_t old;   /* the last */
    int16_t older; /* the one before it */
};

struct tenonwhisk_xa_histories {
    struct tenonwhisk_xa_history left;
    struct tenonwhisk_xa_history right;
    struct tenonwhisk_xa_history mono;
};

/* Returns the histories before the first sector of a stream: all zero. */
struct tenonwhisk_xa_histories tenonwhisk_xa_fresh(void);

struct tenonwhisk_xa_decoded {
    uint8_t number;
    struct tenonwhisk_xa_histories histories; /* for the stream's next sector; as handed in if refused */
};

/* Decodes a sector into out, in the order in which it is heard; stereo samples are left, right, left, .. A mono sector
 * leaves the histories of left and right as they are, a stereo sector that of mono. Numbers: 0; 14 if sector_len is not
 * TENONWHISK_XA_SECTOR_BYTES or out_len is not TENONWHISK_XA_SAMPLES; 13 if eight_bit; 12 if, in any of the groups,
 * bytes 0 to 3 differ from bytes 4 to 7, or bytes 12 to 15 from bytes 8 to 11. If refused, out stays as it was. */
struct tenonwhisk_xa_decoded tenonwhisk_xa_decode(const uint8_t *sector, size_t sector_len, bool stereo, bool eight_bit,
                                                  struct tenonwhisk_xa_histories histories, int16_t *out,
                                                  size_t out_len);

/* ---- a check of encoders */

/* Compares the blocks that an ADPCM encoder made with the samples that it made them of. This call needs no state. */

/* The length of a block, in bytes, and the number of its samples. */
#define TENONWHISK_BLOCK_BYTES 16
#define TENONWHISK_BLOCK_SAMPLES 28

/* If refused, all that follows the number is zero. If yes, all that follows yes is zero. If no, it says which block is
 * the first at fault, and which rules that block breaks: at least one. */
struct tenonwhisk_encoder_verdict {
    uint8_t number;
    bool yes;
    bool unpaired; /* there is no such block, or there are no originals for it; then no other rule is looked at */
    bool end_flag; /* it has the end flag and is not the last block, or is the last block and lacks it */
    bool filter;   /* its filter is 5, 6 or 7 */
    size_t block;  /* the block's number, from 0 on */
    size_t sample; /* the first of its samples, from 0 on, that is too far from its original; 28 if none is */
};

/* Says yes exactly when
 *
 *   - there are as many blocks as whole groups of 28 originals, and at least one
 *   - each sample, decoded with two zero samples before the first, lies at most largest away from its original
 *   - the last block, and no other, has the end flag (bit 0 of byte 1)
 *   - no block's filter (bits 4-6 of byte 0) is 5, 6 or 7
 *
 * "The last block" is the last one of blocks, however many originals there are. Where the counts differ, the first
 * block without a partner is at fault; blocks before it are looked at first. Numbers: 0; 23 if originals_len is not a
 * multiple of TENONWHISK_BLOCK_SAMPLES, or blocks_len not one of TENONWHISK_BLOCK_BYTES. */
struct tenonwhisk_encoder_verdict tenonwhisk_encoder_check(const int16_t *originals, size_t originals_len,
                                                           const uint8_t *blocks, size_t blocks_len, uint16_t largest);

#ifdef __cplusplus
}
#endif

#endif
