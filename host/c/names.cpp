// The interface in C++: types without the keyword struct, a run without CD, a refusal's words, a sound of a bank, a
// sector of speech, a block of an encoder.
#include "tenonwhisk.h"

#include <cstring>

static bool chip()
{
    static uint16_t state[TENONWHISK_STATE_HALFWORDS];
    static uint8_t ram[65536], marks[sizeof ram / 16];
    static int16_t out[20];
    uint8_t made = tenonwhisk_make(sizeof ram, state, TENONWHISK_STATE_HALFWORDS);
    tenonwhisk_ran ran = tenonwhisk_run(state, TENONWHISK_STATE_HALFWORDS, ram, sizeof ram, marks, sizeof marks,
                                        TENONWHISK_NO_CD, out, 20);
    tenonwhisk_reading reading = tenonwhisk_read(state, TENONWHISK_STATE_HALFWORDS, 0x200);
    tenonwhisk_overview overview = tenonwhisk_status(state, TENONWHISK_STATE_HALFWORDS);
    return made == TENONWHISK_DONE && ran.number == TENONWHISK_DONE && overview.tick == ran.count &&
           overview.size == sizeof ram && reading.number == TENONWHISK_OFFSET &&
           std::strcmp(tenonwhisk_words(reading.number), "there is no register at this offset") == 0;
}

static bool bank()
{
    const uint16_t kinds[] = {TENONWHISK_BANK_SOUND, TENONWHISK_BANK_ALIAS};
    const uint32_t offsets[] = {32, 0}, counts[] = {1, 0};
    uint8_t data[26] = {}, title[48];
    tenonwhisk_bank_written written =
        tenonwhisk_bank_write(kinds, 2, offsets, 2, counts, 2, data, sizeof data, title, sizeof title);
    tenonwhisk_bank_damage damage = tenonwhisk_bank_check(title, sizeof title);
    tenonwhisk_bank_fields fields = tenonwhisk_bank_entry(title, sizeof title, 1);
    tenonwhisk_bank_found found = tenonwhisk_bank_find(title, sizeof title, TENONWHISK_NO_BANK, 1);
    size_t length;
    const uint8_t *sound = tenonwhisk_bank_lookup(title, sizeof title, TENONWHISK_NO_BANK, 1, &length);
    return written.length == tenonwhisk_bank_length(2, sizeof data) && damage.place == TENONWHISK_BANK_GOOD &&
           fields.kind == TENONWHISK_BANK_ALIAS && found.number == TENONWHISK_DONE && found.entry == 0 &&
           sound == title + 32 && length == 16;
}

static bool speech()
{
    static uint8_t sector[TENONWHISK_XA_SECTOR_BYTES];
    static int16_t out[TENONWHISK_XA_SAMPLES];
    sector[16] = 0x7F;
    tenonwhisk_xa_histories histories = tenonwhisk_xa_fresh();
    tenonwhisk_xa_decoded decoded =
        tenonwhisk_xa_decode(sector, sizeof sector, true, false, histories, out, TENONWHISK_XA_SAMPLES);
    tenonwhisk_xa_history left = decoded.histories.left;
    sector[0] = 1;
    tenonwhisk_xa_decoded refused =
        tenonwhisk_xa_decode(sector, sizeof sector, true, false, histories, out, TENONWHISK_XA_SAMPLES);
    return decoded.number == TENONWHISK_DONE && out[0] == -0x1000 && out[1] == 0x7000 && left.old == 0 &&
           left.older == 0 && refused.number == TENONWHISK_XA_COPIES;
}

static bool encoder()
{
    const int16_t originals[TENONWHISK_BLOCK_SAMPLES] = {0, 3};
    const uint8_t blocks[TENONWHISK_BLOCK_BYTES] = {0x0C, 1};
    tenonwhisk_encoder_verdict yes =
        tenonwhisk_encoder_check(originals, TENONWHISK_BLOCK_SAMPLES, blocks, sizeof blocks, 3);
    tenonwhisk_encoder_verdict no =
        tenonwhisk_encoder_check(originals, TENONWHISK_BLOCK_SAMPLES, blocks, sizeof blocks, 2);
    tenonwhisk_encoder_verdict refused = tenonwhisk_encoder_check(originals, 1, blocks, sizeof blocks, 3);
    return yes.yes && !no.yes && no.block == 0 && no.sample == 1 && refused.number == TENONWHISK_ENCODER;
}

int main()
{
    return chip() && bank() && speech() && encoder() ? 0 : 1;
}
