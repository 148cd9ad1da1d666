/* replay L: every call through the C interface. It answers each line of standard input as docs/PROGRAMS.md says. Up to
 * SHORT_RUN ticks are made by a call each; more are made by runs. */
#include "core.h"
#include "lines.h"

#include <errno.h>
#include <inttypes.h>
#include <stdlib.h>
#include <string.h>

enum { SHORT_RUN = 3, CHUNK_PAIRS = 4096, MOST_TICKS = 65535, MOST_OUTWARD = 64, MOST_SHOWN = 64 };
enum { MOST_INWARD = 33 }; /* one halfword more than a transfer moves stands for any number more */

/* ---- printing */

static void print_bytes(const uint8_t *bytes, size_t count)
{
    for (size_t k = 0; k < count; k++)
        printf("%02X", bytes[k]);
    putchar('\n');
}

static void print_moved(char command, struct tenonwhisk_moved moved)
{
    printf("%c %d %" PRIu32 " %d %d", command, moved.number, moved.count, moved.irq, moved.doubt);
}

static uint32_t float_bits(float x)
{
    uint32_t bits;
    memcpy(&bits, &x, sizeof bits);
    return bits;
}

/* What every line of a tick says besides the pair. */
struct tick_report {
    uint8_t number;
    uint32_t tick;
    bool irq;
    bool doubt;
    bool state_doubt;
};

static void print_reports(struct tick_report report)
{
    printf(" %d %d %d\n", report.irq, report.doubt, report.state_doubt);
}

static void print_samples(struct tick_report report, int16_t left, int16_t right)
{
    printf("t %d %" PRIu32 " %d %d", report.number, report.tick, left, right);
    print_reports(report);
}

static void print_floats(struct tick_report report, float left, float right)
{
    printf("f %d %" PRIu32 " %08" PRIX32 " %08" PRIX32, report.number, report.tick, float_bits(left),
           float_bits(right));
    print_reports(report);
}

/* ---- ticks */

struct ticks {
    uint32_t count;
    int16_t cd_left;
    int16_t cd_right;
};

static int16_t signed16(uint32_t bits)
{
    return (int16_t)(bits < 0x8000 ? (int32_t)bits : (int32_t)bits - 0x10000);
}

static bool take_ticks(struct piece *line, struct ticks *ticks)
{
    uint32_t left = 0, right = 0;
    if (!take_decimal(line, MOST_TICKS, &ticks->count))
        return false;
    if (!no_more_fields(*line) && !(take_hex(line, 4, 4, &left) && take_hex(line, 4, 4, &right)))
        return false;
    ticks->cd_left = signed16(left);
    ticks->cd_right = signed16(right);
    return true;
}

static struct tick_report report_tick(const struct core *core, uint32_t tick, uint8_t number, bool irq, bool doubt)
{
    return (struct tick_report){number, tick, irq, doubt, core_status(core).doubt};
}

static void single_tick(struct core *core, struct ticks ticks, bool floats)
{
    uint32_t tick = core_status(core).tick;
    if (floats) {
        struct tenonwhisk_ticked_floats ticked = core_tick_floats(core, ticks.cd_left, ticks.cd_right);
        print_floats(report_tick(core, tick, ticked.number, ticked.irq, ticked.doubt), ticked.left, ticked.right);
    } else {
        struct tenonwhisk_ticked ticked = core_tick(core, ticks.cd_left, ticks.cd_right);
        print_samples(report_tick(core, tick, ticked.number, ticked.irq, ticked.doubt), ticked.left, ticked.right);
    }
}

/* No register is written within a run, so no more than one tick raises the interrupt: the run's report is that of each
 * tick. */
static void run_chunk(struct core *core, struct ticks ticks, bool floats)
{
    static int16_t cd[2 * CHUNK_PAIRS], out[2 * CHUNK_PAIRS];
    static float out_floats[2 * CHUNK_PAIRS];
    for (size_t k = 0; k < ticks.count; k++) {
        cd[2 * k] = ticks.cd_left;
        cd[2 * k + 1] = ticks.cd_right;
    }
    struct tenonwhisk_overview before = core_status(core);
    struct tenonwhisk_ran ran =
        floats ? core_run_floats(core, cd, out, out_floats, ticks.count) : core_run(core, cd, out, ticks.count);
    for (size_t k = 0; k < ran.count; k++) {
        struct tick_report report = {
            .number = ran.number,
            .tick = before.tick + (uint32_t)k,
            .irq = k == ran.irq,
            .doubt = k == ran.doubt,
            .state_doubt = k + 1 == ran.count ? core_status(core).doubt : before.doubt || k >= ran.doubt,
        };
        if (floats)
            print_floats(report, out_floats[2 * k], out_floats[2 * k + 1]);
        else
            print_samples(report, out[2 * k], out[2 * k + 1]);
    }
}

static void run_ticks(struct core *core, struct ticks ticks, bool floats)
{
    if (ticks.count <= SHORT_RUN) {
        for (uint32_t k = 0; k < ticks.count; k++)
            single_tick(core, ticks, floats);
        return;
    }
    for (uint32_t left = ticks.count; left > 0; left -= ticks.count) {
        ticks.count = left < CHUNK_PAIRS ? left : CHUNK_PAIRS;
        run_chunk(core, ticks, floats);
    }
}

/* ---- commands: each takes its fields, and gives false if they are bad */

static bool write_register(struct core *core, struct piece *line)
{
    uint32_t offset, value;
    if (!take_hex(line, 1, 4, &offset) || !take_hex(line, 1, 4, &value) || !no_more_fields(*line))
        return false;
    printf("w %d\n", core_write(core, offset, (uint16_t)value));
    return true;
}

static bool read_register(struct core *core, struct piece *line)
{
    uint32_t offset;
    if (!take_hex(line, 1, 4, &offset) || !no_more_fields(*line))
        return false;
    struct tenonwhisk_reading reading = core_read(core, offset);
    printf("r %d %04X\n", reading.number, reading.value);
    return true;
}

/* Takes the values of a transfer, up to the end of the line. */
static bool take_values(struct piece *line, uint16_t values[MOST_INWARD], size_t *count)
{
    *count = 0;
    while (!no_more_fields(*line)) {
        uint32_t value;
        if (!take_hex(line, 1, 4, &value))
            return false;
        if (*count < MOST_INWARD)
            values[(*count)++] = (uint16_t)value;
    }
    return *count > 0;
}

static bool transfer_in(struct core *core, struct piece *line)
{
    uint16_t values[MOST_INWARD];
    size_t count;
    if (!take_values(line, values, &count))
        return false;
    print_moved('s', core_transfer_in(core, values, count));
    putchar('\n');
    return true;
}

static bool transfer_out(struct core *core, struct piece *line)
{
    uint16_t out[MOST_OUTWARD];
    uint32_t count;
    if (!take_decimal(line, MOST_OUTWARD, &count) || !no_more_fields(*line))
        return false;
    memset(out, 0xA5, sizeof out);
    print_moved('o', core_transfer_out(core, out, count));
    fputs(" :", stdout);
    for (uint32_t k = 0; k < count; k++)
        printf(" %04X", out[k]);
    putchar('\n');
    return true;
}

static bool ticks(struct core *core, struct piece *line, bool floats)
{
    struct ticks ticks;
    if (!take_ticks(line, &ticks) || !no_more_fields(*line))
        return false;
    run_ticks(core, ticks, floats);
    return true;
}

static bool samples(struct core *core, struct piece *line)
{
    return ticks(core, line, false);
}

static bool floats(struct core *core, struct piece *line)
{
    return ticks(core, line, true);
}

static bool view(struct core *core, struct piece *line)
{
    uint32_t address;
    if (!take_hex(line, 1, 8, &address) || !no_more_fields(*line))
        return false;
    const uint8_t *block = core_block_view(core, address);
    printf("v %d %d ", core_view_number(core, address), block ? 16 : 0);
    print_bytes(block, block ? 16 : 0);
    return true;
}

static bool reset(struct core *core, struct piece *line)
{
    if (!no_more_fields(*line))
        return false;
    printf("reset %d\n", core_reset(core));
    return true;
}

static bool in_ram(const struct core *core, uint32_t address, uint64_t bytes)
{
    return address + bytes <= core->size;
}

static bool take_shown(struct piece *line, uint32_t *address, uint32_t *count)
{
    return take_hex(line, 1, 8, address) && take_decimal(line, MOST_SHOWN, count) && *count > 0 &&
           no_more_fields(*line);
}

static bool show_ram(struct core *core, struct piece *line)
{
    uint32_t address, count;
    if (!take_shown(line, &address, &count) || !in_ram(core, address, count))
        return false;
    printf("ram %05" PRIX32 " ", address);
    print_bytes(core->ram + address, count);
    return true;
}

static bool show_marks(struct core *core, struct piece *line)
{
    uint32_t address, count;
    if (!take_shown(line, &address, &count) || address % 2 != 0 || !in_ram(core, address, 2 * count))
        return false;
    printf("marks %05" PRIX32 " ", address);
    for (uint32_t halfword = address / 2; halfword < address / 2 + count; halfword++)
        putchar('0' + (core->marks[halfword / 8] >> halfword % 8 & 1));
    putchar('\n');
    return true;
}

static bool fill(struct core *core, struct piece *line)
{
    uint32_t address, count, byte;
    if (!take_hex(line, 1, 8, &address) || !take_decimal(line, core->size, &count) || !take_hex(line, 1, 2, &byte) ||
        !no_more_fields(*line) || !in_ram(core, address, count))
        return false;
    memset(core->ram + address, (int)byte, count);
    puts("ok");
    return true;
}

static bool answer(struct core *core, struct piece line)
{
    static const struct {
        const char *word;
        bool (*run)(struct core *core, struct piece *line);
    } commands[] = {
        {"w", write_register}, {"r", read_register},  {"s", transfer_in}, {"o", transfer_out},
        {"t", samples},        {"f", floats},         {"v", view},        {"reset", reset},
        {"ram", show_ram},     {"marks", show_marks}, {"fill", fill},
    };
    struct piece word;
    take_field(&line, &word);
    for (size_t k = 0; k < sizeof commands / sizeof *commands; k++)
        if (piece_is(word, commands[k].word))
            return commands[k].run(core, &line);
    return false;
}

static bool is_silent(struct piece line)
{
    return no_more_fields(line) || line.text[0] == '#';
}

/* ---- the session */

static bool complain(const char *what)
{
    fprintf(stderr, "cannot %s: %s\n", what, strerror(errno));
    return false;
}

/* Answers up to the end of the input, or up to a failed read or write. */
static void answer_all(struct core *core, struct lines *lines)
{
    struct piece line;
    while (!ferror(stdout) && lines_next(lines, &line))
        if (!is_silent(line) && !answer(core, line))
            puts("bad line");
}

static bool replay(struct core *core)
{
    struct lines lines = {.file = stdin};
    printf("replay %" PRIu32 "\n", core->size);
    answer_all(core, &lines);
    bool read = ferror(stdout) || feof(stdin) || complain("read standard input");
    if (feof(stdin))
        puts(core_status(core).doubt ? "end doubt" : "end clear");
    bool written = (fflush(stdout) == 0 && !ferror(stdout)) || complain("write standard output");
    lines_free(&lines);
    return read && written;
}

int main(int argc, char **argv)
{
    struct core core;
    if (argc != 2 || (strcmp(argv[1], "65536") != 0 && strcmp(argv[1], "524288") != 0)) {
        fputs("usage: replay 65536|524288\n", stderr);
        return EXIT_FAILURE;
    }
    if (!core_make(&core, (uint32_t)strtoul(argv[1], NULL, 10))) {
        fputs("not enough memory\n", stderr);
        return EXIT_FAILURE;
    }
    bool good = replay(&core);
    core_free(&core);
    return good ? EXIT_SUCCESS : EXIT_FAILURE;
}
