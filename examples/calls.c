/* Every function but the start from C: the PLL settings that some boards get, a setter tried on a request record, and a record
 * planned. */
#include <stdio.h>
#include <string.h>
#include "woolturret.h"

struct board {
    const char *name;
    uint32_t input;
    uint32_t sysclk;
    bool usb;
};

static const struct board boards[] = {
    {"STM32F746 Discovery, HSE 25 MHz", 25000000, 216000000, false},
    {"STM32F769 Discovery, HSE 25 MHz, USB", 25000000, 216000000, true},
    {"Nucleo F767, bypass 8 MHz, USB", 8000000, 216000000, true},
    {"Nucleo F767, bypass 8 MHz", 8000000, 200000000, false},
    {"HSI alone, USB", 16000000, 216000000, true},
    {"bypass 2 MHz", 2000000, 216000000, false},
    {"bypass 1,999,984 Hz", 1999984, 216000000, false},
    {"an input that no PLL takes", 60000000, 216000000, false},
};

/* The record of the Rust's defaults: M 2, Q 2, PLLSAI Q 2, PLLI2S R 2, Q 2, N 50, 192, 192. */
static const uint8_t defaults[WOOLTURRET_RECORD] = {
    [2] = 2, [4] = 2, [6] = 2, [7] = 2, [8] = 2, [14] = 50, [16] = 192, [18] = 192,
};

static void show_board(const struct board *b)
{
    uint32_t found[WOOLTURRET_SEARCH];
    uint32_t refusal = woolturret_search(b->input, true, b->sysclk - 1, b->sysclk + 1, b->usb, 47880000, 48120000, found);
    if (refusal != 0) {
        printf("%s: refused %u after %u passes\n", b->name, refusal, found[0]);
        return;
    }
    uint64_t hertz = 0;
    woolturret_output(b->input, found[1], found[2], found[3], &hertz);
    printf("%s: M %u, N %u, P %u, Q %u in %u passes; P output %llu Hz\n", b->name, found[1], found[2], found[3], found[4],
           found[0], (unsigned long long)hertz);
}

static void show_setters(void)
{
    uint32_t numbers[WOOLTURRET_CONFIG];
    printf("the default record: check %u\n", woolturret_check(defaults, sizeof defaults));
    uint32_t refusal = woolturret_set(defaults, sizeof defaults, 9, 8, 0, numbers);
    printf("pllm(8) on it: %u, M is %u\n", refusal, numbers[14]);
    refusal = woolturret_set(defaults, sizeof defaults, 9, 64, 0, numbers);
    printf("pllm(64) on it: %u, M is %u\n", refusal, numbers[14]);
    printf("63 of its bytes: check %u\n", woolturret_check(defaults, WOOLTURRET_RECORD - 1));
}

static void put_u32(uint8_t *at, uint32_t number)
{
    for (int i = 0; i < 4; i++)
        at[i] = (uint8_t)(number >> 8 * i);
}

static void show_line(const uint8_t *record, size_t length)
{
    uint8_t line[WOOLTURRET_LINE];
    fwrite(line, 1, woolturret_line(record, length, line), stdout);
}

/* HSE by bypass at 8 MHz, SYSCLK as given, 48 MHz from PLLQ: flags 0, 1, 3 and 10. */
static void show_plan(uint32_t sysclk)
{
    uint8_t record[WOOLTURRET_RECORD];
    memcpy(record, defaults, sizeof record);
    record[0] = 0x0b;
    record[1] = 0x04;
    put_u32(record + 20, 8000000);
    put_u32(record + 28, sysclk);

    uint32_t config[WOOLTURRET_CONFIG], clocks[WOOLTURRET_CLOCKS], passes;
    uint32_t refusal = woolturret_derive(record, sizeof record, clocks);
    printf("Nucleo F767 for %u Hz and USB, as it stands: %u, SYSCLK %u Hz\n", sysclk, refusal, clocks[0]);
    refusal = woolturret_configure(record, sizeof record, config, &passes);
    printf("its PLL: %u after %u passes", refusal, passes);
    if (refusal == 0)
        printf(", use_pll %u, M %u, N %u, P code %u, Q %u", config[12], config[14], config[15], config[16], config[17]);
    refusal = woolturret_plan(record, sizeof record, config, clocks, &passes);
    printf("\nits plan: %u after %u passes", refusal, passes);
    if (refusal == 0)
        printf(", HCLK %u Hz, PCLK1 %u Hz, PCLK2 %u Hz, HPRE code %u, %u wait states, scale %u, over-drive %u, 48 MHz valid %u",
               clocks[1], clocks[2], clocks[3], clocks[6], clocks[9], clocks[10], clocks[11], clocks[12]);
    printf("\n");
    show_line(record, sizeof record);
}

int main(void)
{
    for (size_t i = 0; i < sizeof boards / sizeof boards[0]; i++)
        show_board(&boards[i]);
    show_setters();
    show_plan(216000000);
    show_plan(200000000);
    show_line(defaults, WOOLTURRET_RECORD - 1);
    return 0;
}
