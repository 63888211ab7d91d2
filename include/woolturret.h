/* Woolturret: the clock planner of stm32f7xx-hal, proved. Link target/staticlib/libwoolturret.a (x86-64 Linux).
 *
 * No function traps, allocates, keeps state or asks anything of its numbers: what is out of range is refused by number.
 *   0 accepted
 *   1 HSE outside 4 to 26 MHz (oscillator) or 1 to 50 MHz (bypass); the search: input outside 1 to 50 MHz
 *   2 HCLK request above 216 MHz
 *   3 SYSCLK request outside 12.5 to 216 MHz
 *   4 PCLK1 request outside 12.5 to 54 MHz
 *   5 PCLK2 request outside 12.5 to 108 MHz
 *   6 M outside 2..63, any N outside 50..432, any Q outside 2..15, PLLI2S R outside 2..7
 *   7 the search has no answer: no window is given, or no M and N meet the windows
 *   8 derived SYSCLK above 216 MHz (of settings as they stand; a plan never has it)
 *   9 PLLSAI used, its VCO outside 192 to 432 MHz
 *  10 PLLSAI used, its P output above 48 MHz
 *  11 PLLI2S used, its VCO outside 192 to 432 MHz
 *  12 a wait not answered within the poll limit
 *  13 poll limit outside 1..65,535
 *  14 malformed request record: a breach of its layout, or any other length than WOOLTURRET_RECORD bytes, 0 too; of woolturret_set
 *     also a setter or a code that there is not, of woolturret_start also a register file that is not WOOLTURRET_PLACES numbers
 * All ends are inclusive; of several numbers 13 is given first, then 14, then the least number; 12 comes as the waits come.
 * What can't be checked here is asked of the caller: no pointer is NULL, each points to as many elements as its declaration or the
 * length beside it says (with a length of 0 it is not looked at), and what is written overlaps neither what is read nor anything
 * else that is written. Nothing is kept between calls: any number of threads may call, each with buffers of its own.
 * Sizes have names: numbers of a configuration and of clocks, places of a register file, bytes of the longest line and of a record,
 * numbers of a search.
 */
#ifndef WOOLTURRET_H
#define WOOLTURRET_H

#include <stdbool.h>
#include <stddef.h>
#include <stdint.h>

/* Raised with every change of what a function here takes or answers. */
#define WOOLTURRET_INTERFACE 1

/* Numbers of a configuration, of the clocks and of a register file; the most waits of a start; bytes of the longest line and of a
 * request record; numbers of a search's answer. */
#define WOOLTURRET_CONFIG 30
#define WOOLTURRET_CLOCKS 16
#define WOOLTURRET_PLACES 35
#define WOOLTURRET_WAITS 8
#define WOOLTURRET_LINE 157
#define WOOLTURRET_RECORD 64
#define WOOLTURRET_SEARCH 5

#ifdef __cplusplus
extern "C" {
#endif

/* The settings of the main PLL for an input in hertz and windows for its P and Q outputs, ends included.
 * A window is looked at only if its flag is true; one with low above high is never met.
 * Answers 0, with out = passes, M, N, P, Q (P or Q 0 where its window is absent): least M, then greatest N, then the
 * largest P and Q; or 1 or 7 with out = passes, 0, 0, 0, 0.
 * Passes are the looks at a pair that the Rust's walk makes from M = 2, N = 432 on, the ending one too: at most 10,008, and 0
 * for a refused input or no window. */
uint32_t woolturret_search(uint32_t input,
                           bool p, uint32_t pmin, uint32_t pmax,
                           bool q, uint32_t qmin, uint32_t qmax,
                           uint32_t out[WOOLTURRET_SEARCH]);

/* The output with divider d (2..15) of an input in hertz, M (2..63) and N (50..432), by the Rust's fixed point: with
 * b = floor(input / 16), r(x) = floor((floor(2^31 / x) + 1) / 2) and V = floor(b N r(M) / 2^30), it is 16 floor(V r(d) / 2^30).
 * Answers 0 with the hertz in out, or 1 (input outside 1 to 50 MHz) or 6 (M, N or d outside its limits) with out as it was. */
uint32_t woolturret_output(uint32_t input, uint32_t m, uint32_t n, uint32_t d, uint64_t *out);

/* The check of 1 to 6 of the configuration that a request record holds: 0, 1 to 6, or 14. bytes points to length bytes. */
uint32_t woolturret_check(const uint8_t *bytes, size_t length);

/* One setter of the Rust called on the configuration that a request record holds; a and b are its arguments:
 *   0 hse(a hertz, b: 0 oscillator, 1 bypass)   1 hclk(a)   2 sysclk(a)   3 pclk1(a)   4 pclk2(a)
 *   5 lse(a: 0 oscillator, 1 bypass)   6 lsi   7 use_pll   8 use_pll48clk(a: 0 PLLQ, 1 PLLSAI)
 *   9 pllm(a)   10 plln(a)   11 pllp(a: 0 to 3 for 2, 4, 6, 8)   12 pllq(a)
 *   13 use_pllsai   14 pllsain(a)   15 pllsaip(a, as pllp)   16 pllsaiq(a)
 *   17 use_plli2s   18 plli2sn(a)   19 plli2sq(a)   20 plli2sr(a)
 *   21 mco1(a: 0 HSI, 1 LSE, 2 HSE, 3 PLL)   22 mco1pre(a: 0 to 4 for 1 to 5)
 *   23 mco2(a: 0 SYSCLK, 1 PLLI2S, 2 HSE, 3 PLL)   24 mco2pre(a, as mco1pre)
 *   25 set_defaults (it asks for SYSCLK 216 MHz, and changes nothing else)
 * Only the setter's own argument is tested, not the rest of the record: for that there is woolturret_check.
 * An argument that a setter does not have is passed over. Answers 0 to 6, with the configuration handed back in out (as it
 * came, if refused), or 14 with out as it was. The numbers of out:
 *   HSE (0 absent, 1 oscillator, 2 bypass), its hertz, LSE (0, 1, 2 likewise), LSI;
 *   for HCLK, SYSCLK, PCLK1, PCLK2 each: whether it is asked for, and its hertz;
 *   use_pll, 48 MHz choice (0 absent, 1 PLLQ, 2 PLLSAI), M, N, P code, Q;
 *   use_pllsai, N, P code, Q;   use_plli2s, N, R, Q;   MCO1, MCO1PRE, MCO2, MCO2PRE. */
uint32_t woolturret_set(const uint8_t *bytes, size_t length, uint32_t setter, uint32_t a, uint32_t b,
                        uint32_t out[WOOLTURRET_CONFIG]);

/* Whether the PLL is used and with which settings: the Rust's pll_configure on the configuration that a request record holds.
 * Answers 0 with the configuration as planned in config, numbered as woolturret_set's out, or 1 to 7 or 14 with config as it was.
 * passes is always written: the passes of the search, as woolturret_search has them, and 0 where no search ran. */
uint32_t woolturret_configure(const uint8_t *bytes, size_t length, uint32_t config[WOOLTURRET_CONFIG], uint32_t *passes);

/* The clocks that the configuration of a request record gives as it stands: the Rust's calculate_clocks. Nothing is searched for.
 * Answers 0 with the clocks, or 1 to 6, 8 or 14 with clocks as it was. The numbers of clocks:
 *   SYSCLK, HCLK, PCLK1, PCLK2, timer clock of bus 1, timer clock of bus 2 (all in hertz);
 *   field codes of HPRE (0 for 1, 8 to 15 for 2, 4, 8, 16, 64, 128, 256, 512), of PPRE1 and PPRE2 (0 for 1, 4 to 7 for 2, 4, 8, 16);
 *   wait states, voltage scale (1 to 3), over-drive (0, 1), 48 MHz clock valid (0, 1);
 *   HSE as given, LSE (32768), LSI (32000), each 0 where absent. */
uint32_t woolturret_derive(const uint8_t *bytes, size_t length, uint32_t clocks[WOOLTURRET_CLOCKS]);

/* A whole plan: woolturret_configure, then the clocks of what it planned, then 9 to 11 with the M planned.
 * Answers 0 with config and clocks, or 1 to 7, 9 to 11 or 14 with both as they were.
 * passes is always written: those of the search wherever one ran, also where 9 to 11 refuse. */
uint32_t woolturret_plan(const uint8_t *bytes, size_t length, uint32_t config[WOOLTURRET_CONFIG],
                         uint32_t clocks[WOOLTURRET_CLOCKS], uint32_t *passes);

/* The line that the program writes for a record, at the start of out: "ok" and 14 numbers (SYSCLK, HCLK, PCLK1, PCLK2, both timer
 * clocks, M, N, P, Q, wait states, scale, over-drive, 48 MHz valid), or "no" and woolturret_plan's refusal; then a newline.
 * Bytes of any length have one: "no 14" for any but WOOLTURRET_RECORD. Answers the line's length; the rest of out is as it was,
 * so no zero byte ends it. */
uint32_t woolturret_line(const uint8_t *bytes, size_t length, uint8_t out[WOOLTURRET_LINE]);

/* What a start came to. */
struct woolturret_started {
    uint32_t refusal; /* 0 done or cut; else the refusal's number */
    uint32_t cut;     /* 1 if it ended at the cut, else 0 */
    uint32_t wait;    /* with 12 the wait that was not answered; else 0 */
    uint32_t polls;   /* polls made; 0 with any refusal but 12 */
};

/* A start: the Rust's freeze on the configuration that a request record holds, over a register file that is lent: a model, which
 * touches no register of a board. It plans for itself.
 *
 * file points to as many numbers as places says, which must be WOOLTURRET_PLACES (else 14), each a field of a register:
 *    0 HSION, 1 HSEBYP, 2 HSEON, 3 PLLON, 4 PLLSAION, 5 PLLI2SON;
 *    6 SW (0 HSI, 1 HSE, 2 PLL), 7 MCO1, 8 MCO1PRE, 9 MCO2, 10 MCO2PRE, 11 PPRE1, 12 PPRE2, 13 HPRE;
 *   14 PLLM, 15 PLLN, 16 PLLP, 17 PLLQ, 18 PLLSRC (1 with HSE);   19 PWREN;   20 VOS (the scale, 1 to 3), 21 ODEN, 22 ODSWEN;
 *   23 LSEBYP, 24 LSEON;   25 LSION;   26 PLLSAIN, 27 PLLSAIP, 28 PLLSAIQ;   29 CK48MSEL (1 for PLLSAI);
 *   30 PLLI2SN, 31 PLLI2SR, 32 PLLI2SQ;   33 LATENCY (wait states), 34 the other bits of ACR.
 * PLLP, PLLSAIP and the MCO fields hold their codes as woolturret_set has them, HPRE and the PPREs as woolturret_derive; flags
 * are 0 or 1. The codes are the model's: VOS and the MCO prescalers are coded otherwise in the chip's registers. The file may hold
 * anything before the start, and what no store names is left as it was.
 *
 * The stores, divided by semicolons (a flag is stored as 1 unless said), and the waits, by number:
 *   HSION; wait 1 HSI; SW = HSI;
 *   with HSE: HSEBYP (1 for bypass); HSEON; wait 2 HSE;
 *   with use_pll as planned or a 48 MHz choice: PLLON = 0; PLLM, PLLN, PLLP, PLLQ, PLLSRC; PWREN; VOS; PLLON; wait 3 PLL;
 *     and with over-drive: ODEN; wait 4 ODEN; ODSWEN; wait 5 ODSWEN;
 *   with LSE: LSEBYP (1 for bypass); LSEON; wait 6 LSE;   with LSI: LSION; wait 7 LSI;
 *   with use_pllsai: PLLSAIN, PLLSAIP, PLLSAIQ; PLLSAION;   with a 48 MHz choice: CK48MSEL;
 *   with use_plli2s: PLLI2SN, PLLI2SR, PLLI2SQ; PLLI2SON;
 *   MCO1, MCO1PRE, MCO2, MCO2PRE; LATENCY with the other bits of ACR 0; PPRE1, PPRE2, HPRE;
 *   SW (2 with use_pll as planned, else 1 with HSE, else 0); wait 8 SW.
 * That is 6 to 23 stores and 2 to 8 waits.
 *
 * A wait polls until it is answered, at most limit times (1 to 65,535, else 13). answers points to as many bytes as answered says,
 * one row for all waits (it is not looked at where that is 0): each poll takes the next, 1 is ready, any other byte is not. A poll
 * past the end takes nothing, is not ready and counts. So a start polls at most eight times the limit.
 * The start is cut right after as many stores as cut says: 0 cuts it before the first, the number of its stores after the last
 * and before its wait, a number above that, so any from 24 on, cuts nothing. C makes a larger number than 255 a smaller one before
 * the call. An unanswered wait before the cut comes first.
 *
 * Answers one of these:
 *   0: file as its stores made it, clocks those of the plan, as woolturret_plan has them, also where it was cut (they hold once it
 *      is done, so look at cut);
 *   12: file as the stores before that wait made it, clocks as they were, wait its number;
 *   1 to 7, 9 to 11, 13 or 14: file and clocks as they were, cut, wait and polls 0; all of these are checked before any store.
 * To go on after a cut or an unanswered wait call it again, with the same record and the file as it was left: all stores are made
 * anew, and once every wait is answered the file ends as that of a start that was never cut, however many tries there were. */
struct woolturret_started woolturret_start(const uint8_t *bytes, size_t length,
                                           uint32_t *file, size_t places,
                                           const uint8_t *answers, size_t answered,
                                           uint32_t limit, uint8_t cut, uint32_t clocks[WOOLTURRET_CLOCKS]);

#ifdef __cplusplus
}
#endif

#endif
