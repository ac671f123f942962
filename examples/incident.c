/* The incident (docs/RULES.md, P13): a bank may lose its power only when no transfer is under way in it. Each call is made here
 * once too early, and printed with what it answers: 0, or the number of a refusal. */
#include "musselrung.h"

#include <inttypes.h>
#include <stdio.h>

static void said(const char *call, uint32_t answer, const char *meaning) {
    printf("%-14s %2" PRIu32 "  %s\n", call, answer, meaning);
}

int main(void) {
    static musselrung_banks banks;
    uint64_t examined, frame;
    uint32_t answer = musselrung_banks_put(&banks, 20, &examined);
    said("put 20", answer, "nobody has made banks of this memory");

    musselrung_banks_fresh(&banks);
    said("put 20", musselrung_banks_put(&banks, 20, &examined), "the frame is held, in bank 1");
    said("start 20", musselrung_banks_start(&banks, 20), "a transfer writes into it");
    said("victim", musselrung_banks_victim(&banks, &frame), "it is not given up: nothing idle is held");
    said("put 3", musselrung_banks_put(&banks, 3, &examined), "another frame, in bank 0");
    answer = musselrung_banks_victim(&banks, &frame);
    said("victim", answer, frame == 3 ? "frame 3, which is idle" : "a frame that nobody expects");
    said("drop 20", musselrung_banks_drop(&banks, 20), "a busy frame is not dropped");
    said("cut 1", musselrung_banks_cut(&banks, 1), "the bank is not closing yet");
    said("close 1", musselrung_banks_close(&banks, 1), "nothing new goes into the bank");
    said("put 21", musselrung_banks_put(&banks, 21, &examined), "as said");
    said("cut 1", musselrung_banks_cut(&banks, 1), "the transfer is under way: leave the power on");
    said("end 20", musselrung_banks_end(&banks, 20), "the transfer has ended");
    said("cut 1", musselrung_banks_cut(&banks, 1), "now the power may go");
    said("touch 20", musselrung_banks_touch(&banks, 20, &examined), "the frame is gone");
    said("put 20", musselrung_banks_put(&banks, 20, &examined), "and nothing goes into a bank without power");
    said("put 256+20", musselrung_banks_put(&banks, 256 + 20, &examined), "no frame: numbers are not cut to size");
    said("open 1", musselrung_banks_open(&banks, 1), "the bank has its power again");
    said("put 20", musselrung_banks_put(&banks, 20, &examined), "and takes frames");

    banks.row.held = 1;
    said("put 21", musselrung_banks_put(&banks, 21, &examined), "somebody else wrote into the memory");
    return 0;
}
