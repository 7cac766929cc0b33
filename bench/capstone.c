/* Capstone on the words of standard input, one call for each, so that bench/run can count instructions. `capstone
   plain` takes what it gives by default, id and text; `capstone detail` has the operands, registers and groups filled
   in as well. With the input's switch off everything is done except the call. A word that is refused is skipped. */
#include <capstone/capstone.h>

#include "input.h"

static csh open_for(const struct input *in, const char *doing)
{
    csh handle;
    int mode = (in->wide ? CS_MODE_MIPS64 : CS_MODE_MIPS32) |
               (in->big ? (int)CS_MODE_BIG_ENDIAN : CS_MODE_LITTLE_ENDIAN);
    bool detail = strcmp(doing, "detail") == 0;
    if (!detail && strcmp(doing, "plain") != 0) {
        stop("capstone plain, or capstone detail");
    }
    if (cs_open(CS_ARCH_MIPS, (cs_mode)mode, &handle) != CS_ERR_OK) {
        stop("Capstone does not open");
    }
    if (cs_option(handle, CS_OPT_DETAIL, detail ? CS_OPT_ON : CS_OPT_OFF) != CS_ERR_OK ||
        cs_option(handle, CS_OPT_SKIPDATA, CS_OPT_OFF) != CS_ERR_OK) {
        stop("Capstone does not take an option");
    }
    return handle;
}

int main(int argc, char **argv)
{
    const struct input in = read_input();
    csh handle = open_for(&in, argc == 2 ? argv[1] : "");
    cs_insn *insn = cs_malloc(handle);
    int major, minor;
    size_t refused = 0;
    for (size_t at = 0; at < in.len; at += WORD_BYTES) {
        const uint8_t *code = in.bytes + at;
        size_t left = WORD_BYTES;
        uint64_t address = at;
        if (in.measuring) {
            refused += !cs_disasm_iter(handle, &code, &left, &address, insn);
        }
    }
    cs_version(&major, &minor);
    printf("Capstone %d.%d\n%zu refused\n", major, minor, refused);
    return 0;
}
