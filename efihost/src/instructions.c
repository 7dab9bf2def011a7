/* Instructions that the processor refuses to a process. Zydis decodes them. It allocates nothing,
 * so a signal handler may use it.
 *
 * Some privileged instructions are passed over and counted: an input port reads as all ones, a
 * register of the system as what a firmware leaves there. */
#include "host.h"

#include <Zydis/Zydis.h>
#include <signal.h>
#include <sys/mman.h>
#include <ucontext.h>

#define INT3 0xcc

enum exception { DIVISION = 0, OVERFLOW = 4 };

static uint64_t counts[ZYDIS_MNEMONIC_MAX_VALUE + 1];

struct instruction {
    ZydisDecodedInstruction it;
    ZydisDecodedOperand operands[ZYDIS_MAX_OPERAND_COUNT];
};

/* The general registers of a context, in the order of their numbers. */
static const int numbered[16] = {REG_RAX, REG_RCX, REG_RDX, REG_RBX, REG_RSP, REG_RBP,
                                 REG_RSI, REG_RDI, REG_R8,  REG_R9,  REG_R10, REG_R11,
                                 REG_R12, REG_R13, REG_R14, REG_R15};

/* Decodes an instruction of an image; the page after its own is read only if it may be. */
static bool decode(uint64_t at, struct instruction *to)
{
    size_t left = PAGE - at % PAGE, most = ZYDIS_MAX_INSTRUCTION_LENGTH;
    ZydisDecoder decoder;

    if (left < most && (memory_rights(at + left) & PROT_READ) == 0)
        most = left;
    ZydisDecoderInit(&decoder, ZYDIS_MACHINE_MODE_LONG_64, ZYDIS_STACK_WIDTH_64);
    return ZYAN_SUCCESS(
        ZydisDecoderDecodeFull(&decoder, POINTER(at), most, &to->it, to->operands));
}

static bool is_passed_over(const ZydisDecodedInstruction *it)
{
    switch (it->mnemonic) {
    case ZYDIS_MNEMONIC_CLI:
    case ZYDIS_MNEMONIC_STI:
    case ZYDIS_MNEMONIC_HLT:
    case ZYDIS_MNEMONIC_RDMSR:
    case ZYDIS_MNEMONIC_WRMSR:
    case ZYDIS_MNEMONIC_CLTS:
    case ZYDIS_MNEMONIC_INVD:
    case ZYDIS_MNEMONIC_WBINVD:
        return true;
    case ZYDIS_MNEMONIC_MOV: /* of a control or debug register */
        return (it->attributes & ZYDIS_ATTRIB_IS_PRIVILEGED) != 0;
    default:
        return it->meta.category == ZYDIS_CATEGORY_IO ||
               it->meta.category == ZYDIS_CATEGORY_IOSTRINGOP;
    }
}

static bool is_for_systems(const ZydisDecodedInstruction *it)
{
    return (it->attributes & ZYDIS_ATTRIB_IS_PRIVILEGED) != 0 || is_passed_over(it) ||
           it->mnemonic == ZYDIS_MNEMONIC_LGDT || it->mnemonic == ZYDIS_MNEMONIC_LIDT ||
           it->mnemonic == ZYDIS_MNEMONIC_RDPMC;
}

bool is_privileged(uint64_t at)
{
    struct instruction in;

    return decode(at, &in) && is_for_systems(&in.it);
}

/* Gives the registers what an instruction that is passed over leaves in them. */
static void give_values(const struct instruction *in, greg_t *registers)
{
    static const greg_t control[16] = {0x80010033, 0, 0, 0x100000, 0x668};
    const ZydisDecodedOperand *to = &in->operands[0];
    ZydisRegister from = in->operands[1].reg.value;

    if (in->it.mnemonic == ZYDIS_MNEMONIC_IN)
        registers[REG_RAX] = to->size == 32   ? 0xffffffff
                             : to->size == 16 ? registers[REG_RAX] | 0xffff
                                              : registers[REG_RAX] | 0xff;
    else if (in->it.mnemonic == ZYDIS_MNEMONIC_RDMSR)
        registers[REG_RAX] = registers[REG_RDX] = 0;
    else if ((in->it.attributes & ZYDIS_ATTRIB_HAS_REP) != 0)
        registers[REG_RCX] = 0;
    else if (in->it.mnemonic == ZYDIS_MNEMONIC_MOV &&
             ZydisRegisterGetClass(to->reg.value) == ZYDIS_REGCLASS_GPR64)
        registers[numbered[ZydisRegisterGetId(to->reg.value)]] =
            ZydisRegisterGetClass(from) == ZYDIS_REGCLASS_CONTROL
                ? control[ZydisRegisterGetId(from)]
                : 0;
}

/* Passes over the instruction at which an image stopped; false if it is none of these. */
bool pass_over(void *context)
{
    greg_t *registers = ((ucontext_t *)context)->uc_mcontext.gregs;
    struct instruction in;

    if (!decode((uint64_t)registers[REG_RIP], &in) || !is_passed_over(&in.it))
        return false;
    give_values(&in, registers);
    counts[in.it.mnemonic]++;
    registers[REG_RIP] += in.it.length;
    if (in.it.mnemonic == ZYDIS_MNEMONIC_HLT)
        idle(true);
    return true;
}

void print_passed_over(FILE *file)
{
    bool any = false;

    for (unsigned i = 0; i < LENGTH(counts); i++)
        if (counts[i] > 0) {
            fprintf(file, "%s %s%s %lu times", any ? "," : "efihost: passed over:",
                    ZydisMnemonicGetString((ZydisMnemonic)i),
                    i == ZYDIS_MNEMONIC_MOV ? " cr or dr" : "", counts[i]);
            any = true;
        }
    if (any)
        fputc('\n', file);
}

/* Says the instruction at an address of an image; nothing where there is none. */
void say_instruction(struct words *to, uint64_t at)
{
    struct instruction in;
    ZydisFormatter formatter;
    char text[128];

    if (!decode(at, &in))
        return;
    ZydisFormatterInit(&formatter, ZYDIS_FORMATTER_STYLE_INTEL);
    ZydisFormatterSetProperty(&formatter, ZYDIS_FORMATTER_PROP_HEX_UPPERCASE, ZYAN_FALSE);
    ZydisFormatterSetProperty(&formatter, ZYDIS_FORMATTER_PROP_ADDR_PADDING_ABSOLUTE,
                              ZYDIS_PADDING_DISABLED);
    if (ZYAN_SUCCESS(ZydisFormatterFormatInstruction(&formatter, &in.it, in.operands,
                                                     in.it.operand_count_visible, text,
                                                     sizeof text, at, NULL)))
        say_text(to, text);
}

/* The place in memory that an instruction uses, or NULL. A segment's base is in none of the
 * registers that are known here. */
static const ZydisDecodedOperand *place_of(const struct instruction *in, const greg_t *registers,
                                           uint64_t *address)
{
    ZydisRegisterContext values = {{0}};

    for (unsigned i = 0; i < LENGTH(numbered); i++)
        values.values[ZYDIS_REGISTER_RAX + i] = (ZyanU64)registers[numbered[i]];
    for (unsigned i = 0; i < in->it.operand_count; i++) {
        const ZydisDecodedOperand *it = &in->operands[i];

        if (it->type == ZYDIS_OPERAND_TYPE_MEMORY && it->mem.type == ZYDIS_MEMOP_TYPE_MEM &&
            it->mem.segment != ZYDIS_REGISTER_FS && it->mem.segment != ZYDIS_REGISTER_GS &&
            ZYAN_SUCCESS(ZydisCalcAbsoluteAddressEx(
                &in->it, it, (ZyanU64)registers[REG_RIP], &values, address)))
            return it;
    }
    return NULL;
}

/* Of how many bytes the address of the place must be a multiple. */
static unsigned alignment_of(const ZydisDecodedInstruction *it, const ZydisDecodedOperand *place)
{
    if (it->meta.category == ZYDIS_CATEGORY_XSAVE)
        return 64;
    if (it->meta.isa_set == ZYDIS_ISA_SET_FXSAVE || it->meta.isa_set == ZYDIS_ISA_SET_FXSAVE64)
        return 16;
    return place->size < 8 ? 1 : place->size / 8U;
}

/* Why an instruction that other code may use is refused: most often its address. */
static void say_protection(struct words *to, const struct instruction *in, const greg_t *registers)
{
    uint64_t address = 0;
    const ZydisDecodedOperand *place = place_of(in, registers, &address);
    unsigned alignment = place == NULL ? 1 : alignment_of(&in->it, place);
    bool canonical = address + (1ULL << 47) < 1ULL << 48;

    if (canonical && (alignment < 16 || address % alignment == 0)) {
        say_text(to, "a general protection fault");
        return;
    }
    say_text(to, canonical ? "a misaligned access to " : "an access to ");
    say_number(to, address);
    say_text(to, canonical ? "" : ", which is no canonical address");
}

/* Says why the processor stopped an image, at the instruction or, if it is a trap, after it. */
void say_refusal(struct words *to, int signal, const void *context)
{
    const greg_t *registers = ((const ucontext_t *)context)->uc_mcontext.gregs;
    uint64_t at = (uint64_t)registers[REG_RIP];
    bool is_readable = (memory_rights(at - 1) & PROT_READ) != 0;
    struct instruction in;

    if (signal == SIGTRAP)
        say_text(to, is_readable && *(const uint8_t *)POINTER(at - 1) == INT3 ? "a breakpoint"
                                                                              : "a debug trap");
    else if (!decode(at, &in))
        say_text(to, "bytes that are no instruction");
    else if (is_for_systems(&in.it))
        say_text(to, "an instruction that a process may not carry out");
    else if (signal == SIGILL)
        say_text(to, "an undefined instruction");
    else if (signal == SIGFPE)
        say_text(to, registers[REG_TRAPNO] == DIVISION ? "a division that has no result"
                                                       : "a floating-point exception");
    else if (registers[REG_TRAPNO] == OVERFLOW)
        say_text(to, "an overflow trap");
    else
        say_protection(to, &in, registers);
}
