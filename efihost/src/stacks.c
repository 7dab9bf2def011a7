/* Who called whom: where a service is called or an image stops, and all callers before.
 *
 * Images say nothing of their stack. How much of it a function takes is read from its code: from what
 * it gives back on a path from an instruction to its end, or, where that is not plain, from what it
 * takes at its beginning, which is where a call goes whose return address may lie on the stack. Both
 * are kept once they are known. If neither shows it, the first word of the stack counts that points
 * past a call instruction; such a word may be left from an earlier call. */
#include "host.h"

#include <Zydis/Zydis.h>
#include <stdlib.h>
#include <string.h>
#ifdef IN_VALGRIND
#include <valgrind/memcheck.h>
#else
#define VALGRIND_MAKE_MEM_DEFINED(at, size) ((void)(at), (void)(size))
#endif

#define LOOKED_AT 512U /* words of the stack */
#define MAX_FRAMES 256U
#define MAX_STEPS 40U   /* instructions at the beginning of a function */
#define MAX_AHEAD 4096U /* and up to an end */
#define FUNCTION 65536U /* bytes of code */
#define LISTS 16384U
#define UNKNOWN UINT64_MAX
/* All of the stack is read, which a sanitizer would not have. */
#define NOT_SANITIZED __attribute__((no_sanitize_address))

struct frame {
    uint64_t at, stack;      /* the instruction, and the stack pointer there */
    const struct call *call; /* the service that is under way */
    bool by_service;         /* what is called there is a service, which called what is inside */
};

/* Bytes of the stack: those between the stack pointer at an instruction and the return address of its
 * function, or those that a function takes at its beginning, by who looked. */
static struct kept {
    uint64_t at, size;
    uint64_t (*look)(uint64_t at);
    struct kept *next;
} *kept_lists[LISTS];

/* What was passed on the way to the end of a function: the jumps that were taken, and the instructions
 * after calls, with what the function gave back of the stack before. */
struct path {
    uint64_t jumps[64];
    size_t jump_count;
    struct {
        uint64_t at, given;
    } calls[256];
    size_t call_count;
};

static uint64_t look_ahead(uint64_t at);
static struct caller *caller_lists[LISTS];

static size_t list_of(uint64_t number)
{
    number *= 0x9e3779b97f4a7c15ULL;
    return (number >> 32) % LISTS;
}

/* Whether the bytes before an address are a call instruction. */
bool behind_call(const struct image *image, uint64_t address)
{
    const uint8_t *at = POINTER(address);

    if (image == NULL || address - image->base < 8)
        return false;
    if (at[-5] == 0xe8)
        return true;
    for (int size = 2; size <= 7; size++) /* by a register, or by a word in memory */
        if (at[-size] == 0xff && (at[1 - size] & 0x38) == 0x10 && size != 5)
            return true;
    return false;
}

/* ---- What a function takes of the stack ---- */

/* Decodes the instruction at an address; false where there is none of an image. */
static bool decode(uint64_t at, ZydisDecodedInstruction *it)
{
    static ZydisDecoder decoder;
    static bool is_ready;
    const struct image *image = image_at(at);

    if (!is_ready) {
        is_ready = true;
        ZydisDecoderInit(&decoder, ZYDIS_MACHINE_MODE_LONG_64, ZYDIS_STACK_WIDTH_64);
        ZydisDecoderEnableMode(&decoder, ZYDIS_DECODER_MODE_MINIMAL, ZYAN_TRUE);
    }
    return image != NULL &&
           ZYAN_SUCCESS(ZydisDecoderDecodeInstruction(
               &decoder, NULL, POINTER(at), image->size - (at - image->base), it));
}

/* Adds to `size` what an instruction gives back of the stack. False where it changes the stack pointer
 * in a way that the code alone does not show. */
static bool add_given(const ZydisDecodedInstruction *it, uint64_t *size)
{
    bool names = it->raw.modrm.mod == 3 && it->raw.modrm.rm == 4 && it->raw.rex.B == 0;
    uint64_t number = names ? it->raw.imm[0].value.u : 0;

    switch (it->mnemonic) {
    case ZYDIS_MNEMONIC_PUSH:
    case ZYDIS_MNEMONIC_PUSHFQ:
        *size -= 8;
        return true;
    case ZYDIS_MNEMONIC_POP:
    case ZYDIS_MNEMONIC_POPFQ:
        *size += 8;
        return true;
    case ZYDIS_MNEMONIC_SUB:
    case ZYDIS_MNEMONIC_ADD:
        *size += it->mnemonic == ZYDIS_MNEMONIC_ADD ? number : -number;
        return !names || it->raw.imm[0].size != 0;
    case ZYDIS_MNEMONIC_MOV:
    case ZYDIS_MNEMONIC_LEA:
        return it->opcode == 0x89 ? !names : it->raw.modrm.reg != 4 || it->raw.rex.R != 0 ||
                                                 it->raw.rex.W == 0;
    case ZYDIS_MNEMONIC_AND:
        return !names;
    default:
        return it->mnemonic != ZYDIS_MNEMONIC_LEAVE && it->mnemonic != ZYDIS_MNEMONIC_INT3 &&
               it->mnemonic != ZYDIS_MNEMONIC_UD2;
    }
}

static struct kept *kept_already(uint64_t at, uint64_t (*look)(uint64_t at))
{
    struct kept *it = kept_lists[list_of(at)];

    while (it != NULL && (it->at != at || it->look != look))
        it = it->next;
    return it;
}

static struct kept *keep(uint64_t at, uint64_t (*look)(uint64_t at), uint64_t size)
{
    struct kept *it = must(malloc(sizeof *it)), **list = &kept_lists[list_of(at)];

    *it = (struct kept){at, size, look, *list};
    return *list = it;
}

static struct kept *kept(uint64_t at, uint64_t (*look)(uint64_t at))
{
    struct kept *it = kept_already(at, look);

    return it == NULL ? keep(at, look, look(at)) : it;
}

/* Whether a function ends here. At its calls the stack pointer is a multiple of 16, past its return
 * address 8 more: so a jump by a register or memory may be its last call, or stay in it. */
static bool is_end(const ZydisDecodedInstruction *it, uint64_t given)
{
    return it->mnemonic == ZYDIS_MNEMONIC_RET ||
           (it->mnemonic == ZYDIS_MNEMONIC_JMP && !it->raw.imm[0].is_relative && given % 16 == 8);
}

/* Whether a jump shows where it goes and was not taken before. */
static bool takes_jump(const ZydisDecodedInstruction *it, uint64_t at, struct path *path)
{
    if (it->mnemonic != ZYDIS_MNEMONIC_JMP || !it->raw.imm[0].is_relative ||
        path->jump_count == LENGTH(path->jumps))
        return false;
    for (size_t i = 0; i < path->jump_count; i++)
        if (path->jumps[i] == at)
            return false;
    path->jumps[path->jump_count++] = at;
    return true;
}

/* Goes on from an instruction to the end of its function: on the path that takes each jump once, and
 * none with a condition. What is given back on it, or UNKNOWN. */
static uint64_t follow(uint64_t at, struct path *path)
{
    ZydisDecodedInstruction it;
    uint64_t given = 0;

    for (unsigned i = 0; i < MAX_AHEAD && decode(at, &it); i++) {
        const struct kept *there;

        if (is_end(&it, given))
            return given;
        if (!add_given(&it, &given))
            return UNKNOWN;
        at += it.length + (takes_jump(&it, at, path) ? it.raw.imm[0].value.u : 0);
        if (it.mnemonic != ZYDIS_MNEMONIC_CALL)
            continue;
        there = kept_already(at, look_ahead);
        if (there != NULL)
            return there->size == UNKNOWN ? UNKNOWN : given + there->size;
        if (path->call_count < LENGTH(path->calls)) {
            path->calls[path->call_count].at = at;
            path->calls[path->call_count++].given = given;
        }
    }
    return UNKNOWN;
}

/* What the function with an instruction gives back from there on. Then it is known after all calls on
 * the way too. */
static uint64_t look_ahead(uint64_t at)
{
    static struct path path;
    uint64_t size;

    path.jump_count = path.call_count = 0;
    size = follow(at, &path);
    for (size_t i = 0; i < path.call_count; i++)
        keep(path.calls[i].at, look_ahead, size == UNKNOWN ? size : size - path.calls[i].given);
    return size;
}

/* What a function takes before its first call, or before it ends. One that only goes on to another
 * takes what that does. */
static uint64_t look_at_function(uint64_t at)
{
    ZydisDecodedInstruction it;
    uint64_t given = 0;

    for (unsigned i = 0; i < MAX_STEPS && decode(at, &it); i++) {
        bool goes_on = it.mnemonic == ZYDIS_MNEMONIC_JMP && given == 0 && it.raw.imm[0].is_relative;

        if (it.mnemonic == ZYDIS_MNEMONIC_CALL || it.mnemonic == ZYDIS_MNEMONIC_RET ||
            (it.mnemonic == ZYDIS_MNEMONIC_JMP && !goes_on))
            break;
        if (!add_given(&it, &given))
            return UNKNOWN;
        at += it.length + (goes_on ? it.raw.imm[0].value.u : 0);
    }
    return -given;
}

/* Forgets all that was read from code, where there is other code now. */
void forget_stacks(void)
{
    for (size_t i = 0; i < LISTS; i++)
        while (kept_lists[i] != NULL) {
            struct kept *gone = kept_lists[i];

            kept_lists[i] = gone->next;
            free(gone);
        }
}

/* ---- Who called ---- */

/* Whether a return address is surely that of the function with an instruction, which takes `size`
 * bytes of the stack. */
static bool is_sure(uint64_t address, uint64_t inner, uint64_t size)
{
    const uint8_t *call = POINTER(address - 5);
    int32_t distance;
    uint64_t function;

    if (*call != 0xe8)
        return false;
    memcpy(&distance, call + 1, 4);
    function = address + (uint64_t)(int64_t)distance;
    return inner - function < FUNCTION &&
           kept(function, look_at_function)->size == size;
}

/* The first of these words that points to where images are, or their end. */
NOT_SANITIZED static const uint64_t *next_pointer(const uint64_t *at, const uint64_t *end)
{
    uint64_t start = host.images_start, size = host.images_end - start;

    while (end - at >= 4 && !((at[0] - start < size) | (at[1] - start < size) |
                              (at[2] - start < size) | (at[3] - start < size)))
        at += 4;
    while (at < end && *at - start >= size)
        at++;
    return at;
}

/* Goes to the caller whose return address lies at a place of the stack. */
NOT_SANITIZED static bool return_at(struct frame *frame, uint64_t at)
{
    uint64_t word = *(const uint64_t *)POINTER(at);

    if (!behind_call(image_at(word), word))
        return false;
    frame->at = word;
    frame->stack = at + 8;
    frame->by_service = false;
    return true;
}

/* Whether the host itself called: then the caller before is that of the service under way. */
NOT_SANITIZED static bool outer_service(struct frame *frame, uint64_t at, bool *found)
{
    extern const char __executable_start[], etext[];
    uint64_t word = *(const uint64_t *)POINTER(at);

    if (word - NUMBER(__executable_start) >= NUMBER(etext) - NUMBER(__executable_start))
        return false;
    while (frame->call != NULL && frame->call->frame < at)
        frame->call = frame->call->outer;
    *found = frame->call != NULL && image_at(frame->call->caller) != NULL;
    if (*found) {
        frame->at = frame->call->caller;
        frame->stack = frame->call->frame + 16;
        frame->by_service = true;
    }
    return true;
}

NOT_SANITIZED static bool look_for_caller(struct frame *frame, struct kept *taken)
{
    const uint64_t *first = NULL, *at = POINTER(frame->stack), *end = POINTER(host.image_stack);

    if (end > at + LOOKED_AT)
        end = at + LOOKED_AT;
    for (at = next_pointer(at, end); at < end; at = next_pointer(at + 1, end)) {
        uint64_t size = NUMBER(at) - frame->stack;

        if (!behind_call(image_at(*at), *at))
            continue;
        if (first == NULL)
            first = at;
        if (!is_sure(*at, frame->at, size))
            continue;
        taken->size = size;
        return return_at(frame, NUMBER(at));
    }
    return first != NULL && return_at(frame, NUMBER(first));
}

static bool next_frame(struct frame *frame)
{
    struct kept *taken = kept(frame->at, look_ahead);
    uint64_t at = frame->stack + taken->size;
    bool found;

    if (taken->size < host.image_stack - frame->stack && taken->size % 8 == 0) {
        if (return_at(frame, at))
            return true;
        if (outer_service(frame, at, &found))
            return found;
    }
    return look_for_caller(frame, taken);
}

/* Where the stack is looked at from: that of a service's caller, or of an image that stopped. */
static bool first_frame(struct frame *frame, uint64_t caller)
{
    frame->at = caller;
    frame->call = host.call;
    if (caller == host.fault.instruction)
        frame->stack = host.fault.stack;
    else if (host.call != NULL && host.call->caller == caller)
        frame->stack = host.call->frame + 16;
    else
        return false;
    if (frame->stack < host.stack || frame->stack > host.image_stack ||
        host.image_stack > host.stack_end || frame->stack % 8 != 0)
        return false;
    /* Words that nobody wrote are looked at too. */
    VALGRIND_MAKE_MEM_DEFINED(POINTER(frame->stack), host.image_stack - frame->stack);
    return true;
}

/* A caller and those before it; the same ones are the same. */
static const struct caller *caller_at(const struct frame *frame, const struct caller *outer)
{
    struct image *image = image_at(frame->at);
    struct caller **list = &caller_lists[list_of(frame->at ^ NUMBER(outer) << 20)], *it = *list;
    const struct caller made = {image, frame->at - image->base, frame->by_service, outer, *list};

    while (it != NULL && (it->image != image || it->address != made.address ||
                          it->by_service != made.by_service || it->outer != outer))
        it = it->next;
    if (it == NULL)
        *list = it = memcpy(must(malloc(sizeof made)), &made, sizeof made);
    return it;
}

/* All callers. An image may have given back the memory that is read here, which then is found: not in
 * here. */
static const struct caller *callers_of(uint64_t caller)
{
    static struct frame frames[MAX_FRAMES];
    static bool walking;
    const struct caller *callers = NULL;
    struct frame frame;
    size_t count = 0;

    if (walking || !first_frame(&frame, caller))
        return NULL;
    walking = true;
    while (count < MAX_FRAMES && next_frame(&frame))
        frames[count++] = frame;
    while (count > 0)
        callers = caller_at(&frames[--count], callers);
    walking = false;
    return callers;
}

static struct origin place_of(uint64_t caller)
{
    struct image *image = image_at(caller);

    return (struct origin){image, image == NULL ? caller : caller - image->base, host.calls, NULL};
}

struct origin origin_at(uint64_t caller)
{
    struct origin origin = place_of(caller);

    if (host.checks && origin.image != NULL)
        origin.callers = callers_of(caller);
    return origin;
}

/* The call that is under way, without its callers. */
struct origin origin_without_callers(void)
{
    return place_of(host.call == NULL ? 0 : host.call->caller);
}

/* The origin of the call that is under way. */
struct origin origin_now(void)
{
    return origin_at(host.call == NULL ? 0 : host.call->caller);
}

/* Whether two have the same place and the same callers. */
bool same_origin(const struct origin *one, const struct origin *other)
{
    return one->image == other->image && one->address == other->address &&
           one->callers == other->callers;
}

/* Whether an image did something for another one, whose code called it, and not only a service. */
bool for_other(const struct origin *origin)
{
    const struct caller *caller = origin->callers;

    while (caller != NULL && caller->image == origin->image)
        caller = caller->outer;
    return caller != NULL && !caller->by_service;
}
