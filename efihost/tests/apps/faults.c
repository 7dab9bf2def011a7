/* Does what the processor, the machine or a service refuses. */
#include "does.h"

static EFI_STATUS null(void)
{
    *(volatile uint32_t *)16 = 1;
    return EFI_SUCCESS;
}

static EFI_STATUS nothing(void)
{
    return *(volatile uint8_t *)0x7000000000;
}

static EFI_STATUS jump(void)
{
    EFI_STATUS(EFIAPI * volatile to)(void) = (EFI_STATUS(EFIAPI *)(void))0x7000000000;

    return to();
}

static EFI_STATUS misaligned(void)
{
    __attribute__((aligned(16))) uint8_t room[32];
    uint8_t *at = room + 4;

    __asm__ volatile("movaps %%xmm0, (%0)" ::"r"(at) : "memory");
    return EFI_SUCCESS;
}

static EFI_STATUS canonical(void)
{
    return *(volatile uint8_t *)0x8000000000001234;
}

static EFI_STATUS table_of_segments(void)
{
    uint8_t to[16] = {0};

    __asm__ volatile("lgdt %0" ::"m"(to));
    return EFI_SUCCESS;
}

static EFI_STATUS undefined(void)
{
    __asm__ volatile("ud2");
    return EFI_SUCCESS;
}

static EFI_STATUS no_instruction(void)
{
    __asm__ volatile(".byte 0x06");
    return EFI_SUCCESS;
}

static EFI_STATUS interrupt(void)
{
    __asm__ volatile("int $0x21");
    return EFI_SUCCESS;
}

static EFI_STATUS breakpoint(void)
{
    __asm__ volatile("int3; nop");
    return EFI_SUCCESS;
}

static EFI_STATUS division(void)
{
    __asm__ volatile("xor %%ecx, %%ecx; div %%ecx" ::: "rax", "rcx", "rdx");
    return EFI_SUCCESS;
}

static EFI_STATUS floating(void)
{
    uint32_t control = 0;

    __asm__ volatile("ldmxcsr %0; xorps %%xmm0, %%xmm0; divps %%xmm0, %%xmm0" ::"m"(control));
    return EFI_SUCCESS;
}

static EFI_STATUS privileged(void)
{
    __asm__ volatile("cli");
    return EFI_SUCCESS;
}

static EFI_STATUS port(void)
{
    uint32_t value;

    __asm__ volatile("movq $-1, %%rax; xorl %%eax, %%eax; inl $0x64, %%eax" : "=a"(value));
    return value == 0xffffffff ? EFI_SUCCESS : EFI_ABORTED;
}

/* The processor looks at the alignment that this flag asks for in a process, and not in a firmware. */
static EFI_STATUS flag_of_alignment(void)
{
    static uint8_t room[16];
    uint8_t *at = room + 1;
    uint32_t value;

    __asm__ volatile("subq $128, %%rsp; pushfq; orl $0x40000, (%%rsp); popfq; addq $128, %%rsp" ::
                         : "memory", "cc");
    __asm__ volatile("movl (%1), %0" : "=r"(value) : "r"(at));
    print("goes on\r\n");
    return EFI_SUCCESS;
}

static EFI_STATUS strings_from_the_end(void)
{
    __asm__ volatile("std; movl %0, 16" ::"r"(1));
    return EFI_SUCCESS;
}

static EFI_STATUS forever(void)
{
    for (volatile uint64_t i = 0;; i++)
        ;
}

static uint64_t deeper(uint64_t depth, bool calls)
{
    volatile uint8_t room[512];

    if (calls)
        boot->SetMem((void *)(UINTN)room, sizeof room, 1);
    room[depth % 512] = (uint8_t)depth;
    return depth == UINT64_MAX ? 0 : deeper(depth + 1, calls) + room[depth % 512];
}

static EFI_STATUS deep(void)
{
    return deeper(0, false);
}

static EFI_STATUS deep_in_service(void)
{
    return deeper(0, true);
}

static EFI_STATUS copy_across(void)
{
    uint8_t *page = NULL;

    MUST(boot->AllocatePages(0, 2, 1, (uint64_t *)&page));
    boot->CopyMem((void *)0x6ffffff000, page, 4096);
    return EFI_SUCCESS;
}

static void EFIAPI notify(EFI_EVENT event, void *context)
{
    (void)event;
    (void)context;
    null();
}

static EFI_STATUS in_callback(void)
{
    EFI_EVENT event;

    MUST(boot->CreateEvent(EVT_NOTIFY_SIGNAL, 8, notify, NULL, &event));
    return boot->SignalEvent(event);
}

static uint64_t system_call(uint64_t number, uint64_t first, uint64_t second, uint64_t third)
{
    uint64_t result;

    __asm__ volatile("syscall"
                     : "=a"(result)
                     : "a"(number), "D"(first), "S"(second), "d"(third)
                     : "rcx", "r11", "memory");
    return result;
}

/* Takes a page with a block away from the host, which looks at it as the run ends. */
static EFI_STATUS twice(void)
{
    uint8_t *block = pool(40);

    system_call(11, (UINTN)block & ~4095ULL, 4096, 0);
    return null();
}

/* Takes the host's own memory away from it: the handler can't read it. */
static EFI_STATUS in_handler(void)
{
    uint64_t end = system_call(12, 0, 0, 0);

    for (uint64_t at = end - 4096; at > end - (1 << 22); at -= 4096)
        system_call(10, at, 4096, 0);
    return null();
}

static EFI_STATUS map_to_nothing(void)
{
    UINTN size = 65536, key, step;
    uint32_t version;

    return boot->GetMemoryMap(&size, (void *)0x7000000000, &key, &step, &version);
}

static EFI_STATUS application(void)
{
    static const struct deed deeds[] = {
        {"null", null},
        {"nothing", nothing},
        {"jump", jump},
        {"misaligned", misaligned},
        {"canonical", canonical},
        {"table", table_of_segments},
        {"undefined", undefined},
        {"no-instruction", no_instruction},
        {"interrupt", interrupt},
        {"breakpoint", breakpoint},
        {"division", division},
        {"floating", floating},
        {"privileged", privileged},
        {"port", port},
        {"flag", flag_of_alignment},
        {"strings", strings_from_the_end},
        {"forever", forever},
        {"deep", deep},
        {"deep-in-service", deep_in_service},
        {"copy", copy_across},
        {"callback", in_callback},
        {"map", map_to_nothing},
        {"twice", twice},
        {"in-handler", in_handler},
    };

    return DO_DEED(deeds);
}
