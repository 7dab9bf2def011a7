/* Writes to its own read-only data: to a page that has nothing else, or to a section after many. */
#include "does.h"

static const uint8_t far[3 * 4096] = {1, 2, 3};

#define SECTION(number)                                                                           \
    __attribute__((section(".c" #number))) static const uint8_t constant##number[16] = {number};
#define TEN(ten)                                                                                  \
    SECTION(ten##0)                                                                               \
    SECTION(ten##1)                                                                               \
    SECTION(ten##2)                                                                               \
    SECTION(ten##3)                                                                               \
    SECTION(ten##4)                                                                               \
    SECTION(ten##5)                                                                               \
    SECTION(ten##6)                                                                               \
    SECTION(ten##7)                                                                               \
    SECTION(ten##8)                                                                               \
    SECTION(ten##9)

TEN(1)
TEN(2)
TEN(3)
TEN(4)
#define ADDRESSES(ten)                                                                            \
    constant##ten##0, constant##ten##1, constant##ten##2, constant##ten##3, constant##ten##4,     \
        constant##ten##5, constant##ten##6, constant##ten##7, constant##ten##8, constant##ten##9
static const uint8_t *const volatile constants[] = {ADDRESSES(1), ADDRESSES(2), ADDRESSES(3),
                                                    ADDRESSES(4)};

static EFI_STATUS writes(const uint8_t *to)
{
    *(volatile uint8_t *)(UINTN)to = 9;
    return EFI_SUCCESS;
}

static EFI_STATUS far_page(void)
{
    return writes(far + 6000);
}

static EFI_STATUS last_section(void)
{
    return writes(constants[39]);
}

static EFI_STATUS nothing(void)
{
    return EFI_SUCCESS;
}

static EFI_STATUS application(void)
{
    static const struct deed deeds[] = {
        {"far", far_page},
        {"last", last_section},
        {"nothing", nothing},
    };

    return DO_DEED(deeds);
}
