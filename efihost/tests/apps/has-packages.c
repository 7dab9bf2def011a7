/* Has HII packages among its resources, in the section .hii, which the test makes the directory of
 * resources; and looks whether they are on its handle. */
#include "app.h"

static const EFI_GUID package_list_guid = {
    0x6a1ee763, 0xd47a, 0x43b4, {0xaa, 0xbe, 0xef, 0x1d, 0xe2, 0xab, 0x56, 0xfc}};
/* A directory of the type "HII", one of the number 1, one of the language 0, the place of the data
 * (whose address the test puts in), the name and the data. */
__attribute__((section(".hii"), used)) static const uint32_t resources[] = {
    0, 0, 0, 1,          0x80000058, 0x80000018, /* the first has a name, at 88 */
    0, 0, 0, 1U << 16,   1,          0x80000030,
    0, 0, 0, 1U << 16,   0,          0x00000048,
    0, 8, 0, 0, /* the data's place, at 72 */
    3 | 'H' << 16, 'I' | 'I' << 16, 0x6b636170, 0x73656761};

static EFI_STATUS application(void)
{
    const uint32_t *packages;

    MUST(boot->HandleProtocol(self, &package_list_guid, (void **)&packages));
    if (packages != resources + 24 || packages[0] != 0x6b636170)
        return EFI_ABORTED;
    print("packages are right\r\n");
    return EFI_SUCCESS;
}
