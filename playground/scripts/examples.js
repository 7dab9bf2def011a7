// What the page offers: machines and traces of the repository's folder examples/, which `make` lays beside the page.

export const MACHINES = [
  ["Small examples", [
    ["a", "machine A: 8 MiB in four entries", "machine-a.json"],
    ["drivers", "real firmware with drivers", "driver-boot/machine.json"],
    ["boot", "OVMF as it starts, 256 MB", "firmware-boot/machine.json"],
    ["granule", "a granule of 16 pages, as on AArch64", "granule/machine.json"],
    ["specific", "memory of specific purpose", "specific-purpose/machine.json"],
  ]],
  ["Maps of real firmware", [
    ["ovmf-q35-128m", "OVMF, q35, 128 MB"],
    ["ovmf-q35-512m", "OVMF, q35, 512 MB"],
    ["ovmf-q35-4g", "OVMF, q35, 4 GB"],
    ["ovmf-q35-12g", "OVMF, q35, 12 GB"],
    ["ovmf-q35-devices-2g", "OVMF, q35 with many devices, 2 GB"],
    ["ovmf-q35-smm-1g", "OVMF, q35 with SMM, 1 GB"],
    ["ovmf-pc-256m", "OVMF, pc, 256 MB"],
    ["ovmf-virt-512m", "OVMF for AArch64, virt, 512 MB"],
    ["ovmf-virt-1g", "OVMF for AArch64, virt, 1 GB"],
    ["ovmf-virt-8g", "OVMF for AArch64, virt, 8 GB"],
    ["uboot-pc-512m", "U-Boot, pc, 512 MB"],
    ["uboot-virt-1g", "U-Boot for AArch64, virt, 1 GB"],
    ["uboot-virt-4g", "U-Boot for AArch64, virt, 4 GB"],
  ].map(([name, words]) => [name, words, `real-firmware/${name}.json`])],
];

/** Name, words, file, the machine that it is for, and whether certificates are made of it unasked. */
export const TRACES = [
  ["first", "two pages at a fixed address", "first-run.txt", "a", true],
  ["one", "one allocation", "one-allocation.txt", "a", true],
  ["drivers", "a boot with drivers and a loader", "driver-boot/trace.txt", "drivers", true],
  ["handles", "handles, protocols, device paths", "handles.txt", "a", true],
  ["granule", "runtime pages in whole granules", "granule/trace.txt", "granule", true],
  ["specific", "memory of specific purpose", "specific-purpose/trace.txt", "specific", true],
  ["shell", "OVMF's whole boot to its shell", "firmware-boot/shell.txt", "boot", false],
  ["direct", "OVMF's whole boot to a loader", "firmware-boot/direct.txt", "boot", false],
];
