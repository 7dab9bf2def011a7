/* The types, statuses, tables and protocols of the UEFI Specification 2.10 that the host and its
 * tests use, for x86-64. Names are those of the standard. */
#ifndef EFIHOST_UEFI_H
#define EFIHOST_UEFI_H

#include <stdbool.h>
#include <stddef.h>
#include <stdint.h>

#define EFIAPI __attribute__((ms_abi))

typedef uint64_t EFI_STATUS;
typedef uint16_t CHAR16;
typedef uint8_t BOOLEAN;
typedef void *EFI_HANDLE;
typedef void *EFI_EVENT;
typedef uint64_t EFI_TPL;
typedef uint64_t UINTN;

typedef struct {
    uint32_t first;
    uint16_t second, third;
    uint8_t rest[8];
} EFI_GUID;

#define EFI_ERROR_BIT 0x8000000000000000ULL
#define EFI_ERROR(status) (((status) & EFI_ERROR_BIT) != 0)
#define EFI_SUCCESS 0ULL
#define EFI_LOAD_ERROR (EFI_ERROR_BIT | 1)
#define EFI_INVALID_PARAMETER (EFI_ERROR_BIT | 2)
#define EFI_UNSUPPORTED (EFI_ERROR_BIT | 3)
#define EFI_BAD_BUFFER_SIZE (EFI_ERROR_BIT | 4)
#define EFI_BUFFER_TOO_SMALL (EFI_ERROR_BIT | 5)
#define EFI_NOT_READY (EFI_ERROR_BIT | 6)
#define EFI_DEVICE_ERROR (EFI_ERROR_BIT | 7)
#define EFI_WRITE_PROTECTED (EFI_ERROR_BIT | 8)
#define EFI_OUT_OF_RESOURCES (EFI_ERROR_BIT | 9)
#define EFI_VOLUME_CORRUPTED (EFI_ERROR_BIT | 10)
#define EFI_VOLUME_FULL (EFI_ERROR_BIT | 11)
#define EFI_NO_MEDIA (EFI_ERROR_BIT | 12)
#define EFI_MEDIA_CHANGED (EFI_ERROR_BIT | 13)
#define EFI_NOT_FOUND (EFI_ERROR_BIT | 14)
#define EFI_ACCESS_DENIED (EFI_ERROR_BIT | 15)
#define EFI_TIMEOUT (EFI_ERROR_BIT | 18)
#define EFI_ALREADY_STARTED (EFI_ERROR_BIT | 20)
#define EFI_ABORTED (EFI_ERROR_BIT | 21)
#define EFI_SECURITY_VIOLATION (EFI_ERROR_BIT | 26)
#define EFI_WARN_UNKNOWN_GLYPH 1ULL
#define EFI_WARN_DELETE_FAILURE 2ULL

typedef struct {
    uint64_t Signature;
    uint32_t Revision, HeaderSize, CRC32, Reserved;
} EFI_TABLE_HEADER;

typedef struct {
    uint16_t Year;
    uint8_t Month, Day, Hour, Minute, Second, Pad1;
    uint32_t Nanosecond;
    int16_t TimeZone;
    uint8_t Daylight, Pad2;
} EFI_TIME;

#define EFI_TIME_ADJUST_DAYLIGHT 1U
#define EFI_TIME_IN_DAYLIGHT 2U

typedef struct {
    uint32_t Resolution, Accuracy;
    BOOLEAN SetsToZero;
} EFI_TIME_CAPABILITIES;

typedef struct {
    uint32_t Type, Pad;
    uint64_t PhysicalStart, VirtualStart, NumberOfPages, Attribute;
} EFI_MEMORY_DESCRIPTOR;

typedef struct {
    uint8_t Type, SubType, Length[2];
} EFI_DEVICE_PATH_PROTOCOL;

/* ---- Console ---- */

typedef struct EFI_SIMPLE_TEXT_OUTPUT_PROTOCOL EFI_SIMPLE_TEXT_OUTPUT_PROTOCOL;
typedef struct {
    int32_t MaxMode, Mode, Attribute, CursorColumn, CursorRow;
    BOOLEAN CursorVisible;
} EFI_SIMPLE_TEXT_OUTPUT_MODE;
struct EFI_SIMPLE_TEXT_OUTPUT_PROTOCOL {
    EFI_STATUS(EFIAPI *Reset)(EFI_SIMPLE_TEXT_OUTPUT_PROTOCOL *, BOOLEAN);
    EFI_STATUS(EFIAPI *OutputString)(EFI_SIMPLE_TEXT_OUTPUT_PROTOCOL *, const CHAR16 *);
    EFI_STATUS(EFIAPI *TestString)(EFI_SIMPLE_TEXT_OUTPUT_PROTOCOL *, const CHAR16 *);
    EFI_STATUS(EFIAPI *QueryMode)(EFI_SIMPLE_TEXT_OUTPUT_PROTOCOL *, UINTN, UINTN *, UINTN *);
    EFI_STATUS(EFIAPI *SetMode)(EFI_SIMPLE_TEXT_OUTPUT_PROTOCOL *, UINTN);
    EFI_STATUS(EFIAPI *SetAttribute)(EFI_SIMPLE_TEXT_OUTPUT_PROTOCOL *, UINTN);
    EFI_STATUS(EFIAPI *ClearScreen)(EFI_SIMPLE_TEXT_OUTPUT_PROTOCOL *);
    EFI_STATUS(EFIAPI *SetCursorPosition)(EFI_SIMPLE_TEXT_OUTPUT_PROTOCOL *, UINTN, UINTN);
    EFI_STATUS(EFIAPI *EnableCursor)(EFI_SIMPLE_TEXT_OUTPUT_PROTOCOL *, BOOLEAN);
    EFI_SIMPLE_TEXT_OUTPUT_MODE *Mode;
};

typedef struct {
    uint16_t ScanCode;
    CHAR16 UnicodeChar;
} EFI_INPUT_KEY;
typedef struct EFI_SIMPLE_TEXT_INPUT_PROTOCOL EFI_SIMPLE_TEXT_INPUT_PROTOCOL;
struct EFI_SIMPLE_TEXT_INPUT_PROTOCOL {
    EFI_STATUS(EFIAPI *Reset)(EFI_SIMPLE_TEXT_INPUT_PROTOCOL *, BOOLEAN);
    EFI_STATUS(EFIAPI *ReadKeyStroke)(EFI_SIMPLE_TEXT_INPUT_PROTOCOL *, EFI_INPUT_KEY *);
    EFI_EVENT WaitForKey;
};

typedef struct {
    EFI_INPUT_KEY Key;
    struct {
        uint32_t KeyShiftState;
        uint8_t KeyToggleState;
    } KeyState;
} EFI_KEY_DATA;
typedef EFI_STATUS(EFIAPI *EFI_KEY_NOTIFY_FUNCTION)(EFI_KEY_DATA *);
typedef struct EFI_SIMPLE_TEXT_INPUT_EX_PROTOCOL EFI_SIMPLE_TEXT_INPUT_EX_PROTOCOL;
struct EFI_SIMPLE_TEXT_INPUT_EX_PROTOCOL {
    EFI_STATUS(EFIAPI *Reset)(EFI_SIMPLE_TEXT_INPUT_EX_PROTOCOL *, BOOLEAN);
    EFI_STATUS(EFIAPI *ReadKeyStrokeEx)(EFI_SIMPLE_TEXT_INPUT_EX_PROTOCOL *, EFI_KEY_DATA *);
    EFI_EVENT WaitForKeyEx;
    EFI_STATUS(EFIAPI *SetState)(EFI_SIMPLE_TEXT_INPUT_EX_PROTOCOL *, uint8_t *);
    EFI_STATUS(EFIAPI *RegisterKeyNotify)(EFI_SIMPLE_TEXT_INPUT_EX_PROTOCOL *, EFI_KEY_DATA *,
                                          EFI_KEY_NOTIFY_FUNCTION, void **);
    EFI_STATUS(EFIAPI *UnregisterKeyNotify)(EFI_SIMPLE_TEXT_INPUT_EX_PROTOCOL *, void *);
};

/* ---- Runtime services ---- */

typedef struct {
    EFI_TABLE_HEADER Hdr;
    EFI_STATUS(EFIAPI *GetTime)(EFI_TIME *, EFI_TIME_CAPABILITIES *);
    EFI_STATUS(EFIAPI *SetTime)(EFI_TIME *);
    EFI_STATUS(EFIAPI *GetWakeupTime)(BOOLEAN *, BOOLEAN *, EFI_TIME *);
    EFI_STATUS(EFIAPI *SetWakeupTime)(BOOLEAN, EFI_TIME *);
    EFI_STATUS(EFIAPI *SetVirtualAddressMap)(UINTN, UINTN, uint32_t, EFI_MEMORY_DESCRIPTOR *);
    EFI_STATUS(EFIAPI *ConvertPointer)(UINTN, void **);
    EFI_STATUS(EFIAPI *GetVariable)(const CHAR16 *, const EFI_GUID *, uint32_t *, UINTN *, void *);
    EFI_STATUS(EFIAPI *GetNextVariableName)(UINTN *, CHAR16 *, EFI_GUID *);
    EFI_STATUS(EFIAPI *SetVariable)(const CHAR16 *, const EFI_GUID *, uint32_t, UINTN,
                                    const void *);
    EFI_STATUS(EFIAPI *GetNextHighMonotonicCount)(uint32_t *);
    void(EFIAPI *ResetSystem)(uint32_t, EFI_STATUS, UINTN, const void *);
    EFI_STATUS(EFIAPI *UpdateCapsule)(void **, UINTN, uint64_t);
    EFI_STATUS(EFIAPI *QueryCapsuleCapabilities)(void **, UINTN, uint64_t *, uint32_t *);
    EFI_STATUS(EFIAPI *QueryVariableInfo)(uint32_t, uint64_t *, uint64_t *, uint64_t *);
} EFI_RUNTIME_SERVICES;

#define EFI_VARIABLE_NON_VOLATILE 1U
#define EFI_VARIABLE_BOOTSERVICE_ACCESS 2U
#define EFI_VARIABLE_RUNTIME_ACCESS 4U
#define EFI_VARIABLE_HARDWARE_ERROR_RECORD 8U
#define EFI_VARIABLE_AUTHENTICATED_WRITE_ACCESS 0x10U
#define EFI_VARIABLE_APPEND_WRITE 0x40U

/* ---- Boot services ---- */

#define TPL_APPLICATION 4U
#define TPL_CALLBACK 8U
#define TPL_NOTIFY 16U
#define TPL_HIGH_LEVEL 31U
#define EVT_TIMER 0x80000000U
#define EVT_RUNTIME 0x40000000U
#define EVT_NOTIFY_WAIT 0x100U
#define EVT_NOTIFY_SIGNAL 0x200U
#define EVT_SIGNAL_EXIT_BOOT_SERVICES 0x201U
#define EVT_SIGNAL_VIRTUAL_ADDRESS_CHANGE 0x60000202U
#define TIMER_CANCEL 0U
#define TIMER_PERIODIC 1U
#define TIMER_RELATIVE 2U

typedef void(EFIAPI *EFI_EVENT_NOTIFY)(EFI_EVENT, void *);
typedef struct {
    EFI_HANDLE AgentHandle, ControllerHandle;
    uint32_t Attributes, OpenCount;
} EFI_OPEN_PROTOCOL_INFORMATION_ENTRY;

typedef struct {
    EFI_TABLE_HEADER Hdr;
    EFI_TPL(EFIAPI *RaiseTPL)(EFI_TPL);
    void(EFIAPI *RestoreTPL)(EFI_TPL);
    EFI_STATUS(EFIAPI *AllocatePages)(uint32_t, uint32_t, UINTN, uint64_t *);
    EFI_STATUS(EFIAPI *FreePages)(uint64_t, UINTN);
    EFI_STATUS(EFIAPI *GetMemoryMap)(UINTN *, EFI_MEMORY_DESCRIPTOR *, UINTN *, UINTN *,
                                     uint32_t *);
    EFI_STATUS(EFIAPI *AllocatePool)(uint32_t, UINTN, void **);
    EFI_STATUS(EFIAPI *FreePool)(void *);
    EFI_STATUS(EFIAPI *CreateEvent)(uint32_t, EFI_TPL, EFI_EVENT_NOTIFY, void *, EFI_EVENT *);
    EFI_STATUS(EFIAPI *SetTimer)(EFI_EVENT, uint32_t, uint64_t);
    EFI_STATUS(EFIAPI *WaitForEvent)(UINTN, EFI_EVENT *, UINTN *);
    EFI_STATUS(EFIAPI *SignalEvent)(EFI_EVENT);
    EFI_STATUS(EFIAPI *CloseEvent)(EFI_EVENT);
    EFI_STATUS(EFIAPI *CheckEvent)(EFI_EVENT);
    EFI_STATUS(EFIAPI *InstallProtocolInterface)(EFI_HANDLE *, const EFI_GUID *, uint32_t, void *);
    EFI_STATUS(EFIAPI *ReinstallProtocolInterface)(EFI_HANDLE, const EFI_GUID *, void *, void *);
    EFI_STATUS(EFIAPI *UninstallProtocolInterface)(EFI_HANDLE, const EFI_GUID *, void *);
    EFI_STATUS(EFIAPI *HandleProtocol)(EFI_HANDLE, const EFI_GUID *, void **);
    void *Reserved;
    EFI_STATUS(EFIAPI *RegisterProtocolNotify)(const EFI_GUID *, EFI_EVENT, void **);
    EFI_STATUS(EFIAPI *LocateHandle)(uint32_t, const EFI_GUID *, void *, UINTN *, EFI_HANDLE *);
    EFI_STATUS(EFIAPI *LocateDevicePath)(const EFI_GUID *, EFI_DEVICE_PATH_PROTOCOL **,
                                         EFI_HANDLE *);
    EFI_STATUS(EFIAPI *InstallConfigurationTable)(const EFI_GUID *, void *);
    EFI_STATUS(EFIAPI *LoadImage)(BOOLEAN, EFI_HANDLE, EFI_DEVICE_PATH_PROTOCOL *, void *, UINTN,
                                  EFI_HANDLE *);
    EFI_STATUS(EFIAPI *StartImage)(EFI_HANDLE, UINTN *, CHAR16 **);
    EFI_STATUS(EFIAPI *Exit)(EFI_HANDLE, EFI_STATUS, UINTN, CHAR16 *);
    EFI_STATUS(EFIAPI *UnloadImage)(EFI_HANDLE);
    EFI_STATUS(EFIAPI *ExitBootServices)(EFI_HANDLE, UINTN);
    EFI_STATUS(EFIAPI *GetNextMonotonicCount)(uint64_t *);
    EFI_STATUS(EFIAPI *Stall)(UINTN);
    EFI_STATUS(EFIAPI *SetWatchdogTimer)(UINTN, uint64_t, UINTN, CHAR16 *);
    EFI_STATUS(EFIAPI *ConnectController)(EFI_HANDLE, EFI_HANDLE *, EFI_DEVICE_PATH_PROTOCOL *,
                                          BOOLEAN);
    EFI_STATUS(EFIAPI *DisconnectController)(EFI_HANDLE, EFI_HANDLE, EFI_HANDLE);
    EFI_STATUS(EFIAPI *OpenProtocol)(EFI_HANDLE, const EFI_GUID *, void **, EFI_HANDLE, EFI_HANDLE,
                                     uint32_t);
    EFI_STATUS(EFIAPI *CloseProtocol)(EFI_HANDLE, const EFI_GUID *, EFI_HANDLE, EFI_HANDLE);
    EFI_STATUS(EFIAPI *OpenProtocolInformation)(EFI_HANDLE, const EFI_GUID *,
                                                EFI_OPEN_PROTOCOL_INFORMATION_ENTRY **, UINTN *);
    EFI_STATUS(EFIAPI *ProtocolsPerHandle)(EFI_HANDLE, EFI_GUID ***, UINTN *);
    EFI_STATUS(EFIAPI *LocateHandleBuffer)(uint32_t, const EFI_GUID *, void *, UINTN *,
                                           EFI_HANDLE **);
    EFI_STATUS(EFIAPI *LocateProtocol)(const EFI_GUID *, void *, void **);
    EFI_STATUS(EFIAPI *InstallMultipleProtocolInterfaces)(EFI_HANDLE *, ...);
    EFI_STATUS(EFIAPI *UninstallMultipleProtocolInterfaces)(EFI_HANDLE, ...);
    EFI_STATUS(EFIAPI *CalculateCrc32)(const void *, UINTN, uint32_t *);
    void(EFIAPI *CopyMem)(void *, const void *, UINTN);
    void(EFIAPI *SetMem)(void *, UINTN, uint8_t);
    EFI_STATUS(EFIAPI *CreateEventEx)(uint32_t, EFI_TPL, EFI_EVENT_NOTIFY, const void *,
                                      const EFI_GUID *, EFI_EVENT *);
} EFI_BOOT_SERVICES;

typedef struct {
    EFI_GUID VendorGuid;
    void *VendorTable;
} EFI_CONFIGURATION_TABLE;

typedef struct {
    EFI_TABLE_HEADER Hdr;
    CHAR16 *FirmwareVendor;
    uint32_t FirmwareRevision;
    EFI_HANDLE ConsoleInHandle;
    EFI_SIMPLE_TEXT_INPUT_PROTOCOL *ConIn;
    EFI_HANDLE ConsoleOutHandle;
    EFI_SIMPLE_TEXT_OUTPUT_PROTOCOL *ConOut;
    EFI_HANDLE StandardErrorHandle;
    EFI_SIMPLE_TEXT_OUTPUT_PROTOCOL *StdErr;
    EFI_RUNTIME_SERVICES *RuntimeServices;
    EFI_BOOT_SERVICES *BootServices;
    UINTN NumberOfTableEntries;
    EFI_CONFIGURATION_TABLE *ConfigurationTable;
} EFI_SYSTEM_TABLE;

typedef EFI_STATUS(EFIAPI *EFI_IMAGE_ENTRY_POINT)(EFI_HANDLE, EFI_SYSTEM_TABLE *);

/* ---- Images and drivers ---- */

typedef struct {
    uint32_t Revision;
    EFI_HANDLE ParentHandle;
    EFI_SYSTEM_TABLE *SystemTable;
    EFI_HANDLE DeviceHandle;
    EFI_DEVICE_PATH_PROTOCOL *FilePath;
    void *Reserved;
    uint32_t LoadOptionsSize;
    void *LoadOptions;
    void *ImageBase;
    uint64_t ImageSize;
    uint32_t ImageCodeType, ImageDataType;
    EFI_STATUS(EFIAPI *Unload)(EFI_HANDLE);
} EFI_LOADED_IMAGE_PROTOCOL;

typedef struct EFI_DRIVER_BINDING_PROTOCOL EFI_DRIVER_BINDING_PROTOCOL;
struct EFI_DRIVER_BINDING_PROTOCOL {
    EFI_STATUS(EFIAPI *Supported)(EFI_DRIVER_BINDING_PROTOCOL *, EFI_HANDLE,
                                  EFI_DEVICE_PATH_PROTOCOL *);
    EFI_STATUS(EFIAPI *Start)(EFI_DRIVER_BINDING_PROTOCOL *, EFI_HANDLE,
                              EFI_DEVICE_PATH_PROTOCOL *);
    EFI_STATUS(EFIAPI *Stop)(EFI_DRIVER_BINDING_PROTOCOL *, EFI_HANDLE, UINTN, EFI_HANDLE *);
    uint32_t Version;
    EFI_HANDLE ImageHandle, DriverBindingHandle;
};

/* ---- Disks and files ---- */

typedef struct {
    uint32_t MediaId;
    BOOLEAN RemovableMedia, MediaPresent, LogicalPartition, ReadOnly, WriteCaching;
    uint32_t BlockSize, IoAlign;
    uint64_t LastBlock, LowestAlignedLba;
    uint32_t LogicalBlocksPerPhysicalBlock, OptimalTransferLengthGranularity;
} EFI_BLOCK_IO_MEDIA;
typedef struct EFI_BLOCK_IO_PROTOCOL EFI_BLOCK_IO_PROTOCOL;
struct EFI_BLOCK_IO_PROTOCOL {
    uint64_t Revision;
    EFI_BLOCK_IO_MEDIA *Media;
    EFI_STATUS(EFIAPI *Reset)(EFI_BLOCK_IO_PROTOCOL *, BOOLEAN);
    EFI_STATUS(EFIAPI *ReadBlocks)(EFI_BLOCK_IO_PROTOCOL *, uint32_t, uint64_t, UINTN, void *);
    EFI_STATUS(EFIAPI *WriteBlocks)(EFI_BLOCK_IO_PROTOCOL *, uint32_t, uint64_t, UINTN,
                                    const void *);
    EFI_STATUS(EFIAPI *FlushBlocks)(EFI_BLOCK_IO_PROTOCOL *);
};

typedef struct EFI_FILE_PROTOCOL EFI_FILE_PROTOCOL;
struct EFI_FILE_PROTOCOL {
    uint64_t Revision;
    EFI_STATUS(EFIAPI *Open)(EFI_FILE_PROTOCOL *, EFI_FILE_PROTOCOL **, const CHAR16 *, uint64_t,
                             uint64_t);
    EFI_STATUS(EFIAPI *Close)(EFI_FILE_PROTOCOL *);
    EFI_STATUS(EFIAPI *Delete)(EFI_FILE_PROTOCOL *);
    EFI_STATUS(EFIAPI *Read)(EFI_FILE_PROTOCOL *, UINTN *, void *);
    EFI_STATUS(EFIAPI *Write)(EFI_FILE_PROTOCOL *, UINTN *, const void *);
    EFI_STATUS(EFIAPI *GetPosition)(EFI_FILE_PROTOCOL *, uint64_t *);
    EFI_STATUS(EFIAPI *SetPosition)(EFI_FILE_PROTOCOL *, uint64_t);
    EFI_STATUS(EFIAPI *GetInfo)(EFI_FILE_PROTOCOL *, const EFI_GUID *, UINTN *, void *);
    EFI_STATUS(EFIAPI *SetInfo)(EFI_FILE_PROTOCOL *, const EFI_GUID *, UINTN, const void *);
    EFI_STATUS(EFIAPI *Flush)(EFI_FILE_PROTOCOL *);
};
#define EFI_FILE_MODE_READ 1ULL
#define EFI_FILE_MODE_WRITE 2ULL
#define EFI_FILE_MODE_CREATE 0x8000000000000000ULL
#define EFI_FILE_READ_ONLY 1ULL
#define EFI_FILE_DIRECTORY 0x10ULL

typedef struct EFI_SIMPLE_FILE_SYSTEM_PROTOCOL EFI_SIMPLE_FILE_SYSTEM_PROTOCOL;
struct EFI_SIMPLE_FILE_SYSTEM_PROTOCOL {
    uint64_t Revision;
    EFI_STATUS(EFIAPI *OpenVolume)(EFI_SIMPLE_FILE_SYSTEM_PROTOCOL *, EFI_FILE_PROTOCOL **);
};

typedef struct {
    uint64_t Size, FileSize, PhysicalSize;
    EFI_TIME CreateTime, LastAccessTime, ModificationTime;
    uint64_t Attribute;
    CHAR16 FileName[];
} EFI_FILE_INFO;
typedef struct {
    uint64_t Size;
    BOOLEAN ReadOnly;
    uint64_t VolumeSize, FreeSpace;
    uint32_t BlockSize;
    CHAR16 VolumeLabel[];
} EFI_FILE_SYSTEM_INFO;

typedef struct EFI_LOAD_FILE_PROTOCOL EFI_LOAD_FILE_PROTOCOL;
struct EFI_LOAD_FILE_PROTOCOL {
    EFI_STATUS(EFIAPI *LoadFile)(EFI_LOAD_FILE_PROTOCOL *, EFI_DEVICE_PATH_PROTOCOL *, BOOLEAN,
                                 UINTN *, void *);
};

/* ---- Graphics and serial ports ---- */

typedef struct EFI_GRAPHICS_OUTPUT_PROTOCOL EFI_GRAPHICS_OUTPUT_PROTOCOL;
typedef struct {
    uint32_t Version, HorizontalResolution, VerticalResolution, PixelFormat, PixelMasks[4];
    uint32_t PixelsPerScanLine;
} EFI_GRAPHICS_OUTPUT_MODE_INFORMATION;
typedef struct {
    uint32_t MaxMode, Mode;
    EFI_GRAPHICS_OUTPUT_MODE_INFORMATION *Info;
    UINTN SizeOfInfo;
    uint64_t FrameBufferBase;
    UINTN FrameBufferSize;
} EFI_GRAPHICS_OUTPUT_PROTOCOL_MODE;
struct EFI_GRAPHICS_OUTPUT_PROTOCOL {
    EFI_STATUS(EFIAPI *QueryMode)(EFI_GRAPHICS_OUTPUT_PROTOCOL *, uint32_t, UINTN *,
                                  EFI_GRAPHICS_OUTPUT_MODE_INFORMATION **);
    EFI_STATUS(EFIAPI *SetMode)(EFI_GRAPHICS_OUTPUT_PROTOCOL *, uint32_t);
    EFI_STATUS(EFIAPI *Blt)(EFI_GRAPHICS_OUTPUT_PROTOCOL *, uint32_t *, uint32_t, UINTN, UINTN,
                            UINTN, UINTN, UINTN, UINTN, UINTN);
    EFI_GRAPHICS_OUTPUT_PROTOCOL_MODE *Mode;
};
#define BLT_VIDEO_FILL 0U
#define BLT_VIDEO_TO_BUFFER 1U
#define BLT_BUFFER_TO_VIDEO 2U
#define BLT_VIDEO_TO_VIDEO 3U

typedef struct {
    uint32_t ControlMask, Timeout;
    uint64_t BaudRate;
    uint32_t ReceiveFifoDepth, DataBits, Parity, StopBits;
} EFI_SERIAL_IO_MODE;
typedef struct EFI_SERIAL_IO_PROTOCOL EFI_SERIAL_IO_PROTOCOL;
struct EFI_SERIAL_IO_PROTOCOL {
    uint32_t Revision;
    EFI_STATUS(EFIAPI *Reset)(EFI_SERIAL_IO_PROTOCOL *);
    EFI_STATUS(EFIAPI *SetAttributes)(EFI_SERIAL_IO_PROTOCOL *, uint64_t, uint32_t, uint32_t,
                                      uint32_t, uint8_t, uint32_t);
    EFI_STATUS(EFIAPI *SetControl)(EFI_SERIAL_IO_PROTOCOL *, uint32_t);
    EFI_STATUS(EFIAPI *GetControl)(EFI_SERIAL_IO_PROTOCOL *, uint32_t *);
    EFI_STATUS(EFIAPI *Write)(EFI_SERIAL_IO_PROTOCOL *, UINTN *, const void *);
    EFI_STATUS(EFIAPI *Read)(EFI_SERIAL_IO_PROTOCOL *, UINTN *, void *);
    EFI_SERIAL_IO_MODE *Mode;
};

#endif
