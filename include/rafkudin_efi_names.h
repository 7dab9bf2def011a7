/* The names of the UEFI Specification without a prefix, for the services of rafkudin.h. They are
 * macros: a file includes this header behind all others, and a file that calls a firmware's own
 * services by these names must not include it. */
#ifndef RAFKUDIN_EFI_NAMES_H
#define RAFKUDIN_EFI_NAMES_H

#include "rafkudin.h"

#define AllocatePages RafkudinAllocatePages
#define FreePages RafkudinFreePages
#define GetMemoryMap RafkudinGetMemoryMap
#define AllocatePool RafkudinAllocatePool
#define FreePool RafkudinFreePool
#define InstallProtocolInterface RafkudinInstallProtocolInterface
#define UninstallProtocolInterface RafkudinUninstallProtocolInterface
#define ReinstallProtocolInterface RafkudinReinstallProtocolInterface
#define RegisterProtocolNotify RafkudinRegisterProtocolNotify
#define LocateHandle RafkudinLocateHandle
#define HandleProtocol RafkudinHandleProtocol
#define LocateDevicePath RafkudinLocateDevicePath
#define OpenProtocol RafkudinOpenProtocol
#define CloseProtocol RafkudinCloseProtocol
#define OpenProtocolInformation RafkudinOpenProtocolInformation
#define ConnectController RafkudinConnectController
#define DisconnectController RafkudinDisconnectController
#define ProtocolsPerHandle RafkudinProtocolsPerHandle
#define LocateHandleBuffer RafkudinLocateHandleBuffer
#define LocateProtocol RafkudinLocateProtocol
#define InstallMultipleProtocolInterfaces RafkudinInstallMultipleProtocolInterfaces
#define UninstallMultipleProtocolInterfaces RafkudinUninstallMultipleProtocolInterfaces
#define ExitBootServices RafkudinExitBootServices

#endif
