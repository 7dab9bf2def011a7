/* Checks for null pointers before the library is called. Each function here returns
 * INVALID_PARAMETER where a pointer that must not be null is null, as the UEFI Specification says
 * of its services, and otherwise calls the function of its name. A function that returns no status
 * returns 0 for such a pointer, or does nothing. A pointer with a count of 0 may be null.
 * rafkudin.h includes this file and says what each function does; the macros here make calls by the
 * names of rafkudin.h go to these functions. */
#ifndef RAFKUDIN_NULL_H
#define RAFKUDIN_NULL_H

static inline rafkudin_uint64 rafkudin_make(const uint8_t *records, size_t size,
                                            size_t descriptor_size, rafkudin_uint64 granule,
                                            const struct rafkudin_driver *drivers,
                                            size_t driver_count, struct rafkudin **core)
{
    rafkudin_uint64 nothing = 0;

    if (core == NULL || (records == NULL && size != 0) || (drivers == NULL && driver_count != 0))
        return RAFKUDIN_INVALID_PARAMETER;
    if (records == NULL)
        records = (const uint8_t *)(void *)&nothing;
    if (drivers == NULL)
        drivers = (const struct rafkudin_driver *)(void *)&nothing;
    return RafkudinMake(records, size, descriptor_size, granule, drivers, driver_count, core);
}
#define RafkudinMake rafkudin_make

static inline rafkudin_uint64 rafkudin_make_over(struct rafkudin_memory memory,
                                                 rafkudin_uint64 first_page, const uint8_t *records,
                                                 size_t size, size_t descriptor_size,
                                                 rafkudin_uint64 granule,
                                                 const struct rafkudin_driver *drivers,
                                                 size_t driver_count, struct rafkudin **core)
{
    rafkudin_uint64 nothing = 0;

    if (memory.start == NULL || memory.pages >= (size_t)1 << 51 || core == NULL ||
        (records == NULL && size != 0) || (drivers == NULL && driver_count != 0))
        return RAFKUDIN_INVALID_PARAMETER;
    if (records == NULL)
        records = (const uint8_t *)(void *)&nothing;
    if (drivers == NULL)
        drivers = (const struct rafkudin_driver *)(void *)&nothing;
    return RafkudinMakeOver(memory, first_page, records, size, descriptor_size, granule, drivers,
                            driver_count, core);
}
#define RafkudinMakeOver rafkudin_make_over

static inline rafkudin_uint64 rafkudin_certificate(const struct rafkudin *core, uint8_t *text,
                                                   size_t room, rafkudin_uint64 *length)
{
    rafkudin_uint64 nothing = 0;

    if (core == NULL || length == NULL || (text == NULL && room != 0))
        return RAFKUDIN_INVALID_PARAMETER;
    if (text == NULL)
        text = (uint8_t *)(void *)&nothing;
    return RafkudinCertificate(core, text, room, length);
}
#define RafkudinCertificate rafkudin_certificate

static inline rafkudin_uint64 rafkudin_reply_line(const struct rafkudin *core,
                                                  rafkudin_uint64 number, uint8_t *text,
                                                  size_t room, rafkudin_uint64 *length)
{
    rafkudin_uint64 nothing = 0;

    if (core == NULL || length == NULL || (text == NULL && room != 0))
        return RAFKUDIN_INVALID_PARAMETER;
    if (text == NULL)
        text = (uint8_t *)(void *)&nothing;
    return RafkudinReplyLine(core, number, text, room, length);
}
#define RafkudinReplyLine rafkudin_reply_line

static inline rafkudin_uint64 rafkudin_check(const uint8_t *text, size_t length,
                                             rafkudin_uint64 *line)
{
    rafkudin_uint64 nothing = 0;

    if (line == NULL || (text == NULL && length != 0))
        return RAFKUDIN_INVALID_PARAMETER;
    if (text == NULL)
        text = (const uint8_t *)(void *)&nothing;
    return RafkudinCheck(text, length, line);
}
#define RafkudinCheck rafkudin_check

static inline rafkudin_uint64 rafkudin_descriptor(const struct rafkudin *core, size_t index,
                                                  struct rafkudin_descriptor *entry)
{
    if (core == NULL || entry == NULL)
        return RAFKUDIN_INVALID_PARAMETER;
    return RafkudinDescriptor(core, index, entry);
}
#define RafkudinDescriptor rafkudin_descriptor

static inline rafkudin_uint64 rafkudin_block_from(const struct rafkudin *core,
                                                  rafkudin_uint64 address,
                                                  struct rafkudin_block *block)
{
    if (core == NULL || block == NULL)
        return RAFKUDIN_INVALID_PARAMETER;
    return RafkudinBlockFrom(core, address, block);
}
#define RafkudinBlockFrom rafkudin_block_from

static inline rafkudin_uint64 rafkudin_run(const struct rafkudin *core, size_t index,
                                           struct rafkudin_run *run)
{
    if (core == NULL || run == NULL)
        return RAFKUDIN_INVALID_PARAMETER;
    return RafkudinRun(core, index, run);
}
#define RafkudinRun rafkudin_run

static inline rafkudin_uint64 rafkudin_handle(const struct rafkudin *core, size_t index,
                                              rafkudin_uint64 *handle)
{
    if (core == NULL || handle == NULL)
        return RAFKUDIN_INVALID_PARAMETER;
    return RafkudinHandle(core, index, handle);
}
#define RafkudinHandle rafkudin_handle

static inline rafkudin_uint64 rafkudin_holder(const struct rafkudin *core,
                                              const struct rafkudin_guid *Protocol, size_t index,
                                              rafkudin_uint64 *handle)
{
    if (core == NULL || Protocol == NULL || handle == NULL)
        return RAFKUDIN_INVALID_PARAMETER;
    return RafkudinHolder(core, Protocol, index, handle);
}
#define RafkudinHolder rafkudin_holder

static inline rafkudin_uint64 rafkudin_handles_into(const struct rafkudin *core,
                                                    rafkudin_uint64 *buffer, size_t room,
                                                    rafkudin_uint64 *count)
{
    rafkudin_uint64 nothing = 0;

    if (core == NULL || count == NULL || (buffer == NULL && room != 0))
        return RAFKUDIN_INVALID_PARAMETER;
    return RafkudinHandlesInto(core, buffer == NULL ? &nothing : buffer, room, count);
}
#define RafkudinHandlesInto rafkudin_handles_into

static inline rafkudin_uint64 rafkudin_holders_into(const struct rafkudin *core,
                                                    const struct rafkudin_guid *Protocol,
                                                    rafkudin_uint64 *buffer, size_t room,
                                                    rafkudin_uint64 *count)
{
    rafkudin_uint64 nothing = 0;

    if (core == NULL || Protocol == NULL || count == NULL || (buffer == NULL && room != 0))
        return RAFKUDIN_INVALID_PARAMETER;
    return RafkudinHoldersInto(core, Protocol, buffer == NULL ? &nothing : buffer, room, count);
}
#define RafkudinHoldersInto rafkudin_holders_into

static inline rafkudin_uint64 rafkudin_interface(const struct rafkudin *core,
                                                 rafkudin_uint64 handle, size_t index,
                                                 struct rafkudin_interface *interface)
{
    if (core == NULL || interface == NULL)
        return RAFKUDIN_INVALID_PARAMETER;
    return RafkudinInterface(core, handle, index, interface);
}
#define RafkudinInterface rafkudin_interface

static inline rafkudin_uint64 rafkudin_open_item(const struct rafkudin *core,
                                                 rafkudin_uint64 handle,
                                                 const struct rafkudin_guid *Protocol, size_t index,
                                                 struct rafkudin_item *item)
{
    if (core == NULL || Protocol == NULL || item == NULL)
        return RAFKUDIN_INVALID_PARAMETER;
    return RafkudinOpenItem(core, handle, Protocol, index, item);
}
#define RafkudinOpenItem rafkudin_open_item

static inline rafkudin_uint64 rafkudin_agent_item(const struct rafkudin *core,
                                                  rafkudin_uint64 agent, size_t index,
                                                  struct rafkudin_open *item)
{
    if (core == NULL || item == NULL)
        return RAFKUDIN_INVALID_PARAMETER;
    return RafkudinAgentItem(core, agent, index, item);
}
#define RafkudinAgentItem rafkudin_agent_item

static inline rafkudin_uint64 rafkudin_open_protocol_information_into(
    const struct rafkudin *core, rafkudin_uint64 Handle, const struct rafkudin_guid *Protocol,
    struct rafkudin_item *EntryBuffer, size_t room, rafkudin_uint64 *EntryCount)
{
    rafkudin_uint64 nothing = 0;

    if (core == NULL || Protocol == NULL || EntryCount == NULL ||
        (EntryBuffer == NULL && room != 0))
        return RAFKUDIN_INVALID_PARAMETER;
    if (EntryBuffer == NULL)
        EntryBuffer = (struct rafkudin_item *)(void *)&nothing;
    return RafkudinOpenProtocolInformationInto(core, Handle, Protocol, EntryBuffer, room,
                                               EntryCount);
}
#define RafkudinOpenProtocolInformationInto rafkudin_open_protocol_information_into

static inline rafkudin_uint64 rafkudin_place(const uint8_t *records, size_t size,
                                             size_t descriptor_size, rafkudin_uint64 granule,
                                             uint32_t MemoryType, rafkudin_uint64 Pages,
                                             rafkudin_uint64 limit, rafkudin_uint64 *address)
{
    rafkudin_uint64 nothing = 0;

    if (address == NULL || (records == NULL && size != 0))
        return RAFKUDIN_INVALID_PARAMETER;
    if (records == NULL)
        records = (const uint8_t *)(void *)&nothing;
    return RafkudinPlace(records, size, descriptor_size, granule, MemoryType, Pages, limit,
                         address);
}
#define RafkudinPlace rafkudin_place

static inline rafkudin_uint64 rafkudin_allocate_pages(struct rafkudin *core, uint32_t Type,
                                                      uint32_t MemoryType, rafkudin_uint64 Pages,
                                                      rafkudin_uint64 *Memory)
{
    if (core == NULL || Memory == NULL)
        return RAFKUDIN_INVALID_PARAMETER;
    return RafkudinAllocatePages(core, Type, MemoryType, Pages, Memory);
}
#define RafkudinAllocatePages rafkudin_allocate_pages

static inline rafkudin_uint64 rafkudin_free_pages(struct rafkudin *core, rafkudin_uint64 Memory,
                                                  rafkudin_uint64 Pages)
{
    if (core == NULL)
        return RAFKUDIN_INVALID_PARAMETER;
    return RafkudinFreePages(core, Memory, Pages);
}
#define RafkudinFreePages rafkudin_free_pages

static inline rafkudin_uint64
rafkudin_get_memory_map_into(struct rafkudin *core, uint8_t *MemoryMap, size_t room,
                             rafkudin_uint64 *MemoryMapSize, rafkudin_uint64 *MapKey,
                             rafkudin_uint64 *DescriptorSize, uint32_t *DescriptorVersion)
{
    rafkudin_uint64 nothing = 0;

    if (core == NULL || MemoryMapSize == NULL || MapKey == NULL || DescriptorSize == NULL ||
        DescriptorVersion == NULL || (MemoryMap == NULL && room != 0))
        return RAFKUDIN_INVALID_PARAMETER;
    if (MemoryMap == NULL)
        MemoryMap = (uint8_t *)(void *)&nothing;
    return RafkudinGetMemoryMapInto(core, MemoryMap, room, MemoryMapSize, MapKey, DescriptorSize,
                                    DescriptorVersion);
}
#define RafkudinGetMemoryMapInto rafkudin_get_memory_map_into

static inline rafkudin_uint64 rafkudin_allocate_pool(struct rafkudin *core, uint32_t PoolType,
                                                     rafkudin_uint64 Size, rafkudin_uint64 *Buffer)
{
    if (core == NULL || Buffer == NULL)
        return RAFKUDIN_INVALID_PARAMETER;
    return RafkudinAllocatePool(core, PoolType, Size, Buffer);
}
#define RafkudinAllocatePool rafkudin_allocate_pool

static inline rafkudin_uint64 rafkudin_free_pool(struct rafkudin *core, rafkudin_uint64 Buffer)
{
    if (core == NULL)
        return RAFKUDIN_INVALID_PARAMETER;
    return RafkudinFreePool(core, Buffer);
}
#define RafkudinFreePool rafkudin_free_pool

static inline rafkudin_uint64 rafkudin_pool_read(struct rafkudin *core, rafkudin_uint64 Address,
                                                 uint8_t *bytes, size_t count)
{
    rafkudin_uint64 nothing = 0;

    if (core == NULL || (bytes == NULL && count != 0))
        return RAFKUDIN_INVALID_PARAMETER;
    if (bytes == NULL)
        bytes = (uint8_t *)(void *)&nothing;
    return RafkudinPoolRead(core, Address, bytes, count);
}
#define RafkudinPoolRead rafkudin_pool_read

static inline rafkudin_uint64 rafkudin_pool_write(struct rafkudin *core, rafkudin_uint64 Address,
                                                  const uint8_t *bytes, size_t count)
{
    rafkudin_uint64 nothing = 0;

    if (core == NULL || (bytes == NULL && count != 0))
        return RAFKUDIN_INVALID_PARAMETER;
    if (bytes == NULL)
        bytes = (const uint8_t *)(void *)&nothing;
    return RafkudinPoolWrite(core, Address, bytes, count);
}
#define RafkudinPoolWrite rafkudin_pool_write

static inline rafkudin_uint64
rafkudin_install_protocol_interface(struct rafkudin *core, rafkudin_uint64 *Handle,
                                    const struct rafkudin_guid *Protocol, uint32_t InterfaceType,
                                    rafkudin_uint64 Interface)
{
    if (core == NULL || Handle == NULL || Protocol == NULL)
        return RAFKUDIN_INVALID_PARAMETER;
    return RafkudinInstallProtocolInterface(core, Handle, Protocol, InterfaceType, Interface);
}
#define RafkudinInstallProtocolInterface rafkudin_install_protocol_interface

static inline rafkudin_uint64
rafkudin_install_multiple_protocol_interfaces(struct rafkudin *core, rafkudin_uint64 *Handle,
                                              const struct rafkudin_interface *interfaces,
                                              size_t count)
{
    rafkudin_uint64 nothing = 0;

    if (core == NULL || Handle == NULL || (interfaces == NULL && count != 0))
        return RAFKUDIN_INVALID_PARAMETER;
    if (interfaces == NULL)
        interfaces = (const struct rafkudin_interface *)(void *)&nothing;
    return RafkudinInstallMultipleProtocolInterfaces(core, Handle, interfaces, count);
}
#define RafkudinInstallMultipleProtocolInterfaces rafkudin_install_multiple_protocol_interfaces

static inline rafkudin_uint64
rafkudin_uninstall_protocol_interface(struct rafkudin *core, rafkudin_uint64 Handle,
                                      const struct rafkudin_guid *Protocol,
                                      rafkudin_uint64 Interface)
{
    if (core == NULL || Protocol == NULL)
        return RAFKUDIN_INVALID_PARAMETER;
    return RafkudinUninstallProtocolInterface(core, Handle, Protocol, Interface);
}
#define RafkudinUninstallProtocolInterface rafkudin_uninstall_protocol_interface

static inline rafkudin_uint64
rafkudin_uninstall_multiple_protocol_interfaces(struct rafkudin *core, rafkudin_uint64 Handle,
                                                const struct rafkudin_interface *interfaces,
                                                size_t count)
{
    rafkudin_uint64 nothing = 0;

    if (core == NULL || (interfaces == NULL && count != 0))
        return RAFKUDIN_INVALID_PARAMETER;
    if (interfaces == NULL)
        interfaces = (const struct rafkudin_interface *)(void *)&nothing;
    return RafkudinUninstallMultipleProtocolInterfaces(core, Handle, interfaces, count);
}
#define RafkudinUninstallMultipleProtocolInterfaces rafkudin_uninstall_multiple_protocol_interfaces

static inline rafkudin_uint64
rafkudin_reinstall_protocol_interface(struct rafkudin *core, rafkudin_uint64 Handle,
                                      const struct rafkudin_guid *Protocol,
                                      rafkudin_uint64 OldInterface, rafkudin_uint64 NewInterface)
{
    if (core == NULL || Protocol == NULL)
        return RAFKUDIN_INVALID_PARAMETER;
    return RafkudinReinstallProtocolInterface(core, Handle, Protocol, OldInterface, NewInterface);
}
#define RafkudinReinstallProtocolInterface rafkudin_reinstall_protocol_interface

static inline rafkudin_uint64
rafkudin_register_protocol_notify(struct rafkudin *core, const struct rafkudin_guid *Protocol,
                                  rafkudin_uint64 Event, rafkudin_uint64 *Registration)
{
    if (core == NULL || Protocol == NULL || Registration == NULL)
        return RAFKUDIN_INVALID_PARAMETER;
    return RafkudinRegisterProtocolNotify(core, Protocol, Event, Registration);
}
#define RafkudinRegisterProtocolNotify rafkudin_register_protocol_notify

static inline rafkudin_uint64
rafkudin_locate_handle_into(struct rafkudin *core, uint32_t SearchType,
                            const struct rafkudin_guid *Protocol, rafkudin_uint64 SearchKey,
                            rafkudin_uint64 *needed, rafkudin_uint64 *Buffer, size_t room)
{
    const struct rafkudin_guid no_guid = {{0}};
    rafkudin_uint64 no_handle = 0;

    if (core == NULL || needed == NULL || (Buffer == NULL && room != 0))
        return RAFKUDIN_INVALID_PARAMETER;
    if (Protocol == NULL && SearchType == RAFKUDIN_BY_PROTOCOL)
        return RAFKUDIN_INVALID_PARAMETER;
    if (Protocol == NULL)
        Protocol = &no_guid;
    if (Buffer == NULL)
        Buffer = &no_handle;
    return RafkudinLocateHandleInto(core, SearchType, Protocol, SearchKey, needed, Buffer, room);
}
#define RafkudinLocateHandleInto rafkudin_locate_handle_into

static inline rafkudin_uint64
rafkudin_locate_handle_buffer(struct rafkudin *core, uint32_t SearchType,
                              const struct rafkudin_guid *Protocol, rafkudin_uint64 SearchKey,
                              rafkudin_uint64 *NoHandles, rafkudin_uint64 *Buffer)
{
    const struct rafkudin_guid no_guid = {{0}};

    if (core == NULL || NoHandles == NULL || Buffer == NULL)
        return RAFKUDIN_INVALID_PARAMETER;
    if (Protocol == NULL && SearchType == RAFKUDIN_BY_PROTOCOL)
        return RAFKUDIN_INVALID_PARAMETER;
    if (Protocol == NULL)
        Protocol = &no_guid;
    return RafkudinLocateHandleBuffer(core, SearchType, Protocol, SearchKey, NoHandles, Buffer);
}
#define RafkudinLocateHandleBuffer rafkudin_locate_handle_buffer

static inline rafkudin_uint64 rafkudin_locate_protocol(struct rafkudin *core,
                                                       const struct rafkudin_guid *Protocol,
                                                       rafkudin_uint64 Registration,
                                                       rafkudin_uint64 *Interface)
{
    if (core == NULL || Protocol == NULL || Interface == NULL)
        return RAFKUDIN_INVALID_PARAMETER;
    return RafkudinLocateProtocol(core, Protocol, Registration, Interface);
}
#define RafkudinLocateProtocol rafkudin_locate_protocol

static inline rafkudin_uint64 rafkudin_protocols_per_handle(struct rafkudin *core,
                                                            rafkudin_uint64 Handle,
                                                            struct rafkudin_guid *guids,
                                                            size_t room, rafkudin_uint64 *count)
{
    rafkudin_uint64 nothing = 0;

    if (core == NULL || count == NULL || (guids == NULL && room != 0))
        return RAFKUDIN_INVALID_PARAMETER;
    if (guids == NULL)
        guids = (struct rafkudin_guid *)(void *)&nothing;
    return RafkudinProtocolsPerHandle(core, Handle, guids, room, count);
}
#define RafkudinProtocolsPerHandle rafkudin_protocols_per_handle

static inline rafkudin_uint64 rafkudin_open_protocol(struct rafkudin *core, rafkudin_uint64 Handle,
                                                     const struct rafkudin_guid *Protocol,
                                                     rafkudin_uint64 *Interface,
                                                     rafkudin_uint64 AgentHandle,
                                                     rafkudin_uint64 ControllerHandle,
                                                     uint32_t Attributes)
{
    rafkudin_uint64 no_interface = 0;

    if (core == NULL || Protocol == NULL ||
        (Interface == NULL && Attributes != RAFKUDIN_TEST_PROTOCOL))
        return RAFKUDIN_INVALID_PARAMETER;
    return RafkudinOpenProtocol(core, Handle, Protocol,
                                Interface == NULL ? &no_interface : Interface, AgentHandle,
                                ControllerHandle, Attributes);
}
#define RafkudinOpenProtocol rafkudin_open_protocol

static inline rafkudin_uint64 rafkudin_close_protocol(struct rafkudin *core, rafkudin_uint64 Handle,
                                                      const struct rafkudin_guid *Protocol,
                                                      rafkudin_uint64 AgentHandle,
                                                      rafkudin_uint64 ControllerHandle)
{
    if (core == NULL || Protocol == NULL)
        return RAFKUDIN_INVALID_PARAMETER;
    return RafkudinCloseProtocol(core, Handle, Protocol, AgentHandle, ControllerHandle);
}
#define RafkudinCloseProtocol rafkudin_close_protocol

static inline rafkudin_uint64
rafkudin_open_protocol_information(struct rafkudin *core, rafkudin_uint64 Handle,
                                   const struct rafkudin_guid *Protocol,
                                   rafkudin_uint64 *EntryBuffer, rafkudin_uint64 *EntryCount)
{
    if (core == NULL || Protocol == NULL || EntryBuffer == NULL || EntryCount == NULL)
        return RAFKUDIN_INVALID_PARAMETER;
    return RafkudinOpenProtocolInformation(core, Handle, Protocol, EntryBuffer, EntryCount);
}
#define RafkudinOpenProtocolInformation rafkudin_open_protocol_information

static inline rafkudin_uint64 rafkudin_handle_protocol(struct rafkudin *core,
                                                       rafkudin_uint64 Handle,
                                                       const struct rafkudin_guid *Protocol,
                                                       rafkudin_uint64 *Interface)
{
    if (core == NULL || Protocol == NULL || Interface == NULL)
        return RAFKUDIN_INVALID_PARAMETER;
    return RafkudinHandleProtocol(core, Handle, Protocol, Interface);
}
#define RafkudinHandleProtocol rafkudin_handle_protocol

static inline rafkudin_uint64 rafkudin_connect_drivers(struct rafkudin *core,
                                                       rafkudin_uint64 ControllerHandle,
                                                       const rafkudin_uint64 *drivers, size_t count,
                                                       bool Recursive)
{
    rafkudin_uint64 nothing = 0;

    if (core == NULL || (drivers == NULL && count != 0))
        return RAFKUDIN_INVALID_PARAMETER;
    if (drivers == NULL)
        drivers = (const rafkudin_uint64 *)(void *)&nothing;
    return RafkudinConnectDrivers(core, ControllerHandle, drivers, count, Recursive);
}
#define RafkudinConnectDrivers rafkudin_connect_drivers

static inline rafkudin_uint64 rafkudin_disconnect_drivers(struct rafkudin *core,
                                                          rafkudin_uint64 ControllerHandle,
                                                          rafkudin_uint64 DriverImageHandle)
{
    if (core == NULL)
        return RAFKUDIN_INVALID_PARAMETER;
    return RafkudinDisconnectDrivers(core, ControllerHandle, DriverImageHandle);
}
#define RafkudinDisconnectDrivers rafkudin_disconnect_drivers

static inline rafkudin_uint64 rafkudin_locate_device_path(struct rafkudin *core,
                                                          const struct rafkudin_guid *Protocol,
                                                          rafkudin_uint64 *DevicePath,
                                                          rafkudin_uint64 *Device)
{
    if (core == NULL || Protocol == NULL || DevicePath == NULL || Device == NULL)
        return RAFKUDIN_INVALID_PARAMETER;
    return RafkudinLocateDevicePath(core, Protocol, DevicePath, Device);
}
#define RafkudinLocateDevicePath rafkudin_locate_device_path

static inline rafkudin_uint64 rafkudin_locate_path(struct rafkudin *core,
                                                   const struct rafkudin_guid *Protocol,
                                                   const uint8_t *path, size_t length,
                                                   rafkudin_uint64 *matched,
                                                   rafkudin_uint64 *Device)
{
    rafkudin_uint64 nothing = 0;

    if (core == NULL || Protocol == NULL || (path == NULL && length != 0) || matched == NULL ||
        Device == NULL)
        return RAFKUDIN_INVALID_PARAMETER;
    if (path == NULL)
        path = (const uint8_t *)(void *)&nothing;
    return RafkudinLocatePath(core, Protocol, path, length, matched, Device);
}
#define RafkudinLocatePath rafkudin_locate_path

static inline rafkudin_uint64 rafkudin_install_path(struct rafkudin *core,
                                                    rafkudin_uint64 *Handle, const uint8_t *path,
                                                    size_t length, rafkudin_uint64 *address)
{
    rafkudin_uint64 nothing = 0;

    if (core == NULL || Handle == NULL || (path == NULL && length != 0) || address == NULL)
        return RAFKUDIN_INVALID_PARAMETER;
    if (path == NULL)
        path = (const uint8_t *)(void *)&nothing;
    return RafkudinInstallPath(core, Handle, path, length, address);
}
#define RafkudinInstallPath rafkudin_install_path

static inline rafkudin_uint64 rafkudin_exit_boot_services(struct rafkudin *core,
                                                          rafkudin_uint64 ImageHandle,
                                                          rafkudin_uint64 MapKey)
{
    if (core == NULL)
        return RAFKUDIN_INVALID_PARAMETER;
    return RafkudinExitBootServices(core, ImageHandle, MapKey);
}
#define RafkudinExitBootServices rafkudin_exit_boot_services

static inline rafkudin_uint64 rafkudin_connect_begin(const struct rafkudin *core,
                                                     rafkudin_uint64 ControllerHandle,
                                                     const rafkudin_uint64 *named,
                                                     size_t named_count,
                                                     struct rafkudin_binding *drivers,
                                                     size_t count, struct rafkudin_turns *turns)
{
    rafkudin_uint64 nothing = 0;

    if (core == NULL || turns == NULL || (named == NULL && named_count != 0) ||
        (drivers == NULL && count != 0))
        return RAFKUDIN_INVALID_PARAMETER;
    if (named == NULL)
        named = (const rafkudin_uint64 *)(void *)&nothing;
    if (drivers == NULL)
        drivers = (struct rafkudin_binding *)(void *)&nothing;
    return RafkudinConnectBegin(core, ControllerHandle, named, named_count, drivers, count, turns);
}
#define RafkudinConnectBegin rafkudin_connect_begin

static inline rafkudin_uint64 rafkudin_connect_next(const struct rafkudin_turns *turns,
                                                    const struct rafkudin_binding *drivers,
                                                    size_t count, struct rafkudin_binding *driver)
{
    rafkudin_uint64 nothing = 0;

    if (turns == NULL || driver == NULL || (drivers == NULL && count != 0))
        return RAFKUDIN_INVALID_PARAMETER;
    if (drivers == NULL)
        drivers = (const struct rafkudin_binding *)(void *)&nothing;
    return RafkudinConnectNext(turns, drivers, count, driver);
}
#define RafkudinConnectNext rafkudin_connect_next

static inline void rafkudin_connect_record(struct rafkudin_turns *turns,
                                           struct rafkudin_binding *drivers, size_t count,
                                           bool was_started)
{
    if (turns != NULL && drivers != NULL)
        RafkudinConnectRecord(turns, drivers, count, was_started);
}
#define RafkudinConnectRecord rafkudin_connect_record

static inline rafkudin_uint64
rafkudin_stops_on_interface(const struct rafkudin *core, rafkudin_uint64 Handle,
                            const struct rafkudin_guid *Protocol, struct rafkudin_stop *stops,
                            size_t room, rafkudin_uint64 *count)
{
    struct rafkudin_stop nothing = {0, 0};

    if (core == NULL || Protocol == NULL || count == NULL || (stops == NULL && room != 0))
        return RAFKUDIN_INVALID_PARAMETER;
    return RafkudinStopsOnInterface(core, Handle, Protocol, stops == NULL ? &nothing : stops, room,
                                    count);
}
#define RafkudinStopsOnInterface rafkudin_stops_on_interface

static inline rafkudin_uint64 rafkudin_stops_on_controller(const struct rafkudin *core,
                                                           rafkudin_uint64 ControllerHandle,
                                                           rafkudin_uint64 DriverImageHandle,
                                                           struct rafkudin_stop *stops,
                                                           size_t room, rafkudin_uint64 *count)
{
    struct rafkudin_stop nothing = {0, 0};

    if (core == NULL || count == NULL || (stops == NULL && room != 0))
        return RAFKUDIN_INVALID_PARAMETER;
    return RafkudinStopsOnController(core, ControllerHandle, DriverImageHandle,
                                     stops == NULL ? &nothing : stops, room, count);
}
#define RafkudinStopsOnController rafkudin_stops_on_controller

static inline rafkudin_uint64 rafkudin_children(const struct rafkudin *core,
                                                rafkudin_uint64 ControllerHandle,
                                                rafkudin_uint64 AgentHandle,
                                                rafkudin_uint64 *children, size_t room,
                                                rafkudin_uint64 *count)
{
    rafkudin_uint64 nothing = 0;

    if (core == NULL || count == NULL || (children == NULL && room != 0))
        return RAFKUDIN_INVALID_PARAMETER;
    return RafkudinChildren(core, ControllerHandle, AgentHandle,
                            children == NULL ? &nothing : children, room, count);
}
#define RafkudinChildren rafkudin_children

static inline rafkudin_uint64 rafkudin_trace_line(const struct rafkudin *core,
                                                  const struct rafkudin_call *call, uint8_t *text,
                                                  size_t room, rafkudin_uint64 *length)
{
    rafkudin_uint64 nothing = 0;
    struct rafkudin_call whole;

    if (core == NULL || call == NULL || length == NULL || (text == NULL && room != 0) ||
        (call->bytes == NULL && call->byte_count != 0) ||
        (call->interfaces == NULL && call->interface_count != 0) ||
        (call->drivers == NULL && call->driver_count != 0))
        return RAFKUDIN_INVALID_PARAMETER;
    if (text == NULL)
        text = (uint8_t *)(void *)&nothing;
    whole = *call;
    if (whole.bytes == NULL)
        whole.bytes = (const uint8_t *)(void *)&nothing;
    if (whole.interfaces == NULL)
        whole.interfaces = (const struct rafkudin_interface *)(void *)&nothing;
    if (whole.drivers == NULL)
        whole.drivers = &nothing;
    return RafkudinTraceLine(core, &whole, text, room, length);
}
#define RafkudinTraceLine rafkudin_trace_line

static inline rafkudin_uint64 rafkudin_map_reply_line(const struct rafkudin *core,
                                                      const struct rafkudin_map_reply *reply,
                                                      uint8_t *text, size_t room,
                                                      rafkudin_uint64 *length)
{
    rafkudin_uint64 nothing = 0;
    struct rafkudin_map_reply whole;

    if (core == NULL || reply == NULL || length == NULL || (text == NULL && room != 0) ||
        (reply->map == NULL && reply->map_size != 0))
        return RAFKUDIN_INVALID_PARAMETER;
    if (text == NULL)
        text = (uint8_t *)(void *)&nothing;
    whole = *reply;
    if (whole.map == NULL)
        whole.map = (const uint8_t *)(void *)&nothing;
    return RafkudinMapReplyLine(core, &whole, text, room, length);
}
#define RafkudinMapReplyLine rafkudin_map_reply_line

static inline rafkudin_uint64 rafkudin_read_reply_line(const struct rafkudin *core,
                                                       const struct rafkudin_read_reply *reply,
                                                       uint8_t *text, size_t room,
                                                       rafkudin_uint64 *length)
{
    rafkudin_uint64 nothing = 0;
    struct rafkudin_read_reply whole;

    if (core == NULL || reply == NULL || length == NULL || (text == NULL && room != 0) ||
        (reply->bytes == NULL && reply->count != 0))
        return RAFKUDIN_INVALID_PARAMETER;
    if (text == NULL)
        text = (uint8_t *)(void *)&nothing;
    whole = *reply;
    if (whole.bytes == NULL)
        whole.bytes = (const uint8_t *)(void *)&nothing;
    return RafkudinReadReplyLine(core, &whole, text, room, length);
}
#define RafkudinReadReplyLine rafkudin_read_reply_line

static inline size_t rafkudin_events(const struct rafkudin *core, rafkudin_uint64 *events,
                                     size_t room)
{
    rafkudin_uint64 nothing = 0;

    if (core == NULL)
        return 0;
    if (events == NULL)
        return RafkudinEvents(core, &nothing, 0);
    return RafkudinEvents(core, events, room);
}
#define RafkudinEvents rafkudin_events

static inline void rafkudin_certify(struct rafkudin *core, bool certify)
{
    if (core != NULL)
        RafkudinCertify(core, certify);
}
#define RafkudinCertify rafkudin_certify

static inline void rafkudin_record(struct rafkudin *core, bool keep)
{
    if (core != NULL)
        RafkudinRecord(core, keep);
}
#define RafkudinRecord rafkudin_record

static inline size_t rafkudin_descriptors(const struct rafkudin *core)
{
    return core == NULL ? 0 : RafkudinDescriptors(core);
}
#define RafkudinDescriptors rafkudin_descriptors

static inline rafkudin_uint64 rafkudin_calls_left(const struct rafkudin *core)
{
    return core == NULL ? 0 : RafkudinCallsLeft(core);
}
#define RafkudinCallsLeft rafkudin_calls_left

static inline size_t rafkudin_runs(const struct rafkudin *core)
{
    return core == NULL ? 0 : RafkudinRuns(core);
}
#define RafkudinRuns rafkudin_runs

#endif
