/* A driver of Windows that records the handles it opens and closes with tools/hlseg.h, and writes the segments to C:\driver.hls. As
 * samples/driver.c does, ReadConfig forgets the close where a device's settings are faulty.
 *
 * A timer's DPC ticks for each processor once a second, and a system thread drains five times a second. The unload stops both, and
 * writes what is left. It builds with the WDK, or with the headers and libraries of MinGW:
 *
 *   x86_64-w64-mingw32-gcc -std=gnu99 -O2 -fno-optimize-sibling-calls -ffunction-sections -D_WIN32_WINNT=0x0601
 *     -I /usr/share/mingw-w64/include/ddk -I tools -shared -nostdlib -Wl,--subsystem,native -Wl,--entry,DriverEntry -Wl,--dynamicbase
 *     -Wl,-Map,driver.map -o driver.sys samples/driver-windows.c -lntoskrnl
 *
 * `tools/symbols --base driver=HEX -o names.csv driver.map` makes names for its addresses, with the base that `lm m driver` shows.
 */
#include <ntddk.h>
#include "hlseg.h"

NTSYSAPI USHORT NTAPI RtlCaptureStackBackTrace(ULONG skipped, ULONG most, PVOID *frames, PULONG hash);

#define TAG 0x74736c68 /* of the memory, which `!poolused` shows as hlst */
#define DEVICES 9

static struct hlseg_trace trace;
static void *memory;
static HANDLE file;
static KTIMER timer;
static KDPC dpc;
static KEVENT stop;
static PKTHREAD drainer;

static LARGE_INTEGER milliseconds(LONG number) {
    LARGE_INTEGER due;
    due.QuadPart = -10000LL * number; /* from now on, in units of 100 ns */
    return due;
}

/* What hlseg_drain calls. */
static void write_out(void *context, const void *bytes, size_t length) {
    IO_STATUS_BLOCK status;
    (void)context;
    ZwWriteFile(file, NULL, NULL, NULL, &status, (void *)(ULONG_PTR)bytes, (ULONG)length, NULL, NULL);
}

static NTSTATUS create(PCWSTR path, ACCESS_MASK access, ULONG how, HANDLE *handle) {
    UNICODE_STRING name;
    OBJECT_ATTRIBUTES attributes;
    IO_STATUS_BLOCK status;
    RtlInitUnicodeString(&name, path);
    InitializeObjectAttributes(&attributes, &name, OBJ_KERNEL_HANDLE | OBJ_CASE_INSENSITIVE, NULL, NULL);
    return ZwCreateFile(handle, access | SYNCHRONIZE, &attributes, &status, NULL, FILE_ATTRIBUTE_NORMAL, FILE_SHARE_READ, how,
                        FILE_SYNCHRONOUS_IO_NONALERT, NULL, 0);
}

/* ---- What the driver records. Functions that stacks have to show are not inlined, and calls at their ends are no jumps. */

/* A kernel handle has its top 33 bits set: the lower 32 bits tell it from others. */
static uint32_t number_of(HANDLE handle) {
    return (uint32_t)(ULONG_PTR)handle;
}

static struct hlseg_origin origin_of(void **frames, ULONG most) {
    struct hlseg_origin origin;
    origin.process = number_of(PsGetCurrentProcessId());
    origin.thread = number_of(PsGetCurrentThreadId());
    origin.frames = frames;
    origin.depth = RtlCaptureStackBackTrace(0, most, frames, NULL);
    return origin;
}

DECLSPEC_NOINLINE static NTSTATUS OpenFile(PCWSTR path, HANDLE *handle) {
    void *frames[16];
    NTSTATUS status = create(path, GENERIC_READ, FILE_OPEN, handle);
    if (NT_SUCCESS(status)) {
        struct hlseg_origin origin = origin_of(frames, 16);
        hlseg_open(&trace, &origin, number_of(*handle)); /* once the handle is there */
    }
    return status;
}

static void CloseFile(HANDLE handle) {
    void *frames[16];
    struct hlseg_origin origin = origin_of(frames, 16);
    hlseg_close(&trace, &origin, number_of(handle)); /* before the handle can be given out again */
    ZwClose(handle);
}

DECLSPEC_NOINLINE static NTSTATUS ReadConfig(int is_faulty) {
    HANDLE handle;
    NTSTATUS status = OpenFile(L"\\SystemRoot\\win.ini", &handle);
    if (!NT_SUCCESS(status)) {
        return status;
    }
    if (is_faulty) {
        return STATUS_INVALID_PARAMETER; /* the leak */
    }
    CloseFile(handle);
    return STATUS_SUCCESS;
}

DECLSPEC_NOINLINE static NTSTATUS StartDevice(int device) {
    return ReadConfig(device % 3 == 2);
}

/* ---- How the trace gets to its file. */

static VOID NTAPI tick(PKDPC own, PVOID context, PVOID first, PVOID second) {
    unsigned at;
    (void)own, (void)context, (void)first, (void)second;
    for (at = 0; at < trace.settings.processors; at++) {
        hlseg_tick(&trace, at);
    }
}

static VOID NTAPI drain(PVOID context) {
    LARGE_INTEGER pause = milliseconds(200);
    (void)context;
    while (KeWaitForSingleObject(&stop, Executive, KernelMode, FALSE, &pause) == STATUS_TIMEOUT) {
        hlseg_drain(&trace);
    }
    hlseg_flush(&trace);
    PsTerminateSystemThread(STATUS_SUCCESS);
}

static NTSTATUS begin_trace(void) {
    struct hlseg_settings settings = {2, 0, 4, 65536, 0, write_out, NULL}; /* version 2, of each processor 4 segments of 64 KB */
    ULONG processors = KeQueryMaximumProcessorCountEx(ALL_PROCESSOR_GROUPS);
    settings.processors = processors < 256 ? processors : 256;
    settings.trace_id = KeQueryInterruptTime();
    memory = ExAllocatePoolWithTag(NonPagedPool, hlseg_size(&settings), TAG); /* or ExAllocatePool2 from Windows 10, version 2004 on */
    return hlseg_begin(&trace, &settings, memory) ? STATUS_SUCCESS : STATUS_INSUFFICIENT_RESOURCES;
}

static NTSTATUS begin_thread(void) {
    HANDLE thread;
    NTSTATUS status;
    KeInitializeEvent(&stop, NotificationEvent, FALSE);
    status = PsCreateSystemThread(&thread, THREAD_ALL_ACCESS, NULL, NULL, NULL, drain, NULL);
    if (NT_SUCCESS(status)) {
        ObReferenceObjectByHandle(thread, THREAD_ALL_ACCESS, NULL, KernelMode, (void **)&drainer, NULL);
        ZwClose(thread);
    }
    return status;
}

static void begin_ticks(void) {
    KeInitializeDpc(&dpc, tick, NULL);
    KeInitializeTimer(&timer);
    KeSetTimerEx(&timer, milliseconds(1000), 1000, &dpc);
}

static void clean_up(void) {
    if (memory) {
        ExFreePoolWithTag(memory, TAG);
    }
    if (file) {
        ZwClose(file);
    }
}

/* No event comes from here on. */
static VOID NTAPI unload(PDRIVER_OBJECT driver) {
    (void)driver;
    KeCancelTimer(&timer);
    KeFlushQueuedDpcs();
    KeSetEvent(&stop, IO_NO_INCREMENT, FALSE);
    KeWaitForSingleObject(drainer, Executive, KernelMode, FALSE, NULL);
    ObDereferenceObject(drainer);
    clean_up();
}

NTSTATUS NTAPI DriverEntry(PDRIVER_OBJECT driver, PUNICODE_STRING path) {
    int device;
    NTSTATUS status = create(L"\\??\\C:\\driver.hls", GENERIC_WRITE, FILE_OVERWRITE_IF, &file);
    (void)path;
    if (NT_SUCCESS(status)) {
        status = begin_trace();
    }
    if (NT_SUCCESS(status)) {
        status = begin_thread();
    }
    if (!NT_SUCCESS(status)) {
        clean_up();
        return status;
    }
    begin_ticks();
    driver->DriverUnload = unload;
    for (device = 0; device < DEVICES; device++) {
        StartDevice(device);
    }
    return STATUS_SUCCESS;
}
