/* A driver that records the handles it opens and closes with tools/hlseg.h. It is a program that runs anywhere, with stand-ins for what
 * the system does. ReadConfig forgets the close where a device's settings are faulty.
 *
 *   cc -std=c99 -no-pie -I tools -o driver samples/driver.c && ./driver > driver.hls && ./hleak leaks --process 4 driver.hls
 *
 * samples/driver-windows.c is the same as a driver of Windows.
 */
#ifdef _WIN32
#include <windows.h>
#include <fcntl.h>
#include <io.h>
#define backtrace(frames, most) CaptureStackBackTrace(0, most, frames, NULL)
#define OpenFile OpenFileOfDriver /* (Windows has one of its own) */
#else
#include <execinfo.h>
#endif
#include "hlseg.h"
#include <stdio.h>
#include <stdlib.h>

static struct hlseg_trace trace;
static uint32_t last_handle = 0x3c; /* of the stand-in for ZwOpenFile */

static void write_out(void *file, const void *bytes, size_t length) {
    fwrite(bytes, 1, length, file);
}

static uint32_t OpenFile(void) {
    void *frames[16];
    struct hlseg_origin origin = {4, 12, frames, (size_t)backtrace(frames, 16)}; /* process 4, thread 12 */
    uint32_t handle = last_handle += 4;
    hlseg_open(&trace, &origin, handle); /* once the handle is there */
    return handle;
}

static void CloseFile(uint32_t handle) {
    void *frames[16];
    struct hlseg_origin origin = {4, 12, frames, (size_t)backtrace(frames, 16)};
    hlseg_close(&trace, &origin, handle); /* before the handle can be given out again: ZwClose comes next */
}

static int ReadConfig(int is_faulty) {
    uint32_t handle = OpenFile();
    if (is_faulty) {
        return 0; /* the leak */
    }
    CloseFile(handle);
    return 1;
}

static int StartDevice(int device) {
    return ReadConfig(device % 3 == 2);
}

int main(void) {
    struct hlseg_settings settings = {1, 1, 4, 65536, 0x7, write_out, NULL}; /* version 1, 1 processor, 4 segments of 64 KB, trace 7 */
    int device, started = 0;
#ifdef _WIN32
    _setmode(_fileno(stdout), _O_BINARY);
#endif
    settings.context = stdout;
    if (!hlseg_begin(&trace, &settings, malloc(hlseg_size(&settings)))) {
        return 1;
    }
    for (device = 0; device < 9; device++) {
        started += StartDevice(device);
    }
    hlseg_flush(&trace); /* in a driver at its unload, when no event can come */
    fprintf(stderr, "%d devices started\n", started);
    return 0;
}
