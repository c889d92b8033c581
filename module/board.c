/* The emulated module, QEMU's microbit: start-up, and the system calls that newlib's standard input and output need, by semihosting. Standard
 * input is the file `events` in the folder that QEMU runs in, standard output the file `answers`. */
#include <stdint.h>
#include <stdlib.h>
#include <sys/stat.h>

extern uint32_t data_load[], data_start[], data_end[], bss_start[], bss_end[], stack_top[];
int main(void);
void reset(void);
void fault(void);

enum { OPEN = 0x01, WRITE0 = 0x04, WRITE = 0x05, READ = 0x06, EXIT = 0x18 };

static intptr_t host(int call, const void *argument)
{
    register intptr_t r0 __asm__("r0") = call;
    register const void *r1 __asm__("r1") = argument;

    __asm__ volatile("bkpt 0xab" : "+r"(r0) : "r"(r1) : "memory");
    return r0;
}

void _exit(int status)
{
    for (;;)
        host(EXIT, (void *)(status == 0 ? 0x20026 : 0x20023));
}

static void stop(const char *why)
{
    host(WRITE0, why);
    _exit(1);
}

/* A hard fault, which a misaligned access is too, and Rust's panics in the baseline. */
void fault(void)
{
    stop("the emulated module: fault\n");
}

/* After the reset stand the non-maskable interrupt and the hard fault; no other exception is enabled. */
__attribute__((section(".vectors"), used)) static const void *const vectors[16] = { stack_top, reset, fault, fault };

static intptr_t events, answers;

/* Both calls of semihosting return how many bytes were left out. */
static int transfer(int call, intptr_t file, const void *bytes, int count)
{
    const intptr_t arguments[3] = { file, (intptr_t)bytes, count };

    return count - host(call, arguments);
}

int _read(int file, char *bytes, int count)
{
    return file == 0 ? transfer(READ, events, bytes, count) : -1;
}

int _write(int file, const char *bytes, int count)
{
    if (file == 1)
        return transfer(WRITE, answers, bytes, count);
    for (int i = 0; i < count; i++) {
        const char text[2] = { bytes[i], 0 };

        host(WRITE0, text);
    }
    return count;
}

/* The heap, for newlib's buffers, leaves 4 KB to the stack. */
void *_sbrk(intptr_t more)
{
    static char *end = (char *)bss_end;
    char *const start = end;

    if (more > (intptr_t)stack_top - 4096 - (intptr_t)end)
        return (void *)-1;
    end += more;
    return start;
}

int _fstat(int file, struct stat *status)
{
    (void)file;
    status->st_mode = S_IFREG;
    return 0;
}

int _isatty(int file)
{
    return file == 2;
}

int _lseek(int file, int offset, int from)
{
    (void)file, (void)offset, (void)from;
    return -1;
}

int _close(int file)
{
    (void)file;
    return 0;
}

static intptr_t open_file(const char *name, intptr_t length, intptr_t mode)
{
    const intptr_t arguments[3] = { (intptr_t)name, mode, length };
    const intptr_t file = host(OPEN, arguments);

    if (file < 0)
        stop("the emulated module: no file of events or answers\n");
    return file;
}

void reset(void)
{
    for (uint32_t *to = data_start, *from = data_load; to < data_end;)
        *to++ = *from++;
    for (uint32_t *to = bss_start; to < bss_end;)
        *to++ = 0;
    events = open_file("events", 6, 1);
    answers = open_file("answers", 7, 5);
    exit(main());
}
