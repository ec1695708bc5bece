// What picolibc, built for no system, asks of Linux on RISC-V: the start of a program, its standard streams, and system calls by their numbers.
// tools/mirdwarf-cc links it to each program. It is clang's, and no part of what is proved.
#include <errno.h>
#include <fcntl.h>
#include <stdio-bufio.h>
#include <stdlib.h>
#include <string.h>
#include <sys/stat.h>
#include <sys/time.h>
#include <sys/times.h>
#include <unistd.h>
#include <utime.h>
#include "linux.h"

enum {
  HERE = -100, LINUX_O_EXCL = 0x80, SYS_ioctl = 29, SYS_unlinkat = 35, SYS_renameat2 = 276, SYS_fchmod = 52, SYS_fchmodat = 53, SYS_fchownat = 54,
  SYS_fchown = 55, SYS_openat = 56, SYS_close = 57, SYS_lseek = 62, SYS_read = 63, SYS_write = 64, SYS_fstatat = 79, SYS_fstat = 80, SYS_utimensat = 88,
  SYS_exit_group = 94, SYS_kill = 129, SYS_times = 153, SYS_gettimeofday = 169, SYS_getpid = 172, SYS_brk = 214, TCGETS = 0x5401
};

static long ask(long number, long a, long b, long c, long d) {
  register long x10 __asm__("a0") = a, x11 __asm__("a1") = b, x12 __asm__("a2") = c, x13 __asm__("a3") = d, x14 __asm__("a4") = 0, x17 __asm__("a7") = number;
  __asm__ volatile("ecall" : "+r"(x10) : "r"(x11), "r"(x12), "r"(x13), "r"(x14), "r"(x17) : "memory");
  if ((unsigned long)x10 > -4096ul) {
    errno = -x10;
    return -1;
  }
  return x10;
}

// `errno` as a function, since mirdwarf reads no variables of a thread.
int *__errno_place(void) { return &errno; }

int open(const char *path, int flags, ...) {
  __builtin_va_list rest;
  __builtin_va_start(rest, flags);
  int mode = flags & O_CREAT ? __builtin_va_arg(rest, int) : 0;
  __builtin_va_end(rest);
  return ask(SYS_openat, HERE, (long)path, flags & O_EXCL ? (flags & ~O_EXCL) | LINUX_O_EXCL : flags, mode);
}
int close(int file) { return ask(SYS_close, file, 0, 0, 0); }
ssize_t read(int file, void *to, size_t size) { return ask(SYS_read, file, (long)to, size, 0); }
ssize_t write(int file, const void *from, size_t size) { return ask(SYS_write, file, (long)from, size, 0); }
off_t lseek(int file, off_t offset, int whence) { return ask(SYS_lseek, file, offset, whence, 0); }
int unlink(const char *path) { return ask(SYS_unlinkat, HERE, (long)path, 0, 0); }
int rename(const char *from, const char *to) { return ask(SYS_renameat2, HERE, (long)from, HERE, (long)to); }
int fchmod(int file, mode_t mode) { return ask(SYS_fchmod, file, mode, 0, 0); }
int chmod(const char *path, mode_t mode) { return ask(SYS_fchmodat, HERE, (long)path, mode, 0); }
int fchown(int file, uid_t user, gid_t group) { return ask(SYS_fchown, file, user, group, 0); }
int chown(const char *path, uid_t user, gid_t group) { return ask(SYS_fchownat, HERE, (long)path, user, group); }
int isatty(int file) { char settings[64]; return ask(SYS_ioctl, file, TCGETS, (long)settings, 0) == 0; }
int kill(pid_t process, int signal) { return ask(SYS_kill, process, signal, 0, 0); }
pid_t getpid(void) { return ask(SYS_getpid, 0, 0, 0, 0); }
int gettimeofday(struct timeval *now, void *zone) { return ask(SYS_gettimeofday, (long)now, 0, 0, 0); }
clock_t times(struct tms *spent) { return ask(SYS_times, (long)spent, 0, 0, 0); }
void _exit(int status) { for (;;) ask(SYS_exit_group, status, 0, 0, 0); }

int utime(const char *path, const struct utimbuf *times) {
  struct { long seconds, nanoseconds; } both[2] = {{times ? times->actime : 0, 0}, {times ? times->modtime : 0, 0}};
  return ask(SYS_utimensat, HERE, (long)path, times ? (long)both : 0, 0);
}

// Linux's `struct stat` (asm-generic) in picolibc's.
struct linux_stat { unsigned long device, node; unsigned mode, links, user, group; unsigned long kind, pad; long size; int block, pad2; long rest[9]; };
static int told(int result, const struct linux_stat *from, struct stat *to) {
  if (result == 0) {
    memset(to, 0, sizeof *to);
    to->st_dev = from->device; to->st_ino = from->node; to->st_mode = from->mode; to->st_nlink = from->links;
    to->st_uid = from->user; to->st_gid = from->group; to->st_size = from->size;
    to->st_atime = from->rest[1]; to->st_mtime = from->rest[3]; to->st_ctime = from->rest[5];
  }
  return result;
}
int fstat(int file, struct stat *to) { struct linux_stat it; return told(ask(SYS_fstat, file, (long)&it, 0, 0), &it, to); }
int stat(const char *path, struct stat *to) { struct linux_stat it; return told(ask(SYS_fstatat, HERE, (long)path, (long)&it, 0), &it, to); }
int lstat(const char *path, struct stat *to) { struct linux_stat it; return told(ask(SYS_fstatat, HERE, (long)path, (long)&it, 0x100), &it, to); }

void *sbrk(ptrdiff_t more) {
  static char *end;
  if (!end) end = (char *)ask(SYS_brk, 0, 0, 0, 0);
  if ((char *)ask(SYS_brk, (long)(end + more), 0, 0, 0) != end + more) {
    errno = ENOMEM;
    return (void *)-1;
  }
  end += more;
  return end - more;
}

#define STREAM(number, size, way, bits) FDEV_SETUP_BUFIO(number, (char[size]){0}, size, read, write, lseek, close, way, bits)
static struct __file_bufio streams[] = {STREAM(0, 512, __SRD, 0), STREAM(1, 512, __SWR, __BLBF), STREAM(2, 1, __SWR, 0)};
FILE *const stdin = &streams[0].xfile.cfile.file, *const stdout = &streams[1].xfile.cfile.file, *const stderr = &streams[2].xfile.cfile.file;
__attribute__((destructor)) static void flushed(void) { fflush(stdout); }

// The start: the thread's variables by the program's header, constructors, `main`.
extern char **environ;
char **environ;
extern int main(int, char **, char **);
extern void __libc_init_array(void);
struct header { unsigned kind, flags; unsigned long offset, address, physical, file_size, size, alignment; };
__attribute__((used)) static void begin(long *stack) {
  int count = *stack;
  char **words = (char **)stack + 1;
  environ = words + count + 1;
  long *more = (long *)environ;
  while (*more++) {}
  const struct header *headers = 0;
  unsigned long number = 0;
  for (; *more; more += 2) {
    if (more[0] == 3) headers = (const struct header *)more[1];
    if (more[0] == 5) number = more[1];
  }
  static _Alignas(64) char thread[4096];
  for (; number--; headers++)
    if (headers->kind == 7) __builtin_memcpy(thread, (void *)headers->address, headers->file_size);
  __asm__ volatile("mv tp, %0" : : "r"(thread) : "memory");
  __libc_init_array();
  exit(main(count, words, environ));
}
__attribute__((naked)) void _start(void) {
  __asm__(".option push\n.option norelax\nla gp, __global_pointer$\n.option pop\nmv a0, sp\nandi sp, sp, -16\ncall begin");
}
