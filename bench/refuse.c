// A malloc that refuses requests, loaded before the C library's own (LD_PRELOAD). Where REFUSED is a number, the request with
// that number is refused, from 1 on, and a byte on the descriptor MARK says so. Where it is `none`, all are granted, and their number
// goes to MARK at the end. Where it is `each`, the process splits at every request: a copy of it is refused that one and runs to its
// end, and what it wrote and its status go to the file MARK; then the process goes on, with the memory. Copies one after another that
// end alike share a line: a line 'LAST COUNT STATUS LENGTH', the number of the last one's request and how many they are, and so many
// bytes. Where PART is 'K/N', only every N-th request is refused so, from the K-th on: N such processes refuse each. Where LIMIT and
// TOTAL are given, so many processor seconds are taken for TOTAL requests: half of them as they come, the other half evenly over all;
// a request for which there is no time is granted. SKIPPED has addresses in the program, `HEX,HEX,..`: copies return from the functions
// there as soon as they are called.
#define _GNU_SOURCE
#include <dlfcn.h>
#include <errno.h>
#include <fcntl.h>
#include <link.h>
#include <stdio.h>
#include <stdlib.h>
#include <string.h>
#include <sys/mman.h>
#include <sys/resource.h>
#include <sys/wait.h>
#include <unistd.h>

// How long a copy may run.
#define SECONDS 60

static void *(*real_malloc)(size_t);
static void *(*real_realloc)(void *, size_t);
static void *(*real_aligned_alloc)(size_t, size_t);
static void (*real_free)(void *);
static long refused, requests;
static int mark, counts, refuses_each, keeps_all;

// How many processor seconds the copies may take for how many requests, where there is a limit, and how many they have taken.
static double limit, total, spent;

// Which part of the requests is refused here.
static long part = 1, parts = 1;

// How the last copies ended: what they wrote, their status, how many there were, and where the line about them stands in the file.
static char text[1 << 20], last[1 << 20];
static size_t last_length;
static int last_code;
static long alike;
static off_t line_at;

static void start(void) {
  real_malloc = dlsym(RTLD_NEXT, "malloc");
  real_realloc = dlsym(RTLD_NEXT, "realloc");
  real_aligned_alloc = dlsym(RTLD_NEXT, "aligned_alloc");
  real_free = dlsym(RTLD_NEXT, "free");
  const char *given = getenv("REFUSED");
  counts = strcmp(given, "none") == 0;
  refuses_each = strcmp(given, "each") == 0;
  refused = atol(given);
  mark = atoi(getenv("MARK"));
  if (getenv("LIMIT") && getenv("TOTAL")) {
    limit = atof(getenv("LIMIT"));
    total = atof(getenv("TOTAL"));
  }
  const char *own = getenv("PART");
  if (own && sscanf(own, "%ld/%ld", &part, &parts) != 2)
    abort();
}

// Where the program was loaded.
static int find_program(struct dl_phdr_info *info, size_t size, void *base) {
  (void)size;
  *(char **)base = (char *)info->dlpi_addr;
  return 1;
}

// Has the functions at SKIPPED return at once: by the instruction `ret` in place of their first one.
static void skip_functions(void) {
  const char *given = getenv("SKIPPED");
  char *base = NULL;
  dl_iterate_phdr(find_program, &base);
  while (given && *given) {
    char *end;
    char *code = base + strtoul(given, &end, 16);
    char *page = (char *)((size_t)code & -(size_t)sysconf(_SC_PAGESIZE));
    if (mprotect(page, code + 1 - page, PROT_READ | PROT_WRITE | PROT_EXEC) != 0)
      abort();
    *code = (char)0xc3;
    given = *end == ',' ? end + 1 : end;
  }
}

static void say(const char *bytes, size_t length) {
  while (length > 0) {
    ssize_t count = write(mark, bytes, length);
    if (count <= 0)
      abort();
    bytes += count;
    length -= count;
  }
}

// Tells how the copy ended that was refused this request, and what it wrote.
static void tell(int wrote, int status) {
  off_t length = lseek(wrote, 0, SEEK_CUR);
  size_t told = length < (off_t)sizeof text ? (size_t)length : sizeof text;
  if (pread(wrote, text, told, 0) != (ssize_t)told)
    abort();
  int code = WIFEXITED(status) ? WEXITSTATUS(status) : -WTERMSIG(status);
  int is_like_last = alike > 0 && code == last_code && told == last_length && memcmp(text, last, told) == 0;
  alike = is_like_last ? alike + 1 : 1;
  if (!is_like_last)
    line_at = lseek(mark, 0, SEEK_END);
  char line[64];
  int size = snprintf(line, sizeof line, "%12ld %12ld %4d %8zu\n", requests, alike, code, told);
  if (pwrite(mark, line, size, line_at) != size)
    abort();
  if (is_like_last)
    return;
  lseek(mark, 0, SEEK_END);
  say(text, told);
  memcpy(last, text, told);
  last_length = told;
  last_code = code;
}

// How many requests there were.
__attribute__((destructor)) static void tell_count(void) {
  char line[32];
  if (counts)
    say(line, snprintf(line, sizeof line, "%ld\n", requests));
}

// The processor seconds that the process has taken, or the copies that have ended.
static double seconds_of(int whose) {
  struct rusage used;
  if (getrusage(whose, &used) != 0)
    abort();
  return used.ru_utime.tv_sec + used.ru_stime.tv_sec +
         (used.ru_utime.tv_usec + used.ru_stime.tv_usec) / 1e6;
}

// Splits the process, and answers whether this is the copy.
static int is_copy(void) {
  int wrote = memfd_create("wrote", 0);
  pid_t copy = fork();
  if (wrote < 0 || copy < 0)
    abort();
  if (copy == 0) {
    refuses_each = 0;
    keeps_all = 1;
    alarm(SECONDS);
    skip_functions();
    if (dup2(wrote, STDOUT_FILENO) < 0 || dup2(wrote, STDERR_FILENO) < 0)
      abort();
    // What the copy reads leaves the place where the process goes on reading.
    int source = open("/proc/self/fd/0", O_RDONLY);
    off_t at = lseek(STDIN_FILENO, 0, SEEK_CUR);
    if (source >= 0 && at >= 0 && (lseek(source, at, SEEK_SET) < 0 || dup2(source, STDIN_FILENO) < 0))
      abort();
    return 1;
  }
  int status;
  if (waitpid(copy, &status, 0) != copy)
    abort();
  tell(wrote, status);
  close(wrote);
  spent = seconds_of(RUSAGE_SELF) + seconds_of(RUSAGE_CHILDREN);
  return 0;
}

// Whether this request is one of those to be refused.
static int is_chosen(void) {
  return requests % parts == part % parts && (!limit || spent <= limit / 2 * (1 + requests / total));
}

static int is_refused(void) {
  if (!real_malloc)
    start();
  ++requests;
  if (refuses_each ? !is_chosen() || !is_copy() : requests != refused)
    return 0;
  if (refused)
    say("x", 1);
  errno = ENOMEM;
  return 1;
}

// A copy gives nothing back, since each page that it writes would be copied first: of deep values that is most of its time.
void free(void *given) {
  if (!real_malloc)
    start();
  if (!keeps_all)
    real_free(given);
}

void *malloc(size_t size) { return is_refused() ? NULL : real_malloc(size); }

void *realloc(void *old, size_t size) {
  return is_refused() ? NULL : real_realloc(old, size);
}

void *aligned_alloc(size_t alignment, size_t size) {
  return is_refused() ? NULL : real_aligned_alloc(alignment, size);
}
