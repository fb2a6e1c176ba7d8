// Refuses allocations of the program that loads it (LD_PRELOAD); those that its libraries ask for are granted. By its environment:
//
//   REFUSE=N                        the Nth alone, counted from 1
//   REFUSE=N REFUSE_OWN=FILE        the Nth and all that follow, until code of the tests runs again: FILE has the places of that code,
//                                   a line `LOW HIGH` each, in hex, as they stand in the program's file
//   REFUSE_FROM=A REFUSE_TO=B REFUSE_ONE_IN=K REFUSE_SEED=S      one of K, drawn, from the Ath to the one before the Bth
//   REFUSE_BETWEEN=1                all between two requests for blocks of certain sizes, 20,011 and then 20,012 bytes, and these two;
//                                   and behind a request for 21,000 bytes and N more, up to 999, the Nth alone, with that request
//   REFUSE_MARK=FILE                is made at the first refusal
//   REFUSE_COUNT=FILE               has, at the end, how many were asked for, how many refused, and of these how many behind the first;
//                                   with REFUSE_BETWEEN, how many were refused but for those of such sizes, and how many had such sizes
//
// It steps through the program, an instruction at a time, between a refusal and the tests' own code (x86-64).
#define _GNU_SOURCE
#include <dlfcn.h>
#include <errno.h>
#include <fcntl.h>
#include <link.h>
#include <pthread.h>
#include <signal.h>
#include <stdatomic.h>
#include <stddef.h>
#include <stdint.h>
#include <stdio.h>
#include <stdlib.h>
#include <string.h>
#include <sys/syscall.h>
#include <ucontext.h>
#include <unistd.h>
extern void *__libc_malloc(size_t);
extern void *__libc_realloc(void *, size_t);
extern void *__libc_calloc(size_t, size_t);
extern void *__libc_memalign(size_t, size_t);
#define STEPS 0x100
#define MOST_PLACES 65536
#define FIRST_SIZE 20011
#define LAST_SIZE 20012
#define ARM_SIZE 21000
#define MOST_ARMED 999
static uintptr_t base, low, high;
static long wanted, from, to, one_in, seed, between;
static atomic_long count, refused, following, armed;
static atomic_int refuses_all;
static struct { uintptr_t low, high; } places[MOST_PLACES];
static int place_count;

static int visit(struct dl_phdr_info *info, size_t size, void *data) {
  base = info->dlpi_addr;
  for (int i = 0; i < info->dlpi_phnum; i++) {
    if (info->dlpi_phdr[i].p_type != PT_LOAD) continue;
    uintptr_t start = info->dlpi_addr + info->dlpi_phdr[i].p_vaddr, end = start + info->dlpi_phdr[i].p_memsz;
    if (!low || start < low) low = start;
    if (end > high) high = end;
  }
  return 1;
}

// Whether an instruction is of the tests' own code.
static int is_own(uintptr_t at) {
  int first = 0, behind = place_count;
  while (first < behind) {
    int middle = (first + behind) / 2;
    if (at < places[middle].low) behind = middle;
    else if (at >= places[middle].high) first = middle + 1;
    else return 1;
  }
  return 0;
}

// Whether the next instruction is a call of the kernel that blocks signals, as a thread's last are: it must not be stepped over.
static int blocks_signals(const greg_t *registers) {
  const unsigned char *next = (const unsigned char *)registers[REG_RIP];
  return next[0] == 0x0f && next[1] == 0x05 && registers[REG_RAX] == SYS_rt_sigprocmask;
}

// Between two instructions: once the tests' own code runs, memory is there again.
static void step(int number, siginfo_t *info, void *context) {
  greg_t *registers = ((ucontext_t *)context)->uc_mcontext.gregs;
  if (!is_own(registers[REG_RIP]) && !blocks_signals(registers)) return;
  registers[REG_EFL] &= ~STEPS;
  refuses_all = 0;
}

// Begins, or stops, to step through the program. (Below the stack's end lie bytes that a function may use.)
#define BEGIN_STEPS __asm__ volatile("leaq -128(%%rsp), %%rsp; pushfq; orq $0x100, (%%rsp); popfq; leaq 128(%%rsp), %%rsp" ::: "memory", "cc")
#define STOP_STEPS __asm__ volatile("leaq -128(%%rsp), %%rsp; pushfq; andq $-0x101, (%%rsp); popfq; leaq 128(%%rsp), %%rsp" ::: "memory", "cc")

// A new thread begins with its maker's flags, and with all signals blocked: it must not be stepped through.
int pthread_create(pthread_t *thread, const pthread_attr_t *attributes, void *(*run)(void *), void *given) {
  int (*make)(pthread_t *, const pthread_attr_t *, void *(*)(void *), void *) = dlsym(RTLD_NEXT, "pthread_create");
  int steps = refuses_all;
  if (steps) STOP_STEPS;
  int result = make(thread, attributes, run, given);
  if (steps && refuses_all) BEGIN_STEPS;
  return result;
}

static void read_places(const char *name) {
  FILE *file = fopen(name, "r");
  unsigned long start, end;
  while (file && place_count < MOST_PLACES && fscanf(file, "%lx %lx", &start, &end) == 2) {
    places[place_count].low = base + start;
    places[place_count++].high = base + end;
  }
  if (file) fclose(file);
  struct sigaction action;
  memset(&action, 0, sizeof action);
  action.sa_sigaction = step;
  action.sa_flags = SA_SIGINFO;
  sigaction(SIGTRAP, &action, 0);
}

static long number_of(const char *name) {
  const char *text = getenv(name);
  return text ? atol(text) : 0;
}

__attribute__((constructor)) static void start(void) {
  dl_iterate_phdr(visit, 0);
  from = number_of("REFUSE_FROM"), to = number_of("REFUSE_TO"), one_in = number_of("REFUSE_ONE_IN"), seed = number_of("REFUSE_SEED");
  between = number_of("REFUSE_BETWEEN");
  if (getenv("REFUSE_OWN")) read_places(getenv("REFUSE_OWN"));
  atomic_store(&count, 0);
  wanted = number_of("REFUSE");
}

__attribute__((destructor)) static void tell(void) {
  const char *name = getenv("REFUSE_COUNT");
  char text[96];
  if (!name) return;
  int file = open(name, O_CREAT | O_WRONLY | O_TRUNC, 0644);
  int length = snprintf(text, sizeof text, "%ld %ld %ld\n", (long)count, (long)refused, (long)following);
  if (file >= 0 && write(file, text, length) == length) close(file);
}

// A program with threads ends by this, and then no destructor runs.
void _exit(int status) {
  tell();
  for (;;) syscall(SYS_exit_group, status);
}

static void mark(void) {
  const char *name = getenv("REFUSE_MARK");
  if (!name) return;
  int file = open(name, O_CREAT | O_WRONLY, 0644);
  if (file >= 0) close(file);
}

// Whether the draw for this number says so: a mixing of seed and number, as in SplitMix64.
static int is_drawn(uint64_t number) {
  uint64_t it = (uint64_t)seed * 0x9e3779b97f4a7c15 + number * 0xbf58476d1ce4e5b9;
  it = (it ^ (it >> 30)) * 0xbf58476d1ce4e5b9;
  it = (it ^ (it >> 27)) * 0x94d049bb133111eb;
  return (it ^ (it >> 31)) % one_in == 0;
}

// Whether a request has the number that was armed, or arms another.
static int is_armed(size_t size) {
  if (size >= ARM_SIZE && size <= ARM_SIZE + MOST_ARMED) {
    armed = size - ARM_SIZE;
    atomic_fetch_add(&following, 1);
    return 1;
  }
  if (armed == 0 || --armed > 0) return 0;
  atomic_fetch_add(&refused, 1);
  return 1;
}

// Whether a request of this size lies between the two, or is one of them.
static int is_between(size_t size) {
  if (size == FIRST_SIZE) {
    refuses_all = 1;
    return 1;
  }
  if (!refuses_all) return 0;
  atomic_fetch_add(size == LAST_SIZE ? &following : &refused, 1);
  refuses_all = size != LAST_SIZE;
  return 1;
}

static int refuses(void *caller, size_t size) {
  uintptr_t at = (uintptr_t)caller;
  if (at < low || at >= high) return 0;
  long number = atomic_fetch_add(&count, 1) + 1;
  if (between) {
    if (!is_armed(size) && !is_between(size)) return 0;
    errno = ENOMEM;
    return 1;
  }
  int is_first = number == wanted;
  if (!is_first && !refuses_all && !(one_in > 0 && number >= from && number < to && is_drawn(number))) return 0;
  if (atomic_fetch_add(&refused, 1) == 0) mark();
  else if (refuses_all) atomic_fetch_add(&following, 1);
  if (is_first && place_count) {
    refuses_all = 1;
    errno = ENOMEM;
    BEGIN_STEPS;
    return 1;
  }
  errno = ENOMEM;
  return 1;
}

void *malloc(size_t n) { return refuses(__builtin_return_address(0), n) ? 0 : __libc_malloc(n); }
void *realloc(void *p, size_t n) { return refuses(__builtin_return_address(0), n) ? 0 : __libc_realloc(p, n); }
void *calloc(size_t m, size_t n) { return refuses(__builtin_return_address(0), m * n) ? 0 : __libc_calloc(m, n); }
int posix_memalign(void **out, size_t a, size_t n) {
  if (refuses(__builtin_return_address(0), n)) return ENOMEM;
  void *p = __libc_memalign(a, n); if (!p) return ENOMEM; *out = p; return 0;
}
void *aligned_alloc(size_t a, size_t n) { return refuses(__builtin_return_address(0), n) ? 0 : __libc_memalign(a, n); }
