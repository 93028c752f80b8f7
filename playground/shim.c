// What Linux and its C library give the program `ets`, for one thread in a WebAssembly module. Each call below is one that the compiled program
// makes, and the comment above it names what it stands for. The program is compiled for 64-bit memory, which is lowered to 32 bits after the
// link: so an address is below 2^32, and each that is handed to the host is cut to 32 bits.

typedef unsigned long size_t;
typedef unsigned char byte;

// The host: playground/page/worker.js.
#define HOST(name) __attribute__((import_module("host"), import_name(#name)))
// Copies word `at` of the command line to `place`. Its length, -1 where there is no such word, or -2 where it is longer than `room`.
HOST(word) extern int host_word(int at, unsigned place, unsigned room);
// Opens the file of this name, after which is a 0 byte: its number, 3 or more, or the number of an error, negative.
HOST(open) extern int host_open(unsigned name);
// Closes a file.
HOST(close) extern void host_close(int file);
// Copies at most `room` bytes of the input (0) or of an open file to `place`, and says how many: 0 at its end. Or the number of an error, negative.
HOST(read) extern int host_read(int from, unsigned place, unsigned room);
// Takes bytes for standard output (1) or standard error (2). How many, or the number of an error, negative.
HOST(write) extern int host_write(int to, unsigned place, unsigned length);
// Ends the run.
HOST(exit) extern void host_exit(int status) __attribute__((noreturn));

// The program's `main`, which the host calls as `run`.
extern int ets_main(void);
__attribute__((export_name("run"))) int run(void) { return ets_main(); }

// ---- Memory: the allocator of the C library.
// Blocks have classes of size, four to a doubling. A block that is given back waits in the list of its class. The 16 bytes before a block have its class.

enum { HEAD = 16, EAGAIN = 11, ERANGE = 34, ESRCH = 3, PAGE = 65536 };
#define MOST 0xf0000000ul

struct block { size_t class; struct block *next; };

extern byte __heap_base;
static byte *top, *end;            // where the next new block begins, and where memory ends
static struct block *waiting[256];

static size_t whole_of(size_t class) { return ((((class & 3) + 4) << (class >> 2)) + HEAD - 1) & ~(size_t)(HEAD - 1); }

// The least class of a block with room for its head and `length` bytes.
static size_t class_of(size_t length) {
  size_t last = (length + HEAD < 32 ? 32 : length + HEAD) - 1;
  unsigned shift = 61 - __builtin_clzl(last);  // 4 << shift <= last < 8 << shift
  return ((size_t)shift << 2) + (last >> shift) - 3;
}

// Grows memory where `until` is past its end, by an eighth more than is needed if that can be had.
static int reach(byte *until) {
  if (until <= end) return 1;
  size_t pages = __builtin_wasm_memory_size(0), wanted = ((size_t)until + PAGE - 1) / PAGE;
  if (wanted > PAGE) return 0;
  if (wanted > pages && __builtin_wasm_memory_grow(0, wanted - pages + pages / 8) == (size_t)-1 &&
      __builtin_wasm_memory_grow(0, wanted - pages) == (size_t)-1)
    return 0;
  end = (byte *)(__builtin_wasm_memory_size(0) * PAGE);
  return 1;
}

static void *get(size_t length) {
  if (length > MOST) return 0;
  size_t class = class_of(length);
  struct block *it = waiting[class];
  if (it) {
    waiting[class] = it->next;
  } else {
    if (!top) top = (byte *)(((size_t)&__heap_base + HEAD - 1) & ~(size_t)(HEAD - 1));
    if (!reach(top + whole_of(class))) return 0;
    it = (struct block *)top;
    top += whole_of(class);
    it->class = class;
  }
  return (byte *)it + HEAD;
}

static struct block *block_of(void *place) { return (struct block *)((byte *)place - HEAD); }

static void put(void *place) {
  struct block *it = block_of(place);
  it->next = waiting[it->class];
  waiting[it->class] = it;
}

// malloc
void *malloc(size_t length) { return get(length); }

// free
void free(void *place) {
  if (place) put(place);
}

struct got { size_t is_got; void *place; };

// The kit's call of aligned_alloc. No alignment is above 16. A block without bytes has a place of its own.
struct got rattle_alloc(size_t length, size_t alignment) {
  void *place = get(length ? length : alignment);
  return (struct got){place != 0, place};
}

// The kit's call of realloc. The topmost block grows where it is.
struct got rattle_realloc(void *place, size_t kept, size_t length, size_t alignment) {
  struct block *it = block_of(place);
  size_t wanted = length ? length : alignment, class = class_of(wanted), had = whole_of(it->class);
  if (wanted > MOST) return (struct got){0, 0};
  if (class == it->class) return (struct got){1, place};
  if (class > it->class && (byte *)it + had == top && reach((byte *)it + whole_of(class))) {
    top = (byte *)it + whole_of(class);
    it->class = class;
    return (struct got){1, place};
  }
  void *other = get(wanted);
  if (!other) return (struct got){0, 0};
  __builtin_memcpy(other, place, had - HEAD < wanted ? had - HEAD : wanted);
  put(place);
  return (struct got){1, other};
}

// The kit's call of free
void rattle_dealloc(void *place) { free(place); }

// ---- Errors

static int error;

// errno, read
int rattle_errno(void) { return error; }

// errno, set
void rattle_set_errno(int it) { error = it; }

// strerror_r, which has one text for every error
int __xpg_strerror_r(int it, char *place, size_t room) {
  static const char text[] = "the host has refused it";
  if (room < sizeof text) return ERANGE;
  __builtin_memcpy(place, text, sizeof text);
  return 0;
}

static long failed(int it) {
  error = it;
  return -1;
}

// ---- The process

// argv
long rattle_arg(size_t at, void *place, size_t room) {
  return at > 0x7fffffff ? -1 : host_word((int)at, (unsigned)(size_t)place, room > MOST ? (unsigned)MOST : (unsigned)room);
}

// getenv: the environment is empty.
long rattle_env(const void *name, void *place, size_t room) { return -1; }

// environ, one entry: there is none.
long rattle_env_at(size_t at, void *place, size_t room) { return -1; }

// open: a file is only read.
int open(const char *name, int how, ...) {
  int file = host_open((unsigned)(size_t)name);
  return file < 0 ? (int)failed(-file) : file;
}

// close
int close(int file) {
  host_close(file);
  return 0;
}

// read
long read(int from, void *place, size_t room) {
  int came = host_read(from, (unsigned)(size_t)place, room > MOST / 4 ? (unsigned)(MOST / 4) : (unsigned)room);
  return came < 0 ? failed(-came) : came;
}

// write, to standard output and standard error alone
long write(int to, const void *place, size_t length) {
  int wrote = host_write(to, (unsigned)(size_t)place, length > MOST / 4 ? (unsigned)(MOST / 4) : (unsigned)length);
  return wrote < 0 ? failed(-wrote) : wrote;
}

// write, as the C library calls it itself: of the warning that the processor lacks instructions
long __write(int to, const void *place, size_t length) { return write(to, place, length); }

// _exit
void _exit(int status) { host_exit(status); }

// abort: the status that a shell tells of it
void abort(void) { host_exit(134); }

// signal: none comes.
long __sysv_signal(int which, long how) { return 0; }

// cpuid, of the C library: the program looks whether the processor has the instructions that it was proved for. Here it has none of them, and needs none.
const void *__x86_get_cpuid_feature_leaf(int leaf) {
  static const unsigned all[16] = {~0u, ~0u, ~0u, ~0u, ~0u, ~0u, ~0u, ~0u, ~0u, ~0u, ~0u, ~0u, ~0u, ~0u, ~0u, ~0u};
  return all;
}

// ---- Threads: none can be started, as on a system that has no room for one more.

// pthread_create
int pthread_create(void *to, void *how, void *start, void *word) { return EAGAIN; }

// pthread_attr_init and its settings, which are not looked at
int pthread_attr_init(void *how) { return 0; }
int pthread_attr_setguardsize(void *how, size_t length) { return 0; }
int pthread_attr_setstacksize(void *how, size_t length) { return 0; }
int pthread_attr_destroy(void *how) { return 0; }

// pthread_self
long pthread_self(void) { return 1; }

// pthread_detach
int pthread_detach(long thread) { return 0; }

// pthread_join: there is no such thread.
int pthread_join(long thread, void *to) { return ESRCH; }

// sched_yield
int sched_yield(void) { return 0; }

// syscall, of futex (202) alone: a wake finds nobody, and a wait says that the word has changed, so the one thread looks at it again.
long syscall(long which, void *place, size_t deed, size_t value, void *until) { return which == 202 && (deed & 1) ? 0 : failed(EAGAIN); }

// ---- Bytes: what the compiler calls where it does not write the loop itself.

// memcpy
void *memcpy(void *to, const void *from, size_t length) { return __builtin_memcpy(to, from, length); }

// memmove
void *memmove(void *to, const void *from, size_t length) { return __builtin_memmove(to, from, length); }

// memset
void *memset(void *to, int it, size_t length) { return __builtin_memset(to, it, length); }

// memcmp
int memcmp(const void *one, const void *other, size_t length) {
  const byte *a = one, *b = other;
  for (size_t i = 0; i < length; i++)
    if (a[i] != b[i]) return a[i] < b[i] ? -1 : 1;
  return 0;
}

// ---- Integers of 128 bits: what the compiler's own library gives (compiler-rt), under its names.

typedef unsigned __int128 u128;
typedef __int128 i128;

static u128 joined(size_t high, size_t low) {
  union { size_t halves[2]; u128 all; } it = {{low, high}};
  return it.all;
}

static size_t high_of(u128 it) { return (size_t)(it >> 64); }

// The product of two numbers of 64 bits, by halves of 32.
static u128 product(size_t a, size_t b) {
  size_t a0 = (unsigned)a, a1 = a >> 32, b0 = (unsigned)b, b1 = b >> 32;
  size_t low = a0 * b0, one = a1 * b0 + (low >> 32), other = a0 * b1 + (unsigned)one;
  return joined(a1 * b1 + (one >> 32) + (other >> 32), other << 32 | (unsigned)low);
}

// a * b
i128 __multi3(i128 a, i128 b) {
  u128 low = product((size_t)a, (size_t)b);
  return (i128)joined(high_of(low) + high_of((u128)a) * (size_t)b + (size_t)a * high_of((u128)b), (size_t)low);
}

// Quotient and rest, bit by bit where a number does not fit into 64.
static u128 quotient(u128 a, u128 b, u128 *rest) {
  if (!high_of(a) && !high_of(b)) {
    *rest = (size_t)a % (size_t)b;
    return (size_t)a / (size_t)b;
  }
  u128 found = 0, left = 0;
  for (int i = 127; i >= 0; i--) {
    int is_past = (int)(high_of(left) >> 63);
    left = left << 1 | (a >> i & 1);
    if (is_past || left >= b) {
      left -= b;
      found |= (u128)1 << i;
    }
  }
  *rest = left;
  return found;
}

static u128 size_of(i128 it) { return it < 0 ? -(u128)it : (u128)it; }

// a / b and a % b, without and with signs
u128 __udivti3(u128 a, u128 b) { u128 rest; return quotient(a, b, &rest); }
u128 __umodti3(u128 a, u128 b) { u128 rest; quotient(a, b, &rest); return rest; }
i128 __divti3(i128 a, i128 b) { u128 rest, it = quotient(size_of(a), size_of(b), &rest); return (i128)((a < 0) != (b < 0) ? -it : it); }
i128 __modti3(i128 a, i128 b) { u128 rest; quotient(size_of(a), size_of(b), &rest); return (i128)(a < 0 ? -rest : rest); }

// a << n, a >> n of a number without a sign, and of one with it, by halves: their own text has to call none of them.
u128 __ashlti3(u128 a, int n) {
  size_t high = ((size_t *)&a)[1], low = ((size_t *)&a)[0];
  return n == 0 ? a : n > 63 ? joined(low << (n - 64), 0) : joined(high << n | low >> (64 - n), low << n);
}
u128 __lshrti3(u128 a, int n) {
  size_t high = ((size_t *)&a)[1], low = ((size_t *)&a)[0];
  return n == 0 ? a : n > 63 ? joined(0, high >> (n - 64)) : joined(high >> n, low >> n | high << (64 - n));
}
i128 __ashrti3(i128 a, int n) {
  long high = ((long *)&a)[1];
  size_t low = ((size_t *)&a)[0];
  return n == 0 ? a : (i128)(n > 63 ? joined((size_t)(high >> 63), (size_t)(high >> (n - 64))) : joined((size_t)(high >> n), low >> n | (size_t)high << (64 - n)));
}
