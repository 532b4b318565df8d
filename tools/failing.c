/* Makes the process into which it is loaded meet what a transcript asks for: streams that fail or move few bytes, a
   terminal, a clock, files that fail, and memory and threads that are refused. It notes what files are asked.
   tools/transcripts sets the variables of the environment:

   FAILING_READS     how many bytes a read of the standard input gives at most
   FAILING_BREAKS    `PLACE ERROR`: the error by which a read of it fails once, behind so many bytes
   FAILING_OUTPUT    `ROOM EACH ERROR ONCE`: how many bytes the output takes, how many a write at most, the error by
                     which it fails then (at 0 it takes no byte), and 1 if it takes more after that
   FAILING_ERRORS    the same of standard error
   FAILING_TERMINAL  `INPUT ERRORS`: 1 if the standard input is a terminal, and if standard error is
   FAILING_CLOCK     the milliseconds that the clock shows at one reading after the other, `-` if it can't be read; if
                     they are over, each reading shows as much more as the last one did
   FAILING_FILES     `PLACE ERROR ..`: by which error the deed fails that comes so many behind the first one
   FAILING_MEMORY    1 if each request for memory is refused
   FAILING_THREADS   1 if no thread can be started
   FAILING_NOTES     the file that gets a note of each deed: what is asked, how many bytes say of what, and these bytes

   It needs no header, so that the compiler of the kit, which has none, makes it. The numbers are those of Linux. */

typedef unsigned long bytes;
typedef long number;

struct time { number seconds, nanoseconds; };

extern char **environ;
extern char *getenv(const char *name);
extern number strtol(const char *text, char **end, int base);
extern number syscall(number call, ...);
extern void *dlsym(void *library, const char *name);
extern int *__errno_location(void);

enum { CALL_READ = 0, CALL_WRITE = 1, CALL_OPEN = 2, CALL_CLOSE = 3, CALL_FSYNC = 74, CALL_RENAME = 82,
       CALL_UNLINK = 87, CALL_FCHMOD = 91, CALL_CLOCK = 228, CALL_STATX = 332 };
enum { TO_WRITE = 1, TO_CREATE = 0100, TO_APPEND = 02000, AGAIN = 11, INVALID = 22, FILES = 64, NONE = -1 };

/* How a stream moves bytes: how many are left until it fails, how many it moves at most at a time, how it fails, and
   whether it does so once. */
struct stream { number room, each, error, once; };

#define WITHOUT_END 0x7fffffffffffffff

static struct stream streams[3] = {{WITHOUT_END, WITHOUT_END, 0, 1},
                                   {WITHOUT_END, WITHOUT_END, 28, 0},
                                   {WITHOUT_END, WITHOUT_END, 28, 0}};
static int is_terminal[3];
static const char *clock_next;
static number clock_last, clock_step;
static const char *files;
static int notes = NONE;
static _Atomic number deeds;

/* The file that has each descriptor, if it was opened here, and whether its bytes were asked for. */
static struct { char name[4096]; int is_open, is_read; } opened[FILES];

/* The next number of a text, which is moved behind it; the other number if there is none. */
static number take(const char **text, number other) {
  char *end;
  if (!*text) return other;
  number found = strtol(*text, &end, 10);
  if (end == *text) return other;
  *text = end;
  return found;
}

static int fail(number error) {
  *__errno_location() = (int)error;
  return -1;
}

/* Reads how a stream moves bytes. */
static void set_stream(int which, const char *text) {
  struct stream *stream = &streams[which];
  stream->room = take(&text, stream->room);
  stream->each = take(&text, stream->each);
  stream->error = take(&text, stream->error);
  stream->once = take(&text, stream->once);
}

__attribute__((constructor)) static void begin(void) {
  const char *breaks = getenv("FAILING_BREAKS"), *reads = getenv("FAILING_READS"), *path = getenv("FAILING_NOTES");
  const char *terminal = getenv("FAILING_TERMINAL");
  streams[0].room = take(&breaks, WITHOUT_END);
  streams[0].error = take(&breaks, 0);
  streams[0].each = take(&reads, WITHOUT_END);
  set_stream(1, getenv("FAILING_OUTPUT"));
  set_stream(2, getenv("FAILING_ERRORS"));
  is_terminal[0] = (int)take(&terminal, 0);
  is_terminal[2] = (int)take(&terminal, 0);
  clock_next = getenv("FAILING_CLOCK");
  files = getenv("FAILING_FILES");
  if (path) notes = (int)syscall(CALL_OPEN, path, TO_WRITE | TO_CREATE | TO_APPEND, 0600);
}

/* How many of so many bytes a stream moves. It fails if that is negative. */
static number share(int which, bytes wanted) {
  struct stream *stream = &streams[which];
  number most = (number)wanted < stream->each ? (number)wanted : stream->each;
  if (stream->room == WITHOUT_END) return most;
  if (stream->room == 0) {
    if (stream->once) stream->room = WITHOUT_END;
    return stream->error ? fail(stream->error) : 0;
  }
  return most < stream->room ? most : stream->room;
}

/* So many bytes were moved by a stream. */
static number moved(int which, number count) {
  struct stream *stream = &streams[which];
  if (count > 0 && stream->room != WITHOUT_END) stream->room -= count;
  return count;
}

static bytes length(const char *text) {
  bytes count = 0;
  while (text[count]) count++;
  return count;
}

/* Puts a number at the end of a text of 20 bytes, and answers where it begins. */
static char *digits(char *end, bytes value) {
  do {
    *--end = (char)('0' + value % 10);
    value /= 10;
  } while (value);
  return end;
}

/* Notes a deed: `WHAT COUNT`, a line feed, and the bytes that say of what. It fails by the error that is set for it. */
static int note(const char *what, const char *text, bytes count) {
  char line[8192], number_text[20];
  char *first = digits(number_text + 20, count), *next = line;
  number place = deeds++;
  const char *left = files;
  if (notes == NONE) return 0;
  for (const char *at = what; *at; at++) *next++ = *at;
  *next++ = ' ';
  for (char *at = first; at < number_text + 20; at++) *next++ = *at;
  *next++ = '\n';
  for (bytes at = 0; at < count && next < line + sizeof line; at++) *next++ = text[at];
  syscall(CALL_WRITE, notes, line, next - line);
  for (number at = take(&left, NONE); at != NONE; at = take(&left, NONE)) {
    number error = take(&left, INVALID);
    if (at == place) return fail(error);
  }
  return 0;
}

static int is_file(int file) {
  return file >= 0 && file < FILES && opened[file].is_open;
}

number read(int file, void *to, bytes wanted) {
  if (is_file(file) && !opened[file].is_read) {
    opened[file].is_read = 1;
    if (note("text", opened[file].name, length(opened[file].name))) return -1;
  }
  if (file != 0) return syscall(CALL_READ, file, to, wanted);
  number most = share(0, wanted);
  return most < 0 ? most : moved(0, syscall(CALL_READ, file, to, most));
}

number write(int file, const void *from, bytes wanted) {
  if (is_file(file) && note("write", from, wanted)) return -1;
  if (file != 1 && file != 2) return syscall(CALL_WRITE, file, from, wanted);
  number most = share(file, wanted);
  return most <= 0 ? most : moved(file, syscall(CALL_WRITE, file, from, most));
}

int open(const char *name, int flags, ...) {
  __builtin_va_list rest;
  __builtin_va_start(rest, flags);
  int mode = flags & TO_CREATE ? __builtin_va_arg(rest, int) : 0;
  __builtin_va_end(rest);
  if (note(flags & TO_CREATE ? "make" : "open", name, length(name))) return -1;
  int file = (int)syscall(CALL_OPEN, name, flags, mode);
  if (file < 0 || file >= FILES) return file;
  bytes count = length(name) < 4095 ? length(name) : 4095;
  for (bytes at = 0; at < count; at++) opened[file].name[at] = name[at];
  opened[file].name[count] = 0;
  opened[file].is_read = 0;
  opened[file].is_open = 1;
  return file;
}

int close(int file) {
  if (is_file(file)) opened[file].is_open = 0;
  return (int)syscall(CALL_CLOSE, file);
}

int fsync(int file) {
  return note("sync", "", 0) ? -1 : (int)syscall(CALL_FSYNC, file);
}

int fchmod(int file, unsigned mode) {
  return note("mode", "", 0) ? -1 : (int)syscall(CALL_FCHMOD, file, mode);
}

int statx(int folder, const char *name, int flags, unsigned wanted, void *found) {
  return note("look", name, length(name)) ? -1 : (int)syscall(CALL_STATX, folder, name, flags, wanted, found);
}

int unlink(const char *name) {
  return note("remove", name, length(name)) ? -1 : (int)syscall(CALL_UNLINK, name);
}

int rename(const char *name, const char *other) {
  char both[8192];
  bytes first = length(name), second = length(other);
  if (first + second + 1 > sizeof both) return fail(INVALID);
  for (bytes at = 0; at < first; at++) both[at] = name[at];
  both[first] = ' ';
  for (bytes at = 0; at < second; at++) both[first + 1 + at] = other[at];
  return note("rename", both, first + second + 1) ? -1 : (int)syscall(CALL_RENAME, name, other);
}

int isatty(int file) {
  return file >= 0 && file < 3 && is_terminal[file];
}

int clock_gettime(int which, struct time *now) {
  if (which != 1 || !clock_next) return (int)syscall(CALL_CLOCK, which, now);
  while (*clock_next == ' ') clock_next++;
  if (*clock_next == '-') {
    clock_next++;
    return fail(INVALID);
  }
  number shown = take(&clock_next, NONE);
  if (shown == NONE) shown = clock_last + clock_step;
  clock_step = shown - clock_last;
  clock_last = shown;
  now->seconds = shown / 1000;
  now->nanoseconds = shown % 1000 * 1000000;
  return 0;
}

void *malloc(bytes size) {
  static void *(*next)(bytes);
  if (getenv("FAILING_MEMORY")) return 0;
  if (!next) next = (void *(*)(bytes))dlsym((void *)-1, "malloc");
  return next(size);
}

void *realloc(void *old, bytes size) {
  static void *(*next)(void *, bytes);
  if (getenv("FAILING_MEMORY")) return 0;
  if (!next) next = (void *(*)(void *, bytes))dlsym((void *)-1, "realloc");
  return next(old, size);
}

int pthread_create(void *thread, const void *with, void *(*does)(void *), void *given) {
  static int (*next)(void *, const void *, void *(*)(void *), void *);
  if (getenv("FAILING_THREADS")) return AGAIN;
  if (!next) next = (int (*)(void *, const void *, void *(*)(void *), void *))dlsym((void *)-1, "pthread_create");
  return next(thread, with, does, given);
}
