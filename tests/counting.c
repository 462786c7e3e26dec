// Shows each thread that a program starts by a byte t on standard error, and each one that it has waited for by a byte j.
// Refuses to start those whose numbers, from 1, are from NO_THREAD_FROM to NO_THREAD_TO of the environment, each shown by
// a byte x. With HOLD_THREADS a thread begins its work only once it is waited for. So no thread has ended whose handle is
// dropped: the toolchain joins one that has. tests/threads loads it before the C library.
typedef unsigned long Thread;
typedef void *Body(void *);
typedef int Create(Thread *, const void *, Body *, void *);
typedef int Join(Thread, void **);
extern void *dlsym(void *, const char *);
extern char *getenv(const char *);
extern long atol(const char *);
extern int usleep(unsigned);
extern long write(int, const void *, unsigned long);

// No room for one more (EAGAIN).
enum { REFUSED = 11 };

// The most threads that are held, and how long one sleeps before it asks again, in microseconds.
enum { MOST_HELD = 1000, PAUSE = 100 };

// The next library after this one (RTLD_NEXT).
static void *const next = (void *)-1L;

static long started;

// The threads that are held, by their numbers, and what they have to do.
static struct {
  Thread thread;
  int is_waited_for;
  Body *body;
  void *argument;
} works[MOST_HELD + 1];

static long bound(const char *name) {
  const char *text = getenv(name);
  return text ? atol(text) : 0;
}

static void *held(void *number) {
  long no = (long)number;
  while (!__atomic_load_n(&works[no].is_waited_for, __ATOMIC_SEQ_CST))
    usleep(PAUSE);
  return works[no].body(works[no].argument);
}

static void release(Thread thread) {
  for (long no = 1; no <= MOST_HELD; no++)
    if (works[no].body && works[no].thread == thread)
      __atomic_store_n(&works[no].is_waited_for, 1, __ATOMIC_SEQ_CST);
}

int pthread_create(Thread *thread, const void *attributes, Body *body, void *argument) {
  long no = __atomic_add_fetch(&started, 1, __ATOMIC_SEQ_CST);
  Create *create = (Create *)dlsym(next, "pthread_create");
  if (bound("NO_THREAD_FROM") <= no && no <= bound("NO_THREAD_TO")) {
    write(2, "x", 1);
    return REFUSED;
  }
  write(2, "t", 1);
  if (!bound("HOLD_THREADS") || no > MOST_HELD)
    return create(thread, attributes, body, argument);
  works[no].body = body;
  works[no].argument = argument;
  int answer = create(thread, attributes, held, (void *)no);
  if (!answer)
    works[no].thread = *thread;
  return answer;
}

int pthread_join(Thread thread, void **result) {
  Join *join = (Join *)dlsym(next, "pthread_join");
  release(thread);
  int answer = join(thread, result);
  if (!answer)
    write(2, "j", 1);
  return answer;
}
