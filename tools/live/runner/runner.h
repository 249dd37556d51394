/* What the files of the runner share: a flat script, its threads and objects on this machine's kernel, and the log of a run.
 *
 * Times are nanoseconds of CLOCK_MONOTONIC. A tick is a span of the grid that begins at `run->origin`; a part of a tick is a fraction
 * of its length. Threads, objects and bodies are named by their number in the script.
 */
#ifndef PSE52_RUNNER_H
#define PSE52_RUNNER_H

#include <errno.h>
#include <mqueue.h>
#include <pthread.h>
#include <semaphore.h>
#include <signal.h>
#include <stdatomic.h>
#include <stdbool.h>
#include <stdint.h>
#include <time.h>

enum {
  MAX_THREADS = 64,
  MAX_OBJECTS = 64,
  MAX_EVENTS = 65536,
  MAX_TICKS = 4096,
  MAX_LOOPS = 64,
  OPERATION_WORDS = 10,
  SIGNALS = 31, /* rt0 to rt30: glibc keeps two realtime signals for itself */
};

/* ---- the flat script: tools/live/flatten.py writes it ---- */

enum Step { STEP_RUN, STEP_CALL, STEP_SET, STEP_ADD, STEP_TAKE, STEP_TEST, STEP_LOOP, STEP_JUMP, STEP_PUSH, STEP_POP, STEP_FINISH };

/* The calls in the order in which the flat script numbers them. */
#define CALLS(X)                                                                                                                     \
  X(yield) X(create) X(join) X(cancel) X(testcancel) X(setcancel) X(push) X(pop) X(exit) X(setprio) X(setsched) X(lock) X(timedlock) \
  X(trylock) X(unlock) X(wait) X(timedwait) X(signal) X(broadcast) X(sem_wait) X(sem_timedwait) X(sem_trywait) X(sem_getvalue)       \
  X(sem_post) X(nanosleep) X(clock_nanosleep) X(gettime) X(timer_settime) X(timer_gettime) X(timer_getoverrun) X(kill) X(tkill)      \
  X(sigqueue) X(sigmask) X(sigwaitinfo) X(sigtimedwait) X(mq_send) X(mq_timedsend) X(mq_receive) X(mq_timedreceive) X(mq_notify)
#define CALL_NUMBER(word) CALL_##word,
enum Call { CALLS(CALL_NUMBER) CALL_COUNT };

enum Action { ACTION_KILL = -1, ACTION_IGNORE = -2 }; /* or else the number of a handler's body */

/* The register's greatest number, and the exit value of a cancelled thread. */
#define REGISTER_LIMIT INT64_C(2000000000000000000)
#define CANCELLED_VALUE INT64_C(3000000000000000000)

/* ---- the log ---- */

enum Kind { KIND_START, KIND_CALLED, KIND_RETURN, KIND_DELIVER, KIND_CANCEL, KIND_EXIT };

/* The `result` of a RETURN is an errno, or UNSEEN while a handler stands in the call, so that its answer is not known yet. */
enum { UNSEEN = 1000 };

typedef struct {
  int64_t time, value;
  int thread, kind, call, result, signal, code;
} Event;

/* One run, in memory that the child and its watching parent share. */
typedef struct {
  _Atomic int count;
  int64_t origin; /* the grid point of instant 0 */
  int64_t tick;   /* the length of a tick */
  int64_t horizon;
  int done;
  Event events[MAX_EVENTS];
  int owner[MAX_TICKS];    /* of each tick the thread that ran it, or -1 */
  int priority[MAX_TICKS]; /* the owner's priority as the kernel tells it, all that it inherits included */
  int clashes, gaps, late;
  int64_t latest;
  int64_t ticks[MAX_THREADS], processor[MAX_THREADS];
} Run;

/* ---- threads and objects ---- */

enum State { DORMANT, LIVE, ENDED };

/* One activation of a body. */
typedef struct {
  int64_t reg, value;
  int result;
  int64_t passes[MAX_LOOPS];
} Frame;

typedef struct {
  int number, round_robin, priority;
  int64_t start, body;
  int state;
  bool joined, ending, exiting;
  uint32_t mask;   /* the signals that the script masks */
  bool holds_back; /* handlers are held back round a call that waits */
  int in_handler;
  int64_t handled; /* handlers that have run */
  int blocked_in;  /* the call that is at work and may be interrupted, plus one; 0 where there is none */
  int slot;        /* the event of that call's return, where a handler that interrupted it has told it already; else -1 */
  int stat;        /* a file that tells the thread's priority */
  pthread_t handle;
  sem_t go;
} Thread;

typedef struct {
  int result; /* an errno */
  int64_t value;
} Answer;

extern Run *run;
extern int64_t (*code)[OPERATION_WORDS];
extern int64_t *body_start;
extern int thread_count, body_count, mutex_count, cond_count, sem_count, queue_count, timer_count;
extern Thread threads[MAX_THREADS];
extern pthread_mutex_t mutexes[MAX_OBJECTS];
extern pthread_cond_t conds[MAX_OBJECTS];
extern sem_t sems[MAX_OBJECTS];
extern mqd_t queues[MAX_OBJECTS];
extern int64_t queue_greatest[MAX_OBJECTS]; /* the greatest length of a message, as the script has it */
extern timer_t timers[MAX_OBJECTS];
extern int actions[SIGNALS];
extern bool handlers_in_waits;
extern __thread Thread *self;
extern int64_t realtime_offset;

/* ---- time.c ---- */
int64_t clock_now(clockid_t clock);
int64_t now(void);
struct timespec time_of(int64_t nanoseconds);
int64_t part(double of_a_tick);
int64_t tick_of(int64_t time);
int64_t grid(int64_t tick);
int64_t start_time(const Thread *thread);
int64_t timeout_time(const Thread *me, int64_t tick);
int64_t expiry_time(int timer, int64_t tick);
int64_t time_out_of(const Thread *me, int64_t value);
int64_t capped(int64_t ticks);
void sleep_until(int64_t time);
void burn(Thread *me, int64_t ticks);

/* ---- log.c ---- */
int tell(int thread, int kind, int call, int result, int64_t value);
void tell_delivery(Thread *me, const siginfo_t *info);
void print_log(int status, bool out_of_time, int64_t end);

/* ---- signals.c ---- */
sigset_t set_of(uint32_t signals);
sigset_t all_signals(void);
void set_actions(void);
void mask_as_script(Thread *me);
void mask_all(void);
void hold_back_handlers(Thread *me);
void let_handlers_in(Thread *me);

/* ---- calls: one function each, its operands those of the flat script ---- */
typedef Answer (*CallFunction)(Thread *me, Frame *frame, const int64_t *operands);
#define CALL_FUNCTION(word) Answer call_##word(Thread *me, Frame *frame, const int64_t *operands);
CALLS(CALL_FUNCTION)
int64_t number_of(const Frame *frame, const int64_t *operand);
Answer answer_of(int result);
Answer answer_by_errno(int returned);

size_t message_bytes(int64_t queue, int64_t length);
size_t queue_bytes(int64_t queue);

/* ---- bodies.c ---- */
void carry_out(Thread *me, Frame *frame, int64_t place);
void create_threads(void);
int create_thread(Thread *thread);

/* ---- objects.c ---- */
void read_script(void);
void make_objects(void);
void make_own_objects(void);
void must(bool holds, const char *what);

#endif
