/* The grid of ticks, and how a thread spends one.
 *
 * Tick n is the span from grid(n) to grid(n + 1). A thread with a tick to run burns its processor to the end of the tick in which it
 * stands, so that errors do not add up. One that was preempted sees a gap in the clock, and takes the tick in which it finds itself.
 * What falls due at instant n comes a little after grid(n), so behind the effect of the tick that ends there: starts, then timeouts,
 * then timers, each by number.
 */
#define _GNU_SOURCE
#include "runner.h"

#include <stdio.h>
#include <stdlib.h>
#include <string.h>
#include <sys/syscall.h>
#include <unistd.h>

static const double START_AT = 0.08, TIMEOUT_AT = 0.14, TIMER_AT = 0.20, STEP = 0.004;
static const double EARLY = 0.35; /* a time so far before a grid point belongs to it */
static const double OWNED = 0.6;  /* who runs on past this part of a tick has run it: a slice may end a tenth before the grid point */
static const double GAP = 0.25;   /* a gap in the clock that is too long for a thread that kept the processor */
static const double LATE = 0.3;

/* The thread that ran last: each stores itself after others ran, so that a thread sees that it was preempted. */
static volatile int last_runner = -1;

int64_t clock_now(clockid_t clock) {
  struct timespec time;
  clock_gettime(clock, &time);
  return time.tv_sec * INT64_C(1000000000) + time.tv_nsec;
}

int64_t now(void) { return clock_now(CLOCK_MONOTONIC); }

struct timespec time_of(int64_t nanoseconds) {
  struct timespec time = {nanoseconds / INT64_C(1000000000), nanoseconds % INT64_C(1000000000)};
  return time;
}

int64_t part(double of_a_tick) { return (int64_t)(of_a_tick * (double)run->tick); }

/* The tick in which a time stands, where one shortly before a grid point counts as behind it. */
int64_t tick_of(int64_t time) {
  int64_t since = time - run->origin + part(EARLY);
  return since < 0 ? -1 : since / run->tick;
}

int64_t grid(int64_t tick) { return run->origin + tick * run->tick; }

/* No script that is run here asks for so many ticks. */
int64_t capped(int64_t ticks) { return ticks > 1000000 ? 1000000 : ticks; }

int64_t start_time(const Thread *thread) { return grid(thread->start) + part(START_AT + STEP * thread->number); }

int64_t timeout_time(const Thread *me, int64_t tick) { return grid(capped(tick)) + part(TIMEOUT_AT + STEP * me->number); }

int64_t expiry_time(int timer, int64_t tick) { return grid(capped(tick)) + part(TIMER_AT + STEP * timer); }

/* The time of an absolute timeout of a call that takes effect now; one that has passed stays in the past. */
int64_t time_out_of(const Thread *me, int64_t value) {
  int64_t tick = tick_of(now());
  return value <= tick ? grid(tick) - run->tick / 2 : timeout_time(me, value);
}

void sleep_until(int64_t time) {
  struct timespec until = time_of(time);
  while (clock_nanosleep(CLOCK_MONOTONIC, TIMER_ABSTIME, &until, NULL)) {
  }
}

/* The thread's priority as the kernel has it now, with what it inherits: the eighteenth field of its `stat` is -1 less that. */
static int kernel_priority(const Thread *me) {
  char text[512];
  long length = syscall(SYS_pread64, me->stat, text, sizeof text - 1, 0); /* pread would be a cancellation point */
  if (length <= 0) return 0;
  text[length] = '\0';
  const char *at = strrchr(text, ')');
  for (int field = 2; at != NULL && field < 18; field++) at = strchr(at + 1, ' ');
  return at == NULL ? 0 : -1 - atoi(at);
}

static void own(Thread *me, int64_t tick) {
  if (tick >= 0 && tick < MAX_TICKS) {
    if (run->owner[tick] >= 0) run->clashes++;
    run->owner[tick] = me->number;
    run->priority[tick] = kernel_priority(me);
  }
  run->ticks[me->number]++;
}

static void count_lateness(int64_t over) {
  if (over >= run->tick) return;
  if (over > run->latest) run->latest = over;
  if (over > part(LATE)) run->late++;
}

/* One tick; false where other threads ran before most of it was over, so that it is not this thread's. */
static bool burn_tick(Thread *me) {
  last_runner = me->number;
  int64_t last = now(), tick = tick_of(last), end = grid(tick + 1), spent = clock_now(CLOCK_THREAD_CPUTIME_ID);
  int64_t handled = me->handled;
  bool owned = false, preempted = false;
  while (last < end) {
    int64_t time = now();
    if (last_runner != me->number || me->handled != handled) {
      last_runner = me->number;
      handled = me->handled;
      preempted = true;
      time = now();
      if (time - last > part(GAP) && last < grid(tick) + part(OWNED)) return false;
    } else if (time - last > part(GAP)) {
      run->gaps++;
    }
    last = time;
    if (!owned && time >= grid(tick) + part(OWNED)) {
      owned = true;
      own(me, tick);
    }
  }
  if (!owned) own(me, tick);
  if (!preempted) count_lateness(last - end);
  run->processor[me->number] += clock_now(CLOCK_THREAD_CPUTIME_ID) - spent;
  return true;
}

void burn(Thread *me, int64_t ticks) {
  for (int64_t left = ticks; left > 0;)
    if (burn_tick(me)) left--;
}
