/* Runs one flat script on real threads, all on one core.
 *
 *     runner CORE TICK_NANOSECONDS HORIZON LIMIT_SECONDS [handlers] < FLAT_SCRIPT
 *
 * A child runs the script, its main thread above all others; this process watches it from elsewhere, ends it when the limit has
 * passed, and prints the log (log.c). The child also ends where this process does, and where a thread of it burns for longer than
 * the limit without a rest. Exit status 0 where there is a log, whatever became of the script.
 */
#define _GNU_SOURCE
#include "runner.h"

#include <sched.h>
#include <stdio.h>
#include <stdlib.h>
#include <string.h>
#include <sys/mman.h>
#include <sys/prctl.h>
#include <sys/resource.h>
#include <sys/wait.h>
#include <unistd.h>

Run *run;
int64_t (*code)[OPERATION_WORDS];
int64_t *body_start;
int thread_count, body_count, mutex_count, cond_count, sem_count, queue_count, timer_count;
Thread threads[MAX_THREADS];
pthread_mutex_t mutexes[MAX_OBJECTS];
pthread_cond_t conds[MAX_OBJECTS];
sem_t sems[MAX_OBJECTS];
mqd_t queues[MAX_OBJECTS];
int64_t queue_greatest[MAX_OBJECTS];
timer_t timers[MAX_OBJECTS];
int actions[SIGNALS];
bool handlers_in_waits;
__thread Thread *self;
int64_t realtime_offset;

enum { ABOVE_ALL = 99 };
static const double GRID_BEHIND_TICK = 0.1, LATE = 0.3;
static int core, limit;

/* One core, a bound on the processor time, and memory that stays. */
static void take_core(void) {
  cpu_set_t cores;
  CPU_ZERO(&cores);
  CPU_SET(core, &cores);
  must(sched_setaffinity(0, sizeof cores, &cores) == 0, "sched_setaffinity");
  struct rlimit burning = {(rlim_t)limit * 1000000, (rlim_t)limit * 1000000};
  must(setrlimit(RLIMIT_RTTIME, &burning) == 0, "RLIMIT_RTTIME");
  struct sched_param parameters = {.sched_priority = ABOVE_ALL};
  must(sched_setscheduler(0, SCHED_FIFO, &parameters) == 0, "SCHED_FIFO");
  mlockall(MCL_CURRENT | MCL_FUTURE);
}

/* The main thread takes no signal, but those that are ignored, which would stay pending where every thread masks them. */
static void mask_but_ignored(void) {
  sigset_t all;
  sigfillset(&all);
  for (int signal = 0; signal < SIGNALS; signal++)
    if (actions[signal] == ACTION_IGNORE) sigdelset(&all, SIGRTMIN + signal);
  pthread_sigmask(SIG_SETMASK, &all, NULL);
}

/* Grid points stand shortly behind the kernel's own ticks, at which it charges round robin slices: multiples of that tick's length. */
static void set_origin(void) {
  struct timespec length;
  clock_getres(CLOCK_MONOTONIC_COARSE, &length);
  realtime_offset = clock_now(CLOCK_REALTIME) - now();
  run->origin = (now() / length.tv_nsec + 3) * length.tv_nsec + part(GRID_BEHIND_TICK);
}

static void wait_for(int64_t time, int64_t instant) {
  sleep_until(time);
  if (now() - grid(instant) > part(LATE)) run->late++;
}

/* The thread that starts next, of those that do not start before an instant: the first by instant and number. */
static Thread *next_start(int64_t instant, int number) {
  Thread *next = NULL;
  for (int k = 0; k < thread_count; k++) {
    Thread *thread = &threads[k];
    bool comes = thread->start > instant || (thread->start == instant && k > number);
    if (comes && (next == NULL || thread->start < next->start)) next = thread;
  }
  return next;
}

static void let_threads_go(void) {
  Thread *thread = next_start(0, -1);
  while (thread != NULL && thread->start < run->horizon) {
    int64_t instant = thread->start;
    wait_for(start_time(thread), instant);
    if (thread->state == DORMANT) {
      thread->state = LIVE;
      sem_post(&thread->go);
    }
    thread = next_start(instant, thread->number);
  }
}

static void run_script(void) {
  take_core();
  mask_but_ignored();
  set_actions();
  make_own_objects();
  create_threads();
  sleep_until(now() + 5000000); /* every thread stands where it waits to be let go */
  set_origin();
  let_threads_go();
  wait_for(grid(run->horizon) + part(0.05), run->horizon);
  run->done = 1;
  _exit(0);
}

/* Waits for the child, and kills it where the limit has passed; the answer is whether that was so. */
static bool is_out_of_time(pid_t child, const sigset_t *ends, int *status) {
  struct timespec patience = {limit, 0};
  while (sigtimedwait(ends, NULL, &patience) < 0 && errno == EINTR) {
  }
  if (waitpid(child, status, WNOHANG) != 0) return false;
  kill(child, SIGKILL);
  waitpid(child, status, 0);
  return true;
}

static void read_words(int argc, char **argv) {
  if (argc < 5) {
    fprintf(stderr, "runner CORE TICK_NANOSECONDS HORIZON LIMIT_SECONDS [handlers]\n");
    exit(2);
  }
  core = atoi(argv[1]);
  run->tick = atoll(argv[2]);
  run->horizon = atoll(argv[3]);
  limit = atoi(argv[4]);
  handlers_in_waits = argc > 5 && strcmp(argv[5], "handlers") == 0;
}

int main(int argc, char **argv) {
  run = mmap(NULL, sizeof *run, PROT_READ | PROT_WRITE, MAP_SHARED | MAP_ANONYMOUS, -1, 0);
  must(run != MAP_FAILED, "mmap");
  memset(run->owner, 0xff, sizeof run->owner);
  read_words(argc, argv);
  read_script();
  make_objects();
  sigset_t ends;
  sigemptyset(&ends);
  sigaddset(&ends, SIGCHLD);
  sigprocmask(SIG_BLOCK, &ends, NULL);
  pid_t watcher = getpid();
  pid_t child = fork();
  must(child >= 0, "fork");
  if (child == 0) {
    prctl(PR_SET_PDEATHSIG, SIGKILL);
    if (getppid() != watcher) _exit(6);
    run_script();
  }
  int status = 0;
  bool out_of_time = is_out_of_time(child, &ends, &status);
  print_log(status, out_of_time, now());
  return 0;
}
