/* The flat script is read from standard input, and its objects are made. */
#include "runner.h"

#include <fcntl.h>
#include <stdio.h>
#include <stdlib.h>
#include <string.h>
#include <unistd.h>

typedef struct {
  int64_t protocol, ceiling, recursive; /* the protocol: 0 none, 1 inherit, 2 protect */
} MutexKind;
typedef struct {
  int64_t depth, nonblock;
} QueueKind;
typedef struct {
  int64_t signal, value;
} TimerKind;

static MutexKind mutex_kinds[MAX_OBJECTS];
static int64_t sem_values[MAX_OBJECTS];
static QueueKind queue_kinds[MAX_OBJECTS];
static TimerKind timer_kinds[MAX_OBJECTS];

void must(bool holds, const char *what) {
  if (holds) return;
  perror(what);
  exit(7);
}

static int64_t next_number(void) {
  long long number;
  if (scanf("%lld", &number) != 1) {
    fprintf(stderr, "the flat script ends early\n");
    exit(8);
  }
  return number;
}

static void read_threads(void) {
  for (int number = 0; number < thread_count; number++) {
    Thread *thread = &threads[number];
    thread->number = number;
    thread->round_robin = (int)next_number();
    thread->priority = (int)next_number();
    thread->start = next_number();
    thread->body = next_number();
    thread->slot = -1;
  }
}

static void read_kinds(void) {
  for (int k = 0; k < mutex_count; k++) {
    mutex_kinds[k].protocol = next_number();
    mutex_kinds[k].ceiling = next_number();
    mutex_kinds[k].recursive = next_number();
  }
  for (int k = 0; k < sem_count; k++) sem_values[k] = next_number();
  for (int k = 0; k < queue_count; k++) {
    queue_kinds[k].depth = next_number();
    queue_greatest[k] = next_number();
    queue_kinds[k].nonblock = next_number();
  }
  for (int k = 0; k < timer_count; k++) {
    timer_kinds[k].signal = next_number();
    timer_kinds[k].value = next_number();
  }
}

/* Counts, then threads, bodies, objects, actions and code, in the order in which flatten.py writes them. */
void read_script(void) {
  int *counts[] = {&thread_count, &body_count, &mutex_count, &cond_count, &sem_count, &queue_count, &timer_count};
  for (size_t k = 0; k < sizeof counts / sizeof *counts; k++) *counts[k] = (int)next_number();
  read_threads();
  body_start = calloc((size_t)body_count + 1, sizeof *body_start);
  for (int k = 0; k < body_count; k++) body_start[k] = next_number();
  read_kinds();
  for (int signal = 0; signal < SIGNALS; signal++) actions[signal] = (int)next_number();
  int64_t length = next_number();
  code = calloc((size_t)length, sizeof *code);
  for (int64_t place = 0; place < length; place++)
    for (int word = 0; word < OPERATION_WORDS; word++) code[place][word] = next_number();
}

static void make_mutex(int number) {
  const MutexKind *kind = &mutex_kinds[number];
  const int protocols[] = {PTHREAD_PRIO_NONE, PTHREAD_PRIO_INHERIT, PTHREAD_PRIO_PROTECT};
  pthread_mutexattr_t attributes;
  pthread_mutexattr_init(&attributes);
  pthread_mutexattr_settype(&attributes, kind->recursive ? PTHREAD_MUTEX_RECURSIVE : PTHREAD_MUTEX_ERRORCHECK);
  pthread_mutexattr_setprotocol(&attributes, protocols[kind->protocol]);
  if (kind->protocol == 2) pthread_mutexattr_setprioceiling(&attributes, (int)kind->ceiling);
  errno = pthread_mutex_init(&mutexes[number], &attributes);
  must(errno == 0, "pthread_mutex_init");
}

/* The objects that a process inherits over a fork. */
void make_objects(void) {
  for (int k = 0; k < mutex_count; k++) make_mutex(k);
  for (int k = 0; k < cond_count; k++) {
    pthread_condattr_t attributes;
    pthread_condattr_init(&attributes);
    pthread_condattr_setclock(&attributes, CLOCK_MONOTONIC);
    pthread_cond_init(&conds[k], &attributes);
  }
  for (int k = 0; k < sem_count; k++) sem_init(&sems[k], 0, (unsigned)sem_values[k]);
}

/* Those that belong to the process that makes them. A queue loses its name at once, so that nothing is left of it. */
void make_own_objects(void) {
  for (int k = 0; k < queue_count; k++) {
    char name[64];
    snprintf(name, sizeof name, "/pse52-live.%d.%d", (int)getpid(), k);
    struct mq_attr attributes = {.mq_maxmsg = queue_kinds[k].depth, .mq_msgsize = (long)queue_bytes(k)};
    int flags = O_CREAT | O_EXCL | O_RDWR | (queue_kinds[k].nonblock ? O_NONBLOCK : 0);
    queues[k] = mq_open(name, flags, 0600, &attributes);
    must(queues[k] != (mqd_t)-1, "mq_open");
    mq_unlink(name);
  }
  for (int k = 0; k < timer_count; k++) {
    struct sigevent event;
    memset(&event, 0, sizeof event);
    event.sigev_notify = SIGEV_SIGNAL;
    event.sigev_signo = SIGRTMIN + (int)timer_kinds[k].signal;
    event.sigev_value.sival_ptr = (void *)(intptr_t)timer_kinds[k].value;
    must(timer_create(CLOCK_MONOTONIC, &event, &timers[k]) == 0, "timer_create");
  }
}
