/* The log: events as they come, and at the end their lines.
 *
 *     TICK PHASE THREAD KIND WORDS..      an event, PHASE its distance from the grid point in parts of a tick
 *     owners THREAD..                     of each tick who ran it, or -1
 *     priorities PRIORITY..               and at which priority
 *     ticks THREAD TICKS PROCESSOR        PROCESSOR by the thread's clock, in ticks
 *     noise clashes N gaps N late N latest PART
 */
#include "runner.h"

#include <stdio.h>
#include <stdlib.h>
#include <sys/wait.h>
#include <unistd.h>

#define CALL_TEXT(word) #word,
static const char *call_texts[] = {CALLS(CALL_TEXT)};
static const char *kind_texts[] = {"start", "called", "return", "deliver", "cancel", "exit"};

/* Adds an event; the answer is its place. */
int tell(int thread, int kind, int call, int result, int64_t value) {
  int place = atomic_fetch_add(&run->count, 1);
  if (place >= MAX_EVENTS) _exit(9);
  Event *event = &run->events[place];
  event->time = now();
  event->thread = thread;
  event->kind = kind;
  event->call = call;
  event->result = result;
  event->value = value;
  return place;
}

/* A signal is delivered to this thread, or accepted by it. */
void tell_delivery(Thread *me, const siginfo_t *info) {
  bool has_value = info->si_code != SI_USER && info->si_code != SI_TKILL;
  int place = tell(me->number, KIND_DELIVER, 0, 0, has_value ? (int64_t)(intptr_t)info->si_value.sival_ptr : 0);
  run->events[place].signal = info->si_signo - SIGRTMIN;
  run->events[place].code = info->si_code;
}

static const char *result_text(int result) {
  switch (result) {
    case 0: return "0";
    case EAGAIN: return "EAGAIN";
    case EBUSY: return "EBUSY";
    case EDEADLK: return "EDEADLK";
    case EINTR: return "EINTR";
    case EINVAL: return "EINVAL";
    case EMSGSIZE: return "EMSGSIZE";
    case EOVERFLOW: return "EOVERFLOW";
    case EPERM: return "EPERM";
    case ESRCH: return "ESRCH";
    case ETIMEDOUT: return "ETIMEDOUT";
    case UNSEEN: return "UNSEEN";
    default: return NULL;
  }
}

static const char *code_text(int signal_code) {
  switch (signal_code) {
    case SI_USER:
    case SI_TKILL: return "USER";
    case SI_QUEUE: return "QUEUE";
    case SI_TIMER: return "TIMER";
    case SI_MESGQ: return "MESGQ";
    default: return "OTHER";
  }
}

static void print_event(const Event *event) {
  int64_t tick = tick_of(event->time);
  double phase = (double)(event->time - grid(tick)) / (double)run->tick;
  printf("%lld %.3f %d %s", (long long)tick, phase, event->thread, kind_texts[event->kind]);
  if (event->kind == KIND_RETURN || event->kind == KIND_CALLED) printf(" %s", call_texts[event->call]);
  if (event->kind == KIND_RETURN) {
    const char *text = result_text(event->result);
    if (text != NULL) printf(" %s %lld", text, (long long)event->value);
    else printf(" errno%d %lld", event->result, (long long)event->value);
  }
  if (event->kind == KIND_DELIVER) printf(" rt%d %s %lld", event->signal, code_text(event->code), (long long)event->value);
  printf("\n");
}

static void print_end(int status, bool out_of_time, int64_t end) {
  if (out_of_time)
    printf("timeout\n");
  else if (WIFSIGNALED(status) && WTERMSIG(status) >= SIGRTMIN)
    printf("%lld 0 -1 killed rt%d\n", (long long)tick_of(end), WTERMSIG(status) - SIGRTMIN);
  else if (WIFSIGNALED(status))
    printf("died of signal %d at %lld\n", WTERMSIG(status), (long long)tick_of(end));
  else if (!run->done)
    printf("ended early with status %d\n", WEXITSTATUS(status));
}

static void print_ticks(const char *word, const int *of_ticks) {
  printf("%s", word);
  for (int64_t tick = 0; tick < run->horizon && tick < MAX_TICKS; tick++) printf(" %d", of_ticks[tick]);
  printf("\n");
}

/* All that is known after the child has ended with this status, at about this time. */
void print_log(int status, bool out_of_time, int64_t end) {
  int count = run->count < MAX_EVENTS ? run->count : MAX_EVENTS;
  for (int place = 0; place < count; place++) print_event(&run->events[place]);
  print_end(status, out_of_time, end);
  print_ticks("owners", run->owner);
  print_ticks("priorities", run->priority);
  for (int number = 0; number < thread_count; number++)
    printf("ticks %d %lld %.3f\n", number, (long long)run->ticks[number], (double)run->processor[number] / (double)run->tick);
  printf("noise clashes %d gaps %d late %d latest %.3f\n", run->clashes, run->gaps, run->late,
         (double)run->latest / (double)run->tick);
}
