/* Bodies: a thread goes through the flat code of its own, of its cleanup handlers and of its signal handlers; its start and its end. */
#define _GNU_SOURCE /* pthread_attr_setsigmask_np */
#include "runner.h"

#include <fcntl.h>
#include <sched.h>
#include <string.h>

#define CALL_ENTRY(word) call_##word,
static const CallFunction functions[] = {CALLS(CALL_ENTRY)};

/* An operand is two words: whether it is the register, and else its number. */
int64_t number_of(const Frame *frame, const int64_t *operand) { return operand[0] ? frame->reg : operand[1]; }

Answer answer_of(int result) { return (Answer){result, 0}; }

Answer answer_by_errno(int returned) { return (Answer){returned == 0 ? 0 : errno, 0}; }

static void give(Thread *me, Frame *frame, int call, Answer answer) {
  me->blocked_in = 0;
  frame->result = answer.result;
  frame->value = answer.value;
  if (me->slot < 0) {
    tell(me->number, KIND_RETURN, call, answer.result, answer.value);
    return;
  }
  run->events[me->slot].result = answer.result;
  run->events[me->slot].value = answer.value;
  me->slot = -1;
}

/* A call takes a tick, and its effect comes at the end of that. */
static void make_call(Thread *me, Frame *frame, int call, const int64_t *operands) {
  burn(me, 1);
  tell(me->number, KIND_CALLED, call, 0, 0);
  me->slot = -1;
  me->blocked_in = call + 1;
  give(me, frame, call, functions[call](me, frame, operands));
  let_handlers_in(me);
}

static void begin_ending(Thread *me) {
  me->blocked_in = 0;
  me->slot = -1;
  if (!me->ending && !me->exiting) tell(me->number, KIND_CANCEL, 0, 0, 0);
  me->ending = true;
  let_handlers_in(me);
}

/* A cleanup handler that was pushed. */
typedef struct {
  Thread *thread;
  int64_t body;
  bool popped;
} Cleanup;

static void run_cleanup(void *argument) {
  Cleanup *cleanup = argument;
  if (!cleanup->popped) begin_ending(cleanup->thread);
  Frame frame;
  memset(&frame, 0, sizeof frame);
  carry_out(cleanup->thread, &frame, cleanup->body);
}

/* The block between a push and its pop. */
static void __attribute__((noinline)) carry_out_guarded(Thread *me, Frame *frame, int64_t place, int64_t body, int runs) {
  Cleanup cleanup = {me, body_start[body], false};
  pthread_cleanup_push(run_cleanup, &cleanup);
  carry_out(me, frame, place);
  make_call(me, frame, CALL_pop, NULL);
  cleanup.popped = true;
  pthread_cleanup_pop(runs);
}

static int64_t at_most(int64_t value) { return value > REGISTER_LIMIT ? REGISTER_LIMIT : value; }

/* Whether a loop has another pass, which is then begun. */
static bool passes_again(Frame *frame, int64_t loop) {
  return frame->passes[loop] < 0 || --frame->passes[loop] > 0;
}

/* From a place of the code to the end of its body, or of its guarded block. */
void carry_out(Thread *me, Frame *frame, int64_t place) {
  for (;;) {
    const int64_t *operation = code[place++];
    switch (operation[0]) {
      case STEP_RUN: burn(me, operation[1]); break;
      case STEP_CALL: make_call(me, frame, (int)operation[1], operation + 2); break;
      case STEP_SET: frame->reg = at_most(operation[1]); break;
      case STEP_ADD: frame->reg = at_most(frame->reg + operation[1]); break;
      case STEP_TAKE: frame->reg = at_most(frame->value); break;
      case STEP_TEST:
        if ((frame->result == operation[1]) != operation[2]) place = operation[3];
        break;
      case STEP_LOOP: frame->passes[operation[1]] = operation[2]; break;
      case STEP_JUMP:
        if (passes_again(frame, operation[1])) {
          burn(me, 1);
          place = operation[2];
        }
        break;
      case STEP_PUSH:
        make_call(me, frame, CALL_push, NULL);
        carry_out_guarded(me, frame, place, operation[1], (int)operation[3]);
        place = operation[2] + 1;
        break;
      case STEP_POP: return;
      case STEP_FINISH: burn(me, 1); return;
    }
  }
}

static void tell_end(Thread *me) {
  mask_all();
  tell(me->number, KIND_EXIT, 0, 0, 0);
  me->state = ENDED;
}

/* The last thing of a thread that exits or was cancelled: the end of its body takes a tick. */
static void end_early(void *argument) {
  Thread *me = argument;
  begin_ending(me);
  burn(me, 1);
  tell_end(me);
}

/* A thread begins with all signals masked, and takes none before it has run. */
static void *thread_main(void *argument) {
  Thread *me = argument;
  self = me;
  pthread_setcancelstate(PTHREAD_CANCEL_DISABLE, NULL);
  me->stat = open("/proc/thread-self/stat", O_RDONLY | O_CLOEXEC);
  if (me->start >= 0)
    while (sem_wait(&me->go)) {
    }
  tell(me->number, KIND_START, 0, 0, 0);
  Frame frame;
  memset(&frame, 0, sizeof frame);
  pthread_cleanup_push(end_early, me);
  pthread_setcancelstate(PTHREAD_CANCEL_ENABLE, NULL);
  mask_as_script(me);
  carry_out(me, &frame, me->body);
  mask_all();
  pthread_cleanup_pop(0);
  tell_end(me);
  return NULL;
}

/* Creates one thread, with the policy and the priority that it was declared with; the answer is that of pthread_create. */
int create_thread(Thread *thread) {
  pthread_attr_t attributes;
  struct sched_param parameters = {.sched_priority = thread->priority};
  sigset_t all = all_signals();
  pthread_attr_init(&attributes);
  pthread_attr_setstacksize(&attributes, 256 * 1024);
  pthread_attr_setinheritsched(&attributes, PTHREAD_EXPLICIT_SCHED);
  pthread_attr_setschedpolicy(&attributes, thread->round_robin ? SCHED_RR : SCHED_FIFO);
  pthread_attr_setschedparam(&attributes, &parameters);
  pthread_attr_setsigmask_np(&attributes, &all);
  int result = pthread_create(&thread->handle, &attributes, thread_main, thread);
  pthread_attr_destroy(&attributes);
  return result;
}

/* The threads that start at a tick are there before instant 0, and wait until they are let go. */
void create_threads(void) {
  for (int number = 0; number < thread_count; number++) {
    Thread *thread = &threads[number];
    if (thread->start < 0) continue;
    sem_init(&thread->go, 0, 0);
    errno = create_thread(thread);
    must(errno == 0, "pthread_create");
  }
}
