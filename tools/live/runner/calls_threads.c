/* The calls on threads. What POSIX leaves undefined, a thread that has not begun or was joined, the runner answers by itself. */
#include "runner.h"

#include <sched.h>

static bool lives(int64_t thread) { return threads[thread].state == LIVE; }

Answer call_yield(Thread *me, Frame *frame, const int64_t *operands) {
  (void)me, (void)frame, (void)operands;
  return answer_by_errno(sched_yield());
}

Answer call_create(Thread *me, Frame *frame, const int64_t *operands) {
  (void)frame;
  Thread *created = &threads[operands[0]];
  if (created->state != DORMANT) return answer_of(EAGAIN);
  created->state = LIVE;
  created->mask = me->in_handler ? UINT32_MAX : me->mask;
  created->start = -1;
  return answer_of(create_thread(created));
}

Answer call_join(Thread *me, Frame *frame, const int64_t *operands) {
  (void)frame;
  Thread *other = &threads[operands[0]];
  if (other->state == DORMANT) return answer_of(ESRCH);
  if (other->joined) return answer_of(EINVAL);
  hold_back_handlers(me);
  void *value = NULL;
  int result = pthread_join(other->handle, &value);
  if (result != 0) return answer_of(result);
  other->joined = true;
  return (Answer){0, value == PTHREAD_CANCELED ? CANCELLED_VALUE : (int64_t)(intptr_t)value};
}

Answer call_cancel(Thread *me, Frame *frame, const int64_t *operands) {
  (void)me, (void)frame;
  return answer_of(lives(operands[0]) ? pthread_cancel(threads[operands[0]].handle) : ESRCH);
}

Answer call_testcancel(Thread *me, Frame *frame, const int64_t *operands) {
  (void)me, (void)frame, (void)operands;
  pthread_testcancel();
  return answer_of(0);
}

Answer call_setcancel(Thread *me, Frame *frame, const int64_t *operands) {
  (void)me, (void)frame;
  return answer_of(pthread_setcancelstate(operands[0] ? PTHREAD_CANCEL_ENABLE : PTHREAD_CANCEL_DISABLE, NULL));
}

/* What these two do is the body's affair: see bodies.c. */
Answer call_push(Thread *me, Frame *frame, const int64_t *operands) {
  (void)me, (void)frame, (void)operands;
  return answer_of(0);
}

Answer call_pop(Thread *me, Frame *frame, const int64_t *operands) {
  (void)me, (void)frame, (void)operands;
  return answer_of(0);
}

Answer call_exit(Thread *me, Frame *frame, const int64_t *operands) {
  me->blocked_in = 0;
  me->exiting = true;
  pthread_exit((void *)(intptr_t)number_of(frame, operands));
}

Answer call_setprio(Thread *me, Frame *frame, const int64_t *operands) {
  (void)me, (void)frame;
  return answer_of(lives(operands[0]) ? pthread_setschedprio(threads[operands[0]].handle, (int)operands[1]) : ESRCH);
}

Answer call_setsched(Thread *me, Frame *frame, const int64_t *operands) {
  (void)me, (void)frame;
  struct sched_param parameters = {.sched_priority = (int)operands[2]};
  int policy = operands[1] ? SCHED_RR : SCHED_FIFO;
  return answer_of(lives(operands[0]) ? pthread_setschedparam(threads[operands[0]].handle, policy, &parameters) : ESRCH);
}
