/* The calls on mutexes, conditions and semaphores. */
#define _GNU_SOURCE /* sem_clockwait */
#include "runner.h"

Answer call_lock(Thread *me, Frame *frame, const int64_t *operands) {
  (void)frame;
  hold_back_handlers(me);
  return answer_of(pthread_mutex_lock(&mutexes[operands[0]]));
}

/* Its timeout is of CLOCK_REALTIME. */
Answer call_timedlock(Thread *me, Frame *frame, const int64_t *operands) {
  struct timespec until = time_of(time_out_of(me, number_of(frame, operands + 1)) + realtime_offset);
  hold_back_handlers(me);
  return answer_of(pthread_mutex_timedlock(&mutexes[operands[0]], &until));
}

Answer call_trylock(Thread *me, Frame *frame, const int64_t *operands) {
  (void)me, (void)frame;
  return answer_of(pthread_mutex_trylock(&mutexes[operands[0]]));
}

Answer call_unlock(Thread *me, Frame *frame, const int64_t *operands) {
  (void)me, (void)frame;
  return answer_of(pthread_mutex_unlock(&mutexes[operands[0]]));
}

Answer call_wait(Thread *me, Frame *frame, const int64_t *operands) {
  (void)frame;
  hold_back_handlers(me);
  return answer_of(pthread_cond_wait(&conds[operands[0]], &mutexes[operands[1]]));
}

Answer call_timedwait(Thread *me, Frame *frame, const int64_t *operands) {
  struct timespec until = time_of(time_out_of(me, number_of(frame, operands + 2)));
  hold_back_handlers(me);
  return answer_of(pthread_cond_timedwait(&conds[operands[0]], &mutexes[operands[1]], &until));
}

Answer call_signal(Thread *me, Frame *frame, const int64_t *operands) {
  (void)me, (void)frame;
  return answer_of(pthread_cond_signal(&conds[operands[0]]));
}

Answer call_broadcast(Thread *me, Frame *frame, const int64_t *operands) {
  (void)me, (void)frame;
  return answer_of(pthread_cond_broadcast(&conds[operands[0]]));
}

Answer call_sem_wait(Thread *me, Frame *frame, const int64_t *operands) {
  (void)me, (void)frame;
  return answer_by_errno(sem_wait(&sems[operands[0]]));
}

Answer call_sem_timedwait(Thread *me, Frame *frame, const int64_t *operands) {
  struct timespec until = time_of(time_out_of(me, number_of(frame, operands + 1)));
  return answer_by_errno(sem_clockwait(&sems[operands[0]], CLOCK_MONOTONIC, &until));
}

Answer call_sem_trywait(Thread *me, Frame *frame, const int64_t *operands) {
  (void)me, (void)frame;
  return answer_by_errno(sem_trywait(&sems[operands[0]]));
}

Answer call_sem_getvalue(Thread *me, Frame *frame, const int64_t *operands) {
  (void)me, (void)frame;
  int value = 0;
  Answer answer = answer_by_errno(sem_getvalue(&sems[operands[0]], &value));
  answer.value = value;
  return answer;
}

Answer call_sem_post(Thread *me, Frame *frame, const int64_t *operands) {
  (void)me, (void)frame;
  return answer_by_errno(sem_post(&sems[operands[0]]));
}
