/* The calls on time, timers and signals. */
#include "runner.h"

#include <unistd.h>

/* The rounded number of ticks in a span. */
static int64_t ticks_in(struct timespec span) {
  return (span.tv_sec * INT64_C(1000000000) + span.tv_nsec + run->tick / 2) / run->tick;
}

/* The span from now to the timeout `ticks` after this instant; none where that is now. */
static struct timespec span_of(const Thread *me, int64_t ticks) {
  return time_of(ticks == 0 ? 0 : timeout_time(me, tick_of(now()) + capped(ticks)) - now());
}

Answer call_nanosleep(Thread *me, Frame *frame, const int64_t *operands) {
  (void)frame;
  struct timespec span = span_of(me, operands[0]), left;
  Answer answer = answer_by_errno(nanosleep(&span, &left));
  if (answer.result == EINTR) answer.value = ticks_in(left);
  return answer;
}

Answer call_clock_nanosleep(Thread *me, Frame *frame, const int64_t *operands) {
  struct timespec until = time_of(time_out_of(me, number_of(frame, operands)));
  return answer_of(clock_nanosleep(CLOCK_MONOTONIC, TIMER_ABSTIME, &until, NULL));
}

Answer call_gettime(Thread *me, Frame *frame, const int64_t *operands) {
  (void)me, (void)frame, (void)operands;
  return (Answer){0, tick_of(now())};
}

/* The operands: the timer, whether the time is absolute, the time, and the interval. */
Answer call_timer_settime(Thread *me, Frame *frame, const int64_t *operands) {
  (void)me;
  int timer = (int)operands[0];
  bool absolute = operands[1] != 0;
  int64_t first = number_of(frame, operands + 2), interval = operands[4], tick = tick_of(now());
  int64_t at = !absolute ? tick + capped(first) : first <= tick && interval == 0 ? tick : capped(first);
  int64_t due = expiry_time(timer, at);
  struct itimerspec setting = {time_of(capped(interval) * run->tick), time_of(first == 0 ? 0 : absolute ? due : due - now())};
  return answer_by_errno(timer_settime(timers[timer], absolute ? TIMER_ABSTIME : 0, &setting, NULL));
}

Answer call_timer_gettime(Thread *me, Frame *frame, const int64_t *operands) {
  (void)me, (void)frame;
  struct itimerspec setting;
  Answer answer = answer_by_errno(timer_gettime(timers[operands[0]], &setting));
  answer.value = ticks_in(setting.it_value);
  return answer;
}

Answer call_timer_getoverrun(Thread *me, Frame *frame, const int64_t *operands) {
  (void)me, (void)frame;
  int overrun = timer_getoverrun(timers[operands[0]]);
  return overrun < 0 ? answer_by_errno(overrun) : (Answer){0, overrun};
}

Answer call_kill(Thread *me, Frame *frame, const int64_t *operands) {
  (void)me, (void)frame;
  return answer_by_errno(kill(getpid(), SIGRTMIN + (int)operands[0]));
}

Answer call_tkill(Thread *me, Frame *frame, const int64_t *operands) {
  (void)me, (void)frame;
  Thread *other = &threads[operands[0]];
  return answer_of(other->state == LIVE ? pthread_kill(other->handle, SIGRTMIN + (int)operands[1]) : ESRCH);
}

Answer call_sigqueue(Thread *me, Frame *frame, const int64_t *operands) {
  (void)me;
  union sigval value = {.sival_ptr = (void *)(intptr_t)number_of(frame, operands + 1)};
  return answer_by_errno(sigqueue(getpid(), SIGRTMIN + (int)operands[0], value));
}

/* The operands: 0 to block, 1 to unblock, 2 to set, and the set. */
Answer call_sigmask(Thread *me, Frame *frame, const int64_t *operands) {
  (void)frame;
  uint32_t set = (uint32_t)operands[1];
  me->mask = operands[0] == 0 ? me->mask | set : operands[0] == 1 ? me->mask & ~set : set;
  sigset_t mask = set_of(me->mask);
  return answer_of(pthread_sigmask(SIG_SETMASK, &mask, NULL));
}

/* A signal that was accepted is told before the return. */
static Answer accepted(Thread *me, int signal, const siginfo_t *info) {
  if (signal < 0) return answer_of(errno);
  tell_delivery(me, info);
  return (Answer){0, signal - SIGRTMIN};
}

Answer call_sigwaitinfo(Thread *me, Frame *frame, const int64_t *operands) {
  (void)frame;
  siginfo_t info;
  sigset_t set = set_of((uint32_t)operands[0]);
  return accepted(me, sigwaitinfo(&set, &info), &info);
}

Answer call_sigtimedwait(Thread *me, Frame *frame, const int64_t *operands) {
  (void)frame;
  siginfo_t info;
  sigset_t set = set_of((uint32_t)operands[0]);
  struct timespec span = span_of(me, operands[1]);
  return accepted(me, sigtimedwait(&set, &info, &span), &info);
}
