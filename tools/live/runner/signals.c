/* Signals: what each does, masks, and handlers.
 *
 * A handler is held back while its thread waits for a mutex, a condition or the end of a thread, as in the simulated machine, unless
 * `handlers_in_waits` says that they run there, as this machine's kernel has it. A signal without an action ends the process there too.
 */
#include "runner.h"

#include <string.h>

/* The set of these signals, by their bits. */
sigset_t set_of(uint32_t signals) {
  sigset_t set;
  sigemptyset(&set);
  for (int signal = 0; signal < SIGNALS; signal++)
    if (signals >> signal & 1) sigaddset(&set, SIGRTMIN + signal);
  return set;
}

sigset_t all_signals(void) { return set_of(UINT32_MAX); }

static void set_mask(uint32_t signals) {
  sigset_t set = set_of(signals);
  pthread_sigmask(SIG_SETMASK, &set, NULL);
}

void mask_all(void) { set_mask(UINT32_MAX); }

void mask_as_script(Thread *me) {
  me->holds_back = false;
  set_mask(me->mask);
}

void hold_back_handlers(Thread *me) {
  if (me->in_handler || handlers_in_waits) return;
  uint32_t signals = me->mask;
  for (int signal = 0; signal < SIGNALS; signal++)
    if (actions[signal] != ACTION_KILL) signals |= UINT32_C(1) << signal;
  set_mask(signals);
  me->holds_back = true;
}

void let_handlers_in(Thread *me) {
  if (me->holds_back) mask_as_script(me);
}

/* Whether a call waits on after a handler has run in it. */
static bool waits_on(int call) {
  return call == CALL_lock || call == CALL_timedlock || call == CALL_wait || call == CALL_timedwait || call == CALL_join;
}

/* A handler runs. It may end a call that waits: then its return is told now although its answer is seen later. */
static void on_signal(int signal, siginfo_t *info, void *context) {
  (void)context;
  Thread *me = self;
  int saved = errno, waiting_in = me->blocked_in != 0 && waits_on(me->blocked_in - 1) ? me->blocked_in : 0;
  if (me->blocked_in && !waiting_in) me->slot = tell(me->number, KIND_RETURN, me->blocked_in - 1, UNSEEN, 0);
  me->blocked_in = 0;
  tell_delivery(me, info);
  int slot = me->slot;
  bool holds_back = me->holds_back;
  Frame frame;
  memset(&frame, 0, sizeof frame);
  int64_t value = info->si_code == SI_USER || info->si_code == SI_TKILL ? 0 : (int64_t)(intptr_t)info->si_value.sival_ptr;
  frame.reg = frame.value = value > REGISTER_LIMIT ? REGISTER_LIMIT : value;
  me->in_handler++;
  carry_out(me, &frame, body_start[actions[signal - SIGRTMIN]]);
  me->in_handler--;
  me->handled++;
  me->holds_back = holds_back;
  me->blocked_in = waiting_in;
  me->slot = slot;
  errno = saved;
}

void set_actions(void) {
  for (int signal = 0; signal < SIGNALS; signal++) {
    struct sigaction action;
    memset(&action, 0, sizeof action);
    sigfillset(&action.sa_mask);
    action.sa_flags = SA_SIGINFO;
    if (actions[signal] >= 0)
      action.sa_sigaction = on_signal;
    else
      action.sa_handler = actions[signal] == ACTION_IGNORE ? SIG_IGN : SIG_DFL;
    sigaction(SIGRTMIN + signal, &action, NULL);
  }
}
